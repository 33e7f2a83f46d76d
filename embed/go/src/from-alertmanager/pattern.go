package main

import (
	"regexp"
	"regexp/syntax"
	"strings"
	"unicode"
	"unicode/utf16"
)

// Escapes and classes that Go and the crate `regex` read alike, and what may be read otherwise if it isn't in one of them.
var (
	alike     = regexp.MustCompile(`\\[\\.+*?()|\[\]{}^$]|\[\^?(?:\w(?:-\w)?)+\]`)
	otherwise = regexp.MustCompile(`\\|\[|\{|\(\?`)
)

// pattern is a matcher's value with which the replay program finds what Go finds with this one: each puts it between ^(?:
// and )$. A value that both read alike stays as it is.
func pattern(value string) string {
	// That of match_re is between them already, which says nothing if it is a pattern without them.
	inside := strings.TrimSuffix(strings.TrimPrefix(value, "^(?:"), ")$")
	if _, err := syntax.Parse(inside, syntax.Perl); err == nil {
		value = inside
	}
	if !otherwise.MatchString(alike.ReplaceAllString(value, "")) {
		return value
	}
	if read, err := syntax.Parse(value, syntax.Perl); err == nil {
		return printed(read)
	}
	// It closes the parenthesis before it, so that what is found may be a part.
	if read, err := syntax.Parse("^(?:"+value+")$", syntax.Perl); err == nil {
		return `(?s:.*)(?:` + printed(read) + `)(?s:.*)`
	}
	return value
}

// printed is a pattern in the form of Go's package, with the boundaries of ASCII words in that of `regex`.
func printed(read *syntax.Regexp) string {
	simplify(read)
	return strings.NewReplacer(`\\`, `\\`, `\b`, `(?-u:\b)`).Replace(read.String())
}

// simplify takes from a pattern what `regex` may refuse and no text needs: names of groups, and surrogates in classes.
func simplify(read *syntax.Regexp) {
	read.Name = ""
	if read.Op == syntax.OpCharClass {
		read.Rune = withoutSurrogates(read.Rune)
	}
	for _, below := range read.Sub {
		simplify(below)
	}
}

// withoutSurrogates moves the ends of a class's ranges out of the surrogates, or those of its gaps if these are printed.
func withoutSurrogates(class []rune) (found []rune) {
	ends, by, last := class, rune(0), len(class)-1
	if isByGaps := last > 1 && class[0] == 0 && class[last] == unicode.MaxRune; isByGaps {
		ends, by = class[1:last], 1
		found = append(found, 0)
		defer func() { found = append(found, unicode.MaxRune) }()
	}
	for at := 0; at+1 < len(ends); at += 2 {
		low, high := ends[at]+by, ends[at+1]-by
		if utf16.IsSurrogate(low) {
			low = 0xE000
		}
		if utf16.IsSurrogate(high) {
			high = 0xD7FF
		}
		if low <= high {
			found = append(found, low-by, high+by)
		}
	}
	return found
}
