package program

import (
	"bytes"
	"fmt"
	"strconv"
	"strings"
	"time"
	"unicode/utf16"
	"unicode/utf8"

	"github.com/prometheus/common/model"
)

// What a printed line is.
type kind int

const (
	isNone    kind = iota
	isAnswer       // one answer of a line
	isClosing      // what follows a line's answers: how many there are
	isKept         // where alerts of a put went
	isCame         // what came for a subscription after a line
	isFirst        // a refusal of the configuration
	isLast         // the counts at the end
)

var (
	lineHead    = []byte(`{"line":`)
	answerHead  = []byte(`,"answer":`)
	closingHead = []byte(`,"answers":`)
	keptHead    = []byte(`,"answer":"kept","index":`)
	cameHead    = []byte(`,"sub":"`)
	asPutHead   = []byte(`,"answer":"as_put","from":`)
	fromHead    = []byte(`,"from":`)
	countHead   = []byte(`,"count":`)
	takeHead    = []byte(`,"answer":"take",`)
	collectHead = []byte(`,"answer":"collect",`)
	endHead     = []byte(`{"answer":"end"`)
	refusedHead = []byte(`{"answer":"refused"`)
)

// headOf says what a printed line is, and to which line of the input it belongs.
func headOf(text []byte) (number int, _ kind) {
	switch {
	case bytes.HasPrefix(text, endHead):
		return 0, isLast
	case bytes.HasPrefix(text, refusedHead):
		return 0, isFirst
	case !bytes.HasPrefix(text, lineHead):
		return 0, isNone
	}
	number, rest := leadingNumber(text[len(lineHead):])
	switch {
	case bytes.HasPrefix(rest, keptHead):
		return number, isKept
	case bytes.HasPrefix(rest, answerHead):
		return number, isAnswer
	case bytes.HasPrefix(rest, closingHead):
		return number, isClosing
	case bytes.HasPrefix(rest, cameHead):
		return number, isCame
	}
	return 0, isNone
}

// Places are some that follow one another.
type places struct{ from, count int }

// are says whether they are places of a table of that length.
func (p places) are(length int) bool {
	return 0 <= p.from && p.from <= length && 0 < p.count && p.count <= length-p.from
}

// placesOf reads which places an object shows alerts by, if it does. What comes before is cut off.
func placesOf(text []byte) (shown places, isAsPut bool) {
	if !bytes.HasPrefix(text, asPutHead) {
		return places{}, false
	}
	shown, _ = leadingPlaces(text[len(asPutHead):])
	return shown, true
}

// leadingPlaces reads the first of some places, and how many they are.
func leadingPlaces(text []byte) (read places, isRead bool) {
	read.from, text = leadingNumber(text)
	if !bytes.HasPrefix(text, countHead) {
		return read, false
	}
	read.count, _ = leadingNumber(text[len(countHead):])
	return read, true
}

// keptOf reads the first alert of a put whose place it is, and the places of it and those that follow.
func keptOf(text []byte) (index int, kept places) {
	_, rest := leadingNumber(text[len(lineHead):])
	index, rest = leadingNumber(rest[len(keptHead):])
	if bytes.HasPrefix(rest, fromHead) {
		kept, _ = leadingPlaces(rest[len(fromHead):])
	}
	return index, kept
}

// cameOf is the subscription that something came for, and what that is.
func cameOf(text []byte) (name string, what []byte) {
	_, rest := leadingNumber(text[len(lineHead):])
	rest = rest[len(cameHead):]
	if end := bytes.IndexByte(rest, '"'); end >= 0 {
		return string(rest[:end]), rest[end+1:]
	}
	return "", nil
}

// closingCount is how many answers the closing object of a line announces.
func closingCount(text []byte) int {
	_, rest := leadingNumber(text[len(lineHead):])
	count, _ := leadingNumber(rest[len(closingHead):])
	return count
}

func leadingNumber(text []byte) (number int, rest []byte) {
	at := 0
	for at < len(text) && '0' <= text[at] && text[at] <= '9' {
		number = number*10 + int(text[at]-'0')
		at++
	}
	return number, text[at:]
}

// An answer is one printed object. Members that it hasn't are zero.
type answer struct {
	word     string // what kind of answer it is
	do       string // the refused command
	fault    string
	index    int
	lane     int
	opening  int
	removed  int
	stored   int // of a page: how many alerts are stored in all
	hasPlace bool
	alert    *Alert
}

// answersOf reads the answers of a call. An object that shows alerts by their places is an answer for each.
func answersOf(it *call) ([]answer, error) {
	found := make([]answer, 0, it.count)
	known := it.known
	for rest := it.answers; len(rest) > 0; {
		end := bytes.IndexByte(rest, '\n') + 1
		line := rest[:end]
		rest = rest[end:]
		if shown, isAsPut := placesOf(afterNumber(line)); isAsPut {
			if shown.count > len(known) {
				return nil, fmt.Errorf("sinnoraku: an answer can't be read: %.200q", line)
			}
			for _, alert := range known[:shown.count] {
				found = append(found, answer{word: asPut, alert: alert})
			}
			known = known[shown.count:]
			continue
		}
		one, err := parseAnswer(line)
		if err != nil {
			return nil, err
		}
		found = append(found, one)
	}
	return found, nil
}

// asPut is the word of an answer whose alert is as a put gave it.
const asPut = "as_put"

// afterNumber is an object without the number of its line; nothing, if it has none.
func afterNumber(line []byte) []byte {
	if !bytes.HasPrefix(line, lineHead) {
		return nil
	}
	_, rest := leadingNumber(line[len(lineHead):])
	return rest
}

// parseAnswer reads one object. The texts of its alert share one copy of the line.
func parseAnswer(line []byte) (answer, error) {
	var found answer
	s := scanner{text: string(line)}
	s.object(func(name string) {
		switch name {
		case "answer":
			found.word = s.string()
		case "do":
			found.do = s.string()
		case "fault":
			found.fault = s.string()
		case "index":
			found.index = s.number()
		case "lane":
			found.lane = s.number()
		case "opening":
			found.opening = s.number()
		case "removed":
			found.removed = s.number()
		case "stored":
			found.stored = s.number()
		case "place":
			if found.hasPlace = !s.has("null"); found.hasPlace {
				s.number()
			}
		case "alert":
			found.alert = s.alert()
		default:
			s.skip()
		}
	})
	if s.failed {
		return answer{}, fmt.Errorf("sinnoraku: an answer can't be read: %.200q", line)
	}
	return found, nil
}

// A scanner reads the JSON that the program prints: compact, without white space.
type scanner struct {
	text   string
	at     int
	depth  int // how many objects and lists it is in
	failed bool
}

// What the program prints has four levels.
const mostDepth = 16

func (s *scanner) fail() { s.failed, s.at = true, len(s.text) }

// next is the next byte, and 0 at the end.
func (s *scanner) next() byte {
	if s.at == len(s.text) {
		return 0
	}
	return s.text[s.at]
}

func (s *scanner) takes(it byte) bool {
	if s.next() != it {
		return false
	}
	s.at++
	return true
}

func (s *scanner) wants(it byte) {
	if !s.takes(it) {
		s.fail()
	}
}

// has takes a word if it is there.
func (s *scanner) has(word string) bool {
	if !strings.HasPrefix(s.text[s.at:], word) {
		return false
	}
	s.at += len(word)
	return true
}

// deeper begins an object or a list, and says whether there may be another one within the others.
func (s *scanner) deeper() bool {
	if s.depth++; s.depth > mostDepth {
		s.fail()
	}
	return !s.failed
}

// object reads an object, whose members' values the given function reads.
func (s *scanner) object(value func(name string)) {
	s.wants('{')
	if s.takes('}') || !s.deeper() {
		return
	}
	defer func() { s.depth-- }()
	for !s.failed {
		name := s.string()
		s.wants(':')
		value(name)
		if s.takes('}') {
			return
		}
		s.wants(',')
	}
}

func (s *scanner) number() int {
	from := s.at
	for s.at < len(s.text) && '0' <= s.text[s.at] && s.text[s.at] <= '9' {
		s.at++
	}
	number, err := strconv.Atoi(s.text[from:s.at])
	if err != nil {
		s.fail()
	}
	return number
}

func (s *scanner) bool() bool {
	if s.has("true") {
		return true
	}
	if !s.has("false") {
		s.fail()
	}
	return false
}

// skip passes over a value.
func (s *scanner) skip() {
	switch it := s.next(); {
	case it == '"':
		s.string()
	case it == '{':
		s.object(func(string) { s.skip() })
	case it == '[':
		s.list()
	case s.has("null"), s.has("true"), s.has("false"):
	default:
		s.number()
	}
}

// list passes over a list.
func (s *scanner) list() {
	s.wants('[')
	if s.takes(']') || !s.deeper() {
		return
	}
	defer func() { s.depth-- }()
	for !s.failed {
		s.skip()
		if s.takes(']') {
			return
		}
		s.wants(',')
	}
}

// string reads a text. Without escapes it is a part of the line.
func (s *scanner) string() string {
	s.wants('"')
	from := s.at
	for s.at < len(s.text) {
		switch s.text[s.at] {
		case '"':
			s.at++
			return s.text[from : s.at-1]
		case '\\':
			return s.escaped(s.text[from:s.at])
		}
		s.at++
	}
	s.fail()
	return ""
}

// escaped reads the rest of a text, whose next byte begins an escape.
func (s *scanner) escaped(before string) string {
	var text strings.Builder
	text.WriteString(before)
	for s.at < len(s.text) {
		it := s.text[s.at]
		s.at++
		switch it {
		case '"':
			return text.String()
		case '\\':
			text.WriteRune(s.escape())
		default:
			text.WriteByte(it)
		}
	}
	s.fail()
	return ""
}

// escape reads what follows a backslash.
func (s *scanner) escape() rune {
	it := s.next()
	if it == 0 {
		s.fail()
		return utf8.RuneError
	}
	s.at++
	switch it {
	case '"', '\\', '/':
		return rune(it)
	case 'b':
		return '\b'
	case 'f':
		return '\f'
	case 'n':
		return '\n'
	case 'r':
		return '\r'
	case 't':
		return '\t'
	case 'u':
		first := s.unit()
		if utf16.IsSurrogate(first) && s.has(`\u`) {
			return utf16.DecodeRune(first, s.unit())
		}
		return first
	}
	s.fail()
	return utf8.RuneError
}

// unit reads the four digits of a \u escape.
func (s *scanner) unit() rune {
	if s.at+4 > len(s.text) {
		s.fail()
		return utf8.RuneError
	}
	unit, err := strconv.ParseUint(s.text[s.at:s.at+4], 16, 32)
	if err != nil {
		s.fail()
		return utf8.RuneError
	}
	s.at += 4
	return rune(unit)
}

func (s *scanner) alert() *Alert {
	alert := &Alert{}
	s.object(func(name string) {
		switch name {
		case "labels":
			alert.Labels = s.labels()
		case "annotations":
			alert.Annotations = s.labels()
		case "startsAt":
			alert.StartsAt = s.moment()
		case "endsAt":
			alert.EndsAt = s.moment()
		case "updatedAt":
			alert.UpdatedAt = s.moment()
		case "timeout":
			alert.Timeout = s.bool()
		case "generatorURL":
			alert.GeneratorURL = s.string()
		default:
			s.skip()
		}
	})
	untime(alert)
	return alert
}

func (s *scanner) labels() model.LabelSet {
	labels := model.LabelSet{}
	s.object(func(name string) { labels[model.LabelName(name)] = model.LabelValue(s.string()) })
	return labels
}

// moment reads a moment as the program prints it: in UTC, with or without nine digits of a second.
func (s *scanner) moment() time.Time {
	text := s.string()
	const whole = len("2006-01-02T15:04:05Z")
	year, rest := leadingDigits(text, 4, '-')
	month, rest := leadingDigits(rest, 2, '-')
	day, rest := leadingDigits(rest, 2, 'T')
	hour, rest := leadingDigits(rest, 2, ':')
	minute, rest := leadingDigits(rest, 2, ':')
	second, nanosecond := 0, 0
	if len(text) == whole {
		second, rest = leadingDigits(rest, 2, 'Z')
	} else {
		second, rest = leadingDigits(rest, 2, '.')
		nanosecond, rest = leadingDigits(rest, 9, 'Z')
	}
	if rest != "" || len(text) < whole {
		s.fail()
	}
	return time.Date(year, time.Month(month), day, hour, minute, second, nanosecond, time.UTC)
}

// leadingDigits reads that many digits and the byte that follows. If they aren't there, nothing is read.
func leadingDigits(text string, digits int, end byte) (number int, rest string) {
	if len(text) <= digits || text[digits] != end {
		return 0, text
	}
	for at := 0; at < digits; at++ {
		if text[at] < '0' || text[at] > '9' {
			return 0, text
		}
		number = number*10 + int(text[at]-'0')
	}
	return number, text[digits+1:]
}
