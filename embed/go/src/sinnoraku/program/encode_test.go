package program

import (
	"encoding/json"
	"errors"
	"strings"
	"testing"
)

// Texts are looked at eight bytes at a time: each kind of byte stands at each place of such a word, and after the last.
func TestATextIsReadAsItWasWritten(t *testing.T) {
	for length := 0; length < 20; length++ {
		for at := 0; at <= length; at++ {
			for _, it := range []string{"", "\x00", "\x1f", " ", "!", `"`, "#", "[", `\`, "]", "\x7f", "é", "\U0001F525"} {
				text := strings.Repeat("a", at) + it + strings.Repeat("z", length-at)
				written, err := appendText(nil, text)
				var read string
				if err != nil || json.Unmarshal(written, &read) != nil || read != text {
					t.Fatalf("%q was written as %q, %v, and read as %q", text, written, err, read)
				}
			}
			for _, it := range []string{"\x80", "\xff", "\xc3", "\xed\xa0\x80"} {
				text := strings.Repeat("a", at) + it + strings.Repeat("z", length-at)
				if written, err := appendText(nil, text); !errors.Is(err, ErrText) {
					t.Fatalf("%q was written as %q, %v", text, written, err)
				}
			}
		}
	}
}
