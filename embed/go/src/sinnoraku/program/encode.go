// Lines are written by functions of this package, and answers read so: with encoding/json both take six times as long.

package program

import (
	"fmt"
	"sort"
	"strconv"
	"time"
	"unicode/utf8"

	"github.com/prometheus/common/model"
)

// The lines that have no members but names and numbers.
var (
	getStored = []byte(`{"do":"stored"}` + "\n")
	getRoutes = []byte(`{"do":"routes"}` + "\n")
)

func subscribeLine(name string) []byte {
	return []byte(`{"do":"subscribe","sub":"` + name + `"}` + "\n")
}

func readLineOf(name string, most int) []byte {
	return []byte(`{"do":"read","sub":"` + name + `","max":` + strconv.Itoa(most) + "}\n")
}

func leaveLine(name string) []byte {
	return []byte(`{"do":"leave","sub":"` + name + `"}` + "\n")
}

func getLine(labels string) []byte {
	return []byte(`{"do":"get","labels":` + labels + "}\n")
}

func pageLine(from, most int) []byte {
	return []byte(`{"do":"stored","from":` + strconv.Itoa(from) + `,"max":` + strconv.Itoa(most) + "}\n")
}

func takeLine(now time.Time) []byte {
	line := appendMoment([]byte(`{"do":"take","at":`), now)
	return append(line, "}\n"...)
}

// appendPutHead begins the line of a put at a moment. Its alerts follow, and then putEnd.
func appendPutHead(line []byte, now time.Time) []byte {
	line = append(line, `{"do":"put","at":`...)
	line = appendMoment(line, now)
	return append(line, `,"alerts":[`...)
}

const putEnd = "]}\n"

// Moments that stand for none.
var (
	// The program's last moment stands for an end that isn't there, since Alertmanager says of it that it never comes.
	noEnd = time.Date(9999, 12, 30, 22, 0, 0, 999_999_999, time.UTC)
	// The moment after Go's zero time stands for a start or an update that isn't there. It is before all others.
	noStart = time.Time{}.Add(1)
)

// timed is the alert with each moment that isn't there replaced by the one that stands for it.
func timed(alert *Alert) Alert {
	it := *alert
	if it.StartsAt.IsZero() {
		it.StartsAt = noStart
	}
	if it.EndsAt.IsZero() {
		it.EndsAt = noEnd
	}
	if it.UpdatedAt.IsZero() {
		it.UpdatedAt = noStart
	}
	return it
}

// untime undoes what timed did.
func untime(alert *Alert) {
	if alert.StartsAt.Equal(noStart) {
		alert.StartsAt = time.Time{}
	}
	if alert.EndsAt.Equal(noEnd) {
		alert.EndsAt = time.Time{}
	}
	if alert.UpdatedAt.Equal(noStart) {
		alert.UpdatedAt = time.Time{}
	}
}

// appendAlert writes an alert, and says where in the line its labels begin and end. If it can't be written, the line is
// as it was.
func appendAlert(line []byte, alert *Alert) (_ []byte, from, to int, err error) {
	it, begun := timed(alert), len(line)
	if err := checkMoments(&it); err != nil {
		return line, begun, begun, err
	}
	line, to, err = appendParts(append(line, `{"labels":`...), &it)
	if err != nil {
		return line[:begun], begun, begun, err
	}
	return line, begun + len(`{"labels":`), to, nil
}

// appendParts writes an alert from its labels on, and says where these end.
func appendParts(line []byte, alert *Alert) (_ []byte, to int, err error) {
	if line, err = appendLabels(line, alert.Labels); err != nil {
		return line, 0, err
	}
	to = len(line)
	if len(alert.Annotations) > 0 {
		line = append(line, `,"annotations":`...)
		if line, err = appendLabels(line, alert.Annotations); err != nil {
			return line, 0, err
		}
	}
	line = append(line, `,"startsAt":`...)
	line = appendMoment(line, alert.StartsAt)
	line = append(line, `,"endsAt":`...)
	line = appendMoment(line, alert.EndsAt)
	line = append(line, `,"updatedAt":`...)
	line = appendMoment(line, alert.UpdatedAt)
	if alert.Timeout {
		line = append(line, `,"timeout":true`...)
	}
	if alert.GeneratorURL != "" {
		line = append(line, `,"generatorURL":`...)
		if line, err = appendText(line, alert.GeneratorURL); err != nil {
			return line, 0, err
		}
	}
	return append(line, '}'), to, nil
}

// checkMoments says which moment can't be written, if one can't.
func checkMoments(alert *Alert) error {
	for _, moment := range [...]time.Time{alert.StartsAt, alert.EndsAt, alert.UpdatedAt} {
		if moment.Before(noStart) || moment.After(noEnd) {
			return fmt.Errorf("%w: %v", ErrMoment, moment)
		}
	}
	return nil
}

// A pair is a label or an annotation.
type pair struct{ name, value string }

// fewLabels is how many pairs are put in order without asking for memory.
const fewLabels = 16

// appendLabels writes an object of texts, the names in byte order: so written, the program reads them without a detour.
func appendLabels(line []byte, labels model.LabelSet) ([]byte, error) {
	if len(labels) > fewLabels {
		return appendManyLabels(line, labels)
	}
	var room [fewLabels]pair
	pairs := room[:0]
	for name, value := range labels {
		pairs = append(pairs, pair{string(name), string(value)})
	}
	for next := 1; next < len(pairs); next++ {
		for at := next; at > 0 && pairs[at].name < pairs[at-1].name; at-- {
			pairs[at], pairs[at-1] = pairs[at-1], pairs[at]
		}
	}
	return appendPairs(line, pairs)
}

func appendManyLabels(line []byte, labels model.LabelSet) ([]byte, error) {
	pairs := make([]pair, 0, len(labels))
	for name, value := range labels {
		pairs = append(pairs, pair{string(name), string(value)})
	}
	sort.Slice(pairs, func(i, j int) bool { return pairs[i].name < pairs[j].name })
	return appendPairs(line, pairs)
}

func appendPairs(line []byte, pairs []pair) (_ []byte, err error) {
	line = append(line, '{')
	for at, it := range pairs {
		if at > 0 {
			line = append(line, ',')
		}
		if line, err = appendText(line, it.name); err != nil {
			return line, err
		}
		if line, err = appendText(append(line, ':'), it.value); err != nil {
			return line, err
		}
	}
	return append(line, '}'), nil
}

// appendText writes a text as JSON has it: quotes, backslashes and control characters are escaped. One that isn't valid
// UTF-8 can't be written.
func appendText(line []byte, text string) ([]byte, error) {
	line = append(line, '"')
	switch {
	case isPlain(text):
		line = append(line, text...)
	case utf8.ValidString(text):
		line = appendEscaped(line, text)
	default:
		return line, fmt.Errorf("%w: %q", ErrText, text)
	}
	return append(line, '"'), nil
}

// isPlain is whether a text is ASCII without quotes, backslashes and control characters, which JSON has as it is. It looks
// at eight bytes at a time.
func isPlain(text string) bool {
	const each, tops = 0x01_01_01_01_01_01_01_01, 0x80_80_80_80_80_80_80_80
	for ; len(text) >= 8; text = text[8:] {
		word := uint64(text[0]) | uint64(text[1])<<8 | uint64(text[2])<<16 | uint64(text[3])<<24 |
			uint64(text[4])<<32 | uint64(text[5])<<40 | uint64(text[6])<<48 | uint64(text[7])<<56
		// A byte's top bit is set in one of these if it isn't ASCII, is below a space, or is a quote or a backslash.
		if (word|(word-each*' ')|((word^each*'"')-each)|((word^each*'\\')-each))&tops != 0 {
			return false
		}
	}
	for at := 0; at < len(text); at++ {
		if it := text[at]; it < ' ' || it == '"' || it == '\\' || it >= utf8.RuneSelf {
			return false
		}
	}
	return true
}

func appendEscaped(line []byte, text string) []byte {
	const digits = "0123456789abcdef"
	from := 0
	for at := 0; at < len(text); at++ {
		it := text[at]
		if it >= ' ' && it != '"' && it != '\\' {
			continue
		}
		line = append(line, text[from:at]...)
		if it >= ' ' {
			line = append(line, '\\', it)
		} else {
			line = append(line, '\\', 'u', '0', '0', digits[it>>4], digits[it&15])
		}
		from = at + 1
	}
	return append(line, text[from:]...)
}

// appendMoment writes a moment in UTC, with as many digits of a second as it has.
func appendMoment(line []byte, moment time.Time) []byte {
	moment = moment.UTC()
	year, month, day := moment.Date()
	hour, minute, second := moment.Clock()
	line = append(line, '"')
	line = appendDigits(line, year, 4)
	line = append(line, '-')
	line = appendDigits(line, int(month), 2)
	line = append(line, '-')
	line = appendDigits(line, day, 2)
	line = append(line, 'T')
	line = appendDigits(line, hour, 2)
	line = append(line, ':')
	line = appendDigits(line, minute, 2)
	line = append(line, ':')
	line = appendDigits(line, second, 2)
	if nanoseconds := moment.Nanosecond(); nanoseconds > 0 {
		line = append(line, '.')
		line = appendDigits(line, nanoseconds, 9)
	}
	return append(line, 'Z', '"')
}

func appendDigits(line []byte, number, digits int) []byte {
	var room [9]byte
	for at := digits - 1; at >= 0; at-- {
		room[at] = byte('0' + number%10)
		number /= 10
	}
	return append(line, room[:digits]...)
}
