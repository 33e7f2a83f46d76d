package program

import (
	"bufio"
	"bytes"
	"encoding/json"
	"reflect"
	"strings"
	"testing"
	"time"
	"unicode/utf8"

	"github.com/prometheus/common/model"
)

// What is written of an alert is JSON of one line, and is read as the same alert. It is refused just if it has a text that
// isn't UTF-8, or a moment out of range.
func FuzzAnAlertIsReadAsItWasWritten(f *testing.F) {
	first, last := time.Time{}, noEnd
	f.Add("alertname", "DiskFull", "/dev/sda is full", "http://example.com/?a=\"b\"", int64(1700000000), int64(1700003600), uint32(7), true)
	f.Add("", "", "", "", first.Unix(), first.Unix(), uint32(0), false)
	f.Add("\"\\/\b\f\n\r\t", "\x00\x1f\x7f\u2028\u2029", "\U0001F600\ufeff", "\\u0041", first.Unix(), last.Unix(), uint32(1), false)
	f.Add("語", "значение", "]}\n", `{"line":2,"answers":0}`, int64(0), last.Unix(), uint32(999_999_999), true)
	f.Add("a", "\xff", "b", "c", int64(0), int64(0), uint32(0), false)
	f.Add("a", "b", "c", "d", first.Unix()-1, last.Unix()+1, uint32(0), false)
	f.Fuzz(func(t *testing.T, name, value, text, url string, from, to int64, nanosecond uint32, hasTimedOut bool) {
		start, end := moment(from, nanosecond), moment(to, nanosecond)
		alert := &Alert{
			Alert: model.Alert{
				Labels:      labelsOf(name, value, text),
				Annotations: model.LabelSet{model.LabelName(name): model.LabelValue(text)},
				StartsAt:    start, EndsAt: end, GeneratorURL: url,
			},
			UpdatedAt: start, Timeout: hasTimedOut,
		}
		isText := utf8.ValidString(name) && utf8.ValidString(value) && utf8.ValidString(text) && utf8.ValidString(url)
		isInRange := !start.Before(first) && !end.Before(first) && !start.After(last) && !end.After(last)
		written, begun, ended, err := appendAlert(nil, alert)
		if isRight := isText && isInRange; isRight != (err == nil) {
			t.Fatalf("%q was written of %#v: %v", written, alert, err)
		}
		if err != nil {
			if len(written) > 0 {
				t.Errorf("%q was written of %#v: %v", written, alert, err)
			}
			return
		}
		labels, want := map[string]string{}, map[string]string{name: value}
		want["other"] = text
		if err := json.Unmarshal(written[begun:ended], &labels); err != nil || !reflect.DeepEqual(labels, want) {
			t.Errorf("%q has the labels %q where %q are wanted: %v", written, labels, want, err)
		}
		if !json.Valid(written) || bytes.IndexByte(written, '\n') >= 0 {
			t.Errorf("%q is no JSON of one line", written)
		}
		line := append(append([]byte(`{"line":2,"answer":"alert","alert":`), written...), "}\n"...)
		read, err := parseAnswer(line)
		untime(alert) // the moments that stand for none
		if err != nil || read.word != "alert" || !reflect.DeepEqual(read.alert, alert) {
			t.Errorf("%#v came of %#v, %v", read.alert, alert, err)
		}
	})
}

// labelsOf is a label of this name, unless that is "other", and one of that name.
func labelsOf(name, value, other string) model.LabelSet {
	labels := model.LabelSet{model.LabelName(name): model.LabelValue(value)}
	labels["other"] = model.LabelValue(other)
	return labels
}

// moment is a moment in UTC.
func moment(seconds int64, nanosecond uint32) time.Time {
	return time.Unix(seconds, int64(nanosecond%1_000_000_000)).UTC()
}

// Whatever bytes a program prints, they are read or refused.
func FuzzAnyBytesAreReadOrRefused(f *testing.F) {
	whole := `{"labels":{"a":"b"},"annotations":{"c":"\u00e9\ud83d\ude00\n"},"startsAt":"2024-02-29T23:59:58.000000007Z",` +
		`"endsAt":"9999-12-30T22:00:00.999999999Z","updatedAt":"2024-02-29T23:59:58Z","timeout":true,"generatorURL":"d"}`
	for _, text := range []string{
		`{"line":2,"answer":"alert","alert":` + whole + "}\n" + `{"line":2,"answers":1}` + "\n" + `{"line":3,"answers":0}` + "\n",
		`{"line":2,"answer":"post","valid":1,"place":0}` + "\n" + `{"line":2,"answer":"invalid","index":0,"fault":"E10 NoLabels"}` + "\n",
		`{"line":2,"answer":"page","alerts":1,"from":0,"stored":9,"after":[[{}],null,false]}` + "\n" + `{"line":2,"answers":1}` + "\n",
		`{"line":2,"answer":"subscribe","lane":0,"opening":99999999999999999999}` + "\n",
		`{"line":99999999999999999999,"answers":99999999999999999999}` + "\n",
		`{"answer":"refused","do":"config","fault":"E5 NotJson"}` + "\n", `{"answer":"end"` + "\n",
		`{"line":2,"answer":"alert","alert":{"startsAt":"0000-99-99T99:99:99.` + "\n",
		`{"line":2,"answers":0}` + "\n" + `{"line":3,"answers":0}` + "\n" + `{"line":3,"answer":"kept","index":0,"from":0,"count":1}` + "\n" +
			`{"line":3,"sub":"s","answer":"as_put","from":0,"count":1}` + "\n",
		`{"line":3,"answer":"kept","index":-1,"from":99999999999999999999,"count":99999999999999999999}` + "\n",
		`{"line":2,"answer":"as_put","from":0,"count":1}` + "\n", `{"line":2,"sub":"` + "\n", `{"line":2,"sub":"s","answer":"as_put","from":` + "\n",
		`{"line":2,"answer":"\ud800\u12` + "\n", `{"line":2,"answer":[[[` + "\n", "\n", "",
	} {
		f.Add([]byte(text))
	}
	f.Fuzz(func(t *testing.T, text []byte) {
		put := &line{alerts: []written{{alert: &Alert{}}}}
		calls := []*call{{done: make(chan struct{})}, {done: make(chan struct{}), request: request{put: put}}}
		p := &process{
			child: newChild("program", nil), readers: &readers{},
			waiting: map[int]*call{firstLine: calls[0], firstLine + 1: calls[1]},
		}
		_ = p.readAnswers(bufio.NewReaderSize(bytes.NewReader(text), 16))
		for _, it := range calls {
			_, _ = answersOf(it)
		}
		_, _ = answersOf(&call{answers: text})
		if _, kind := headOf(text); kind == isClosing {
			closingCount(text)
		}
	})
}

// Objects and lists within others end at a depth, before they take all of the stack.
func TestAnAnswerThatIsTooDeep(t *testing.T) {
	for _, level := range []string{`[`, `{"a":`, `[{"a":`} {
		line := []byte(`{"line":2,"answer":"none","deep":` + strings.Repeat(level, 1<<24) + "\n")
		if _, err := parseAnswer(line); err == nil {
			t.Errorf("%s: it was read", level)
		}
	}
}

// An answer that no program gives isn't taken for one.
func TestAnswersThatAreFalse(t *testing.T) {
	for _, printed := range []string{
		`"subscribe","lane":0,"opening":9223372036854775807`,
		`"item"`,
	} {
		path := writeProgram(t, `read a; for ((n = 2; ; n++)); do read -r line || exit 0
			printf '{"line":%d,"answer":%s}\n{"line":%d,"answers":1}\n' $n '`+printed+`' $n; done`)
		a, err := begun(t.Name(), Options{Program: path})
		if err != nil {
			t.Fatal(err)
		}
		h := a.current.Load()
		if _, err := h.readers.subscribe("reader"); err == nil || !strings.Contains(err.Error(), "a subscribe was answered by") {
			t.Errorf("subscribe: %v", err)
		}
		if got, err := h.get(`{"a":"b"}`); err == nil {
			t.Errorf("get: %v", got)
		}
		a.Close()
	}
}
