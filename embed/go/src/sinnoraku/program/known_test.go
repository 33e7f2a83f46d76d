package program

import (
	"bufio"
	"fmt"
	"reflect"
	"strings"
	"testing"
	"time"
)

// reported is an alert of a number that fires between two hours of a day.
func reported(number, from, to int) *Alert {
	day := time.Date(2030, 1, 1, 0, 0, 0, 0, time.UTC)
	it := firing(number)
	it.StartsAt, it.EndsAt = day.Add(time.Duration(from)*time.Hour), day.Add(time.Duration(to)*time.Hour)
	it.UpdatedAt = it.StartsAt
	return it
}

// forget has a collection remove nothing, so that the program shows nothing by its place.
func forget(t testing.TB, a *watched) {
	t.Helper()
	if err := a.Collect(time.Date(2000, 1, 1, 0, 0, 0, 0, time.UTC)); err != nil {
		t.Fatal(err)
	}
}

// shows compares what is stored, and what a new subscription and then a page show, with what is wanted.
func shows(t testing.TB, a *watched, want ...*Alert) {
	t.Helper()
	it := a.Subscribe()
	defer it.Close()
	for from, got := range map[string][]*Alert{"an opening": take(t, it, len(want)), "pages": pending(t, a)} {
		if !reflect.DeepEqual(got, want) {
			t.Errorf("%s: %v came where %v is wanted", from, got, want)
		}
	}
	for _, one := range want {
		if got, err := a.Get(one.Fingerprint()); err != nil || !reflect.DeepEqual(got, one) {
			t.Errorf("%v came where %v is wanted: %v", got, one, err)
		}
	}
}

func TestAnOpeningAfterReplacedAlerts(t *testing.T) {
	a := startPlain(t)
	put(t, a, reported(1, 1, 2), reported(2, 1, 2), reported(3, 1, 2))
	put(t, a, reported(2, 3, 4), reported(4, 1, 2), reported(2, 5, 6))
	want := []*Alert{reported(1, 1, 2), reported(2, 5, 6), reported(3, 1, 2), reported(4, 1, 2)}
	shows(t, a, want...)
	forget(t, a)
	shows(t, a, want...)
	put(t, a, reported(3, 1, 2))
	shows(t, a, want...)
}

func TestMergedAlertsComeWhole(t *testing.T) {
	a := startPlain(t)
	it := a.Subscribe()
	defer it.Close()
	put(t, a, reported(1, 1, 3), reported(2, 1, 3))
	put(t, a, reported(1, 2, 4), reported(2, 4, 5))
	merged := reported(1, 1, 4)
	merged.UpdatedAt = reported(1, 2, 4).UpdatedAt
	want := []*Alert{reported(1, 1, 3), reported(2, 1, 3), merged, reported(2, 4, 5)}
	if got := take(t, it, 4); !reflect.DeepEqual(got, want) {
		t.Errorf("%v came where %v is wanted", got, want)
	}
	shows(t, a, want[2:]...)
}

func TestAnOpeningAfterACollection(t *testing.T) {
	a := startPlain(t)
	put(t, a, reported(1, 1, 2), reported(2, 1, 9), reported(3, 1, 2), reported(4, 1, 9))
	if err := a.Collect(reported(0, 5, 6).StartsAt); err != nil {
		t.Fatal(err)
	}
	shows(t, a, reported(2, 1, 9), reported(4, 1, 9))
	put(t, a, reported(5, 6, 9), reported(4, 1, 9), reported(1, 6, 9))
	shows(t, a, reported(2, 1, 9), reported(4, 1, 9), reported(5, 6, 9), reported(1, 6, 9))
}

func TestNothingOfARefusedPutIsKnown(t *testing.T) {
	a := startPlain(t)
	put(t, a, reported(1, 1, 2))
	invalid, far := reported(1, 3, 2), reported(2, 1, 2)
	if err := a.Put(invalid, far); err == nil {
		t.Error("an alert that ends before it starts was stored")
	}
	shows(t, a, reported(1, 1, 2), far)
}

func TestReadersShareWhatAPutGave(t *testing.T) {
	a := startPlain(t)
	it := a.Subscribe()
	defer it.Close()
	put(t, a, firings(0, 3)...)
	came, stored := take(t, it, 3), pending(t, a)
	for at := range came {
		if came[at] != stored[at] {
			t.Errorf("%p and %p are shown of one alert", came[at], stored[at])
		}
	}
}

// A place that no put gave ends the program, and an alert that a put hasn't too.
func TestPlacesThatAreFalse(t *testing.T) {
	const posted = `{"line":2,"answer":"post","valid":2,"place":0}` + "\n" + `{"line":2,"answers":1}` + "\n"
	const kept = `{"line":2,"answer":"kept","index":0,"from":0,"count":2}` + "\n"
	two := []written{{alert: firing(0)}, {alert: firing(1)}}
	run := func(text string) error {
		calls := map[int]*call{
			firstLine:     {done: make(chan struct{}), request: request{put: &line{alerts: two}}},
			firstLine + 1: {done: make(chan struct{})},
			firstLine + 2: {done: make(chan struct{})},
		}
		p := &process{child: newChild("program", nil), readers: &readers{}, waiting: calls}
		return p.readAnswers(bufio.NewReader(strings.NewReader(text)))
	}
	taken := `{"line":3,"answer":"take","removed":0}` + "\n" + `{"line":3,"answers":1}` + "\n"
	for _, text := range []string{
		kept, posted + kept, posted + kept + `{"line":2,"sub":"s","answer":"as_put","from":1,"count":1}` + "\n",
		posted + kept + `{"line":3,"answer":"as_put","from":0,"count":2}` + "\n" + `{"line":3,"answers":2}` + "\n",
		posted + kept + taken,
	} {
		if err := run(text); (err == nil) != (text != kept) {
			t.Errorf("%s: %v", text, err)
		}
	}
	for _, last := range []string{
		`{"line":2,"answer":"kept","index":1,"from":2,"count":2}`, `{"line":2,"answer":"kept","index":0,"from":3,"count":1}`,
		`{"line":2,"answer":"kept","index":0,"from":0,"count":0}`, `{"line":2,"answer":"kept","index":9,"from":0,"count":1}`,
		`{"line":2,"answer":"kept","index":0,"from":0}`, `{"line":2,"answer":"kept","index":0}`,
		`{"line":3,"answer":"kept","index":0,"from":0,"count":1}`,
		`{"line":2,"sub":"s","answer":"as_put","from":1,"count":2}`, `{"line":2,"sub":"s","answer":"as_put","from":2,"count":1}`,
		`{"line":2,"sub":"s","answer":"as_put","from":0,"count":0}`, `{"line":3,"sub":"s","answer":"as_put","from":0,"count":1}`,
		`{"line":2,"sub":"s","answer":"as_put","from":0,"count":9223372036854775808}`,
		`{"line":3,"answer":"as_put","from":1,"count":2}`, `{"line":3,"answer":"as_put","from":0}`,
		`{"line":3,"answer":"as_put","from":9223372036854775807,"count":2}`,
		strings.TrimSpace(taken) + "\n" + `{"line":4,"answer":"as_put","from":0,"count":1}`,
		strings.Replace(strings.TrimSpace(taken), "take", "collect", 1) + "\n" + `{"line":3,"sub":"s","answer":"as_put","from":0,"count":1}`,
	} {
		if err := run(posted + kept + last + "\n"); err == nil || !strings.Contains(err.Error(), "printed") && !strings.Contains(err.Error(), "no put has") {
			t.Errorf("%s: %v", last, err)
		}
	}
	if _, err := answersOf(&call{answers: []byte(fmt.Sprintln(`{"line":3,"answer":"as_put","from":0,"count":1}`))}); err == nil {
		t.Error("a place was read of which no alert is known")
	}
}
