package program

import (
	"errors"
	"fmt"
	"reflect"
	"strings"
	"syscall"
	"testing"
	"time"

	"github.com/prometheus/common/model"
)

// putErrors are the errors of a put that didn't store all.
func putErrors(t *testing.T, err error) *PutErrors {
	t.Helper()
	var failed *PutErrors
	if !errors.As(err, &failed) {
		t.Fatalf("no PutErrors, but %v", err)
	}
	return failed
}

func TestAPutErrorSaysWhichAlertAndWhy(t *testing.T) {
	a := startPlain(t)
	now := time.Now()
	for fault, c := range map[string]struct {
		alert *Alert
		code  string
		is    error
	}{
		"isn't UTF-8":        {alertOf(model.LabelSet{"a": "\xff"}, now, now), "", ErrText},
		"out of range":       {alertOf(model.LabelSet{"a": "b"}, now, time.Date(10000, 1, 1, 0, 0, 0, 0, time.UTC)), "", ErrMoment},
		"bytes":              {alertOf(model.LabelSet{"a": model.LabelValue(strings.Repeat("\x01", 2<<20))}, now, now), "", ErrTooLarge},
		"E11 EndBeforeStart": {alertOf(model.LabelSet{"a": "b"}, now, now.Add(-1)), "E11", nil},
	} {
		err := fmt.Errorf("in a caller: %w", a.Put(firing(0), firing(1), c.alert, firing(2)))
		var failed *PutError
		if !errors.As(err, &failed) || len(putErrors(t, err).Alerts) != 1 {
			t.Fatalf("%s: no PutError, but %.200v", fault, err)
		}
		if failed.Index != 2 || failed.Fingerprint != c.alert.Fingerprint() || failed.Code != c.code || !strings.Contains(failed.Text, fault) {
			t.Errorf("%s: %.200v", fault, failed)
		}
		if c.is != nil && (!errors.Is(err, c.is) || !errors.Is(failed, c.is)) || errors.Is(err, ErrFull) || errors.Is(err, ErrDied) {
			t.Errorf("%s: it is another error: %.200v", fault, err)
		}
	}
}

// Each line of a put has an alert that isn't stored, and so have some before them: all are in the error, in their order.
func TestTheFaultsOfAllLinesAreInTheError(t *testing.T) {
	a := startPlain(t)
	alerts := firings(0, 3*mostAlerts)
	want := []int{0, mostAlerts - 1, mostAlerts, 2*mostAlerts + 7}
	for _, at := range want {
		alerts[at].EndsAt = alerts[at].StartsAt.Add(-1)
	}
	unwritable := 2*mostAlerts + 1
	alerts[unwritable].GeneratorURL = "\xff"
	want = []int{want[0], want[1], want[2], unwritable, want[3]}
	var got []int
	failed := putErrors(t, a.Put(alerts...))
	for _, it := range failed.Alerts {
		got = append(got, it.Index)
		if it.Fingerprint != alerts[it.Index].Fingerprint() {
			t.Errorf("%d has the fingerprint of another one", it.Index)
		}
	}
	if !reflect.DeepEqual(got, want) || len(failed.Others) != 0 {
		t.Errorf("%v where %v is wanted, and %v", got, want, failed.Others)
	}
	if stored := len(pending(t, a)); stored != len(alerts)-len(want) {
		t.Errorf("%d are stored", stored)
	}
}

func TestAPutThatAFullLogRefuses(t *testing.T) {
	a := startWith(t, Options{Places: 1, Refuse: true})
	defer a.Subscribe().Close()
	var err error
	for at := 0; err == nil && at < 100_000; at += 1000 {
		err = a.Put(firings(at, at+1000)...)
	}
	failed := putErrors(t, err)
	if !errors.Is(err, ErrFull) || errors.Is(err, ErrNoMemory) || len(failed.Alerts) != 1000 {
		t.Fatalf("%d of 1000: %.200v", len(failed.Alerts), err)
	}
	for at, it := range failed.Alerts {
		if it.Index != at || it.Code != "E13" || !strings.Contains(it.Text, "its reader is "+t.Name()) {
			t.Errorf("%d: %v", at, it)
		}
	}
	if text := err.Error(); len(text) > 300 || !strings.Contains(text, "1000 alerts from ") {
		t.Errorf("%d bytes: %.500s", len(text), text)
	}
}

// The first line of a put has an invalid alert, the second one is refused, and after it the program ends.
const failsInThirdLine = `read a; read b
	printf '{"line":2,"answer":"route"}\n{"line":2,"answers":1}\n'
	read c; printf '{"line":3,"answer":"post","valid":1023}\n{"line":3,"answer":"invalid","index":5,"fault":"E10 NoLabels"}\n{"line":3,"answers":2}\n'
	read d; printf '{"line":4,"answer":"refused","do":"put","fault":"E0 NoMemory"}\n{"line":4,"answers":1}\n'
	read e; exit 3`

func TestAProgramThatDiesInAPutLosesNoEarlierFault(t *testing.T) {
	a, err := begun(t.Name(), Options{Program: writeProgram(t, failsInThirdLine)})
	if err != nil {
		t.Fatal(err)
	}
	defer a.Close()
	err = a.Put(firings(0, 3*mostAlerts)...)
	failed := putErrors(t, err)
	if len(failed.Alerts) != 1+mostAlerts || failed.Alerts[0].Index != 5 || failed.Alerts[1].Index != mostAlerts {
		t.Errorf("%d alerts, of which the first are %v", len(failed.Alerts), failed.Alerts[:2])
	}
	if !errors.Is(err, ErrNoMemory) || !errors.Is(err, ErrDied) || errors.Is(err, ErrFull) || len(failed.Others) != 1 {
		t.Errorf("%v", err)
	}
	if text := err.Error(); !strings.Contains(text, "E10 NoLabels") || !strings.Contains(text, "exit status 3") {
		t.Errorf("%s", text)
	}
}

func TestWhyThereIsNoProgramIsFound(t *testing.T) {
	_, err := begun(t.Name(), Options{Program: "/nowhere/program"})
	if !errors.Is(err, ErrDied) || !errors.Is(err, syscall.ENOENT) {
		t.Errorf("%v", err)
	}
	closed := startPlain(t)
	closed.Close()
	_, gets := closed.Get(firing(0).Fingerprint())
	_, lists := closed.Stored()
	for _, err := range []error{closed.Err(), closed.Put(firing(0)), gets, lists, closed.Collect(time.Now())} {
		if !errors.Is(err, ErrClosed) || errors.Is(err, ErrDied) {
			t.Errorf("%v", err)
		}
	}
}

// A call that the program has no memory for says so.
func TestACallThatIsRefused(t *testing.T) {
	a, err := begun(t.Name(), Options{Program: writeProgram(t, `read a
		for ((n = 2; ; n++)); do
			read -r line || exit 0
			echo "{\"line\":$n,\"answer\":\"refused\",\"fault\":\"E0 NoMemory\"}"
			echo "{\"line\":$n,\"answers\":1}"
		done`)})
	if err != nil {
		t.Fatal(err)
	}
	defer a.Close()
	_, lists := a.Stored()
	_, gets := a.current.Load().get(`{"a":"b"}`)
	for _, err := range []error{a.Put(firing(0)), gets, lists, a.Collect(time.Now())} {
		if !errors.Is(err, ErrNoMemory) || errors.Is(err, ErrFull) || errors.Is(err, ErrDied) {
			t.Errorf("%v", err)
		}
	}
}

// refusesOne is a callback that puts an end before the start of one alert.
type refusesOne struct{ storesAll }

func (refusesOne) PreStore(alert *Alert, _ bool) error {
	if alert.Labels["n"] == "1" {
		alert.EndsAt = alert.StartsAt.Add(-1)
	}
	return nil
}

func TestAPutErrorWithACallbackHasTheIndexOfTheCall(t *testing.T) {
	w := &watched{name: t.Name()}
	var err error
	if w.Program, err = Start(Options{Program: programPath(t)}, w, refusesOne{}); err != nil {
		t.Fatal(err)
	}
	defer w.Close()
	failed := putErrors(t, w.Put(firings(0, 3)...))
	if len(failed.Alerts) != 1 || failed.Alerts[0].Index != 1 || failed.Alerts[0].Code != "E11" {
		t.Errorf("%v", failed)
	}
	if stored := len(pending(t, w)); stored != 2 {
		t.Errorf("%d are stored", stored)
	}
}
