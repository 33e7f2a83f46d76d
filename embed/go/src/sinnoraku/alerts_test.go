package sinnoraku

import (
	"context"
	"errors"
	"fmt"
	"os"
	"path/filepath"
	"reflect"
	"strings"
	"sync"
	"syscall"
	"testing"
	"time"

	"github.com/go-kit/log"
	"github.com/prometheus/client_golang/prometheus"
	"github.com/prometheus/client_golang/prometheus/testutil"
	"github.com/prometheus/common/model"

	"github.com/prometheus/alertmanager/provider"
	"github.com/prometheus/alertmanager/store"
	"github.com/prometheus/alertmanager/types"
)

// programPath is the replay program that the tests run: SINNORAKU_PROGRAM, or the proved one of this checkout.
func programPath(t testing.TB) string {
	path := os.Getenv("SINNORAKU_PROGRAM")
	if path == "" {
		path = "../../../../crates/am_replay/out/am_replay"
	}
	if _, err := os.Stat(path); err != nil {
		t.Skip("there is no replay program: ./replay --prove builds it, or SINNORAKU_PROGRAM names one")
	}
	return path
}

func startWith(t testing.TB, intervalGC time.Duration, callback AlertStoreCallback, logger log.Logger, options Options) *Alerts {
	t.Helper()
	if options.Program == "" {
		options.Program = programPath(t)
	}
	marker := types.NewMarker(prometheus.NewRegistry())
	a, err := NewAlerts(context.Background(), marker, intervalGC, callback, logger, prometheus.NewRegistry(), options)
	if err != nil {
		t.Fatal(err)
	}
	t.Cleanup(a.Close)
	return a
}

func startPlain(t testing.TB) *Alerts {
	return startWith(t, time.Hour, nil, log.NewNopLogger(), Options{})
}

func alertOf(labels model.LabelSet, from, to time.Time) *types.Alert {
	return &types.Alert{
		Alert:     model.Alert{Labels: labels, Annotations: model.LabelSet{}, StartsAt: from.UTC(), EndsAt: to.UTC()},
		UpdatedAt: from.UTC(),
	}
}

// firing is an alert of a number that fires for an hour.
func firing(number int) *types.Alert {
	now := time.Now().Round(0)
	return alertOf(model.LabelSet{"alertname": "Test", "n": model.LabelValue(fmt.Sprint(number))}, now, now.Add(time.Hour))
}

func firings(from, to int) (alerts []*types.Alert) {
	for number := from; number < to; number++ {
		alerts = append(alerts, firing(number))
	}
	return alerts
}

func put(t testing.TB, a *Alerts, alerts ...*types.Alert) {
	t.Helper()
	if err := a.Put(alerts...); err != nil {
		t.Fatal(err)
	}
}

// take takes that many alerts of an iterator, and fails if they don't come.
func take(t testing.TB, it provider.AlertIterator, count int) (alerts []*types.Alert) {
	t.Helper()
	late := time.After(30 * time.Second)
	for len(alerts) < count {
		select {
		case alert, isOpen := <-it.Next():
			if !isOpen {
				t.Fatalf("the iterator ended after %d of %d alerts: %v", len(alerts), count, it.Err())
			}
			alerts = append(alerts, alert)
		case <-late:
			t.Fatalf("%d of %d alerts came", len(alerts), count)
		}
	}
	return alerts
}

func pending(t testing.TB, a *Alerts) (alerts []*types.Alert) {
	t.Helper()
	it := a.GetPending()
	defer it.Close()
	for alert := range it.Next() {
		alerts = append(alerts, alert)
	}
	if err := it.Err(); err != nil {
		t.Fatal(err)
	}
	return alerts
}

func waitUntil(t testing.TB, what string, holds func() bool) {
	t.Helper()
	for late := time.Now().Add(20 * time.Second); !holds(); time.Sleep(time.Millisecond) {
		if time.Now().After(late) {
			t.Fatalf("it never held that %s", what)
		}
	}
}

// A logKeeper keeps what is logged.
type logKeeper struct {
	mutex sync.Mutex
	lines []string
}

func (l *logKeeper) Log(pairs ...interface{}) error {
	l.mutex.Lock()
	defer l.mutex.Unlock()
	l.lines = append(l.lines, fmt.Sprintln(pairs...))
	return nil
}

// times is how often a text was logged.
func (l *logKeeper) times(text string) int {
	l.mutex.Lock()
	defer l.mutex.Unlock()
	return strings.Count(strings.Join(l.lines, ""), text)
}

func TestReportsAreMergedAsMergeDoes(t *testing.T) {
	a := startPlain(t)
	base := time.Now().Add(-time.Hour).Round(0)
	labels := model.LabelSet{"a": "b"}
	for at, c := range []struct {
		first, second *types.Alert
		overlap       bool
	}{
		{alertOf(labels, base, base.Add(2*time.Hour)), alertOf(labels, base.Add(time.Minute), base.Add(3*time.Hour)), true},
		{alertOf(labels, base, base.Add(4*time.Hour)), alertOf(labels, base.Add(time.Minute), base.Add(3*time.Hour)), true},
		{alertOf(labels, base, base.Add(time.Minute)), alertOf(labels, base.Add(time.Hour), base.Add(3*time.Hour)), false},
		{alertOf(labels, base, base.Add(4*time.Hour)), alertOf(labels, base.Add(time.Minute), base.Add(30*time.Minute)), true},
	} {
		c.first.Labels = model.LabelSet{"a": model.LabelValue(fmt.Sprint(at))}
		c.second.Labels = c.first.Labels
		put(t, a, c.first)
		put(t, a, c.second)
		want := c.second
		if c.overlap {
			want = c.first.Merge(c.second)
		}
		got, err := a.Get(want.Fingerprint())
		if err != nil || !reflect.DeepEqual(got, want) {
			t.Errorf("%d: %v where %v is wanted, %v", at, got, want, err)
		}
	}
}

// The error names who subscribed, also if the provider is embedded in another type.
func TestAFullLogNamesItsReader(t *testing.T) {
	a := startWith(t, time.Hour, nil, log.NewNopLogger(), Options{Places: 1, Refuse: true})
	defer provider.Alerts(struct{ *Alerts }{a}).Subscribe().Close()
	var err error
	for at := 0; err == nil && at < 100_000; at += 1000 {
		err = a.Put(firings(at, at+1000)...)
	}
	if err == nil || !strings.Contains(err.Error(), "E13 Full lane 0") ||
		!strings.Contains(err.Error(), "its reader is sinnoraku.TestAFullLogNamesItsReader)") {
		t.Errorf("%v", err)
	}
}

func TestACutReaderIsCountedAndNamed(t *testing.T) {
	logged := &logKeeper{}
	a := startWith(t, time.Hour, nil, logged, Options{Places: 1})
	it := a.Subscribe()
	for at := 0; at < 30_000; at += 1000 {
		put(t, a, firings(at, at+1000)...)
	}
	go func() {
		for range it.Next() {
		}
	}()
	waitUntil(t, "it is counted", func() bool { return testutil.ToFloat64(a.cuts) == 1 })
	waitUntil(t, "it is logged", func() bool { return logged.times("reader sinnoraku.TestACutReaderIsCountedAndNamed") == 1 })
	it.Close()
}

func TestStatesAreCounted(t *testing.T) {
	a := startPlain(t)
	put(t, a, firings(0, 3)...)
	a.marker.SetActiveOrSilenced(firing(0).Fingerprint(), 1, []string{"1"}, nil)
	a.marker.SetActiveOrSilenced(firing(1).Fingerprint(), 0, nil, nil)
	now := time.Now()
	put(t, a, alertOf(model.LabelSet{"resolved": "b"}, now.Add(-time.Hour), now.Add(-time.Minute)))
	want := map[types.AlertState]int{types.AlertStateSuppressed: 1, types.AlertStateActive: 1, types.AlertStateUnprocessed: 1}
	if got, err := a.countStates(); err != nil || !reflect.DeepEqual(got, want) {
		t.Errorf("%v, %v", got, err)
	}
	registry := prometheus.NewRegistry()
	registry.MustRegister(stateCollector{a})
	if found, err := registry.Gather(); err != nil || len(found) != 1 || len(found[0].Metric) != 3 {
		t.Errorf("%v, %v", found, err)
	}
}

func TestTheContextCloses(t *testing.T) {
	ctx, cancel := context.WithCancel(context.Background())
	marker := types.NewMarker(prometheus.NewRegistry())
	a, err := NewAlerts(ctx, marker, time.Hour, nil, log.NewNopLogger(), nil, Options{Program: programPath(t)})
	if err != nil {
		t.Fatal(err)
	}
	cancel()
	<-a.Done()
	if err := a.Put(firing(0)); err != ErrClosed {
		t.Errorf("Put: %v", err)
	}
}

// noted is a program that runs the replay program, and notes its process in a file.
func noted(t *testing.T) (path, file string) {
	path, file = filepath.Join(t.TempDir(), "program"), filepath.Join(t.TempDir(), "process")
	program, err := filepath.Abs(programPath(t))
	if err != nil {
		t.Fatal(err)
	}
	// While another process is forked it would hold this file open, and then the file can't be run.
	syscall.ForkLock.RLock()
	defer syscall.ForkLock.RUnlock()
	script := fmt.Sprintf("#!/bin/bash\necho $$ >%s\nexec %s \"$@\"\n", file, program)
	if err := os.WriteFile(path, []byte(script), 0o755); err != nil {
		t.Fatal(err)
	}
	return path, file
}

// signalProgram signals the process that a file names.
func signalProgram(t *testing.T, file string, it syscall.Signal) {
	t.Helper()
	text, err := os.ReadFile(file)
	if err != nil {
		t.Fatal(err)
	}
	var process int
	fmt.Sscan(string(text), &process)
	if err := syscall.Kill(process, it); err != nil {
		t.Fatal(err)
	}
}

func TestDeathsAreCountedAndTheThirdEndsTheProvider(t *testing.T) {
	path, file := noted(t)
	logged, callback := &logKeeper{}, &recorder{}
	a := startWith(t, time.Hour, callback, logged, Options{Program: path})
	put(t, a, firing(0))
	lost := firing(0).Fingerprint()
	a.marker.SetActiveOrSilenced(lost, 1, []string{"1"}, nil)
	for deaths := 1; deaths <= 2; deaths++ {
		signalProgram(t, file, syscall.SIGKILL)
		waitUntil(t, "another program takes puts", func() bool {
			return testutil.ToFloat64(a.restarts) == float64(deaths) && a.Put(firing(deaths)) == nil
		})
		if _, err := a.Get(lost); err != store.ErrNotFound {
			t.Errorf("what was stored before: %v", err)
		}
		if state := a.marker.Status(lost).State; state != types.AlertStateUnprocessed {
			t.Errorf("the mark of what was lost is %v", state)
		}
	}
	signalProgram(t, file, syscall.SIGKILL)
	<-a.Done()
	says := func(what string, err error) {
		t.Helper()
		if !errors.Is(err, ErrEnded) || !errors.Is(err, ErrDied) || !strings.Contains(err.Error(), "ended by itself") {
			t.Errorf("%s: %v", what, err)
		}
	}
	says("Err", a.Err())
	says("Put", a.Put(firing(1)))
	_, err := a.Get(lost)
	says("Get", err)
	_, err = a.countStates()
	says("countStates", err)
	it := a.GetPending()
	if alert, isOpen := <-it.Next(); !isOpen || len(alert.Labels) != 0 {
		t.Errorf("GetPending: %v came", alert)
	}
	says("GetPending", it.Err())
	if alert, isOpen := <-it.Next(); isOpen {
		t.Errorf("GetPending: %v came", alert)
	}
	if died, ended := logged.times("another one starts"), logged.times("too many programs have died"); died != 2 || ended != 1 {
		t.Errorf("%d deaths and %d ends were logged", died, ended)
	}
	for _, it := range callback.calls {
		if strings.HasPrefix(it, "delete") {
			t.Error("an alert was said to be removed")
		}
	}
}
