package program

import (
	"errors"
	"fmt"
	"syscall"
	"testing"
	"time"
)

// Options with which a program that hangs is found soon, and one that waits for a processor isn't taken for one.
var impatient = Options{Interval: 200 * time.Millisecond, Patience: 2 * time.Second}

// endsSoon fails if a call takes much longer than the patience.
func endsSoon(t *testing.T, what string, call func()) {
	t.Helper()
	ended := make(chan struct{})
	go func() {
		defer close(ended)
		call()
	}()
	select {
	case <-ended:
	case <-time.After(20 * time.Second):
		t.Fatalf("%s waits for ever", what)
	}
}

func TestNoCallWaitsForAProgramThatHangs(t *testing.T) {
	for name, call := range map[string]func(*watched) error{
		"Put":              func(a *watched) error { return a.Put(firing(1)) },
		"Put of ten lines": func(a *watched) error { return a.Put(firings(0, 10*mostAlerts)...) },
		"Get":              func(a *watched) error { _, err := a.Get(firing(0).Fingerprint()); return err },
		"Stored":           func(a *watched) error { _, err := a.Stored(); return err },
		"Collect":          func(a *watched) error { return a.Collect(time.Now()) },
		"Put after Collect": func(a *watched) error {
			go func() { _ = a.Collect(time.Now()) }()
			time.Sleep(50 * time.Millisecond)
			return a.Put(firing(1))
		},
	} {
		name, call := name, call
		t.Run(name, func(t *testing.T) {
			t.Parallel()
			a := startWith(t, impatient)
			put(t, a, firing(0))
			a.current.Load().signal(t, syscall.SIGSTOP)
			endsSoon(t, name, func() {
				if err := call(a); name != "Put after Collect" && (!errors.Is(err, ErrSilent) || !errors.Is(err, ErrDied)) {
					t.Error(err)
				}
			})
			putAgain(t, a, firing(2))
		})
	}
}

func TestAPutWithACallbackDoesNotWaitForAProgramThatHangs(t *testing.T) {
	t.Parallel()
	w, options := &watched{name: t.Name()}, impatient
	options.Program = programPath(t)
	var err error
	if w.Program, err = Start(options, w, storesAll{}); err != nil {
		t.Fatal(err)
	}
	defer w.Close()
	w.current.Load().signal(t, syscall.SIGSTOP)
	endsSoon(t, "Put", func() {
		if err := w.Put(firings(0, 3)...); !errors.Is(err, ErrSilent) {
			t.Error(err)
		}
	})
}

// storesAll is a callback that refuses nothing.
type storesAll struct{}

func (storesAll) Merge(_, report *Alert) *Alert { return report }
func (storesAll) PreStore(*Alert, bool) error   { return nil }
func (storesAll) PostStore(*Alert, bool)        {}
func (storesAll) PostDelete(*Alert)             {}

func TestSubscribeDoesNotWaitForAProgramThatHangs(t *testing.T) {
	t.Parallel()
	a := startWith(t, impatient)
	iterators := subscribeAll(t, a, 0)
	a.current.Load().signal(t, syscall.SIGSTOP)
	for _, what := range []string{"Subscribe", "another one"} {
		endsSoon(t, what, func() { iterators = append(iterators, a.Subscribe()) })
	}
	putAgain(t, a, firing(1))
	eachGets(t, iterators, 1)
}

func TestCloseDoesNotWaitForAProgramThatHangs(t *testing.T) {
	t.Parallel()
	a := startWith(t, impatient)
	a.current.Load().signal(t, syscall.SIGSTOP)
	endsSoon(t, "Close", a.Close)
}

// The put has more to write than a pipe holds, and so holds the lock that Close needs.
func TestCloseDoesNotWaitForAPutThatHangs(t *testing.T) {
	t.Parallel()
	a := startWith(t, impatient)
	a.current.Load().signal(t, syscall.SIGSTOP)
	failed := make(chan error, 1)
	go func() { failed <- a.Put(firings(0, 10*mostAlerts)...) }()
	time.Sleep(50 * time.Millisecond)
	endsSoon(t, "Close", a.Close)
	endsSoon(t, "Put", func() {
		if err := <-failed; !errors.Is(err, ErrClosed) && !errors.Is(err, ErrSilent) {
			t.Error(err)
		}
	})
}

// The program ends, and what it has started still holds its pipes, in its group or out of it.
func TestNoCallWaitsForWhatAProgramHasStarted(t *testing.T) {
	for name, left := range map[string]string{"in the group": "sleep 40 &", "out of the group": "setsid sleep 40 &"} {
		left := left
		t.Run(name, func(t *testing.T) {
			t.Parallel()
			p := start(writeProgram(t, left+" sleep 0.3; read a; read b; exit 3"), nil, configuration, &readers{})
			endsSoon(t, "a call", func() {
				if _, err := p.ask(getRoutes); !errors.Is(err, ErrDied) {
					t.Error(err)
				}
			})
			endsSoon(t, "close", func() { p.close(endPatience) })
		})
	}
}

// What isn't the next answer ends the program, so the call that was left out doesn't wait.
func TestAProgramThatLeavesOutALine(t *testing.T) {
	t.Parallel()
	script := fmt.Sprintf(`read a; read b; read c; echo '{"line":%d,"answers":0}'; sleep 60`, firstLine+1)
	p := start(writeProgram(t, script), nil, configuration, &readers{})
	for at, it := range p.send(request{text: getStored}, request{text: getStored}) {
		it := it
		endsSoon(t, fmt.Sprint("call ", at), func() {
			if err := it.wait(); !errors.Is(err, ErrDied) {
				t.Error(err)
			}
		})
	}
}

func TestOptionsHaveDefaults(t *testing.T) {
	want := Options{Places: usualPlaces, Interval: 5 * time.Second, Patience: 30 * time.Second}
	for _, given := range []Options{{}, {Interval: -1, Patience: -1}} {
		if got := given.withDefaults(); got != want {
			t.Errorf("%v of %v", got, given)
		}
	}
	for patience, want := range map[time.Duration]time.Duration{time.Second: time.Second, time.Minute: endPatience} {
		if got := (Options{Patience: patience}).endPatience(); got != want {
			t.Errorf("a program that is to end has %v of %v", got, patience)
		}
	}
}
