package program

import (
	"errors"
	"fmt"
	"os"
	"path/filepath"
	"reflect"
	"runtime"
	"strings"
	"syscall"
	"testing"
	"time"
)

func (p *process) signal(t *testing.T, it syscall.Signal) {
	t.Helper()
	if err := p.command.Process.Signal(it); err != nil {
		t.Fatal(err)
	}
}

// kill kills the program, and waits until another one has been started or the provider has ended.
func kill(t *testing.T, a *watched) {
	t.Helper()
	h := a.current.Load()
	h.signal(t, syscall.SIGKILL)
	select {
	case <-h.replaced:
	case <-a.Done():
	case <-time.After(20 * time.Second):
		t.Fatal("the program wasn't replaced")
	}
}

// everythingFails fails if a call of a provider that has ended doesn't say why.
func everythingFails(t *testing.T, a *watched) {
	t.Helper()
	select {
	case <-a.Done():
	case <-time.After(20 * time.Second):
		t.Fatal("the provider isn't done")
	}
	says := func(what string, err error) {
		t.Helper()
		if !errors.Is(err, ErrEnded) || !errors.Is(err, ErrDied) || !strings.Contains(err.Error(), "ended by itself") {
			t.Errorf("%s: %v", what, err)
		}
	}
	says("Err", a.Err())
	says("Put", a.Put(firing(1)))
	_, err := a.Get(firing(0).Fingerprint())
	says("Get", err)
	says("Collect", a.Collect(time.Now()))
	takesNothing(t, a.Subscribe())
	_, err = a.Stored()
	says("Stored", err)
	a.Close()
	says("Err after Close", a.Err())
}

// putAgain puts an alert until that succeeds, as Prometheus does.
func putAgain(t *testing.T, a *watched, alert *Alert) {
	t.Helper()
	waitUntil(t, "a put succeeds", func() bool { return a.Put(alert) == nil })
}

// subscribeAll subscribes so often that some share a lane, and has each take what is stored.
func subscribeAll(t *testing.T, a *watched, stored int) (iterators []*Iterator[Alert]) {
	t.Helper()
	for reader := 0; reader < ownLanes+3; reader++ {
		it := a.Subscribe()
		take(t, it, stored)
		iterators = append(iterators, it)
	}
	return iterators
}

// eachGets fails if a reader doesn't get just the alert of a number.
func eachGets(t *testing.T, iterators []*Iterator[Alert], number int) {
	t.Helper()
	for _, it := range iterators {
		if got := numbers(take(t, it, 1)); got[0] != fmt.Sprint(number) {
			t.Errorf("%v came where %d is wanted", got, number)
		}
		takesNothing(t, it)
	}
}

func TestAProgramThatDiesIsReplaced(t *testing.T) {
	a := startPlain(t)
	lost := firing(0)
	put(t, a, lost)
	iterators := subscribeAll(t, a, 1)
	for at := 1; at < mostDeaths; at++ {
		kill(t, a)
		if got, err := a.Get(lost.Fingerprint()); got != nil || err != nil {
			t.Errorf("what was stored before: %v, %v", got, err)
		}
		put(t, a, firing(at))
		eachGets(t, iterators, at)
		if stored := numbers(pending(t, a)); len(stored) != 1 {
			t.Errorf("%v are stored", stored)
		}
	}
	if restarts := a.restarts.Load(); restarts != mostDeaths-1 {
		t.Errorf("%v restarts were counted", restarts)
	}
	if times := a.timesGone(lost); times != 1 {
		t.Errorf("what was lost was gone %d times", times)
	}
	put(t, a, lost)
	eachGets(t, iterators, 0)
}

// The program stands still. Calls wait, and fail once that is found; then all goes on with another program.
func TestAProgramThatStopsIsReplaced(t *testing.T) {
	a := startWith(t, Options{Interval: 200 * time.Millisecond, Patience: 2 * time.Second})
	put(t, a, firing(0))
	iterators := subscribeAll(t, a, 1)
	a.current.Load().signal(t, syscall.SIGSTOP)
	failures, subscribed := make(chan error, 4), make(chan *Iterator[Alert])
	go func() { failures <- a.Put(firing(1)) }()
	go func() { failures <- a.Put(firings(0, 10*mostAlerts)...) }()
	go func() { _, err := a.Get(firing(0).Fingerprint()); failures <- err }()
	go func() { _, err := a.Stored(); failures <- err }()
	go func() { subscribed <- a.Subscribe() }()
	for at := 0; at < cap(failures); at++ {
		if err := <-failures; !errors.Is(err, ErrSilent) || !strings.Contains(err.Error(), "killed after 2s") {
			t.Errorf("%v", err)
		}
	}
	iterators = append(iterators, <-subscribed)
	putAgain(t, a, firing(1))
	eachGets(t, iterators, 1)
	if restarts := a.restarts.Load(); restarts != 1 {
		t.Errorf("%v restarts were counted", restarts)
	}
}

// A program that works for longer than the patience isn't killed while it prints something.
func TestAProgramThatIsSlowIsNotKilled(t *testing.T) {
	t.Parallel()
	p := start(writeProgram(t, `read a; read b; for at in 1 2 3 4 5; do sleep 0.4; echo '{"line":2,"answer":"pending"}'; done
		echo '{"line":2,"answers":5}'; read c`), nil, configuration, &readers{})
	defer p.close(endPatience)
	if err := p.check(1500 * time.Millisecond); err != nil {
		t.Error(err)
	}
}

func TestThreeDeathsInAMinuteEndTheProvider(t *testing.T) {
	before := runtime.NumGoroutine()
	a := startPlain(t)
	put(t, a, firing(0))
	iterators := subscribeAll(t, a, 1)
	for at := 0; at < mostDeaths; at++ {
		select {
		case <-a.Done():
			t.Fatalf("it ended after %d deaths", at)
		default:
		}
		kill(t, a)
	}
	everythingFails(t, a)
	for _, it := range iterators {
		takesNothing(t, it)
		if err := it.Err(); err != nil {
			t.Errorf("an iterator's Err is %v", err)
		}
	}
	noMoreGoroutinesThan(t, before)
}

func noMoreGoroutinesThan(t *testing.T, before int) {
	t.Helper()
	waitUntil(t, "each goroutine has ended", func() bool { return runtime.NumGoroutine() <= before })
}

func TestOnlyDeathsWithinAMinuteCount(t *testing.T) {
	now := time.Now()
	for _, c := range []struct {
		after []time.Duration
		want  bool
	}{
		{[]time.Duration{0}, false},
		{[]time.Duration{0, 0}, false},
		{[]time.Duration{0, 0, 59 * time.Second}, true},
		{[]time.Duration{0, 0, time.Minute}, false},
		{[]time.Duration{0, 2 * time.Minute, 150 * time.Second, 170 * time.Second}, true},
		{[]time.Duration{0, time.Second, 2 * time.Minute, 150 * time.Second}, false},
	} {
		var deaths []time.Time
		for _, it := range c.after {
			deaths = append(deaths, now.Add(it))
		}
		if areTooMany(deaths) != c.want {
			t.Errorf("%v", c.after)
		}
	}
}

// What waits for a reader when the program dies still comes, and so it does when the provider ends.
func TestWhatWaitsComesAfterADeath(t *testing.T) {
	const count = mostAlerts // one put has them all
	a := startPlain(t)
	it := a.Subscribe()
	put(t, a, firings(0, count)...)
	waitUntil(t, "the channel is full", func() bool { return len(it.Next()) == ChannelLength })
	// What the put brought is printed before this is answered.
	if _, err := a.Stored(); err != nil {
		t.Fatal(err)
	}
	kill(t, a)
	put(t, a, firing(count))
	if got := take(t, it, count+1); !reflect.DeepEqual(numbers(got), numbers(firings(0, count+1))) {
		t.Error("they came in another order")
	}
	put(t, a, firing(0))
	waitUntil(t, "the alert waits", func() bool { return len(it.Next()) == 1 })
	kill(t, a)
	waitUntil(t, "it subscribed again", func() bool { return len(a.current.Load().readers.lanes()) == 1 })
	kill(t, a)
	<-a.Done()
	take(t, it, 1)
	takesNothing(t, it)
}

func TestTheProgramDiesInACollection(t *testing.T) {
	a := startPlain(t)
	gone := firing(0)
	gone.EndsAt = gone.StartsAt
	put(t, a, gone)
	a.current.Load().signal(t, syscall.SIGSTOP)
	failed := make(chan error)
	go func() { failed <- a.Collect(time.Now()) }()
	time.Sleep(50 * time.Millisecond)
	kill(t, a)
	if err := <-failed; err == nil {
		t.Error("the collection didn't fail")
	}
	if times := a.timesGone(gone); times != 1 {
		t.Errorf("the alert was gone %d times", times)
	}
	if err := a.Collect(time.Now()); err != nil {
		t.Error(err)
	}
}

// Iterators stay open, since Alertmanager's inhibitor reads a closed one again and again.
func TestClose(t *testing.T) {
	before := runtime.NumGoroutine()
	a := startPlain(t)
	put(t, a, firing(0))
	iterators := subscribeAll(t, a, 1)
	put(t, a, firings(1, 151)...)
	for _, it := range iterators {
		it := it
		waitUntil(t, "the alerts wait", func() bool { return len(it.Next()) == 150 })
	}
	a.Close()
	a.Close()
	if state := a.current.Load().command.ProcessState; state == nil || !state.Success() {
		t.Errorf("the program is %v", state)
	}
	for _, it := range iterators {
		take(t, it, 150)
		takesNothing(t, it)
		if err := it.Err(); err != nil {
			t.Errorf("an iterator's Err is %v", err)
		}
	}
	if err := a.Put(firing(0)); err != ErrClosed {
		t.Errorf("Put: %v", err)
	}
	if _, err := a.Get(firing(0).Fingerprint()); err != ErrClosed {
		t.Errorf("Get: %v", err)
	}
	noMoreGoroutinesThan(t, before)
}

// Close doesn't leave a program that was started just then.
func TestCloseWhileAProgramIsReplaced(t *testing.T) {
	before := runtime.NumGoroutine()
	for turn := 0; turn < 20; turn++ {
		a := startPlain(t)
		a.current.Load().signal(t, syscall.SIGKILL)
		time.Sleep(time.Duration(turn) * 100 * time.Microsecond)
		a.Close()
		if err := a.Put(firing(0)); err == nil {
			t.Error("a put succeeded")
		}
		if state := a.current.Load().command.ProcessState; state == nil {
			t.Error("a program is left")
		}
	}
	noMoreGoroutinesThan(t, before)
}

// Writes a program in bash. No other process is forked meanwhile: it would hold the file open for writing until it
// runs a program of its own, and what is open for writing can't be run ("text file busy").
func writeProgram(t *testing.T, script string) (path string) {
	path = filepath.Join(t.TempDir(), "program")
	syscall.ForkLock.RLock()
	defer syscall.ForkLock.RUnlock()
	if err := os.WriteFile(path, []byte("#!/bin/bash\n"+script+"\n"), 0o755); err != nil {
		t.Fatal(err)
	}
	return path
}

// Programs that can't be started, or that don't answer as the replay program does.
func TestOtherPrograms(t *testing.T) {
	answered := `{"line":2,"answer":"stored","alerts":0}\n{"line":2,"answers":1}\n`
	for name, c := range map[string]struct {
		script, fault string
		starts        bool
	}{
		"it isn't there":          {"", "no such file", false},
		"it ends at once":         {"echo went wrong >&2; exit 3", "exit status 3: went wrong", false},
		"its arguments are wrong": {"echo '--json?'; exit 1", "what is no answer", false},
		"it refuses the configuration": {
			`echo '{"answer":"refused","do":"config","fault":"E5 NotJson"}'; exit 2`, "config refused: E5 NotJson", false,
		},
		"it prints text":             {`read a; read b; echo '2 stored 0'; sleep 60`, "what is no answer", false},
		"it answers another line":    {`read a; read b; echo '{"line":3,"answers":0}'; sleep 60`, "nobody waits for", false},
		"it miscounts":               {`read a; read b; echo '{"line":2,"answers":1}'; sleep 60`, "1 were announced", false},
		"it ends after its start":    {`read a; read b; printf '` + answered + `'; read c`, "ended by itself", true},
		"it ends in an answer":       {`read a; read b; printf '` + answered + `'; read c; printf '{"line":3,"ans'`, "ended by itself", true},
		"it ends before the closing": {`read a; read b; printf '` + answered + `'; read c; echo '{"line":3,"answer":"pending"}'`, "ended by itself", true},
		"its answer is broken": {
			`read a; read b; printf '` + answered + `'; read c; echo '{"line":3,"answer":"alert","alert":{"labels"}}'; echo '{"line":3,"answers":1}'; read d`,
			"can't be read", true,
		},
		"it refuses the line": {
			`read a; read b; printf '` + answered + `'; read c; echo '{"line":3,"answer":"refused","fault":"P1 BadLine"}'; echo '{"line":3,"answers":1}'; read d`,
			"P1 BadLine", true,
		},
	} {
		c := c
		t.Run(name, func(t *testing.T) {
			t.Parallel()
			path := "/nowhere/program"
			if c.script != "" {
				path = writeProgram(t, c.script)
			}
			a, err := begun(t.Name(), Options{Program: path})
			if (err == nil) != c.starts {
				t.Fatalf("it started with %v", err)
			}
			if err == nil {
				_, err = a.current.Load().stored()
				a.Close()
			}
			if err == nil || !strings.Contains(err.Error(), c.fault) {
				t.Errorf("%v", err)
			}
		})
	}
}

// A put that is answered by nothing, or by what is no answer to it, isn't taken for one that stored its alerts.
func TestAPutWithoutAnAnswer(t *testing.T) {
	for _, printed := range []string{``, `{"line":3,"answer":"none","do":"put"}\n`} {
		script := `read a; read b; printf '{"line":2,"answer":"stored","alerts":0}\n{"line":2,"answers":1}\n'; read c; printf '` +
			printed + `{"line":3,"answers":` + fmt.Sprint(strings.Count(printed, "answer")) + `}\n'; read d`
		path := writeProgram(t, script)
		a, err := begun(t.Name(), Options{Program: path})
		if err != nil {
			t.Fatal(err)
		}
		if err := a.Put(firing(0)); err == nil || !strings.Contains(err.Error(), "a put was answered by") {
			t.Errorf("%q: %v", printed, err)
		}
		if got, err := a.Get(firing(0).Fingerprint()); got != nil || err != nil {
			t.Errorf("%q: %v, %v", printed, got, err)
		}
		a.Close()
	}
}

// A program that says nothing is killed with what it has started.
func TestAProgramThatDoesNotAnswer(t *testing.T) {
	path := writeProgram(t, "echo sleeping >&2; sleep 60; sleep 60")
	begun := time.Now()
	p := start(path, nil, configuration, &readers{})
	err := p.check(300 * time.Millisecond)
	<-p.ended
	if err == nil || !strings.Contains(err.Error(), "sleeping") || time.Since(begun) > 20*time.Second {
		t.Errorf("after %v: %v", time.Since(begun), err)
	}
}
