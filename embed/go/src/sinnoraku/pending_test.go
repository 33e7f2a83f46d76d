package sinnoraku

import (
	"errors"
	"syscall"
	"testing"
	"time"

	"github.com/go-kit/log"

	"github.com/prometheus/alertmanager/provider"
	"github.com/prometheus/alertmanager/types"
)

// listed reads an iterator as Alertmanager's API does: it looks at Err once it has taken an alert, and at no other time.
func listed(it provider.AlertIterator) (alerts []*types.Alert, err error) {
	defer it.Close()
	for alert := range it.Next() {
		if err = it.Err(); err != nil {
			return nil, err
		}
		alerts = append(alerts, alert)
	}
	return alerts, nil
}

func TestGetPendingHandsOutNoEmptyAlertUnlessItFails(t *testing.T) {
	a := startPlain(t)
	for count := 0; count < 3; count++ {
		alerts, err := listed(a.GetPending())
		if len(alerts) != count || err != nil {
			t.Errorf("%v, %v", alerts, err)
		}
		for _, it := range alerts {
			if len(it.Labels) == 0 {
				t.Error("one is empty")
			}
		}
		put(t, a, firing(count))
	}
	a.Close()
	if alerts, err := listed(a.GetPending()); len(alerts) != 0 || !errors.Is(err, ErrClosed) {
		t.Errorf("after Close: %v, %v", alerts, err)
	}
}

func TestGetPendingAndTheMetricDoNotWaitForAProgramThatHangs(t *testing.T) {
	path, file := noted(t)
	options := Options{Program: path, Interval: 200 * time.Millisecond, Patience: 2 * time.Second}
	for name, call := range map[string]func(*Alerts) error{
		"GetPending":  func(a *Alerts) error { _, err := listed(a.GetPending()); return err },
		"countStates": func(a *Alerts) error { _, err := a.countStates(); return err },
		"collect":     func(a *Alerts) error { return a.collect(time.Now()) },
	} {
		a := startWith(t, time.Hour, nil, log.NewNopLogger(), options)
		put(t, a, firing(0))
		signalProgram(t, file, syscall.SIGSTOP)
		ended := make(chan error, 1)
		go func() { ended <- call(a) }()
		select {
		case err := <-ended:
			if !errors.Is(err, ErrSilent) || !errors.Is(err, ErrDied) {
				t.Errorf("%s: %v", name, err)
			}
		case <-time.After(20 * time.Second):
			t.Fatalf("%s waits for ever", name)
		}
		a.Close()
	}
}
