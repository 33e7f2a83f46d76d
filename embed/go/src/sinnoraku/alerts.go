// Package sinnoraku is an alert provider of Alertmanager 0.25 over the proved replay program.
//
// NewAlerts starts the program and keeps it as a process of its own. All that isn't Alertmanager's is in package
// sinnoraku/program; here are the types, metrics and log lines that version 0.25 wants of a provider.
//
// What comes is read ahead for each subscriber, so that one that is slow for a while is served all the same. A Put may wait
// for that reading, but for no subscriber. One that is too slow is cut off. It then subscribes again and gets what is stored
// once more; the counter sinnoraku_subscriptions_cut_total and a warning say so. With Options.Refuse the Put is refused
// instead, and its error names the reader.
//
// A program that dies, or that answers nothing for Options.Patience and is killed then, is replaced by another one, whose
// store is empty. The calls that wait return an error, subscriptions go on with the new program, and the counter
// sinnoraku_program_restarts_total says how often it happened. When three have died within a minute, the provider ends:
// every call returns an error, and Done is closed. Iterators stay open then, as after Close: Alertmanager's inhibitor reads
// a closed one again and again.
//
// Moments keep their nanoseconds. An end that is Go's zero time never comes: the program has its last moment,
// 9999-12-30T22:00:00.999999999Z, for it, and the zero time comes back. (At a merge provider/mem takes such an end as the
// earliest of all.) A start or an update that is the zero time is the first nanosecond after it. Labels with an empty
// value are ignored, also in fingerprints.
package sinnoraku

import (
	"context"
	"runtime"
	"strings"
	"sync"
	"time"

	"github.com/go-kit/log"
	"github.com/go-kit/log/level"
	"github.com/prometheus/client_golang/prometheus"
	"github.com/prometheus/common/model"

	"github.com/prometheus/alertmanager/provider"
	"github.com/prometheus/alertmanager/store"
	"github.com/prometheus/alertmanager/types"
	"sinnoraku/program"
)

// Options say how the program is run.
type Options = program.Options

// A PutError says why one alert of a Put wasn't stored, and PutErrors says what of a Put wasn't.
type (
	PutError  = program.PutError
	PutErrors = program.PutErrors
)

// What calls end with, as package sinnoraku/program says.
var (
	ErrClosed   = program.ErrClosed
	ErrDied     = program.ErrDied
	ErrSilent   = program.ErrSilent
	ErrEnded    = program.ErrEnded
	ErrFull     = program.ErrFull
	ErrNoMemory = program.ErrNoMemory
	ErrTooLarge = program.ErrTooLarge
	ErrText     = program.ErrText
	ErrMoment   = program.ErrMoment
)

// AlertStoreCallback is asked before an alert is stored, and notified of what is stored and removed, as provider/mem's.
type AlertStoreCallback interface {
	// PreStore is given the alert as it would be stored, merged with the stored one if existing says that there is
	// one. If it returns an error, the alert isn't stored.
	PreStore(alert *types.Alert, existing bool) error
	// PostStore is called once the alert is stored.
	PostStore(alert *types.Alert, existing bool)
	// PostDelete is called once a resolved alert was removed by a collection.
	PostDelete(alert *types.Alert)
}

// Alerts is a provider.Alerts whose store and broadcast are the replay program's. All methods may be called from any
// goroutine.
type Alerts struct {
	program    *program.Program
	marker     types.Marker
	logger     log.Logger
	cuts       prometheus.Counter
	restarts   prometheus.Counter
	collecting sync.WaitGroup // the goroutine that collects
}

var _ provider.Alerts = (*Alerts)(nil)

// NewAlerts starts the program. The other arguments are those of mem.NewAlerts; each gc interval what is resolved is
// removed. Cancelling the context closes the provider.
func NewAlerts(
	ctx context.Context, m types.Marker, intervalGC time.Duration, cb AlertStoreCallback, l log.Logger,
	r prometheus.Registerer, options Options,
) (*Alerts, error) {
	a := &Alerts{
		marker: m,
		logger: log.With(l, "component", "provider"),
		cuts: prometheus.NewCounter(prometheus.CounterOpts{
			Name: "sinnoraku_subscriptions_cut_total",
			Help: "How many subscriptions were cut off because their reader was too slow.",
		}),
		restarts: prometheus.NewCounter(prometheus.CounterOpts{
			Name: "sinnoraku_program_restarts_total",
			Help: "How many programs were started because the one before had died.",
		}),
	}
	var asked program.Callback
	if cb != nil {
		asked = callback{cb, a.logger}
	}
	var err error
	if a.program, err = program.Start(options, listener{a}, asked); err != nil {
		return nil, err
	}
	if r != nil {
		r.MustRegister(a.cuts, a.restarts, stateCollector{a})
	}
	a.collecting.Add(1)
	go a.run(ctx, intervalGC)
	return a, nil
}

// run collects each interval, until the provider has ended.
func (a *Alerts) run(ctx context.Context, interval time.Duration) {
	defer a.collecting.Done()
	ticker := time.NewTicker(interval)
	defer ticker.Stop()
	for {
		select {
		case <-ticker.C:
			if err := a.collect(time.Now()); err != nil {
				level.Error(a.logger).Log("msg", "collection of resolved alerts failed", "err", err)
			}
		case <-ctx.Done():
			go a.Close()
			return
		case <-a.Done():
			return
		}
	}
}

// collect removes what is resolved, and says so to the marker and the callback.
func (a *Alerts) collect(now time.Time) error { return a.program.Collect(now) }

// Close ends the program once it has answered what was asked before, and waits for its end. Iterators of subscriptions
// stay open.
func (a *Alerts) Close() {
	a.program.Close()
	a.collecting.Wait()
}

// Done is closed once no program runs any more, by Close or because too many have died.
func (a *Alerts) Done() <-chan struct{} { return a.program.Done() }

// Err says why no calls are taken, and is nil while they are. Until Done is closed another program may take some.
func (a *Alerts) Err() error { return a.program.Err() }

// Put stores alerts, each merged with the stored one of its labels. Up to 1,024 alerts of one Put are stored together,
// and they reach each subscriber in their order. An error names those that weren't stored, each by a PutError.
func (a *Alerts) Put(alerts ...*types.Alert) error {
	ours := make([]*program.Alert, len(alerts))
	for at, it := range alerts {
		ours[at] = (*program.Alert)(it)
	}
	return a.program.Put(ours...)
}

// Get returns the stored alert of a fingerprint.
func (a *Alerts) Get(fingerprint model.Fingerprint) (*types.Alert, error) {
	alert, err := a.program.Get(fingerprint)
	if alert == nil && err == nil {
		err = store.ErrNotFound
	}
	return theirs(alert), err
}

// Subscribe returns an iterator over what is stored and over every alert that is stored from now on. If it is cut off or
// the program dies, it subscribes again. Its channel isn't closed when the provider ends, as that of provider/mem isn't,
// and what it holds can still be taken.
func (a *Alerts) Subscribe() provider.AlertIterator {
	return program.Subscribe(a.program, callerName(), theirs)
}

// callerName names who called Subscribe, as `dispatch.(*Dispatcher).Run`.
func callerName() string {
	at, _, _, found := runtime.Caller(2)
	if !found {
		return "unknown"
	}
	name := runtime.FuncForPC(at).Name()
	return name[strings.LastIndexByte(name, '/')+1:]
}

// GetPending returns an iterator over what is stored. Puts go on while it is read, so each alert is as it was at its turn.
// If the program fails, nothing of what is stored comes, but one empty alert does, and Err says why. So look at Err before
// each alert.
func (a *Alerts) GetPending() provider.AlertIterator {
	alerts, err := a.stored()
	if err != nil {
		// Both versions of Alertmanager's API look at Err only once they have taken an alert. Without one they would answer
		// 200 and an empty list, as if nothing were stored. They don't look at the alert then.
		alerts = []*types.Alert{{}}
	}
	return program.Over(alerts, err)
}

func (a *Alerts) stored() ([]*types.Alert, error) {
	ours, err := a.program.Stored()
	alerts := make([]*types.Alert, len(ours))
	for at, it := range ours {
		alerts[at] = theirs(it)
	}
	return alerts, err
}

// theirs is the same alert with Alertmanager's type, whose fields are those of the program's.
func theirs(alert *program.Alert) *types.Alert { return (*types.Alert)(alert) }

// A listener counts, logs, and deletes the marks of what is gone.
type listener struct{ *Alerts }

func (l listener) Gone(fingerprint model.Fingerprint) { l.marker.Delete(fingerprint) }

func (l listener) Cut(reader string) {
	l.cuts.Inc()
	level.Warn(l.logger).Log("msg", "a reader was too slow and was cut off; it gets what is stored again", "reader", reader)
}

func (l listener) Unserved(reader string, err error) {
	level.Error(l.logger).Log("msg", "a reader can't be served now", "reader", reader, "err", err)
}

func (l listener) Died(err error) {
	l.restarts.Inc()
	level.Error(l.logger).Log("msg", "the program has died; another one starts with an empty store", "err", err)
}

func (l listener) Ended(err error) {
	level.Error(l.logger).Log("msg", "the provider has ended, since too many programs have died", "err", err)
}

// A callback asks Alertmanager's.
type callback struct {
	asked  AlertStoreCallback
	logger log.Logger
}

func (c callback) Merge(stored, report *program.Alert) *program.Alert {
	return (*program.Alert)(theirs(stored).Merge(theirs(report)))
}

func (c callback) PreStore(alert *program.Alert, existing bool) error {
	err := c.asked.PreStore(theirs(alert), existing)
	if err != nil {
		level.Error(c.logger).Log("msg", "pre-store callback returned error on set alert", "err", err)
	}
	return err
}

func (c callback) PostStore(alert *program.Alert, existing bool) {
	c.asked.PostStore(theirs(alert), existing)
}

func (c callback) PostDelete(alert *program.Alert) {
	c.asked.PostDelete(theirs(alert))
}
