// Package program runs the proved replay program as a process, and starts another one if it dies.
//
// Every call is a line that is written to the process, and every answer a line that it prints. It runs the lines in their
// order, so what they answer is one history of all calls; many goroutines can wait for their answers at once. Merging, the
// store, the order of alerts and who gets what are the replay program's. Here are the encoding of alerts, their
// fingerprints, the waiting of readers, and what becomes of all that when the process dies.
//
// It is a process over pipes: nothing would prove the C declarations of a library that Go calls, and `rt ci` stops at a
// crate that lists `libc` or `os`. A collection keeps Put out until the markers are deleted.
//
// Nothing here is Alertmanager's: package sinnoraku makes a provider of Alertmanager of it.
package program

import (
	"fmt"
	"sync"
	"sync/atomic"
	"time"

	"github.com/prometheus/common/model"
)

// An Alert is what is stored of a label set. It has the fields of Alertmanager's types.Alert, in their order.
type Alert struct {
	model.Alert

	// UpdatedAt is when it was reported. It decides which of two reports is the later one.
	UpdatedAt time.Time
	// Timeout says that the report had no end of its own.
	Timeout bool
}

// How many batches the log holds if the options don't say.
const usualPlaces = 4096

// Options say how the program is run.
type Options struct {
	// Program is the path of the replay program, or of the script replay that runs it.
	Program string
	// Places is how many batches its log holds for the slowest reader, 1 to 65,536; 0 is 4,096.
	Places int
	// Refuse has a Put refused if the log is full. Without it the readers that hold it up are cut off.
	Refuse bool
	// Interval is how often the program is asked whether it still answers; 0 is 5 s.
	Interval time.Duration
	// Patience is how long it may print nothing while it is asked something. Then it is killed, and all calls that wait
	// return ErrSilent. So each returns within the interval and the patience, if the program hangs. 0 is 30 s.
	Patience time.Duration
}

// withDefaults are the options with what is 0 replaced.
func (o Options) withDefaults() Options {
	if o.Places == 0 {
		o.Places = usualPlaces
	}
	if o.Interval <= 0 {
		o.Interval = 5 * time.Second
	}
	if o.Patience <= 0 {
		o.Patience = 30 * time.Second
	}
	return o
}

// endPatience is how long the program may print nothing once its input has ended.
func (o Options) endPatience() time.Duration {
	if o.Patience < endPatience {
		return o.Patience
	}
	return endPatience
}

func (o Options) arguments() []string {
	full := "cut"
	if o.Refuse {
		full = "refuse"
	}
	return []string{"--json", "--mode", "follow", "--places", fmt.Sprint(o.Places), "--full", full}
}

// The program's routes aren't asked: Alertmanager's own dispatcher reads its own configuration.
const configuration = `{"route":{"receiver":"alertmanager"}}`

// A Listener is notified of what nobody has asked for. Its methods may be called from any goroutine.
type Listener interface {
	// Gone is called of each alert that isn't stored any more: a collection removed it, or its program died.
	Gone(model.Fingerprint)
	// Cut is called if a reader was too slow and was cut off. It subscribes again by itself.
	Cut(reader string)
	// Unserved is called if a reader can't be served now. It is tried again.
	Unserved(reader string, err error)
	// Died is called if the program has died and another one starts.
	Died(err error)
	// Ended is called if too many have died, so that no other one starts.
	Ended(err error)
}

// A Callback is asked before an alert is stored, and notified of what is stored and removed.
type Callback interface {
	// Merge is what two reports that overlap become.
	Merge(stored, report *Alert) *Alert
	// PreStore is given the alert as it would be stored, merged with the stored one if existing says that there is
	// one. If it returns an error, the alert isn't stored.
	PreStore(alert *Alert, existing bool) error
	// PostStore is called once the alert is stored.
	PostStore(alert *Alert, existing bool)
	// PostDelete is called once a resolved alert was removed by a collection.
	PostDelete(alert *Alert)
}

// A Program is a running replay program, and the next one if it dies. All methods may be called from any goroutine.
type Program struct {
	options  Options
	current  atomic.Pointer[history] // the last one that has begun
	listener Listener
	callback Callback // nil if nobody has to be asked

	listing sync.RWMutex // who reads the store page by page shares it, and a collection has it alone
	gate    sync.RWMutex // puts share it, and a collection has it alone; with a callback so has a put

	closing chan struct{} // closed by Close
	once    sync.Once
	done    chan struct{} // closed once no program runs any more
}

// Start starts the program. The callback may be nil.
func Start(options Options, listener Listener, callback Callback) (*Program, error) {
	p := &Program{
		options:  options.withDefaults(),
		listener: listener,
		callback: callback,
		closing:  make(chan struct{}),
		done:     make(chan struct{}),
	}
	first := p.begin()
	if err := first.check(p.options.Patience); err != nil {
		<-first.ended
		return nil, err
	}
	p.current.Store(first)
	go p.keep()
	return p, nil
}

// Close ends the program once it has answered what was asked before, and waits for its end. One that prints nothing for
// Options.Patience, or for 10 s if that is less, is killed. Iterators of subscriptions stay open.
func (p *Program) Close() {
	p.once.Do(func() { close(p.closing) })
	p.current.Load().close(p.options.endPatience())
	<-p.done
}

// Done is closed once no program runs any more, by Close or because too many have died.
func (p *Program) Done() <-chan struct{} { return p.done }

// Err says why no calls are taken, and is nil while they are. Until Done is closed another program may take some. Then it
// is ErrClosed or ErrEnded.
func (p *Program) Err() error { return p.current.Load().why() }

// Get returns the stored alert of a fingerprint, and nil if there is none.
func (p *Program) Get(fingerprint model.Fingerprint) (*Alert, error) {
	h := p.current.Load()
	if err := h.why(); err != nil {
		return nil, err
	}
	labels, found := h.known.get(fingerprint)
	if !found {
		return nil, nil
	}
	return h.get(labels)
}

// Stored returns what is stored. It is read page by page while puts go on, so each alert is as it was at its turn; no
// collection comes between.
func (p *Program) Stored() ([]*Alert, error) {
	p.listing.RLock()
	defer p.listing.RUnlock()
	return p.current.Load().stored()
}

// Collect removes what is resolved, and says so to the listener and the callback before another Put comes.
func (p *Program) Collect(now time.Time) error {
	p.listing.Lock()
	defer p.listing.Unlock()
	p.gate.Lock()
	defer p.gate.Unlock()
	h := p.current.Load()
	taken, err := h.takeResolved(now)
	for _, alert := range taken {
		fingerprint := alert.Fingerprint()
		h.known.remove(fingerprint)
		p.listener.Gone(fingerprint)
		if p.callback != nil {
			p.callback.PostDelete(alert)
		}
	}
	return err
}
