package program

import "sync"

// ChannelLength is how many alerts the channel of a subscription holds, as in Alertmanager's own provider.
const ChannelLength = 200

// An Iterator hands out alerts, as Alertmanager's provider.AlertIterator does.
type Iterator[A any] struct {
	alerts chan *A
	closed chan struct{} // closed by Close
	once   sync.Once
	err    error // never changes
}

func newIterator[A any](room int) *Iterator[A] {
	return &Iterator[A]{alerts: make(chan *A, room), closed: make(chan struct{})}
}

// Over is an iterator over these alerts, with an error that says why not all came.
func Over[A any](alerts []*A, err error) *Iterator[A] {
	it := newIterator[A](len(alerts))
	it.err = err
	for _, alert := range alerts {
		it.alerts <- alert
	}
	close(it.alerts)
	return it
}

// Next is the channel that the alerts come from.
func (it *Iterator[A]) Next() <-chan *A { return it.alerts }

// Err is nil for a subscription.
func (it *Iterator[A]) Err() error { return it.err }

// Close may be called more than once.
func (it *Iterator[A]) Close() { it.once.Do(func() { close(it.closed) }) }

// endIfClosed closes the channel if Close was called. What it holds can still be taken.
func (it *Iterator[A]) endIfClosed() {
	select {
	case <-it.closed:
		close(it.alerts)
	default:
	}
}
