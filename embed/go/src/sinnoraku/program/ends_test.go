package program

import (
	"runtime"
	"syscall"
	"testing"
)

// idleReaders subscribes so often that some share a lane, and puts more alerts than a channel holds. Nobody takes any.
func idleReaders(t *testing.T, a *watched) []*Iterator[Alert] {
	t.Helper()
	iterators := subscribeAll(t, a, 0)
	put(t, a, firings(0, 5*ChannelLength)...)
	for _, it := range iterators {
		it := it
		waitUntil(t, "the channel is full", func() bool { return len(it.Next()) == ChannelLength })
	}
	return iterators
}

// Readers that take nothing leave no goroutine, however the provider ends.
func TestGoroutinesEndWithTheProvider(t *testing.T) {
	for name, end := range map[string]func(*testing.T, *watched, []*Iterator[Alert]){
		"by Close": func(_ *testing.T, a *watched, _ []*Iterator[Alert]) { a.Close() },
		"by Close, and each iterator is closed before": func(t *testing.T, a *watched, iterators []*Iterator[Alert]) {
			closeAll(iterators)
			a.Close()
		},
		"by Close, and some iterators are closed before": func(t *testing.T, a *watched, iterators []*Iterator[Alert]) {
			closeAll(iterators[:ownLanes+1])
			a.Close()
		},
		"by Close, and each iterator is closed after": func(t *testing.T, a *watched, iterators []*Iterator[Alert]) {
			a.Close()
			closeAll(iterators)
		},
		"by Close after a death": func(t *testing.T, a *watched, _ []*Iterator[Alert]) {
			kill(t, a)
			a.Close()
		},
		"by Close while the program hangs": func(t *testing.T, a *watched, _ []*Iterator[Alert]) {
			a.current.Load().signal(t, syscall.SIGSTOP)
			a.Close()
		},
		"by three deaths": func(t *testing.T, a *watched, _ []*Iterator[Alert]) {
			for at := 0; at < mostDeaths; at++ {
				kill(t, a)
			}
			<-a.Done()
		},
	} {
		t.Run(name, func(t *testing.T) {
			before := runtime.NumGoroutine()
			a := startWith(t, impatient)
			end(t, a, idleReaders(t, a))
			noMoreGoroutinesThan(t, before)
		})
	}
}

func closeAll(iterators []*Iterator[Alert]) {
	for _, it := range iterators {
		it.Close()
	}
}

// While the provider goes on, a closed iterator leaves none. That is so too if its program has died meanwhile.
func TestGoroutinesEndWithTheirIterators(t *testing.T) {
	a := startPlain(t)
	put(t, a, firing(0))
	before := runtime.NumGoroutine()
	for turn := 0; turn < 2; turn++ {
		iterators := idleReaders(t, a)
		if turn == 1 {
			kill(t, a)
		}
		closeAll(iterators)
		noMoreGoroutinesThan(t, before)
	}
}
