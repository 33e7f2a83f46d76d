package program

import (
	"errors"
	"fmt"
	"regexp"
	"strconv"
	"sync"
	"time"
)

// The program has eight lanes. Seven are for one subscription each, and further ones share the last.
const ownLanes = 7

// How long a subscription or a leave that the program refused waits before it is tried again.
const refusedPause = time.Second

// Why no more comes of a lane, if it isn't by the program's end, and why a subscription ends.
var (
	errCut    = errors.New("the reader was too slow and was cut off")
	errClosed = errors.New("the iterator was closed")
)

// readers are all lanes of a program that are open.
type readers struct {
	process *process
	mostLag int // how many batches of the log may be unread before a put waits until they are read
	// How many of the longest reads reach the end of a full log, whose batches have at most 1,024 alerts each.
	readsOfFullLog int
	own            chan struct{} // has an element for each own lane that is open

	sharing sync.Mutex // held while one joins the shared lane
	shared  *lane      // nil if nobody has shared it yet

	mutex sync.Mutex
	count int // of the lanes that were ever opened
	open  map[string]*lane
}

// init is called with how many batches the log holds. A half is left to puts that come at the same time.
func (r *readers) init(places int) {
	r.mostLag = (places + 1) / 2
	r.readsOfFullLog = (places*mostAlerts + longestRead - 1) / longestRead
	r.own = make(chan struct{}, ownLanes)
	r.open = map[string]*lane{}
}

// came hands what came for a subscription to its lane, if that is open: so many alerts, or another answer.
func (r *readers) came(name string, it event, count int) {
	r.mutex.Lock()
	defer r.mutex.Unlock()
	if to, is := r.open[name]; is {
		to.came(it, count)
	}
}

// afterPut notes a put that was answered: all that it brought to a lane was printed, if more may come to that by itself.
func (r *readers) afterPut(puts int64) {
	r.mutex.Lock()
	defer r.mutex.Unlock()
	for _, it := range r.open {
		if it.coming.Load() > 0 {
			it.drained.Store(puts)
		}
	}
}

// makeWay is called before batches are put, and says how many can be put at once. It has all printed of the lanes whose
// readers might be cut off by them. So no reader is cut off while there is room for it in memory, however fast others put.
func (r *readers) makeWay(batches int) int {
	if batches > r.mostLag {
		batches = r.mostLag
	}
	for _, it := range r.lagging(batches) {
		it.catchUp()
	}
	return batches
}

// lagging are the lanes that have too many batches unread once so many more are put.
func (r *readers) lagging(batches int) (lanes []*lane) {
	r.mutex.Lock()
	defer r.mutex.Unlock()
	most := r.process.puts.Load() + int64(batches-r.mostLag)
	for _, it := range r.open {
		if it.drained.Load() < most {
			lanes = append(lanes, it)
		}
	}
	return lanes
}

// poke leaves a token, unless one is there.
func poke(woken chan struct{}) {
	select {
	case woken <- struct{}{}:
	default:
	}
}

var laneOfFault = regexp.MustCompile(`^E13 Full lane (\d+) `)

// named is a fault with the name of the reader that it is about, if it is about one.
func (r *readers) named(fault string) string {
	found := laneOfFault.FindStringSubmatch(fault)
	if found == nil {
		return fault
	}
	number, _ := strconv.Atoi(found[1])
	r.mutex.Lock()
	defer r.mutex.Unlock()
	for _, it := range r.open {
		if it.number == number {
			return fmt.Sprintf("%s (its reader is %s)", fault, it.reader)
		}
	}
	return fault
}

// subscribe opens a lane for a reader, or joins the shared one if there is no other.
func (r *readers) subscribe(reader string) (*member, error) {
	select {
	case r.own <- struct{}{}:
		_, first, err := r.openLane(reader, false)
		if err != nil {
			<-r.own
		}
		return first, err
	default:
		return r.share()
	}
}

// share joins the shared lane. If it has been left, or if it is cut off just then, it is opened anew.
func (r *readers) share() (*member, error) {
	r.sharing.Lock()
	defer r.sharing.Unlock()
	if r.shared != nil {
		if it, err := r.shared.join(); err != errCut {
			return it, err
		}
	}
	opened, first, err := r.openLane("shared by several", true)
	r.shared = opened
	return first, err
}

// Subscribe returns an iterator over what is stored and over every alert that is stored from now on, each as its caller wants
// it. If it is cut off or the program dies, it subscribes again. Its channel isn't closed when the program ends, and what it
// holds can still be taken.
func Subscribe[A any](p *Program, reader string, as func(*Alert) *A) *Iterator[A] {
	s := &subscription[A]{iterator: newIterator[A](ChannelLength), program: p, reader: reader, as: as}
	from, err := s.subscribe()
	go s.feed(from, err)
	return s.iterator
}

// A subscription feeds an iterator, in one history after another.
type subscription[A any] struct {
	iterator *Iterator[A]
	program  *Program
	reader   string
	as       func(*Alert) *A
	history  *history
}

func (s *subscription[A]) subscribe() (*member, error) {
	s.history = s.program.current.Load()
	return s.history.readers.subscribe(s.reader)
}

// feed hands on what comes, until the iterator is closed or the provider ends.
func (s *subscription[A]) feed(from *member, err error) {
	for {
		if err == nil {
			err = s.pass(from)
			from.leave()
		}
		if !s.goesOn(err) {
			s.iterator.endIfClosed()
			return
		}
		from, err = s.subscribe()
	}
}

// pass hands on what comes to a member, and says how that ended.
func (s *subscription[A]) pass(from *member) error {
	for {
		alerts, err := from.next(s.iterator.closed)
		for _, alert := range alerts {
			if !s.hand(alert) {
				return errClosed
			}
		}
		if err != nil {
			return err
		}
	}
}

// hand waits until there is room for an alert. It is false once the iterator is closed or the provider has ended.
func (s *subscription[A]) hand(alert *Alert) bool {
	select {
	case s.iterator.alerts <- s.as(alert):
		return true
	case <-s.iterator.closed:
		return false
	case <-s.program.done:
		return false
	}
}

// goesOn says whether to subscribe again after an error, and waits until that can be done.
func (s *subscription[A]) goesOn(err error) bool {
	var later <-chan time.Time
	switch {
	case err == errClosed:
		return false
	case err == errCut:
		s.program.listener.Cut(s.reader)
		return true
	case s.history.why() == nil:
		s.program.listener.Unserved(s.reader, err)
		later = time.After(refusedPause)
	}
	select {
	case <-s.history.replaced:
		return true
	case <-later:
		return true
	case <-s.iterator.closed:
		return false
	case <-s.program.done:
		return false
	}
}
