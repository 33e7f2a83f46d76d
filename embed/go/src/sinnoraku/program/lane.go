package program

import (
	"bytes"
	"fmt"
	"strconv"
	"sync"
	"sync/atomic"
	"time"
)

const (
	// How many alerts one line reads of what was stored at a subscription, and how many such lines are on their way at once,
	// so that the program prints the next ones while these are decoded.
	pageRead  = 256
	pagesAway = 4
	// How many alerts may come to a lane without being asked for, and how few they are when more are asked for.
	mostComing = 8192
	fewComing  = mostComing / 2
	// How many alerts one line can read at most.
	longestRead = 65_536
	// How many alerts wait for a reader before no more are asked for.
	mostWaiting = 16 * mostAlerts
	// How many alerts no store can hold.
	mostStored = 1 << 32
)

// A lane is one subscription of the program, which shows what comes for it after each line, as many alerts as its last read
// has left. Its goroutine deals what the program has printed to the lane's members: the reader that has it alone, or all that
// share it. If one that has it alone is full, no more is asked for, and the program judges who is too slow. One that shares
// it is cut off here, and holds up no other.
type lane struct {
	readers  *readers
	reader   string
	name     string
	number   int
	isShared bool
	woken    chan struct{} // has a token if something is to be done
	left     chan struct{} // closed once no member is left
	coming   atomic.Int64  // how many alerts may still come without being asked for
	drained  atomic.Int64  // after how many puts all that came was printed, as far as is known

	queueing sync.Mutex
	queue    []event // what was printed and isn't dealt out yet

	mutex   sync.Mutex // held while it is dealt out
	members map[*member]struct{}
	pages   int // how many lines are still to read what was stored at the subscription
	away    int // how many reads that its goroutine has asked for aren't answered yet
}

// An event is what the program has printed of a lane, in its order: a read's answers, alerts that came by themselves, another
// line that came so, or the place in that order where a member joins.
type event struct {
	read   *call
	alerts []*Alert
	line   []byte
	joins  *member
}

// A member is one who has a lane or shares it.
type member struct {
	lane    *lane
	opening *call         // answers with what was stored when it joined; nil if it needn't
	filled  chan struct{} // has a token if something came since
	isIn    bool          // whether it gets what is dealt out; guarded by the lane's mutex

	mutex   sync.Mutex
	waiting []*Alert
	err     error // why no more come
}

// openLane subscribes, for a first member, and begins to read what is stored.
func (r *readers) openLane(reader string, isShared bool) (*lane, *member, error) {
	l := r.newLane(reader, isShared)
	l.away = 1
	asked := r.process.send(request{text: subscribeLine(l.name)}, l.readOf(pageRead))[0]
	stored, err := l.begin(asked)
	if err != nil {
		close(l.left)
		r.forget(l)
		return nil, nil, err
	}
	l.pages = (stored+pageRead-1)/pageRead - 1
	first := l.add(nil)
	first.isIn = true
	go l.run()
	return l, first, nil
}

// readOf is a line that reads so many alerts.
func (l *lane) readOf(most int) request {
	return request{text: readLineOf(l.name, most), to: l, most: most}
}

func (r *readers) newLane(reader string, isShared bool) *lane {
	r.mutex.Lock()
	defer r.mutex.Unlock()
	r.count++
	l := &lane{
		readers: r, reader: reader, name: "s" + strconv.Itoa(r.count), number: -1, isShared: isShared,
		woken: make(chan struct{}, 1), left: make(chan struct{}), members: map[*member]struct{}{},
	}
	l.drained.Store(r.process.puts.Load())
	r.open[l.name] = l
	return l
}

func (r *readers) forget(it *lane) {
	r.mutex.Lock()
	defer r.mutex.Unlock()
	delete(r.open, it.name)
}

// begin notes the lane's number, and says how much is stored.
func (l *lane) begin(asked *call) (stored int, _ error) {
	if err := asked.wait(); err != nil {
		return 0, err
	}
	answers, err := answersOf(asked)
	if err != nil {
		return 0, err
	}
	if len(answers) == 1 && answers[0].word == "refused" {
		return 0, &refusal{answers[0].fault}
	}
	if len(answers) != 1 || answers[0].word != "subscribe" || answers[0].opening > mostStored {
		return 0, fmt.Errorf("sinnoraku: a subscribe was answered by %q", asked.answers)
	}
	l.readers.mutex.Lock()
	defer l.readers.mutex.Unlock()
	l.number = answers[0].lane
	return answers[0].opening, nil
}

// add adds a member.
func (l *lane) add(opening *call) *member {
	it := &member{lane: l, opening: opening, filled: make(chan struct{}, 1)}
	l.members[it] = struct{}{}
	return it
}

// join adds a member. It gets what is stored when the lane has been read to its end, and then what the lane has. If the
// lane is left or cut off, that is errCut.
func (l *lane) join() (*member, error) {
	l.mutex.Lock()
	defer l.mutex.Unlock()
	if l.isLeft() {
		return nil, errCut
	}
	var lines []request
	for reads := l.readers.readsOfFullLog; len(lines) < reads; {
		lines = append(lines, l.readOf(longestRead))
	}
	it := l.add(nil)
	l.away += len(lines) + 1
	lines = append(lines, l.readOf(mostComing), request{text: getStored, to: l, joins: it})
	calls := l.readers.process.send(lines...)
	it.opening = calls[len(calls)-1]
	return it, nil
}

func (l *lane) isLeft() bool {
	select {
	case <-l.left:
		return true
	default:
		return false
	}
}

// answered notes an answered read, in the order of what is printed.
func (l *lane) answered(read *call) {
	if read.joins != nil {
		l.push(event{joins: read.joins})
		return
	}
	if isPending(read) {
		l.coming.Store(int64(read.most - (read.count - 1)))
		l.drained.Store(read.puts)
	} else {
		l.coming.Store(0)
	}
	l.push(event{read: read})
}

// came notes what came without being asked for: so many answers.
func (l *lane) came(it event, count int) {
	l.coming.Add(-int64(count))
	l.push(it)
}

func (l *lane) push(it event) {
	l.queueing.Lock()
	l.queue = append(l.queue, it)
	l.queueing.Unlock()
	poke(l.woken)
}

func (l *lane) take() []event {
	l.queueing.Lock()
	defer l.queueing.Unlock()
	taken := l.queue
	l.queue = nil
	return taken
}

// run deals out what comes, until the lane is left.
func (l *lane) run() {
	for {
		select {
		case <-l.woken:
			l.work()
		case <-l.left:
			return
		case <-l.readers.process.ended:
			l.work()
			l.mutex.Lock()
			l.end(l.readers.process.why())
			l.mutex.Unlock()
			return
		}
	}
}

// work deals out what was printed, and asks for more if little more comes by itself.
func (l *lane) work() {
	l.mutex.Lock()
	defer l.mutex.Unlock()
	if l.isLeft() {
		return
	}
	if err := l.dealAll(l.take()); err != nil {
		l.end(err)
		return
	}
	l.leaveIfAlone()
	l.askForMore()
}

// askForMore asks for the next pages of what was stored, and once they are there for what comes.
func (l *lane) askForMore() {
	if l.isLeft() || !l.hasRoom() {
		return
	}
	var lines []request
	for ; l.pages > 0 && l.away < pagesAway; l.pages-- {
		lines = append(lines, l.readOf(pageRead))
		l.away++
	}
	if l.away == 0 && l.coming.Load() < fewComing {
		lines = append(lines, l.readOf(mostComing))
		l.away++
	}
	if len(lines) > 0 {
		l.readers.process.send(lines...)
	}
}

// dealAll deals out what events have, alerts that follow each other together.
func (l *lane) dealAll(events []event) error {
	var together []*Alert
	for _, it := range events {
		if it.alerts != nil {
			together = append(together, it.alerts...)
			continue
		}
		l.deal(together)
		together = nil
		if it.joins != nil {
			it.joins.isIn = true
			poke(it.joins.filled)
			continue
		}
		alerts, err := it.shown()
		l.deal(alerts)
		if it.read != nil && l.away > 0 {
			l.away--
		}
		if err != nil {
			return err
		}
	}
	l.deal(together)
	return nil
}

// shown are the alerts that an event shows. If no more come, the error says why.
func (it *event) shown() ([]*Alert, error) {
	if it.read != nil {
		return alertsIn(it.read)
	}
	found, err := parseAnswer(it.line)
	if err != nil {
		return nil, err
	}
	return alertsOfAnswers([]answer{found})
}

// catchUp has all printed that came to the lane, unless its reader is full.
func (l *lane) catchUp() {
	for {
		l.mutex.Lock()
		if l.isLeft() || !l.hasRoom() {
			l.mutex.Unlock()
			return
		}
		l.away++
		read := l.readers.process.send(l.readOf(mostComing))[0]
		l.mutex.Unlock()
		if read.wait() != nil || isPending(read) {
			return
		}
		l.work()
	}
}

// hasRoom says whether the lane is to be read.
func (l *lane) hasRoom() bool {
	for it := range l.members {
		if !l.isShared && it.isFull() {
			return false
		}
	}
	return true
}

// isPending says whether an answered read found the lane's end.
func isPending(read *call) bool {
	return bytes.HasSuffix(read.answers, []byte(`"answer":"pending"}`+"\n"))
}

// deal gives alerts to each member that is in. Of those that share a lane it cuts off who is full.
func (l *lane) deal(alerts []*Alert) {
	if len(alerts) == 0 {
		return
	}
	for it := range l.members {
		if !it.isIn {
			continue
		}
		if l.isShared && it.isFull() {
			it.end(errCut)
			delete(l.members, it)
			continue
		}
		it.give(alerts)
	}
}

// end ends each member, and leaves the lane.
func (l *lane) end(err error) {
	for it := range l.members {
		it.end(err)
		delete(l.members, it)
	}
	l.leaveIfAlone()
}

// leaveIfAlone leaves the lane if no member is left.
func (l *lane) leaveIfAlone() {
	if len(l.members) > 0 || l.isLeft() {
		return
	}
	close(l.left)
	l.readers.forget(l)
	go l.leaveAgain(l.readers.process.send(request{text: leaveLine(l.name)})[0])
	if !l.isShared {
		<-l.readers.own
	}
}

// leaveAgain asks the program again while it refuses to leave the lane: then it had no memory for that, and did nothing.
func (l *lane) leaveAgain(asked *call) {
	for isRefused(asked) {
		select {
		case <-time.After(refusedPause):
			asked = l.readers.process.send(request{text: leaveLine(l.name)})[0]
		case <-l.readers.process.ended:
			return
		}
	}
}

// isRefused waits for a call's answers, and says whether it is refused.
func isRefused(asked *call) bool {
	if asked.wait() != nil {
		return false
	}
	answers, err := answersOf(asked)
	return err == nil && len(answers) > 0 && answers[0].word == "refused"
}

func (m *member) isFull() bool {
	m.mutex.Lock()
	defer m.mutex.Unlock()
	return len(m.waiting) >= mostWaiting
}

func (m *member) give(alerts []*Alert) {
	m.mutex.Lock()
	defer m.mutex.Unlock()
	m.waiting = append(m.waiting, alerts...)
	poke(m.filled)
}

// end ends the member once it has taken what waits.
func (m *member) end(err error) {
	m.mutex.Lock()
	defer m.mutex.Unlock()
	m.err = err
	poke(m.filled)
}

// next waits until there are alerts, or until the iterator is closed. With an error no more come.
func (m *member) next(closed <-chan struct{}) ([]*Alert, error) {
	if opening := m.opening; opening != nil {
		m.opening = nil
		select {
		case <-opening.done:
			return alertsIn(opening)
		case <-closed:
			return nil, errClosed
		}
	}
	select {
	case <-m.filled:
		return m.take()
	case <-closed:
		return nil, errClosed
	}
}

// take takes all that waits.
func (m *member) take() ([]*Alert, error) {
	m.mutex.Lock()
	defer m.mutex.Unlock()
	alerts := m.waiting
	m.waiting = nil
	if len(alerts) >= mostWaiting {
		poke(m.lane.woken)
	}
	return alerts, m.err
}

func (m *member) leave() {
	m.lane.mutex.Lock()
	defer m.lane.mutex.Unlock()
	delete(m.lane.members, m)
	m.lane.leaveIfAlone()
}
