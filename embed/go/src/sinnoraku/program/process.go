package program

import (
	"bufio"
	"bytes"
	"errors"
	"fmt"
	"io"
	"sync"
	"sync/atomic"
	"time"
)

const (
	// How long the program may print nothing at most once its input has ended.
	endPatience = 10 * time.Second
	// How long what it printed is read once it has ended, if something that it started still holds its output.
	leftPatience = 2 * time.Second
	// The number of the first line after the configuration.
	firstLine = 2
)

// A process is one running replay program. It runs the lines that it is given in their order, so many callers can wait
// for their answers at once. One goroutine reads the answers and hands each to its call.
//
// An answer that isn't the next line's kills the program. One that prints for ever isn't killed: each print is work.
type process struct {
	*child
	path    string
	said    tail          // the end of its error stream
	readers *readers      // what comes for subscriptions is theirs
	ended   chan struct{} // closed once the program has ended and each call has its answer or an error
	printed atomic.Int64  // how many lines it has printed
	puts    atomic.Int64  // how many puts were written

	writing sync.Mutex // held while lines are numbered and written, so that numbers are in the order of the lines
	last    int        // the number of the last line

	// The alerts that accepted puts gave since the last collection, as the program has them too: it shows one by its place
	// here. Only the goroutine that reads the answers has them.
	known []*Alert

	mutex   sync.Mutex // guards what follows
	waiting map[int]*call
	err     error // why no more calls are taken
}

// A request is a line to be written, with its line feed.
type request struct {
	text  []byte
	put   *line   // the alerts that it puts, if it does
	to    *lane   // whose read it is, if it is one
	most  int     // how many alerts that reads
	joins *member // who joins the lane where this is answered
}

// A call is a request that was written, with its answers once they are there.
type call struct {
	request
	puts    int64    // how many puts were written up to it
	count   int      // how many answers there are
	answers []byte   // one object a line
	known   []*Alert // those that the answers show by their places, in their order
	err     error
	done    chan struct{}
}

// start starts the program with these arguments and gives it its first line. If it can't be started, it has ended already.
func start(path string, arguments []string, configuration string, its *readers) *process {
	p := &process{
		child: newChild(path, arguments), path: path, readers: its,
		ended: make(chan struct{}), waiting: map[int]*call{}, last: firstLine - 1,
	}
	its.process = p
	if err := p.launch(); err != nil {
		p.refuse(&because{ErrDied, err})
		p.end(nil)
		return p
	}
	if _, err := io.WriteString(p.input, configuration+"\n"); err != nil {
		p.kill(nil)
	}
	go p.keep()
	return p
}

// keep reads what the program prints, until it has ended.
func (p *process) keep() {
	var reading sync.WaitGroup
	reading.Add(2)
	go func() {
		defer reading.Done()
		if err := p.readAnswers(bufio.NewReaderSize(p.output, 1<<16)); err != nil {
			p.kill(&because{ErrDied, err})
		}
	}()
	go func() {
		defer reading.Done()
		_, _ = io.Copy(&p.said, p.told)
	}()
	p.waitForEnd()
	p.killGroup() // what it has started ends with it
	late := time.AfterFunc(leftPatience, p.closePipes)
	reading.Wait()
	late.Stop()
	p.end(p.reap())
}

// watch checks each interval whether the program still answers, until it ends.
func (p *process) watch(interval, patience time.Duration) {
	ticker := time.NewTicker(interval)
	defer ticker.Stop()
	for {
		select {
		case <-ticker.C:
			_ = p.check(patience)
		case <-p.ended:
			return
		}
	}
}

// check asks the program what it answers at once, however much is stored. A program that prints nothing for that long
// while it is asked is killed.
func (p *process) check(patience time.Duration) error {
	answered := make(chan struct{})
	defer close(answered)
	go p.killIfSilent(patience, answered)
	_, err := p.ask(getRoutes)
	return err
}

// killIfSilent kills the program if it prints nothing for that long. What it prints for other calls counts, since the
// answer comes after theirs. The time is counted in parts: one in which this process was stopped too is one part.
func (p *process) killIfSilent(patience time.Duration, answered <-chan struct{}) {
	const parts = 10
	ticker := time.NewTicker(patience/parts + 1)
	defer ticker.Stop()
	printed := p.printed.Load()
	for silent := 0; silent < parts; silent++ {
		select {
		case <-ticker.C:
		case <-answered:
			return
		}
		if now := p.printed.Load(); now != printed {
			printed, silent = now, -1
		}
	}
	killed := errors.New(withSaid(fmt.Sprintf("%s was killed after %v", p.path, patience), p.said.String()))
	p.kill(&because{ErrDied, &because{ErrSilent, killed}})
}

// ask writes a line and waits for its answers.
func (p *process) ask(line []byte) (*call, error) {
	asked := p.send(request{text: line})[0]
	return asked, asked.wait()
}

func (c *call) wait() error {
	<-c.done
	return c.err
}

// send writes lines, each with its line feed, so that none comes between them. It doesn't wait for their answers.
func (p *process) send(lines ...request) []*call {
	calls := make([]*call, len(lines))
	p.writing.Lock()
	defer p.writing.Unlock()
	if err := p.expect(calls, lines); err != nil {
		return calls
	}
	text := lines[0].text
	if len(lines) > 1 {
		var texts [][]byte
		for _, it := range lines {
			texts = append(texts, it.text)
		}
		text = bytes.Join(texts, nil)
	}
	if _, err := p.input.Write(text); err != nil {
		// The reading goroutine finds the end of the answers, and then ends each call.
		p.kill(nil)
	}
	return calls
}

// expect makes the calls of the next lines. If no more are taken, they have ended already.
func (p *process) expect(calls []*call, lines []request) error {
	p.mutex.Lock()
	defer p.mutex.Unlock()
	for at := range calls {
		if lines[at].put != nil {
			p.puts.Add(1)
		}
		calls[at] = &call{request: lines[at], puts: p.puts.Load(), err: p.err, done: make(chan struct{})}
		if p.err != nil {
			close(calls[at].done)
			continue
		}
		p.last++
		p.waiting[p.last] = calls[at]
	}
	return p.err
}

// readAnswers hands each answer to its call, to the end of the output. What can't be the next answer is an error.
func (p *process) readAnswers(output *bufio.Reader) error {
	var current, before *call
	for next := firstLine; ; {
		line, err := readLine(output)
		if err != nil {
			return nil
		}
		p.printed.Add(1)
		number, kind := headOf(line)
		switch {
		case kind == isFirst || kind == isLast:
			p.noteEnd(line)
			continue
		case kind == isNone:
			return fmt.Errorf("%s printed what is no answer: %.200q", p.path, line)
		case (kind == isCame || kind == isKept) && number != next-1:
			return fmt.Errorf("%s printed what doesn't follow its line: %.200q", p.path, line)
		case kind == isCame:
			if err := p.came(line); err != nil {
				return err
			}
			continue
		case kind == isKept:
			if err := p.keeps(line, before); err != nil {
				return err
			}
			continue
		case current == nil:
			current = p.waitingFor(next)
		}
		if number != next || current == nil {
			return fmt.Errorf("%s answered a line that nobody waits for, or not the next one: %.200q", p.path, line)
		}
		if kind == isAnswer {
			if err := p.note(current, line); err != nil {
				return err
			}
			continue
		}
		if count := closingCount(line); count != current.count {
			return fmt.Errorf("%s gave line %d %d answers where %d were announced", p.path, next, current.count, count)
		}
		if isCollection(current) {
			p.known = nil
		}
		p.answered(next)
		next, before, current = next+1, current, nil
	}
}

// readLine reads a line with its line feed. The bytes are good until the next read.
func readLine(from *bufio.Reader) ([]byte, error) {
	line, err := from.ReadSlice('\n')
	if err != bufio.ErrBufferFull {
		return line, err
	}
	long := append([]byte(nil), line...)
	rest, err := from.ReadBytes('\n')
	return append(long, rest...), err
}

func (p *process) waitingFor(number int) *call {
	p.mutex.Lock()
	defer p.mutex.Unlock()
	return p.waiting[number]
}

// answered ends the call of a line.
func (p *process) answered(number int) {
	p.mutex.Lock()
	answered := p.waiting[number]
	delete(p.waiting, number)
	p.mutex.Unlock()
	if answered.to != nil {
		answered.to.answered(answered)
	}
	close(answered.done)
}

// note adds an answer to its call, with the alerts that it shows by their places.
func (p *process) note(to *call, line []byte) error {
	to.answers = append(to.answers, line...)
	shown, isAsPut := placesOf(afterNumber(line))
	if !isAsPut {
		to.count++
		return nil
	}
	if !shown.are(len(p.known)) {
		return p.unknown(line)
	}
	to.known = append(to.known, p.known[shown.from:shown.from+shown.count]...)
	to.count += shown.count
	return nil
}

// came hands what came for a subscription to its lane.
func (p *process) came(line []byte) error {
	name, what := cameOf(line)
	shown, isAsPut := placesOf(what)
	if !isAsPut {
		p.readers.came(name, event{line: append([]byte(nil), line...)}, 1)
		return nil
	}
	if !shown.are(len(p.known)) {
		return p.unknown(line)
	}
	alerts := append([]*Alert(nil), p.known[shown.from:shown.from+shown.count]...)
	p.readers.came(name, event{alerts: alerts}, shown.count)
	return nil
}

// keeps notes where alerts of the last put went. A new label set has the place after the others.
func (p *process) keeps(line []byte, last *call) error {
	index, kept := keptOf(line)
	if last == nil || last.put == nil || !(places{index, kept.count}).are(len(last.put.alerts)) ||
		kept.from < 0 || kept.from > len(p.known) {
		return p.unknown(line)
	}
	shown := last.put.shown()[index : index+kept.count]
	replaced := copy(p.known[kept.from:], shown)
	p.known = append(p.known, shown[replaced:]...)
	return nil
}

func (p *process) unknown(line []byte) error {
	return fmt.Errorf("%s showed alerts that no put has: %.200q", p.path, line)
}

// isCollection says whether a call was answered by a collection. Then no alert is known any more.
func isCollection(answered *call) bool {
	rest := afterNumber(answered.answers)
	return bytes.HasPrefix(rest, takeHead) || bytes.HasPrefix(rest, collectHead)
}

// noteEnd keeps a refusal of the configuration as why the program ended.
func (p *process) noteEnd(line []byte) {
	if refused, err := parseAnswer(line); err == nil && refused.word == "refused" {
		_, _ = fmt.Fprintf(&p.said, "%s refused: %s", refused.do, refused.fault)
	}
}

// end says that the program has ended, and ends each call that still waits.
func (p *process) end(exit error) {
	p.mutex.Lock()
	if p.err == nil {
		p.err = &because{ErrDied, fmt.Errorf("%s ended by itself: %s", p.path, withSaid(endText(exit), p.said.String()))}
	}
	err, left := p.err, p.waiting
	p.waiting = nil
	p.mutex.Unlock()
	for _, it := range left {
		it.err = err
		close(it.done)
	}
	close(p.ended)
}

func endText(exit error) string {
	if exit == nil {
		return "exit status 0"
	}
	return exit.Error()
}

// withSaid is a text followed by what the program said on its error stream.
func withSaid(text, said string) string {
	if said == "" {
		return text
	}
	return text + ": " + said
}

// why says why the program takes no more calls; nil while it does.
func (p *process) why() error {
	p.mutex.Lock()
	defer p.mutex.Unlock()
	return p.err
}

// close ends the program's input, and waits until the program has answered what was asked before and has ended. One that
// prints nothing for that long is killed.
func (p *process) close(patience time.Duration) {
	p.refuse(ErrClosed)
	// A writer that is stuck is freed by the program's end.
	go p.killIfSilent(patience, p.ended)
	p.writing.Lock()
	if p.input != nil {
		_ = p.input.Close()
	}
	p.writing.Unlock()
	<-p.ended
}

// kill kills the program with what it has started. Without a reason calls end with how it ended.
func (p *process) kill(reason error) {
	p.refuse(reason)
	p.killGroup()
}

// endForGood says to all calls from now on that no other program starts, and returns what they end with.
func (p *process) endForGood() error {
	p.mutex.Lock()
	defer p.mutex.Unlock()
	p.err = &because{ErrEnded, p.err}
	return p.err
}

// refuse takes no more calls. The first reason counts.
func (p *process) refuse(reason error) {
	p.mutex.Lock()
	defer p.mutex.Unlock()
	if p.err == nil {
		p.err = reason
	}
}

// A tail keeps the last bytes that are written to it.
type tail struct {
	mutex sync.Mutex
	bytes []byte
}

const tailLength = 2048

func (t *tail) Write(written []byte) (int, error) {
	t.mutex.Lock()
	defer t.mutex.Unlock()
	t.bytes = append(t.bytes, written...)
	if over := len(t.bytes) - tailLength; over > 0 {
		t.bytes = append([]byte(nil), t.bytes[over:]...)
	}
	return len(written), nil
}

func (t *tail) String() string {
	t.mutex.Lock()
	defer t.mutex.Unlock()
	return string(bytes.TrimSpace(t.bytes))
}
