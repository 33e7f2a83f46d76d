package program

import (
	"fmt"
	"sync"
	"time"

	"github.com/prometheus/common/model"
)

// What one line of the program holds.
const (
	mostAlerts = 1024
	mostBytes  = 8 << 20
)

// Put stores alerts, each merged with the stored one of its labels. Up to 1,024 alerts of one Put are stored together,
// and they reach each subscriber in their order. An error names those that weren't stored, each by a PutError.
func (p *Program) Put(alerts ...*Alert) error {
	var failed PutErrors
	if p.callback != nil {
		p.gate.Lock()
		defer p.gate.Unlock()
		p.putOneByOne(p.current.Load(), alerts, &failed)
		return failed.orNil()
	}
	p.gate.RLock()
	defer p.gate.RUnlock()
	p.current.Load().put(alerts, 0, &failed)
	return failed.orNil()
}

// putOneByOne asks the callback about each alert, and notifies it before the next one. It has the gate alone, so that
// nothing changes between the question and the put.
func (p *Program) putOneByOne(h *history, alerts []*Alert, failed *PutErrors) {
	for at, alert := range alerts {
		merged, existing, err := h.merged(alert, p.callback.Merge)
		switch {
		case err != nil && h.why() != nil:
			failed.stop(err)
			return
		case err != nil:
			failed.add(at, alert, err)
			continue
		case p.callback.PreStore(merged, existing) != nil:
			continue
		}
		before := len(failed.Alerts)
		if h.put([]*Alert{merged}, at, failed); len(failed.Others) > 0 {
			return
		}
		if len(failed.Alerts) == before {
			p.callback.PostStore(merged, existing)
		}
	}
}

// merged is the alert as it would be stored, and whether one of its labels is.
func (h *history) merged(alert *Alert, merge func(stored, report *Alert) *Alert) (_ *Alert, existing bool, _ error) {
	labels, found := h.known.get(fingerprintOf(alert.Labels))
	if !found {
		return alert, false, h.why()
	}
	stored, err := h.get(labels)
	if stored == nil || err != nil {
		return alert, false, err
	}
	old, new := timed(stored), timed(alert)
	if !overlap(&old, &new) {
		return alert, true, nil
	}
	whole := merge(&old, &new)
	untime(whole)
	return whole, true, nil
}

// overlap is the test before Merge in provider/mem's Put.
func overlap(old, new *Alert) bool {
	return new.EndsAt.After(old.StartsAt) && new.EndsAt.Before(old.EndsAt) ||
		new.StartsAt.After(old.StartsAt) && new.StartsAt.Before(old.EndsAt)
}

// put writes the lines of all alerts, and then waits for the answers of each. The first alert has this index in its call.
func (h *history) put(alerts []*Alert, index int, failed *PutErrors) {
	room := rooms.Get().(*[]byte)
	w := writer{text: (*room)[:0], now: time.Now()}
	for at, alert := range alerts {
		if err := w.add(alert, index+at); err != nil {
			failed.add(index+at, alert, err)
		}
	}
	lines := w.finish()
	if len(lines) == 0 {
		return
	}
	calls := h.sendPuts(lines)
	// The program works on them meanwhile.
	for _, it := range w.lines {
		it.shown()
		w.identify(it, &h.known)
	}
	*room = w.text
	rooms.Put(room)
	for at, it := range w.lines {
		if err := h.take(calls[at], it, failed); err != nil {
			failed.stop(err)
		}
	}
}

// sendPuts writes the lines of a put, at once as many as the readers' part of the log has room for.
func (h *history) sendPuts(lines []request) (calls []*call) {
	for len(lines) > 0 {
		count := h.readers.makeWay(len(lines))
		calls = append(calls, h.send(lines[:count]...)...)
		lines = lines[count:]
	}
	return calls
}

// rooms are texts that lines are written into.
var rooms = sync.Pool{New: func() any { return new([]byte) }}

// A writer writes the lines of a Put into one text.
type writer struct {
	text  []byte
	lines []*line
	now   time.Time
}

// A line is a part of the text.
type line struct {
	from, to int
	alerts   []written
	noting   sync.Once
	noted    []*Alert // the alerts as the program prints them, once they are noted
}

// A written alert, with the part of the text that has its labels.
type written struct {
	alert    *Alert
	index    int // in the call
	from, to int
	// What will be known of it once it is stored. The labels are empty if they are known already.
	fingerprint model.Fingerprint
	labels      string
}

// add writes an alert into the last line, or into a new one if that is full. If it can't be written, nothing is.
func (w *writer) add(alert *Alert, index int) error {
	last := w.last()
	before := len(w.text)
	text := w.text
	if len(last.alerts) > 0 {
		text = append(text, ',')
	}
	text, from, to, err := appendAlert(text, alert)
	w.text = text
	if err != nil {
		w.text = text[:before]
		return err
	}
	if size := len(text) - last.from + len(putEnd); size > mostBytes {
		w.text = text[:before]
		if len(last.alerts) == 0 {
			return fmt.Errorf("%w: it takes %d bytes", ErrTooLarge, size)
		}
		w.end(last)
		return w.add(alert, index)
	}
	last.alerts = append(last.alerts, written{alert: alert, index: index, from: from, to: to})
	if len(last.alerts) == mostAlerts {
		w.end(last)
	}
	return nil
}

// last is the line that is being written.
func (w *writer) last() *line {
	if count := len(w.lines); count > 0 && w.lines[count-1].to == 0 {
		return w.lines[count-1]
	}
	begun := &line{from: len(w.text)}
	w.lines = append(w.lines, begun)
	w.text = appendPutHead(w.text, w.now)
	return begun
}

func (w *writer) end(last *line) {
	w.text = append(w.text, putEnd...)
	last.to = len(w.text)
}

// finish ends the last line, and is what is to be sent of each.
func (w *writer) finish() []request {
	if count := len(w.lines); count > 0 && w.lines[count-1].to == 0 {
		if last := w.lines[count-1]; len(last.alerts) > 0 {
			w.end(last)
		} else {
			w.lines = w.lines[:count-1]
		}
	}
	requests := make([]request, len(w.lines))
	for at, it := range w.lines {
		requests[at] = request{text: w.text[it.from:it.to], put: it}
	}
	return requests
}

// shown are the alerts as the program prints them. They are noted before the Put returns, by whoever needs them first: its
// goroutine, or the one that reads what the program shows of them.
func (l *line) shown() []*Alert {
	l.noting.Do(func() {
		l.noted = make([]*Alert, len(l.alerts))
		for at := range l.alerts {
			l.noted[at] = asPrinted(l.alerts[at].alert)
		}
	})
	return l.noted
}

// asPrinted is an alert as it is when it has been written, stored as it is, printed and read. It shares the alert's labels
// and annotations.
func asPrinted(alert *Alert) *Alert {
	it := timed(alert)
	it.StartsAt, it.EndsAt, it.UpdatedAt = it.StartsAt.Round(0).UTC(), it.EndsAt.Round(0).UTC(), it.UpdatedAt.Round(0).UTC()
	untime(&it)
	for _, value := range it.Labels {
		if value == "" {
			it.Labels = withValues(it.Labels)
			break
		}
	}
	if it.Annotations == nil {
		it.Annotations = model.LabelSet{}
	}
	return &it
}

// identify computes what will be known of a line's alerts.
func (w *writer) identify(l *line, known *labelTexts) {
	for at := range l.alerts {
		it := &l.alerts[at]
		it.fingerprint = fingerprintOf(it.alert.Labels)
		if _, found := known.get(it.fingerprint); !found {
			it.labels = string(w.text[it.from:it.to])
		}
	}
}

// fingerprintOf is the fingerprint of the labels that have a value.
func fingerprintOf(labels model.LabelSet) model.Fingerprint {
	for _, value := range labels {
		if value == "" {
			return withValues(labels).Fingerprint()
		}
	}
	return labels.Fingerprint()
}

func withValues(labels model.LabelSet) model.LabelSet {
	kept := model.LabelSet{}
	for name, value := range labels {
		if value != "" {
			kept[name] = value
		}
	}
	return kept
}

// take waits for a line's answers, and notes what was stored and what wasn't.
func (h *history) take(asked *call, l *line, failed *PutErrors) error {
	if err := asked.wait(); err != nil {
		return err
	}
	answers, err := answersOf(asked)
	if err != nil {
		return err
	}
	isPosted := false
	for _, it := range answers {
		switch {
		case it.word == "post":
			isPosted = true
		case it.word == "refused":
			refused := &refusal{h.readers.named(it.fault)}
			for _, one := range l.alerts {
				failed.add(one.index, one.alert, refused)
			}
			return nil
		case it.word == "invalid" && it.index < len(l.alerts):
			one := &l.alerts[it.index]
			failed.add(one.index, one.alert, &refusal{it.fault})
			one.labels = ""
		}
	}
	if !isPosted {
		return fmt.Errorf("sinnoraku: a put was answered by %q", asked.answers)
	}
	for _, it := range l.alerts {
		if it.labels != "" {
			h.known.add(it.fingerprint, it.labels)
		}
	}
	return nil
}
