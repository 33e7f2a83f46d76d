package program

import (
	"bytes"
	"fmt"
	"sync"
	"time"

	"github.com/prometheus/common/model"
)

// So many programs may die in that time. Then the provider ends.
const (
	mostDeaths  = 3
	deathWindow = time.Minute
)

// A history is what one program stores and broadcasts. If the program dies, the next one begins a history with an empty
// store. Putting again what it had would need a second store, which nothing proves, and Prometheus posts what fires about
// once a minute.
type history struct {
	*process
	known    labelTexts // of all stored alerts
	readers  readers
	replaced chan struct{} // closed once the next history has begun
}

// begin starts a program.
func (p *Program) begin() *history {
	h := &history{replaced: make(chan struct{})}
	h.known.texts = map[model.Fingerprint]string{}
	h.readers.init(p.options.Places)
	h.process = start(p.options.Program, p.options.arguments(), configuration, &h.readers)
	go h.watch(p.options.Interval, p.options.Patience)
	return h
}

// keep starts another program when one has died, until the provider is closed or too many have died.
func (p *Program) keep() {
	defer close(p.done)
	var deaths []time.Time
	for {
		h := p.current.Load()
		<-h.ended
		err := h.why()
		if err == ErrClosed {
			return
		}
		if deaths = append(deaths, time.Now()); areTooMany(deaths) {
			p.listener.Ended(h.endForGood())
			return
		}
		p.listener.Died(err)
		p.replace(h)
	}
}

// areTooMany says whether the last of the deaths are within the window.
func areTooMany(deaths []time.Time) bool {
	last := len(deaths) - 1
	return last >= mostDeaths-1 && deaths[last].Sub(deaths[last-mostDeaths+1]) < deathWindow
}

// replace begins the next history. What is lost is gone, as what a collection removes.
func (p *Program) replace(dead *history) {
	for _, fingerprint := range dead.known.all() {
		p.listener.Gone(fingerprint)
	}
	next := p.begin()
	p.current.Store(next)
	close(dead.replaced)
	select {
	case <-p.closing: // Close may have seen the dead one only
		next.close(p.options.endPatience())
	default:
	}
}

// get asks for the stored alert of these labels, and is nil if there is none.
func (h *history) get(labels string) (*Alert, error) {
	alerts, err := alertsIn(h.send(request{text: getLine(labels)})[0])
	if err != nil || len(alerts) == 0 {
		return nil, err
	}
	return alerts[0], nil
}

// How many alerts are asked for at once. Other lines come between two pages, so no put waits for a whole store.
const pageLength = 250

// stored asks for all stored alerts, page by page, some of them at once so that the program prints the next ones while
// these are decoded. Each alert is as it was when its page was read. New ones come at the end, so none is missed while no
// collection comes.
func (h *history) stored() (all []*Alert, _ error) {
	var away []*call
	asked := 0
	askUpTo := func(stored int) {
		for asked < stored && len(away) < pagesAway {
			most := stored - asked
			if most > pageLength {
				most = pageLength
			}
			away = append(away, h.send(request{text: pageLine(asked, most)})[0])
			asked += most
		}
	}
	askUpTo(pageLength)
	for len(away) > 0 {
		page := away[0]
		away = away[1:]
		stored, err := storedAt(page)
		if err != nil {
			return all, err
		}
		askUpTo(stored)
		answers, err := answersOf(page)
		if err != nil {
			return all, err
		}
		all = append(all, alertsOf(answers)...)
	}
	return all, nil
}

// storedAt waits for a page, and is how many alerts were stored in all when it was read.
func storedAt(page *call) (int, error) {
	if err := page.wait(); err != nil {
		return 0, err
	}
	head, err := parseAnswer(page.answers[:bytes.IndexByte(page.answers, '\n')+1])
	switch {
	case err != nil:
		return 0, err
	case head.word == "page":
		return head.stored, nil
	case head.word == "refused":
		return 0, &refusal{head.fault}
	}
	return 0, fmt.Errorf("sinnoraku: no page was answered, but %.200q", page.answers)
}

// takeResolved has what is resolved removed, and returns it.
func (h *history) takeResolved(now time.Time) ([]*Alert, error) {
	answers, err := answersFor(h.send(request{text: takeLine(now)})[0], "take")
	if err != nil {
		return nil, err
	}
	taken := alertsOf(answers[1:])
	if len(taken) != answers[0].removed {
		return nil, fmt.Errorf("sinnoraku: %d alerts were removed, and %d named", answers[0].removed, len(taken))
	}
	return taken, nil
}

// answersFor waits for a call's answers, the first of which has this word.
func answersFor(asked *call, word string) ([]answer, error) {
	if err := asked.wait(); err != nil {
		return nil, err
	}
	answers, err := answersOf(asked)
	switch {
	case err != nil:
		return nil, err
	case len(answers) > 0 && answers[0].word == word:
		return answers, nil
	case len(answers) > 0 && answers[0].word == "refused":
		return nil, &refusal{answers[0].fault}
	}
	return nil, fmt.Errorf("sinnoraku: no %s was answered, but %.200q", word, asked.answers)
}

// alertsOf are the alerts of answers.
func alertsOf(answers []answer) []*Alert {
	alerts := make([]*Alert, 0, len(answers))
	for _, it := range answers {
		if it.alert != nil {
			alerts = append(alerts, it.alert)
		}
	}
	return alerts
}

// alertsIn waits for a call's answers and reads the alerts in them. If they end with a cut, that is errCut.
func alertsIn(asked *call) ([]*Alert, error) {
	if err := asked.wait(); err != nil {
		return nil, err
	}
	answers, err := answersOf(asked)
	if err != nil {
		return nil, err
	}
	return alertsOfAnswers(answers)
}

// alertsOfAnswers are the alerts that a question's answers show. If they end with a cut, that is errCut.
func alertsOfAnswers(answers []answer) ([]*Alert, error) {
	alerts := make([]*Alert, 0, len(answers))
	for _, it := range answers {
		switch it.word {
		case "alert", "item", asPut:
			if it.alert == nil {
				return nil, fmt.Errorf("sinnoraku: an %s has no alert", it.word)
			}
			alerts = append(alerts, it.alert)
		case "stored", "no_alert", "pending":
		case "cut":
			return alerts, errCut
		case "refused":
			return nil, &refusal{it.fault}
		default:
			return nil, fmt.Errorf("sinnoraku: a question was answered by %q", it.word)
		}
	}
	return alerts, nil
}

// labelTexts has the labels of each fingerprint, as they are written in a line.
type labelTexts struct {
	mutex sync.RWMutex
	texts map[model.Fingerprint]string
}

func (l *labelTexts) all() (fingerprints []model.Fingerprint) {
	l.mutex.RLock()
	defer l.mutex.RUnlock()
	for it := range l.texts {
		fingerprints = append(fingerprints, it)
	}
	return fingerprints
}

func (l *labelTexts) get(fingerprint model.Fingerprint) (string, bool) {
	l.mutex.RLock()
	defer l.mutex.RUnlock()
	text, found := l.texts[fingerprint]
	return text, found
}

func (l *labelTexts) add(fingerprint model.Fingerprint, text string) {
	l.mutex.Lock()
	defer l.mutex.Unlock()
	l.texts[fingerprint] = text
}

func (l *labelTexts) remove(fingerprint model.Fingerprint) {
	l.mutex.Lock()
	defer l.mutex.Unlock()
	delete(l.texts, fingerprint)
}
