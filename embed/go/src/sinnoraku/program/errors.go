package program

import (
	"errors"
	"fmt"
	"sort"
	"strings"

	"github.com/prometheus/common/model"
)

// What calls end with. errors.Is finds each of them in an error that says more.
var (
	// ErrClosed: the provider was closed.
	ErrClosed = errors.New("sinnoraku: the provider is closed")
	// ErrDied: the program has died, or was killed. A Put of that moment may have been stored or not.
	ErrDied = errors.New("sinnoraku: the program has died")
	// ErrSilent: the program was killed, since it answered nothing for Options.Patience. It is ErrDied too.
	ErrSilent = errors.New("sinnoraku: it answered nothing in time")
	// ErrEnded: too many programs have died, and no other one starts. It is ErrDied too.
	ErrEnded = errors.New("sinnoraku: the provider has ended")
	// ErrFull: the log is full, and Options.Refuse says that the Put is refused then.
	ErrFull = errors.New("sinnoraku: the log is full")
	// ErrNoMemory: the program had no memory for the call, which changed nothing.
	ErrNoMemory = errors.New("sinnoraku: the program has no memory for it")
	// ErrTooLarge: an alert takes more bytes than a line of the program holds.
	ErrTooLarge = errors.New("sinnoraku: an alert is too large")
	// ErrText: a text of an alert isn't UTF-8.
	ErrText = errors.New("sinnoraku: a text isn't UTF-8")
	// ErrMoment: a moment of an alert is before the first or after the last one that the program has.
	ErrMoment = errors.New("sinnoraku: a moment is out of range")
)

// byCode are the errors of the program's own codes.
var byCode = map[string]error{"E0": ErrNoMemory, "E13": ErrFull, "P3": ErrTooLarge}

// plain is an error's text without the package's name.
func plain(err error) string { return strings.TrimPrefix(err.Error(), "sinnoraku: ") }

// A because error is one of the package's errors, and says why it came. errors.Is finds both.
type because struct{ what, why error }

func (b *because) Error() string        { return b.what.Error() + ": " + plain(b.why) }
func (b *because) Is(target error) bool { return target == b.what }
func (b *because) Unwrap() error        { return b.why }

// A refusal is a fault as the program prints it: a code, and what there is to say.
type refusal struct{ text string }

func (r *refusal) Error() string { return "sinnoraku: refused: " + r.text }

func (r *refusal) Is(target error) bool { return byCode[r.code()] == target }

func (r *refusal) code() string {
	code, _, _ := strings.Cut(r.text, " ")
	return code
}

// A PutError says why one alert of a Put wasn't stored. errors.Is finds ErrFull and the like in it.
type PutError struct {
	Index       int // of the alert in the call
	Fingerprint model.Fingerprint
	Labels      model.LabelSet
	Code        string // the program's code of the fault, as E11; empty if the alert couldn't be written for the program
	Text        string // the whole fault, as `E11 EndBeforeStart`
	why         error
}

func (e *PutError) Error() string { return "sinnoraku: not stored: " + e.fault() }

// Unwrap is the error that the alert wasn't stored for.
func (e *PutError) Unwrap() error { return e.why }

func (e *PutError) fault() string { return fmt.Sprintf("%v: %s", e.Labels, e.Text) }

// PutErrors says what of a Put wasn't stored. errors.Is and errors.As look at each of its errors in turn.
type PutErrors struct {
	// Alerts has an error for each alert that wasn't stored, in the order of the call.
	Alerts []*PutError
	// Others say why the Put couldn't go on, if so. Then an alert that isn't in Alerts may have been stored or not.
	Others []error
}

func (e *PutErrors) Error() string {
	var faults []string
	for from := 0; from < len(e.Alerts); {
		to := from + 1
		for to < len(e.Alerts) && e.Alerts[to].why == e.Alerts[from].why {
			to++
		}
		if to == from+1 {
			faults = append(faults, e.Alerts[from].fault())
		} else { // of one line that was refused
			faults = append(faults, fmt.Sprintf("%d alerts from %v on: %s", to-from, e.Alerts[from].Labels, e.Alerts[from].Text))
		}
		from = to
	}
	for _, it := range e.Others {
		faults = append(faults, plain(it))
	}
	return "sinnoraku: not stored: " + strings.Join(faults, "; ")
}

// Is says whether one of the errors is the target.
func (e *PutErrors) Is(target error) bool {
	for _, it := range e.all() {
		if errors.Is(it, target) {
			return true
		}
	}
	return false
}

// As finds the first of the errors that has the target's type.
func (e *PutErrors) As(target any) bool {
	for _, it := range e.all() {
		if errors.As(it, target) {
			return true
		}
	}
	return false
}

func (e *PutErrors) all() (errs []error) {
	for _, it := range e.Alerts {
		errs = append(errs, it)
	}
	return append(errs, e.Others...)
}

// add notes that an alert wasn't stored.
func (e *PutErrors) add(index int, alert *Alert, why error) {
	failed := &PutError{
		Index: index, Fingerprint: fingerprintOf(alert.Labels), Labels: alert.Labels, Text: plain(why), why: why,
	}
	var refused *refusal
	if errors.As(why, &refused) {
		failed.Code, failed.Text = refused.code(), refused.text
	}
	e.Alerts = append(e.Alerts, failed)
}

// stop notes why the Put can't go on. Lines that fail together have one error.
func (e *PutErrors) stop(why error) {
	for _, it := range e.Others {
		if it == why {
			return
		}
	}
	e.Others = append(e.Others, why)
}

// orNil is what the Put returns.
func (e *PutErrors) orNil() error {
	switch {
	case len(e.Alerts) > 0:
		sort.SliceStable(e.Alerts, func(i, j int) bool { return e.Alerts[i].Index < e.Alerts[j].Index })
		return e
	case len(e.Others) == 1:
		return e.Others[0]
	case len(e.Others) > 1:
		return e
	}
	return nil
}
