package sinnoraku

import (
	"errors"
	"fmt"
	"reflect"
	"sync"
	"testing"
	"time"

	"github.com/go-kit/log"
	"github.com/prometheus/common/model"

	"github.com/prometheus/alertmanager/store"
	"github.com/prometheus/alertmanager/types"
)

// A recorder is a callback that notes what it is asked and notified of, and refuses what has the label `refuse`.
type recorder struct {
	mutex sync.Mutex
	calls []string
}

func (r *recorder) note(what string, alert *types.Alert, existing bool) {
	r.mutex.Lock()
	defer r.mutex.Unlock()
	r.calls = append(r.calls, fmt.Sprintf("%s %s from %d %v", what, alert.Labels["n"], alert.StartsAt.Unix(), existing))
}

func (r *recorder) PreStore(alert *types.Alert, existing bool) error {
	r.note("pre", alert, existing)
	if alert.Labels["refuse"] != "" {
		return errors.New("refused")
	}
	alert.Annotations = model.LabelSet{"by": "callback"}
	return nil
}

func (r *recorder) PostStore(alert *types.Alert, existing bool) { r.note("post", alert, existing) }
func (r *recorder) PostDelete(alert *types.Alert)               { r.note("delete", alert, true) }

func TestTheCallbackSeesTheMergedAlert(t *testing.T) {
	callback := &recorder{}
	a := startWith(t, time.Hour, callback, log.NewNopLogger(), Options{})
	late := time.Now().Add(time.Hour)
	report := func(n string, from int64, labels model.LabelSet) *types.Alert {
		labels["n"] = model.LabelValue(n)
		return alertOf(labels, time.Unix(from, 0), late)
	}
	put(t, a, report("1", 1000, model.LabelSet{}))
	put(t, a, report("1", 2000, model.LabelSet{}), report("2", 3000, model.LabelSet{"refuse": "x"}), report("1", 4000, model.LabelSet{}))
	want := []string{
		"pre 1 from 1000 false", "post 1 from 1000 false",
		"pre 1 from 2000 true", "post 1 from 2000 true",
		"pre 2 from 3000 false",
		"pre 1 from 4000 true", "post 1 from 4000 true",
	}
	// Equal ends don't overlap strictly, but a start within the stored report does.
	want[2], want[3], want[5], want[6] = "pre 1 from 1000 true", "post 1 from 1000 true", "pre 1 from 1000 true", "post 1 from 1000 true"
	if !reflect.DeepEqual(callback.calls, want) {
		t.Errorf("%q\nwhere wanted is\n%q", callback.calls, want)
	}
	stored := pending(t, a)
	if len(stored) != 1 || stored[0].StartsAt.Unix() != 1000 || stored[0].Annotations["by"] != "callback" {
		t.Errorf("%v", stored)
	}
}

func TestACollectionRemovesWhatIsResolved(t *testing.T) {
	callback := &recorder{}
	a := startWith(t, 20*time.Millisecond, callback, log.NewNopLogger(), Options{})
	now := time.Now()
	gone := alertOf(model.LabelSet{"n": "1"}, now, now.Add(time.Millisecond))
	put(t, a, gone, firing(2))
	a.marker.SetActiveOrSilenced(gone.Fingerprint(), 1, []string{"1"}, nil)
	waitUntil(t, "the resolved alert is gone", func() bool {
		_, err := a.Get(gone.Fingerprint())
		return err == store.ErrNotFound
	})
	a.Close()
	if state := a.marker.Status(gone.Fingerprint()).State; state != types.AlertStateUnprocessed {
		t.Errorf("its mark is %v", state)
	}
	deleted := 0
	for _, it := range callback.calls {
		if it == fmt.Sprintf("delete 1 from %d true", now.Unix()) {
			deleted++
		}
	}
	if deleted != 1 {
		t.Errorf("%d deletions were notified", deleted)
	}
}

// Four goroutines put and resolve, each its own label sets, while collections run: what was just put as firing is there and
// keeps its mark, and at the end what is known is what is stored.
func TestCollectionsBesidePuts(t *testing.T) {
	const putters, each, labelSets = 4, 600, 2
	a := startPlain(t)
	stop := make(chan struct{})
	var collecting, work sync.WaitGroup
	collecting.Add(1)
	go func() {
		defer collecting.Done()
		for {
			select {
			case <-stop:
				return
			default:
			}
			if err := a.collect(time.Now()); err != nil {
				t.Error(err)
			}
		}
	}()
	for putter := 0; putter < putters; putter++ {
		work.Add(1)
		go func(putter int) {
			defer work.Done()
			for at := 0; at < each; at++ {
				alert := firing(putter*labelSets + at%labelSets)
				isResolved := at/labelSets%2 == 0 && at < each-labelSets
				if isResolved {
					alert.EndsAt = alert.StartsAt
				}
				if err := a.Put(alert); err != nil {
					t.Error(err)
				}
				if isResolved {
					continue
				}
				fingerprint := alert.Fingerprint()
				a.marker.SetActiveOrSilenced(fingerprint, 1, []string{"1"}, nil)
				if got, err := a.Get(fingerprint); err != nil {
					t.Errorf("%v, %v", got, err)
				}
				if state := a.marker.Status(fingerprint).State; state != types.AlertStateSuppressed {
					t.Errorf("the mark of an alert that fires is %v", state)
				}
			}
		}(putter)
	}
	work.Wait()
	close(stop)
	collecting.Wait()
	if err := a.collect(time.Now()); err != nil {
		t.Fatal(err)
	}
	stored := pending(t, a)
	if len(stored) != putters*labelSets {
		t.Errorf("%d are stored", len(stored))
	}
	for _, it := range stored {
		if _, err := a.Get(it.Fingerprint()); err != nil {
			t.Errorf("%v: %v", it, err)
		}
	}
}
