// An alert provider of Alertmanager under the load of bench/race. It prints how many subscriptions it made, how many of
// them were told an alert twice and how many missed one, then how many merges it made and how many of them were lost, and
// how many readers were cut off: these get what is stored once more, and not what came in between.
// The file race_mem.go or race_sinnoraku.go next to it says which provider it is.
//
//	race POSTERS EACH READERS TURNS MERGES
package main

import (
	"context"
	"fmt"
	"os"
	"strconv"
	"sync"
	"time"

	"github.com/prometheus/alertmanager/provider"
	"github.com/prometheus/alertmanager/types"
	"github.com/prometheus/common/model"
)

const labelSets = 8

var base = time.Date(2090, 1, 1, 0, 0, 0, 0, time.UTC)

func number(at int) int {
	value, err := strconv.Atoi(os.Args[at])
	if err != nil {
		panic(err)
	}
	return value
}

func check(err error) {
	if err != nil {
		panic(err)
	}
}

func alert(label string, start, end time.Duration, poster, at int) *types.Alert {
	return &types.Alert{
		Alert: model.Alert{
			Labels:      model.LabelSet{"n": model.LabelValue(label)},
			Annotations: model.LabelSet{"by": model.LabelValue(fmt.Sprint(poster, " ", at))},
			StartsAt:    base.Add(start),
			EndsAt:      base.Add(end),
		},
		UpdatedAt: time.Now(),
	}
}

// report is never merged: it begins when every earlier one has ended.
func report(poster, posters, at int) *types.Alert {
	number := at*posters + poster
	start := time.Duration(number) * 10 * time.Second
	return alert(strconv.Itoa(number%labelSets), start, start+5*time.Second, poster, at)
}

// judge says whether a subscription was told an alert twice, and whether it missed one of a poster between two others.
func judge(told []*types.Alert) (twice, missed bool) {
	seen, last := map[string]bool{}, map[int]int{}
	for i, alert := range told {
		var poster, at int
		by := string(alert.Annotations["by"])
		fmt.Sscan(by, &poster, &at)
		twice = twice || seen[by]
		seen[by] = true
		if i < labelSets {
			continue
		}
		if before, found := last[poster]; found && at > before+1 {
			missed = true
		}
		last[poster] = at
	}
	return twice, missed
}

func read(provider provider.Alerts, most int) []*types.Alert {
	subscription := provider.Subscribe()
	defer subscription.Close()
	var told []*types.Alert
	for len(told) < labelSets+most {
		select {
		case alert := <-subscription.Next():
			told = append(told, alert)
		case <-time.After(patience):
			return told
		}
	}
	return told
}

func subscriptions(posters, each, readers, turns int) (twice, missed, cut int) {
	running, stop := context.WithCancel(context.Background())
	defer stop()
	provider, cuts := newProvider(running)
	for label := 0; label < labelSets; label++ {
		check(provider.Put(alert(strconv.Itoa(label), -20*time.Second, -10*time.Second, -1, label)))
	}
	var work sync.WaitGroup
	var counting sync.Mutex
	for poster := 0; poster < posters; poster++ {
		work.Add(1)
		go func(poster int) {
			defer work.Done()
			for at := 0; at < each; at++ {
				check(provider.Put(report(poster, posters, at)))
			}
		}(poster)
	}
	for reader := 0; reader < readers; reader++ {
		work.Add(1)
		go func() {
			defer work.Done()
			for turn := 0; turn < turns; turn++ {
				isTwice, isMissed := judge(read(provider, turn%40))
				counting.Lock()
				if isTwice {
					twice++
				}
				if isMissed {
					missed++
				}
				counting.Unlock()
			}
		}()
	}
	work.Wait()
	return twice, missed, cuts()
}

// merges has two posters extend each alert, one to an earlier start and one to a later end.
func merges(count int) (lost int) {
	running, stop := context.WithCancel(context.Background())
	defer stop()
	provider, _ := newProvider(running)
	for label := 0; label < count; label++ {
		check(provider.Put(alert(strconv.Itoa(label), 0, time.Hour, 0, 0)))
	}
	var work sync.WaitGroup
	for poster := 0; poster < 2; poster++ {
		work.Add(1)
		go func(poster int) {
			defer work.Done()
			for label := 0; label < count; label++ {
				start, end := -time.Hour, 30*time.Minute
				if poster == 1 {
					start, end = 30*time.Minute, 2*time.Hour
				}
				check(provider.Put(alert(strconv.Itoa(label), start, end, poster, 0)))
			}
		}(poster)
	}
	work.Wait()
	subscription := provider.Subscribe()
	defer subscription.Close()
	for label := 0; label < count; label++ {
		stored := <-subscription.Next()
		if !stored.StartsAt.Equal(base.Add(-time.Hour)) || !stored.EndsAt.Equal(base.Add(2*time.Hour)) {
			lost++
		}
	}
	return lost
}

func main() {
	posters, each, readers, turns, count := number(1), number(2), number(3), number(4), number(5)
	twice, missed, cut := subscriptions(posters, each, readers, turns)
	fmt.Println(readers*turns, twice, missed, count, merges(count), cut)
}
