// How long a Put of the provider in Go waits at most while something else asks for all that is stored. It prints of each
// case how long that took, how many puts came meanwhile, and the longest of them, in milliseconds.
//
//	waits STORED
package main

import (
	"context"
	"fmt"
	"os"
	"strconv"
	"sync/atomic"
	"time"

	"github.com/go-kit/log"
	"github.com/prometheus/alertmanager/types"
	"github.com/prometheus/client_golang/prometheus"
	"github.com/prometheus/common/model"

	"sinnoraku"
)

// How many alerts are put at once to fill the store, how long a Put pauses, and how often the second provider collects.
const (
	filling  = 1000
	pause    = 200 * time.Microsecond
	interval = 250 * time.Millisecond
)

var start = time.Now()

func check(err error) {
	if err != nil {
		panic(err)
	}
}

// alert is a report of five labels that fires for days, and longer with each turn.
func alert(number, turn int) *types.Alert {
	return &types.Alert{
		Alert: model.Alert{
			Labels: model.LabelSet{
				"alertname": "HighLatency", "job": "api", "severity": "page",
				"instance": model.LabelValue(fmt.Sprintf("10.%d.%d.%d:9090", number/62500, number/250%250, number%250)),
				"pod":      model.LabelValue(fmt.Sprintf("server-%d", number)),
			},
			StartsAt: start,
			EndsAt:   start.Add(100*time.Hour + time.Duration(turn)*time.Minute),
		},
		UpdatedAt: start,
	}
}

// filled is a provider that stores so many alerts, and its metrics.
func filled(stored int, collects time.Duration) (*sinnoraku.Alerts, *prometheus.Registry) {
	marker, registry := types.NewMarker(prometheus.NewRegistry()), prometheus.NewRegistry()
	options := sinnoraku.Options{Program: os.Getenv("SINNORAKU_PROGRAM")}
	alerts, err := sinnoraku.NewAlerts(context.Background(), marker, collects, nil, log.NewNopLogger(), registry, options)
	check(err)
	for first := 0; first < stored; first += filling {
		var some []*types.Alert
		for number := first; number < min(first+filling, stored); number++ {
			some = append(some, alert(number, 0))
		}
		check(alerts.Put(some...))
	}
	return alerts, registry
}

func min(a, b int) int {
	if a < b {
		return a
	}
	return b
}

func milliseconds(it time.Duration) float64 { return float64(it) / float64(time.Millisecond) }

// beside puts alerts one after another while something runs.
func beside(name string, alerts *sinnoraku.Alerts, stored int, runs func()) {
	var ended atomic.Bool
	var longest time.Duration
	count, done := 0, make(chan struct{})
	go func() {
		defer close(done)
		for turn := 1; !ended.Load(); turn++ {
			begun := time.Now()
			check(alerts.Put(alert(turn%stored, turn)))
			if took := time.Since(begun); took > longest {
				longest = took
			}
			count++
			time.Sleep(pause)
		}
	}()
	begun := time.Now()
	runs()
	took := time.Since(begun)
	ended.Store(true)
	<-done
	fmt.Printf("%s: %.0f ms, %d puts, the longest %.1f ms\n", name, milliseconds(took), count, milliseconds(longest))
}

func main() {
	stored, err := strconv.Atoi(os.Args[1])
	check(err)
	alerts, registry := filled(stored, time.Hour)
	beside("nothing else", alerts, stored, func() { time.Sleep(time.Second) })
	beside("a scrape of /metrics", alerts, stored, func() {
		_, err := registry.Gather()
		check(err)
	})
	beside("GetPending", alerts, stored, func() {
		pending := alerts.GetPending()
		for range pending.Next() {
		}
	})
	beside("a reader that joins", alerts, stored, func() {
		reader := alerts.Subscribe()
		for taken := 0; taken < stored; taken++ {
			<-reader.Next()
		}
		reader.Close()
	})
	alerts.Close()
	collected, _ := filled(stored, interval)
	beside("collections each 250 ms that remove nothing", collected, stored, func() { time.Sleep(2 * time.Second) })
	collected.Close()
}
