// How much memory an alert provider of Alertmanager has while readers stay. It prints the greatest amount of this process
// and of the program that it started, if any, in kilobytes, after each of the numbers of puts. The file race_mem.go or
// race_sinnoraku.go next to it says which provider it is.
//
//	standing READERS LABELS PUTS ..
package main

import (
	"context"
	"fmt"
	"os"
	"strconv"
	"strings"
	"time"

	"github.com/prometheus/alertmanager/types"
	"github.com/prometheus/common/model"
)

var base = time.Date(2090, 1, 1, 0, 0, 0, 0, time.UTC)

func number(text string) int {
	value, err := strconv.Atoi(text)
	check(err)
	return value
}

func check(err error) {
	if err != nil {
		panic(err)
	}
}

// alert is a report of five labels that is sent again each minute.
func alert(number, turn int) *types.Alert {
	return &types.Alert{
		Alert: model.Alert{
			Labels: model.LabelSet{
				"alertname": "HighLatency", "job": "api", "severity": "page",
				"instance": model.LabelValue(fmt.Sprintf("10.0.%d.%d:9090", number/250, number%250)),
				"pod":      model.LabelValue(fmt.Sprintf("server-%d", number)),
			},
			StartsAt: base,
			EndsAt:   base.Add(time.Duration(turn) * time.Minute).Add(time.Hour),
		},
		UpdatedAt: time.Now(),
	}
}

// most is the most memory that a process had, in kilobytes.
func most(process string) int {
	status, err := os.ReadFile("/proc/" + process + "/status")
	check(err)
	_, rest, _ := strings.Cut(string(status), "VmHWM:")
	return number(strings.Fields(rest)[0])
}

// child is the process that this one has started, or nothing.
func child() string {
	children, err := os.ReadFile(fmt.Sprintf("/proc/self/task/%d/children", os.Getpid()))
	check(err)
	for _, one := range strings.Fields(string(children)) {
		return one
	}
	// Another thread may have started it.
	threads, err := os.ReadDir("/proc/self/task")
	check(err)
	for _, thread := range threads {
		children, err := os.ReadFile("/proc/self/task/" + thread.Name() + "/children")
		check(err)
		for _, one := range strings.Fields(string(children)) {
			return one
		}
	}
	return ""
}

func main() {
	readers, labels := number(os.Args[1]), number(os.Args[2])
	alerts, _ := newProvider(context.Background())
	for range make([]struct{}, readers) {
		go func() {
			iterator := alerts.Subscribe()
			for range iterator.Next() {
			}
		}()
	}
	done := 0
	for _, text := range os.Args[3:] {
		for until := number(text); done < until; done++ {
			check(alerts.Put(alert(done%labels, done/labels)))
		}
		program := 0
		if process := child(); process != "" {
			program = most(process)
		}
		fmt.Println(done, most("self"), program)
	}
}
