// What the routing tree is compared with: Alertmanager's own, from Debian's package of its source. The trees and the
// label sets are those of `crates/am_bench`: ten teams with nine routes each, or a root with so many routes at one level.
//
//	routes ALERTS ROUNDS WIDTH     prints how many routes were found, and the nanoseconds that the rounds took
package main

import (
	"fmt"
	"os"
	"strconv"
	"strings"
	"time"

	"github.com/prometheus/alertmanager/config"
	"github.com/prometheus/alertmanager/dispatch"
	"github.com/prometheus/common/model"
)

func number(at int) int {
	value, err := strconv.Atoi(os.Args[at])
	if err != nil {
		panic(err)
	}
	return value
}

func teams() string {
	var routes []string
	for team := 0; team < 10; team++ {
		var below []string
		for service := 0; service < 9; service++ {
			matcher := fmt.Sprintf(`service=\"s%d-web\"`, service)
			if service%3 == 2 {
				matcher = fmt.Sprintf(`service=~\"s%d-(web|api)\"`, service)
			}
			below = append(below, fmt.Sprintf(`{"matchers":["%s"]}`, matcher))
		}
		routes = append(routes, fmt.Sprintf(
			`{"receiver":"root","matchers":["team=\"t%d\""],"routes":[%s]}`, team, strings.Join(below, ",")))
	}
	return strings.Join(routes, ",")
}

func services(width int) string {
	var routes []string
	for service := 0; service < width; service++ {
		routes = append(routes, fmt.Sprintf(`{"matchers":["service=\"s%d-web\""]}`, service))
	}
	return strings.Join(routes, ",")
}

// The labels of the alert of that number.
func labelsOf(number, width int) model.LabelSet {
	service := number / 10 % 9
	if width > 0 {
		service = number * 7919 % width
	}
	return model.LabelSet{
		"alertname": "HighLatency",
		"instance":  model.LabelValue(fmt.Sprintf("10.0.%d.%d:9090", number/250, number%250)),
		"service":   model.LabelValue(fmt.Sprintf("s%d-web", service)),
		"severity":  "page",
		"team":      model.LabelValue(fmt.Sprintf("t%d", number%10)),
	}
}

func main() {
	alerts, rounds, width := number(1), number(2), number(3)
	routes := teams()
	if width > 0 {
		routes = services(width)
	}
	conf, err := config.Load(fmt.Sprintf(
		`{"route":{"receiver":"root","group_by":["instance"],"routes":[%s]},"receivers":[{"name":"root"}]}`, routes))
	if err != nil {
		panic(err)
	}
	root := dispatch.NewRoute(conf.Route, nil)
	sets := make([]model.LabelSet, alerts)
	for at := range sets {
		sets[at] = labelsOf(at, width)
	}
	found := 0
	begin := time.Now()
	for round := 0; round < rounds; round++ {
		for _, labels := range sets {
			found += len(root.Match(labels))
		}
	}
	fmt.Println(found, time.Since(begin).Nanoseconds())
}
