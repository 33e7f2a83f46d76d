// What reading posts is compared with: Alertmanager's own handler of them (api.go). Goroutines hand it bodies of one alert,
// as Prometheus posts it, and it puts them into Alertmanager's own provider.
//
//	handler POSTERS POSTS LABELS     prints the nanoseconds that the posts took, POSTS by each poster
package main

import (
	"context"
	"fmt"
	"os"
	"strconv"
	"strings"
	"sync"
	"time"
)

const form = `[{"labels":{"alertname":"DiskFull","cluster":"eu-1","container":"node-exporter","endpoint":"metrics",` +
	`"instance":"host-%[1]d","job":"node","namespace":"monitoring","pod":"node-exporter-%[1]d","service":"node-exporter",` +
	`"severity":"page"},"annotations":{"summary":"the disk of host-%[1]d is full"},"startsAt":"2024-01-01T00:00:00Z",` +
	`"generatorURL":"http://prometheus.example.org:9090/graph"}]`

func number(at int) int {
	value, err := strconv.Atoi(os.Args[at])
	check(err)
	return value
}

func main() {
	posters, posts, labels := number(1), number(2), number(3)
	running, stop := context.WithCancel(context.Background())
	defer stop()
	api, _ := newAPI(running)
	bodies := make([]string, labels)
	for at := range bodies {
		bodies[at] = fmt.Sprintf(form, at)
	}
	var posting sync.WaitGroup
	begin := time.Now()
	for poster := 0; poster < posters; poster++ {
		posting.Add(1)
		go func() {
			defer posting.Done()
			for at := 0; at < posts; at++ {
				post(api, strings.NewReader(bodies[at%labels]))
			}
		}()
	}
	posting.Wait()
	fmt.Println(time.Since(begin).Nanoseconds())
}
