// What the provider is compared with: Alertmanager's own, from Debian's package of its source. One goroutine puts alerts
// of four labels, so many a call, which were read from JSON before, and each reader takes what it is told.
//
//	alertmanager READERS POSTS ALERTS LABELS     prints the nanoseconds that the posts took
package main

import (
	"context"
	"encoding/json"
	"fmt"
	"os"
	"strconv"
	"sync"
	"time"

	"github.com/go-kit/log"
	"github.com/prometheus/alertmanager/provider/mem"
	"github.com/prometheus/alertmanager/types"
	"github.com/prometheus/client_golang/prometheus"
	"github.com/prometheus/common/model"
)

const timeout = 5 * time.Minute

func number(at int) int {
	value, err := strconv.Atoi(os.Args[at])
	if err != nil {
		panic(err)
	}
	return value
}

// The alert of a number, which fires from then on, with one of so many label sets, as its JSON is read.
func alertOf(number, labels int) *types.Alert {
	now := time.Date(2024, 1, 1, 0, 0, 0, number, time.UTC)
	body := fmt.Sprintf(
		`{"labels":{"alertname":"DiskFull","instance":"host-%d","job":"node","severity":"page"}}`, number%labels)
	var alert model.Alert
	if err := json.Unmarshal([]byte(body), &alert); err != nil {
		panic(err)
	}
	alert.StartsAt, alert.EndsAt = now, now.Add(timeout)
	return &types.Alert{Alert: alert, UpdatedAt: now, Timeout: true}
}

func main() {
	readers, posts, size, labels := number(1), number(2), number(3), number(4)
	running, stop := context.WithCancel(context.Background())
	defer stop()
	marker := types.NewMarker(prometheus.NewRegistry())
	provider, err := mem.NewAlerts(running, marker, time.Hour, nil, log.NewNopLogger(), nil)
	if err != nil {
		panic(err)
	}
	alerts := make([]*types.Alert, posts*size)
	for at := range alerts {
		alerts[at] = alertOf(at, labels)
	}
	var reading sync.WaitGroup
	for reader := 0; reader < readers; reader++ {
		subscription := provider.Subscribe()
		reading.Add(1)
		go func() {
			defer reading.Done()
			defer subscription.Close()
			for range alerts {
				<-subscription.Next()
			}
		}()
	}
	begin := time.Now()
	for at := 0; at < len(alerts); at += size {
		if err := provider.Put(alerts[at : at+size]...); err != nil {
			panic(err)
		}
	}
	took := time.Since(begin)
	reading.Wait()
	fmt.Println(took.Nanoseconds())
}
