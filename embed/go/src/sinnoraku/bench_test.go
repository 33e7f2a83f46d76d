package sinnoraku

import (
	"bytes"
	"context"
	"encoding/json"
	"fmt"
	"io"
	"net/http"
	"net/http/httptest"
	"path/filepath"
	"sync"
	"testing"
	"time"

	"github.com/go-kit/log"
	"github.com/prometheus/client_golang/prometheus"
	"github.com/prometheus/common/model"
	"github.com/prometheus/common/route"

	"github.com/prometheus/alertmanager/api"
	"github.com/prometheus/alertmanager/config"
	"github.com/prometheus/alertmanager/dispatch"
	"github.com/prometheus/alertmanager/provider"
	"github.com/prometheus/alertmanager/provider/mem"
	"github.com/prometheus/alertmanager/silence"
	"github.com/prometheus/alertmanager/types"
)

// onBoth runs a benchmark on this provider and on Alertmanager's own. bench/embed runs the two in turn.
func onBoth(b *testing.B, run func(b *testing.B, alerts provider.Alerts)) {
	b.Run("sinnoraku", func(b *testing.B) { run(b, startPlain(b)) })
	b.Run("mem", func(b *testing.B) {
		marker := types.NewMarker(prometheus.NewRegistry())
		alerts, err := mem.NewAlerts(context.Background(), marker, time.Hour, nil, log.NewNopLogger(), nil)
		if err != nil {
			b.Fatal(err)
		}
		defer alerts.Close()
		run(b, alerts)
	})
}

// reports are alerts as a Prometheus sends them.
func reports(count int) (alerts []*types.Alert) {
	now := time.Now()
	for at := 0; at < count; at++ {
		labels := model.LabelSet{
			"alertname": "DiskFull", "instance": model.LabelValue(fmt.Sprintf("db%d:9100", at)), "job": "node", "severity": "page", "team": "db",
		}
		alert := alertOf(labels, now, now.Add(time.Hour))
		alert.Annotations = model.LabelSet{"summary": "The disk is full.", "runbook": "https://example.com/runbooks/disk"}
		alert.GeneratorURL = "http://prometheus.example.com/graph?g0.expr=disk_free"
		alerts = append(alerts, alert)
	}
	return alerts
}

func putEach(b *testing.B, alerts provider.Alerts, size, listeners int) {
	all := reports(1000)
	var reading sync.WaitGroup
	for reader := 0; reader < listeners; reader++ {
		it := alerts.Subscribe()
		reading.Add(1)
		go func() {
			defer reading.Done()
			defer it.Close()
			for left := b.N * size; left > 0; left-- {
				if _, isOpen := <-it.Next(); !isOpen {
					b.Error(it.Err())
					return
				}
			}
		}()
	}
	b.ResetTimer()
	for at := 0; at < b.N; at++ {
		from := at * size % 1000
		if err := alerts.Put(all[from : from+size]...); err != nil {
			b.Fatal(err)
		}
	}
	reading.Wait()
}

func BenchmarkPutOf1(b *testing.B) {
	onBoth(b, func(b *testing.B, alerts provider.Alerts) { putEach(b, alerts, 1, 0) })
}

func BenchmarkPutOf100(b *testing.B) {
	onBoth(b, func(b *testing.B, alerts provider.Alerts) { putEach(b, alerts, 100, 0) })
}

func BenchmarkPutOf1With1Listener(b *testing.B) {
	onBoth(b, func(b *testing.B, alerts provider.Alerts) { putEach(b, alerts, 1, 1) })
}

func BenchmarkPutOf1With8Listeners(b *testing.B) {
	onBoth(b, func(b *testing.B, alerts provider.Alerts) { putEach(b, alerts, 1, 8) })
}

func BenchmarkPutOf100With1Listener(b *testing.B) {
	onBoth(b, func(b *testing.B, alerts provider.Alerts) { putEach(b, alerts, 100, 1) })
}

func BenchmarkPutOf100With2Listeners(b *testing.B) {
	onBoth(b, func(b *testing.B, alerts provider.Alerts) { putEach(b, alerts, 100, 2) })
}

func BenchmarkPutOf100With8Listeners(b *testing.B) {
	onBoth(b, func(b *testing.B, alerts provider.Alerts) { putEach(b, alerts, 100, 8) })
}

// Eight goroutines put at once.
func BenchmarkPutOf1By8(b *testing.B) {
	onBoth(b, func(b *testing.B, alerts provider.Alerts) {
		all := reports(1000)
		b.SetParallelism(2)
		b.ResetTimer()
		b.RunParallel(func(next *testing.PB) {
			for at := 0; next.Next(); at++ {
				if err := alerts.Put(all[at%1000]); err != nil {
					b.Error(err)
				}
			}
		})
	})
}

func BenchmarkSubscribeTo1000(b *testing.B) {
	onBoth(b, func(b *testing.B, alerts provider.Alerts) {
		if err := alerts.Put(reports(1000)...); err != nil {
			b.Fatal(err)
		}
		b.ResetTimer()
		for at := 0; at < b.N; at++ {
			it := alerts.Subscribe()
			take(b, it, 1000)
			it.Close()
		}
	})
}

// One listener takes nothing. A Put that takes a second is blocked.
func BenchmarkPutOf1WithAListenerThatStops(b *testing.B) {
	onBoth(b, func(b *testing.B, alerts provider.Alerts) {
		it := alerts.Subscribe()
		defer it.Close()
		all, done, count := reports(1000), make(chan struct{}, 1), 0
		b.ResetTimer()
		for at := 0; at < b.N; at++ {
			go func() {
				if err := alerts.Put(all[at%1000]); err != nil {
					b.Error(err)
				}
				done <- struct{}{}
			}()
			select {
			case <-done:
				count++
			case <-time.After(time.Second):
				b.Skipf("blocked after %d puts", count)
			}
		}
	})
}

// apiOver is Alertmanager's API over a provider.
func apiOver(b *testing.B, alerts provider.Alerts) *httptest.Server {
	silences, err := silence.New(silence.Options{SnapshotFile: filepath.Join(b.TempDir(), "silences"), Retention: time.Hour})
	if err != nil {
		b.Fatal(err)
	}
	read, err := config.Load("route:\n  receiver: none\nreceivers:\n- name: none\n")
	if err != nil {
		b.Fatal(err)
	}
	groups := func(func(*dispatch.Route) bool, func(*types.Alert, time.Time) bool) (dispatch.AlertGroups, map[model.Fingerprint][]string) {
		return nil, nil
	}
	made, err := api.New(api.Options{
		Alerts: alerts, Silences: silences, GroupFunc: groups, StatusFunc: types.NewMarker(prometheus.NewRegistry()).Status,
	})
	if err != nil {
		b.Fatal(err)
	}
	made.Update(read, func(model.LabelSet) {})
	return httptest.NewServer(made.Register(route.New(), "/"))
}

// bodyOf is a post of alerts as a Prometheus sends it.
func bodyOf(b *testing.B, alerts []*types.Alert) []byte {
	sent := make([]model.Alert, len(alerts))
	for at, it := range alerts {
		sent[at] = it.Alert
	}
	body, err := json.Marshal(sent)
	if err != nil {
		b.Fatal(err)
	}
	return body
}

func post(b *testing.B, server *httptest.Server, body []byte) {
	answer, err := server.Client().Post(server.URL+"/api/v2/alerts", "application/json", bytes.NewReader(body))
	if err != nil {
		b.Error(err)
		return
	}
	_, _ = io.Copy(io.Discard, answer.Body)
	_ = answer.Body.Close()
	if answer.StatusCode != http.StatusOK {
		b.Error(answer.Status)
	}
}

func BenchmarkPostOf100ToTheAPI(b *testing.B) {
	onBoth(b, func(b *testing.B, alerts provider.Alerts) {
		server, body := apiOver(b, alerts), bodyOf(b, reports(100))
		defer server.Close()
		b.ResetTimer()
		for at := 0; at < b.N; at++ {
			post(b, server, body)
		}
	})
}

func BenchmarkPostOf100ToTheAPIBy4(b *testing.B) {
	onBoth(b, func(b *testing.B, alerts provider.Alerts) {
		server, body := apiOver(b, alerts), bodyOf(b, reports(100))
		defer server.Close()
		b.SetParallelism(1)
		b.ResetTimer()
		b.RunParallel(func(next *testing.PB) {
			for next.Next() {
				post(b, server, body)
			}
		})
	})
}

func BenchmarkQueryOf1000ByTheAPI(b *testing.B) {
	onBoth(b, func(b *testing.B, alerts provider.Alerts) {
		server := apiOver(b, alerts)
		defer server.Close()
		if err := alerts.Put(reports(1000)...); err != nil {
			b.Fatal(err)
		}
		b.ResetTimer()
		for at := 0; at < b.N; at++ {
			answer, err := server.Client().Get(server.URL + "/api/v2/alerts")
			if err != nil {
				b.Fatal(err)
			}
			_, _ = io.Copy(io.Discard, answer.Body)
			_ = answer.Body.Close()
		}
	})
}
