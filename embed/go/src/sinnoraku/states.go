package sinnoraku

import (
	"github.com/prometheus/client_golang/prometheus"

	"github.com/prometheus/alertmanager/types"
)

// A stateCollector counts what is stored by state, as provider/mem's metric does. One scrape reads the store once.
type stateCollector struct{ alerts *Alerts }

var (
	states = []types.AlertState{types.AlertStateActive, types.AlertStateSuppressed, types.AlertStateUnprocessed}

	byState = prometheus.NewDesc("alertmanager_alerts", "How many alerts by state.", []string{"state"}, nil)
)

func (c stateCollector) Describe(to chan<- *prometheus.Desc) { to <- byState }

func (c stateCollector) Collect(to chan<- prometheus.Metric) {
	counts, err := c.alerts.countStates()
	if err != nil {
		to <- prometheus.NewInvalidMetric(byState, err)
		return
	}
	for _, state := range states {
		to <- prometheus.MustNewConstMetric(byState, prometheus.GaugeValue, float64(counts[state]), string(state))
	}
}

// countStates counts the stored alerts that aren't resolved.
func (a *Alerts) countStates() (map[types.AlertState]int, error) {
	alerts, err := a.stored()
	counts := map[types.AlertState]int{}
	for _, it := range alerts {
		if !it.Resolved() {
			counts[a.marker.Status(it.Fingerprint()).State]++
		}
	}
	return counts, err
}
