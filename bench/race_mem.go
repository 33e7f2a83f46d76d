package main

import (
	"context"
	"time"

	"github.com/go-kit/log"
	"github.com/prometheus/alertmanager/provider"
	"github.com/prometheus/alertmanager/provider/mem"
	"github.com/prometheus/alertmanager/types"
	"github.com/prometheus/client_golang/prometheus"
)

// How long a reader waits for an alert before it leaves.
const patience = time.Millisecond

// newProvider is Alertmanager's own provider, from Debian's package of its source. It cuts nobody off.
func newProvider(running context.Context) (provider.Alerts, func() int) {
	marker := types.NewMarker(prometheus.NewRegistry())
	provider, err := mem.NewAlerts(running, marker, time.Hour, nil, log.NewNopLogger(), nil)
	check(err)
	return provider, func() int { return 0 }
}
