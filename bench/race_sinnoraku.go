package main

import (
	"context"
	"os"
	"time"

	"github.com/go-kit/log"
	"github.com/prometheus/alertmanager/provider"
	"github.com/prometheus/alertmanager/types"
	"github.com/prometheus/client_golang/prometheus"

	"sinnoraku"
)

// How long a reader waits for an alert before it leaves. An alert comes through two pipes.
const patience = 20 * time.Millisecond

// newProvider is the package sinnoraku over the program that SINNORAKU_PROGRAM names, and how many readers it has cut off.
func newProvider(running context.Context) (provider.Alerts, func() int) {
	marker, registry := types.NewMarker(prometheus.NewRegistry()), prometheus.NewRegistry()
	options := sinnoraku.Options{Program: os.Getenv("SINNORAKU_PROGRAM")}
	provider, err := sinnoraku.NewAlerts(running, marker, time.Hour, nil, log.NewNopLogger(), registry, options)
	check(err)
	return provider, func() int { return cuts(registry) }
}

func cuts(registry *prometheus.Registry) int {
	families, err := registry.Gather()
	check(err)
	for _, family := range families {
		if family.GetName() == "sinnoraku_subscriptions_cut_total" {
			return int(family.GetMetric()[0].GetCounter().GetValue())
		}
	}
	panic("no cuts are counted")
}
