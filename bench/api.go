package main

import (
	"context"
	"io"
	"net/http"
	"net/http/httptest"
	"time"

	"github.com/go-kit/log"
	apiv2 "github.com/prometheus/alertmanager/api/v2"
	"github.com/prometheus/alertmanager/config"
	"github.com/prometheus/alertmanager/provider/mem"
	"github.com/prometheus/alertmanager/types"
	"github.com/prometheus/client_golang/prometheus"
	"github.com/prometheus/common/model"
)

func check(err error) {
	if err != nil {
		panic(err)
	}
}

// newAPI is Alertmanager's own API over its own provider, from Debian's package of its source.
func newAPI(running context.Context) (*apiv2.API, *mem.Alerts) {
	registry := prometheus.NewRegistry()
	marker := types.NewMarker(registry)
	provider, err := mem.NewAlerts(running, marker, time.Hour, nil, log.NewNopLogger(), nil)
	check(err)
	api, err := apiv2.NewAPI(provider, nil, marker.Status, nil, nil, log.NewNopLogger(), registry)
	check(err)
	read, err := config.Load("route: {receiver: ops}\nreceivers: [{name: ops}]\n")
	check(err)
	api.Update(read, func(model.LabelSet) {})
	return api, provider
}

// post hands a body to the API's handler of posts. No socket is in between.
func post(api *apiv2.API, body io.Reader) {
	request := httptest.NewRequest(http.MethodPost, "/api/v2/alerts", body)
	request.Header.Set("Content-Type", "application/json")
	answer := httptest.NewRecorder()
	if api.Handler.ServeHTTP(answer, request); answer.Code != http.StatusOK {
		panic(answer.Body.String())
	}
}
