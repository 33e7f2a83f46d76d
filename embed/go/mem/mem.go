// Package mem is compiled in the place of Alertmanager's package provider/mem (embed/go/alertmanager does that). It has the
// names that Alertmanager's command uses of that package, adds three flags to the command, and has its alerts stored by the
// proved program, through package sinnoraku. A copy of Alertmanager's main would have to follow each change there.
package mem

import (
	"context"
	"errors"
	"fmt"
	"os"
	"os/exec"
	"os/signal"
	"path/filepath"
	"syscall"
	"time"

	"github.com/go-kit/log"
	"github.com/go-kit/log/level"
	"github.com/prometheus/client_golang/prometheus"
	"gopkg.in/alecthomas/kingpin.v2"

	"github.com/prometheus/alertmanager/types"
	"sinnoraku"
)

// What the program is called if no flag names it.
const programName = "am_replay"

// How long the command may take to end once the provider has ended.
const endPatience = 30 * time.Second

// The command parses all flags of kingpin's default application, and so these too.
var (
	program = kingpin.Flag("provider.program", "The proved program, or the script replay that runs it. "+
		"If it is missing: "+programName+" in this command's folder, or else on the PATH.").Envar("SINNORAKU_PROGRAM").String()
	places = kingpin.Flag("provider.places", "How many batches the provider's log holds for the slowest reader, 1 to 65536.").
		Default("4096").Int()
	full = kingpin.Flag("provider.full", "If the log is full: cut off the reader who is too slow, or refuse the post.").
		Default("cut").Enum("cut", "refuse")
)

// AlertStoreCallback is that of package sinnoraku.
type AlertStoreCallback = sinnoraku.AlertStoreCallback

// Alerts is the provider with an end that Alertmanager's command sees.
type Alerts struct{ *sinnoraku.Alerts }

// NewAlerts starts the program that the flags name. Its arguments are those of Alertmanager's own NewAlerts.
func NewAlerts(
	ctx context.Context, m types.Marker, intervalGC time.Duration, cb AlertStoreCallback, l log.Logger, r prometheus.Registerer,
) (*Alerts, error) {
	if *places < 1 || *places > 65536 {
		return nil, fmt.Errorf("--provider.places takes a number from 1 to 65536, not %d", *places)
	}
	path, err := pathOf(*program)
	if err != nil {
		return nil, err
	}
	options := sinnoraku.Options{Program: path, Places: *places, Refuse: *full == "refuse"}
	started, err := sinnoraku.NewAlerts(ctx, m, intervalGC, cb, l, r, options)
	if err != nil {
		return nil, err
	}
	alerts := &Alerts{started}
	go alerts.endCommand(l)
	return alerts, nil
}

// pathOf is where the program is.
func pathOf(named string) (string, error) {
	if named != "" {
		return named, nil
	}
	if command, err := os.Executable(); err == nil {
		if path, err := exec.LookPath(filepath.Join(filepath.Dir(command), programName)); err == nil {
			return path, nil
		}
	}
	path, err := exec.LookPath(programName)
	if err != nil {
		return "", errors.New("there is no " + programName + " in the command's folder or on the PATH: --provider.program names one")
	}
	return path, nil
}

// hasFailed says why the provider has ended, unless it was closed.
func (a *Alerts) hasFailed() error {
	if err := a.Err(); !errors.Is(err, sinnoraku.ErrClosed) {
		return err
	}
	return nil
}

// endCommand waits until the provider has ended. If it wasn't closed, the command ends as by SIGTERM. It listens to signals
// only at the end of its start, so it gets that one each second. One that doesn't end is ended.
func (a *Alerts) endCommand(l log.Logger) {
	<-a.Done()
	if a.hasFailed() == nil {
		return
	}
	level.Error(l).Log("msg", "Alertmanager ends, since the provider has ended")
	signal.Notify(make(chan os.Signal, 1), syscall.SIGTERM)
	for end := time.Now().Add(endPatience); time.Now().Before(end); time.Sleep(time.Second) {
		_ = syscall.Kill(os.Getpid(), syscall.SIGTERM)
	}
	os.Exit(1)
}

// Close closes the provider. The command defers it, and returns 0 after a SIGTERM. So if the provider has failed, Close
// panics: what the command deferred before is done all the same, which leaves the cluster and writes the silences and the
// notification log, and the status is 2.
func (a *Alerts) Close() {
	a.Alerts.Close()
	if err := a.hasFailed(); err != nil {
		panic(fmt.Sprintf("Alertmanager ends with status 2, since the provider has ended: %v", err))
	}
}
