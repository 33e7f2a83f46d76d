package program_test

import (
	"errors"
	"fmt"
	"io"
	"log"
	"os"
	"time"

	"github.com/prometheus/common/model"

	"sinnoraku/program"
)

// A quiet listener is notified, and does nothing.
type quiet struct{}

func (quiet) Gone(model.Fingerprint) {}
func (quiet) Cut(string)             {}
func (quiet) Unserved(string, error) {}
func (quiet) Died(error)             {}
func (quiet) Ended(error)            {}

// storeAndRead puts two alerts, one of which ends before it starts, and prints what a subscription gets of them.
func storeAndRead(path string, to io.Writer) error {
	p, err := program.Start(program.Options{Program: path}, quiet{}, nil)
	if err != nil {
		return err
	}
	defer p.Close()

	now := time.Now()
	alertOf := func(name model.LabelValue, lasts time.Duration) *program.Alert {
		labels := model.LabelSet{model.AlertNameLabel: name}
		return &program.Alert{Alert: model.Alert{Labels: labels, StartsAt: now, EndsAt: now.Add(lasts)}, UpdatedAt: now}
	}
	err = p.Put(alertOf("DiskFull", time.Hour), alertOf("Impossible", -time.Hour))
	var failed *program.PutErrors
	if errors.As(err, &failed) {
		for _, it := range failed.Alerts {
			fmt.Fprintf(to, "alert %d isn't stored: %s\n", it.Index, it.Text)
		}
	}
	if errors.Is(err, program.ErrDied) {
		return err // all of it may be put again
	}

	same := func(alert *program.Alert) *program.Alert { return alert }
	stored := program.Subscribe(p, "example", same)
	defer stored.Close()
	fmt.Fprintln(to, (<-stored.Next()).Labels)
	return nil
}

// The program is started, alerts are stored, and a subscription gets them.
func Example() {
	if err := storeAndRead("/usr/local/bin/am_replay", os.Stdout); err != nil {
		log.Fatal(err)
	}
}
