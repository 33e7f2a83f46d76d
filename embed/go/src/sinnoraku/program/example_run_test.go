package program_test

import (
	"os"
	"strings"
	"testing"
)

// The example runs if there is a program.
func TestTheExample(t *testing.T) {
	path := os.Getenv("SINNORAKU_PROGRAM")
	if path == "" {
		path = "../../../../../crates/am_replay/out/am_replay"
	}
	if _, err := os.Stat(path); err != nil {
		t.Skip("there is no replay program: ./replay --prove builds it, or SINNORAKU_PROGRAM names one")
	}
	var printed strings.Builder
	if err := storeAndRead(path, &printed); err != nil {
		t.Fatal(err)
	}
	want := "alert 1 isn't stored: E11 EndBeforeStart\n{alertname=\"DiskFull\"}\n"
	if got := printed.String(); got != want {
		t.Errorf("it prints %q where %q is wanted", got, want)
	}
}
