package program

import "testing"

func TestReadsReachTheEndOfAFullLog(t *testing.T) {
	for places, want := range map[int]int{1: 1, 64: 1, 65: 2, 256: 4, usualPlaces: 64, 65_536: 1024} {
		var of readers
		of.init(places)
		if of.readsOfFullLog != want || of.readsOfFullLog*longestRead < places*mostAlerts {
			t.Errorf("%d reads of %d places, not %d", of.readsOfFullLog, places, want)
		}
	}
}
