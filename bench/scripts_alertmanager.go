// What whole scripts are compared with: Alertmanager's own handler of posts over its own provider (api.go), which a user
// would run otherwise. It reads a script of bench/scripts.py on its standard input. The body of each post goes to the
// handler, a subscription is the provider's, and a read takes the next alert of the subscription's iterator.
//
// Alertmanager has no answer that could be printed to a line. It judges by the clock and not by the post's moment, which
// gives the same in these scripts. So that little but Alertmanager's own work is timed, lines are taken in the form in
// which bench/scripts.py writes them: the body is the last member, and there is one subscription.
//
//	scripts_alertmanager <SCRIPT     prints how many posts there were, and how many alerts are stored at the end
package main

import (
	"bufio"
	"bytes"
	"context"
	"fmt"
	"os"

	"github.com/prometheus/alertmanager/provider"
)

// How many bytes a line may have.
const longest = 8 << 20

// read takes the next alert, which has been put before.
func read(reader provider.AlertIterator) {
	if <-reader.Next() == nil {
		panic(reader.Err())
	}
}

func count(alerts provider.AlertIterator) (found int) {
	defer alerts.Close()
	for range alerts.Next() {
		found++
	}
	return found
}

func main() {
	running, stop := context.WithCancel(context.Background())
	defer stop()
	api, alerts := newAPI(running)
	lines := bufio.NewScanner(os.Stdin)
	lines.Buffer(make([]byte, 1<<20), longest)
	lines.Scan() // The configuration.
	var reader provider.AlertIterator
	posts := 0
	for lines.Scan() {
		head, body, isPost := bytes.Cut(lines.Bytes(), []byte(`,"body":`))
		switch {
		case isPost:
			post(api, bytes.NewReader(body[:len(body)-1]))
			posts++
		case bytes.HasPrefix(head, []byte(`{"do":"subscribe"`)):
			reader = alerts.Subscribe()
		case bytes.HasPrefix(head, []byte(`{"do":"read"`)):
			read(reader)
		default:
			panic(string(head))
		}
	}
	check(lines.Err())
	fmt.Printf("posts %d stored %d\n", posts, count(alerts.GetPending()))
}
