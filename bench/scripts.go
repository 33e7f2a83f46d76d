// What whole scripts are compared with: a lean program that reads a script of bench/scripts.py on its standard input
// and prints what ./replay prints of it. It is made of Go's standard library and of Alertmanager's own alerts, label
// sets and merge, from Debian's packages of their source. Alertmanager's own provider isn't in it: each line is run as
// it is read, in one goroutine, so nothing is locked and no subscription needs a channel.
//
// It knows the commands of these scripts with the members that they have there, and no limit but that of a line. An
// invalid alert ends it. Alertmanager's merge judges by the clock whether reports are resolved, and not by the post's
// moment. In these scripts both give the same, since each report of a label set ends later than the one before it.
//
//	scripts <SCRIPT     prints the answer to each line, and the counts at the end
package main

import (
	"bufio"
	"encoding/json"
	"fmt"
	"os"
	"sort"
	"strings"
	"time"

	"github.com/prometheus/alertmanager/types"
	"github.com/prometheus/common/model"
)

// How many bytes a line may have.
const longest = 8 << 20

// A label set as it is read from JSON. The map is read at once, while model.LabelSet would read its text a second time;
// names and values are validated with the alert.
type labels = map[model.LabelName]model.LabelValue

type configuration struct {
	Global struct {
		ResolveTimeout model.Duration `json:"resolve_timeout"`
	} `json:"global"`
}

type postable struct {
	Labels       labels    `json:"labels"`
	Annotations  labels    `json:"annotations"`
	StartsAt     time.Time `json:"startsAt"`
	EndsAt       time.Time `json:"endsAt"`
	GeneratorURL string    `json:"generatorURL"`
}

type command struct {
	Do   string     `json:"do"`
	Sub  string     `json:"sub"`
	At   time.Time  `json:"at"`
	Body []postable `json:"body"`
}

// What a subscriber hasn't read yet.
type subscription struct {
	alerts []*types.Alert
}

type provider struct {
	resolveTimeout time.Duration
	alerts         map[model.Fingerprint]*types.Alert
	subscriptions  []*subscription
	places, posts  int
}

func check(err error) {
	if err != nil {
		panic(err)
	}
}

// alertOf is the alert that Alertmanager's handler of posts makes of a posted one.
func (provider *provider) alertOf(posted *postable, now time.Time) *types.Alert {
	alert := &types.Alert{
		Alert: model.Alert{
			Labels:       posted.Labels,
			Annotations:  posted.Annotations,
			StartsAt:     posted.StartsAt,
			EndsAt:       posted.EndsAt,
			GeneratorURL: posted.GeneratorURL,
		},
		UpdatedAt: now,
	}
	if alert.StartsAt.IsZero() {
		if alert.EndsAt.IsZero() {
			alert.StartsAt = now
		} else {
			alert.StartsAt = alert.EndsAt
		}
	}
	if alert.EndsAt.IsZero() {
		alert.Timeout = true
		alert.EndsAt = now.Add(provider.resolveTimeout)
	}
	for name, value := range alert.Labels {
		if value == "" {
			delete(alert.Labels, name)
		}
	}
	check(alert.Validate())
	return alert
}

// put stores an alert as Alertmanager's provider does, and hands it to each subscription.
func (provider *provider) put(alert *types.Alert) {
	fingerprint := alert.Fingerprint()
	if old, found := provider.alerts[fingerprint]; found {
		if (alert.EndsAt.After(old.StartsAt) && alert.EndsAt.Before(old.EndsAt)) ||
			(alert.StartsAt.After(old.StartsAt) && alert.StartsAt.Before(old.EndsAt)) {
			alert = old.Merge(alert)
		}
	}
	provider.alerts[fingerprint] = alert
	for _, subscription := range provider.subscriptions {
		subscription.alerts = append(subscription.alerts, alert)
	}
}

// post posts alerts at a moment, and says what is printed of it.
func (provider *provider) post(posted []postable, now time.Time) string {
	provider.posts++
	for at := range posted {
		provider.put(provider.alertOf(&posted[at], now))
	}
	if len(posted) == 0 {
		return "post valid 0 no place"
	}
	provider.places++
	return fmt.Sprintf("post valid %d place %d", len(posted), provider.places-1)
}

// subscribe is a new subscription, which is given what is stored in no order, as Alertmanager's are.
func (provider *provider) subscribe() *subscription {
	subscribed := &subscription{}
	for _, alert := range provider.alerts {
		subscribed.alerts = append(subscribed.alerts, alert)
	}
	provider.subscriptions = append(provider.subscriptions, subscribed)
	return subscribed
}

var escapes = strings.NewReplacer(`\`, `\\`, `"`, `\"`, "\n", `\n`)

// textOf is a label set as it is printed.
func textOf(labels model.LabelSet) string {
	names := make(model.LabelNames, 0, len(labels))
	for name := range labels {
		names = append(names, name)
	}
	sort.Sort(names)
	var text strings.Builder
	text.WriteByte('{')
	for at, name := range names {
		if at > 0 {
			text.WriteByte(',')
		}
		text.WriteString(string(name))
		text.WriteString(`="`)
		escapes.WriteString(&text, string(labels[name]))
		text.WriteByte('"')
	}
	text.WriteByte('}')
	return text.String()
}

// momentOf is a moment as it is printed.
func momentOf(moment time.Time) string {
	if moment.Nanosecond() == 0 {
		return moment.UTC().Format("2006-01-02T15:04:05Z")
	}
	return moment.UTC().Format("2006-01-02T15:04:05.000000000Z")
}

// read takes a subscription's oldest alert, and says what is printed of it.
func (subscription *subscription) read() string {
	if len(subscription.alerts) == 0 {
		return "pending"
	}
	alert := subscription.alerts[0]
	subscription.alerts = subscription.alerts[1:]
	end := "given"
	if alert.Timeout {
		end = "timeout"
	}
	return fmt.Sprintf("item %s %s %s %s %s",
		textOf(alert.Labels), momentOf(alert.StartsAt), momentOf(alert.EndsAt), end, textOf(alert.Annotations))
}

func main() {
	lines := bufio.NewScanner(os.Stdin)
	lines.Buffer(make([]byte, 1<<20), longest)
	printed := bufio.NewWriterSize(os.Stdout, 1<<16)
	var read configuration
	read.Global.ResolveTimeout = model.Duration(5 * time.Minute)
	lines.Scan()
	check(json.Unmarshal(lines.Bytes(), &read))
	provider := &provider{
		resolveTimeout: time.Duration(read.Global.ResolveTimeout),
		alerts:         map[model.Fingerprint]*types.Alert{},
	}
	named := map[string]*subscription{}
	for number := 2; lines.Scan(); number++ {
		var command command
		check(json.Unmarshal(lines.Bytes(), &command))
		var answer string
		switch command.Do {
		case "post":
			answer = provider.post(command.Body, command.At)
		case "subscribe":
			subscribed := provider.subscribe()
			named[command.Sub] = subscribed
			answer = fmt.Sprintf("subscribe lane %d opening %d", len(provider.subscriptions)-1, len(subscribed.alerts))
		case "read":
			answer = named[command.Sub].read()
		default:
			panic(fmt.Sprintf("line %d has an unknown command", number))
		}
		fmt.Fprintln(printed, number, answer)
	}
	check(lines.Err())
	fmt.Fprintf(printed, "end places %d posts %d stored %d\n", provider.places, provider.posts, len(provider.alerts))
	check(printed.Flush())
}
