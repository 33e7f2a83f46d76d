package main

import (
	"encoding/json"
	"fmt"
	"os"
	"strings"
	"unicode/utf8"
)

// The script's names of its two subscriptions.
const dispatched, inhibited = "routes", "mutes"

// How many alerts the script reads at once.
const most = 65536

// A captured post.
type post struct{ moment, body string }

// A line of a script below the configuration.
type command struct {
	Do     string            `json:"do"`
	Thread int               `json:"thread"`
	Sub    string            `json:"sub,omitempty"`
	Kind   string            `json:"kind,omitempty"`
	Max    int               `json:"max,omitempty"`
	At     string            `json:"at,omitempty"`
	Body   string            `json:"body,omitempty"`
	Labels map[string]string `json:"labels,omitempty"`
}

// readPosts reads a file of captured posts.
func readPosts(path string) (found []post, err error) {
	text, err := os.ReadFile(path)
	if err == nil && !utf8.Valid(text) {
		err = fmt.Errorf("%s isn't UTF-8", path)
	}
	for number, line := range strings.Split(string(text), "\n") {
		line = strings.TrimSpace(line)
		moment, body, _ := strings.Cut(line, " ")
		if body = strings.TrimSpace(body); body != "" {
			found = append(found, post{moment, body})
		} else if line != "" && err == nil {
			err = fmt.Errorf("%s, line %d: a moment, a blank and a JSON body are wanted", path, number+1)
		}
	}
	return found, err
}

// labelsOf are an alert's labels that have values, none if they can't be read.
func labelsOf(alert map[string]json.RawMessage) map[string]string {
	var given map[string]*string
	if json.Unmarshal(alert["labels"], &given) != nil {
		return nil
	}
	found := map[string]string{}
	for name, value := range given {
		if value == nil {
			return nil
		}
		if *value != "" {
			found[name] = *value
		}
	}
	return found
}

// labelSets are those of posts, each once, in the order in which they come.
func labelSets(posts []post) (found []map[string]string) {
	known := map[string]bool{}
	for _, it := range posts {
		var alerts []map[string]json.RawMessage
		// An element that is no object is as one without labels.
		_ = json.Unmarshal([]byte(it.body), &alerts)
		for _, alert := range alerts {
			labels := labelsOf(alert)
			text, _ := json.Marshal(labels)
			if len(labels) > 0 && !known[string(text)] {
				known[string(text)] = true
				found = append(found, labels)
			}
		}
	}
	return found
}

// commands post, and then ask who is notified of each alert and what mutes it.
func commands(posts []post) (found []interface{}) {
	if len(posts) == 0 {
		return nil
	}
	for _, it := range posts {
		found = append(found, command{Do: "post", At: it.moment, Body: it.body})
	}
	for _, it := range []struct{ name, kind string }{{dispatched, "dispatch"}, {inhibited, "inhibit"}} {
		found = append(found, command{Do: "subscribe", Sub: it.name, Kind: it.kind}, command{Do: "read", Sub: it.name, Max: most})
	}
	found = append(found, command{Do: "groups", Sub: dispatched})
	for _, labels := range labelSets(posts) {
		found = append(found, command{Do: "mutes", Sub: inhibited, At: posts[len(posts)-1].moment, Labels: labels})
	}
	return found
}
