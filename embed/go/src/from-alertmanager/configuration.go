package main

import (
	"bytes"
	"encoding/json"
	"errors"
	"fmt"
	"reflect"
	"sort"
	"strings"

	"github.com/prometheus/alertmanager/config"
	"github.com/prometheus/alertmanager/pkg/labels"
)

// How many places of a member that is left out are named, and how many levels of routes the replay program takes.
const shown, deepest = 3, 32

// The members of a configuration that the replay program knows, and those that only lead to others.
var kept = map[string]bool{
	"global": true, "route": true, "inhibit_rules": true, "receivers": true, "resolve_timeout": true, "name": true,
	"receiver": true, "group_by": true, "match": true, "match_re": true, "matchers": true, "continue": true, "routes": true,
}

// A configuration as the replay program reads it.
type configuration struct {
	Global       map[string]string `json:"global,omitempty"`
	Route        route             `json:"route"`
	InhibitRules []rule            `json:"inhibit_rules,omitempty"`
}

type route struct {
	Receiver string   `json:"receiver,omitempty"`
	GroupBy  []string `json:"group_by,omitempty"`
	Continue bool     `json:"continue,omitempty"`
	Matchers []string `json:"matchers,omitempty"`
	Routes   []route  `json:"routes,omitempty"`
}

type rule struct {
	Source []string `json:"source_matchers,omitempty"`
	Target []string `json:"target_matchers,omitempty"`
	Equal  []string `json:"equal,omitempty"`
}

// A line of the error stream: what begins it, and the rest.
type line struct{ word, text string }

// A conversion has what is said of a configuration: notes, and the names of the members that are left out, each with its
// places, in the order in which they were first seen. It counts the levels of routes.
type conversion struct {
	notes, names []string
	places       map[string][]string
	levels       int
}

func (c *conversion) note(text string, words ...interface{}) {
	c.notes = append(c.notes, fmt.Sprintf(text, words...))
}

// leaves notes the members of a part that the replay program doesn't know and that aren't as they are if nothing is given.
func (c *conversion) leaves(part, usual interface{}, place string) {
	given, without := reflect.ValueOf(part), reflect.ValueOf(usual)
	for at := 0; at < given.NumField(); at++ {
		name, _, _ := strings.Cut(given.Type().Field(at).Tag.Get("yaml"), ",")
		if name == "" || name == "-" || kept[name] {
			continue
		}
		if reflect.DeepEqual(given.Field(at).Interface(), without.Field(at).Interface()) {
			continue
		}
		if c.places[name] == nil {
			c.names = append(c.names, name)
		}
		c.places[name] = append(c.places[name], place)
	}
}

// quoted is a matcher's value between quotes.
func quoted(value string) string {
	return `"` + strings.NewReplacer(`\`, `\\`, `"`, `\"`, "\n", `\n`).Replace(value) + `"`
}

// matchers are those of a route or of a side of a rule, older and newer forms, in the order of their texts.
func matchers(equal map[string]string, patterns config.MatchRegexps, others config.Matchers) (found []string) {
	for name, value := range equal {
		found = append(found, name+"="+quoted(value))
	}
	for name, it := range patterns {
		found = append(found, name+"=~"+quoted(pattern(it.String())))
	}
	for _, it := range others {
		value := it.Value
		if it.Type == labels.MatchRegexp || it.Type == labels.MatchNotRegexp {
			value = pattern(value)
		}
		found = append(found, it.Name+it.Type.String()+quoted(value))
	}
	sort.Strings(found)
	return found
}

func (c *conversion) route(found *config.Route, place string, level int) route {
	if level > c.levels {
		c.levels = level
	}
	c.leaves(*found, config.Route{}, place)
	made := route{Receiver: found.Receiver, GroupBy: found.GroupByStr, Continue: found.Continue}
	made.Matchers = matchers(found.Match, found.MatchRE, found.Matchers)
	for at, below := range found.Routes {
		made.Routes = append(made.Routes, c.route(below, fmt.Sprintf("%s.routes[%d]", place, at), level+1))
	}
	return made
}

func (c *conversion) rules(found []*config.InhibitRule) (made []rule) {
	for at, it := range found {
		if it == nil {
			c.note("inhibit_rules[%d]: this rule is empty: amtool takes it, Alertmanager panics", at)
			continue
		}
		one := rule{
			Source: matchers(it.SourceMatch, it.SourceMatchRE, it.SourceMatchers),
			Target: matchers(it.TargetMatch, it.TargetMatchRE, it.TargetMatchers),
		}
		if one.Source == nil {
			c.note("inhibit_rules[%d]: the rule has no source side: every alert is a source", at)
		}
		if one.Target == nil {
			c.note("inhibit_rules[%d]: the rule has no target side: every alert is a target", at)
		}
		for _, name := range it.Equal {
			// No alert has the empty name, so that all agree on it.
			if name != "" {
				one.Equal = append(one.Equal, string(name))
			}
		}
		made = append(made, one)
	}
	return made
}

// converted is the configuration for the replay program, with what is said of it.
func converted(found *config.Config) (made configuration, said []line, err error) {
	c, usual := conversion{places: map[string][]string{}}, config.DefaultGlobalConfig()
	c.leaves(*found, config.Config{}, "the top")
	c.leaves(*found.Global, usual, "global")
	made.InhibitRules = c.rules(found.InhibitRules)
	made.Route = c.route(found.Route, "route", 1)
	if found.Global.ResolveTimeout != usual.ResolveTimeout {
		made.Global = map[string]string{"resolve_timeout": found.Global.ResolveTimeout.String()}
	}
	if c.levels > deepest {
		c.note("the routes have more than %d levels, which the replay program refuses", deepest)
	}
	for at, it := range found.Receivers {
		c.leaves(*it, config.Receiver{}, fmt.Sprintf("receivers[%d]", at))
	}
	for _, text := range c.notes {
		said = append(said, line{"note", text})
	}
	for _, name := range c.names {
		places, more := c.places[name], ""
		if len(places) > shown {
			places, more = places[:shown], fmt.Sprintf(" and %d more", len(places)-shown)
		}
		said = append(said, line{"left out", name + " of " + strings.Join(places, ", ") + more})
	}
	return made, said, readable(made)
}

// readable says whether a configuration is read as it is written: a text that isn't UTF-8 would be another one.
func readable(made configuration) error {
	var again configuration
	text, _ := json.Marshal(made)
	if err := json.Unmarshal(text, &again); err != nil {
		return err
	}
	if same, _ := json.Marshal(again); !bytes.Equal(same, text) {
		return errors.New("a text of the configuration isn't UTF-8, so that no script can have it")
	}
	return nil
}
