// Command from-alertmanager writes a script for ./replay from an Alertmanager configuration. tools/from-alertmanager
// builds it, and says how it is called.
package main

import (
	"encoding/json"
	"errors"
	"fmt"
	"os"
	"strings"

	"github.com/prometheus/alertmanager/config"
	"github.com/prometheus/alertmanager/template"
	"gopkg.in/yaml.v2"
)

// What the process ends with: the configuration is refused, or there is no script.
const (
	refused  = 1
	noScript = 2
)

// load reads a configuration as `amtool check-config` does. A panic of Alertmanager's code is a refusal.
func load(path string) (found *config.Config, err error) {
	defer func() {
		if why := recover(); why != nil {
			err = fmt.Errorf("Alertmanager panics, as of a route, a receiver or a notifier that is null: %v", why)
		}
	}()
	if found, err = config.LoadFile(path); err == nil {
		_, err = template.FromGlobs("", found.Templates...)
	}
	return found, err
}

// say prints a line of the error stream. A text of several lines is put on one.
func say(word, text string) {
	fmt.Fprintf(os.Stderr, "%s: %s\n", word, strings.ReplaceAll(text, "\n", " "))
}

// refuse says why there is no script. An error of YAML is several.
func refuse(err error, status int) {
	if several := (*yaml.TypeError)(nil); errors.As(err, &several) {
		for _, text := range several.Errors {
			say("refused", text)
		}
	} else {
		say("refused", err.Error())
	}
	os.Exit(status)
}

// wordsOf takes the command's words apart.
func wordsOf(given []string) (files []string, check bool) {
	for _, word := range given {
		switch {
		case word == "--check":
			check = true
		case strings.HasPrefix(word, "-"):
			fmt.Fprintln(os.Stderr, "from-alertmanager: there is no option", word)
			os.Exit(noScript)
		default:
			files = append(files, word)
		}
	}
	if len(files) != 1 && len(files) != 2 {
		fmt.Fprintln(os.Stderr, "from-alertmanager: a configuration is wanted, and at most one file of posts")
		os.Exit(noScript)
	}
	return files, check
}

func main() {
	files, check := wordsOf(os.Args[1:])
	status := noScript
	if check {
		status = refused
	}
	found, err := load(files[0])
	if err != nil {
		refuse(err, status)
	}
	made, lines, err := converted(found)
	if err != nil {
		refuse(err, status)
	}
	var posts []post
	if !check && len(files) == 2 {
		if posts, err = readPosts(files[1]); err != nil {
			refuse(err, noScript)
		}
	}
	for _, it := range lines {
		say(it.word, it.text)
	}
	if check {
		return
	}
	output := json.NewEncoder(os.Stdout)
	output.SetEscapeHTML(false)
	for _, line := range append([]interface{}{made}, commands(posts)...) {
		if err := output.Encode(line); err != nil {
			refuse(err, noScript)
		}
	}
}
