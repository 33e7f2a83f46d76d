"""The module, its packages' own tests, those of Alertmanager that use a provider, and the race of bench/race."""
import os
import pathlib
import re
import shutil
import subprocess

from golang import ALERTMANAGER, GO, SOURCES, TOP, ended, go

# The provider, and what it is made of that isn't Alertmanager's.
PACKAGES = ("sinnoraku", "sinnoraku/program")
# How many posters, posts of each, readers, turns of each and merges the race has.
RACE = (4, 4_000, 4, 250, 5_000)
RACE_SECONDS = 300

# How copies of Alertmanager's files are rewritten. Moments lose the reading of the process's own clock, which a text of a
# moment doesn't have, since some tests compare all that a moment has.
REWRITTEN = {
    "provider/mem": ((r"(?m)^package mem$", "package sinnoraku"), (r"\bNewAlerts\(", "newAlertsForTest(")),
    "dispatch": (
        (r'(?m)^\t"github.com/prometheus/alertmanager/provider/mem"\n', ""),
        (r"\bmem\.NewAlerts\(", "newAlertsForTest("),
        (r"\bt0 = time\.Now\(\)\.", "t0 = time.Now().Round(0).UTC()."),
    ),
    "inhibit": (
        (r'(?m)^\t"github.com/prometheus/alertmanager/provider"\n', ""),
        (r"(?s)type fakeAlerts struct.*?\n}\n.*?func newFakeAlerts.*?\n}\n.*?Subscribe\(\).*?\n}\n", ""),
    ),
}
# What the copies need besides, with its package and imports.
ADDED = {
    "provider/mem": """package sinnoraku

import (
	"context"
	"os"
	"time"

	"github.com/go-kit/log"
	"github.com/prometheus/client_golang/prometheus"

	"github.com/prometheus/alertmanager/types"
	"sinnoraku/program"
)

const alertChannelLength = program.ChannelLength

type noopCallback struct{}

func (noopCallback) PreStore(*types.Alert, bool) error { return nil }
func (noopCallback) PostStore(*types.Alert, bool)      {}
func (noopCallback) PostDelete(*types.Alert)           {}

func newAlertsForTest(ctx context.Context, m types.Marker, every time.Duration, cb AlertStoreCallback, l log.Logger, r prometheus.Registerer) (*Alerts, error) {
	return NewAlerts(ctx, m, every, cb, l, r, Options{Program: os.Getenv("SINNORAKU_PROGRAM")})
}

func (a *Alerts) count(state types.AlertState) int {
	counts, err := a.countStates()
	if err != nil {
		panic(err)
	}
	return counts[state]
}
""",
    "dispatch": """package dispatch

import (
	"context"
	"os"
	"time"

	"github.com/go-kit/log"
	"github.com/prometheus/client_golang/prometheus"

	"github.com/prometheus/alertmanager/types"
	"sinnoraku"
)

func newAlertsForTest(ctx context.Context, m types.Marker, every time.Duration, cb sinnoraku.AlertStoreCallback, l log.Logger, r prometheus.Registerer) (*sinnoraku.Alerts, error) {
	return sinnoraku.NewAlerts(ctx, m, every, cb, l, r, sinnoraku.Options{Program: os.Getenv("SINNORAKU_PROGRAM")})
}
""",
    # The provider with alerts that are put one after another once somebody subscribes; finished is closed when that
    # subscriber has taken them all and one that means nothing.
    "inhibit": """package inhibit

import (
	"context"
	"os"
	"time"

	"github.com/prometheus/client_golang/prometheus"
	"github.com/prometheus/common/model"

	"github.com/prometheus/alertmanager/provider"
	"github.com/prometheus/alertmanager/types"
	"sinnoraku"
)

type fakeAlerts struct {
	*sinnoraku.Alerts
	alerts   []*types.Alert
	finished chan struct{}
}

func newFakeAlerts(alerts []*types.Alert) *fakeAlerts {
	options := sinnoraku.Options{Program: os.Getenv("SINNORAKU_PROGRAM")}
	marker := types.NewMarker(prometheus.NewRegistry())
	ours, err := sinnoraku.NewAlerts(context.Background(), marker, time.Hour, nil, nopLogger, nil, options)
	if err != nil {
		panic(err)
	}
	last := &types.Alert{Alert: model.Alert{Labels: model.LabelSet{"means": "nothing"}, StartsAt: time.Now()}}
	return &fakeAlerts{Alerts: ours, alerts: append(alerts, last), finished: make(chan struct{})}
}

func (f *fakeAlerts) Subscribe() provider.AlertIterator {
	from, to := f.Alerts.Subscribe(), make(chan *types.Alert)
	done := make(chan struct{})
	go func() {
		for _, it := range f.alerts {
			if err := f.Put(it); err != nil {
				panic(err)
			}
			to <- <-from.Next()
		}
		close(f.finished)
		<-done
	}()
	return provider.NewAlertIterator(to, done, nil)
}
""",
}


def tidiness():
    """What gofmt and go vet say."""
    files = sorted([*GO.glob("**/*.go"), *TOP.glob("bench/*.go")])
    ran = subprocess.run(["gofmt", "-l", *files], capture_output=True, text=True)
    yield "gofmt -l", (ran.stdout + ran.stderr) or None
    for words in (PACKAGES, ["from-alertmanager"], [GO / "mem/mem.go"], [TOP / "bench/race.go", TOP / "bench/race_sinnoraku.go"]):
        ran = go("vet", *words)
        yield f"go vet of {pathlib.Path(words[-1]).name}", ran.stderr if ran.returncode else None
    listed = go("list", "-deps", "-f", "{{.ImportPath}}", PACKAGES[1]).stdout.split()
    names = [name for name in listed if name.startswith("github.com/prometheus/alertmanager")]
    yield f"what {PACKAGES[1]} uses", None if PACKAGES[1] in listed and not names else f"it uses {names}"


def module(room):
    """Whether the module builds. As no network is asked, Debian's packages are what it has vendored."""
    own, text = room / "module", ""
    shutil.copytree(GO / "src/sinnoraku", own, ignore=shutil.ignore_patterns("*_test.go"))
    listed = go("list", "-deps", "-f", "{{.ImportPath}}", *PACKAGES).stdout.split()
    for name, version in re.findall(r"^\t(\S+) (v\S+)", (own / "go.mod").read_text(), re.M):
        folder = re.sub(r"/v\d+$", "", name)
        link = own / "vendor" / name
        link.parent.mkdir(parents=True, exist_ok=True)
        link.symlink_to(SOURCES / "src" / folder)
        packages = [it for it in listed if f"{it}/".startswith(f"{folder}/")]
        text += f"# {name} {version}\n## explicit; go 1.19\n" + "".join(f"{name}{it.removeprefix(folder)}\n" for it in packages)
    (own / "vendor/modules.txt").write_text(text)
    settings = os.environ | {"GO111MODULE": "on", "GOFLAGS": "-mod=vendor", "GOPROXY": "off"}
    ran = subprocess.run(["go", "vet", "./..."], cwd=own, env=settings, capture_output=True, text=True)
    yield "the module", ran.stderr if ran.returncode else None


def copied(room):
    """A GOPATH with the package and with copies of Alertmanager's tests, and which tests of each package use a provider."""
    users = {}
    for folder, rules in REWRITTEN.items():
        name = "sinnoraku" if folder == "provider/mem" else f"checked/{pathlib.Path(folder).name}"
        kept = GO / "src/sinnoraku" if name == "sinnoraku" else ALERTMANAGER / folder
        own = room / "src" / name
        own.mkdir(parents=True)
        for file in kept.glob("*.go"):
            if not file.name.endswith("_test.go"):
                shutil.copy(file, own)
        if name == "sinnoraku":
            shutil.copytree(kept / "program", own / "program", ignore=shutil.ignore_patterns("*_test.go"))
        users[name] = []
        for file in sorted((ALERTMANAGER / folder).glob("*_test.go")):
            text = file.read_text()
            for old, new in rules:
                text = re.sub(old, new, text)
            (own / file.name).write_text(text)
            tests = re.findall(r"^func (Test\w+)\(.*?^}$", text, re.M | re.S)
            bodies = re.findall(r"^func Test\w+\(.*?^}$", text, re.M | re.S)
            users[name] += [test for test, body in zip(tests, bodies) if re.search(r"new(AlertsForTest|FakeAlerts)\(", body)]
        (own / "added_test.go").write_text(ADDED[folder])
    return users


def tested(path, package, program, *words):
    """The tests of a package, each with what it printed if it failed."""
    ran = go("test", "-count=1", "-v", *words, package, path=path, program=program)
    found = re.findall(r"^--- (PASS|FAIL|SKIP): (\w+)", ran.stdout, re.M)
    for outcome, name in found:
        yield name, None if outcome == "PASS" else ran.stdout[-4000:]
    if ran.returncode and all(outcome == "PASS" for outcome, _ in found) or not found:
        yield "as a whole", f"status {ran.returncode}: {ran.stdout[-4000:]}{ran.stderr[-4000:]}"


def tested_again(path, package, program, names, *words):
    """Some tests of a package, each of which may fail twice."""
    left, kind = names, " with the race detector" if "-race" in words else ""
    for turn in range(3):
        faults = dict(tested(path, package, program, "-run", f"^({'|'.join(left)})$", *words))
        for name in left:
            if faults.get(name, "it wasn't run") is None:
                yield f"{package}: {name}{kind}", None
        left = [name for name in left if faults.get(name, "it wasn't run")]
        if not left:
            return
        print(f"run again{kind}: {', '.join(left)}" if turn < 2 else f"failed three times{kind}", flush=True)
    for name in left:
        yield f"{package}: {name}{kind}", faults.get(name) or str(faults)


def all_tests(room, program):
    users = copied(room)
    for words in ((), ("-race",)):
        for package in PACKAGES:
            for name, fault in tested(GO, package, program, *words):
                yield f"{package}: {name}, {' '.join(words)}", fault
        for package, names in users.items():
            for name, fault in tested_again(room, package, program, names, *words):
                yield f"Alertmanager's own, {name}", fault


def race(room, program):
    """The race of bench/race in Go."""
    built = room / "race"
    ran = go("build", "-o", built, TOP / "bench/race.go", TOP / "bench/race_sinnoraku.go")
    if ran.returncode:
        yield "bench/race in Go", ran.stderr
        return
    settings = os.environ | {"SINNORAKU_PROGRAM": str(program)}
    ran = ended([built, *map(str, RACE)], settings, RACE_SECONDS)
    if ran.returncode:
        yield "bench/race in Go", ran.stderr[-2000:]
        return
    subscribed, twice, missed, merged, lost, cut = map(int, ran.stdout.split())
    # On a busy machine a reader may be cut off. It gets what is stored once more, and not what came in between.
    told = f"{twice} told twice, {missed} missed, {cut} cut off"
    yield f"{subscribed} subscriptions of the race", told if max(twice, missed) > cut else None
    yield f"{merged} merges of the race", f"{lost} lost" if lost else None
