"""Alertmanager's own acceptance suites, as they lie on the machine, run on a command.

Their tests start $GOPATH/bin/prometheus-alertmanager. Here that is a script that runs the command in its own process, and
leaves out `--template.default`: Debian's tests pass that flag, which no command of this version takes, Debian's own included.
"""
import os
import re
import shutil
import subprocess

from golang import SOURCES, go

PACKAGE = "github.com/prometheus/alertmanager/test/{}/acceptance"
SUITES = {"v1": "with_api_v1", "v2": "with_api_v2", "cli": "cli"}
# How many tests of a suite run at once.
AT_ONCE = 4
SECONDS = 600
WRAPPER = """#!/usr/bin/env bash
words=()
while [ $# -gt 0 ]; do
  case $1 in
  --template.default) shift ;;
  *) words+=("$1") ;;
  esac
  shift
done
exec "{}" "${{words[@]}}"
"""


def built(room):
    """What goes wrong in building the suites, each of which becomes a program."""
    for suite, folder in SUITES.items():
        ran = go("test", "-c", "-o", room / f"acceptance-{suite}", PACKAGE.format(folder))
        yield f"the acceptance suite {suite}", ran.stderr if ran.returncode else None


def lay_out(path, command):
    """Makes a GOPATH whose bin has the command and amtool, and whose src is Debian's."""
    (path / "bin").mkdir(parents=True)
    (path / "src").symlink_to(SOURCES / "src")
    (path / "bin/amtool").symlink_to(shutil.which("amtool"))
    script = path / "bin/prometheus-alertmanager"
    script.write_text(WRAPPER.format(command))
    script.chmod(0o755)


def run(suite, room, program, pattern=".", at_once=AT_ONCE):
    """The outcome of each test of a suite whose name matches, and what was printed."""
    words = [room / f"acceptance-{suite}", "-test.v", f"-test.run={pattern}", f"-test.parallel={at_once}"]
    words.append(f"-test.timeout={SECONDS}s")
    settings = os.environ | {"GOPATH": str(room / "gopath"), "SINNORAKU_PROGRAM": str(program)}
    ran = subprocess.run(list(map(str, words)), env=settings, cwd=room, capture_output=True, text=True, errors="replace")
    found = re.findall(r"^--- (PASS|FAIL|SKIP): (\w+)", ran.stdout, re.M)
    return {name: outcome for outcome, name in found}, ran.stdout + ran.stderr


def why(printed):
    """The lines that say what went wrong."""
    found = re.findall(r"^.*\.go:\d+: (?!stdout|stderr).*$|^.*error: .*$|^.*level=error.*$", printed, re.M)
    return "\n".join(line.strip()[:300] for line in found[:6]) or printed[-600:]


def suites(room, command, program):
    """The tests of all suites, one suite after another. As they wait for fixed times, one that fails is run again by itself."""
    lay_out(room / "gopath", command)
    for suite in SUITES:
        outcomes, printed = run(suite, room, program)
        if not outcomes:
            yield f"acceptance, {suite}", printed[-2000:]
        for test, outcome in outcomes.items():
            if outcome == "FAIL":
                print(f"run again by itself: {test} ({suite})", flush=True)
                again, printed = run(suite, room, program, f"^{test}$", 1)
                outcome = again.get(test)
            yield f"acceptance, {suite}: {test}", None if outcome == "PASS" else f"{outcome}: {why(printed)}"
