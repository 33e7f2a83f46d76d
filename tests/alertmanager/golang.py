"""The go command, with this package and the sources of Debian's packages on its path."""
import os
import pathlib
import subprocess

TOP = pathlib.Path(__file__).resolve().parent.parent.parent
GO = TOP / "embed/go"
# Where Debian's packages have their Go sources.
SOURCES = pathlib.Path("/usr/share/gocode")
ALERTMANAGER = SOURCES / "src/github.com/prometheus/alertmanager"
SECONDS = 900


def go(*words, path=GO, program=""):
    """How a go command ends, with this GOPATH before Debian's. What it runs takes that program."""
    settings = {"GO111MODULE": "off", "GOFLAGS": "", "GOPATH": f"{path}:{SOURCES}", "SINNORAKU_PROGRAM": str(program)}
    return ended(["go", *map(str, words)], os.environ | settings)


def ended(command, settings, seconds=SECONDS):
    """How a command ends. One that takes too long is killed, and its status says so."""
    try:
        return subprocess.run(command, cwd=TOP, env=settings, capture_output=True, text=True, timeout=seconds)
    except subprocess.TimeoutExpired:
        return subprocess.CompletedProcess(command, "none", "", f"it took more than {seconds} seconds")
