"""The programs that are timed here: this repository's own, proved, and those that they are compared with."""
import os
import pathlib
import shutil
import subprocess
import sys
import tempfile

TOP = pathlib.Path(__file__).resolve().parent.parent
# The proved program that times the parts.
PARTS = TOP / "crates/am_bench/out/am_bench"
# What Debian's package of Alertmanager's source has.
ALERTMANAGER = pathlib.Path("/usr/share/gocode/src/github.com/prometheus/alertmanager")


def replay():
    """The replay program: the one that SINNORAKU_PROGRAM names, or the proved one, which is proved only if a source has
    changed since."""
    if named := os.environ.get("SINNORAKU_PROGRAM"):
        return pathlib.Path(named).resolve()
    subprocess.run([TOP / "replay", "--prove"], check=True)
    return TOP / "crates/am_replay/out/am_replay"


def prove_parts():
    """Proves and builds the program that times the parts, if a source has changed since that was done last."""
    crate, sums = TOP / "crates/am_bench", TOP / "tools/sums"
    if subprocess.run([sums, "--check", crate.name]).returncode == 0:
        return
    with tempfile.NamedTemporaryFile() as noted:
        subprocess.run([sums, crate.name], stdout=noted, check=True)
        subprocess.run(["rt", "run", "--", "each"], cwd=crate, stdout=subprocess.DEVNULL, check=True)
        subprocess.run([sums, "--note", noted.name, crate.name], check=True)


def built(room, sources, words):
    """The program that a command builds of some sources of this folder, or nothing if it can't."""
    program = pathlib.Path(room) / "-".join(pathlib.Path(source).stem for source in sources)
    words = [*words, "-o", program, *(TOP / "bench" / source for source in sources)]
    if subprocess.run(words).returncode:
        print(f"no peer: {' '.join(sources)} can't be built", file=sys.stderr)
        return None
    return program


def go(room, *sources):
    """A program in Go over Alertmanager's own parts, or nothing if it can't be built."""
    if not shutil.which("go") or not ALERTMANAGER.is_dir():
        wanted = "Debian's golang-go and golang-github-prometheus-alertmanager-dev"
        print(f"no peer: {' '.join(sources)} needs {wanted}", file=sys.stderr)
        return None
    return built(room, sources, [TOP / "embed/go/go", "build"])


def rust(room, source, *flags):
    """A program in Rust without crates, or nothing if it can't be built."""
    if not shutil.which("rustc"):
        print(f"no peer: {source} needs rustc", file=sys.stderr)
        return None
    return built(room, [source], ["rustc", "--edition", "2021", "-O", *flags])
