#!/usr/bin/env python3
"""Runs the replay program without its proofs, by `rt try`, which compiles it anew at each call and keeps nothing.

    tools/unproved.py N [SCRIPT ..] [OPTIONS]
    tools/unproved.py --name SCRIPT [OPTIONS]

With N scripts it runs these one after another over one compilation, and with none it runs standard input. ./replay
calls it. What the program prints comes when it has ended, at most a mebibyte of it. With --name it prints the line that
comes before a script's output if there are several scripts.
"""
import collections
import json
import pathlib
import re
import subprocess
import sys
import tempfile
import threading
import time

TOP = pathlib.Path(__file__).resolve().parent.parent
# About how long a compilation takes, in seconds, and how long a run may take behind it.
COMPILES, MOST = 120, 3600
# The status of ./replay if the program can't be built.
NOT_BUILT = 126

Ended = collections.namedtuple("Ended", "status printed told")
Case = collections.namedtuple("Case", "script arguments")


def clock(seconds):
    return f"{int(seconds) // 60}:{int(seconds) % 60:02}"


def show_time(done):
    """Shows on a terminal how long the compilation has gone on, until it is done."""
    begun = time.monotonic()
    while sys.stderr.isatty() and not done.wait(1):
        told = f"compiling: {clock(time.monotonic() - begun)} of about {clock(COMPILES)}, alone on the machine"
        print(f"\r{told}", end="\033[K", file=sys.stderr, flush=True)
    if sys.stderr.isatty():
        print(end="\r\033[K", file=sys.stderr, flush=True)


def rt_try(words, given=b"", seconds=MOST):
    """What `rt try` of the program printed, and what it told."""
    command = ["rt", "try", "--steps", "1", "--seconds", str(seconds), *words]
    done = threading.Event()
    shown = threading.Thread(target=show_time, args=[done])
    shown.start()
    try:
        ran = subprocess.run(command, cwd=TOP / "crates/am_replay", input=given, capture_output=True)
    finally:
        done.set()
        shown.join()
    return ran.stdout, ran.stderr


def ended_with(told, line):
    """How a run ended by that line of `rt try`: its status, or none if it has no answer; and what it told before it."""
    before, _, rest = told.rpartition(line)
    status = re.match(rb"ended status=(\d+) ", rest)
    kept = re.sub(rb"^(checked: ended|races: not looked for).*\n", b"", before, flags=re.M)
    return int(status[1]) if status else None, kept if status else before + line + rest


def run(arguments, given):
    """How the program ends on standard input."""
    printed, told = rt_try(["--", *arguments], given)
    status, told = ended_with(told, b"run=")
    return Ended(status, printed, told)


def run_cases(cases, seconds=MOST):
    """How the program ends on each of the cases, by name, over one compilation."""
    names, found = sorted(cases), {}
    with tempfile.TemporaryDirectory() as room:
        for name in names:
            pathlib.Path(room, name).write_bytes(cases[name].script)
            if cases[name].arguments:
                pathlib.Path(room, f"{name}.args").write_text("".join(f"{it}\n" for it in cases[name].arguments))
        printed, told = rt_try(["--cases", room], seconds=seconds)
    for name, following in zip(names, [*names[1:], None]):
        line = f"case={name} run=".encode()
        if line not in told:
            raise RuntimeError(told.decode(errors="replace"))
        before, _, told = told.partition(line)
        last, _, told = told.partition(b"\n")
        head = f"== {name}\n".encode()
        at = printed.index(head) + len(head)
        end = printed.find(f"\n== {following}\n".encode(), at - 1) + 1 if following else len(printed)
        found[name] = Ended(*ended_with(before + line + last, line)[:1], printed[at:end], before)
    return found


def name_of(script, arguments):
    """The line before a script's output, if there are several scripts."""
    return json.dumps({"script": script}, separators=(",", ":")) if "--json" in arguments else f"== {script}"


def main():
    if sys.argv[1] == "--name":
        print(name_of(sys.argv[2], sys.argv[3:]))
        return
    count = int(sys.argv[1])
    scripts, arguments = sys.argv[2 : 2 + count], sys.argv[2 + count :]
    if count == 0:
        shown = {"": run(arguments, sys.stdin.buffer.read())}
    else:
        digits = len(str(count))
        cases = {f"{at:0{digits}}": Case(pathlib.Path(it).read_bytes(), arguments) for at, it in enumerate(scripts)}
        try:
            shown = run_cases(cases)
        except RuntimeError as refused:
            shown = {"": Ended(None, b"", str(refused).encode())}
    for name, ended in shown.items():
        if name and count > 1:
            print(name_of(scripts[int(name)], arguments), flush=True)
        sys.stdout.buffer.write(ended.printed)
        sys.stdout.flush()
        sys.stderr.buffer.write(ended.told)
        if ended.status is None:
            print(f"replay: no answer without the proofs (no build, over {MOST} seconds, or a mebibyte)", file=sys.stderr)
    sys.exit(max(NOT_BUILT if ended.status is None else ended.status for ended in shown.values()))


if __name__ == "__main__":
    main()
