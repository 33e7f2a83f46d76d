"""One Alertmanager: under posts of amtool and its API, and of a Prometheus; one whose programs die; and a packed one."""
import collections
import concurrent.futures
import datetime
import json
import os
import signal
import subprocess
import threading
import time

from golang import TOP
from servers import Alertmanager, Webhook, free_port, wait_until

CONFIGURATION = """
global:
  resolve_timeout: 24h
route:
  receiver: hook
  group_by: ['...']
  group_wait: 100ms
  group_interval: 2s
  repeat_interval: 4h
receivers:
- name: hook
  webhook_configs:
  - url: http://127.0.0.1:{port}/
"""
# A Prometheus with two rules, which are evaluated each second.
PROMETHEUS = """
global:
  evaluation_interval: 1s
rule_files: ['{rules}']
alerting:
  alertmanagers:
  - static_configs:
    - targets: ['127.0.0.1:{port}']
"""
RULES = """
groups:
- name: two
  rules:
  - alert: GoesOn
    expr: vector(1)
  - alert: Ends
    expr: vector(1) and (vector(time()) < {until})
"""
# What a command says once it has ended because its provider has.
ENDED = "Alertmanager ends with status 2, since the provider has ended"


class Traffic:
    """Posters who note what they posted and what they resolved."""

    def __init__(self, server, hook, seconds):
        self.server, self.hook, self.end = server, hook, time.monotonic() + seconds
        self.lock = threading.Lock()
        self.posted, self.resolved, self.faults = set(), set(), []

    def note(self, where, names):
        with self.lock:
            where.update(names)

    def wait_for(self, names):
        """Waits until the webhook was notified that the alerts fire, since one that is resolved before isn't notified of."""
        if not wait_until(lambda: all(self.hook.seen[name, "firing"] for name in names), 30):
            self.faults.append(f"nobody was notified of {names}")

    def add(self, name, *words):
        ran = self.server.amtool("alert", "add", f"alertname={name}", "by=amtool", *words)
        if ran.returncode:
            self.faults.append(ran.stderr)

    def by_amtool(self, number):
        """Each third alert is resolved after the next ones were posted."""
        count = 0
        while time.monotonic() < self.end:
            name = f"amtool-{number}-{count}"
            self.add(name)
            self.note(self.posted, [name])
            count += 1
            if count % 3 == 0:
                self.wait_for([name])
                self.add(name, f"--end={moment()}")
                self.note(self.resolved, [name])

    def by_api(self, number):
        """Posts of eight alerts each, a half of them resolved two posts later."""
        count, before = 0, collections.deque()
        while time.monotonic() < self.end:
            names = [f"api-{number}-{count}-{it}" for it in range(8)]
            self.post([{"labels": {"alertname": name, "by": "api \u00e9\n\""}} for name in names])
            self.note(self.posted, names)
            before.append(names[:4])
            count += 1
            if len(before) == 3:
                gone = before.popleft()
                self.wait_for(gone)
                self.post([{"labels": {"alertname": it, "by": "api \u00e9\n\""}, "endsAt": moment()} for it in gone])
                self.note(self.resolved, gone)
            time.sleep(0.7)

    def post(self, alerts):
        try:
            self.server.post(alerts)
        except OSError as fault:
            self.faults.append(str(fault))

    def queried(self):
        """The names that amtool shows."""
        shown = self.server.amtool("alert", "query", "--output=json").stdout
        return {it["labels"]["alertname"] for it in json.loads(shown or "[]")}

    def by_query(self):
        """What was posted and not resolved has to be there."""
        while time.monotonic() < self.end:
            with self.lock:
                wanted = set(self.posted)
            shown = self.queried()
            with self.lock:
                missing = wanted - self.resolved - shown
            # What is resolved while amtool asks is noted a moment later.
            time.sleep(1)
            with self.lock:
                missing -= self.resolved
            if missing:
                self.faults.append(f"amtool doesn't show {sorted(missing)[:5]}")

    def run(self):
        with concurrent.futures.ThreadPoolExecutor() as pool:
            work = [pool.submit(self.by_amtool, it) for it in range(2)]
            work += [pool.submit(self.by_api, it) for it in range(2)]
            work.append(pool.submit(self.by_query))
            for it in work:
                it.result()


def moment():
    return datetime.datetime.now(datetime.timezone.utc).strftime("%Y-%m-%dT%H:%M:%S.%fZ")


def started(room, name, command, hook, environment=None):
    """An Alertmanager that notifies the webhook of each alert by itself."""
    configuration = room / f"{name}.yml"
    configuration.write_text(CONFIGURATION.format(port=hook.server_port))
    words = [*command, f"--config.file={configuration}", "--alerts.gc-interval=1s"]
    return Alertmanager(room / name, *words, environment=environment)


def of_traffic(room, command, seconds):
    """What the webhook was notified of what amtool and the API posted, and what is stored at the end."""
    with Webhook() as hook, started(room, "traffic", command, hook) as server:
        posts = Traffic(server, hook, seconds)
        posts.run()
        wanted = collections.Counter({(it, "firing"): 1 for it in posts.posted})
        wanted.update({(it, "resolved"): 1 for it in posts.resolved})
        wait_until(lambda: sum(hook.counts().values()) >= sum(wanted.values()), 30)
        time.sleep(5)
        seen = hook.counts()
        left = posts.queried() ^ (posts.posted - posts.resolved)
        counted = server.metric('alertmanager_alerts{state="active"}')
    lost, again = wanted - seen, seen - wanted
    yield "posts and queries", "; ".join(posts.faults[:5]) or None
    yield f"{len(posts.posted)} alerts posted, {len(posts.resolved)} resolved", f"lost {dict(lost)}" if lost else None
    yield f"{sum(seen.values())} notifications", f"again {dict(again)}" if again else None
    yield "what is stored at the end", f"amtool and the posters disagree about {sorted(left)[:5]}" if left else None
    active = len(posts.posted - posts.resolved)
    yield "the metric of active alerts", None if counted == active else f"{counted} where {active} are active"
    yield how_it_ended("traffic", server, 0)


def how_it_ended(name, server, status):
    faults = server.faults()
    is_right = server.status == status and not faults
    return f"how the command ends ({name})", None if is_right else f"status {server.status}: {faults[:5]}"


def of_prometheus(room, command):
    """Whether a Prometheus's alerts reach the webhook: one that goes on firing, and one that ends."""
    with Webhook() as hook, started(room, "prometheus", command, hook) as server:
        own = room / "of_prometheus"
        own.mkdir()
        (own / "rules.yml").write_text(RULES.format(until=int(time.time()) + 12))
        (own / "prometheus.yml").write_text(PROMETHEUS.format(rules=own / "rules.yml", port=server.port))
        words = ["prometheus", f"--config.file={own / 'prometheus.yml'}", f"--storage.tsdb.path={own / 'data'}"]
        words += [f"--web.listen-address=127.0.0.1:{free_port()}", "--rules.alert.resend-delay=1s"]
        wanted = {("GoesOn", "firing"), ("Ends", "firing"), ("Ends", "resolved")}
        with (own / "log").open("w") as log, subprocess.Popen(words, stdout=log, stderr=log) as running:
            wait_until(lambda: wanted <= set(hook.counts()), 60)
            running.send_signal(signal.SIGTERM)
            running.wait(60)
        seen = dict(hook.counts())
    yield "the alerts of a Prometheus", None if seen == dict.fromkeys(wanted, 1) else f"the webhook was notified of {seen}"
    yield how_it_ended("prometheus", server, 0)


def of_pages(server):
    """What the web handlers answer."""
    for path, wanted in {"/": "<title>Alertmanager</title>", "/-/healthy": "OK", "/-/ready": "OK"}.items():
        answered = server.get(path)
        yield f"the page {path}", None if wanted in answered else f"it has no {wanted}: {answered[:200]}"
    for name in ("sinnoraku_subscriptions_cut_total", "sinnoraku_program_restarts_total"):
        value = server.metric(name)
        yield f"the metric {name}", None if value == 0 else f"it is {value} where 0 is wanted"


def killed_while_asked(server):
    """Whether there was a program to kill, and what both versions of the API answer to who asks for its alerts just then."""
    if found := server.program():
        os.kill(found, signal.SIGSTOP)
    with concurrent.futures.ThreadPoolExecutor(2) as pool:
        asked = [pool.submit(server.status_of, f"/api/{version}/alerts") for version in ("v1", "v2")]
        time.sleep(1)
        died = server.kill_program()
    return died, [it.result() for it in asked]


def of_deaths(room, command):
    """What becomes of a command whose program dies: another one goes on, and after the third death the command ends."""
    with Webhook() as hook, started(room, "deaths", command, hook) as server:
        yield from of_pages(server)
        silenced = server.amtool("silence", "add", "alertname=Silenced", "--comment=kept", "--author=test").returncode
        for turn in range(2):
            died, statuses = killed_while_asked(server)
            yield f"lists at death {turn + 1}", None if statuses == [500, 500] else f"the API answered {statuses}"
            another = wait_until(lambda: server.program(), 20)
            yield f"death {turn + 1}", None if died and another else f"one was killed: {died}, another one started: {another}"
            name = f"After{turn}"
            is_posted = wait_until(lambda: not server.amtool("alert", "add", name).returncode, 20)
            is_there = wait_until(lambda: hook.counts()[name, "firing"] == 1, 20)
            fault = None if is_posted and is_there else f"posted: {is_posted}, notified of: {is_there}"
            yield f"an alert after death {turn + 1}", fault
        restarts = server.metric("sinnoraku_program_restarts_total")
        yield "restarts", None if restarts == 2 else f"{restarts} were counted where there were 2"
        server.kill_program()
        has_ended = wait_until(lambda: server.running.poll() is not None, 20)
    is_right = has_ended and server.status == 2
    yield "the end after three deaths", None if is_right else f"status {server.status}, by itself: {has_ended}"
    log = server.log.read_text()
    yield "what the end says", None if ENDED in log else f"the log ends with {log[-600:]}"
    for file, kept, wanted in (("silences", b"kept", 1), ("nflog", b"After", 2)):
        found = (server.storage / file).read_bytes().count(kept)
        yield f"{file} after the end", None if not silenced and found >= wanted else f"{kept} is in it {found} times"


def of_stuck(room, command):
    """How a command ends whose provider ends while its start doesn't: here it waits for a template that never comes. It
    doesn't listen to signals yet."""
    os.mkfifo(room / "never.tmpl")
    configuration = room / "stuck.yml"
    configuration.write_text(f"templates: ['{room / 'never.tmpl'}']\n" + CONFIGURATION.format(port=1))
    server = Alertmanager(room / "stuck", *command, f"--config.file={configuration}")
    try:
        killed, last = 0, None
        while killed < 3 and wait_until(lambda: server.program() not in (None, last), 20):
            last = server.program()
            killed += server.kill_program()
        begun = time.monotonic()
        has_ended = wait_until(lambda: server.running.poll() is not None, 60)
        took = time.monotonic() - begun
    finally:
        server.end(signal.SIGKILL)
    is_right = killed == 3 and has_ended and server.status == 1 and 25 < took < 45
    yield "the end of a stuck command", None if is_right else f"{killed} killed, status {server.status} after {took:.0f} s"


def of_flags(room, command, program):
    """Where the command finds its program, and what it says of flags that aren't right."""
    beside, path = room / "beside", room / "path"
    for folder in (beside, path):
        folder.mkdir()
        (folder / "am_replay").symlink_to(program)
    (beside / "alertmanager").hardlink_to(command)
    none = "there is no am_replay in the command's folder or on the PATH"
    starts = {
        "a program in the command's folder": ([beside / "alertmanager"], {}, None),
        "a program on the PATH": ([command], {"PATH": str(path)}, None),
        "a program that the environment names": ([command], {"SINNORAKU_PROGRAM": str(program)}, None),
        "one place": ([command, "--provider.places=1"], {"PATH": str(path)}, None),
        "refused posts": ([command, "--provider.full=refuse"], {"PATH": str(path)}, None),
        "no program": ([command], {}, none),
        "a program that isn't there": ([command, "--provider.program=/nowhere/am_replay"], {}, "no such file"),
        "no places": ([command, "--provider.places=0"], {"PATH": str(path)}, "a number from 1 to 65536, not 0"),
        "no such choice": ([command, "--provider.full=wait"], {"PATH": str(path)}, "must be one of cut,refuse"),
    }
    with Webhook() as hook:
        for at, (name, (words, environment, refusal)) in enumerate(starts.items()):
            with started(room, f"start{at}", words, hook, environment) as server:
                runs = server.running.poll() is None and server.program() is not None
            log = server.log.read_text()
            is_right = runs and server.status == 0 if refusal is None else server.status == 1 and refusal in log
            yield name, None if is_right else f"it runs: {runs}, status {server.status}: {log[-600:]}"
    for word, wanted in {"--help": "--provider.program", "--version": "branch: sinnoraku"}.items():
        ran = subprocess.run([command, word], capture_output=True, text=True)
        yield word, None if wanted in ran.stdout else ran.stdout[:600] + ran.stderr


def of_package(room):
    """Whether what tools/package writes runs in another folder: the program by itself, and the command that finds it there."""
    tar, other = room / "package.tar.gz", room / "other"
    ran = subprocess.run([TOP / "tools/package", tar], capture_output=True, text=True)
    yield "tools/package", ran.stderr if ran.returncode else None
    if ran.returncode:
        return
    other.mkdir()
    subprocess.run(["tar", "-xzf", tar, "-C", other], check=True)
    folder = next(other.iterdir())
    ran = subprocess.run(["sha256sum", "--check", "SHA256SUMS"], cwd=folder, capture_output=True, text=True)
    yield "the sums of the package", None if ran.stdout.count(": OK") == 2 and not ran.returncode else ran.stdout + ran.stderr
    script, wanted = (TOP / f"tests/rows/first_post.{end}" for end in ("in", "out"))
    ran = subprocess.run([folder / "am_replay"], stdin=script.open(), capture_output=True, cwd="/", env={})
    yield "the program of the package", None if ran.stdout == wanted.read_bytes() else f"it prints {ran.stdout[:300]}"
    with Webhook() as hook, started(room, "package", [folder / "alertmanager"], hook, environment={}) as server:
        server.post([{"labels": {"alertname": "Packed"}}])
        wait_until(lambda: hook.counts(), 20)
        seen = dict(hook.counts())
    yield "the command of the package", None if seen == {("Packed", "firing"): 1} else f"the webhook was notified of {seen}"
    yield how_it_ended("package", server, 0)
