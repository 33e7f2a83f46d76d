"""Alertmanagers that embed/go/alertmanager has built, and a webhook that they notify."""
import collections
import http.server
import json
import os
import pathlib
import random
import signal
import socket
import subprocess
import threading
import time
import urllib.error
import urllib.request


# The ports that were chosen, which are below those that the system gives to connections: one of these may get a port between
# its choice and its use.
CHOSEN, CHOOSING = set(), threading.Lock()
CONNECTIONS = pathlib.Path("/proc/sys/net/ipv4/ip_local_port_range")


def free_port():
    """A port that nobody listens to."""
    least = int(CONNECTIONS.read_text().split()[0])
    with CHOOSING:
        while True:
            port = random.randrange(1024, least)
            with socket.socket() as it:
                try:
                    it.bind(("127.0.0.1", port))
                except OSError:
                    continue
            if port not in CHOSEN:
                CHOSEN.add(port)
                return port


def wait_until(holds, seconds):
    """Whether something holds before that many seconds have passed."""
    late = time.monotonic() + seconds
    while not holds():
        if time.monotonic() > late:
            return False
        time.sleep(0.05)
    return True


class Handler(http.server.BaseHTTPRequestHandler):
    def do_POST(self):
        notified = json.loads(self.rfile.read(int(self.headers["Content-Length"])))
        with self.server.lock:
            for alert in notified["alerts"]:
                self.server.seen[alert["labels"]["alertname"], alert["status"]] += 1
        self.send_response(200)
        self.end_headers()

    def log_message(self, *_):
        pass


class Webhook(http.server.ThreadingHTTPServer):
    """A webhook that counts how often it was notified of each alert, by its name and status."""

    # Many groups are notified of at once.
    request_queue_size = 1024
    daemon_threads = True

    def __init__(self):
        super().__init__(("127.0.0.1", 0), Handler)
        self.lock, self.seen = threading.Lock(), collections.Counter()
        threading.Thread(target=self.serve_forever, daemon=True).start()

    def counts(self):
        with self.lock:
            return collections.Counter(self.seen)

    def __exit__(self, *_):
        self.shutdown()
        self.server_close()


class Alertmanager:
    """A running command. Its first word is the command's path; where it listens and where it keeps things comes by itself."""

    def __init__(self, room, *words, cluster="", environment=None):
        room.mkdir()
        self.port, self.log, self.storage = free_port(), room / "log", room / "data"
        self.status, self.was_killed = None, False
        self.url = f"http://127.0.0.1:{self.port}"
        words = [*words, f"--storage.path={self.storage}", f"--web.listen-address=127.0.0.1:{self.port}"]
        words.append(f"--cluster.listen-address={cluster}")
        with self.log.open("w") as log:
            self.running = subprocess.Popen(list(map(str, words)), stdout=log, stderr=log, env=environment)

    def is_ready(self):
        """Whether it listens, or has ended."""
        with socket.socket() as it:
            return self.running.poll() is not None or it.connect_ex(("127.0.0.1", self.port)) == 0

    def __enter__(self):
        wait_until(self.is_ready, 60)
        return self

    def __exit__(self, *_):
        self.end()

    def end(self, how=signal.SIGTERM):
        """Ends it, if it runs, and notes its status."""
        if self.running.poll() is None:
            self.running.send_signal(how)
            self.was_killed = how == signal.SIGKILL
        self.status = self.running.wait(60)

    def program(self):
        """The process of its program."""
        for path in pathlib.Path("/proc").glob("[0-9]*/stat"):
            try:
                text = path.read_text()
            except OSError:
                continue
            state, parent = text.rpartition(")")[2].split()[:2]
            if int(parent) == self.running.pid and state != "Z":
                return int(path.parent.name)
        return None

    def kill_program(self):
        """Kills its program, and says whether there was one."""
        if found := self.program():
            os.kill(found, signal.SIGKILL)
        return found is not None

    def faults(self):
        """What its log has of warnings and errors."""
        words = ("level=error", "level=warn", "panic")
        return [line for line in self.log.read_text().splitlines() if any(word in line for word in words)]

    def get(self, path):
        with urllib.request.urlopen(self.url + path, timeout=60) as answer:
            return answer.read().decode()

    def status_of(self, path):
        """The status of an answer, also of one that refuses."""
        try:
            with urllib.request.urlopen(self.url + path, timeout=60) as answer:
                return answer.status
        except urllib.error.HTTPError as refusal:
            return refusal.code

    def metric(self, name):
        """The value of a metric, which is named with its labels; none if it isn't there."""
        values = [line.rpartition(" ")[2] for line in self.get("/metrics").splitlines() if line.rpartition(" ")[0] == name]
        return float(values[0]) if values else None

    def post(self, alerts):
        """Posts alerts to the API. A refusal is an OSError."""
        request = urllib.request.Request(f"{self.url}/api/v2/alerts", json.dumps(alerts).encode())
        request.add_header("Content-Type", "application/json")
        urllib.request.urlopen(request, timeout=60).close()

    def amtool(self, *words):
        command = ["amtool", f"--alertmanager.url={self.url}", *words]
        return subprocess.run(command, capture_output=True, text=True, timeout=60)
