"""Three Alertmanagers in a cluster, of which one dies, and what their webhook was notified of.

Each post goes to all of them, as those of a Prometheus do. So each has the same groups, at about the same time. When a group
is due, a node waits for its turn, which is --cluster.peer-timeout for each node before it, and leaves out what others have
notified of by then. All turns pass within a group's interval here, and no alert ends during a turn. Else a node could notify
of what an alert was before another one has notified of its end.
"""
import collections
import concurrent.futures
import json
import signal
import time

from servers import Alertmanager, Webhook, free_port, wait_until

NODES = 3
# In seconds: until a group is due first, and then each time; and what a node waits for each one before it.
WAIT, INTERVAL, PEER_TIMEOUT = 1, 8, 2
# How long until all nodes have had their turn, and some more.
TURNS = (NODES - 1) * PEER_TIMEOUT + 2
CONFIGURATION = """
route: {{receiver: hook, group_by: [alertname], group_wait: {}s, group_interval: {}s, repeat_interval: 4h}}
receivers: [{{name: hook, webhook_configs: [{{url: 'http://127.0.0.1:{}/'}}]}}]
"""


def nodes_of(room, command, hook):
    """The nodes, which know each other's addresses."""
    configuration = room / "cluster.yml"
    configuration.write_text(CONFIGURATION.format(WAIT, INTERVAL, hook.server_port))
    addresses = [f"127.0.0.1:{free_port()}" for _ in range(NODES)]
    words = [f"--cluster.peer={it}" for it in addresses]
    words += [f"--config.file={configuration}", f"--cluster.peer-timeout={PEER_TIMEOUT}s", "--cluster.settle-timeout=5s"]
    # They say some ten times faster than usual what they have notified of, since here many groups are due at once.
    words += ["--cluster.gossip-interval=20ms", "--cluster.pushpull-interval=1s"]
    return [Alertmanager(room / f"node{at}", *command, *words, cluster=it) for at, it in enumerate(addresses)]


def cluster_of(node):
    """What a node says of its cluster; nothing if it doesn't answer."""
    try:
        return json.loads(node.get("/api/v2/status"))["cluster"]
    except OSError:
        return {"status": "none", "peers": []}


def are_settled(nodes):
    """Whether each of the nodes sees just these."""
    seen = [cluster_of(it) for it in nodes]
    return all(it["status"] == "ready" and len(it["peers"]) == len(nodes) for it in seen)


class Posts:
    """Posts to some nodes, and what the webhook has to be notified of."""

    def __init__(self, nodes):
        self.nodes, self.wanted, self.count, self.faults = nodes, collections.Counter(), 0, []

    def post(self, alerts):
        """Posts to all nodes at once. One of them has to take it."""
        with concurrent.futures.ThreadPoolExecutor() as pool:
            refused = [it for it in pool.map(lambda node: self.refusal(node, alerts), self.nodes) if it]
        if len(refused) == len(self.nodes):
            self.faults.append(refused[0])

    def refusal(self, node, alerts):
        try:
            node.post(alerts)
        except OSError as fault:
            return str(fault)
        return None

    def fire(self):
        """Posts some new alerts, and returns their names."""
        names = [f"alert-{self.count + it}" for it in range(8)]
        self.count += len(names)
        self.post([{"labels": {"alertname": name}} for name in names])
        self.wanted.update((name, "firing") for name in names)
        return names

    def resolve(self, names):
        ends = time.strftime("%Y-%m-%dT%H:%M:%SZ", time.gmtime())
        self.post([{"labels": {"alertname": name}, "endsAt": ends} for name in names])
        self.wanted.update((name, "resolved") for name in names)


def of_cluster(room, command):
    """Alerts fire and end while all nodes are there. Then come some of which the first node, which would notify of them,
    loses the program, some of which it is killed, and some that only the others get."""
    with Webhook() as hook:
        nodes = nodes_of(room, command, hook)
        try:
            yield from judged(nodes, hook)
        finally:
            for it in nodes:
                it.end()
    for at, it in enumerate(nodes):
        status = -signal.SIGKILL if it.was_killed else 0
        yield f"how node {at} ends", None if it.status == status else f"status {it.status}: {it.faults()[:5]}"


def judged(nodes, hook):
    if not wait_until(lambda: are_settled(nodes), 60):
        yield "the cluster", f"the nodes don't see each other: {[cluster_of(it) for it in nodes]}"
        return
    first = min(nodes, key=lambda node: cluster_of(node)["name"])
    posts, came = Posts(list(nodes)), []

    def wait_for_all():
        came.append(wait_until(lambda: not posts.wanted - hook.counts(), 60))
        time.sleep(TURNS)

    begun = time.monotonic()
    ending = [posts.fire() for _ in range(8)]
    wait_for_all()
    change(posts, begun, ending[:4])
    wait_for_all()
    posts.fire()
    killed = first.kill_program()
    wait_for_all()
    posts.fire()
    first.end(signal.SIGKILL)
    posts.nodes.remove(first)
    wait_for_all()
    came.append(wait_until(lambda: are_settled(posts.nodes), 60))
    change(posts, begun, ending[4:])
    wait_for_all()
    seen = hook.counts()
    lost, again = posts.wanted - seen, seen - posts.wanted
    yield "posts to the cluster", "; ".join(posts.faults[:5]) or None
    yield "a program of the cluster was killed", None if killed else "there was none"
    in_time = f"in time: {came}, lost {dict(lost)}" if lost or not all(came) else None
    yield f"{sum(posts.wanted.values())} notifications of the cluster", in_time
    yield "none of them twice", f"again {dict(again)}" if again else None


def change(posts, begun, ending):
    """Has alerts end whose groups began then, once the nodes' turns have passed and before the next ones; and others fire."""
    time.sleep((WAIT + TURNS - (time.monotonic() - begun)) % INTERVAL)
    for names in ending:
        posts.resolve(names)
        posts.fire()
