"""Scripts of real size: each is a function that gives its commands in order."""
import datetime
import itertools
import json
import pathlib
import random
import sys

TOP = pathlib.Path(__file__).resolve().parent.parent.parent
sys.path.append(str(TOP / "bench"))
import scripts as bench  # noqa: E402

MAX_BYTES = 4_194_304
MAX_ALERTS = 1_024
MAX_READ = 65_536
MAX_LINES = 65_536
TEN = datetime.datetime(2024, 1, 1, 10)
# What is quoted, what is escaped in JSON alone, characters of two, three and four bytes, and plain ones.
HARD = '"\\\n\t\r\x01\x7fé€😀{}=,~! az_:09'


def at(minutes):
    """A time text, so many minutes after ten o'clock."""
    return (TEN + datetime.timedelta(minutes=minutes)).strftime("%Y-%m-%dT%H:%M:%SZ")


def post(minutes, body, thread=0):
    return {"do": "post", "thread": thread, "at": at(minutes), "body": body}


def subscribe(name, thread=0):
    return {"do": "subscribe", "thread": thread, "sub": name}


def read(name, most=1, thread=0):
    return {"do": "read", "thread": thread, "sub": name, "max": most}


def leave(name, thread=0):
    return {"do": "leave", "thread": thread, "sub": name}


def collect(minutes):
    return {"do": "collect", "thread": 0, "at": at(minutes)}


def take(minutes):
    return {"do": "take", "thread": 0, "at": at(minutes)}


def page(start, most, thread=0):
    return {"do": "stored", "thread": thread, "from": start, "max": most}


def close():
    return {"do": "close", "thread": 0}


def trim(thread=0):
    return {"do": "trim", "thread": thread}


def compact(thread=0):
    return {"do": "compact", "thread": thread}


def alert(labels, start=None, end=None, **annotations):
    """An alert as Prometheus posts it, its times in minutes after ten o'clock."""
    made = {"labels": labels, "annotations": annotations, "generatorURL": "http://prometheus.example.org:9090/graph"}
    if start is not None:
        made["startsAt"] = at(start)
    if end is not None:
        made["endsAt"] = at(end)
    return made


def numbered(numbers, start=None, end=None, **annotations):
    """Alerts of small label sets that differ in their number."""
    return [
        alert({"alertname": "Numbered", "number": str(number), "shard": f"s{number % 7}"}, start, end, **annotations)
        for number in numbers
    ]


def text_of(body):
    """The body as text."""
    return json.dumps(body, separators=(",", ":"), ensure_ascii=False)


def bytes_of(body):
    return len(text_of(body).encode())


def hard_text(draw, length):
    """A text of so many characters, some of which are escaped or longer than a byte."""
    return "".join(draw.choices(HARD, k=length))


def filled(body, size):
    """The body, made of so many bytes by lengthening its last alert's annotation `filling`."""
    body[-1]["annotations"]["filling"] = ""
    body[-1]["annotations"]["filling"] = "x" * (size - bytes_of(body))
    return body


def largest_alerts(start, end, version):
    """As many alerts as a post may have, of 64 labels each, all but as long as a post may be."""
    draw = random.Random(64)
    alerts = []
    for number in range(MAX_ALERTS):
        labels = {f"label_{name:02}": hard_text(draw, 8) + "v" * 25 for name in range(62)}
        labels |= {"alertname": "Largest", "number": str(number)}
        alerts.append(alert(labels, start, end, version=version))
    return filled(alerts, MAX_BYTES - 1)


def largest_post():
    """The largest post, merged with itself, shown from the log and from an opening, and collected."""
    yield subscribe("log")
    yield post(0, largest_alerts(0, 10, "first"))
    yield subscribe("opening")
    yield post(6, largest_alerts(5, 20, "second"))
    yield read("log", 2 * MAX_ALERTS)
    yield read("log")
    yield read("opening", 3 * MAX_ALERTS)
    yield collect(19.99)
    yield collect(20)
    yield post(30, largest_alerts(30, 31, "third"))
    yield read("log", MAX_ALERTS - 1)
    yield read("log", 2)
    yield leave("log")
    yield leave("opening")


def post_limits():
    """Posts of just as many bytes and alerts as are allowed, and of one more."""
    yield subscribe("a")
    for over in (0, 1):
        whole = filled(numbered(range(MAX_ALERTS), 0, 10), MAX_BYTES + over)
        yield post(0, whole)
        yield post(0, text_of(whole))
        one = filled([alert({"alertname": "One"}, 0, 10)], MAX_BYTES + over)
        yield post(1, one)
        yield post(1, text_of(one))
        longest = [alert({"alertname": "Longest", "number": "x"}, 0, 10)]
        longest[0]["labels"]["number"] *= MAX_BYTES + over - bytes_of(longest) + 1
        yield post(2, longest)
        accents = [alert({"alertname": "Accents", "number": ""}, 0, 10, odd="")]
        room = MAX_BYTES + over - bytes_of(accents)
        accents[0]["labels"]["number"] = "é" * (room // 2)
        accents[0]["annotations"]["odd"] = "x" * (room % 2)
        yield post(2, text_of(accents))
        yield post(3, text_of(numbered(range(3))).ljust(MAX_BYTES + over))
        yield post(3, text_of(numbered(range(3))).rjust(MAX_BYTES + over))
        yield post(4, [{"labels": {"a": str(number)}} for number in range(MAX_ALERTS + over)])
        yield read("a", 4 * MAX_ALERTS)
    yield subscribe("b")
    yield read("b", 4 * MAX_ALERTS)


def thousands():
    """Openings, collections and reads of thousands, and label sets that begin anew behind the others."""
    yield subscribe("early")
    for turn in range(5):
        yield post(turn, numbered(range(1_000 * turn, 1_000 * turn + 1_000), turn, 10 + turn, turn=str(turn)))
    yield subscribe("late")
    yield read("early", 5_001)
    yield read("late", 1_001)
    yield post(5, numbered(range(4_500, 5_500), 4, 30))
    yield collect(12)
    yield subscribe("after")
    yield post(13, numbered(range(0, 5_500, 6), 13, 40, turn="again"))
    yield read("late", 5_000)
    yield read("late", 5_000)
    yield read("after", 5_000)
    yield collect(40)
    yield subscribe("empty")
    yield read("empty", 1_000)
    yield read("early", 1_999)
    for name in ("early", "late", "after", "empty"):
        yield leave(name)


def longest_read():
    """Reads that show as many alerts as a read may ask for, from the log and from an opening."""
    yield subscribe("log")
    for turn in range(MAX_READ // MAX_ALERTS):
        yield post(turn, numbered(range(MAX_ALERTS * turn, MAX_ALERTS * (turn + 1)), 0, 90))
    yield subscribe("opening")
    yield read("log", MAX_READ)
    yield read("log", MAX_READ)
    yield post(70, numbered([1, 2, 3], 50, 100))
    yield read("opening", MAX_READ)
    yield read("opening", MAX_READ)
    yield close()
    yield read("log", MAX_READ)
    yield read("opening", MAX_READ)
    yield collect(90)
    yield leave("log")
    yield leave("opening")


def eight_subscribers():
    """Eight subscribers, each with a thread and a pace of its own, some of which leave and come again."""
    for thread in range(8):
        yield subscribe(f"on {thread}", thread)
        yield post(thread, numbered(range(700 * thread, 700 * thread + 700), thread, 20 + thread), thread)
    yield subscribe("one too many", 3)
    for turn in range(24):
        thread = turn % 8
        reports = numbered(range(300 * turn, 300 * turn + 500), 5 + turn, 15 + turn, turn=str(turn))
        yield post(10 + turn, reports, thread)
        for other in range(8):
            yield read(f"on {other}", 100 * (other + 1) + turn, other)
        if turn % 5 == 4:
            yield leave(f"on {thread}", thread)
            yield collect(12 + turn)
            yield subscribe(f"on {thread}", thread)
    yield read("one too many", MAX_READ, 3)
    yield leave("one too many", 3)
    yield close()
    for thread in reversed(range(8)):
        yield read(f"on {thread}", MAX_READ, thread)
        yield leave(f"on {thread}", thread)


def thousand_names():
    """Label sets of a thousand names each that differ in one value or one name, as they come and in reverse."""
    draw = random.Random(1_000)
    names = ["plain_%d", "needs a quote %d", 'é"%d\\', "%d"]
    pairs = [(names[number % 4] % number, hard_text(draw, 12)) for number in range(1_000)]
    for name, changed in enumerate([{}, {pairs[999][0]: "other"}, {"one_more": "name"}, {pairs[0][0]: ""}]):
        labels = dict(pairs) | changed
        reverse = dict(reversed(labels.items()))
        notes = dict(draw.sample(pairs, 1_000))
        yield post(2 * name, [alert(labels, 0, 10, **notes)])
        yield post(2 * name + 1, [alert(reverse, 5, 20, **notes)])
    yield subscribe("a")
    yield read("a", 10)
    yield collect(20)


def texts():
    """Names, values and annotations of every kind of character, and very long ones."""
    draw = random.Random(7)
    long_name = "n" * 100_000
    yield subscribe(long_name)
    for turn in range(8):
        body = []
        for number in range(MAX_ALERTS):
            labels = {hard_text(draw, draw.randint(1, 9)): hard_text(draw, draw.randint(1, 9)) for _ in range(5)}
            notes = {hard_text(draw, draw.randint(1, 9)): hard_text(draw, draw.randint(0, 40)) for _ in range(3)}
            body.append(alert(labels | {"number": str(number)}, turn, 10 + turn) | {"annotations": notes})
        yield post(turn, text_of(body) if turn % 2 else body, turn)
        yield read(long_name, 2 * MAX_ALERTS)
    for length in (65_536, 1_000_000):
        hard = hard_text(draw, length)
        yield post(9, [alert({"long": hard}, 0, 10), alert({hard: "long"}, 0, 10), alert({"a": "1"}, 0, 10, long=hard)])
        yield read(long_name, 4)
    every = [chr(code) for code in range(1, 0x3000)] + [chr(code) for code in range(0xE000, 0x10FFFF, 997)]
    yield post(10, [alert({"each": each, f"x{each}y": "name"}, 0, 10) for each in every[:MAX_ALERTS]])
    yield post(10, [alert({"all": "".join(every)}, 0, 10)])
    yield read(long_name, 2 * MAX_ALERTS)
    yield leave(long_name)


def faults():
    """Posts with valid and invalid alerts mixed, and posts refused for their last alert."""
    draw = random.Random(11)
    kinds = [
        lambda number: alert({"number": str(number), "gone": ""}, 0, 10),
        lambda number: alert({"gone": "", "too": ""}, 0, 10),
        lambda number: alert({"number": str(number)}, 11, 10),
        lambda number: alert({"number": str(number), "": "no name"}, 0, 10),
        lambda number: alert({"number": str(number)}, 0, 10) | {"annotations": {"": "no name"}},
        lambda number: {"labels": {"number": str(number)}, "annotations": None, "endsAt": "", "status": {"x": [1]}},
        lambda number: {"labels": {"number": str(number)}, "startsAt": "0001-01-01T00:00:00Z", "other": 1},
    ]
    yield subscribe("a")
    for weights in ([1] * 7, [50, 1, 1, 1, 1, 1, 1], [1, 9, 9, 9, 9, 1, 1], [0, 1, 0, 0, 0, 0, 0]):
        chosen = draw.choices(kinds, weights=weights, k=MAX_ALERTS)
        yield post(0, [kind(number % 600) for number, kind in enumerate(chosen)])
        yield read("a", MAX_ALERTS + 1)
    good = [kinds[0](number) for number in range(MAX_ALERTS - 1)]
    soon, number = alert({"a": "1"}) | {"endsAt": "soon"}, alert({"a": "1"}) | {"startsAt": 1}
    for bad in ({}, 1, {"labels": {"a": 1}}, soon, number):
        yield post(1, [*good, bad])
    yield {"do": "post", "thread": 0, "at": "9999-12-30T21:56:00Z", "body": [*good, {"labels": {"a": "1"}}]}
    yield {"do": "post", "thread": 0, "at": "9999-12-30T21:54:00Z", "body": [*good, {"labels": {"a": "1"}}]}
    yield read("a", 2 * MAX_ALERTS)


def drawn_time(draw, minute):
    """A time near that minute, in one of the ways to write it."""
    seconds = 60 * (minute + draw.randint(-12, 12)) + draw.choice([0, 0, 0, 30])
    hours = draw.choice([-3, 0, 0, 0, 9])
    text = (TEN + datetime.timedelta(seconds=seconds, hours=hours)).strftime("%Y-%m-%dT%H:%M:%S")
    text += draw.choice(["", "", ".5", ".000000001", ".250"])
    return text + (f"{hours:+03}:00" if hours else "Z")


def drawn_alert(draw, minute):
    """One of few label sets, with its times given or not, seldom invalid."""
    made = {"labels": {"a": str(draw.randint(1, 6)), "b": draw.choice(["", "x"])}}
    if draw.random() < 0.02:
        made["labels"] = {"a": ""}
    if draw.random() < 0.7:
        made["startsAt"] = drawn_time(draw, minute - 5)
    if draw.random() < 0.6:
        made["endsAt"] = drawn_time(draw, minute + 5)
    if draw.random() < 0.5:
        made["annotations"] = {"v": str(draw.randint(1, 99))}
    return made


def drawn(seed, lines):
    """Any calls of all threads in any order, their moments near each other and not always in order."""
    draw, trims = random.Random(seed), random.Random(-seed)
    names = set()
    for line in range(lines):
        minute, thread = line // 20, draw.randrange(8)
        if trims.random() < 0.02:
            yield trim(trims.randrange(8))
        if line == lines - 100:
            yield close()
        choice = draw.random()
        if choice < 0.5:
            reports = [drawn_alert(draw, minute) for _ in range(draw.randint(0, 5))]
            yield post(minute + draw.randint(-3, 3), reports, thread)
        elif choice < 0.55:
            yield collect(minute + draw.randint(-9, 3))
        elif choice < 0.65:
            name = draw.choice("xyz")
            known = (thread, name) in names
            names ^= {(thread, name)}
            yield leave(name, thread) if known else subscribe(name, thread)
        elif names:
            thread, name = draw.choice(sorted(names))
            yield read(name, draw.randint(1, 60), thread)


def drawn_calls():
    """Ten thousand calls, drawn at random."""
    return drawn(1, 10_000)


def most_for_one_thread():
    """As many of them as one thread prints."""
    return itertools.islice(drawn_calls(), 4_095)


def fewest_for_several():
    """One more, which several threads print."""
    return itertools.islice(drawn_calls(), 4_096)


def every_call():
    """A short script with a call of each kind in each state: posts with and without alerts, merges, reads from the
    opening and from the log, lanes that are left and taken again, collections and an end."""
    yield post(0, numbered([1, 2], 0, 10))
    yield subscribe("a")
    yield post(1, numbered([2, 3], 1, 20))
    yield read("a", 3)
    yield subscribe("b")
    yield post(2, [])
    yield collect(11)
    yield post(12, numbered([1], 12, 30))
    yield read("b", 9)
    yield leave("a")
    yield subscribe("c", 1)
    yield post(13, numbered([4, 3], 5, 40))
    yield read("c", 2, 1)
    yield leave("b")
    yield subscribe("a")
    yield collect(30)
    yield post(31, [{"labels": {}}])
    yield close()
    yield post(32, numbered([5], 32, 50))
    yield subscribe("late")
    yield read("c", 9, 1)
    yield read("a", 9)
    yield leave("c", 1)
    yield collect(60)
    yield leave("a")


def with_compactions():
    """The short script of every call with a compaction before each of its commands and a trim before some, and a page
    after each."""
    for number, command in enumerate(every_call()):
        yield compact(number % 8)
        if number % 3 == 0:
            yield trim()
        yield command
        yield page(number % 3, 2, number % 8)
    yield compact()
    yield trim()


def with_trims(points):
    """The short script of every call with a trim before each of these of its commands."""
    for number, command in enumerate(every_call()):
        if number in points:
            yield trim(number % 8)
        yield command
    yield trim()


def trims_between_posts():
    """Many posts of few label sets with a trim each hundred, and a subscriber that lags behind until the next one is
    there."""
    name = "0"
    yield subscribe(name)
    for turn in range(5_000):
        yield post(turn % 50, numbered([turn % 100], turn % 50, 60))
        if turn % 100 == 99:
            yield read(name, 95)
            yield trim()
        if turn % 500 == 499:
            yield subscribe(str(turn))
            yield read(name, 1_000)
            yield leave(name)
            yield trim()
            name = str(turn)
    yield leave(name)
    yield trim()


def compactions_between_posts():
    """The same with compactions, and in between a trim and pages; who lags leaves with the right count."""
    name = "0"
    yield subscribe(name)
    for turn in range(5_000):
        yield post(turn % 50, numbered([turn % 100], turn % 50, 60))
        if turn % 100 == 99:
            yield read(name, 95)
            yield compact()
            yield page(turn // 100, 3)
        if turn % 500 == 499:
            yield subscribe(str(turn))
            yield read(name, 1_000)
            yield leave(name)
            yield trim()
            name = str(turn)
    yield leave(name)
    yield take(60)
    yield compact()


def pages_of_thousands():
    """Thousands of stored alerts in pages of several sizes, the largest and one past the end among them, while a collection
    answers what it removed."""
    for turn in range(5):
        yield post(turn, numbered(range(1_000 * turn, 1_000 * turn + 1_000), turn, 10 + turn))
    for most in (1, 999, 1_000, 65_536):
        for start in range(0, 5_001, max(most, 500)):
            yield page(start, most)
    yield page(4_294_967_295, 65_536)
    yield take(11)
    yield page(0, 1)
    yield page(2_999, 2)
    yield take(20)
    yield page(0, 65_536)


def most_lines():
    """As many lines as a script may have: the first one, and a command in each of the others."""
    yield subscribe("a")
    for turn in range((MAX_LINES - 4) // 2):
        yield post(turn % 50, numbered([turn % 3_000], turn % 50, 60))
        yield read("a", 2)
    yield collect(60)
    yield leave("a")


def of_bench(name):
    """A script of `bench/`, and then a subscriber that is shown what is stored."""
    yield from bench.commands(name, 2_000)
    yield subscribe("stored")
    yield read("stored", MAX_READ)


BENCH = ("distinct", "repeated", "replaced", "batches", "followed")
SCRIPTS = {
    made.__name__: made
    for made in (
        largest_post,
        post_limits,
        thousands,
        longest_read,
        eight_subscribers,
        thousand_names,
        texts,
        faults,
        drawn_calls,
        most_for_one_thread,
        fewest_for_several,
        most_lines,
        trims_between_posts,
        compactions_between_posts,
        with_compactions,
        pages_of_thousands,
    )
} | {f"bench_{name}": lambda name=name: of_bench(name) for name in BENCH}
CALLS = len(list(every_call()))
SCRIPTS |= {f"trim_before_call_{point}": lambda point=point: with_trims({point}) for point in range(CALLS)}
SCRIPTS["trim_before_every_call"] = lambda: with_trims(set(range(CALLS)))


def script(name):
    """A script's bytes: an empty configuration, and the commands. The last line has no end."""
    lines = (json.dumps(command, separators=(",", ":"), ensure_ascii=False) for command in SCRIPTS[name]())
    return "\n".join(['{"route":{"receiver":"ops"}}', *lines]).encode()
