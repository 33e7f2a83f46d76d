"""What the replay program has to print for a script, worked out by Alertmanager's rules.

It is written from the rules and shares nothing with the crates: dictionaries, whole lists and Python's own reading of
JSON. It is plain rather than quick, and reads times only as Prometheus writes them. Scripts that are refused as a whole
are not its business: `tests/rows/` has them.
"""
import bisect
import dataclasses
import datetime
import functools
import json
import re

COMMANDS = ("post", "subscribe", "read", "leave", "collect", "take", "close", "trim", "compact", "stored", "get")
SECOND = 1_000_000_000
RESOLVE_TIMEOUT = 300 * SECOND
LANES = 8
# No script lets a subscriber fall so many batches behind, so that each of them fits a log with so many places.
PLACES = 256
MAX_BYTES = 4_194_304
MAX_ALERTS = 1_024
# How deep a body may be nested.
DEEPEST = 127
# The year 1, which Go's programs write for a time that isn't given.
ABSENT = 0
LAST_SECOND = (datetime.date(9999, 12, 30).toordinal() - 1) * 86_400 + 22 * 3_600 + 59
TIME = re.compile(r"(\d{4}-\d\d-\d\d)T(\d\d):(\d\d):(\d\d)(?:\.(\d{1,9}))?(Z|([+-])(\d\d):(\d\d))", re.ASCII)
CLASSIC_NAME = re.compile(r"[A-Za-z_:][A-Za-z0-9_:]*")


class BadMember(Exception):
    """An element of a post has a member that can't be read."""


class Refused(Exception):
    """A call was refused, with the fault as it is printed."""


@functools.lru_cache(100_000)
def moment(text):
    """The nanoseconds from the beginning of the year 1 to that time."""
    read = TIME.fullmatch(text)
    if not read:
        raise BadMember
    date, hour, minute, second, fraction, _, sign, offset_hours, offset_minutes = read.groups()
    try:
        days = datetime.date.fromisoformat(date).toordinal() - 1
        datetime.time(int(hour), int(minute), int(second))
    except ValueError:
        raise BadMember from None
    offset = 60 * int(offset_minutes or 0) + 3600 * int(offset_hours or 0)
    seconds = days * 86_400 + int(hour) * 3600 + int(minute) * 60 + int(second)
    seconds += offset if sign == "-" else -offset
    nanoseconds = seconds * SECOND + int((fraction or "").ljust(9, "0"))
    if nanoseconds < 0 or seconds > LAST_SECOND:
        raise BadMember
    return nanoseconds


def moment_text(nanoseconds):
    seconds, fraction = divmod(nanoseconds, SECOND)
    days, seconds = divmod(seconds, 86_400)
    date = datetime.date.fromordinal(days + 1).isoformat()
    point = f".{fraction:09}" if fraction else ""
    return f"{date}T{seconds // 3600:02}:{seconds // 60 % 60:02}:{seconds % 60:02}{point}Z"


def quoted(text):
    return '"' + text.replace("\\", "\\\\").replace('"', '\\"').replace("\n", "\\n") + '"'


def labels_text(labels):
    names = sorted(labels, key=str.encode)
    return "{" + ",".join(
        (name if CLASSIC_NAME.fullmatch(name) else quoted(name)) + "=" + quoted(labels[name]) for name in names
    ) + "}"


@dataclasses.dataclass(frozen=True)
class Alert:
    labels: dict
    annotations: dict
    start: int
    end: int
    updated: int
    timeout: bool

    def resolved_at(self, now):
        return self.end <= now

    @property
    def key(self):
        return frozenset(self.labels.items())

    @functools.cached_property
    def text(self):
        return " ".join([
            labels_text(self.labels),
            moment_text(self.start),
            moment_text(self.end),
            "timeout" if self.timeout else "given",
            labels_text(self.annotations),
        ])


def texts(value):
    """An object whose members are all texts."""
    if not isinstance(value, dict) or not all(isinstance(text, str) for text in value.values()):
        raise BadMember
    return value


def time_member(element, name):
    """The time of a member, None where it is absent."""
    value = element.get(name)
    if value is None or value == "":
        return None
    if not isinstance(value, str):
        raise BadMember
    given = moment(value)
    return None if given == ABSENT else given


def read_alert(element, now):
    """An element of a post with its defaults, and the fault that makes it invalid, if one does."""
    if not isinstance(element, dict):
        raise BadMember
    labels = texts(element.get("labels"))
    annotations = element.get("annotations")
    annotations = {} if annotations is None else texts(annotations)
    start, end = time_member(element, "startsAt"), time_member(element, "endsAt")
    generator = element.get("generatorURL")
    if generator is not None and not isinstance(generator, str):
        raise BadMember
    timeout = end is None
    if start is None:
        start = now if timeout else end
    if timeout:
        end = now + RESOLVE_TIMEOUT
        if end // SECOND > LAST_SECOND:
            raise Refused("E9 OutOfRange")
    labels = {name: value for name, value in labels.items() if value}
    fault = None
    if not labels:
        fault = "E10 NoLabels"
    elif end < start:
        fault = "E11 EndBeforeStart"
    elif "" in labels or "" in annotations:
        fault = "E12 EmptyName"
    return Alert(labels, annotations, start, end, now, timeout), fault


def no_number(word):
    raise ValueError(word)


def depth(value):
    """How many objects and arrays stand in each other at most, of an object or array with itself."""
    within = value.values() if isinstance(value, dict) else value
    return 1 + max((depth(inner) for inner in within if isinstance(inner, (dict, list))), default=0)


def read_post(body, now):
    """The valid alerts of a post, and the faults of the others with their indices."""
    if len(body) > MAX_BYTES:
        raise Refused("E8 TooMany")
    try:
        elements = json.loads(body.decode(), parse_constant=no_number)
    except ValueError:
        raise Refused("E5 NotJson") from None
    if isinstance(elements, (dict, list)) and depth(elements) > DEEPEST:
        raise Refused("E5 NotJson")
    if not isinstance(elements, list):
        raise Refused("E6 NotAnArray")
    if len(elements) > MAX_ALERTS:
        raise Refused("E8 TooMany")
    valid, faults = [], []
    for index, element in enumerate(elements):
        try:
            alert, fault = read_alert(element, now)
        except BadMember:
            raise Refused(f"E7 BadMember {index}") from None
        except Refused as refused:
            raise Refused(f"{refused} {index}") from None
        if fault:
            faults.append((index, fault))
        else:
            valid.append(alert)
    return valid, faults


def overlap(old, new):
    return old.start < new.end < old.end or old.start < new.start < old.end


def merged(old, new, now):
    older, younger = (new, old) if new.updated < old.updated else (old, new)
    end = younger.end
    if older.end > younger.end:
        if younger.resolved_at(now):
            counts = older.resolved_at(now)
        else:
            counts = not older.timeout
        if counts:
            end = older.end
    return dataclasses.replace(younger, start=min(older.start, younger.start), end=end)


def absorbed(old, new, now):
    return merged(old, new, now) if old is not None and overlap(old, new) else new


class Subscription:
    def __init__(self, lane, at, opening):
        self.lane = lane
        # How many calls there had been before it.
        self.at = at
        # All that it is to be shown: what was stored when it came, and then each batch.
        self.due = list(opening)
        self.ends = []
        self.taken = 0
        self.told_closed = False

    def send(self, batch):
        if len(self.ends) - bisect.bisect_left(self.ends, self.taken) >= PLACES:
            raise ValueError("a script lets a subscriber fall too far behind")
        self.due += batch
        self.ends.append(len(self.due))


class Provider:
    def __init__(self):
        # What each label set holds, in order of the first report since it last held nothing.
        self.stored = {}
        self.places = 0
        self.posts = 0
        self.closed = False
        self.open = []
        # How many calls were accepted, how many of them trims dropped, and how many aren't in memory any more.
        self.calls = 0
        self.dropped = 0
        self.gone = 0

    def post(self, alerts, now):
        """The number of the batch, None where there is nothing to send out."""
        if self.closed:
            raise Refused("E14 Closed")
        self.posts += 1
        self.calls += 1
        batch = []
        for alert in alerts:
            key = alert.key
            self.stored[key] = absorbed(self.stored.get(key), alert, now)
            batch.append(self.stored[key])
        if not batch:
            return None
        for subscription in self.open:
            subscription.send(batch)
        self.places += 1
        return self.places - 1

    def subscribe(self):
        if self.closed:
            raise Refused("E14 Closed")
        free = set(range(LANES)) - {subscription.lane for subscription in self.open}
        if not free:
            raise Refused("E15 NoLane")
        self.open.append(Subscription(min(free), self.calls, self.stored.values()))
        self.calls += 1
        return self.open[-1]

    def leave(self, subscription):
        self.open.remove(subscription)
        self.calls += 1

    def close(self):
        if self.closed:
            raise Refused("E14 Closed")
        self.closed = True
        self.calls += 1

    def trim(self):
        """How many calls were dropped: those before the earliest open subscription."""
        end = min((subscription.at for subscription in self.open), default=self.calls)
        count, self.dropped = end - self.dropped, end
        self.gone = max(self.gone, end)
        return count

    def compact(self):
        """How many calls were taken out of memory: all that are there."""
        count, self.gone = self.calls - self.gone, self.calls
        return count

    def collect(self, now):
        """What was removed, in the order of the store."""
        gone = [key for key, alert in self.stored.items() if alert.resolved_at(now)]
        self.calls += 1
        return [self.stored.pop(key) for key in gone]


class Run:
    """A run of a script, with the lines that it prints."""

    def __init__(self):
        self.provider = Provider()
        self.names = {}
        self.lines = []

    def command(self, number, command):
        verb = command["do"]
        try:
            for answer in getattr(self, verb)(command):
                self.lines.append(f"{number} {answer}")
        except Refused as refused:
            self.lines.append(f"{number} {verb} refused {refused}")

    def subscription(self, command):
        """The subscription that a command names, None where its subscribe was refused."""
        return self.names[command["thread"], command["sub"]]

    def post(self, command):
        now, body = moment(command["at"]), command["body"]
        if not isinstance(body, str):
            body = json.dumps(body, separators=(",", ":"), ensure_ascii=False)
        valid, faults = read_post(body.encode(), now)
        place = self.provider.post(valid, now)
        yield f"post valid {len(valid)} " + ("no place" if place is None else f"place {place}")
        for index, fault in faults:
            yield f"invalid {index} {fault}"

    def subscribe(self, command):
        self.names[command["thread"], command["sub"]] = None
        subscription = self.provider.subscribe()
        self.names[command["thread"], command["sub"]] = subscription
        yield f"subscribe lane {subscription.lane} opening {len(subscription.due)}"

    def read(self, command):
        subscription = self.subscription(command)
        if subscription is None:
            yield "read none"
            return
        most, before = command.get("max", 1), subscription.taken
        for alert in subscription.due[before : before + most]:
            subscription.taken += 1
            yield "item " + alert.text
        if subscription.taken < before + most:
            subscription.told_closed = self.provider.closed
            yield "closed" if self.provider.closed else "pending"

    def leave(self, command):
        subscription = self.names.pop((command["thread"], command["sub"]))
        if subscription is None:
            yield "leave none"
            return
        self.provider.leave(subscription)
        yield f"leave taken {subscription.taken}" + (" closed" if subscription.told_closed else "")

    def collect(self, command):
        yield f"collect removed {len(self.provider.collect(moment(command['at'])))}"

    def take(self, command):
        removed = self.provider.collect(moment(command["at"]))
        yield f"take removed {len(removed)}"
        for alert in removed:
            yield "alert " + alert.text

    def close(self, _command):
        self.provider.close()
        yield "close"

    def trim(self, _command):
        yield f"trim dropped {self.provider.trim()}"

    def compact(self, _command):
        yield f"compact dropped {self.provider.compact()}"

    def stored(self, command):
        alerts = list(self.provider.stored.values())
        if "max" in command:
            start, count = command.get("from", 0), len(alerts)
            alerts = alerts[start : start + command["max"]]
            yield f"page {len(alerts)} from {start} of {count} after {self.provider.calls}"
        else:
            yield f"stored {len(alerts)}"
        for alert in alerts:
            yield "alert " + alert.text

    def get(self, command):
        key = frozenset((name, value) for name, value in command["labels"].items() if value)
        alert = self.provider.stored.get(key)
        yield "no alert" if alert is None else "alert " + alert.text


def commands(script):
    """A script's commands with the numbers of their lines."""
    return [(number, json.loads(line)) for number, line in enumerate(script.split(b"\n"), 1) if number > 1 and line]


def printed(script):
    """What is printed for a script that isn't refused as a whole."""
    run = Run()
    for number, command in commands(script):
        run.command(number, command)
    provider = run.provider
    run.lines.append(f"end places {provider.places} posts {provider.posts} stored {len(provider.stored)}")
    return "".join(line + "\n" for line in run.lines).encode()
