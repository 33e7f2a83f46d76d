"""Random scripts whose threads may run freely, and wrong forms of what they print."""
import json
import random
import re

CONFIG = {"route": {"receiver": "ops"}}
VERBS = dict(post=46, read=30, subscribe=6, leave=6, collect=2, take=2, trim=2, compact=2, stored=3, get=4)
# How many label sets are posted again and again.
NAMES = 4


class Script:
    """A random script: so many threads, each with so many lines or fewer."""

    def __init__(self, seed, threads, lines, least=2):
        self.random, self.number = random.Random(seed), 0
        own = [self.thread(number, self.random.randint(least, lines)) for number in range(threads)]
        if self.random.random() < 0.25:
            chosen = self.random.choice(own)
            chosen.insert(self.random.randrange(len(chosen) + 1), {"do": "close", "thread": own.index(chosen)})
        self.commands = list(self.mixed(own))

    @property
    def text(self):
        return "".join(json.dumps(line) + "\n" for line in [CONFIG, *self.commands]).encode()

    def mixed(self, own):
        """The threads' lines in some order of the script."""
        rest = [list(lines) for lines in own]
        while any(rest):
            yield self.random.choice([lines for lines in rest if lines]).pop(0)

    def thread(self, thread, count):
        lines, names = [], []
        for number in range(count):
            verb = self.random.choices(list(VERBS), VERBS.values())[0]
            if verb in ("read", "leave") and not names:
                verb = "subscribe"
            if verb == "subscribe":
                names.append(f"s{number}")
            name = self.random.choice(names) if names else None
            lines.append({"do": verb, "thread": thread, **self.members(verb, names[-1] if verb == "subscribe" else name)})
            if verb == "leave":
                names.remove(name)
        return lines

    def members(self, verb, name):
        if verb == "post":
            return {"at": self.moment(), "body": self.body()}
        if verb in ("collect", "take"):
            return {"at": self.moment()}
        if verb == "get":
            return {"labels": self.labels(0.1)}
        if verb == "read":
            return {"sub": name, "max": self.random.choice((1, 2, 3, 50))}
        return {"sub": name} if name and verb in ("subscribe", "leave") else {}

    def moment(self):
        return f"2024-01-01T10:{self.random.randrange(10, 30)}:00Z"

    def body(self):
        if self.random.random() < 0.04:
            return self.random.choice(("[", "{}", "[7]"))
        return [self.alert() for _ in range(self.random.choices((0, 1, 2, 3), (1, 10, 4, 2))[0])]

    def labels(self, of_new):
        self.number += 1
        number = self.number + NAMES if self.random.random() < of_new else self.random.randrange(NAMES)
        return {"alertname": f"alert{number}"}

    def alert(self):
        labels = {} if self.random.random() < 0.04 else self.labels(0.3)
        alert = {"labels": labels, "annotations": {"post": str(self.number)}}
        if self.random.random() < 0.5:
            alert["startsAt"] = self.moment()
        if self.random.random() < 0.4:
            alert["endsAt"] = self.moment()
        return alert


# Small scripts whose threads meet where a log fills, lanes are rare, calls are counted or the log ends: each has its
# places, its policy, and its lines, as `0 read a 2` for two alerts read by thread 0 of the subscription a.
MEETINGS = (
    (1, "refuse", "0 subscribe a, 0 subscribe b, 0 post, 0 read b 2, 1 post, 1 post"),
    (2, "refuse", "0 subscribe a, 0 post, 0 post, 0 read a 2, 0 read a 1, 1 post, 1 post"),
    (1, "cut", "0 subscribe a, 0 post, 0 subscribe b, 1 post, 0 read a 1, 0 read b 2"),
    (1, "cut", "0 subscribe a, 0 subscribe b, 0 post, 1 post, 0 read a 2, 0 leave a, 0 read b 1"),
    (1, "cut", "0 subscribe a, 1 post, 1 post, 0 read a 3, 0 leave a"),
    (2, "cut", "0 subscribe a, 0 post, 0 read a 1, 0 post, 0 read a 2, 1 post, 1 post"),
    (256, "refuse", "0 subscribe a, 1 post, 0 read a 2, 0 read a 1, 1 close, 0 leave a"),
    (256, "refuse", "0 close, 1 post, 1 subscribe a, 1 read a 1, 0 post, 1 close"),
    (256, "refuse", "0 empty, 0 trim, 1 subscribe a, 1 post, 0 trim"),
    (256, "refuse", "0 post, 0 collect, 0 stored, 1 post, 1 trim"),
    (256, "refuse", "0 post, 0 take, 0 stored, 1 post, 1 take"),
    (256, "refuse", "0 post, 0 compact, 0 trim, 1 subscribe a, 1 compact"),
    (256, "refuse", "0 trim, 0 compact, 1 post, 1 trim, 1 compact"),
    (256, "cut", ", ".join(f"0 subscribe {name}" for name in "abcdefgh") + ", 1 subscribe i, 0 leave c"),
)

# One with more interleavings: two readers of one thread, of whom a post may cut either, both or none.
RACE = (1, "cut", "0 subscribe a, 0 subscribe b, 0 post, 0 read a 1, 1 post, 0 read b 1, 0 read a 1")


def meeting(lines):
    """The text of such a script. Each post has a label set of its own."""
    return "".join(json.dumps(line) + "\n" for line in [CONFIG, *map(command_of, range(99), lines.split(", "))]).encode()


def command_of(number, line):
    thread, verb, *words = line.split()
    command = {"do": "post" if verb == "empty" else verb, "thread": int(thread)}
    if verb in ("post", "empty"):
        alerts = [{"labels": {"alertname": f"alert{number}"}}] if verb == "post" else []
        command |= {"at": "2024-01-01T10:00:00Z", "body": alerts}
    if verb in ("collect", "take"):
        command["at"] = "2024-01-01T11:00:00Z"
    return command | dict(zip(("sub", "max"), [word if word.isalpha() else int(word) for word in words]))


def changed(printed, chance):
    """Other forms of what was printed, each with the word for how it was changed."""
    lines = printed.decode().splitlines()
    for at, line in enumerate(lines):
        for kind, after in changes_of(lines, at, line, chance):
            if after != lines:
                yield kind, "".join(it + "\n" for it in after).encode()


def changes_of(lines, at, line, chance):
    before, after = lines[:at], lines[at + 1 :]
    yield "a line is missing", before + after
    yield "a line comes twice", [*before, line, line, *after]
    if at + 1 < len(lines):
        yield "two lines are swapped", [*before, after[0], line, *after[1:]]
    for found in re.finditer(r"(?<=[a-z] )\d+", line):
        number = int(found[0])
        for other in {number + 1, max(number - 1, 0)}:
            kind = line[: found.start()].split()[-1]
            yield f"another number of {kind}", [*before, line[: found.start()] + str(other) + line[found.end() :], *after]
    number, _, answer = line.partition(" ")
    for kind, other in other_answers(answer, [it.partition(" ")[2] for it in lines[:-1]], chance):
        yield kind, [*before, f"{number} {other}", *after]
    if found := re.search(r"place \d+$", line):
        yield from (("two places are swapped", it) for it in swapped(lines, at, found[0], chance))


def other_answers(answer, answers, chance):
    """What else might be printed there."""
    if answer.startswith(("item ", "alert ")):
        of_alerts = [it for it in answers if it.startswith(("item ", "alert "))]
        yield "another alert", answer.partition(" ")[0] + " " + chance.choice(of_alerts).partition(" ")[2]
        yield "another kind of end", answer.translate({ord("Z"): "Y"})
    if answer in ("pending", "closed", "cut"):
        yield from (("another last word", word) for word in ("pending", "closed", "cut"))
    if answer.startswith("leave taken "):
        words = answer.split()
        yield from (("another end of a leave", " ".join([*words[:3], *more])) for more in ([], ["closed"], ["cut"]))
    if answer.startswith(("post ", "subscribe ", "close")):
        verb = answer.split()[0]
        yield from (("a refusal", f"{verb} refused {why}") for why in ("E14 Closed", "E15 NoLane", "E13 Full lane 0 passed 0"))
    yield "another answer", chance.choice(answers)


def swapped(lines, at, place, chance):
    """The same with two posts' places swapped."""
    others = [index for index, it in enumerate(lines) if " post valid " in it and " place " in it and index != at]
    for other in chance.sample(others, min(2, len(others))):
        its = re.search(r"place \d+$", lines[other])
        if its:
            after = list(lines)
            after[at] = lines[at].replace(place, its[0])
            after[other] = lines[other].replace(its[0], place)
            yield after
