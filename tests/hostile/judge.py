"""Whether one history of calls explains what a script printed whose threads ran freely.

What was printed fixes what each thread did, step by step; open is only how the threads' steps followed each other. A
call that takes the provider's lock is one step. A read has several: it passes the batch that it has shown, and each
alert or its last word is a step. A post that cuts subscribers has a step for each of them, in the order of their lanes,
before its batch is there: meanwhile others may read, but nobody else takes the lock. A post is refused as full, or goes
on, by what the readers had passed at that step.

The search is depth-first over these steps. A step that changes nothing for the others is taken as soon as it can be,
since later it can do no more. A place that was seen before isn't searched again.
"""
import collections
import json
import pathlib
import re
import sys

sys.path.insert(0, str(pathlib.Path(__file__).resolve().parent.parent / "sizes"))
import model  # noqa: E402

# More positions than any script of the tests has been seen to need.
MOST_POSITIONS = 100_000
WORDS = ("pending", "closed", "cut")
PLACED = re.compile(r"post valid (\d+) (?:place (\d+)|no place)")
FULL = re.compile(r"post refused E13 Full lane (\d) passed (\d+)")
SUBSCRIBED = re.compile(r"subscribe lane (\d) opening (\d+)")
LEFT = re.compile(r"leave taken (\d+)( closed| cut)?")
COUNTED = re.compile(r"(?:collect removed|trim dropped|compact dropped) (\d+)")
END = re.compile(r"end places (\d+) posts (\d+) stored (\d+)")


class Wrong(Exception):
    """What was printed can't be, whatever the history is."""


class Never(Exception):
    """From this position on a step can't be taken, whatever comes before it."""


class Undecided(Exception):
    """The search has looked at more positions than it may."""


def must(is_so, why):
    if not is_so:
        raise Wrong(why)


def still(is_so):
    if not is_so:
        raise Never


# An open subscription: how many calls there were before it, the texts that it was shown first, how many batches it has
# passed, how many alerts it has shown of the next one, which then is in its hand, how many in all, and whether it was cut.
Lane = collections.namedtuple("Lane", "at opening passed hand taken is_cut")

# Where the threads are, and what they have made of the provider. The log has the texts of its batches. Of the calls, trims
# dropped some, and some aren't in memory any more.
Position = collections.namedtuple("Position", "at stored log lanes calls dropped gone closed holder")


def key_of(position):
    """What tells a position from others."""
    return position._replace(stored=tuple((alert.text, alert.updated) for alert in position.stored))


class Step:
    """One step of a thread. `takes` says whether it needs the lock, `shows` and `asks` what of the provider it changes for
    others, and what it hangs on: the count of calls, the lanes, the room in the log, the trims, the compactions."""

    takes, shows, asks = True, frozenset(), frozenset()

    def after(self, position, setting):
        """The position after the step, None while it can't be taken yet."""
        raise NotImplementedError


class Publish(Step):
    """A batch is there."""

    shows, asks = frozenset({"batches"}), frozenset({"room"})

    def __init__(self, alerts, now, place):
        self.alerts, self.now, self.place = alerts, now, place

    def after(self, position, setting):
        still(len(position.log) <= self.place and not position.closed)
        if len(position.log) < self.place or behind(position, setting):
            return None
        stored, batch = stored_with(position.stored, self.alerts, self.now)
        log = (*position.log, batch)
        return position._replace(stored=stored, log=log, calls=position.calls + 1, holder=None)


class Cut(Step):
    """A post, which then goes on, cuts a subscriber. Those of lower lanes are cut or have room."""

    shows, asks = frozenset({"batches"}), frozenset({"room"})

    def __init__(self, thread, lane, place):
        self.thread, self.lane, self.place = thread, lane, place

    def after(self, position, setting):
        still(len(position.log) <= self.place and not position.closed)
        if len(position.log) < self.place or behind(position, setting)[:1] != [self.lane]:
            return None
        return with_lane(position, self.lane, is_cut=True)._replace(holder=self.thread)


class Nothing(Step):
    """A post without a valid alert is accepted."""

    shows = frozenset({"calls"})

    def after(self, position, setting):
        still(not position.closed)
        return position._replace(calls=position.calls + 1)


class Full(Step):
    """A post is refused since a subscriber, the lowest such, is too slow."""

    asks = frozenset({"room"})

    def __init__(self, lane, passed):
        self.lane, self.passed = lane, passed

    def after(self, position, setting):
        still(not position.closed)
        if behind(position, setting)[:1] != [self.lane] or position.lanes[self.lane].passed != self.passed:
            return None
        return position


class Closed(Step):
    """A call is refused since the log was ended."""

    def after(self, position, setting):
        return position if position.closed else None


class NoLane(Step):
    """A subscribe is refused since all lanes are open."""

    asks = frozenset({"lanes"})

    def after(self, position, setting):
        still(not position.closed)
        return position if None not in position.lanes else None


class Subscribe(Step):
    """`shown` has what its reads print, and `starts` the lengths of the log at which it may have come for that."""

    shows, asks = frozenset({"batches"}), frozenset({"lanes"})

    def __init__(self, lane, opening):
        self.lane, self.opening, self.shown, self.starts = lane, opening, [], ()

    def after(self, position, setting):
        still(not position.closed and len(position.log) <= self.starts[-1])
        if None not in position.lanes or position.lanes.index(None) != self.lane:
            return None
        if len(position.log) not in self.starts:
            return None
        if len(position.stored) != self.opening:
            return None
        opening = tuple(alert.text for alert in position.stored)
        lane = Lane(position.calls, opening, len(position.log), 0, 0, False)
        return position._replace(lanes=put(position.lanes, self.lane, lane), calls=position.calls + 1)


class Leave(Step):
    """`is_cut` is None where nothing was printed."""

    shows = frozenset({"calls", "lanes", "room"})

    def __init__(self, lane, is_cut):
        self.lane, self.is_cut = lane, is_cut

    def after(self, position, setting):
        was_cut = position.lanes[self.lane].is_cut
        still(self.is_cut is not False or not was_cut)
        if self.is_cut and not was_cut:
            return None
        return position._replace(lanes=put(position.lanes, self.lane, None), calls=position.calls + 1)


class Collect(Step):
    shows = frozenset({"batches"})

    def __init__(self, now, removed):
        self.now, self.removed = now, removed
        if removed == 0:
            self.shows = frozenset({"calls"})

    def after(self, position, setting):
        kept = tuple(alert for alert in position.stored if not alert.resolved_at(self.now))
        if len(position.stored) - len(kept) != self.removed:
            return None
        return position._replace(stored=kept, calls=position.calls + 1)


class Take(Collect):
    """A collection that answers what it removed."""

    def __init__(self, now, texts):
        super().__init__(now, len(texts))
        self.texts = texts

    def after(self, position, setting):
        texts = [alert.text for alert in position.stored if alert.resolved_at(self.now)]
        return super().after(position, setting) if texts == self.texts else None


class Close(Step):
    shows = frozenset({"batches"})

    def after(self, position, setting):
        still(not position.closed)
        return position._replace(closed=True, calls=position.calls + 1)


class Trim(Step):
    shows, asks = frozenset({"trims"}), frozenset({"trims", "calls"})

    def __init__(self, dropped):
        self.dropped = dropped

    def after(self, position, setting):
        end = end_of_trim(position)
        if end - position.dropped != self.dropped:
            return None
        return position._replace(dropped=end, gone=max(position.gone, end))


class Compact(Step):
    shows, asks = frozenset({"compactions"}), frozenset({"compactions", "trims", "calls"})

    def __init__(self, dropped):
        self.dropped = dropped

    def after(self, position, setting):
        if position.calls - position.gone != self.dropped:
            return None
        return position._replace(gone=position.calls)


class Stored(Step):
    def __init__(self, texts):
        self.texts = texts

    def after(self, position, setting):
        return position if [alert.text for alert in position.stored] == self.texts else None


class Get(Step):
    def __init__(self, key, text):
        self.key, self.text = key, text

    def after(self, position, setting):
        found = next((alert.text for alert in position.stored if alert.key == self.key), None)
        return position if found == self.text else None


class Read(Step):
    """One alert that a read shows, or its last word."""

    takes = False

    def __init__(self, lane, text, word):
        self.lane, self.text, self.word = lane, text, word

    def after(self, position, setting):
        lane = position.lanes[self.lane]
        if lane.taken < len(lane.opening):
            still(lane.opening[lane.taken] == self.text)
            return with_lane(position, self.lane, taken=lane.taken + 1)
        if lane.hand:
            still(position.log[lane.passed][lane.hand] == self.text)
            return with_lane(position, self.lane, taken=lane.taken + 1, hand=lane.hand + 1)
        if self.word == "cut":
            return position if lane.is_cut else None
        still(not lane.is_cut)
        if self.word is None:
            return self.item(position, lane)
        still(lane.passed == len(position.log) and (self.word == "closed" or not position.closed))
        return position if position.closed == (self.word == "closed") else None

    def item(self, position, lane):
        """After the next batch came into the hand, of which one alert is shown."""
        if lane.passed == len(position.log):
            still(not position.closed)
            return None
        still(position.log[lane.passed][0] == self.text)
        return with_lane(position, self.lane, taken=lane.taken + 1, hand=1)

    def passes(self, position):
        """Whether the batch in hand has to be passed first."""
        lane = position.lanes[self.lane]
        return lane.hand and lane.taken >= len(lane.opening) and lane.hand == len(position.log[lane.passed])

    def after_pass(self, position):
        lane = position.lanes[self.lane]
        return with_lane(position, self.lane, passed=lane.passed + 1, hand=0)


def end_of_trim(position):
    """How many calls there were before those that a trim keeps."""
    return min((lane.at for lane in position.lanes if lane), default=position.calls)


def put(row, index, value):
    return (*row[:index], value, *row[index + 1 :])


def with_lane(position, number, **changes):
    return position._replace(lanes=put(position.lanes, number, position.lanes[number]._replace(**changes)))


def behind(position, setting):
    """The lanes that hold up the log, the lowest first."""
    length = len(position.log)
    return [
        number
        for number, lane in enumerate(position.lanes)
        if lane and not lane.is_cut and length - lane.passed >= setting.places
    ]


def stored_with(stored, alerts, now):
    """What is stored after a post, and the texts of its batch."""
    by_key, batch = {alert.key: alert for alert in stored}, []
    for alert in alerts:
        by_key[alert.key] = model.absorbed(by_key.get(alert.key), alert, now)
        batch.append(by_key[alert.key].text)
    return tuple(by_key.values()), tuple(batch)


Setting = collections.namedtuple("Setting", "places policy")


class Thread:
    """The steps of a thread, made of its commands and what was printed of each."""

    def __init__(self, number, setting):
        self.number, self.setting = number, setting
        self.steps, self.posts, self.places, self.subscriptions = [], 0, [], []
        # The step of each open subscription's name, None where it was refused.
        self.names = {}

    def add(self, command, answers):
        must(answers, "a line without an answer")
        getattr(self, command["do"])(command, answers)

    def post(self, command, answers):
        now = model.moment(command["at"])
        body = command["body"] if isinstance(command["body"], str) else json.dumps(command["body"])
        try:
            valid, faults = model.read_post(body.encode(), now)
        except model.Refused as refused:
            must(answers == [f"post refused {refused}"], "a post that isn't read")
            return
        if answers == ["post refused E14 Closed"]:
            self.steps.append(Closed())
        elif full := FULL.fullmatch(answers[0]):
            must(valid and len(answers) == 1 and self.setting.policy == "refuse", "a full log")
            self.steps.append(Full(*map(int, full.groups())))
        else:
            self.accepted(now, valid, faults, answers)

    def accepted(self, now, valid, faults, answers):
        placed = PLACED.fullmatch(answers[0])
        must(placed and placed[1] == str(len(valid)) and bool(valid) == (placed[2] is not None), "a post's count")
        told = [f"invalid {index} {fault}" for index, fault in faults]
        must(answers[1 : 1 + len(told)] == told, "a post's faults")
        cuts = answers[1 + len(told) :]
        lanes = [lane for lane in range(model.LANES) if f"cut lane {lane}" in cuts]
        must(cuts == [f"cut lane {lane}" for lane in lanes], "lanes that were cut")
        must(not cuts or valid and self.setting.policy == "cut", "lanes that can't be cut")
        self.posts += 1
        if not valid:
            self.steps.append(Nothing())
            return
        place = int(placed[2])
        self.places.append((place, [model.labels_text(alert.labels) + " " for alert in valid]))
        self.steps += [Cut(self.number, lane, place) for lane in lanes]
        self.steps.append(Publish(valid, now, place))

    def subscribe(self, command, answers):
        must(len(answers) == 1, "one answer")
        name = command["sub"]
        self.names[name] = None
        if answers[0] == "subscribe refused E14 Closed":
            self.steps.append(Closed())
        elif answers[0] == "subscribe refused E15 NoLane":
            self.steps.append(NoLane())
        else:
            read = SUBSCRIBED.fullmatch(answers[0])
            must(read and int(read[1]) < model.LANES, "a subscribe's answer")
            self.names[name] = Subscribe(*map(int, read.groups()))
            self.steps.append(self.names[name])
            self.subscriptions.append(self.names[name])

    def read(self, command, answers):
        subscription, most = self.names[command["sub"]], command.get("max", 1)
        if subscription is None:
            must(answers == ["read none"], "a read without a subscription")
            return
        ends = answers[-1] in WORDS
        items = answers[:-1] if ends else answers
        must(all(item.startswith("item ") for item in items), "a read's answer")
        must(len(items) < most if ends else len(items) == most, "how many alerts a read shows")
        shown = [(item[len("item ") :], None) for item in items] + [(None, answers[-1])] * ends
        self.steps += [Read(subscription.lane, *it) for it in shown]
        subscription.shown += shown

    def leave(self, command, answers):
        must(len(answers) == 1, "one answer")
        subscription = self.names.pop(command["sub"])
        if subscription is None:
            must(answers == ["leave none"], "a leave without a subscription")
            return
        read = LEFT.fullmatch(answers[0])
        must(read and int(read[1]) == sum(word is None for _, word in subscription.shown), "how much was taken")
        must((read[2] == " closed") == ((None, "closed") in subscription.shown), "whether it was closed")
        self.steps.append(Leave(subscription.lane, read[2] == " cut"))

    def collect(self, command, answers):
        self.steps.append(Collect(model.moment(command["at"]), self.count(answers, "collect removed ")))

    def take(self, command, answers):
        texts = [answer[len("alert ") :] for answer in answers[1:]]
        must(answers == [f"take removed {len(texts)}", *("alert " + text for text in texts)], "a list of what is removed")
        self.steps.append(Take(model.moment(command["at"]), texts))

    def trim(self, _command, answers):
        self.steps.append(Trim(self.count(answers, "trim dropped ")))

    def compact(self, _command, answers):
        self.steps.append(Compact(self.count(answers, "compact dropped ")))

    def count(self, answers, words):
        read = COUNTED.fullmatch(answers[0])
        must(len(answers) == 1 and read and answers[0].startswith(words), words)
        return int(read[1])

    def close(self, _command, answers):
        must(answers in (["close"], ["close refused E14 Closed"]), "a close's answer")
        self.steps.append(Close() if answers == ["close"] else Closed())

    def stored(self, _command, answers):
        texts = [answer[len("alert ") :] for answer in answers[1:]]
        must(answers == [f"stored {len(texts)}", *("alert " + text for text in texts)], "a list of what is stored")
        self.steps.append(Stored(texts))

    def get(self, command, answers):
        must(len(answers) == 1 and (answers[0] == "no alert" or answers[0].startswith("alert ")), "a get's answer")
        key = frozenset((name, value) for name, value in command["labels"].items() if value)
        self.steps.append(Get(key, None if answers[0] == "no alert" else answers[0][len("alert ") :]))

    def end(self):
        """It leaves what is open, in the order of opening, and prints nothing."""
        self.steps += [Leave(it.lane, None) for it in self.names.values() if it]


def answers_of(lines):
    """The answers of each line of the script, which are printed in its order."""
    found, last = collections.defaultdict(list), 0
    for line in lines:
        number, _, answer = line.partition(" ")
        must(number.isdecimal() and str(int(number)) == number and int(number) >= last, "a line's number")
        last = int(number)
        found[last].append(answer)
    return found


def starts_of(subscription, log):
    """At which lengths of the log it may have been opened, if its alerts have the label sets of the batches from there."""
    rest = subscription.shown[subscription.opening :]
    return [start for start in range(len(log) + 1) if is_from(rest, log[start:])]


def is_from(shown, batches):
    """Whether reads may show that of these batches."""
    due, passed = collections.deque(), 0
    for text, word in shown:
        if not due and word is None and passed < len(batches):
            due, passed = collections.deque(batches[passed]), passed + 1
        if word is None and (not due or not text.startswith(due.popleft())):
            return False
        if word and due or word == "closed" and passed < len(batches):
            return False
    return True


def threads_of(script, lines, setting):
    """Each thread with its steps."""
    answers, threads = answers_of(lines), [Thread(number, setting) for number in range(8)]
    commands = model.commands(script)
    must(set(answers) <= {number for number, _ in commands}, "an answer of no line")
    for number, command in commands:
        threads[command["thread"]].add(command, answers.get(number, []))
    for thread in threads:
        thread.end()
    return threads


class Search:
    """A search for a history, from what each thread did."""

    def __init__(self, threads, setting, stored):
        self.threads, self.setting, self.wanted = [thread.steps for thread in threads], setting, stored
        self.places, self.seen = sum(len(thread.places) for thread in threads), set()
        # With more places than batches nobody is ever too slow.
        self.may_fill = self.places >= setting.places
        self.asks = [self.asked_after(steps) for steps in self.threads]
        # How many calls each trim drops that a thread has still to make, from each of its steps on.
        self.trims = [
            [[it.dropped for it in steps[at:] if isinstance(it, Trim)] for at in range(len(steps) + 1)]
            for steps in self.threads
        ]

    def asked_after(self, steps):
        """What a thread's steps hang on, from each of them on."""
        later = [frozenset()]
        for step in reversed(steps):
            later.append(later[-1] | (step.asks if self.may_fill else step.asks - {"room"}))
        return later[::-1]

    def can_trim(self, position):
        """Whether there aren't more calls already than each thread's next trim and those of the others can drop."""
        trims = [trims[at] for trims, at in zip(self.trims, position.at)]
        there, left = end_of_trim(position) - position.dropped, sum(map(sum, trims))
        return all(there <= own[0] + left - sum(own) for own in trims if own)

    def is_unseen(self, position, thread, shows):
        """Whether no later step hangs on that. A trim's own answer says what it leaves to its thread's later trims."""
        own = self.asks[thread][min(position.at[thread] + 1, len(self.threads[thread]))]
        others = (asks[at] for other, (asks, at) in enumerate(zip(self.asks, position.at)) if other != thread)
        return not any(map(shows.intersection, others)) and not own & (shows - {"trims"})

    def moved(self, position, thread):
        """The position after a thread's next step, None if it can't be taken, and whether it matters when it is."""
        at, steps = position.at[thread], self.threads[thread]
        if at == len(steps) or steps[at].takes and position.holder not in (None, thread):
            return None, True
        step = steps[at]
        if isinstance(step, Read) and step.passes(position):
            return step.after_pass(position), not self.is_unseen(position, thread, frozenset({"room"}))
        after = step.after(position, self.setting)
        if after is None:
            return None, True
        matters = "batches" in step.shows or not self.is_unseen(position, thread, step.shows)
        return after._replace(at=put(position.at, thread, at + 1)), matters

    def settled(self, position, path):
        """The position after all steps that may be taken at once, and those after each other step; with their paths."""
        goes_on = True
        while goes_on:
            goes_on, found = False, []
            for thread in range(len(self.threads)):
                after, matters = self.moved(position, thread)
                if after is not None and not matters:
                    position, path, goes_on = after, (path, thread), True
                    break
                if after is not None:
                    found.append((after, (path, thread)))
        return position, path, found

    def is_end(self, position):
        is_through = all(at == len(steps) for at, steps in zip(position.at, self.threads))
        return is_through and len(position.stored) == self.wanted

    def history(self):
        """The threads whose steps make a history, one after the other, None if there is none."""
        waiting = [(Position((0,) * len(self.threads), (), (), (None,) * model.LANES, 0, 0, 0, False, None), ())]
        while waiting:
            try:
                position, path, found = self.settled(*waiting.pop())
            except Never:
                continue
            if self.is_end(position):
                return flat(path)
            key = key_of(position)
            if key not in self.seen and self.can_trim(position):
                self.seen.add(key)
                waiting += found
            if len(self.seen) > MOST_POSITIONS:
                raise Undecided
        return None


def flat(path):
    found = []
    while path:
        path, thread = path
        found.append(thread)
    return found[::-1]


def history(script, printed, places, policy):
    """The threads whose steps, one after the other, make a history that explains what was printed. `Wrong` says why there
    is none."""
    setting = Setting(places, policy)
    try:
        *lines, last, rest = printed.decode().split("\n")
    except ValueError:
        raise Wrong("it has no last line, or isn't UTF-8") from None
    end = END.fullmatch(last)
    must(end and not rest, "the last line")
    threads = threads_of(script, lines, setting)
    log = sorted(place for thread in threads for place in thread.places)
    must([place for place, _ in log] == list(range(int(end[1]))), "the posts' places aren't those of a log")
    for subscription in [it for thread in threads for it in thread.subscriptions]:
        subscription.starts = starts_of(subscription, [batch for _, batch in log])
        must(subscription.starts, "a subscription isn't shown what a log has")
    must(sum(thread.posts for thread in threads) == int(end[2]), "the count of accepted posts")
    found = Search(threads, setting, int(end[3])).history()
    must(found is not None, "no history explains it")
    return found


def fault(script, printed, places, policy):
    """What is wrong with what was printed, None if a history explains it."""
    try:
        history(script, printed, places, policy)
    except Wrong as why:
        return str(why)
    except Undecided:
        return f"no history is found among {MOST_POSITIONS} positions"
    return None
