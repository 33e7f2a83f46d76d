"""What a script prints in any interleaving of its threads, access by access of what they share.

Each thread is a generator that stops before each access: to the lock, to the log's length, to the word of a subscriber.
Who goes on next is the caller's choice. It is written as the log works, where the judge reckons in whole steps. So what it
prints is right by its making, and it can tell whether a history that the judge has found prints what it should explain.
"""
import json
import pathlib
import sys

sys.path.insert(0, str(pathlib.Path(__file__).resolve().parent.parent / "sizes"))
import model  # noqa: E402

LOCK = "lock"


class Lane:
    """A subscription: its word (how many batches it passed, whether one is in its hand, whether it was cut), and what its
    reader knows."""

    def __init__(self, number, at, opening, start):
        self.number, self.at, self.opening = number, at, opening
        self.passed, self.has_hand, self.is_cut = start, False, False
        self.seen, self.has_seen_end, self.told_closed = start, False, False
        self.taken, self.hand, self.shown = 0, [], 0

    def is_behind(self, passed, length, places):
        return length - passed >= places


class Machine:
    """A provider, and a script's threads that work on it."""

    def __init__(self, script, places, policy):
        self.places, self.policy = places, policy
        self.stored, self.batches, self.length = {}, [], 0
        # Of the calls, how many trims dropped, and how many aren't in memory any more.
        self.closed, self.posts, self.calls, self.dropped, self.gone = False, 0, 0, 0, 0
        self.lanes, self.holder = [None] * model.LANES, None
        # How many steps, as the judge reckons them, each thread has done.
        self.done, self.answers = [0] * 8, {}
        commands = model.commands(script)
        self.threads = [self.work(thread, [it for it in commands if it[1]["thread"] == thread]) for thread in range(8)]
        self.next = [next(thread, None) for thread in self.threads]

    def ready(self):
        """The threads that can go on."""
        return [number for number, access in enumerate(self.next) if access and (access != LOCK or self.holder is None)]

    def go_on(self, thread):
        """A thread makes its next access, and goes on to the one after it."""
        if self.next[thread] == LOCK:
            self.holder = thread
        self.next[thread] = next(self.threads[thread], None)

    def printed(self):
        lines = [f"{number} {answer}" for number in sorted(self.answers) for answer in self.answers[number]]
        lines.append(f"end places {self.length} posts {self.posts} stored {len(self.stored)}")
        return "".join(line + "\n" for line in lines).encode()

    def work(self, thread, commands):
        names = {}
        for number, command in commands:
            answers = self.answers[number] = []
            yield from getattr(self, "do_" + command["do"])(thread, names, command, answers)
        for lane in names.values():
            if lane:
                yield LOCK
                self.leave_lane(thread, lane)

    def release(self, thread):
        self.holder = None
        self.done[thread] += 1

    def do_post(self, thread, _names, command, answers):
        now = model.moment(command["at"])
        body = command["body"] if isinstance(command["body"], str) else json.dumps(command["body"])
        try:
            valid, faults = model.read_post(body.encode(), now)
        except model.Refused as refused:
            answers.append(f"post refused {refused}")
            return
        yield LOCK
        try:
            place, cut = yield from self.put(thread, valid, now)
            answers.append(f"post valid {len(valid)} " + ("no place" if place is None else f"place {place}"))
            answers += [f"invalid {index} {fault}" for index, fault in faults]
            answers += [f"cut lane {lane}" for lane in cut]
        except model.Refused as refused:
            answers.append(f"post refused {refused}")
        self.release(thread)

    def put(self, thread, valid, now):
        """The post's place, and the lanes that it cut."""
        if self.closed:
            raise model.Refused("E14 Closed")
        cut = []
        if valid:
            words = yield from self.harvest()
            late = [number for number, (passed, _) in words.items() if self.length - passed >= self.places]
            if late and self.policy == "refuse":
                raise model.Refused(f"E13 Full lane {late[0]} passed {words[late[0]][0]}")
            if self.policy == "cut":
                cut = yield from self.cut(thread)
            yield "publish"
            self.batches.append(self.store(valid, now))
            self.length += 1
        self.posts, self.calls = self.posts + 1, self.calls + 1
        return self.length - 1 if valid else None, cut

    def store(self, valid, now):
        batch = []
        for alert in valid:
            self.stored[alert.key] = model.absorbed(self.stored.get(alert.key), alert, now)
            batch.append(self.stored[alert.key].text)
        return batch

    def harvest(self):
        """The words of the lanes that aren't cut, each loaded by itself."""
        words = {}
        for number, lane in enumerate(self.lanes):
            if lane and not lane.is_cut:
                yield "load"
                words[number] = lane.passed, lane.has_hand
        return words

    def cut(self, thread):
        """Cuts each lane that is too slow, unless its word moved on since: it is tried twice."""
        words, cut = (yield from self.harvest()), []
        for number, word in words.items():
            for _ in range(2):
                if self.length - word[0] < self.places:
                    break
                yield "cut"
                lane = self.lanes[number]
                if (lane.passed, lane.has_hand) == word:
                    lane.is_cut = True
                    cut.append(number)
                    self.done[thread] += 1
                    break
                word = lane.passed, lane.has_hand
        return cut

    def do_subscribe(self, thread, names, command, answers):
        yield LOCK
        if self.closed or None not in self.lanes:
            names[command["sub"]] = None
            answers.append("subscribe refused " + ("E14 Closed" if self.closed else "E15 NoLane"))
        else:
            number, opening = self.lanes.index(None), [alert.text for alert in self.stored.values()]
            self.lanes[number] = names[command["sub"]] = Lane(number, self.calls, opening, self.length)
            self.calls += 1
            answers.append(f"subscribe lane {number} opening {len(opening)}")
        self.release(thread)

    def do_read(self, thread, names, command, answers):
        lane = names[command["sub"]]
        if not lane:
            answers.append("read none")
            return
        for _ in range(command.get("max", 1)):
            word = yield from self.advance(thread, lane)
            answers.append(word or "item " + (lane.hand[lane.shown - 1] if lane.hand else lane.opening[lane.taken]))
            lane.taken += word is None
            self.done[thread] += 1
            if word:
                return

    def advance(self, thread, lane):
        """Goes on to the next alert, or says why there is none."""
        if lane.taken < len(lane.opening):
            return None
        if lane.shown < len(lane.hand):
            lane.shown += 1
            return None
        if lane.hand:
            yield "pass"
            lane.passed, lane.has_hand, lane.hand, lane.shown = lane.passed + 1, False, [], 0
            self.done[thread] += 1
            if lane.is_cut:
                return "cut"
        if lane.passed == lane.seen and not lane.has_seen_end:
            yield "look"
            lane.seen, lane.has_seen_end = self.length, self.closed
        if lane.passed == lane.seen:
            lane.told_closed = lane.has_seen_end
            return "closed" if lane.has_seen_end else "pending"
        yield "take"
        if lane.is_cut:
            return "cut"
        lane.has_hand, lane.hand, lane.shown = True, self.batches[lane.passed], 1
        return None

    def do_leave(self, thread, names, command, answers):
        lane = names.pop(command["sub"])
        if not lane:
            answers.append("leave none")
            return
        yield LOCK
        self.leave_lane(thread, lane)
        end = " closed" if lane.told_closed else " cut" if lane.is_cut else ""
        answers.append(f"leave taken {lane.taken}{end}")

    def leave_lane(self, thread, lane):
        self.lanes[lane.number] = None
        self.calls += 1
        self.release(thread)

    def do_collect(self, thread, _names, command, answers):
        yield LOCK
        answers.append(f"collect removed {len(self.removed(command))}")
        self.release(thread)

    def do_take(self, thread, _names, command, answers):
        yield LOCK
        removed = self.removed(command)
        answers.append(f"take removed {len(removed)}")
        answers += ["alert " + alert.text for alert in removed]
        self.release(thread)

    def removed(self, command):
        """What a collection removes."""
        self.calls += 1
        gone = [key for key, alert in self.stored.items() if alert.resolved_at(model.moment(command["at"]))]
        return [self.stored.pop(key) for key in gone]

    def do_close(self, thread, _names, _command, answers):
        yield LOCK
        answers.append("close refused E14 Closed" if self.closed else "close")
        self.calls += not self.closed
        self.closed = True
        self.release(thread)

    def do_trim(self, thread, _names, _command, answers):
        yield LOCK
        end = min((lane.at for lane in self.lanes if lane), default=self.calls)
        answers.append(f"trim dropped {end - self.dropped}")
        self.dropped, self.gone = end, max(self.gone, end)
        self.release(thread)

    def do_compact(self, thread, _names, _command, answers):
        yield LOCK
        answers.append(f"compact dropped {self.calls - self.gone}")
        self.gone = self.calls
        self.release(thread)

    def do_stored(self, thread, _names, _command, answers):
        yield LOCK
        answers.append(f"stored {len(self.stored)}")
        answers += ["alert " + alert.text for alert in self.stored.values()]
        self.release(thread)

    def do_get(self, thread, _names, command, answers):
        yield LOCK
        found = self.stored.get(frozenset((name, value) for name, value in command["labels"].items() if value))
        answers.append("alert " + found.text if found else "no alert")
        self.release(thread)


class FromAbove(Machine):
    """A wrong one: its posts look at the lanes, and cut them, the greatest first."""

    def harvest(self):
        words = yield from super().harvest()
        return dict(reversed(words.items()))


class Repeating(Machine):
    """A wrong one: a subscription is also shown the last batch before it."""

    def do_subscribe(self, thread, names, command, answers):
        yield from super().do_subscribe(thread, names, command, answers)
        if lane := names[command["sub"]]:
            lane.passed = lane.seen = max(lane.passed - 1, 0)


WRONG = (FromAbove, Repeating)


def run(script, places, policy, choose, kind=Machine):
    """What the script prints if `choose` picks one of the threads that can go on, again and again."""
    machine = kind(script, places, policy)
    while ready := machine.ready():
        machine.go_on(choose(ready))
    return machine.printed()


def follow(script, places, policy, history):
    """What the script prints if its threads take their steps in that order, None if they can't."""
    machine, wanted = Machine(script, places, policy), [0] * 8
    for thread in history:
        wanted[thread] += 1
        while machine.done[thread] < wanted[thread]:
            if thread not in machine.ready():
                return None
            machine.go_on(thread)
    return machine.printed() if not any(machine.next) else None


def all_printed(script, places, policy, most, kind=Machine):
    """All that a script may print, None if that takes more than so many runs."""
    found, schedules = set(), [[]]
    for _ in range(most):
        if not schedules:
            return found
        schedule, choices = schedules.pop(), []

        def choose(ready):
            choice = schedule[len(choices)] if len(choices) < len(schedule) else 0
            choices.append((choice, len(ready)))
            return ready[choice]

        found.add(run(script, places, policy, choose, kind))
        taken = [choice for choice, _ in choices]
        for at in range(len(schedule), len(choices)):
            schedules += [[*taken[:at], other] for other in range(1, choices[at][1])]
    return None
