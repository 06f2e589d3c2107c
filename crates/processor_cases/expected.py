#!/usr/bin/env python3
"""Writes the file `stdout` of this crate: what a processor does in each case of data/cases.

It follows the rules alone: which item is next by the stamps, what is done with it, how a file is cut into
chunks, and who gets the files. The files are those of the item lists' own reader and rules beside
prof_top_cases. Run it in the crate's folder.
"""
import itertools
import sys

sys.path.insert(0, "../prof_top_cases")
from items import files_of, read_items

OVERLAP = (
    '{"nodes":[{"id":1,"callFrame":{"functionName":"(root)","scriptId":"0","url":"","lineNumber":-1,"columnNumber":'
    '-1},"hitCount":0,"children":[2,3]},{"id":2,"callFrame":{"functionName":"(program)","scriptId":"0","url":"",'
    '"lineNumber":-1,"columnNumber":-1},"hitCount":2},{"id":3,"callFrame":{"functionName":"g","scriptId":"1","url":'
    '"a.js","lineNumber":4,"columnNumber":0},"hitCount":1,"positionTicks":[{"line":5,"ticks":1}]}],"startTime":0,'
    '"endTime":40,"samples":[2,3,2],"timeDeltas":[10,10,10]}'
)
assert len(OVERLAP) == 490
SHORT = 500


class Stamped:
    """An item with its number among the events or the ticks, and the number of the others before it."""

    def __init__(self, items, at):
        self.value = items[at]
        self.is_tick = self.value[0] == "tick"
        before = [name == "tick" for name, _ in items[:at]]
        self.number = before.count(self.is_tick) + 1
        self.others = before.count(not self.is_tick)


class Stream:
    def __init__(self, chunk, failing, aborting):
        self.chunk, self.failing, self.aborting = chunk, failing, aborting
        self.parts, self.unfinished, self.calls, self.offers = [], "", 0, 0

    def deliver(self, text):
        for start in range(0, len(text), self.chunk):
            self.calls, self.offers = self.calls + 1, self.offers + 1
            if self.calls in self.failing:
                return "failed"
            self.unfinished += text[start : start + self.chunk]
            if self.calls in self.aborting:
                return "aborted"
        self.parts.append(self.unfinished)
        self.unfinished, self.offers = "", self.offers + 1
        return "fine"


class Case:
    """What the lines before a list say, and the list."""

    def __init__(self, lines, text):
        words = [line.split(" ", 1) for line in lines]
        named = dict(words)
        self.places, chunk = int(named.get("ring", 1024)), int(named.get("chunk", 65536))
        self.letters = named["ticks"]
        calls = lambda name: {int(call) for word, call in words if word == name}
        self.new_stream = lambda: Stream(chunk, calls("fail"), calls("abort"))
        self.base, items = read_items(text)
        self.items = [Stamped(items, at) for at in range(len(items))]
        self.files = files_of(self.base, items)

    def queue(self, item):
        return self.letters[(item.number - 1) % len(self.letters)] if item.is_tick else "events"


class Queues:
    """The three queues, and how many events and ticks were taken from them."""

    def __init__(self, case):
        self.case, self.waiting = case, {"events": [], "v": [], "r": []}
        self.applied = self.ticked = self.dropped = 0

    def put(self, item):
        queue = self.case.queue(item)
        if queue == "r" and len(self.waiting["r"]) == self.case.places:
            self.dropped += 1
        else:
            self.waiting[queue].append(item)

    def next(self):
        for queue in self.waiting.values():
            if queue:
                mine, others = (self.ticked, self.applied) if queue[0].is_tick else (self.applied, self.ticked)
                if (queue[0].number, queue[0].others) == (mine + 1, others):
                    self.ticked += queue[0].is_tick
                    self.applied += not queue[0].is_tick
                    return queue.pop(0)
        return None


class Processor:
    def __init__(self, case):
        self.case, self.queues, self.stream = case, Queues(case), case.new_stream()
        self.taken, self.ports, self.waiting = [], {}, None
        self.delivery, self.notes, self.given = "fine", [], []

    def end(self, session, text):
        if self.delivery == "fine":
            self.delivery = self.stream.deliver(text)
            if self.delivery == "fine":
                self.notes.append((session, len(text)))
        self.give(session, text)
        return f"finished {session}"

    def give(self, session, text):
        port = self.ports.pop(session)
        if port:
            self.given.append((port, session, text))

    def turn(self):
        if self.waiting is not None:
            return self.end(*self.waiting.pop(0)) if self.waiting else "over"
        item = self.queues.next()
        if not item:
            return "nothing"
        self.taken.append(item.value)
        name, values = item.value
        if name == "start":
            self.ports[values[0]] = values[1]
        elif name == "stop":
            return self.end(*self.files_with(self.taken)[-1])
        elif name == "finish":
            self.waiting = self.files_with(self.taken)[len(self.files_with(self.taken[:-1])) :]
            for session in sorted(self.ports) if values[1] == "none" else []:
                self.give(session, None)
        return "tick" if name == "tick" else "event"

    def files_with(self, items):
        return files_of(self.case.base, items)


def copies(text):
    """The lines of a list, where "*N LINE" stands for N copies of LINE, in which @ is the copy's number."""
    for line in text.split("\n"):
        count, copied = line[1:].split(" ", 1) if line.startswith("*") else (0, line)
        yield from (copied.replace("@", str(number)) for number in range(1, int(count) + 1))
        if not count:
            yield copied


def steps_of(case, words):
    if words in ("all", "each"):
        return in_order(range(len(case.items)), None, words == "each")
    return [int(word) - 1 if word.isdigit() else "turn" for word in words.split(" ")]


def in_order(order, first, is_each):
    steps = []
    for place, at in enumerate(order):
        if first is None:
            steps += [at, "turn"] if is_each else [at]
        else:
            steps += ["turn", at] if place == first or is_each and place > first else [at]
    return steps + ["turn"]


def taken(case, steps):
    queues, names = Queues(case), []
    for step in steps:
        if step == "turn":
            while item := queues.next():
                names.append(f" {'tick' if item.is_tick else 'event'} {item.number},")
            names.append(" nothing;")
        else:
            queues.put(case.items[step])
    return "takes" + "".join(names)


def run(case, steps):
    processor, answers = Processor(case), []
    for step in steps:
        if step == "turn":
            answers.append(processor.turn())
            while answers[-1] not in ("nothing", "over"):
                answers.append(processor.turn())
        else:
            processor.queues.put(case.items[step])
    return processor, answers


def orders_of(case, first):
    """The orders of what is left after the first items, each by its queues. They stand as numbers of
    base 3 do, whose first digit is the least."""
    left = case.items[first:]
    queues = [case.queue(item) for item in left]
    choices = set(itertools.permutations(["events", "v", "r"].index(queue) for queue in queues))
    for choice in sorted(choices, key=lambda choice: choice[::-1]):
        places = [[at + first for at, queue in enumerate(queues) if queue == name] for name in ("events", "v", "r")]
        yield list(range(first)) + [places[queue].pop(0) for queue in choice]


def printed(text):
    return f" {text}" if len(text) <= SHORT else ""


def shown(case, processor, answers):
    runs = [(answer, len(list(group))) for answer, group in itertools.groupby(answers)]
    yield "answers" + "".join(f" {a}," if count == 1 else f" {a} *{count}," for a, count in runs)
    queues, stream = processor.queues, processor.stream
    yield f"delivery {processor.delivery}, ticks taken {queues.ticked}, dropped {queues.dropped}"
    for session, length in processor.notes:
        yield f"note {session} {length}"
    for port, session, text in processor.given:
        same = "same" if (session, text) in case.files else "other"
        yield f"port {port} lost {session}" if text is None else f"port {port} file {session} {len(text)} {same}"
    for part, (_, text) in zip(stream.parts, case.files):
        yield f"part {len(part)} {'same' if part == text else 'other'}{printed(part)}"
    if stream.unfinished:
        yield f"unfinished {len(stream.unfinished)}{printed(stream.unfinished)}"
    yield f"offered {stream.offers}"


def takes(case, first):
    for order in orders_of(case, first):
        yield "arrive" + "".join(f" {at + 1}" for at in order[first:])
        for is_each in (False, True):
            yield taken(case, in_order(order, first, is_each))


def count(case, first):
    runs = [run(case, in_order(order, first, each)) for order in orders_of(case, first) for each in (False, True)]
    same = [is_same(case, processor) for processor, _ in runs]
    return f"runs {len(runs)}, same {same.count(True)}"


def is_same(case, processor):
    given = [(session, text) for _, session, text in processor.given if text is not None]
    return processor.stream.parts == [text for _, text in case.files] and set(given) <= set(case.files)


def answers_of(case, line):
    kind, words = line.split(" ", 1)
    if words.startswith("every "):
        first = int(words.removeprefix("every "))
        return takes(case, first) if kind == "take" else [count(case, first)]
    steps = steps_of(case, words)
    return [taken(case, steps)] if kind == "take" else shown(case, *run(case, steps))


with open("data/cases") as cases, open("stdout", "w") as out:
    for text in cases.read().split("\n% ")[1:]:
        title, rest = text.split("\n", 1)
        lines, items = rest.split("\nlist\n")
        case = Case(lines.split("\n"), "\n".join(copies(items)))
        print("%", title, file=out)
        for line in lines.split("\n"):
            if line.startswith(("take ", "turn ")):
                print(line, file=out)
                for answer in answers_of(case, line):
                    print(answer, file=out)
        if title.startswith("the overlap list"):
            assert case.files == [(1, OVERLAP)]
