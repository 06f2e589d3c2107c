#!/usr/bin/env python3
"""Writes data/scripts and data/schedules, and the file `stdout` of this crate: what the rules say of each text.

Each case has the answer that was worked out by hand, up to its first comma; the readers below, which have the
rules once more over lists and sets of words, have to agree. Run it in the crate's folder.
"""
import re
import sys

sys.dont_write_bytecode = True

from cases import SCHEDULES, SCRIPTS

LAST = 2**32 - 1
PLAIN = re.compile(rb"[!#-~]+")
NUMBER = re.compile(rb"0|[1-9][0-9]{0,19}")


class Refused(Exception):
    """A fault, by its cause."""


# What may stand at a place of a line: functions of the plain word there, which give its value.


def number(least, most, *names):
    def read(word):
        if word in names:
            return word
        if not NUMBER.fullmatch(word) or not least <= int(word) <= most:
            raise Refused("number")
        return int(word)

    return read


def one_of(*names):
    def read(word):
        if word not in names:
            raise Refused("word")
        return word

    return read


STEP, TIME = number(0, 100_000_000), number(0, 2**53 - 1)
PORT, SESSION, INTERVAL = number(0, 8), number(1, LAST), number(1, 10**9)
MODE, MAX = one_of(b"leaf", b"caller"), number(0, LAST, b"all")
CAUSE = one_of(b"halt", b"overflow", b"offend", b"budget", b"full", b"memory")
HEAD = [one_of(b"schedule"), one_of(b"1"), INTERVAL, number(1, 1_024), number(1, 100_000_000), number(2, 1_048_576)]

SCRIPT_FORMS = {b"start": [INTERVAL, MODE, MAX], b"stop": [SESSION]}
SCHEDULE_FORMS = {
    b"sampled": [],
    b"dropped": [],
    b"start": [PORT, INTERVAL, MODE, MAX],
    b"stop": [PORT, SESSION],
    b"end": [CAUSE],
}


class Words:
    """The words of a line, taken from the left."""

    def __init__(self, line):
        self.left = [word for word in line.split(b" ") if word]

    def take(self, place):
        if not self.left or not PLAIN.fullmatch(self.left[0]):
            raise Refused("word")
        return place(self.left.pop(0))

    def take_all(self, places):
        values = [self.take(place) for place in places]
        if self.left:
            raise Refused("word")
        return values


def require(holds, cause):
    if not holds:
        raise Refused(cause)


class Sessions:
    """The ports of the sessions that run, by their numbers."""

    def __init__(self):
        self.started = 0
        self.running = {}

    def start(self, port):
        require(len(self.running) < 100, "session")
        self.started += 1
        self.running[self.started] = port

    def stop(self, session, port):
        require(self.running.get(session) == port, "session")
        del self.running[session]


class Script:
    def __init__(self):
        self.step = 0
        self.sessions = Sessions()

    def read(self, words):
        step = words.take(STEP)
        name = words.take(one_of(*SCRIPT_FORMS))
        values = words.take_all(SCRIPT_FORMS[name])
        require(step >= self.step, "order")
        self.step = step
        if name == b"start":
            self.sessions.start(0)
        else:
            self.sessions.stop(values[0], 0)

    def end(self):
        pass


class Schedule:
    def __init__(self):
        self.head = None
        self.count = 0  # of entries
        self.sampled = 0
        self.last = (0, 0)  # step and time
        self.names_here = set()  # names of the entries at the last step
        self.port_here = 0  # the greatest port of a command at the last step
        self.ended = False
        self.sessions = Sessions()

    def read(self, words):
        if self.head is None:
            self.head = words.take_all(HEAD)[2:]
            return
        step, time = words.take(STEP), words.take(TIME)
        name = words.take(one_of(*SCHEDULE_FORMS))
        values = words.take_all(SCHEDULE_FORMS[name])
        self.enter(step, time, name, values)

    def enter(self, step, time, name, values):
        if step != self.last[0]:
            self.names_here, self.port_here = set(), 0
        port = values[0] if name in (b"start", b"stop") else None
        is_sample = name in (b"sampled", b"dropped")
        require(step >= self.last[0] and time >= self.last[1] and not self.ended, "order")
        require(name == b"end" or not self.names_here & {b"sampled", b"dropped"}, "order")
        require(port is None or port >= self.port_here, "order")
        require(not is_sample or self.sessions.running, "session")
        if name == b"start":
            self.sessions.start(port)
        if name == b"stop":
            self.sessions.stop(values[1], port)
        for broken in self.limits(self.count + 1, step, name, values):
            require(not broken, "limit")
        self.count += 1
        self.sampled += name == b"sampled"
        self.ended = name == b"end"
        self.last = (step, time)
        self.names_here.add(name)
        self.port_here = self.port_here if port is None else port

    def limits(self, place, step, name, values):
        """Whether each of the limits is exceeded by the entry at this place, from 1."""
        _, ring, budget, entries = self.head
        is_end = name == b"end"
        is_full = is_end and values[0] == b"full"
        yield name == b"dropped" and self.sampled < ring
        yield place > entries
        yield not is_end and place == entries
        yield is_full and place != entries
        yield is_full and self.count > 0 and step != self.last[0]
        yield is_end and not is_full and place == entries
        yield not is_end and step >= budget
        yield is_end and values[0] == b"budget" and step != budget
        yield is_end and step > budget

    def end(self):
        require(self.head is not None, "word")
        require(self.ended, "order")


def answer(record, text):
    lines = text.split(b"\n")
    if not lines[-1]:
        lines.pop()
    read, number_ = [], 0
    try:
        for number_, line in enumerate(lines, 1):
            if line.lstrip(b" ")[:1] in (b"", b"#"):
                continue
            record.read(Words(line))
            read.append(b" ".join(word for word in line.split(b" ") if word) + b"\n")
        number_ = len(lines) + 1
        record.end()
    except Refused as fault:
        return f"line {number_} {fault}"
    count = len(read) - isinstance(record, Schedule)
    canonical = b"".join(read)
    if canonical == text:
        return f"read {count}, written again"
    return f"read {count}, written as\n{canonical.decode()}"


def text_of(lines):
    """The text that lines of a case mean."""
    text = ""
    for line in lines:
        if line.startswith("*"):
            count, copied = line[1:].split(" ", 1)
            copy = copied.replace("|", "\n") + "\n"
            text += "".join(copy.replace("@", str(k)) for k in range(1, int(count) + 1))
        elif line.startswith(">"):
            text += line[1:]
        else:
            text += line + "\n"
    return text.encode()


def edited(base, edits):
    """The lines of a base with edits: `N=LINE` replaces line N, `N+LINE` comes after it, and `N-` leaves it out.

    N is the line's number in the base, and 0 the place before its first line.
    """
    lines = [[line] for line in ["", *base]]
    lines[0] = []
    for edit in edits:
        place, sign, line = re.fullmatch(r"([0-9]+)([=+-])(.*)", edit, re.DOTALL).groups()
        if sign == "+":
            lines[int(place)].append(line)
        else:
            lines[int(place)] = [line] if sign == "=" else []
    return [line for group in lines for line in group]


def write_cases(name, record, cases, out):
    with open(f"data/{name}", "w") as data:
        data.write(f"Texts of {name}, after a line with a percent sign that says what is tried.\n")
        for base, title, wanted, *edits in cases:
            lines = edited(base, edits)
            answered = answer(record(), text_of(lines))
            assert re.split(",|\n", answered)[0] == wanted, (name, title, answered)
            data.writelines(line + "\n" for line in [f"% {title}", *lines])
            out.write(f"% {title}\n{answered}\n")


with open("stdout", "w") as out:
    write_cases("scripts", Script, SCRIPTS, out)
    write_cases("schedules", Schedule, SCHEDULES, out)
