#!/usr/bin/env python3
"""Writes the file `stdout` of this crate: what the rules say of each text in data/refused and data/read.

The rules are written here a second time, with patterns and dictionaries. The titles in data/refused begin
with the line and the cause as they were worked out by hand, and have to agree. Run it in the crate's folder.
"""
import re

LAST = 2**32 - 1
QUOTED = re.compile(rb'"((?:[ !#-\[\]-~]|\\["\\])*)"(?= |\Z)')


class Refused(Exception):
    pass


class Line:
    """The words of a line that are left, and the canonical spelling of those that were read."""

    def __init__(self, text):
        self.rest = text
        self.spelled = []

    def word(self):
        word, _, rest = self.rest.lstrip(b" ").partition(b" ")
        if not re.fullmatch(rb"[!#-~]+", word):
            raise Refused("word")
        self.rest = rest
        self.spelled.append(word)
        return word

    def one_of(self, *words):
        word = self.word().decode()
        if word not in words:
            raise Refused("word")
        return word

    def number(self, least, most, *names):
        word = self.word()
        if word.decode() in names:
            return word.decode()
        if not re.fullmatch(rb"0|[1-9][0-9]*", word) or not least <= int(word) <= most:
            raise Refused("number")
        return int(word)

    def text(self):
        found = QUOTED.match(self.rest.lstrip(b" "))
        if not found or len(re.findall(rb"\\?.", found.group(1))) > 200:
            raise Refused("word")
        self.rest = self.rest.lstrip(b" ")[found.end():]
        self.spelled.append(found.group(0))

    def is_over(self):
        return not self.rest.strip(b" ")

    def end(self):
        if not self.is_over():
            raise Refused("word")


class Items:
    """What the lines so far say."""

    def __init__(self):
        self.count = 0
        self.code = None  # [start, units above each unit, number of slots]
        self.time = 0
        self.started = set()
        self.running = set()
        self.finished = False

    def code_is_short(self):
        return self.code is not None and (not self.code[1] or self.code[2] == 0)

    def require(self, holds, cause):
        if not holds:
            raise Refused(cause)

    def unit(self, line):
        is_first = self.code is not None and not self.code[1]
        line.number(0, 255)
        line.text()
        line.text()
        line.number(0, LAST)
        line.number(0, 1_000_000)
        line.number(0, 1_000_000)
        if is_first:
            for _ in range(3):
                line.one_of("-")
        else:
            parent = line.number(0, 4_095)
            line.number(0, 4_095)
            line.number(0, 1_000_000)
        line.end()
        self.require(not self.finished and self.code is not None and self.code[2] == 0, "order")
        above = self.code[1]
        self.require(len(above) < 4_096, "limit")
        if is_first:
            above.append(0)
        else:
            self.require(parent < len(above) and above[parent] < 4, "limit")
            above.append(above[parent] + 1)

    def slot(self, line):
        unit = line.number(0, 4_095)
        line.number(0, 4_095)
        line.number(0, 1_000_000)
        line.end()
        self.require(not self.finished and self.code is not None and self.code[1], "order")
        start, above, slots = self.code
        self.require(slots < 4_096 and unit < len(above) and start + 4 * (slots + 1) <= 2**32, "limit")
        self.code[2] += 1

    def item(self, time=None):
        """An item begins: it ends the code before it."""
        self.require(not self.finished and not self.code_is_short(), "order")
        self.require(time is None or time >= self.time, "order")
        self.code = None
        self.count += 1
        if time is not None:
            self.time = time

    def read(self, line):
        name = line.word().decode()
        if name == "unit":
            self.unit(line)
        elif name == "slot":
            self.slot(line)
        elif name == "create":
            start = line.number(0, LAST)
            line.end()
            self.item()
            self.code = [start, [], 0]
        elif name in ("move", "delete"):
            for _ in range(2 if name == "move" else 1):
                line.number(0, LAST)
            line.end()
            self.item()
        elif name in ("noopt", "deopt"):
            line.number(0, LAST)
            line.text()
            line.end()
            self.item()
        elif name == "start":
            session = line.number(1, LAST)
            line.number(0, 8)
            line.number(1, 10**9)
            line.one_of("leaf", "caller")
            line.number(0, LAST, "all")
            time = line.number(0, 2**53 - 1)
            line.end()
            self.item(time)
            self.require(session not in self.started and len(self.running) < 100, "session")
            self.started.add(session)
            self.running.add(session)
        elif name == "stop":
            session = line.number(1, LAST)
            time = line.number(0, 2**53 - 1)
            line.end()
            self.item(time)
            self.require(session in self.running, "session")
            self.running.remove(session)
        elif name == "finish":
            time = line.number(0, 2**53 - 1)
            line.one_of("files", "none")
            line.end()
            self.item(time)
            self.finished = True
        elif name == "tick":
            time = line.number(0, 2**53 - 1)
            line.number(0, 2 * 10**9)
            line.one_of("js", "idle", "native", "gc")
            line.one_of("hit", "nohit")
            line.number(1, LAST, "all")
            for _ in range(255):
                if not line.is_over():
                    line.number(0, LAST)
            line.end()
            self.item(time)
        else:
            raise Refused("word")


def answer(text):
    lines = text.split(b"\n")
    if not lines[-1]:
        lines.pop()
    items, has_head, canonical = Items(), False, b""
    number = 0
    try:
        for number, bytes_ in enumerate(lines, 1):
            if bytes_.lstrip(b" ")[:1] in (b"", b"#"):
                continue
            line = Line(bytes_)
            if has_head:
                items.read(line)
            else:
                line.one_of("items")
                line.one_of("1")
                line.number(1, 10**9)
                line.end()
                has_head = True
            canonical += b" ".join(line.spelled) + b"\n"
        number = len(lines) + 1
        items.require(has_head, "word")
        items.require(not items.code_is_short(), "order")
    except Refused as fault:
        return f"line {number} {fault}"
    if canonical == text:
        return f"items {items.count}, written again"
    return f"items {items.count}, written as\n{canonical.decode()}"


def text_of(case):
    text = b""
    for line in case.split(b"\n")[1:]:
        if line.startswith(b"*"):
            count, copied = line[1:].split(b" ", 1)
            text += (copied + b"\n") * int(count)
        elif line.startswith(b">"):
            text += line[1:]
        else:
            text += line + b"\n"
    return text


def answers(name):
    with open(name, "rb") as file:
        cases = file.read().removesuffix(b"\n").split(b"\n%")[1:]
    for case in cases:
        answered = answer(text_of(case))
        if name == "data/refused":
            title = case.split(b"\n")[0].decode()
            assert ("line" + title).startswith(answered + ", "), (title, answered)
        yield answered + "\n"


with open("stdout", "w") as out:
    for name in ("data/refused", "data/read"):
        out.writelines(answers(name))
