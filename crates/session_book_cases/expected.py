#!/usr/bin/env python3
"""Writes the file `stdout` of this crate: the files that the sessions of each list in data/cases get.

It follows docs/FORMATS.md ("Item lists", "The file") and docs/DEFINITIONS.md ("Of the file") alone, with
sets, dictionaries and sorting in place of trees and counters, and shares nothing with the product. Run it
in the crate's folder.
"""
import json
import re

SHOWN, SHORT = 1_000, 4_000
WORD = re.compile(r'"((?:[^"\\]|\\.)*)"|([^" ]+)')
SPECIAL = {"idle": "(idle)", "native": "(program)", "gc": "(garbage collector)"}


def special(name):
    return (name, "", 0, 0, 0)


def words_of(line):
    return [re.sub(r"\\(.)", r"\1", m[1]) if m[2] is None else m[2] for m in WORD.finditer(line)]


class Code:
    """A code object. A unit is its entry and the place and line that it was inlined at, a slot is its
    unit and line."""

    def __init__(self, start, units, slots):
        self.start, self.units, self.slots = start, units, slots

    def addresses(self):
        return range(self.start, self.start + 4 * len(self.slots))

    def overlaps(self, other):
        mine, others = self.addresses(), other.addresses()
        return max(mine.start, others.start) < min(mine.stop, others.stop)

    def frames(self, address):
        """The functions at an address with their lines, youngest first."""
        number, line = self.slots[(address - self.start) // 4]
        frames = []
        while number is not None:
            entry, parent, call_line = self.units[number]
            frames.append((entry, line))
            number, line = parent, call_line
        return frames


class Session:
    """A recording that runs."""

    def __init__(self, base, interval, mode, most, start):
        self.rounded = max(-(-interval // base), 1) * base
        self.mode, self.most, self.start = mode, most, start
        self.since = None  # the intervals after the last kept tick that had one
        self.kept = []  # time, hit and frames

    def take(self, time, interval, hit, frames):
        if interval == 0:
            self.kept.append((time, hit, frames))
        elif self.since is None or sum(self.since) + interval >= self.rounded:
            self.kept.append((time, hit, frames))
            self.since = []
        else:
            self.since.append(interval)

    def path(self, frames):
        """The steps: name, url, script, line, column, and the line of the call."""
        calls = [0] * len(frames)
        if self.mode == "caller":
            calls[1:] = [line for _, line in frames[:-1]]
        return tuple(entry + (call,) for (entry, _), call in zip(frames, calls))

    def file(self, end, reasons):
        """The file's text."""
        ticks = [(time, hit, self.path(frames), frames[-1][1]) for time, hit, frames in self.kept]
        paths = {()}
        for _, _, path, _ in ticks:
            paths.update(path[:length] for length in range(1, len(path) + 1))
        order = sorted(paths)
        ids = {path: number for number, path in enumerate(order, 1)}
        children = {path: [] for path in order}
        hits = {path: 0 for path in order}
        lines = {path: {} for path in order}
        for path in order[1:]:
            children[path[:-1]].append(ids[path])
        for _, hit, path, line in ticks:
            if hit:
                hits[path] += 1
                if line:
                    lines[path][line] = lines[path].get(line, 0) + 1
        nodes = []
        for path in order:
            entry = path[-1][:5] if path else special("(root)")
            name, url, script, line, column = entry
            frame = {"functionName": name, "scriptId": str(script), "url": url}
            frame |= {"lineNumber": line - 1, "columnNumber": column - 1}
            node = {"id": ids[path], "callFrame": frame, "hitCount": hits[path]}
            if children[path]:
                node["children"] = children[path]
            if lines[path]:
                node["positionTicks"] = [{"line": at, "ticks": lines[path][at]} for at in sorted(lines[path])]
            if reasons.get(entry):
                node["deoptReason"] = reasons[entry]
            nodes.append(node)
        listed = ticks[: self.most]
        times = [self.start] + [time for time, _, _, _ in listed]
        whole = {"nodes": nodes, "startTime": self.start, "endTime": end}
        whole["samples"] = [ids[path] for _, _, path, _ in listed]
        whole["timeDeltas"] = [later - earlier for earlier, later in zip(times, times[1:])]
        return json.dumps(whole, separators=(",", ":"))


class Isolate:
    """The code, the reasons and the sessions after the items so far."""

    def __init__(self, base):
        self.base, self.codes, self.reasons, self.sessions = base, {}, {}, {}
        self.files = []  # session and text

    def place(self, code):
        self.codes = {start: other for start, other in self.codes.items() if not other.overlaps(code)}
        self.codes[code.start] = code

    def frames_at(self, address):
        return next((code.frames(address) for code in self.codes.values() if address in code.addresses()), [])

    def frames(self, state, addresses):
        """The functions of a tick with their lines, oldest first."""
        if state != "js":
            return [(special(SPECIAL[state]), 0)]
        found = []
        for place, address in enumerate(addresses):
            found += self.frames_at(address if place == 0 else address - 1)
        return found[::-1] or [(special("(program)"), 0)]

    def end(self, session, time):
        self.files.append((session, self.sessions.pop(session).file(time, self.reasons)))

    def create(self, start):
        self.code = Code(int(start), [], [])

    def unit(self, _, name, url, script, line, column, parent, index, call_line):
        inlined = (None, None) if parent == "-" else (int(parent), int(call_line))
        self.code.units.append(((name, url, int(script), int(line), int(column)),) + inlined)

    def slot(self, unit, _, line):
        self.code.slots.append((int(unit), int(line)))

    def move(self, start, to):
        code = self.codes.pop(int(start), None)
        if code:
            self.place(Code(int(to), code.units, code.slots))

    def delete(self, start):
        self.codes.pop(int(start), None)

    def noopt(self, start, reason):
        if int(start) in self.codes:
            self.reasons[self.codes[int(start)].units[0][0]] = reason

    deopt = noopt

    def start(self, session, _, interval, mode, most, time):
        most = None if most == "all" else int(most)
        self.sessions[int(session)] = Session(self.base, int(interval), mode, most, int(time))

    def stop(self, session, time):
        self.end(int(session), int(time))

    def finish(self, time, files):
        for session in sorted(self.sessions) if files == "files" else []:
            self.end(session, int(time))

    def tick(self, time, interval, state, hit, only, *addresses):
        frames = self.frames(state, [int(address) for address in addresses])
        for number, session in self.sessions.items():
            if only in ("all", str(number)):
                session.take(int(time), int(interval), hit == "hit", frames)


def files_of(lines):
    head, *body = [words_of(line) for line in lines]
    isolate = Isolate(int(head[2]))
    isolate.code = None
    for name, *words in body:
        # A code object is whole, and is there, once the next item comes.
        if isolate.code and name not in ("unit", "slot"):
            isolate.place(isolate.code)
            isolate.code = None
        getattr(isolate, name)(*words)
    return isolate.files


def lines_of(case):
    for line in case.split("\n")[1:]:
        count, copied = re.fullmatch(r"\*(\d+) (.*)", line).groups() if line[0] == "*" else (1, line)
        head, star, tail = copied.partition(" *")
        if star:
            copies, word = tail.split(" ")
            copied = head + f" {word}" * int(copies)
        for number in range(1, int(count) + 1):
            yield copied.replace("@", str(number)) if line[0] == "*" else copied


def shown(text):
    """A long text as its beginning, its length and its FNV-1a hash."""
    if len(text) <= SHORT:
        return text
    value = 0xCBF29CE484222325
    for byte in text.encode():
        value = (value ^ byte) * 0x100000001B3 % 2**64
    return f"{text[:SHOWN]} .. {len(text)} bytes, {value:016x}"


with open("data/cases") as cases, open("stdout", "w") as out:
    for case in cases.read().removesuffix("\n").split("\n% ")[1:]:
        print("%", case.split("\n")[0], file=out)
        for session, text in files_of(list(lines_of(case))):
            print("file", session, shown(text), file=out)
            print("same", file=out)
