"""Item lists, from the rules alone: docs/FORMATS.md says how the text of one is read, and docs/DEFINITIONS.md
which files come of it.
"""
import json
import re
from collections import Counter, defaultdict, namedtuple


class Refused(Exception):
    """The cause for which a line is at fault; of a text, the line and the cause."""


def require(holds, cause):
    if not holds:
        raise Refused(cause)


# A place in a line is for a text in quotes, or for one of some words or a number in a range.


def number(least, most, *words):
    return words, range(least, most + 1)


def one_of(*words):
    return words, range(0)


TEXT = "a text in quotes"
ADDRESS, LINE, INDEX = number(0, 2**32 - 1), number(0, 10**6), number(0, 4095)
SESSION, INTERVAL, TIME = number(1, 2**32 - 1), number(1, 10**9), number(0, 2**53 - 1)
STATE = one_of("js", "idle", "native", "gc")
UNIT = [number(0, 255), TEXT, TEXT, number(0, 2**32 - 1), LINE, LINE]
FORMS = {
    "items": [one_of("1"), INTERVAL],
    "create": [ADDRESS],
    "first unit": UNIT + 3 * [one_of("-")],
    "unit": UNIT + [INDEX, INDEX, LINE],
    "slot": [INDEX, INDEX, LINE],
    "move": [ADDRESS, ADDRESS],
    "noopt": [ADDRESS, TEXT],
    "deopt": [ADDRESS, TEXT],
    "delete": [ADDRESS],
    "start": [SESSION, number(0, 8), INTERVAL, one_of("leaf", "caller"), number(0, 2**32 - 1, "all"), TIME],
    "stop": [SESSION, TIME],
    "finish": [TIME, one_of("files", "none")],
    "tick": [TIME, number(0, 2 * 10**9), STATE, one_of("hit", "nohit"), number(1, 2**32 - 1, "all")],
}


def word_at(rest):
    """Returns the plain word that comes next, and the rest of the line."""
    word, rest = re.fullmatch(r" *([^ ]*)(.*)", rest, re.DOTALL).groups()
    require(re.fullmatch(r"[!#-~]+", word), "word")
    return word, rest


def text_at(rest):
    found = re.match(r' *"((?:[ !#-\[\]-~]|\\["\\])*)"(?= |\Z)', rest)
    require(found, "word")
    text = re.sub(r"\\(.)", r"\1", found[1])
    require(len(text) <= 200, "word")
    return text, rest[found.end() :]


def value_at(place, rest):
    """Returns what stands at a place, and the rest of the line."""
    if place is TEXT:
        return text_at(rest)
    words, numbers = place
    word, rest = word_at(rest)
    if word in words:
        return word, rest
    require(numbers, "word")
    # No number of more digits is in a range.
    require(re.fullmatch(r"0|[1-9][0-9]{0,19}", word) and int(word) in numbers, "number")
    return int(word), rest


def values_of(form, most, rest):
    """Returns what the words of a line say, where at most this many addresses follow its form."""
    values, addresses = [], []
    for place in form:
        value, rest = value_at(place, rest)
        values.append(value)
    while rest.strip(" ") and len(addresses) < most:
        address, rest = value_at(ADDRESS, rest)
        addresses.append(address)
    require(not rest.strip(" "), "word")
    return values + [addresses] if most else values


Unit = namedtuple("Unit", "entry parent line")  # the line is that of the call in the parent
Code = namedtuple("Code", "start units slots")


class Reading:
    """What the lines so far say: the base, and the items, each as its name and its values."""

    def __init__(self):
        self.base, self.items = None, []
        self.code = None  # the code object that units and slots may still be added to
        self.time, self.finished = 0, False
        self.started, self.running = set(), set()

    def take(self, line):
        name, rest = word_at(line)
        if self.base is None:
            require(name == "items", "word")
            self.base = values_of(FORMS[name], 0, rest)[1]
            return
        require(name in FORMS and name != "items", "word")
        is_first = name == "unit" and self.code is not None and not self.code.units
        form = FORMS["first unit" if is_first else name]
        values = values_of(form, 255 if name == "tick" else 0, rest)
        if name == "unit":
            self.take_unit(values)
        elif name == "slot":
            self.take_slot(*values)
        else:
            self.take_item(name, values, [value for place, value in zip(form, values) if place is TIME])

    def take_unit(self, values):
        _, name, url, script, line, column, parent, _, call_line = values
        require(self.code is not None and not self.code.slots, "order")
        units = self.code.units
        require(len(units) < 4096, "limit")
        if parent == "-":
            parent, call_line = None, 0
        above, next_above = 0, parent
        while next_above is not None:
            require(next_above < len(units) and above < 4, "limit")
            above, next_above = above + 1, units[next_above].parent
        units.append(Unit((name, url, script, line, column), parent, call_line))

    def take_slot(self, unit, _, line):
        require(self.code is not None and self.code.units, "order")
        start, units, slots = self.code
        require(len(slots) < 4096 and unit < len(units) and start + 4 * (len(slots) + 1) <= 2**32, "limit")
        slots.append((unit, line))

    def end_code(self):
        require(self.code is None or (self.code.units and self.code.slots), "order")
        self.code = None

    def take_item(self, name, values, times):
        require(not self.finished, "order")
        self.end_code()
        for time in times:
            require(time >= self.time, "order")
            self.time = time
        if name == "create":
            self.code = Code(values[0], [], [])
            values = [self.code]
        elif name == "start":
            require(values[0] not in self.started and len(self.running) < 100, "session")
            self.started.add(values[0])
            self.running.add(values[0])
        elif name == "stop":
            require(values[0] in self.running, "session")
            self.running.remove(values[0])
        self.finished = name == "finish"
        self.items.append((name, values))


def read_items(text):
    """Returns the base and the items of a text."""
    lines = text.split("\n")
    if not lines[-1]:
        lines.pop()
    reading, at = Reading(), 0
    try:
        for at, line in enumerate(lines, 1):
            if line.strip(" ") and not line.lstrip(" ").startswith("#"):
                reading.take(line)
        at = len(lines) + 1
        require(reading.base is not None, "word")
        reading.end_code()
    except Refused as cause:
        raise Refused(f"line {at}: {cause}")
    return reading.base, reading.items


# Frames are pairs of an entry and a line, and an entry is a name, url, script, line and column.

Tick = namedtuple("Tick", "time interval is_hit frames")
Session = namedtuple("Session", "interval mode most start ticks")


def special(name):
    return name, "", 0, 0, 0


def with_code(codes, new):
    """The code objects without those that share an address with a new one, and the new one."""
    end = new.start + 4 * len(new.slots)
    return [c for c in codes if c.start + 4 * len(c.slots) <= new.start or end <= c.start] + [new]


def frames_at(codes, address):
    """The frames at an address, the youngest first."""
    frames = []
    for code in codes:
        if code.start <= address < code.start + 4 * len(code.slots):
            unit, line = code.slots[(address - code.start) // 4]
            while unit is not None:
                frames.append((code.units[unit].entry, line))
                _, unit, line = code.units[unit]
    return frames


def frames_of(codes, state, addresses):
    """The frames of a tick, the oldest first."""
    if state in ("idle", "gc"):
        return [(special({"idle": "(idle)", "gc": "(garbage collector)"}[state]), 0)]
    frames = []
    for place, address in enumerate(addresses if state == "js" else []):
        frames += frames_at(codes, address if place == 0 else address - 1)
    return frames[::-1] or [(special("(program)"), 0)]


def kept(rounded, ticks):
    """The ticks that a session keeps, where its rounded interval is this one."""
    since = None  # the time since the last tick that was kept with an interval above 0
    for tick in ticks:
        if tick.interval == 0:
            yield tick
        elif since is None or since + tick.interval >= rounded:
            since = 0
            yield tick
        else:
            since += tick.interval


def path_of(mode, frames):
    call_lines = [0] + [line for _, line in frames] if mode == "caller" else [0] * len(frames)
    return tuple(entry + (call_line,) for (entry, _), call_line in zip(frames, call_lines))


def call_frame(name, url, script, line, column):
    return {
        "functionName": name,
        "scriptId": str(script),
        "url": url,
        "lineNumber": line - 1,
        "columnNumber": column - 1,
    }


def node_of(id_, entry, children, lines, reason):
    """A node of a file, where the hits at each line are these."""
    node = {"id": id_, "callFrame": call_frame(*entry), "hitCount": sum(lines.values())}
    if children:
        node["children"] = children
    if lines.keys() - {0}:
        node["positionTicks"] = [{"line": line, "ticks": lines[line]} for line in sorted(lines) if line > 0]
    if reason:
        node["deoptReason"] = reason
    return node


def file_of(base, session, end, reasons):
    """The file of a session that ends at this time, where the entries have these reasons."""
    ticks = list(kept(-(-session.interval // base) * base, session.ticks))
    paths = [path_of(session.mode, tick.frames) for tick in ticks]
    nodes = sorted({path[:length] for path in {(), *paths} for length in range(len(path) + 1)})
    ids = {node: id_ for id_, node in enumerate(nodes, 1)}
    children, lines = defaultdict(list), defaultdict(Counter)
    for node in nodes[1:]:
        children[node[:-1]].append(ids[node])
    for path, tick in zip(paths, ticks):
        if tick.is_hit:
            lines[path][tick.frames[-1][1]] += 1
    entries = {node: node[-1][:5] if node else special("(root)") for node in nodes}
    most = None if session.most == "all" else session.most
    times = [session.start] + [tick.time for tick in ticks][:most]
    profile = {
        "nodes": [node_of(ids[n], entries[n], children[n], lines[n], reasons.get(entries[n])) for n in nodes],
        "startTime": session.start,
        "endTime": end,
        "samples": [ids[path] for path in paths][:most],
        "timeDeltas": [later - earlier for earlier, later in zip(times, times[1:])],
    }
    return json.dumps(profile, separators=(",", ":"))


def files_of(base, items):
    """The files of items, each with its session, in the order in which the sessions end."""
    codes, reasons, running, files = [], {}, {}, []
    for name, values in items:
        ended = []
        if name == "create":
            codes = with_code(codes, values[0])
        elif name in ("move", "delete", "noopt", "deopt"):
            there = [code for code in codes if code.start == values[0]]
            others = [code for code in codes if code.start != values[0]]
            if name == "delete":
                codes = others
            elif there and name == "move":
                codes = with_code(others, there[0]._replace(start=values[1]))
            elif there:
                reasons[there[0].units[0].entry] = values[1]
        elif name == "start":
            session, _, interval, mode, most, time = values
            running[session] = Session(interval, mode, most, time, [])
        elif name == "stop":
            ended, time = [values[0]], values[1]
        elif name == "finish":
            time, ended = values[0], sorted(running) if values[1] == "files" else []
        else:
            time, interval, state, hit, only, addresses = values
            tick = Tick(time, interval, hit == "hit", frames_of(codes, state, addresses))
            for session in running if only == "all" else {only} & running.keys():
                running[session].ticks.append(tick)
        files += [(session, file_of(base, running.pop(session), time, reasons)) for session in ended]
    return files
