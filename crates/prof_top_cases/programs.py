"""Guest programs, from the rules alone: docs/FORMATS.md says how the text of one is read and how it runs, and
docs/DEFINITIONS.md what a run by the step clock sees of it.
"""
import re
from collections import namedtuple

from items import TEXT, Refused, Session, Tick, file_of, frames_of, number, one_of, require, text_at, value_at, word_at

FRAMES, MODULUS = 255, 2**64
SLOTS, DEPTH = 4096, 4  # the most instructions of optimised code, and how many calls deep inline functions go into it

# A place in a line is also for a label of some function, or for a place in the body.
LABEL, PLACE = "a label", "a place"
REGISTER, SOURCE, STEPS = one_of(*(f"r{name}" for name in range(8))), number(1, 10**6), number(1, 10**6)
ENTRY = [TEXT, TEXT, number(0, 2**32 - 1), SOURCE, SOURCE]
OPS = {
    "set": [REGISTER, number(0, MODULUS - 1)],
    "jump": [PLACE],
    "jz": [REGISTER, PLACE],
    "print": [REGISTER],
    **{name: [REGISTER, REGISTER] for name in ("add", "sub", "mul", "lt")},
    **{name: [LABEL] for name in ("call", "opt", "drop")},
    **{name: [LABEL, TEXT] for name in ("deopt", "noopt")},
    **{name: [STEPS] for name in ("idle", "native", "collect")},
    **{name: [] for name in ("ret", "halt", "gc")},
}
WAITS = {"idle": "idle", "native": "native", "collect": "gc"}

Func = namedtuple("Func", "label entry is_inline body")  # an instruction is a line, the name of an operation, and its values


def words_of_func(line):
    """The words of a `func` line, at least its first two; None of another line."""
    words = [word for word in line.split(" ") if word]
    return words + [""] if words[0] == "func" else None


def label_at(rest):
    label, rest = word_at(rest)
    require(re.fullmatch(r"[a-z][a-z0-9_]{0,31}", label), "word")
    return label, rest


class Reading:
    """The functions that the lines so far say, and what all lines together say."""

    def __init__(self, lines):
        self.funcs = []
        heads = [at for at, line in lines if words_of_func(line)]
        self.labels = {words_of_func(line)[1] for at, line in lines if at in heads}
        self.lengths = {at: 0 for at in heads}
        self.length = None  # of the body in hand
        head = None
        for at, line in lines:
            head = at if at in self.lengths else head
            if head not in (None, at):
                self.lengths[head] += 1

    def value(self, place, rest):
        if place is LABEL:
            label, rest = label_at(rest)
            require(label in self.labels, "unknown")
            return label, rest
        if place is PLACE:
            index, rest = value_at(number(0, 4095), rest)
            require(self.length is None or index < self.length, "limit")
            return index, rest
        return text_at(rest) if place is TEXT else value_at(place, rest)

    def values(self, form, rest):
        values = []
        for place in form:
            value, rest = self.value(place, rest)
            values.append(value)
        return values, rest

    def take_func(self, at, rest):
        self.length = self.lengths[at]
        label, rest = label_at(rest)
        values, rest = self.values(ENTRY, rest)
        is_inline = bool(rest.strip(" "))
        if is_inline:
            _, rest = value_at(one_of("inline"), rest)
        require(not rest.strip(" "), "word")
        entry = tuple(values)
        require(all(label != func.label and entry != func.entry for func in self.funcs), "twice")
        require(len(self.funcs) < 256 and self.length > 0, "limit")
        self.funcs.append(Func(label, entry, is_inline, []))

    def take_instruction(self, rest):
        line, rest = value_at(SOURCE, rest)
        name, rest = word_at(rest)
        require(name in OPS, "word")
        values, rest = self.values(OPS[name], rest)
        require(not rest.strip(" "), "word")
        require(self.funcs, "word")
        require(len(self.funcs[-1].body) < 4096, "limit")
        self.funcs[-1].body.append((line, name, values))


def read_program(text):
    """The functions of a text."""
    lines = text.split("\n")
    if not lines[-1]:
        lines.pop()
    kept = [(at, line) for at, line in enumerate(lines, 1) if line.strip(" ") and line.lstrip(" ")[0] != "#"]
    reading, at = Reading(kept), 0
    try:
        for at, line in kept:
            if at in reading.lengths:
                reading.take_func(at, word_at(line)[1])
            else:
                reading.take_instruction(line)
        at = len(lines) + 1
        require("main" in reading.labels, "nomain")
    except Refused as cause:
        raise Refused(f"line {at}: {cause}")
    return reading.funcs


class Frame:
    def __init__(self, func, registers):
        self.func, self.body, self.index, self.registers = func, func.body, 0, registers


class Machine:
    """A program under way. Of optimised code it knows which functions have some, and which may have none."""

    def __init__(self, funcs):
        self.funcs = {func.label: func for func in funcs}
        self.optimised, self.disabled, self.reasons, self.gave_up = set(), set(), {}, False
        self.stack = [Frame(self.funcs["main"], [0] * 8)]  # the youngest is the last
        self.state, self.rest = "js", 0
        self.printed, self.end = "", None

    def frames(self):
        """What is seen: pairs of an entry and a line, the oldest first."""
        if self.state != "js":
            return frames_of([], self.state, [])
        return [(frame.func.entry, frame.body[frame.index][0]) for frame in self.stack]

    def size(self, func, depth=0):
        """How many instructions its optimised code has."""
        called = [self.funcs[values[0]] for _, name, values in func.body if name == "call" and depth < DEPTH]
        return len(func.body) + sum(self.size(callee, depth + 1) for callee in called if callee.is_inline)

    def change(self, name, label, reason):
        """Does an operation on a function's optimised code."""
        func = self.funcs[label]
        if name == "opt" and label not in self.optimised | self.disabled:
            if self.size(func) <= SLOTS:
                self.optimised.add(label)
            else:
                self.change("noopt", label, "too large")
        elif name == "deopt" and label in self.optimised:
            self.optimised.remove(label)
            self.reasons[func.entry] = reason
            self.gave_up = True
        elif name == "noopt":
            self.disabled.add(label)
            self.reasons[func.entry] = reason

    def step(self):
        self.gave_up = False
        if self.state != "js":
            self.rest -= 1
            self.state = self.state if self.rest else "js"
            return
        frame = self.stack[-1]
        _, name, values = frame.body[frame.index]
        if name == "jump" or name == "jz" and frame.registers[int(values[0][1])] == 0:
            frame.index = values[-1]
        elif name == "call" and len(self.stack) < FRAMES:
            self.stack.append(Frame(self.funcs[values[0]], list(frame.registers)))
        elif name == "call":
            self.end = "overflow"
        elif name == "halt" or name == "ret" and len(self.stack) == 1:
            self.end = "halt"
        else:
            self.go_on(name, values)

    def go_on(self, name, values):
        """Does an operation after which a frame goes on at its next instruction, if it has one."""
        goes_on = self.stack[-2] if name == "ret" else self.stack[-1]
        if goes_on.index + 1 == len(goes_on.body):
            self.end = "offend"
            return
        goes_on.index += 1
        if name == "ret":
            goes_on.registers[0] = self.stack.pop().registers[0]
        elif name == "print":
            self.printed += f"{goes_on.registers[int(values[0][1])]}\n"
        elif name in WAITS:
            self.state, self.rest = WAITS[name], values[0]
        elif name in ("set", "add", "sub", "mul", "lt"):
            self.compute(name, goes_on.registers, int(values[0][1]), values[1])
        elif name in ("opt", "deopt", "noopt"):
            self.change(name, values[0], values[-1])

    def compute(self, name, registers, to, value):
        one, other = registers[to], value if name == "set" else registers[int(value[1])]
        results = {"set": other, "add": one + other, "sub": one - other, "mul": one * other, "lt": int(one < other)}
        registers[to] = results[name] % MODULUS


Run = namedtuple("Run", "file printed samples cause end")


def run_program(funcs, every, budget, limit):
    """What comes of a run of so many steps and entries at most: the file, the guest's text, the steps of the samples,
    and the cause and step of the end."""
    machine, step, samples, cause = Machine(funcs), 0, [], None
    ticks = [Tick(0, 0, False, machine.frames())]
    while not cause:
        if step > 0 and step % every == 0:
            samples.append(step)
            ticks.append(Tick(step, every, True, machine.frames()))
        if len(samples) + 2 == limit:  # with the start and the end
            cause = "full"
            break
        machine.step()
        step += 1
        if machine.gave_up:
            ticks.append(Tick(samples[-1] if samples else 0, 0, False, machine.frames()))
        cause = machine.end or ("budget" if step == budget else None)
    file = file_of(every, Session(every, "leaf", "all", 0, ticks), step, machine.reasons)
    return Run(file, machine.printed, samples, cause, step)
