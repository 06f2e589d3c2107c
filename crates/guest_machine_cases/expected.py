#!/usr/bin/env python3
"""Writes the file `stdout` of this crate: what docs/FORMATS.md and docs/DEFINITIONS.md say that the programs in data/cases do.

It shares nothing with the product. Run it in the crate's folder. The lines are those of a machine that has code objects at
addresses. A plain machine, which is written apart and has none, runs beside it, and both have to agree after each step.
"""
import functools
import re
import shlex

MODULUS, FIRST_ADDRESS, SLOT, MOST_FUNCTIONS = 2**64, 4096, 4, 255
MOST_SLOTS, MOST_ABOVE = 4096, 4
MOST_STEPS = 10_000_000


def lines_of(case):
    for line in case.split("\n")[1:]:
        copies = re.fullmatch(r"\*(\d+) (.*)", line)
        if copies:
            for number in range(1, int(copies[1]) + 1):
                yield from copies[2].replace("@", str(number)).split("|")
        else:
            yield line


class Program:
    """The functions by number: which are marked inline, and each body as tuples of an operation and its values."""

    def __init__(self, lines):
        rows = [shlex.split(line) for line in lines if not line.startswith("#")]
        labels = [row[1] for row in rows if row[0] == "func"]
        numbers = {label: number for number, label in enumerate(labels)}
        self.main = numbers["main"]
        self.inline, self.bodies = [], []
        for row in rows:
            if row[0] == "func":
                self.inline.append(row[-1] == "inline")
                self.bodies.append([])
            elif row[1] in ("call", "opt", "deopt", "noopt", "drop"):
                self.bodies[-1].append((row[1], numbers[row[2]], *row[3:]))
            else:
                self.bodies[-1].append((*row[1:],))

    def inlined(self, function, index):
        """The function marked inline that the instruction calls, if it does that."""
        op, *values = self.bodies[function][index]
        return values[0] if op == "call" and self.inline[values[0]] else None

    @functools.cache
    def size(self, function, depth):
        """The inlined size of a function, where calls are taken in to this depth."""
        indices = range(len(self.bodies[function]))
        callees = [self.inlined(function, index) for index in indices] if depth else []
        return len(indices) + sum(self.size(callee, depth - 1) for callee in callees if callee is not None)


class Ends(Exception):
    """The program ends at this step."""


class Code:
    """A code object of a function, with calls taken in to a depth. Plain code has none taken in."""

    def __init__(self, program, function, depth):
        self.functions, self.sites = [], []  # of each unit its function, and the unit and index where it was inlined
        self.slots, self.positions = [], []  # of each slot its unit and index, and the functions and indices it stands for
        self.places, self.children = {}, {}  # of each unit and index its slot, and the unit that was inlined there
        self.expand(program, function, None, depth)

    def expand(self, program, function, site, depth):
        unit = len(self.functions)
        self.functions.append(function)
        self.sites.append(site)
        above = self.positions[self.places[site]] if site else []
        for index in range(len(program.bodies[function])):
            at = unit, index
            self.places[at] = len(self.slots)
            self.slots.append(at)
            self.positions.append([*above, (function, index)])
            callee = program.inlined(function, index)
            if depth and callee is not None:
                self.children[at] = len(self.functions)
                self.expand(program, callee, at, depth - 1)

    def put(self, start):
        self.start, self.end = start, start + SLOT * len(self.slots)

    def words(self):
        functions = "function" if len(self.functions) == 1 else "functions"
        return f"slots {len(self.slots)} {functions} " + " ".join(map(str, self.functions))


class Frame:
    """A slot of a code object, and the registers of the slot's unit and of those above it, outermost first."""

    def __init__(self, code, slot, registers):
        self.code, self.slot, self.registers = code, slot, registers

    def at(self):
        return self.code.slots[self.slot]

    def go_to(self, unit, index):
        if (unit, index) not in self.code.places:
            raise Ends("off the end")
        self.slot = self.code.places[unit, index]

    def functions(self):
        """The functions that it stands for, outermost first, each with its index and registers."""
        positions = self.code.positions[self.slot]
        return [(*position, registers) for position, registers in zip(positions, self.registers, strict=True)]


class Machine:
    def __init__(self, program):
        self.program = program
        self.plain, self.optimised = {}, {}  # the code of each function that has such code
        self.disabled = set()
        self.state, self.rest = "js", 0
        self.said = []
        self.stack = [Frame(self.ensure(program.main), 0, [[0] * 8])]  # oldest first

    def objects(self):
        return sorted([*self.plain.values(), *self.optimised.values()], key=lambda code: code.start)

    def placed(self, code):
        code.put(FIRST_ADDRESS)
        for other in self.objects():
            if code.end <= other.start:
                break
            code.put(other.end)
        self.said.append(f"create {code.start} {code.words()}")
        return code

    def ensure(self, function):
        if function not in self.plain:
            self.plain[function] = self.placed(Code(self.program, function, 0))
        return self.plain[function]

    def frames(self):
        at = [frame.code.start + SLOT * frame.slot for frame in reversed(self.stack)]
        return [at[0]] + [call + SLOT for call in at[1:]]

    def functions(self):
        return [function for frame in self.stack for function in frame.functions()]

    def step(self):
        self.said = []
        if self.state != "js":
            self.rest -= 1
            if self.rest == 0:
                self.state = "js"
            return
        frame = self.stack[-1]
        unit, index = frame.at()
        op, *values = self.program.bodies[frame.code.functions[unit]][index]
        getattr(self, "do_" + op)(*values)

    def rise(self):
        self.do_jump(self.stack[-1].at()[1] + 1)

    def change(self, register, made):
        """Rises, and sets the register to what is made of the old registers."""
        self.rise()
        registers = self.stack[-1].registers[-1]
        number = lambda name: registers[int(name[1])]
        registers[int(register[1])] = made(number) % MODULUS

    def do_set(self, a, n):
        self.change(a, lambda of: int(n))

    def do_add(self, a, b):
        self.change(a, lambda of: of(a) + of(b))

    def do_sub(self, a, b):
        self.change(a, lambda of: of(a) - of(b))

    def do_mul(self, a, b):
        self.change(a, lambda of: of(a) * of(b))

    def do_lt(self, a, b):
        self.change(a, lambda of: of(a) < of(b))

    def do_jump(self, place):
        frame = self.stack[-1]
        unit, _ = frame.at()
        frame.go_to(unit, int(place))

    def do_jz(self, a, place):
        if self.stack[-1].registers[-1][int(a[1])] == 0:
            self.do_jump(place)
        else:
            self.rise()

    def do_call(self, function):
        if sum(len(frame.registers) for frame in self.stack) == MOST_FUNCTIONS:
            raise Ends("by overflow")
        frame = self.stack[-1]
        registers = list(frame.registers[-1])
        if frame.at() in frame.code.children:
            frame.go_to(frame.code.children[frame.at()], 0)
            frame.registers.append(registers)
        else:
            code = self.optimised.get(function) or self.ensure(function)
            self.stack.append(Frame(code, 0, [registers]))

    def do_ret(self):
        frame = caller = self.stack[-1]
        unit, _ = frame.at()
        site = frame.code.sites[unit]
        if site is None:
            if len(self.stack) == 1:
                raise Ends("by halt")
            caller = self.stack[-2]
            site = caller.at()
        unit, index = site
        caller.go_to(unit, index + 1)
        returned = frame.registers.pop()
        if not frame.registers:
            self.stack.pop()
        caller.registers[-1][0] = returned[0]

    def do_halt(self):
        raise Ends("by halt")

    def do_print(self, a):
        self.rise()
        self.said.append(f"print {self.stack[-1].registers[-1][int(a[1])]}")

    def wait(self, state, steps):
        self.rise()
        self.state, self.rest = state, int(steps)

    def do_idle(self, steps):
        self.wait("idle", steps)

    def do_native(self, steps):
        self.wait("native", steps)

    def do_collect(self, steps):
        self.wait("gc", steps)

    def disable(self, function, reason):
        self.said.append(f"noopt {self.ensure(function).start} {reason}")
        self.disabled.add(function)

    def do_opt(self, function):
        self.rise()
        if function in self.optimised or function in self.disabled:
            return
        if self.program.size(function, MOST_ABOVE) > MOST_SLOTS:
            self.disable(function, "too large")
        else:
            self.ensure(function)
            self.optimised[function] = self.placed(Code(self.program, function, MOST_ABOVE))

    def do_noopt(self, function, reason):
        self.rise()
        self.disable(function, reason)

    def do_deopt(self, function, reason):
        self.rise()
        if function not in self.optimised:
            return
        code = self.optimised[function]
        self.said.append(f"deopt {code.start} {reason}")
        stack, self.stack = self.stack, []
        for frame in stack:
            if frame.code is code:
                self.stack += [Frame(self.ensure(f), index, [registers]) for f, index, registers in frame.functions()]
            else:
                self.stack.append(frame)
        del self.optimised[function]
        self.said += [f"delete {code.start}", "tick"]

    def do_drop(self, function):
        self.rise()
        code = self.plain.get(function)
        if code and all(frame.code is not code for frame in self.stack):
            del self.plain[function]
            self.said.append(f"delete {code.start}")

    def do_gc(self):
        self.rise()
        free = FIRST_ADDRESS
        for code in self.objects():
            if code.start != free:
                self.said.append(f"move {code.start} {free}")
                code.put(free)
            free = code.end


class Plain:
    """The plain machine: functions, indices and registers alone."""

    def __init__(self, program):
        self.program = program
        self.stack = [(program.main, 0, [0] * 8)]  # oldest first
        self.state, self.rest, self.end = "js", 0, "not ended"
        self.optimised, self.disabled = set(), set()

    def step(self):
        """Does a step, and returns what is to be said of it besides its code."""
        if self.rest:
            self.rest -= 1
            self.state = self.state if self.rest else "js"
            return []
        *callers, (function, index, registers) = self.stack
        body = self.program.bodies[function]
        op, *values = body[index]
        if op == "halt" or (op == "ret" and not callers):
            self.end = "ended by halt"
            return []
        if op == "call":
            if len(self.stack) < MOST_FUNCTIONS:
                self.stack.append((values[0], 0, registers[:]))
            else:
                self.end = "ended by overflow"
            return []
        if op == "ret":
            returned = registers[0]
            *callers, (function, index, registers) = callers
            body, registers = self.program.bodies[function], [returned] + registers[1:]
        after = index + 1
        if op == "jump" or (op == "jz" and registers[int(values[0][1])] == 0):
            after = int(values[-1])
        if after == len(body):
            self.end = "ended off the end"
            return []
        self.stack = callers + [(function, after, registers)]
        return self.effect(op, values, registers)

    def effect(self, op, values, registers):
        """Does what an operation does besides going on."""
        of = lambda register: registers[int(register[1])]

        def put(register, number):
            registers[int(register[1])] = number & (MODULUS - 1)

        match op, *values:
            case "set", a, number:
                put(a, int(number))
            case "add", a, b:
                put(a, of(a) + of(b))
            case "sub", a, b:
                put(a, of(a) - of(b))
            case "mul", a, b:
                put(a, of(a) * of(b))
            case "lt", a, b:
                put(a, int(of(a) < of(b)))
            case "print", a:
                return [f"print {of(a)}"]
            case "idle" | "native" | "collect", steps:
                self.state, self.rest = "gc" if op == "collect" else op, int(steps)
            case "noopt", function, _:
                self.disabled.add(function)
            case "opt", function if function not in self.optimised | self.disabled:
                fits = self.program.size(function, MOST_ABOVE) <= MOST_SLOTS
                (self.optimised if fits else self.disabled).add(function)
            case "deopt", function, _ if function in self.optimised:
                self.optimised.remove(function)
                return ["tick"]
        return []


def asked(lines):
    frames, steps = set(), MOST_STEPS
    for line in lines:
        if line.startswith("# frames "):
            frames |= set(map(int, line.split()[2:]))
        if line.startswith("# steps "):
            steps = int(line.split()[2])
    return frames, steps


def check(machine, plain, end, said):
    """The physical machine stands for the plain one."""
    assert machine.functions() == plain.stack
    assert (machine.state, machine.rest, end) == (plain.state, plain.rest, plain.end)
    assert [line for line in machine.said if line.startswith(("print", "tick"))] == said
    assert machine.optimised.keys() == plain.optimised and machine.disabled == plain.disabled


def answer(case):
    lines = list(lines_of(case))
    shown, most = asked(lines)
    program = Program(lines)
    machine, plain = Machine(program), Plain(program)
    yield "% " + case.split("\n")[0]
    steps, state, end = 0, "js", "not ended"
    while True:
        yield from (f"{steps} {said}" for said in machine.said)
        if machine.state != state:
            state = machine.state
            yield f"{steps} state {state}"
        if steps in shown:
            frames = machine.frames()
            yield f"{steps} frames {len(frames)}: " + " ".join(map(str, frames))
        if steps == most or end != "not ended":
            break
        steps += 1
        try:
            machine.step()
        except Ends as how:
            end = f"ended {how}"
        check(machine, plain, end, plain.step())
    yield f"{steps} {state} {end}"


with open("data/cases") as cases, open("stdout", "w") as out:
    for case in cases.read().removesuffix("\n").split("\n% ")[1:]:
        out.write("".join(line + "\n" for line in answer(case)))
