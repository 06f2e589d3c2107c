#!/usr/bin/env python3
"""Writes the file `stdout` of this crate: the layouts of the programs in data/cases, by what docs/FORMATS.md
and docs/DEFINITIONS.md say of them. It shares nothing with the product. Run it in the crate's folder.
"""
import re
import shlex

DEEPEST, LARGEST, SHOWN = 4, 4096, 16


def lines_of(case):
    for line in case.split("\n")[1:]:
        copies = re.fullmatch(r"\*(\d+) (.*)", line)
        if copies:
            for number in range(1, int(copies[1]) + 1):
                yield from copies[2].replace("@", str(number)).split("|")
        else:
            yield line


def functions_of(case):
    """Returns each function's label, whether it is inline, and its body as (line, the label that it calls)."""
    functions = []
    for line in lines_of(case):
        words = shlex.split(line)
        if words[0] == "func":
            functions.append((words[1], words[-1] == "inline", []))
        else:
            functions[-1][2].append((int(words[0]), words[2] if words[1] == "call" else None))
    return functions


def layout_of(functions, number, deepest):
    """Returns the units as (function, place of the call) and the slots, by expanding unit 0, this function."""
    by_label = {label: at for at, (label, _, _) in enumerate(functions)}
    units, slots = [(number, None)], []

    def expand(unit, above):
        for index, (line, callee) in enumerate(functions[units[unit][0]][2]):
            slots.append((unit, index, line))
            if callee is not None and functions[by_label[callee]][1] and above < deepest:
                units.append((by_label[callee], (unit, index, line)))
                expand(len(units) - 1, above + 1)

    expand(0, 0)
    return units, slots


def size_of(functions):
    """Returns the inlined size of each function, from the shallowest expansion to the deepest."""
    by_label = {label: at for at, (label, _, _) in enumerate(functions)}
    sizes = [len(body) for _, _, body in functions]
    for _ in range(DEEPEST):
        inlined = lambda callee: sizes[by_label[callee]] if callee and functions[by_label[callee]][1] else 0
        sizes = [len(body) + sum(inlined(callee) for _, callee in body) for _, _, body in functions]
    return sizes


def shown(name, units, slots):
    yield f"  {name} units {len(units)} slots {len(slots)} found {len(slots)}"
    if len(slots) <= SHOWN:
        place = lambda at: "" if at is None else f"<{at[0]}.{at[1]}@{at[2]}"
        yield "    units" + "".join(f" {function}{place(at)}" for function, at in units)
        yield "    slots" + "".join(f" {unit}.{index}@{line}" for unit, index, line in slots)


def answer(case):
    functions = functions_of(case)
    sizes = size_of(functions)
    yield "% " + case.split("\n")[0]
    for number in range(len(functions)):
        yield f"function {number}"
        yield from shown("plain", *layout_of(functions, number, 0))
        if sizes[number] > LARGEST:
            yield f"  inlined too large {sizes[number]}"
        else:
            yield from shown("inlined", *layout_of(functions, number, DEEPEST))


with open("data/cases") as cases, open("stdout", "w") as out:
    for case in cases.read().removesuffix("\n").split("\n% ")[1:]:
        out.write("".join(line + "\n" for line in answer(case)))
