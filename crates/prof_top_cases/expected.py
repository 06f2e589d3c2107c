#!/usr/bin/env python3
"""Works out what the program of this crate must print, from the rules alone: docs/FORMATS.md says
what a file and the printed text are. Item lists are in items.py, guest programs in programs.py. The three share
nothing with the product.

    ./expected.py <data/cases >stdout
"""
import json
import re
import sys

sys.dont_write_bytecode = True  # No folder is to appear beside the script.
from items import Refused, files_of, read_items
from programs import read_program, run_program

SHOWN, SHORT = 1000, 8
SCHEDULE = "cpuprof-1.schedule"  # the name of the file that has the text of a run's schedule
RANGES = [(1, 10**9), (1, 10**8), (2, 2**20)]  # of the numbers of `run`: the interval, the budget and the limit of entries
DEFAULTS = (10**7, 2**20)  # where there are no words for the last two


class Fault(Exception):
    """The status of a call that did not do its work, and the line of error."""


def case_of(block):
    title, _, rest = block.partition("\n")
    head, _, program = rest.partition("program\n")
    settings = head.split("\n")[:-1]
    case = {"title": title, "words": [], "name": "p", "chunk": "65536", "text": ""}
    for line in settings:
        key, _, value = line.partition(" ")
        if key == "word":
            case["words"].append(value)
        else:
            case[key] = value
    for line in program.split("\n")[:-1]:
        count, line = re.fullmatch(r"\*(\d+) (.*)", line).groups() if line[:1] == "*" else (None, line)
        if count is None:
            case["text"] += line + "\n"
        else:
            case["text"] += "".join(line.replace("@", str(n)) + "\n" for n in range(1, int(count) + 1))
    return case


def is_text(word):
    return len(word) <= 200 and all(" " <= letter <= "~" for letter in word)


def is_name(word):
    return is_text(word) and word != "" and word[0] != "-"


def command(words):
    """Returns the interval, the budget and the limit of entries of `run PROG EVERY [BUDGET [ENTRIES]]`, nothing for
    `fold ITEMS`, and None for other words."""
    if len(words) == 2 and words[0] == "fold" and is_name(words[1]):
        return ()
    numbers = words[2:]
    if not 3 <= len(words) <= 5 or words[0] != "run" or not is_name(words[1]):
        return None
    for number, (least, most) in zip(numbers, RANGES):
        if not re.fullmatch(r"[1-9][0-9]*", number) or not least <= int(number) <= most:
            return None
    return tuple(map(int, numbers)) + DEFAULTS[len(numbers) - 1 :]


def hash_of(text):
    value = 0xCBF29CE484222325
    for byte in text.encode():
        value = (value ^ byte) * 0x100000001B3 % 2**64
    return value


def delivered(case, files):
    """Returns what is printed of the parts, how many were delivered whole, and whether the delivery
    failed or aborted."""
    size, number, parts = int(case["chunk"]), 0, ""
    for whole, (_, text) in enumerate(files):
        taken, shown = "", ""
        for at in range(0, len(text), size):
            number += 1
            if number == int(case.get("chunk-fails", 0)):
                return parts + shown, whole, "failed"
            taken += text[at : at + size]
            if len(taken) <= SHOWN:
                shown = taken
            if number == int(case.get("chunk-aborts", 0)):
                return parts + shown, whole, "aborted"
        if len(taken) > SHOWN:
            shown += f".. {len(taken)} bytes, {hash_of(taken):016x}"
        parts += shown + "\n"
    return parts, len(files), "whole"


def half_if(fails, text):
    return text[: len(text) // 2] if fails else text


def due_of(cause, end):
    """The fault of a run that ended so, or None where the guest halted."""
    return {
        "halt": None,
        "overflow": Fault(7, f"guest trap overflow at step {end}"),
        "offend": Fault(7, f"guest trap offend at step {end}"),
        "budget": Fault(8, f"budget of {end} steps is spent"),
        "full": Fault(13, "schedule is full"),
    }[cause]


def run(name, text, every, budget, limit):
    """Returns the files of `run`, each with its session, what is printed before the lines of the files, the
    schedule as it is printed and as its text, and the fault that is due."""
    try:
        funcs = read_program(text)
    except Refused as at:
        raise Fault(2, f"program {name} {at}")
    file, guest, samples, cause, end = run_program(funcs, every, budget, limit)
    entries = [f"  0 0 start 0 {every}"] + [f"  {s} {s} sampled" for s in samples] + [f"  {end} {end} end {cause}"]
    schedule = [f"schedule {every} 256 {budget} {limit} entries {len(entries)}"]
    if len(entries) <= SHORT:
        schedule += entries
    printed = f"{guest}end {cause} {end}\nsampled {len(samples)} dropped 0\n"
    written = [f"schedule 1 {every} 256 {budget} {limit}", f"0 0 start 0 {every} leaf all"]
    written += [f"{s} {s} sampled" for s in samples] + [f"{end} {end} end {cause}"]
    return [(1, file)], printed, schedule, "".join(line + "\n" for line in written), due_of(cause, end)


def fold(text):
    """Returns the same of `fold`, which has no schedule and no text of one, and of which nothing is due."""
    try:
        base, items = read_items(text)
    except Refused as at:
        raise Fault(10, f"items {at}")
    ticks = sum(name == "tick" for name, _ in items)
    return files_of(base, items), f"items {len(items) - ticks} {ticks}\n", [], None, None


def work(case):
    """Returns what the command of the case does, as `run` says it."""
    numbers = command(case["words"])
    if numbers is None:
        raise Fault(1, "usage")
    name = case["words"][1]
    if case.get("read-fails") == "1":
        raise Fault(4, f"cannot read {name}")
    if name != case["name"]:
        raise Fault(3, f"no file {name}")
    return run(name, case["text"], *numbers) if numbers else fold(case["text"])


def put(case, depot, written):
    """Puts the text of a schedule into the depot, if there is one, and returns whether that failed."""
    if written is None:
        return False
    fails = case.get("put-fails") == "1"  # A call of another number is never made.
    left = case.get("put-leaves", "old") if fails else "new"
    if left == "new":
        depot[SCHEDULE] = written
    elif left == "nothing":
        depot.pop(SCHEDULE, None)
    return fails


def line_of_put(depot):
    """Returns what is printed of the file that the depot has under the schedule's name."""
    text = depot.get(SCHEDULE)
    if text is None:
        return "put nothing"
    return f"put {len(text)} bytes, {hash_of(text):016x}" if len(text) > SHOWN else f"put {json.dumps(text)}"


def answer(case):
    status, error, parts, printed, schedule = 0, "", "", "", []
    depot = {SCHEDULE: case["old"]} if "old" in case else {}
    depot[case["name"]] = case["text"]
    try:
        files, printed, schedule, written, due = work(case)
        parts, whole, how = delivered(case, files)
        put_fails = put(case, depot, written)
        printed += "".join(f"file {session} {len(text)}\n" for session, text in files[:whole])
        out_fails = case.get("out-fails") == "1"
        printed = half_if(out_fails, printed)
        if how == "aborted":
            raise Fault(14, "stream aborted")
        if how == "failed":
            raise Fault(5, "cannot write")
        if due:
            raise due
        if put_fails or out_fails:
            raise Fault(5, "cannot write")
    except Fault as fault:
        status, error = fault.args
        error = half_if(case.get("err-fails") == "1", f"cpuprof: {error}\n")
    head = [f"status {status}", f"chunks of {case['chunk']}", f"out {json.dumps(printed)}", f"err {json.dumps(error)}"]
    return f"% {case['title']}\n" + parts + "\n".join(head + [line_of_put(depot)] + schedule) + "\n"


def main():
    for block in sys.stdin.read().split("% ")[1:]:
        sys.stdout.write(answer(case_of(block)))


main()
