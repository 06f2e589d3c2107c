#!/usr/bin/env python3
"""Times the program on inputs of growing size.

    bench/growth.py [TICKS]

makes three item lists, of TICKS, 4 * TICKS and 16 * TICKS ticks (62,500 by default), each tick with 30
frames over 300 functions, and folds them; three guest programs, of 256, 1,024 and 4,096
instructions, and runs them with a sample at each step; and three guest programs that loop for 600,000,
2,400,000 and 9,600,000 steps, which it runs without a sample, and with a sample at every tenth step on
stacks of 7 and of 100 frames. Each is done five times. It prints the processor
time of the fastest of the five, and what that is for each tick or step and for each byte of the input: these
stay the same where the cost grows with the size and no faster. The inputs are the same at every call, and
are made anew in a folder of their own.
"""

import os
import pathlib
import resource
import subprocess
import sys
import tempfile

FUNCTIONS = 300
SLOTS = 16
FRAMES = 30
DISTINCT_STACKS = 5000
INSTRUCTIONS = 256
LOOP_STEPS = 600_000
STEPS_OF_A_ROUND = 3
NO_SAMPLE = 1_000_000_000
RUNS = 5
SIZES = (1, 4, 16)
PROGRAM = pathlib.Path(__file__).resolve().parent.parent / "cpuprof"


class Draws:
    """A linear congruential generator, so that every run makes the same lists."""

    def __init__(self, seed):
        self.state = seed

    def below(self, limit):
        self.state = (6364136223846793005 * self.state + 1442695040888963407) % 2**64
        return (self.state >> 33) % limit


def code_lines():
    """The code objects: one for each function, with a line of its own for each slot."""
    for number in range(FUNCTIONS):
        line = 100 * number + 1
        yield f"create {4096 + 4 * SLOTS * number}"
        yield f'unit {number % 256} "f{number}" "bench://app" {number % 7} {line} 1 - - -'
        for index in range(SLOTS):
            yield f"slot 0 {index} {line + index}"


def stacks():
    """Stacks as addresses, youngest first. Callers repeat, as in real programs: a stack keeps some of
    the oldest frames of the one before it."""
    draws = Draws(1)
    stack = [address(draws) for _ in range(FRAMES)]
    for _ in range(DISTINCT_STACKS):
        changed = 1 + draws.below(FRAMES // 2)
        stack = [address(draws) for _ in range(changed)] + stack[changed:]
        yield " ".join(map(str, stack))


def address(draws):
    return 4096 + 4 * SLOTS * draws.below(FUNCTIONS) + 4 * (1 + draws.below(SLOTS - 1))


def write_list(path, ticks):
    texts = list(stacks())
    draws = Draws(2)
    with open(path, "w") as out:
        out.write("items 1 1000\n")
        for line in code_lines():
            out.write(line + "\n")
        out.write("start 1 0 1000 leaf all 0\n")
        for tick in range(1, ticks + 1):
            out.write(f"tick {1000 * tick} 1000 js hit all {texts[draws.below(len(texts))]}\n")
        out.write(f"stop 1 {1000 * (ticks + 1)}\n")


def write_program(path, instructions):
    with open(path, "w") as out:
        out.write('func main "main" "bench://app" 1 1 1\n')
        for at in range(1, instructions):
            out.write(f"{at + 1} set r{at % 8} {at}\n")
        out.write(f"{instructions + 1} halt\n")


def write_loop(path, steps, frames):
    """A loop of three steps a round, below as many calls as make a stack of this many frames."""
    with open(path, "w") as out:
        out.write('func main "main" "bench://app" 1 1 1\n')
        out.write(f"2 set r1 {steps // STEPS_OF_A_ROUND}\n3 set r2 1\n4 set r3 {frames - 2}\n5 call deep\n6 halt\n")
        out.write('func deep "deep" "bench://app" 1 10 1\n')
        out.write("11 jz r3 4\n12 sub r3 r2\n13 call deep\n14 ret\n")
        out.write("15 jz r1 7\n16 sub r1 r2\n17 jump 4\n18 ret\n")


def processor_seconds(folder, words):
    before = resource.getrusage(resource.RUSAGE_CHILDREN)
    subprocess.run([PROGRAM, *words], cwd=folder, check=True, stdout=subprocess.DEVNULL)
    after = resource.getrusage(resource.RUSAGE_CHILDREN)
    return (after.ru_utime - before.ru_utime) + (after.ru_stime - before.ru_stime)


def print_row(write, name, words, ticks):
    with tempfile.TemporaryDirectory() as folder:
        path = os.path.join(folder, name)
        write(path, ticks)
        size = os.path.getsize(path)
        seconds = min(processor_seconds(folder, words) for _ in range(RUNS))
    print(f"{ticks:>10} {size / 1e6:>8.2f} {seconds:>9.3f} {1e6 * seconds / ticks:>9.3f} {1e9 * seconds / size:>9.2f}", flush=True)


def print_table(title, write, name, words, smallest):
    print(title)
    print(f"{'ticks':>10} {'MB':>8} {'seconds':>9} {'us/tick':>9} {'ns/byte':>9}", flush=True)
    for size in SIZES:
        print_row(write, name, words, size * smallest)


def print_loops(title, frames, every):
    print(f"run of a loop, {title}")
    print(f"{'steps':>10} {'seconds':>9} {'ns/step':>9}", flush=True)
    for size in SIZES:
        steps = size * LOOP_STEPS
        with tempfile.TemporaryDirectory() as folder:
            write_loop(os.path.join(folder, "loop.guest"), steps, frames)
            seconds = min(processor_seconds(folder, ["run", "loop.guest", str(every)]) for _ in range(RUNS))
        print(f"{steps:>10} {seconds:>9.3f} {1e9 * seconds / steps:>9.1f}", flush=True)


def main():
    smallest = int(sys.argv[1]) if len(sys.argv) > 1 else 62_500
    print_table("fold", write_list, "list.items", ["fold", "list.items"], smallest)
    print_table("run", write_program, "long.guest", ["run", "long.guest", "1"], INSTRUCTIONS)
    print_loops("no sample", 7, NO_SAMPLE)
    print_loops("a sample at every tenth step, 7 frames", 7, 10)
    print_loops("a sample at every tenth step, 100 frames", 100, 10)


if __name__ == "__main__":
    main()
