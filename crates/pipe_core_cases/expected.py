"""Prints what the program has to print for the cases of data/cases, from the rules alone.

A ring is a list with a greatest length. A world is what was raised, how much of it was taken, and the
three places where the rest waits. Interleavings are counted state by state, and not one by one.
"""

from functools import lru_cache
from pathlib import Path


def ring_lines(places, lines):
    held, waiting = False, []
    for line in lines:
        word, *numbers = line.split()
        if word == "offer":
            back, went_in = [], 0
            for number in range(int(numbers[0]), int(numbers[1]) + 1):
                if len(waiting) == places:
                    back.append(number)
                else:
                    waiting.append(number)
                    went_in += 1
            yield "".join([f"in {went_in}, back"] + [f" {number}" for number in back])
        elif word == "front":
            held = bool(waiting)
            yield f"front 0:{waiting[0]}" if held else "front is empty"
        elif word == "held":
            yield f"held {waiting[0]}" if held else "none held"
        elif word == "remove":
            yield f"removed {waiting.pop(0)}" if held else "none removed"
            held = False
        else:
            yield f"drained {len(waiting)}, the last {waiting[-1] if waiting else 0}"
            held, waiting = False, []


class World:
    def __init__(self, places):
        self.places, self.raised, self.taken = places, [], []
        self.queues = {"event": [], "engine": [], "ring": []}
        self.slots, self.front = 0, "idle"  # slots: how many are marked full
        self.offer, self.removed = "idle", 0

    def raise_item(self, queue):
        events = sum(kind == "event" for kind, _, _ in self.raised)
        ticks = len(self.raised) - events
        if queue == "event":
            item = ("event", events + 1, ticks)
        else:
            item = ("tick", events, ticks + 1)
        self.raised.append(item)
        self.queues[queue].append(item)

    def take(self, queue):
        if self.queues[queue] and self.queues[queue][0] == self.raised[len(self.taken)]:
            self.taken.append(self.queues[queue].pop(0))
            return "done"
        return "not next"

    def step(self, line):
        if line in ("raise event", "push engine tick", "slot look"):
            if self.offer != "idle":
                return "not next"
            if line == "slot look":
                if self.slots == self.places:
                    return "full"
                self.offer = "looked"
            else:
                self.raise_item("event" if line == "raise event" else "engine")
            return "done"
        if line == "slot write":
            if self.offer != "looked":
                return "not next"
            self.offer = "written"
            return "done"
        if line == "slot mark full":
            if self.offer != "written":
                return "not next"
            self.offer, self.slots = "idle", self.slots + 1
            self.raise_item("ring")
            return "done"
        if line == "front look":
            if self.front != "idle":
                return "not next"
            if self.slots == 0:
                return "empty"
            self.front = "looked"
            return "done"
        if line == "front take":
            if self.front != "looked":
                return "not next"
            self.front = "held"
            return "done"
        if line == "slot mark empty":
            if self.front != "held" or self.take("ring") != "done":
                return "not next"
            self.front, self.slots, self.removed = "idle", self.slots - 1, self.removed + 1
            return "done"
        if self.front == "looked":
            return "not next"
        return self.take("event" if line == "take event" else "engine")


def world_lines(places, lines):
    world = World(places)
    for line in lines:
        yield f"{line}: {world.step(line)}"
    sent = world.removed + world.slots
    events = sum(kind == "event" for kind, _, _ in world.taken)
    yield (
        f"sent {sent}, removed {world.removed}, "
        f"events taken {events}, ticks taken {len(world.taken) - events}"
    )
    for word, items in (("raised", world.raised), ("taken", world.taken)):
        yield " ".join([word] + [f"{kind} {event}:{tick}" for kind, event, tick in items])


def ends(places, words):
    """The ends of all interleavings, and those with a drop. All that was raised is taken at each."""
    steps = []
    for word in words:
        steps += ["look", "write", "ring"] if word == "ring" else [word]

    @lru_cache(None)
    def after(at, raised, taken, full, front):
        following = []
        if at < len(steps):
            word = steps[at]
            if word == "look" and full == places:
                following.append((at + 3, raised, taken, full, front))
            elif word in ("look", "write"):
                following.append((at + 1, raised, taken, full, front))
            else:
                more = full + (word == "ring")
                following.append((at + 1, raised + (word,), taken, more, front))
        first = raised[taken] if taken < len(raised) else None
        if front != "looked" and first in ("event", "engine"):
            following.append((at, raised, taken + 1, full, front))
        if front == "idle" and full:
            following.append((at, raised, taken, full, "looked"))
        if front == "looked":
            following.append((at, raised, taken, full, "held"))
        if front == "held" and first == "ring":
            following.append((at, raised, taken + 1, full - 1, "idle"))
        if not following:
            assert taken == len(raised)
            return 1, int(len(raised) < len(words))
        counts = [after(*state) for state in following]
        return sum(count for count, _ in counts), sum(drops for _, drops in counts)

    return after(0, (), 0, 0, "idle")


def answers(kind, places, words, lines):
    if kind == "ring":
        return ring_lines(places, lines)
    if kind == "queue":
        return [f"taken in order {places + 1}, something left false"]
    if kind == "world":
        return world_lines(places, lines)
    count, dropped = ends(places, words)
    return [f"ends {count}, with a drop {dropped}, in order {count}"]


def main():
    text = (Path(__file__).parent / "data" / "cases").read_text()
    for case in text.split("% ")[1:]:
        head, *lines = case.rstrip("\n").split("\n")
        kind, places, *words = head.split()
        print(f"% {head}")
        for line in answers(kind, int(places), words, lines):
            print(line)


main()
