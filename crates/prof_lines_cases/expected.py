#!/usr/bin/env python3
"""Writes the file `stdout` of this crate: what is read of each text in data/cases.

The rules stand here once more, as patterns of words. Run it in the crate's folder.
"""
import re

STOP = rb"(?= |\Z)"
WORD = re.compile(rb" *([!#-~]+)" + STOP)
TEXT = re.compile(rb' *"((?:[ !#-\[\]-~]|\\["\\])*)"' + STOP)
NUMBER = re.compile(rb"0|[1-9][0-9]*")
LABEL = re.compile(rb"[a-z][a-z0-9_]{0,31}")


class Fault(Exception):
    pass


def word_of(found, cause="word"):
    if not found:
        raise Fault(cause)
    return found


def read_place(place, rest):
    """What a place reads, and the bytes after it."""
    kind, *bounds = place.split(":")
    if kind == "quoted":
        found = word_of(TEXT.match(rest))
        text = re.sub(rb"\\(.)", rb"\1", found.group(1))
        if len(text) > 200:
            raise Fault("word")
        return b'%s "%s" ' % (text, found.group(1)), rest[found.end():]
    found = word_of(WORD.match(rest))
    word = found.group(1)
    if kind == "number":
        word_of(NUMBER.fullmatch(word), "number")
        word_of(int(bounds[0]) <= int(word) <= int(bounds[1]), "number")
    elif kind == "label":
        word_of(LABEL.fullmatch(word))
    elif kind != "word":
        word_of(word == kind.encode())
        return b"", rest[found.end():]
    return word + b" ", rest[found.end():]


def read_line(places, line):
    read, rest = b"| ", line
    for place in places:
        if place.startswith("optional:"):
            words = rest.strip(b" ")
            word_of(words in (b"", place[9:].encode()))
            return read + (b"there " if words else b"missing ")
        part, rest = read_place(place, rest)
        read += part
    word_of(not rest.strip(b" "))
    return read


def answer(places, text):
    *lines, last = text.split(b"\n")
    lines += [last] if last else []
    read = b""
    for number, line in enumerate(lines, 1):
        if line.lstrip(b" ")[:1] in (b"", b"#"):
            continue
        try:
            read += read_line(places, line)
        except Fault as fault:
            return b"line %d %s" % (number, str(fault).encode())
    return read + b"| end %d" % (len(lines) + 1)


def text_of(lines):
    return b"".join(line[1:] if line.startswith(b">") else line + b"\n" for line in lines)


with open("data/cases", "rb") as cases, open("stdout", "wb") as out:
    for case in cases.read().removesuffix(b"\n").split(b"\n%")[1:]:
        head, *lines = case.split(b"\n")
        places = head.split(b"%")[0].decode().split()
        out.write(answer(places, text_of(lines)) + b"\n")
