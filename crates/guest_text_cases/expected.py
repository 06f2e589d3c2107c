#!/usr/bin/env python3
"""Writes the file `stdout` of this crate: what docs/FORMATS.md says of each text in data/cases.

The rules are written here a second time, with patterns, dictionaries and sets, and this script shares
nothing with the product. Run it in the crate's folder.
"""
import re

SHOWN = 3_000  # the greatest number of bytes of a text that is printed
MILLION = 1_000_000
MOST_FUNCTIONS, MOST_INSTRUCTIONS, MOST_BYTES = 256, 4_096, 200

# A quoted word, a plain one, or the rest of a line that begins with neither.
WORD = re.compile(
    rb' *(?:(?P<quoted>"(?:[ !#-\[\]-~]|\\["\\])*")(?= |\Z)|(?P<plain>[!#-~]+)(?= |\Z)|(?P<other>.+))', re.DOTALL
)
LABEL = re.compile(rb"[a-z][a-z0-9_]{0,31}")
NUMBER = re.compile(rb"0|[1-9][0-9]{0,19}")


class Refused(Exception):
    """A fault, by its cause."""


def plain(kind, word):
    if kind != "plain":
        raise Refused("word")
    return word.decode()


# What may be at a place of a line: functions of the word there and of what is known of the whole text, which
# answer its value.


def number(least, most):
    def read(kind, word, known):
        spelled = plain(kind, word)
        if not NUMBER.fullmatch(word) or not least <= int(spelled) <= most:
            raise Refused("number")
        return int(spelled)

    return read


def one_of(*names):
    def read(kind, word, known):
        if plain(kind, word) not in names:
            raise Refused("word")
        return word.decode()

    return read


def new_label(kind, word, known):
    label = plain(kind, word)
    if not LABEL.fullmatch(word):
        raise Refused("word")
    return label


def label(kind, word, known):
    if new_label(kind, word, known) not in known.labels:
        raise Refused("unknown name")
    return word.decode()


def quoted(kind, word, known):
    if kind != "quoted":
        raise Refused("word")
    meant = re.sub(rb"\\(.)", rb"\1", word[1:-1])
    if len(meant) > MOST_BYTES:
        raise Refused("word")
    return meant


def place(kind, word, known):
    index = number(0, 4_095)(kind, word, known)
    if known.body_length is not None and index >= known.body_length:
        raise Refused("limit")
    return index


SOURCE = number(1, MILLION)
REGISTER = one_of(*(f"r{number}" for number in range(8)))
STEPS = number(1, MILLION)

ENTRY = (quoted, quoted, number(0, 2**32 - 1), SOURCE, SOURCE)
OPS = {
    "set": (REGISTER, number(0, 2**64 - 1)),
    "add": (REGISTER, REGISTER),
    "sub": (REGISTER, REGISTER),
    "mul": (REGISTER, REGISTER),
    "lt": (REGISTER, REGISTER),
    "jump": (place,),
    "jz": (REGISTER, place),
    "call": (label,),
    "opt": (label,),
    "drop": (label,),
    "deopt": (label, quoted),
    "noopt": (label, quoted),
    "ret": (),
    "halt": (),
    "gc": (),
    "print": (REGISTER,),
    "idle": (STEPS,),
    "native": (STEPS,),
    "collect": (STEPS,),
}


class Line:
    """A line that is not passed over, and its words."""

    def __init__(self, at, text):
        self.at = at
        self.words = [(found.lastgroup, found[found.lastgroup]) for found in WORD.finditer(text.strip(b" "))]

    def is_func(self):
        return self.words[0] == ("plain", b"func")

    def values(self, places, known, after=0):
        """The values at these places, which follow the first words and have to be all of the rest."""
        words = self.words[after:]
        values = [read(*word, known) for read, word in zip(places, words)]
        if len(words) != len(places):
            raise Refused("word")
        return values


class Known:
    """What the lines together say, whether or not each is right."""

    def __init__(self, lines):
        funcs = [line for line in lines if line.is_func()]
        seconds = (line.words[1] for line in funcs if len(line.words) > 1)
        self.labels = {word.decode() for kind, word in seconds if kind == "plain"}
        self.lengths = {line.at: 0 for line in funcs}
        self.body_length = None  # of the function that the line in hand stands in
        at = None
        for line in lines:
            if line.is_func():
                at = line.at
            elif at is not None:
                self.lengths[at] += 1


class Function:
    def __init__(self, label, entry, inline):
        self.label, self.entry, self.inline, self.body = label, tuple(entry), inline, []

    def written(self):
        name, url, script, line, column = self.entry
        head = ["func", self.label, in_quotes(name), in_quotes(url), script, line, column]
        yield head + ["inline"] * self.inline
        for line, op, values in self.body:
            yield [line, op] + [in_quotes(value) if isinstance(value, bytes) else value for value in values]


def in_quotes(meant):
    return '"' + meant.decode().replace("\\", "\\\\").replace('"', '\\"') + '"'


def require(holds, cause):
    if not holds:
        raise Refused(cause)


def read_func(line, known, functions):
    is_inline = len(line.words) > 7
    places = (new_label, *ENTRY) + (one_of("inline"),) * is_inline
    name, *entry = line.values(places, known, after=1)
    function = Function(name, entry[:5], is_inline)
    require(all(name != other.label and function.entry != other.entry for other in functions), "twice")
    require(len(functions) < MOST_FUNCTIONS and known.lengths[line.at] > 0, "limit")
    return function


def read_instruction(line, known, functions):
    at = SOURCE(*line.words[0], known)
    require(len(line.words) > 1, "word")
    op = one_of(*OPS)(*line.words[1], known)
    values = line.values(OPS[op], known, after=2)
    require(functions, "word")
    require(len(functions[-1].body) < MOST_INSTRUCTIONS, "limit")
    return at, op, values


def read(text):
    """The functions of a text, or the first line with a fault and its cause."""
    bytes_ = text.split(b"\n")
    if not bytes_[-1]:
        bytes_.pop()
    lines = [Line(at, line) for at, line in enumerate(bytes_, 1) if line.lstrip(b" ")[:1] not in (b"", b"#")]
    known, functions = Known(lines), []
    for line in lines:
        try:
            if line.is_func():
                functions.append(read_func(line, known, functions))
                known.body_length = known.lengths[line.at]
            else:
                instruction = read_instruction(line, known, functions)
                functions[-1].body.append(instruction)
        except Refused as fault:
            raise Refused(f"line {line.at} {fault}") from None
    if "main" not in known.labels:
        raise Refused(f"line {len(bytes_) + 1} no main")
    return functions


def written(functions):
    lines = [" ".join(map(str, words)) for function in functions for words in function.written()]
    return "".join(line + "\n" for line in lines).encode()


def answer(text):
    try:
        functions = read(text)
    except Refused as fault:
        return f"{fault}\n"
    canonical = written(functions)
    again = "the same" if written(read(canonical)) == canonical else "another text"
    main = [function.label for function in functions].index("main")
    instructions = sum(len(function.body) for function in functions)
    counts = f"functions {len(functions)}, main {main}, instructions {instructions}, bytes {len(canonical)}"
    return f"{counts}, read again: {again}\n" + canonical.decode() * (len(canonical) <= SHOWN)


def is_copy(title, text):
    """Whether the case of an example is the example."""
    with open(f"../../examples/{title.split()[-1]}.guest", newline="") as example:
        return text == example.read()


def lines_of(line):
    """What a line of a case stands for."""
    if line.startswith("*"):
        count, copied = line[1:].split(" ", 1)
        return "".join(copied.replace("@", str(at)).replace("|", "\n") + "\n" for at in range(1, int(count) + 1))
    return line[1:] if line.startswith(">") else line + "\n"


with open("data/cases", newline="") as cases, open("stdout", "w", newline="") as out:
    for case in cases.read().removesuffix("\n").split("\n% ")[1:]:
        title, *lines = case.split("\n")
        text = "".join(map(lines_of, lines))
        assert "the example" not in title or is_copy(title, text), title
        out.write(f"% {title}\n" + answer(text.encode()))
