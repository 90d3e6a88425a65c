#!/usr/bin/env python3
"""Makes the input of the program `handover` from a plain description (docs/shelf.txt is one).

    python3 tools/calls.py < docs/shelf.txt > crates/handover/stdin

A line of the description is empty, begins with # or is one of these. The table comes first, then
the four lists of calls.

    signals KIND ..            input, output or local, from signal 0 on; no such line: no signals
    statement KIND NUMBER ..   the next statement: its signal, if it has one, and its parts
    list                       begins the next list
    begin WORD                 the calls of a list; a word is a decimal number
    step STATEMENT
    close
    react WORD
    take over HEX              a record, two hexadecimal digits for each byte

The table must have the form of docs/TABLE.md; whether it is a routine, the program says. What is
wrong is told with its line and column, and then nothing is made and the exit status is 1.
"""
import argparse
import re
import sys

SIGNALS = ["input", "output", "local"]
PARTS = ["first part", "second part"]

# The kinds in the order of their numbers, and what each has.
KINDS = {
    "nothing": [],
    "stop": [],
    "emit": ["signal"],
    "wait": ["signal"],
    "sequence": PARTS,
    "parallel": PARTS,
    "loop": PARTS[:1],
    "when": ["signal"] + PARTS,
    "kill": ["signal"] + PARTS[:1],
    "local": ["signal"] + PARTS[:1],
}

MOST_SIGNALS, MOST_STATEMENTS, MOST_BYTES = 64, 256, 65536
MOST_OF_TWO_BYTES, MOST_OF_EIGHT_BYTES = 2**16 - 1, 2**64 - 1


class Wrong(Exception):
    """Something in the description is not as expected."""


class Line:
    """A line of the description, of which one word is taken after another."""

    def __init__(self, number, text):
        self.number = number
        self.words = [(word[0], word.start() + 1) for word in re.finditer(r"\S+", text)]
        self.end_column = len(text.rstrip()) + 1
        self.column = 1

    def wrong(self, expected, word=None):
        """The error that something else was expected at the column of the word taken last."""
        found = "" if word is None else f", not `{word if len(word) < 40 else word[:40] + '..'}`"
        return Wrong(f"line {self.number}, column {self.column}: expected {expected}{found}")

    def is_told(self):
        """Does it say something?"""
        return bool(self.words) and not self.words[0][0].startswith("#")

    def more(self):
        return bool(self.words)

    def take(self, expected):
        """The next word."""
        if not self.words:
            self.column = self.end_column
            raise self.wrong(expected)
        word, self.column = self.words.pop(0)
        return word

    def take_of(self, choices, expected):
        """The next word, which is one of some."""
        word = self.take(expected)
        if word not in choices:
            raise self.wrong(expected, word)
        return word

    def take_number(self, expected, most):
        """The next word, which is a decimal number up to some number."""
        expected = f"{expected}, a decimal number up to {most}"
        word = self.take(expected)
        if not re.fullmatch("[0-9]{1,20}", word) or int(word) > most:
            raise self.wrong(expected, word)
        return int(word)

    def take_bytes(self, expected):
        """The next word, which has two hexadecimal digits for each byte."""
        expected = f"{expected}, two hexadecimal digits for each byte"
        word = self.take(expected)
        if not re.fullmatch("([0-9a-fA-F]{2})+", word):
            raise self.wrong(expected, word)
        return bytes.fromhex(word)

    def end(self):
        if self.words:
            word = self.take("a word")
            raise self.wrong("nothing more", word)


class Statement:
    """A statement: its kind, and each number that it has, with its column."""

    def __init__(self, line):
        kinds = f"a kind of statement ({', '.join(KINDS)})"
        self.line = line
        self.kind = line.take_of(KINDS, kinds)
        self.fields = {}
        for field in KINDS[self.kind]:
            number = line.take_number(f"the number of its {field}", MOST_STATEMENTS - 1)
            self.fields[field] = number, line.column
        line.end()

    def check(self, own, signals, statements):
        """Do the numbers fit statement `own`, in a table with so many signals and statements?"""
        for field, (number, column) in self.fields.items():
            self.line.column = column
            if field == "signal" and number >= signals:
                raise self.line.wrong(f"one of {signals} signals, from 0 on", str(number))
            if field != "signal" and not own < number < statements:
                expected = f"a part's number above its statement's, {own}, and below {statements}"
                raise self.line.wrong(expected, str(number))

    def record(self):
        numbers = [self.fields.get(field, (0, 0))[0] for field in ["signal"] + PARTS]
        return bytes([list(KINDS).index(self.kind)] + numbers)


class Description:
    """What was read so far: the table, and the lists of calls."""

    def __init__(self):
        self.signals = None
        self.statements = []
        self.lists = []

    def read(self, line):
        """Reads a line that says something."""
        readers = {"signals": self.read_signals, "statement": self.read_statement}
        readers["list"] = self.read_list
        first = [*readers, *CALLS]
        word = line.take_of(first, f"a line that begins with {', '.join(first)} or #")
        if word in readers:
            readers[word](line)
        else:
            self.read_call(CALLS[word], line)
        line.end()

    def read_signals(self, line):
        if self.signals is not None or self.statements or self.lists:
            raise line.wrong("one line of signals, before the statements")
        self.signals = []
        while line.more():
            kind = line.take_of(SIGNALS, f"a kind of signal ({', '.join(SIGNALS)})")
            self.signals.append(kind)
            if len(self.signals) > MOST_SIGNALS:
                raise line.wrong(f"at most {MOST_SIGNALS} signals")

    def read_statement(self, line):
        if self.lists:
            raise line.wrong("each statement before the lists")
        if len(self.statements) == MOST_STATEMENTS:
            raise line.wrong(f"at most {MOST_STATEMENTS} statements")
        self.statements.append(Statement(line))

    def read_list(self, line):
        if not self.statements:
            raise line.wrong("a statement before the lists")
        if len(self.lists) == 4:
            raise line.wrong("no more than four lists")
        self.lists.append([])

    def read_call(self, call, line):
        if not self.lists:
            raise line.wrong("a line `list` before the first call")
        if len(self.lists[-1]) == MOST_OF_TWO_BYTES:
            raise line.wrong(f"at most {MOST_OF_TWO_BYTES} calls in a list")
        self.lists[-1].append(call(line))

    def check(self, last):
        """Do the numbers fit the table, and is nothing missing after the last line?"""
        for own, statement in enumerate(self.statements):
            statement.check(own, len(self.signals or []), len(self.statements))
        if len(self.lists) < 4:
            raise Wrong(f"line {last}: expected four lists by the end, not {len(self.lists)}")
        if len(self.input()) > MOST_BYTES:
            raise Wrong(f"line {last}: expected no more than {MOST_BYTES} bytes of input in all")

    def table(self):
        kinds = bytes(SIGNALS.index(kind) for kind in self.signals or [])
        contents = [8, len(kinds), 8 + len(kinds), len(self.statements)]
        records = b"".join(statement.record() for statement in self.statements)
        return b"".join(map(two_bytes, contents)) + kinds + records

    def input(self):
        table = self.table()
        made = two_bytes(len(table)) + table
        for calls in self.lists:
            made += two_bytes(len(calls)) + b"".join(calls)
        return made


def two_bytes(number):
    return number.to_bytes(2, "little")


def eight_bytes(number):
    return number.to_bytes(8, "little")


# the calls, each as its bytes


def word(line):
    return eight_bytes(line.take_number("an input word", MOST_OF_EIGHT_BYTES))


def begin(line):
    return b"\0" + word(line)


def step(line):
    return b"\1" + two_bytes(line.take_number("a statement's number", MOST_OF_TWO_BYTES))


def close(_):
    return b"\2"


def react(line):
    return b"\3" + word(line)


def take_over(line):
    line.take_of(["over"], "`over` after `take`")
    record = line.take_bytes("a record")
    if len(record) > MOST_OF_TWO_BYTES:
        raise line.wrong(f"a record of at most {MOST_OF_TWO_BYTES} bytes")
    return b"\4" + two_bytes(len(record)) + record


CALLS = {"begin": begin, "step": step, "close": close, "react": react, "take": take_over}


def described(data):
    """The description that the bytes are."""
    description = Description()
    lines = data.removesuffix(b"\n").split(b"\n")
    for number, text in enumerate(lines, 1):
        try:
            line = Line(number, text.decode())
        except UnicodeDecodeError:
            raise Wrong(f"line {number}: expected text in UTF-8") from None
        if line.is_told():
            description.read(line)
    description.check(len(lines))
    return description


def main():
    parser = argparse.ArgumentParser(
        description=__doc__, formatter_class=argparse.RawDescriptionHelpFormatter
    )
    parser.parse_args()
    try:
        made = described(sys.stdin.buffer.read()).input()
    except Wrong as wrong:
        sys.exit(f"calls.py: {wrong}")
    sys.stdout.buffer.write(made)


if __name__ == "__main__":
    main()
