"""The lines of a trace: how they are read from a stream, and what each of them tells."""

import re
from functools import lru_cache
from typing import NamedTuple

from .answers import PANIC, REFUSALS

# A long trace has the same lines over and over, so what is made of a line is remembered, up to a bound.
remembered = lru_cache(maxsize=1 << 16)

TRANSFER_LINE = re.compile("T ([0-9A-F]{2}) ((?:[0-9A-F]{2}){1,7} [0126])")
NUMBER = "(0|[1-9][0-9]{0,9})"
ANSWER_LINE = re.compile(f"A {NUMBER} {NUMBER} {NUMBER}")
LONGEST_LINE = 64


class Transfer(NamedTuple):
    address: str
    body: str  # the written bytes and the read length


class Answer(NamedTuple):
    number: int
    value: int
    transfers: int


@remembered
def parse(line):
    """The transfer or the answer that a line tells; None if it is no line of a trace."""
    if match := TRANSFER_LINE.fullmatch(line):
        return Transfer(*match.groups())
    if match := ANSWER_LINE.fullmatch(line):
        answer = Answer(*map(int, match.groups()))
        # A refusal has neither a value nor transfers.
        if answer.number <= PANIC or (answer.number in REFUSALS and answer[1:] == (0, 0)):
            return answer
    return None


class NoTrace(Exception):
    """A line is none of a trace: which, and how it is named to the user."""

    def __init__(self, line_number, line):
        self.line_number = line_number
        # A record begins with byte 1 or 2.
        if line_number == 1 and line[:1] in ("\x01", "\x02"):
            super().__init__("these are records, not a trace: tools/trace shows them")
        else:
            super().__init__(f"line {line_number} is no line of a trace: {line[:LONGEST_LINE]!a}")


def blocks_of(read):
    """The lines of what `read` gives piece by piece, list by list. Each list is what there is to read, so that a trace
    can be followed while it is made. A line that is far too long is given unfinished: it is no line of a trace."""
    rest = ""
    while block := read():
        lines = (rest + block.decode("latin-1")).replace("\r\n", "\n").split("\n")
        rest = lines.pop()
        yield lines
        if len(rest) > LONGEST_LINE:
            break
    if rest:
        yield [rest]


def trace_in(read):
    """The lines of a trace, each with what it tells, list by list as they are read. Raises NoTrace at a line that is
    none of a trace. Lines may end as on Windows, and the last may be empty."""
    line_number, empty = 0, False
    for lines in blocks_of(read):
        known = []
        for line in lines:
            line_number += 1
            fields = parse(line)
            if fields and not empty:
                known.append((line, fields))
            elif line or empty:
                yield known
                raise NoTrace(line_number - 1, "") if empty else NoTrace(line_number, line)
            else:
                empty = True
        yield known
