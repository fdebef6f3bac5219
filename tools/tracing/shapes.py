"""What the transfers of a call are made of, and in which order they may come.

A call is a list of parts: steps, sections (parts under a title) and parts that the driver may leave out. A shape is
such a list laid out, so that each step knows which steps may follow it.
"""

import re
from typing import Any, NamedTuple, Optional

from .pages import SELECTS_PAGE
from .registers import REGISTERS


class Step(NamedTuple):
    """One transfer; a wait makes it over and over."""

    register: Any  # its name in lib.rs, or its number where lib.rs has only that
    written: str = ""  # the bytes after the register in hexadecimal, with dots for bytes that vary
    reads: int = 1  # how many bytes are read
    ends: tuple = ()  # the answers that its reply may lead to, besides Done, BusError, Timeout and Panic
    places: tuple = ()  # the places at which its reply may lead to a panic
    goes_on: bool = False  # the call goes on although this transfer has failed
    limit: int = 0  # of a wait: the number of reads that gives Timeout
    until: str = ""  # of a wait: what it waits for


class Section(NamedTuple):
    title: str
    parts: list


class Maybe(NamedTuple):
    """Parts that are left out together, or not at all."""

    parts: list


def read(register, reads=1, **more):
    return Step(register, "", reads, **more)


def write(register, written, reads=1):
    return Step(register, written, reads)


def writes(text):
    """Writes to registers for which lib.rs has only a number: `80=01 FF=01`."""
    return [write(int(register, 16), written) for register, written in (pair.split("=") for pair in text.split())]


START = -1  # before the first step


class Spot(NamedTuple):
    """A step at its place in a call."""

    step: Step
    number: str  # of the register, in hexadecimal
    pattern: re.Pattern  # of the written bytes and the read length
    title: str  # of the section
    page: Optional[int]  # that the call has selected, also by this step; None before it has selected any


class Shape:
    """The transfers of a call: its steps in order, and which may follow which."""

    def __init__(self, name, parts, at_once=None, value=None):
        self.name = name
        self.at_once = at_once  # the answer that it may have without a transfer
        self.value = value  # how the value of Done is shown
        self.spots = []
        self.follows = {START: []}
        self.last = self._lay(parts, [START], "")  # the steps after which it may be Done

    def _lay(self, parts, before, title):
        """Adds parts that follow the steps `before`. Gives the steps that the next part follows."""
        for part in parts:
            if isinstance(part, Step):
                before = [self._add(part, before, title)]
            elif isinstance(part, Section):
                before = self._lay(part.parts, before, part.title)
            else:
                before = before + self._lay(part.parts, before, title)
        return before

    def _add(self, step, before, title):
        at = len(self.spots)
        for earlier in before:
            self.follows[earlier].append(at)
        self.follows[at] = [at] if step.limit else []
        self.spots.append(spot_of(step, title, self.spots[-1].page if self.spots else None))
        return at


def spot_of(step, title, page):
    """The spot of a step before which the call has selected this page."""
    number = REGISTERS.get(step.register, step.register)
    if number == SELECTS_PAGE:
        page = int(step.written, 16)
    pattern = re.compile(f"{number:02X}{step.written} {step.reads}")
    return Spot(step, f"{number:02X}", pattern, title, page)
