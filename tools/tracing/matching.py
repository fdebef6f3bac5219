"""Which calls the lines of a trace fit."""

from typing import NamedTuple

from .answers import BUS_ERROR, DONE, PANIC, TIMEOUT
from .calls import SHAPES
from .lines import Transfer, parse, remembered
from .shapes import START, Shape


@remembered
def follow(shape, at, body):
    """The step that this transfer is if it comes after the step `at`; None if it is none."""
    for following in shape.follows[at]:
        if shape.spots[following].pattern.fullmatch(body):
            return following
    return None


@remembered
def shapes_from(number):
    """The shapes that begin at the register with this number."""
    return [shape for shape in SHAPES if shape.spots[0].number == number]


class Track(NamedTuple):
    """The rows of a call as steps of a shape, as far as they fit it. A row is a run of equal lines: what they tell, and
    how many they are."""

    shape: Shape
    steps: list  # for each row the step, or None if it is a refusal
    reads: list  # for each row the reads of its wait so far, also of those before a refusal

    def last_row(self):
        """The row of the last transfer."""
        row = len(self.steps) - 1
        while self.steps[row] is None:
            row -= 1
        return row

    def may_end(self, number, place):
        """Whether a call may have this answer after these rows."""
        if not self.steps:
            return number == self.shape.at_once
        row = self.last_row()
        at, step = self.steps[row], self.shape.spots[self.steps[row]].step
        return {
            DONE: at in self.shape.last,
            BUS_ERROR: not step.goes_on,
            TIMEOUT: self.reads[row] == step.limit,
            PANIC: place in step.places,
        }.get(number, number in step.ends)


def track_of(shape, rows, address):
    at, reads = START, 0
    found = Track(shape, [], [])
    for fields, count in rows:
        if isinstance(fields, Transfer):
            step = follow(shape, at, fields.body)
            # Only a wait is followed by itself.
            reads = reads + count if step == at else count
            if step is None or reads > (shape.spots[step].step.limit or 1) or fields.address != address:
                break
            at = step
        elif fields.number > PANIC:
            step = None
        else:
            break
        found.steps.append(step)
        found.reads.append(reads)
    return found


def rows_of(lines, counts):
    return list(zip(map(parse, lines), counts))


def tracks_of(rows):
    """A track for each shape that begins at the same register; for each shape if there is no transfer."""
    first = rows[0][0] if rows else None
    if not isinstance(first, Transfer):
        return [Track(shape, [], []) for shape in SHAPES]
    return [track_of(shape, rows, first.address) for shape in shapes_from(first.body[:2])]
