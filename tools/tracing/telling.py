"""What a call is shown as, once its lines are known: its names, and its rows with marks at those that failed."""

from functools import lru_cache
from typing import NamedTuple

from .answers import BUS_ERROR, INVALID_DEVICE, PANIC, TIMEOUT
from .matching import rows_of, tracks_of
from .shapes import Shape
from .texts import FAILED, PLAIN, refusal_text, transfer_text


def marks_of(track, number):
    """What an answer says about rows: by row, a mark and words."""
    words = {TIMEOUT: "Timeout", PANIC: "its reply leads to a panic", INVALID_DEVICE: "its reply is not 0xEE"}
    if number == BUS_ERROR:
        return bus_error_marks(track)
    if number in words:
        return {track.last_row(): (FAILED, words[number])}
    return {}


def bus_error_marks(track):
    """A failed transfer is the last one of its call. But after a failed range read the interrupt is still cleared, and
    without the replies it is not known whether the range read has failed, or the clearing, or both."""
    spots = track.shape.spots
    last = track.last_row()
    at = track.steps[last]
    range_reads = [row for row, step in enumerate(track.steps) if step is not None and spots[step].step.goes_on]
    if not range_reads:
        return {last: (FAILED, "the last of these reads failed" if spots[at].step.limit else "failed")}
    if at not in track.shape.last:
        return {range_reads[0]: (PLAIN, "may have failed too"), last: (FAILED, "failed")}
    return {
        range_reads[0]: (FAILED, "failed and was followed by clearing, or the last write failed"),
        last: (FAILED, "failed, or the range read failed"),
    }


def shown_rows(track, rows, marks, found, with_sections):
    spots, title, margin = track.shape.spots, "", ""
    for row, (fields, count) in enumerate(rows):
        at = track.steps[row]
        if at is None:
            yield f"{FAILED}{margin}{refusal_text(fields, count)}"
            continue
        if with_sections and spots[at].title != title:
            title, margin = spots[at].title, PLAIN
            yield f"{PLAIN}{title}"
        text = transfer_text(track.shape, at, fields.body, count, track.reads[row], found)
        if row in marks:
            mark, words = marks[row]
            yield f"{mark}{margin}{text}  <- {words}"
        else:
            yield f"{PLAIN}{margin}{text}"


class Told(NamedTuple):
    """What its rows and its answer tell of a call."""

    heading: str  # its names and the sensor
    shape: Shape
    text: str  # the rows as they are shown


def told_anew(lines, counts, number, place, found):
    rows = rows_of(lines, counts)
    tracks = [track for track in tracks_of(rows) if len(track.steps) == len(rows)]
    if number is not None:
        tracks = [track for track in tracks if track.may_end(number, place)]
    if not tracks:
        return None
    # Calls that cannot be told apart have made the same transfers, so the rows of one are those of all.
    names = list(dict.fromkeys(track.shape.name for track in tracks))
    sensor = f", sensor at 0x{rows[0][0].address}" if rows else ""
    shown = shown_rows(tracks[0], rows, marks_of(tracks[0], number), found, with_sections=len(names) == 1)
    return Told(" or ".join(names) + sensor, tracks[0].shape, "".join([f"{line}\n" for line in shown]))


# Where a program polls, the same short calls come again and again.
told_before = lru_cache(maxsize=1 << 10)(told_anew)
SHORT = 20


def told(lines, counts, number, place, found):
    """What the rows of a call tell; None if no call fits. A call that waits has no number; only a panic has a place.
    `found` are the pages that the sensor may have been on when the call began."""
    tell = told_before if len(lines) <= SHORT else told_anew
    return tell(tuple(lines), tuple(counts), number, place, found)
