"""The words in which refusals, transfers and results are shown."""

from .answers import (
    BUS_ERROR,
    DONE,
    INVALID_ADDRESS,
    INVALID_ARGUMENT,
    INVALID_DEVICE,
    OK_FALSE,
    PANIC,
    PLACES,
    REFUSALS,
    TIMEOUT,
    WOULD_BLOCK,
)
from .lines import remembered
from .pages import PAGE_0, SELECTION, either

# Headings begin at the left edge; all other lines leave room there for the mark.
FAILED = "!! "
PLAIN = "   "


def counted(number, unit):
    return f"{number or 'no'} {unit}{'s' if number > 1 else ''}"


def refusal_text(answer, count):
    times = f" x {count}" if count > 1 else ""
    return f"refused: {REFUSALS[answer.number]} (answer {answer.number}){times}"


def register_text(spot, doubted):
    """The names that lib.rs has hold on the page that it means."""
    number, name = f"0x{spot.number}", spot.step.register
    return f"{number} {name}{'?' if doubted else ''}" if isinstance(name, str) else number


def notes_of(spot, doubted, found):
    if spot.number == SELECTION:
        yield f"selects page {spot.page}"
    elif doubted:
        yield f"page {either(found)}?"
    elif spot.page:
        yield f"page {spot.page}"
    if spot.step.limit:
        yield f"wait {spot.step.until}"


@remembered
def transfer_text(shape, at, body, count, reads, found):
    """A row of `count` equal transfers; `reads` are those of the whole wait so far, `found` the pages that the sensor
    may have been on when the call began."""
    spot = shape.spots[at]
    doubted = spot.page is None and found != PAGE_0
    register = register_text(spot, doubted)
    notes = "; ".join(notes_of(spot, doubted, found))
    notes = f" ({notes})" if notes else ""
    if spot.step.limit:
        total = f", {reads} in all" if reads > count else ""
        return f"... read {register} x {count}{total}{notes}"
    if spot.step.written:
        written = bytes.fromhex(body.split()[0])[1:].hex(" ").upper()
        return f"write {register} = {written}{notes}"
    return f"read  {register}, {counted(spot.step.reads, 'byte')}{notes}"


@remembered
def result_text(shape, number, value, transfers):
    if number == DONE:
        return f"Done: {shape.value(value)}" if shape.value else "Done"
    if number == OK_FALSE:
        why = "no time is left for the final range" if transfers else "the argument is out of range"
        return f"Ok(false): {why}, nothing is set"
    return {
        INVALID_DEVICE: f"InvalidDevice(0x{value:02X})",
        BUS_ERROR: f"BusError({value})",
        TIMEOUT: "Timeout",
        INVALID_ADDRESS: f"InvalidAddress(0x{value:02X}): not from 0x08 to 0x77",
        INVALID_ARGUMENT: "InvalidArgument: low is above high, or one of them above 8190 mm",
        WOULD_BLOCK: "WouldBlock: not ready yet",
        PANIC: f"Panic at place {value}: {PLACES.get(value)}",
    }[number]
