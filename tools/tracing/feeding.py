"""The way of records through rolltrace, and whether each has had its line."""

import os
from threading import Thread

from .streams import Unusable
from .texts import counted

RECORD = 8  # bytes
SPARE_LINE = b"A 14 0 0\n"


class Feeding(Thread):
    """Hands the records to rolltrace and counts their bytes, while its lines are read."""

    def __init__(self, source, to):
        super().__init__(daemon=True)
        self.source, self.to = source, to
        self.length = 0
        self.ended = False  # rolltrace has had all that there was to read
        self.failure = None

    def run(self):
        try:
            while piece := self.source.read():
                self.length += len(piece)
                while piece:
                    piece = piece[self.to.write(piece) :]
            self.ended = True
        except Unusable as failure:
            self.ended, self.failure = True, failure
        except BrokenPipeError:
            pass  # rolltrace has ended before its input
        self.to.close()


class Lines:
    """What rolltrace prints, counted while it is read."""

    def __init__(self, stream):
        self.stream = stream
        self.count = 0
        self.last = b""  # the last bytes, as many as the line for spare bytes has
        self.ended = False

    def read(self):
        piece = os.read(self.stream.fileno(), 1 << 16)
        self.count += piece.count(b"\n")
        self.last = (self.last + piece)[-len(SPARE_LINE) :]
        self.ended = not piece
        return piece


def what_was_lost(feeding, lines, status):
    """Why the lines may not be those of the records, once rolltrace has ended with this status; None if they are."""
    if feeding.failure:
        return feeding.failure
    records, spare = divmod(feeding.length, RECORD)
    had = f"{counted(lines.count, 'line')} for {counted(records, 'record')}{' and spare bytes' if spare else ''}"
    missing = records + bool(spare) - lines.count
    if status:
        return f"rolltrace ended {f'by signal {-status}' if status < 0 else f'with status {status}'}: {had}"
    if not feeding.ended:
        return f"rolltrace ended before its input: {had} or more"
    if missing:
        return f"{'lines are missing' if missing > 0 else 'there are too many lines'}: {had}"
    if (lines.last == SPARE_LINE) != bool(spare):
        return f"the last line is {'not ' if spare else ''}A 14 0 0: {had}"
    return None
