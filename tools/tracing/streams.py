"""What the commands read from and write to, and what they say where that fails."""

import os
import sys
from contextlib import contextmanager


class Unusable(Exception):
    """Something that cannot be read, written or run: which, and why."""


@contextmanager
def trying_to(do):
    try:
        yield
    except OSError as error:
        raise Unusable(f"cannot {do}: {error.strerror or error}") from None


class Input:
    """A file, or standard input, read piece by piece."""

    def __init__(self, name):
        if name == "-":
            self.title = "standard input"
            if sys.stdin is None:
                raise Unusable("cannot read standard input: it is closed, or a directory")
            self.file = sys.stdin.fileno()
        else:
            self.title = name
            with trying_to(f"read {name}"):
                self.file = os.open(name, os.O_RDONLY)

    def read(self):
        """What there is to read; nothing at the end."""
        with trying_to(f"read {self.title}"):
            return os.read(self.file, 1 << 16)


def written(work):
    """Does work that writes. That nobody reads on, as in `showtrace | head`, is no failure."""
    try:
        work()
        sys.stdout.flush()
    except BrokenPipeError:
        discard(sys.stdout)


def discard(stream):
    """What is still in the stream goes nowhere, so that Python does not fail once more when it flushes that."""
    nowhere = os.open(os.devnull, os.O_WRONLY)
    os.dup2(nowhere, stream.fileno())
    os.close(nowhere)


def complain(name, text):
    """One line on standard error. Where that takes none, the exit status has to tell."""
    if sys.stderr is None:
        return
    try:
        print(f"{name}: {text}", file=sys.stderr, flush=True)
    except OSError:
        discard(sys.stderr)
