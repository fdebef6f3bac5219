"""Shows what the driver makes of records: runs them through rolltrace, and shows its trace as tools/showtrace does.

    tools/trace samples/reading              a sensor is brought up and read, call by call
    tools/trace --plain samples/reading      the lines of rolltrace as they are
    tools/trace < samples/reading            records from standard input, also while they are made

A record has eight bytes (bindings/README.md, Layout). rolltrace prints one line for each, 2,048 records at a time, and
one line `A 14 0 0` where bytes are spare at the end. Whether it did is checked here.

Exit status: 1 if something was lost or failed, with the reason on standard error; 2 for wrong usage; else that of
tools/showtrace for the trace (tools/showtrace --help), and 0 with --plain.
"""

import argparse
import os
import shutil
import subprocess
import sys
import tempfile
from contextlib import contextmanager
from pathlib import Path

from .feeding import Feeding, Lines, what_was_lost
from .showtrace import show
from .streams import Input, Unusable, complain, trying_to, written

FAILURE = 1
BUILT = Path("crates", "rolltrace", "out", "rolltrace")
ROOT = Path(__file__).resolve().parent.parent.parent


def the_built():
    program = ROOT / BUILT
    if not program.is_file():
        raise Unusable(f"{BUILT} is not built: tools/build rolltrace builds it")
    return program


@contextmanager
def as_program(file):
    """The file, or a copy that can be run: rt may have put it there from what an earlier run kept, and then not as a
    program."""
    if os.access(file, os.X_OK):
        yield file.absolute()
        return
    with tempfile.TemporaryDirectory() as room:
        copy = Path(room) / "rolltrace"
        with trying_to(f"run {file}"):
            shutil.copyfile(file, copy)
            copy.chmod(0o700)
        yield copy


@contextmanager
def started(file):
    """The program, with pipes to and from it. It ends when this does."""
    # A copy is gone as soon as it runs, so that none is left where a signal ends this command.
    with as_program(file) as program, trying_to(f"run {file}"):
        process = subprocess.Popen([program], stdin=subprocess.PIPE, stdout=subprocess.PIPE, bufsize=0)
    try:
        yield process
    finally:
        process.kill()
        process.wait()


def show_plain(read):
    """Shows the lines as they are; gives the exit status."""

    def copy():
        while lines := read():
            sys.stdout.buffer.write(lines)
            sys.stdout.buffer.flush()

    written(copy)
    return 0


def trace(source, file, plain):
    with started(file) as process:
        feeding, lines = Feeding(source, process.stdin), Lines(process.stdout)
        feeding.start()
        status = show_plain(lines.read) if plain else show(lines.read)
        # Nobody reads on, or showtrace has met a line that is none: more is not looked at.
        if not lines.ended:
            return status
        lost = what_was_lost(feeding, lines, process.wait())
    if lost:
        complain("trace", lost)
        return FAILURE
    return status


def main(arguments):
    parser = argparse.ArgumentParser(
        prog="trace", description=__doc__, formatter_class=argparse.RawDescriptionHelpFormatter
    )
    parser.add_argument("records", nargs="?", default="-", help="a file of records; none or - is standard input")
    parser.add_argument("--plain", action="store_true", help="the lines as rolltrace prints them")
    parser.add_argument("--rolltrace", type=Path, metavar="PROGRAM", help="another rolltrace")
    given = parser.parse_args(arguments)
    return trace(Input(given.records), given.rolltrace or the_built(), given.plain)
