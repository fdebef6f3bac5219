"""Shows a trace that the program rolltrace printed: call by call, in the words of the Rust driver.

    crates/rolltrace/out/rolltrace < samples/reading | tools/showtrace

tools/trace runs both. A trace has the transfers and the answer of each call, but not which call was begun and not the
replies. The call is told here from its transfers and its answer; where two calls cannot be told apart, both are named.
Reads of a wait stand once, with their count. `!!` marks what failed or was refused. Nearly every write of the driver
also reads bytes and ignores them; these are not shown.

A call that fails leaves the sensor on the page that it has selected, since lib.rs returns at once. Until a call
selects a page again, `(page 1?)` stands at its transfers, and `?` after names that hold on page 0. Each sensor is taken
to be on page 0 where the trace begins, and a page that was selected by hand is in no trace.

Exit status: 0; 1 if some lines fit no call, or if an answer tells another number of transfers than there are; 2 if a
line is no line of a trace, or if something cannot be read or written.
"""

import argparse
import sys

from .streams import Input, complain, written
from .view import View, show_trace

FAILURE = 2


def show(read):
    """Shows what there is to read as a trace; gives the exit status."""
    view = View(sys.stdout)
    written(lambda: show_trace(read, view))
    if view.complaint:
        complain("showtrace", view.complaint)
        return FAILURE
    return view.status


def main(arguments):
    parser = argparse.ArgumentParser(
        prog="showtrace", description=__doc__, formatter_class=argparse.RawDescriptionHelpFormatter
    )
    parser.add_argument("trace", nargs="?", default="-", help="a file with the trace; none or - is standard input")
    source = Input(parser.parse_args(arguments).trace)
    return show(source.read)
