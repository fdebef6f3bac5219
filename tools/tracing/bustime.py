"""Tells how long the transfers of a trace take on the bus.

    tools/bustime samples/reading.trace

A register write of lib.rs also reads bytes back and ignores them; the second row leaves that read out. A write is a
transfer that writes more than one byte, the register and what goes there.

A transfer has a start bit, 9 bits for the address, 9 for each byte written, a stop bit, and, if it reads, one more
start bit, 9 bits for the address and 9 for each byte read. Idle time between transfers and clock stretching are not
counted, and a transfer that failed is counted as if it had not.

Exit status: 0; 2 if a line is no line of a trace, or if something cannot be read or written.
"""

import argparse
import sys

from .lines import NoTrace, Transfer, remembered, trace_in
from .streams import Input, Unusable, written

FAILURE = 2
SPEEDS = (100, 400, 1000)  # kHz, which is bits in a millisecond

START = STOP = 1
BYTE = 9  # with its acknowledge bit


@remembered
def bits_of(transfer):
    """The bits of a transfer as it is, and with a plain write."""
    given, reads = transfer.body.split()
    count = len(given) // 2
    writing = START + BYTE + count * BYTE + STOP
    reading = START + BYTE + int(reads) * BYTE if reads != "0" else 0
    return writing + reading, writing if count > 1 else writing + reading


def sums(read):
    """The number of transfers in a trace, and their bits in all, as they are and with plain writes."""
    transfers = bits = plain = 0
    try:
        for lines in trace_in(read):
            for _, fields in lines:
                if isinstance(fields, Transfer):
                    as_it_is, as_plain = bits_of(fields)
                    transfers, bits, plain = transfers + 1, bits + as_it_is, plain + as_plain
    except NoTrace as complaint:
        raise Unusable(complaint) from None
    return transfers, bits, plain


def row(title, transfers, bits):
    return f"{title:<26}{transfers:>10}{bits:>11}" + "".join(f"{bits / speed:>14.3f}" for speed in SPEEDS)


def table(transfers, bits, plain):
    yield f"{'':<26}{'transfers':>10}{'bits':>11}" + "".join(f"{f'ms, {speed} kHz':>14}" for speed in SPEEDS)
    yield row("as lib.rs makes them", transfers, bits)
    yield row("with plain writes", transfers, plain)
    yield f"saved: {100 * (bits - plain) / bits if bits else 0:.1f} %"
    yield "Idle time between transfers and clock stretching are not counted."


def main(arguments):
    parser = argparse.ArgumentParser(
        prog="bustime", description=__doc__, formatter_class=argparse.RawDescriptionHelpFormatter
    )
    parser.add_argument("trace", nargs="?", default="-", help="a file with the trace; none or - is standard input")
    source = Input(parser.parse_args(arguments).trace)
    text = "".join(f"{line}\n" for line in table(*sums(source.read)))
    written(lambda: sys.stdout.write(text))
    return 0
