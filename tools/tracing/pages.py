"""The page that each sensor may be on.

What is written to 0xFF selects a page, on which the numbers of registers stand for others. lib.rs returns at once
where a transfer fails (`?`), where a wait is given up and where it panics, and selects page 0 no more. A failed write
may have reached the sensor or not.
"""

from .registers import REGISTERS

SELECTS_PAGE = 0xFF
PAGE_0 = (0,)

# The registers whose writes are followed; with the address the page may move.
SELECTION, MOVE = f"{SELECTS_PAGE:02X}", f"{REGISTERS['I2C_SLAVE_DEVICE_ADDRESS']:02X}"


def either(pages):
    *others, last = map(str, pages)
    return f"{', '.join(others)} or {last}" if others else last


def union(pages, others):
    return tuple(dict.fromkeys(pages + others))


class Pages:
    """Takes the transfers of a trace. Whether one has failed is known when the next one, or the answer, has come."""

    def __init__(self):
        self.left = {}  # by address: the pages that the sensor may be on, unless that is page 0 alone
        self.out = None  # a write to follow of which it is not known yet

    def at(self, address):
        return self.left.get(address, PAGE_0)

    def take(self, transfer):
        if self.out:
            self.settle(failed=False)
        if transfer.body[:2] in (SELECTION, MOVE):
            self.out = transfer

    def settle(self, failed):
        """It is known now whether the last transfer has failed."""
        transfer, self.out = self.out, None
        if transfer is None:
            return
        address, written = transfer.address, transfer.body.split()[0]
        value, before = written[2:4], self.at(address)
        if not value:
            return
        if written[:2] == SELECTION:
            selected = (int(value, 16),)
            self.put(address, union(before, selected) if failed else selected)
        else:
            # Also where it has not failed the sensor may have either address: on another page than 0 this is another
            # register. And another sensor may have the new address already.
            self.put(value, union(self.at(value), before))

    def put(self, address, pages):
        if pages == PAGE_0:
            self.left.pop(address, None)
        else:
            self.left[address] = pages
