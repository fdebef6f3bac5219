"""A trace shown from its first line to its last."""

from .answers import BUS_ERROR, DONE, INVALID_DEVICE, PANIC, TIMEOUT, WOULD_BLOCK
from .calls import MOST_TRANSFERS
from .lines import NoTrace, Transfer, parse, trace_in
from .matching import rows_of, tracks_of
from .pages import PAGE_0, Pages, either
from .telling import told
from .texts import FAILED, PLAIN, counted, refusal_text, result_text

MAY_LEAVE_A_PAGE = (BUS_ERROR, TIMEOUT, PANIC, INVALID_DEVICE)


class View:
    """Takes a trace line by line. A call is shown when it has its answer, since only then is it known which call it is.
    So the rows of one call are kept, and no more."""

    def __init__(self, out):
        self.out = out
        self.status = 0  # the exit status, unless there is a complaint
        self.complaint = None  # about the line that broke the trace off
        self.pages = Pages()
        self.forget()

    def forget(self):
        self.lines, self.counts = [], []  # of the call that waits; while none waits, of the last refusal
        self.transfers = 0  # of the call that waits; 0 while none waits
        self.line_number = 0  # of its first line
        self.address, self.found = None, PAGE_0  # of its sensor: the address, and the pages that it may have been on
        self.misfit = False  # it has more transfers than any call, and its rows are shown as they come

    def write(self, line):
        self.out.write(f"{line}\n")

    def take(self, line_number, line, fields):
        if isinstance(fields, Transfer):
            self.take_transfer(line_number, line, fields)
        elif fields.number > PANIC:
            self.take_refusal(line)
        else:
            self.take_answer(line_number, line, fields)

    def take_transfer(self, line_number, line, transfer):
        if not self.transfers:
            self.begin(line_number)
            self.address, self.found = transfer.address, self.pages.at(transfer.address)
        self.transfers += 1
        if self.add(line):
            self.pages.take(transfer)
        if self.transfers > MOST_TRANSFERS:
            self.show_misfit()

    def take_refusal(self, line):
        if not self.transfers and self.lines and self.lines[-1] != line:
            self.show_refusals()
        self.add(line)

    def take_answer(self, line_number, line, answer):
        if not self.transfers:
            self.begin(line_number)
        number, value, transfers = answer
        call = self.told(number, value if number == PANIC else 0)
        if call:
            mark = PLAIN if number in (DONE, WOULD_BLOCK) else FAILED
            self.show(call, mark, result_text(call.shape, number, value, self.transfers))
        else:
            self.add(line)
            self.show_misfit()
        self.pages.settle(failed=number == BUS_ERROR)
        left = self.pages.at(self.address)
        if number in MAY_LEAVE_A_PAGE and left != PAGE_0:
            self.write(f"{FAILED}the sensor may still be on page {either(left)}")
        if transfers != self.transfers:
            self.status = 1
            self.write(f"{FAILED}the answer tells {counted(transfers, 'transfer')}, but there are {self.transfers}")
        self.out.write("\n")
        self.forget()

    def begin(self, line_number):
        if self.lines:
            self.show_refusals()
        self.line_number = line_number

    def add(self, line):
        """Equal lines that follow one another are one row. Tells whether this one begins a row."""
        if self.lines and self.lines[-1] == line:
            self.counts[-1] += 1
            return False
        self.lines.append(line)
        self.counts.append(1)
        return True

    def told(self, number, place):
        return None if self.misfit else told(self.lines, self.counts, number, place, self.found)

    def show(self, call, mark, result):
        self.out.write(f"{call.heading}, line {self.line_number}\n{call.text}{self.end_line(mark, result)}")

    def end_line(self, mark, words):
        return f"{mark}-> {words} ({counted(self.transfers, 'transfer')})\n"

    def show_refusals(self):
        for line, count in zip(self.lines, self.counts):
            self.write(FAILED + refusal_text(parse(line), count))
        self.lines, self.counts = [], []

    def show_misfit(self):
        """The rows as they are, with a mark at the first that does not fit."""
        marked = None
        if not self.misfit:
            self.status, self.misfit = 1, True
            self.write(f"{FAILED}no call fits the lines from line {self.line_number} on")
            marked = max((len(track.steps) for track in tracks_of(rows_of(self.lines, self.counts))), default=0)
        for row, (line, count) in enumerate(zip(self.lines, self.counts)):
            times = f"  x {count}" if count > 1 else ""
            self.write(f"{FAILED}{line}{times}  <- fits no call" if row == marked else f"{PLAIN}{line}{times}")
        self.lines, self.counts = [], []

    def end(self, mark, words):
        """The trace is at its end; a call may still wait."""
        if not self.transfers:
            self.show_refusals()
            return
        call = self.told(None, 0)
        if call:
            self.show(call, mark, words)
        else:
            self.show_misfit()
            self.out.write(self.end_line(mark, words))
        self.out.write("\n")


def show_trace(read, view):
    """Shows a trace up to its end, or up to a line that is none of a trace."""
    line_number = 0
    try:
        for lines in trace_in(read):
            for line, fields in lines:
                line_number += 1
                view.take(line_number, line, fields)
            view.out.flush()
    except NoTrace as complaint:
        view.complaint = complaint
        view.end(FAILED, f"broken off by line {complaint.line_number}")
    else:
        view.end(PLAIN, "still waiting")
