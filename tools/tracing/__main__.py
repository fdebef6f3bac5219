"""Starts a command: its name, and then its arguments."""

import importlib
import os
import signal
import sys

sys.path.insert(0, os.path.dirname(os.path.dirname(os.path.realpath(__file__))))

from tracing.streams import Unusable, complain, discard, written


def run(command, arguments):
    if sys.stdout is None:
        raise Unusable("cannot write: standard output is closed")
    try:
        return command.main(arguments)
    finally:
        written(sys.stdout.flush)


def main(name, arguments):
    """The exit status of the command; its FAILURE, after one line, where something cannot be read or written."""
    command = importlib.import_module(f"tracing.{name}")
    try:
        return run(command, arguments)
    except Unusable as failure:
        complain(name, failure)
    except OSError as error:
        # It comes from writing: what fails elsewhere is Unusable.
        discard(sys.stdout)
        complain(name, f"cannot write: {error.strerror}")
    except KeyboardInterrupt:
        # It ends as a program does that does not catch this signal.
        signal.signal(signal.SIGINT, signal.SIG_DFL)
        os.kill(os.getpid(), signal.SIGINT)
    return command.FAILURE


if __name__ == "__main__":
    sys.exit(main(sys.argv[1], sys.argv[2:]))
