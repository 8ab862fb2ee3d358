"""What the program says on standard error, by the status with which it ends."""

import re

REASONS = {
    0: rb"",
    1: rb"djq: these words are no command\n",
    2: rb"djq: the standard input can't be read: .+\n",
    3: rb"djq: the standard output can't be written: .+\n",
    4: rb"djq: can't listen on .+: .+\n|djq: the listener failed: .+\n",
    5: rb"djq: all turns were taken\n",
    6: rb"djq: out of memory\n",
    7: rb"djq: line \d+ of the schedule is outside its grammar\n",
    8: rb"djq: the session was ended: a line was too long, or too much was pending\n",
}


def fits(status, error):
    """Whether this is what is said as the program ends so."""
    return status in REASONS and re.fullmatch(REASONS[status], error) is not None
