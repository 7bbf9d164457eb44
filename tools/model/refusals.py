"""Document 01's table of the numbers that a call answers, but for 0, done."""

NOT_SOUND = 1  # the account, window or start-up state
WRONG_LENGTH = 2  # a ring, addresses or packet memory of a wrong length, or a list too short
NO_QUEUE = 3
BAD_HANDLE = 4  # and the index of the first
TOO_LARGE = 5  # a packet, or headroom above 32
NONE_FREE = 6
NO_HEADROOM = 7
WRONG_START = 8  # receive started already, or not yet
OUT_OF_RANGE = 9  # a number of a set-up
WAIT_FAILED = 10  # and the register
OUTSIDE_MAP = 11  # and the register
NO_INTERRUPT = 12  # on this queue, or of this kind


class Refused(Exception):
    """A number of the table, and after BAD_HANDLE the index."""


def need(holds, *number):
    """A call goes on only if something holds."""
    if not holds:
        raise Refused(*number)
