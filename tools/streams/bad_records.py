"""Streams for `replay` that end in a record which is not good, each for another reason."""
import itertools
import struct

from model.framing import framed
from model.limits import RING_BYTES, U32
from model.replay import ACCOUNT_ARRAYS, ACCOUNT_FIELDS, ACCOUNT_NUMBERS, KINDS, LISTS, NUMBERS, PLACES, RINGS, Host, record


def outside_rings_and_lists():
    """Records that name a ring or a list that is not there, or places past the end of one."""
    for word, rest in (("start", ()), ("receive", (1, 1, 1, 1, 1)), ("send", (1, 1, 1, 1))):
        for ring, size in ((5, RING_BYTES), (5, 0), (65535, RING_BYTES)):
            yield record(word, 0, ring, size, 5, *rest)
    for ring, at, count in ((5, 0, 0), (5, 0, 1), (0, 65535, 2), (4, 65535, 2), (3, 65533, 4), (65535, 0, 0)):
        yield record("ring", ring, at, [1] * count)
    for held, at, count in ((4, 0, 0), (4, 0, 1), (65535, 0, 1), (0, 65535, 2), (1, 65535, 2), (2, 65534, 3), (3, 65535, 2)):
        yield record("list", held, at, [1] * count)
        yield record("places", held, at, count)
    for at, count in ((65535, 2), (65534, 3), (60000, 8000)):
        yield record("addresses", at, [1] * count)
    for ring, slot in ((5, 0), (0, 4096), (4, 65535), (65535, 1)):
        yield record("slot", ring, slot)


def outside_memory(memory):
    """Records that name bytes outside packet memory."""
    for size in (memory + 1, U32):
        yield record("clone", 7, 0, 32, 8, size)
        yield record("view", 7, 0, 32, 8, size)
        yield record("headroom", 7, 0, 32, 8, 1, size, 1)
    for at, count in ((memory, 1), (memory + 1, 0), (max(memory, 1) - 1, 2), (U32, 1)):
        yield record("memory", at, [1] * count)
        yield record("bytes", at, count)


def outside_digests(memory):
    """Digests of an array that is not there, or of more places than there are."""
    for array in range(RINGS + LISTS):
        yield record("digest", array, PLACES + 1)
    for array, count in ((RINGS + LISTS, memory + 1), (RINGS + LISTS, U32), (0, U32), (RINGS + LISTS + 1, 0), (65535, 0)):
        yield record("digest", array, count)


def outside_account():
    """Fields and places that the account does not have."""
    numbers, fields = len(ACCOUNT_NUMBERS), len(ACCOUNT_FIELDS)
    for field in (*range(numbers), fields, fields + 1, 65535):
        yield record("forge", field, 1 if field < numbers else 0, 1)
        yield record("array", field, 0, 0)
    for field, name in enumerate(ACCOUNT_ARRAYS, numbers):
        size = len(getattr(Host(0).account, name))
        yield record("forge", field, size, 1)
        yield record("array", field, size, 1)
        yield record("array", field, size + 1, 0)
        yield record("array", field, 0, size + 1)


def outside_registers():
    """Fields and places that a start-up state or a window does not have."""
    for field, place in ((10, 0), (6, 128), (0, 1), (9, 1), (65535, 0), (6, 65535)):
        yield record("forge-state", field, place, 0)
    for field, place in ((8, 0), (7, 64), (0, 1), (6, 1), (65535, 0), (7, 65535)):
        yield record("forge-window", field, place, 0)


def misframed():
    """Unknown kinds, and records that are too short, too long or cut."""
    for kind in (0, 15, 19, 25, 29, 36, 39, 45, 49, 63, 69, 76, 257, 65535):
        yield framed(kind, b"")
        yield framed(kind, bytes(36))
    for number, kind in KINDS.items():
        yield from of_a_wrong_length(number, bytes(struct.calcsize("<" + kind.form)), kind.unit)
    for length in (0, 1, 65535):
        yield framed(NUMBERS["counts"], b"", length)
    for end in (1, 2, 3):
        yield record("counts")[:end]


def of_a_wrong_length(number, body, unit):
    """Records of a kind whose body is too long, ends inside a place, is too short, or is cut short."""
    if unit != 1:
        yield framed(number, body + bytes(max(unit - 1, 1)))
    if unit > 1:
        yield framed(number, body + bytes(unit + 1))
    if body:
        yield framed(number, body[:-1])
        yield framed(number, b"")
        yield framed(number, body[:-1], len(body) + 2)


def bad_streams(memory):
    """A stream for each record that is not good. Where it is not cut, a good record follows it, which prints nothing."""
    begin = record("fresh", 7, 5, 64, 1, 4) + record("take", 8)
    named = outside_rings_and_lists(), outside_memory(memory), outside_digests(memory), outside_account(), outside_registers()
    for bad_record in itertools.chain(*named):
        yield begin + bad_record + record("sound")
    for bad_record in misframed():
        yield begin + bad_record
