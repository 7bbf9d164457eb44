"""Scenes that take a receive to each reason for stopping, and start, receive and send to each refusal. The whole account, the ring and the lists are
shown before and after each call: a refused call changes none of them.
"""
from functools import partial

from model.account import APPLICATION
from model.limits import RING_BYTES, SLOT_BYTES, SLOTS
from model.replay import LISTS

ENTRIES = 1100  # of most accounts
LIST_PLACES = 12  # of which a call is lent the first ones
FILL = (0x5A5A5A5A, 0xA5A1, 0xA5A2, 0xA5A3)  # what stands in a list before a receive: no answer writes these

# fields that are forged, and their values
FREE_COUNT_FORGED = [("depth", 5000)]
HAND_FORGED = [("hands", APPLICATION)]

# what a call is lent
RING_SHORT = {"size": RING_BYTES - 1}
WRONG_LENGTHS = (
    ("ring short", RING_SHORT),
    ("ring long", {"size": RING_BYTES + 1}),
    ("addresses short", {"entries": ENTRIES - 1}),
    ("addresses long", {"entries": ENTRIES + 1}),
)
POOLS_SHORT, IDS_SHORT, OFFSETS_SHORT, LENGTHS_SHORT = ({"rooms": [8 - (held == short) for held in range(LISTS)]} for short in range(LISTS))
ALL_PLACES = {"rooms": [LIST_PLACES] * LISTS}

OTHER_POOL = (3, 8, 1056, 0, 1)  # a packet of another pool at index 3 of a send


# ---- accounts


def addresses(s):
    """Entry 1055 begins 16 bytes below 2^64, so that its packets begin above."""
    s.addresses(ENTRIES + 1, 2**64 - 16 - 64 * 1055)


def idle(s, entries=ENTRIES):
    """60 packets are taken, 40 of them sent on queue 1, receive is not started."""
    s.fresh(entries, sends=2)
    s.batch(60)
    s.send(40, queue=1, rooms=(60, 40, 60, 60))


def busy(s, entries=ENTRIES):
    """The same with receive started."""
    idle(s, entries)
    s.start(ring=2)


def bare(s):
    """An account with no queues."""
    s.fresh(ENTRIES, receives=0, sends=0)


def prepare(s, account, forged):
    """An account, with some fields forged."""
    account(s)
    for field in forged:
        s.forge(*field)


# ---- a call between two showings of everything


def pattern():
    """A ring in which no byte is 0, and a slot past it."""
    return bytearray(k * 7 % 251 + 1 for k in range(RING_BYTES + SLOT_BYTES))


def show(s, lists=True):
    """Everything that a call on ring 0 may change."""
    s.add("account")
    s.ring_digest(0, RING_BYTES + SLOT_BYTES)
    for held in range(LISTS if lists else 0):
        s.list_digest(held, LIST_PLACES)


def start(s, name, account=idle, forged=(), **lent):
    """A start on a ring that holds the pattern."""
    s.case("start: " + name)
    prepare(s, account, forged)
    s.holds("ring", 0, pattern())
    show(s, lists=False)
    s.start(**lent)
    show(s, lists=False)


def written_by_card(frames, status, length):
    """The pattern with so many whole frames of 57 bytes and more, and then a slot with a status and a length."""
    ring = pattern()
    for slot, (low, size) in enumerate([(3, 57 + k) for k in range(frames)] + [(status, length)]):
        at = slot * SLOT_BYTES
        ring[at + 8] = low
        ring[at + 12 : at + 14] = size.to_bytes(2, "little")
    return ring


def receive(s, name, account=busy, forged=(), card=(8, 3, 60), n=8, rooms=(8, 8, 8, 8), **lent):
    """A receive into lists that hold the pattern, from a ring that the card has written."""
    s.case("receive: " + name)
    prepare(s, account, forged)
    s.holds("ring", 0, written_by_card(*card))
    for held, value in enumerate(FILL):
        s.holds("list", held, [value] * LIST_PLACES)
    show(s)
    s.receive(n, rooms=rooms, **lent)
    show(s)


def send(s, name, account=busy, forged=(), packet=None, rooms=(8, 8, 8, 8), queue=1, **lent):
    """A send of eight packets that the application has, into a ring that would be cleaned first. Four more that are not good follow in the lists.

    Another packet may be put among them: its index, and its handle.
    """
    s.case("send: " + name)
    prepare(s, account, forged)
    ring = pattern()
    ring[31 * SLOT_BYTES + 12] = 1
    s.holds("ring", 0, ring)
    good = ([7] * 8, range(1059, 1051, -1), [32, 0] * 4, [8, 64, 32, 1, 0, 40, 16, 63])
    for held, values in enumerate(good):
        places = [*values, 1, 2, 3, 4]
        if packet:
            places[packet[0]] = packet[1 + held]
        s.holds("list", held, places)
    show(s)
    s.send(8, queue, 0, rooms=rooms, **lent)
    show(s)


# ---- scenes


def unsound_or_of_a_wrong_length(s, call, account):
    """Numbers 1 and 2, of what every call is lent."""
    call(s, "free count forged", account, FREE_COUNT_FORGED)
    call(s, "hand forged", account, HAND_FORGED)
    for name, lent in WRONG_LENGTHS:
        call(s, name, account, **lent)


def each_refusal_of_start(s):
    """Starts that are done, each refusal, and two reasons at once: the table's order decides."""
    addresses(s)
    start(s, "done")
    start(s, "on exactly 512 free", partial(idle, entries=572))
    unsound_or_of_a_wrong_length(s, start, idle)
    start(s, "no such queue", queue=1)
    start(s, "no queues", bare)
    start(s, "started already", busy)
    start(s, "511 free", partial(idle, entries=571))
    start(s, "forged, ring short", forged=FREE_COUNT_FORGED, **RING_SHORT)
    start(s, "ring short, no such queue", queue=1, **RING_SHORT)
    start(s, "no such queue, started", busy, queue=1)
    start(s, "started, none free", partial(busy, entries=572))


def receive_to_each_stop(s):
    """Each reason for stopping, at the first slot and after five frames; several at once are tested in their order."""
    none_free, five_free = partial(busy, entries=572), partial(busy, entries=577)
    addresses(s)
    receive(s, "of 8", card=(9, 0, 0))
    receive(s, "of none", card=(9, 0, 0), n=0)
    for name, status, length in (("not done", 2, 60), ("split", 1, 60), ("65 long", 3, 65)):
        receive(s, name, card=(0, status, length))
        receive(s, "5, " + name, card=(5, status, length))
    receive(s, "5, 256 long", card=(5, 3, 256))
    receive(s, "no buffer", none_free, card=(7, 3, 60))
    receive(s, "5, no buffer", five_free, card=(7, 3, 60))
    receive(s, "of none, all else", none_free, card=(0, 0, 65), n=0)
    receive(s, "not done, all else", none_free, card=(0, 0, 65))
    receive(s, "split, long, no buffer", none_free, card=(0, 1, 65))
    receive(s, "long, no buffer", none_free, card=(0, 3, 65))
    receive(s, "5, split, long, no buffer", five_free, card=(5, 1, 65))


def each_refusal_of_receive(s):
    """Each refusal, and two reasons at once."""
    addresses(s)
    unsound_or_of_a_wrong_length(s, receive, busy)
    receive(s, "pools short", **POOLS_SHORT)
    receive(s, "ids short", **IDS_SHORT)
    receive(s, "offsets short", **OFFSETS_SHORT)
    receive(s, "lengths short", **LENGTHS_SHORT)
    receive(s, "no such queue", queue=1)
    receive(s, "no queues", bare)
    receive(s, "not started", idle)
    receive(s, "forged, ring short", forged=FREE_COUNT_FORGED, **RING_SHORT)
    receive(s, "ids short, no such queue", queue=1, **IDS_SHORT)
    receive(s, "no such queue, not started", idle, queue=1)


def each_refusal_of_send(s):
    """Sends that are done, each refusal but a bad handle, accounts with one thing wrong, and two reasons at once."""
    addresses(s)
    send(s, "after cleaning")
    send(s, "on the other queue", queue=0)
    send(s, "of 5", rooms=(12, 5, 5, 8))
    send(s, "of none", rooms=(0, 0, 0, 0))
    unsound_or_of_a_wrong_length(s, send, busy)
    send(s, "pools short", **POOLS_SHORT)
    send(s, "offsets short", **OFFSETS_SHORT)
    send(s, "lengths short", **LENGTHS_SHORT)
    send(s, "no such queue", queue=2)
    send(s, "no queues", bare, queue=0)
    send(s, "indices inside a batch", forged=[("clean", 1), ("tx", 1)])
    send(s, "rx index past the ring", forged=[("rx", SLOTS)])
    send(s, "a free id twice", forged=[*HAND_FORGED, ("free_ids", 1)])
    send(s, "a free id at the entries", forged=[*HAND_FORGED, ("free_ids", ENTRIES)])
    send(s, "forged, ring short", forged=FREE_COUNT_FORGED, **RING_SHORT)
    send(s, "ring short, no such queue", queue=2, **RING_SHORT)
    send(s, "no such queue, another pool", queue=2, packet=OTHER_POOL)
    send(s, "of 12", **ALL_PLACES)
    send(s, "of 12, another pool", packet=OTHER_POOL, **ALL_PLACES)


def bad_handles(s):
    """Each way in which a handle of a send is bad."""
    addresses(s)
    for name, *packet in (
        ("a sent id", 5, 7, 1099, 0, 40),
        ("a free id", 3, 7, 527, 0, 1),
        ("an id of the receive ring", 7, 7, 528, 0, 63),
        ("an id at the entries", 2, 7, 1100, 32, 32),
        ("an id far above", 2, 7, 0xFFFF, 32, 32),
        ("an id twice", 6, 7, 1058, 32, 16),
        ("an id twice at once", 1, 7, 1059, 0, 64),
        ("another pool", *OTHER_POOL),
        ("another pool first", 0, 6, 1059, 32, 8),
        ("offset 31", 4, 7, 1055, 31, 8),
        ("past the entry", 6, 7, 1053, 32, 33),
        ("past the entry from 0", 1, 7, 1058, 0, 65),
    ):
        send(s, name, packet=packet)
