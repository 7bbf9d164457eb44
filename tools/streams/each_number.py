"""Scenes that take each call of the account to every number that it can answer, on accounts of few entries of 64 bytes."""
from model.limits import RING_BYTES, SLOT_BYTES, SLOTS
from model.replay import LISTS, RINGS

GOOD = (7, 3, 32, 8)  # the handle of the packet that is out
FREE = (7, 2, 32, 8)  # and of one that is not
LENT = RING_BYTES, 520  # bytes of a ring, and addresses


# ---- accounts


def of(entries):
    """A fresh account of so many entries."""
    return lambda s: s.fresh(entries)


def forged(s):
    """An account whose free count runs past its array."""
    s.fresh(4)
    s.forge("depth", 5000)


def empty(s):
    """An account with no free buffer."""
    s.fresh(1)
    s.add("take", 8)


def one_out(s):
    """An account of four entries with id 3 out."""
    s.fresh(4)
    s.add("take", 8)


def started(s, entries=520):
    """An account whose receive ring has started, on a ring that nobody looks at again."""
    s.fresh(entries)
    s.start(ring=2)


def each(s, cases):
    """Cases with their names: the account, and then records."""
    for name, account, *records in cases:
        s.case(name)
        account(s)
        for record in records:
            s.add(*record)


# ---- packets


def packet_calls(s):
    """Fresh, take, release, truncate, batch and counts. A batch has lists of four places."""
    rooms, ids = (4, 4, 4, 4), ("places", 1, 0, 4)
    each(s, (
        ("fresh of 4,096 entries of the usual size", lambda s: s.fresh(4096, 0, 1, 4)),
        ("fresh of 0 entries", of(0)),
        ("fresh of 4,097 entries", of(4097)),
        ("fresh of entries of 96", lambda s: s.fresh(4, 96)),
        ("fresh with 2 receive queues", lambda s: s.fresh(4, receives=2)),
        ("fresh with 5 send queues", lambda s: s.fresh(4, sends=5)),
        ("take of 32 in entries of 64", of(1), ("take", 32)),
        ("take, account forged", forged, ("take", 32)),
        ("take of 33 in entries of 64", of(1), ("take", 33)),
        ("take from an empty stack", empty, ("take", 32)),
        ("release", one_out, ("release", *GOOD)),
        ("release, account forged", forged, ("release", *GOOD)),
        ("release of another pool", one_out, ("release", 8, 3, 32, 8)),
        ("release of a free id", one_out, ("release", *FREE)),
        ("release of an id at the entries", one_out, ("release", 7, 4, 32, 8)),
        ("release at offset 31", one_out, ("release", 7, 3, 31, 8)),
        ("release past the entry", one_out, ("release", 7, 3, 32, 33)),
        ("truncate of 8 to 5", one_out, ("truncate", *GOOD, 5)),
        ("truncate, account forged", forged, ("truncate", *GOOD, 5)),
        ("truncate of a free id", one_out, ("truncate", 7, 0, 32, 8, 5)),
        ("batch of 9 from 4", of(4), ("batch", 9, 8, *rooms), ids),
        ("batch of 0", of(4), ("batch", 0, 8, *rooms), ids),
        ("batch of 33 in entries of 64", of(4), ("batch", 2, 33, *rooms), ids),
        ("batch, account forged", forged, ("batch", 2, 8, *rooms), ids),
        ("batch of 5 into lists of 4", of(5), ("batch", 5, 8, *rooms), ids),
        ("counts", one_out, ("counts",)),
        ("counts, account forged", forged, ("counts",)),
    ))


# ---- packet memory


def marked():
    """Packet memory of four entries, with marks where packet 3 and its headroom begin and end."""
    memory = bytearray([9] * 256)
    memory[210], memory[223], memory[224], memory[231] = 1, 2, 3, 4
    return memory


def clone_view_headroom(s):
    """The calls on packet memory, whose digest is shown before and after. Where only 64 bytes are lent, all of them are 9; headroom is filled."""
    mark, nines = ("memory", 0, marked()), ("memory", 0, [9] * 256)
    whole, short, fill = ("digest", RINGS + LISTS, 256), ("digest", RINGS + LISTS, 64), 0xEE
    each(s, (
        ("clone", one_out, mark, whole, ("clone", *GOOD, 256), whole),
        ("clone, account forged", forged, whole, ("clone", *GOOD, 256), whole),
        ("clone, memory too long", of(3), whole, ("clone", *GOOD, 256), whole),
        ("clone of a free id", one_out, whole, ("clone", 7, 0, 32, 8, 256), whole),
        ("clone of 33 in entries of 64", one_out, whole, ("clone", 7, 3, 0, 33, 256), whole),
        ("clone with none free", empty, short, ("clone", 7, 0, 32, 8, 64), short),
        ("view", one_out, mark, whole, ("view", *GOOD, 256), whole),
        ("view, account forged", forged, whole, ("view", *GOOD, 256), whole),
        ("view of a free id", one_out, whole, ("view", *FREE, 256), whole),
        ("view, memory too short", one_out, nines, whole, ("view", *GOOD, 255), whole),
        ("headroom of 14", one_out, mark, whole, ("headroom", *GOOD, 14, 256, fill), whole, ("bytes", 209, 24)),
        ("headroom, account forged", forged, mark, whole, ("headroom", *GOOD, 14, 256, fill), whole),
        ("headroom, memory too short", one_out, short, ("headroom", *GOOD, 14, 64, fill), short),
        ("headroom of a free id", one_out, whole, ("headroom", *FREE, 14, 256, fill), whole),
        ("headroom of 33", one_out, whole, ("headroom", *GOOD, 33, 256, fill), whole),
        ("headroom of 14 at offset 0", one_out, whole, ("headroom", 7, 3, 0, 8, 14, 256, fill), whole),
    ))


# ---- rings


def written(status, length, slots):
    """A ring whose first slots hold a status and a length each."""
    ring = bytearray(RING_BYTES)
    for slot in range(slots):
        ring[slot * SLOT_BYTES + 8], ring[slot * SLOT_BYTES + 12] = status, length
    return ring


def receive(s):
    """Receives to each stop."""
    for name, entries, n, *frames in (
        ("receive of 2 of 3 frames", 520, 2, 3, 60, 3),
        ("receive of 4 where there are 3 frames", 520, 4, 3, 60, 3),
        ("receive of 0", 520, 0, 3, 60, 3),
        ("receive of a split frame", 520, 4, 1, 60, 3),
        ("receive of a frame of 65 in entries of 64", 520, 4, 3, 65, 3),
        ("receive of frames of 64 in entries of 64", 520, 4, 3, 64, 3),
        ("receive of 600 with 8 free", 520, 600, 3, 60, SLOTS),
        ("receive of 600 from a full ring", 1100, 600, 3, 60, SLOTS),
    ):
        s.case(name)
        started(s, entries)
        s.holds("ring", 0, written(*frames))
        s.receive(n, rooms=[SLOTS] * LISTS)


def send_full(s):
    """600 packets are sent, of which 511 fit; then the card marks slots and empty sends clean: 31 of a batch done frees none."""
    s.case("send of 600")
    s.fresh(600)
    s.batch(600)
    s.send(600)
    s.add("counts")
    for name, slots in (("send of none, slot 30 done", [30]), ("send of none, slots 31 and 63 done", [31, 63])):
        s.case(name)
        for slot in slots:
            s.done_byte(slot)
        s.send(0)
        s.add("counts")


def send_refused(s):
    """Sends of buffer 3 and of another one, into a ring of zeros."""
    for name, account, queue, pool, other in (
        ("send, account forged", forged, 0, 7, 3),
        ("send, addresses too few", of(5), 0, 7, 3),
        ("send, no such queue", one_out, 1, 7, 3),
        ("send of a buffer twice", one_out, 0, 7, 3),
        ("send of a free buffer", one_out, 0, 7, 2),
        ("send of a buffer of another pool", one_out, 0, 8, 3),
    ):
        s.case(name)
        account(s)
        s.handles([GOOD, (pool, other, 32, 8)])
        s.send(2, queue, 4, entries=4)


def ring_calls(s):
    """Start, receive and send. All addresses are 0; a receive that is refused is from a ring of zeros into lists of eight places."""
    each(s, (
        ("start", of(520), ("start", 0, 0, *LENT)),
        ("start, account forged", forged, ("start", 0, 0, *LENT)),
        ("start, addresses too few", of(521), ("start", 0, 0, *LENT)),
        ("start, no such queue", of(520), ("start", 1, 0, *LENT)),
        ("start, started already", started, ("start", 0, 0, *LENT)),
        ("start with 511 free", of(511), ("start", 0, 0, RING_BYTES, 511)),
    ))
    receive(s)
    each(s, (
        ("receive, account forged", forged, ("receive", 0, 3, *LENT, 8, 8, 8, 8, 8)),
        ("receive of 9 into lists of 8", started, ("receive", 0, 3, *LENT, 9, 8, 8, 8, 8)),
        ("receive, no such queue", started, ("receive", 1, 3, *LENT, 8, 8, 8, 8, 8)),
        ("receive, not started", of(520), ("receive", 0, 3, *LENT, 8, 8, 8, 8, 8)),
    ))
    send_full(s)
    send_refused(s)
