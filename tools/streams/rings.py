"""Scenes on the receive ring and the send rings: start, receive, send and cleaning, done, stopped and refused."""
from model.limits import RING_BYTES, SLOTS, U64
from model.replay import LISTS
from streams.packets import wrong_handles

# a status and a length at which a receive stops, in entries of 64
STOPPING = ((1, 60), (2, 60), (0, 65535), (3, 65), (3, 65535), (1, 65), (2, 65), (0xFFFFFFFC, 3), (0xFFFFFFFD, 3))


def wrong_lengths(entries):
    """Lengths of a ring and of addresses of which one is wrong."""
    return ((RING_BYTES - 1, entries), (RING_BYTES + 1, entries), (0, entries), (RING_BYTES, entries - 1), (RING_BYTES, entries + 1))


def one_too_short(room, lists=range(LISTS)):
    """Rooms of the lists of which one is too short."""
    return [[room - (held == short) for held in range(LISTS)] for short in lists]


def start(s):
    """A start to every refusal, two reasons at once, and then done."""
    s.fresh(600, receives=0)
    s.start()
    s.fresh(511)
    s.start()
    s.start(size=RING_BYTES - 1)
    s.start(queue=1)
    s.fresh(513)
    s.entry_addresses()
    s.add("take", 8)
    s.add("take", 8)
    for size, entries in (*wrong_lengths(513), (2 * RING_BYTES, 513), (RING_BYTES, 0)):
        s.start(0, 2, size, entries)
        s.start(1, 2, size, entries)
    for queue in (1, 2, 2**32, U64):
        s.start(queue, 2)
    s.start(0, 2)
    s.slots(2, 0)
    s.case("start: done")
    s.add("release", 7, 512, 32, 8)
    s.add("ring", 2, 0, [k * 5 % 256 for k in range(64)])
    s.start(0, 2)
    s.slots(2, 0, 1, 2, 255, 510, 511, 512)
    s.look()
    s.array("slots", 0, SLOTS)
    s.case("start: a second one")
    s.start(0, 2)
    s.start(1, 2)
    s.start(0, 2, RING_BYTES - 1)


# ---- receive


def receive_stops(s):
    """A receive to every stop, at the first slot and later, with several reasons at once; headroom before a received packet."""
    s.fresh(516)
    s.entry_addresses()
    s.receive(1)
    s.receive(1, queue=1)
    s.start()
    for n in (0, 1, 5):
        s.receive(n)
    s.case("receive: stopped after one frame, and at once")
    for status, length in STOPPING:
        at = s.account.rx
        s.frame(at, 3, 64)
        s.frame(at + 1, status, length)
        s.receive(2)
        s.receive(2)
        s.add("release", 7, s.host.lists[1][0], 0, 64)
    s.look()
    s.case("receive: to no buffer")
    for slot in range(s.account.rx, s.account.rx + 8):
        s.frame(slot, 3 + 4 * slot, 8 * (slot % 8))
    s.receive(3)
    s.receive(3)
    s.slots(0, 0, 1, 2, 3)
    s.lists(6)
    s.receive(9)
    s.receive(9)
    s.case("receive: no buffer and other reasons")
    for status, length in STOPPING:
        s.frame(s.account.rx, status, length)
        s.receive(0)
        s.receive(2)
    s.look()
    received_packet(s, s.host.lists[1][0])


def received_packet(s, number):
    """A packet that was received: it has no headroom, and a clone is made only once a buffer is free."""
    s.case("headroom and clone of a received packet")
    for asked in (0, 1, 32, 33):
        s.add("headroom", 7, number, 0, 8, asked, s.pool_memory(), 1)
    s.add("clone", 7, number, 0, 64, s.pool_memory())
    s.add("release", 7, number, 0, 8)
    s.add("clone", 7, number, 0, 64, s.pool_memory())


def receive(s):
    """Lists too short in turn, wrong sizes, queues, the largest n, and a receive across slot 511."""
    s.fresh(1100)
    s.entry_addresses()
    s.start(ring=3)
    s.add("ring", 3, 0, bytes([0, 0, 0, 0, 0, 0, 0, 0, 3, 0, 0, 0, 9, 0, 0, 0] * SLOTS))
    s.case("receive: a list too short")
    for n in (1, 4, 512, U64):
        for rooms in one_too_short(min(n, SLOTS)):
            s.receive(n, ring=3, rooms=rooms)
            s.receive(n, ring=3, queue=1, rooms=rooms)
    s.case("receive: wrong lengths and queues")
    for size, entries in wrong_lengths(1100):
        s.receive(4, ring=3, size=size, entries=entries)
    for queue in (1, 4, U64):
        s.receive(4, ring=3, queue=queue)
    s.case("receive: across the end of the ring")
    s.receive(500, ring=3, rooms=(600, 500, 501, 65535))
    s.receive(2, ring=3)
    s.receive(10, ring=3)
    s.look()
    s.frame(0, 3, 10, ring=3)
    s.frame(1, 3, 11, ring=3)
    s.receive(U64, ring=3)
    s.receive(U64, ring=3)
    s.lists(12)
    s.slots(3, 0, 1, 2, 511)
    s.look()


# ---- send


def send(s):
    """Sends to every refusal: sizes, queues, lists, each field of a handle wrong at some index, an id twice."""
    s.fresh(600, sends=2)
    s.entry_addresses()
    s.start()
    s.batch(10, 16)
    sent, *good = list(zip(*(s.host.lists[held][:10] for held in range(LISTS))))
    s.send(4)
    good = good[3:]
    s.handles(good)
    s.case("send: wrong lengths, queues and lists")
    for size, entries in wrong_lengths(600):
        s.send(6, size=size, entries=entries)
    for queue in (2, 3, 4, U64):
        s.send(6, queue=queue)
    for rooms in one_too_short(6, (0, 2, 3)):
        s.send(6, rooms=rooms)
        s.send(6, queue=2, rooms=rooms)
    s.case("send: a bad handle")
    wrong = [*wrong_handles(s.account, good[2][1]), sent, (7, s.account.slots[5], 0, 8), good[1], good[0]]
    for k, handle in enumerate(wrong):
        for at in (2, k % 2 * 5):
            s.handles(good)
            s.handles([handle], at)
            s.send(6)
    s.look()


def send_done(s):
    """Sends of lists of other lengths and of none, on two queues."""
    s.fresh(600, 2048, sends=4)
    s.entry_addresses()
    s.batch(12, 2016)
    s.send(0, rooms=(9, 0, 0, 7))
    s.send(2, rooms=(9, 2, 2, 7))
    s.add("list", 1, 0, s.host.lists[1][2:12])
    s.add("list", 2, 0, [32, 0, 32, 0])
    s.add("list", 3, 0, [0, 2048, 2016, 1])
    s.send(4, queue=3, ring=4)
    s.slots(1, 0, 1, 2)
    s.slots(4, 0, 1, 2, 3, 4)
    s.add("counts")
    s.look()


def cleaning(s):
    """Cleaning of part of a ring, and of a full one."""
    cleaning_of_some(s)
    cleaning_of_a_full_ring(s)


def cleaning_of_some(s):
    """Pending 31, 32, 63 and 64 with none, all or only some bits set."""
    s.case("cleaning of 31, 32, 63 and 64")
    s.fresh(1100, sends=4)
    s.entry_addresses()
    for queue, n in enumerate((31, 32, 63, 64)):
        s.batch(n)
        s.send(n, queue=queue, ring=1 + queue)
        s.send(0, queue=queue, ring=1 + queue)
    for queue in range(4):
        for slot in (0, 30, 32, 62, 63, 31):
            s.done_byte(slot, ring=1 + queue)
            s.done_byte(slot + 64, 0xFE, ring=1 + queue)
            s.send(0, queue=queue, ring=1 + queue)
    s.look()
    s.array("free_ids", 1000, 100)


def cleaning_of_a_full_ring(s):
    """511 pending, all of them done, and round the ring."""
    s.case("cleaning of 511")
    s.fresh(1100)
    s.batch(600)
    s.send(600)
    s.send(0)
    s.add("list", 1, 0, s.host.lists[1][511:600])
    s.send(3)
    for slot in range(31, SLOTS, 32):
        s.done_byte(slot)
    s.send(40)
    s.look()
    s.batch(1)
    s.add("list", 1, 0, s.account.ids_out())
    s.send(50)
    s.slots(1, 0, 37, 38, 510, 511)
    s.look()


def descriptors(s):
    """A buffer offered at slot 0 of the receive ring, and a packet of 60 bytes at slot 1 of a send ring, as the card gets them."""
    s.case("a receive descriptor")
    s.fresh(514, 2048)
    s.add("take", 60)
    s.add("take", 60)
    s.add("addresses", 511, [0x7F0012345800, 0x7F0012346000])
    s.start()
    s.slots(0, 0)
    s.case("a send descriptor")
    s.handles([(7, 513, 32, 60), (7, 512, 32, 60)])
    s.send(2)
    s.slots(1, 1)
