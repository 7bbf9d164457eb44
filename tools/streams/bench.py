"""Worked streams for document 01's bench program, and steady traffic for measuring it. They are the same on every run."""
import struct

from model.bench import DONE_BIT, FORMS, FRAME, FRESH, RECEIVE, RELEASE, SEND, START, TAKE, Bench, record
from model.framing import framed, records
from model.limits import BATCH, SIZES, SLOTS

# ---- records


def fresh(entries=600, size=2048, sends=1):
    return record(FRESH, entries, size, sends)


def start():
    return record(START)


def take(size=60):
    return record(TAKE, size)


def takes(n, size=60):
    return take(size) * n


def release(number):
    return record(RELEASE, number)


def done(queue, slots):
    return b"".join(record(DONE_BIT, queue, slot % SLOTS) for slot in slots)


def frames(slots, status=3, length=64):
    return b"".join(record(FRAME, slot % SLOTS, status, length) for slot in slots)


def receive(n):
    return record(RECEIVE, n)


def send(queue, ids):
    ids = list(ids)
    return record(SEND, queue, len(ids), ids)


def down(high, n):
    """The ids that so many takes get, from the highest free one down."""
    return range(high, high - n, -1)


class BenchStream:
    """A stream that grows, with the model after it beside it."""

    def __init__(self):
        self.bytes, self.bench = bytearray(), Bench()

    @property
    def account(self):
        return self.bench.account

    def add(self, some):
        """Some more records."""
        self.bytes += some
        for kind, body in records(some):
            self.bench.answer(kind, body)


# ---- each kind, done and refused


def example():
    """Document 01's example."""
    return fresh() + start() + take() + send(0, [87]) + release(87) + frames([0]) + receive(4)


def fresh_refused():
    """Each number of a fresh account outside its range, and then one with the largest."""
    outside = [(0, 2048, 1), (4097, 2048, 1), (65535, 0, 0), (1, 1, 0), (1, 32, 0), (1, 63, 0), (1, 65, 0), (1, 96, 0)]
    outside += [(1, 32768, 0), (1, 65536, 0), (1, 65600, 0), (1, 2**32 - 1, 0), (1, 64, 5), (1, 64, 65535), (0, 1, 9)]
    return b"".join(fresh(*numbers) for numbers in outside) + fresh(4096, 0, 4) + take(2016) + take(2017)


def each_size():
    """Each entry size, with the largest packet that it has room for and one byte more."""
    return [fresh(2, size, 0) + take(size - 32) + take(size - 31) + take(0) for size in SIZES]


def starts():
    """Starts with too few free, and twice."""
    few = [fresh(entries) + start() + start() for entries in (1, 511, 512, 513)]
    return few + [fresh(520) + takes(9) + start() + release(519) + start() + start() + take() + start()]


def takes_refused():
    """5 before 6, and an oversize before the last one is taken."""
    return fresh(3, 64, 0) + take(33) + takes(3, 32) + take(32) + take(33) + take(2**32 - 1) + release(0) + take(32)


def releases():
    """Ids that are out, free, past the entries, of the ring, received and sent."""
    ids = [599, 600, 4095, 4096, 65535, 0, 599]
    stream = fresh() + takes(2) + release(599) + b"".join(map(release, ids)) + release(598) + take() + start() + release(598)
    stream += frames([0], 3, 2048) + receive(1) + release(598) + release(599) + release(599)
    return stream + takes(2) + send(0, [86]) + release(86) + release(599)


def sends_refused():
    """Never seen, twice, free again, no entry, no such queue, and 3 before 4."""
    stream = fresh(600, 2048, 2) + takes(6) + release(594) + send(0, [599, 594])
    lists = [(0, [0]), (0, [599, 598, 599]), (0, [599, 599]), (1, [599, 600]), (1, [599, 4096]), (1, [65535]), (2, [599]), (65535, [0]), (2, [])]
    return stream + b"".join(send(*listed) for listed in lists) + send(1, [597, 599]) + send(0, [599, 598])


def sends_nothing():
    """Sends of none, and a second fresh."""
    return fresh(1, 64, 1) + send(0, []) + send(1, []) + fresh(1, 64, 1) + send(0, [])


def no_queues():
    """An account with no send queue."""
    return fresh(700, 64, 0) + send(0, []) + send(0, [5]) + take(1) + start() + frames([0], 3, 64) + receive(1) + done(0, [0])


# ---- the rings


def stops():
    """Each reason for a receive to stop, and the order of the tests."""
    stream = fresh(514, 128, 1) + receive(0) + receive(5) + start() + receive(0) + receive(5)
    seen = [(0, 64), (2, 64), (4, 64), (1, 64), (0xFFFFFFFD, 64), (1, 129), (2, 129), (3, 129), (3, 65535), (0xFFFFFFFF, 129)]
    stream += b"".join(frames([0], status, length) + receive(3) + receive(0) for status, length in seen)
    # one asked, not done after two, then no buffer: too long comes before it, and a release ends it
    stream += frames([0], 3, 128) + frames([1], 0xFFFFFFFF, 0) + frames([2], 7, 1) + receive(1) + receive(2**32 - 1) + receive(9)
    return stream + frames([2], 3, 129) + receive(9) + frames([2], 3, 1) + receive(0) + release(513) + receive(9) + receive(9)


def frames_before_start():
    """A start writes zero over what the card put there."""
    return fresh() + frames(range(4)) + receive(4) + start() + receive(4) + frames([0, 2]) + receive(4)


def cleaning(n, slots):
    """So many sent, some of their slots done, and a send of nothing."""
    return fresh(600, 64, 1) + takes(n, 8) + send(0, down(599, n)) + done(0, slots) + send(0, []) + send(0, []) + take(8)


def done_before_sent():
    """A send writes its own word over an old bit."""
    stream = fresh(600, 64, 1) + done(0, range(SLOTS)) + takes(40, 8) + send(0, down(599, 40))
    return stream + send(0, []) + done(0, [31]) + send(0, [])


def full_ring():
    """510 and 511 pending: room 1 and 0; then 32 are cleaned at a time and the ring wraps."""
    ids = list(down(1099, 620))
    stream = fresh(1100, 64, 1) + takes(620, 8) + send(0, ids[:510]) + send(0, ids[510:513]) + send(0, ids[511:513]) + send(0, [])
    stream += done(0, [30]) + send(0, ids[511:513]) + done(0, [31]) + send(0, ids[511:514]) + send(0, ids[514:600])
    stream += done(0, range(SLOTS)) + send(0, ids[543:550]) + send(0, ids[550:552]) + takes(3, 9)
    return stream + done(0, [31, 63]) + send(0, ids[552:553]) + send(0, [])


def receive_wraps():
    """Three times round the receive ring, by parts that do not divide it. What was received is given back."""
    s, at = BenchStream(), 0
    s.add(fresh(1100, 64, 1) + start())
    for n in (500, 30, 511, 512, 1, 96):
        s.add(frames(range(at, at + n), 3, at % 65) + receive(n - 1) + receive(n + 5))
        s.add(b"".join(map(release, s.account.ids_out())))
        at += n
    return s.bytes


def receive_no_buffer():
    """A full ring of frames with a few buffers."""
    return fresh(520, 64, 1) + start() + frames(range(SLOTS)) + receive(SLOTS) + release(519) + release(518) + receive(SLOTS)


def four_queues():
    """Sends on four queues, and done bits that free what another queue's do not."""
    stream = fresh(4096, 256, 4) + start() + takes(200, 100)
    ids = list(down(3583, 200))
    for k in range(50):
        stream += b"".join(send(queue, [ids[4 * k + queue]]) for queue in range(4))
    stream += b"".join(done(queue, range(8 * queue + 16)) + send(queue, []) for queue in range(4)) + send(4, [])
    return stream + b"".join(done(queue, [31, 63]) + send(3 - queue, []) for queue in range(4)) + takes(2)


def stale():
    """An id that is out again has its newest handle; one that is away has a handle that is not good."""
    stream = fresh(600, 2048, 1) + take(2016) + release(599) + send(0, [599]) + take(0) + send(0, [599]) + release(599)
    stream += start() + frames([0, 1], 3, 2048) + receive(2) + release(598) + release(597) + take(5) + send(0, [597]) + send(0, [598])
    # 30 more, and all 32 come back: the last is on top
    stream += takes(31) + send(0, down(84, 30)) + done(0, [31]) + send(0, []) + send(0, [599]) + take(2016) + send(0, [55]) + takes(31) + release(599)
    return stream + send(0, [599]) + release(598) + send(0, [598])


def long_sends():
    """More ids than entries: at least one is not good; the most that a record holds."""
    taken = fresh(4096, 64, 1) + takes(4096, 1)
    over = taken + send(0, [*range(4096), 4095]) + send(0, [*range(4096), 0]) + send(0, range(4097)) + send(0, range(4096)) + send(0, range(4096))
    return [over, fresh(1, 64, 1) + take(1) + send(0, [0] * 32764) + send(1, range(32764)) + send(0, [0])]


# ---- streams that end in a bad record


def cut_short():
    """Cut in the length, in the kind and in the body, at the start and later; with no kind, or half of one."""
    before = fresh(600, 2048, 2) + start()
    cut = []
    for begin, last in ((b"", fresh()), (fresh(), take()), (before, send(1, [1, 2, 3]))):
        cut += [begin + last[:end] for end in range(1, len(last))]
    return cut + [before + b"\0\0", before + b"\1\0\2", b"\0\0", b"\1\0\1" + fresh()]


def of_a_wrong_kind_or_length():
    """Unknown kinds, also one that is cut short, and wrong lengths of each kind."""
    before = fresh(600, 2048, 2) + start()
    streams = [begin + framed(kind, b"") + take() for kind in (0, 9, 256, 257, 65535) for begin in (b"", before)]
    streams += [framed(9, b"1234")[:-1]]
    for kind, form in FORMS.items():
        size = struct.calcsize("<" + form)
        begin = b"" if kind == FRESH else before
        streams += [begin + framed(kind, bytes(wrong)) + take() for wrong in (size - 1, size + 1, size + 2) if wrong >= 0]
    # a send of fewer and of more ids than it says
    return streams + [before + record(SEND, 0, count, [1]) for count in (0, 2, 65535)]


def out_of_place():
    """Slots and queues that are not there, and records before and after a fresh that answered 0."""
    before = fresh(600, 2048, 2) + start()
    streams = [before + frames([511]) + record(FRAME, slot, 3, 64) + take() for slot in (512, 65535)]
    streams += [before + done(1, [511]) + record(DONE_BIT, queue, slot) for queue, slot in ((1, 512), (0, 65535), (2, 0), (65535, 0), (2, 512))]
    others = [start(), take(), release(0), record(DONE_BIT, 0, 0), record(FRAME, 0, 3, 64), receive(0), send(0, [])]
    streams += [begin + other + take() for other in others for begin in (b"", fresh(0))]
    return streams + [before + fresh() + take(), fresh() + fresh(0), fresh(0) + fresh() + take() + fresh()]


# ---- all


def worked_streams():
    """Every worked stream."""
    streams = [example(), b"", fresh_refused(), *each_size(), *starts(), takes_refused(), releases(), sends_refused(), sends_nothing(), no_queues()]
    streams += [stops(), frames_before_start()]
    streams += [cleaning(n, range(SLOTS)) for n in (31, 32, 63, 64)]
    streams += [cleaning(64, slots) for slots in ([31], [63], range(31), range(32, 64), range(63))]
    streams += [done_before_sent(), full_ring(), receive_wraps(), receive_no_buffer(), four_queues(), stale(), *long_sends()]
    return streams + cut_short() + of_a_wrong_kind_or_length() + out_of_place()


def behind_lengths(streams):
    """Streams that stand each behind a u32 length, as `benches` reads them."""
    return b"".join(struct.pack("<I", len(stream)) + stream for stream in streams)


def steady_records():
    """Records of steady traffic, without end: rounds of 32 frames, a receive of 32, a send of what was received and its 32 done bits."""
    entries = 2048
    free = list(range(entries))
    slots = [free.pop() for _ in range(SLOTS)]
    yield fresh(entries)
    yield start()
    at, waiting = 0, []
    while True:
        places = range(at, at + BATCH)
        ids = [slots[place] for place in places]
        slots[at : at + BATCH] = [free.pop() for _ in places]
        free += waiting
        waiting = ids
        yield from (frames([place], 3, 60 + place) for place in places)
        yield receive(BATCH)
        yield send(0, ids)
        yield from (done(0, [place]) for place in places)
        at = (at + BATCH) % SLOTS
