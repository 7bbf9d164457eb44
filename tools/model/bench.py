"""What the programs `bench` and `benches` must print, by document 01's "The bench program" and docs/DECISIONS.md (D30)."""
from model import account as rules
from model import framing
from model.account import Handle
from model.framing import sure
from model.limits import RING_BYTES, SENDS, SLOT_BYTES, SLOTS
from model.refusals import NO_QUEUE, Refused, need

FRESH, START, TAKE, RELEASE, DONE_BIT, FRAME, RECEIVE, SEND = range(1, 9)
FORMS = {FRESH: "HIH", START: "", TAKE: "I", RELEASE: "H", DONE_BIT: "HH", FRAME: "HIH", RECEIVE: "I", SEND: "HH"}  # by the letters of `struct`
UNITS = {SEND: 2}  # a send's body ends in ids


class Bench:
    """The state between two records: an account once a fresh one answered 0, the rings, and the last handle of each id."""

    def __init__(self):
        self.account, self.last = None, {}
        self.receive_ring, self.send_rings = bytearray(RING_BYTES), [bytearray(RING_BYTES) for _ in range(SENDS)]
        self.calls = {
            FRESH: self.fresh,
            START: self.start,
            TAKE: self.take,
            RELEASE: self.release,
            DONE_BIT: self.done_bit,
            FRAME: self.frame,
            RECEIVE: self.receive,
            SEND: self.send,
        }

    def addresses(self):
        return [0] * self.account.entries

    def handle(self, number):
        """The last handle of an id; of one that was never seen, offset 0 and length 0."""
        return self.last.get(number, Handle(self.account.pool, number, 0, 0))

    def fresh(self, entries, size, sends):
        sure(self.account is None)
        self.account = rules.fresh(0, entries, size, 1, sends)
        return 0

    def start(self):
        return rules.start(self.account, 0, self.receive_ring, self.addresses())

    def take(self, size):
        handle = rules.take(self.account, size)
        self.last[handle.id] = handle
        return handle.id

    def release(self, number):
        rules.release(self.account, self.handle(number))
        return number

    def done_bit(self, queue, slot):
        sure(queue < self.account.sends and slot < SLOTS)
        self.send_rings[queue][slot * SLOT_BYTES + 12] |= 1
        return 0

    def frame(self, slot, status, length):
        sure(slot < SLOTS)
        rules.put_word(self.receive_ring, slot * SLOT_BYTES + 8, 4, status)
        rules.put_word(self.receive_ring, slot * SLOT_BYTES + 12, 2, length)
        return 0

    def receive(self, n):
        lists = [[0] * SLOTS for _ in range(4)]
        _, count, _ = rules.receive(self.account, 0, self.receive_ring, self.addresses(), n, lists)
        handles = list(map(Handle, *lists))[:count]
        self.last |= {handle.id: handle for handle in handles}
        return count

    def send(self, queue, count, *ids):
        sure(len(ids) == count)
        need(queue < self.account.sends, NO_QUEUE)
        handles = [self.handle(number) for number in ids]
        lists = [[handle[field] for handle in handles] for field in range(4)]
        sent, _ = rules.send(self.account, queue, self.send_rings[queue], self.addresses(), lists)
        return sent

    def hands(self):
        """What the free stack, the receive ring, all send queues and the application have; zeros where there is no account."""
        if self.account is None:
            return [0] * 4
        free, receive, queues, out = self.account.counts()
        return [free, receive, sum(queues), out]

    def answer(self, kind, body):
        """What follows a record's number on its line."""
        sure(kind in FORMS)
        numbers = framing.unpacked(FORMS[kind], UNITS.get(kind, 0), body)
        sure(kind == FRESH or self.account is not None)
        number = value = 0
        try:
            value = self.calls[kind](*numbers)
        except Refused as why:
            number = why.args[0]
        return [kind, number, value, *self.hands()]


def record(kind, *values):
    """A record's bytes. The ids of a send are given as one list."""
    return framing.framed(kind, framing.packed(FORMS[kind], UNITS.get(kind, 0), values))


def lines(stream):
    """What `bench` prints of a stream."""
    return framing.lines(stream, Bench().answer)


def lines_of_each(streams):
    """What `benches` prints of streams that stand each behind a u32 length: the lines of each, and a line of two dashes."""
    at = 0
    while at < len(streams):
        begin = at + 4
        at = begin + int.from_bytes(streams[at:begin], "little")
        yield from lines(streams[begin:at])
        yield "--"
