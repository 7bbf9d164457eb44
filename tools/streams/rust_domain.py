"""Scripts for the comparison with the Rust's rings: random records inside document 01's domain, the card's writes among them.

Some calls that docs/DIFFERENCES.md lists are made too, and a script ends where the Rust's state would be another than the account's.
"""
import random
import struct
from collections import Counter

from model.limits import BATCH, HEADROOM, RING_BYTES, SLOT_BYTES, SLOTS, U64, USUAL_SIZE
from model.replay import LISTS, MEMORY, RINGS
from streams.stream import Stream

# entries and size of a pool
POOLS = [(entries, 64) for entries in (1, 40, 511, 512, 544)] + [(entries, 64) for entries in (600, 700, 1024, 1100, 1600, 2048)] * 4
POOLS += [(1530, 0), (700, 2048), (1100, 1024), (4096, 64), (1700, 512), (900, 16384), (600, 4096), (3000, 128), (1300, 256)]
LARGE_POOLS = [(4096, 0), (2049, 0), (900, 16384), (1530, 4096), (4096, 4096), (4096, 16384), (600, 16384)]  # above the memory of `replay`
MANY = (0, 1, 2, 5, 31, 32, 33, 64, 200, 511, 512, 513, 600)
MOST_BYTES = 60000  # of packet memory in a record


class Script(Stream):
    """Random records, the live packets' offsets and lengths by their ids, and what the script reached."""

    def __init__(self, seed, memory):
        super().__init__(memory)
        self.dice, self.live = random.Random(seed), {}
        self.calls, self.reached = Counter(), Counter()

    def call(self, word, *given):
        """A call, its answer, and now and then the free stack after it."""
        answer = self.add(word, *given)
        self.calls[word] += 1
        depth = self.account.depth
        if word not in ("view", "truncate", "headroom", "counts"):
            count = depth if self.dice.random() < 0.07 else min(depth, 40)
            self.array("free_ids", depth - count, count)
        return answer

    def parts_of_memory(self):
        """Where each part of the pool's memory begins that a record can set or show, and its length."""
        whole = self.pool_memory()
        return [(at, min(MOST_BYTES, whole - at)) for at in range(0, whole, MOST_BYTES)]

    def new_pool(self):
        """A fresh pool over what the memory, the rings and the addresses hold; in most cases a started ring."""
        dice = self.dice
        for at, count in self.parts_of_memory():  # the Rust clears its memory
            self.add("memory", at, bytes(count))
        entries, size = dice.choice(POOLS if self.room <= MEMORY else LARGE_POOLS)
        first = dice.choice((dice.getrandbits(64), 2**64 - 300 * 64, 2**64 - 20))  # they may pass 2^64
        usual = size or USUAL_SIZE
        self.addresses(entries, first, dice.choice((usual, usual, 4096, 0, dice.getrandbits(64))))
        for ring in range(RINGS):
            self.add("ring", ring, 0, dice.randbytes(RING_BYTES))
        self.call("fresh", dice.getrandbits(32), entries, size, dice.choice((1, 1, 1, 1, 0)), dice.choice((1, 1, 2, 4)))
        self.live = {}
        self.show_memory(0.2)
        if self.account.receives and entries >= SLOTS and dice.random() < 0.9:
            self.call("start", 0, 0, RING_BYTES, entries)
            self.show_ring(0)

    def handle(self, number):
        return (self.account.pool, number, *self.live[number])

    def live_handle(self):
        """A live packet's handle, if there is one."""
        return self.handle(self.dice.choice(list(self.live))) if self.live else None

    def listed(self, count):
        """What the lists have at their begin is live."""
        _, ids, offsets, lengths = self.host.lists
        self.live |= {ids[k]: (offsets[k], lengths[k]) for k in range(count)}
        self.lists(count)

    # ---- the pool

    def length(self):
        """A length that a packet may have."""
        most = self.account.size - HEADROOM
        return self.dice.choice((0, 1, most - 1, most, self.dice.randrange(most + 1)))

    def taking(self):
        size = self.dice.choice([self.length()] * 9 + [self.account.size - 31, self.account.size, U64])
        number, _, *handle = self.call("take", size)[:5]
        if number == 0:
            self.live[handle[0]] = (handle[1], handle[2])

    def batching(self):
        self.batch_of(self.dice.choice((*MANY[:8] * 2, *MANY, U64)))

    def batch_of(self, n):
        size = self.dice.choice([self.length()] * 15 + [self.account.size - 31])
        _, count, *_ = self.call("batch", n, size, *[min(max(n, 1), self.account.entries)] * LISTS)
        self.listed(count)

    def releasing(self):
        """Some packets are dropped."""
        count = self.dice.choice((1, 1, 2, 5, 40) if self.account.depth else (5, 40))
        for number in self.dice.sample(list(self.live), min(len(self.live), count)):
            self.call("release", *self.handle(number))
            del self.live[number]

    def counting(self):
        self.call("counts")

    def truncating(self):
        handle = self.live_handle()
        if handle:
            _, number, offset, length = handle
            size = self.dice.choice((0, 1, 20, length + 1, max(0, length - 1), 2**16, U64))
            *_, length = self.call("truncate", *handle, size)
            self.live[number] = (offset, length)

    # ---- packet memory, as far as there is so much

    def on_memory(self):
        """A view, a clone, a headroom, or bytes of a packet."""
        dice, handle, size = self.dice, self.live_handle(), self.pool_memory()
        if not handle or size > self.room:
            return
        word = dice.choice(("view", "clone", "clone", "headroom", "fill"))
        if word == "headroom":
            asked = dice.choice((0, 1, 31, 32, dice.randrange(33), dice.choice((33, U64))))
            self.call(word, *handle, asked, size, dice.randrange(256))
        elif word == "fill":
            self.add("memory", handle[1] * self.account.size + handle[2], dice.randbytes(min(handle[3], 3000)))
        elif word == "clone":
            self.cloning(handle, size)
        else:
            self.call(word, *handle, size)

    def cloning(self, handle, size):
        """A clone, and a view of it."""
        number, _, *other = self.call("clone", *handle, size)[:5]
        if number == 0:
            self.live[other[0]] = (other[1], other[2])
            self.call("view", self.account.pool, *other, size)

    def show_memory(self, chance):
        """All of packet memory, now and then."""
        if self.pool_memory() <= MEMORY and self.dice.random() < chance:
            for at, count in self.parts_of_memory():
                self.add("bytes", at, count)

    # ---- the receive ring

    def card_receives(self):
        """The card fills slots from the rx index on, in one piece; a later one may stay open."""
        dice, most = self.dice, min(self.account.size, 65535)
        for k in range(dice.choice((*MANY[1:-2], 100, 200, 300))):
            slot = (self.account.rx + k) % SLOTS
            status = dice.choice((3, 3, 3, 3, 3, 3, 7, 0x23, 0xFFFFFFFF, dice.getrandbits(32) | 3))
            if dice.random() < 0.004:
                status = dice.choice((0, 2, dice.getrandbits(32) & ~1))
            length = dice.choice((60, most, 0, most - 1, dice.randrange(most + 1)))
            self.add("ring", 0, slot * SLOT_BYTES, dice.randbytes(8) + struct.pack("<IH", status, length) + dice.randbytes(2))
            if self.pool_memory() <= self.room and dice.random() < 0.05:
                self.add("memory", self.account.slots[slot] * self.account.size, dice.randbytes(min(length, 200)))

    def receiving(self):
        """A receive, mostly after the card's writes."""
        if not self.account.started:
            self.receive_too_early()
            return
        if self.dice.random() < 0.6:
            self.card_receives()
        n, slot = self.dice.choice((*MANY, U64, U64)), self.account.rx
        _, count, *_ = self.call("receive", 0, 0, RING_BYTES, self.account.entries, n, *[min(n, SLOTS)] * LISTS)
        self.listed(count)
        self.reached["receives across the end"] += slot + count > SLOTS
        self.show_slots(0, slot, count)

    # ---- the send rings

    def card_sends(self, queue):
        """The card says done, at all pending slots of a queue or some."""
        dice, clean, pending = self.dice, self.account.clean[queue], self.account.pending(queue)
        end = dice.choice((pending, pending, dice.randrange(pending + 1), pending // BATCH * BATCH))
        odds, only_last = dice.choice((1, 1, 1, 0.97, 0.5)), dice.random() < 0.15  # only the slots where cleaning looks
        for k in range(end):
            done = k % BATCH == BATCH - 1 if only_last else dice.random() < odds
            status = dice.choice((int(done), dice.getrandbits(31) << 1 | done))
            self.add("ring", 1 + queue, (clean + k) % SLOTS * SLOT_BYTES + 12, struct.pack("<I", status))

    def wanted(self, queue):
        """How many packets to send: a few, or so many that the pending come to a number of interest."""
        dice, pending = self.dice, self.account.pending(queue)
        batches = BATCH * dice.randrange(pending // BATCH, SLOTS // BATCH)
        target = dice.choice((511, 512, batches, batches, batches - 1, batches + 1, SLOTS - self.account.tx[queue] + pending))
        return dice.choice(MANY) if dice.random() < 0.4 else max(0, target - pending)

    def sending(self):
        """A send of live packets, taken before if there are too few."""
        dice, queue = self.dice, self.dice.randrange(self.account.sends)
        if dice.random() < 0.6:
            self.card_sends(queue)
        n = self.wanted(queue)
        if n > len(self.live) and dice.random() < 0.8:
            self.batch_of(n - len(self.live))
        self.send_ids(queue, dice.sample(list(self.live), min(n, len(self.live))))

    def send_ids(self, queue, ids):
        """A send of some live packets, and the slots that it changed."""
        self.handles([self.handle(number) for number in ids])
        slot, clean = self.account.tx[queue], self.account.clean[queue]
        _, count, *_ = self.call("send", queue, 1 + queue, RING_BYTES, self.account.entries, *[len(ids)] * LISTS)
        for number in ids[:count]:
            del self.live[number]
        self.array("clean", 0, 4)
        self.array("tx", 0, 4)
        batches = (self.account.clean[queue] - clean) % SLOTS // BATCH
        self.reached["sends across the end"] += slot + count > SLOTS
        self.reached["sends that leave 511 pending"] += self.account.pending(queue) == SLOTS - 1
        self.reached["sends of none"] += count == 0
        self.reached["cleanings of one batch"] += batches == 1
        self.reached["cleanings of several batches"] += batches > 1
        self.show_slots(1 + queue, slot, count)

    def forwarding(self):
        """What comes in goes out, and the card is quick."""
        queue = self.dice.randrange(self.account.sends)
        for _ in range(self.dice.randrange(1, 4)):
            self.receiving()
            self.send_ids(queue, list(self.live)[: self.dice.choice((32, 64, 200, 600))])
            self.card_sends(queue)

    # ---- what is shown

    def show_slots(self, ring, first, count):
        """The slots that a call changed and their neighbours, or the whole ring."""
        if count > 300 or self.dice.random() < 0.05:
            self.show_ring(ring)
        else:
            self.slots(ring, *((first + k) % SLOTS for k in range(-1, count + 1)))

    def show_ring(self, ring):
        """All that was lent, a slot after it, and the ids that are in it."""
        self.reached["whole rings"] += 1
        self.slots(ring, *range(SLOTS + 1))
        if ring:
            self.show_sent(ring - 1)
        elif self.account.started:
            self.array("slots", 0, SLOTS)

    def show_sent(self, queue):
        """The pending ids by their slots, up to the end of the ring and from its start."""
        clean, pending = self.account.clean[queue], self.account.pending(queue)
        to_the_end = min(pending, SLOTS - clean)
        self.array("sent", SLOTS * queue + clean, to_the_end)
        self.array("sent", SLOTS * queue, pending - to_the_end)

    # ---- calls that are refused

    def no_queue(self):
        """A queue that is not there."""
        dice = self.dice
        if dice.random() < 0.5:
            self.call("send", dice.choice((self.account.sends, 64, 65535)), 1, RING_BYTES, self.account.entries, 0, 0, 0, 0)
        else:
            self.call("receive", dice.choice((1, 64, 65535)), 0, RING_BYTES, self.account.entries, 1, 1, 1, 1, 1)

    def receive_too_early(self):
        """A receive before the start, on a slot that is not done."""
        if self.account.receives:
            self.add("ring", 0, 8, bytes(4))
            self.call("receive", 0, 0, RING_BYTES, self.account.entries, 1, 1, 1, 1, 1)

    # ---- scripts

    def turn(self):
        """Some calls of one sort."""
        sorts = {self.receiving: 6, self.sending: 11, self.forwarding: 4, self.on_memory: 8, self.taking: 4, self.batching: 1.5, self.releasing: 6}
        sorts |= {self.truncating: 2, self.counting: 1, self.no_queue: 0.5, self.new_pool: 0.3 if self.pool_memory() <= 70000 else 0}
        self.dice.choices(list(sorts), list(sorts.values()))[0]()

    def last_calls(self):
        """Everything once more; then in some scripts a call after which the Rust's state is another."""
        self.call("counts")
        self.array("free_ids", 0, self.account.depth)
        for ring in range(1 + self.account.sends):
            self.show_ring(ring)
        self.show_memory(0.5)
        sort = self.dice.choice(("start", "split", "too long", None))
        if sort == "start" and self.account.receives:
            self.start()
        elif sort and self.account.started:
            self.odd_frame(*((1, 60) if sort == "split" else (3, self.account.size + 1)))

    def odd_frame(self, status, length):
        """A receive of some frames, of one that is not like them, and no more."""
        frames = [(3, 60)] * self.dice.randrange(1, 5) + [(status, length), (0, 0)]
        for k, frame in enumerate(frames):
            self.frame((self.account.rx + k) % SLOTS, *frame)
        self.receive(9)


def script(seed, memory, calls=200):
    """A script by its seed, with so much packet memory."""
    s = Script(seed, memory)
    s.new_pool()
    while s.calls.total() < calls:
        s.turn()
    s.last_calls()
    return s
