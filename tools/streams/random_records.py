"""Random streams for `replay` by a seed: records on account, rings and packet memory, with records on the registers between them."""
import random

from model.limits import HEADROOM, RING_BYTES, SENDS, SLOTS, U64
from model.replay import ACCOUNT_ARRAYS, ACCOUNT_FIELDS, LISTS, MEMORY, PLACES, RINGS
from streams.random_registers import random_register_record
from streams.stream import Stream


class RandomStream(Stream):
    """Random records, most of them such that something happens."""

    def __init__(self, seed, memory=MEMORY):
        super().__init__(memory)
        self.dice = random.Random(seed)
        self.undo = None  # the forged field that is to be set back: its name, value and place

    def mostly(self, usual, *others):
        """The usual one, or now and then another."""
        return usual if self.dice.random() < 0.93 else self.dice.choice(others)

    # ---- arguments

    def handle(self, ids=None):
        """Mostly a good handle, of one of some ids or of any that is out."""
        dice, size, ids = self.dice, min(self.account.size, 65535), ids or self.account.ids_out()
        number = self.mostly(dice.choice(ids) if ids else 0, 0, min(self.account.entries, 65535), dice.randrange(65536), dice.randrange(600))
        offset = self.mostly(dice.choice((0, HEADROOM)), 1, 31, 33, 64, 65535)
        length = self.mostly(dice.randrange(size - min(offset, size) + 1), size - 31 if size > 31 else 0, size, 65535, 0)
        return (self.mostly(self.account.pool, self.account.pool ^ 1, 0), number, offset, length)

    def lent_addresses(self):
        entries = min(self.account.entries, 65534)
        return self.mostly(entries, entries + 1, max(0, entries - 1), 0)

    def lent_ring(self):
        return self.mostly(RING_BYTES, RING_BYTES - 1, RING_BYTES + 1, 0, 2 * RING_BYTES, 65535)

    def rooms(self, n):
        return [self.mostly(n, max(0, n - 1), n + 1, 5000, 65535) for _ in range(LISTS)]

    # ---- records of one sort

    def new_account(self):
        """A fresh account, in most cases with addresses and a started ring."""
        dice, sound = self.dice, False
        while not sound:
            entries = dice.choice((5, 9, 40, 511, 512, 520, 530, 560, 700, 1024))
            size = dice.choice((64, 128) if self.room <= MEMORY else (64, 128, 0, 4096, 16384))
            queues = self.mostly(1, 0, 2), dice.choice((1, 2, 4, 4, 0))
            self.fresh(self.mostly(entries, 0, 4096, 4097, U64), size, *queues, dice.choice((7, 2**32 - 1)))
            self.undo = None
            sound = self.account.sound()
            if not sound:
                self.each_call()
        self.addresses(self.account.entries, dice.getrandbits(64), dice.choice((64, 2048, 0)))
        if dice.random() < 0.8:
            self.start()

    def card_receives(self):
        """The card writes some frames from the rx index on."""
        dice = self.dice
        for k in range(dice.randrange(1, 7)):
            length = self.mostly(dice.randrange(min(self.account.size, 16384) + 1), self.account.size % 65535 + 1, 65535)
            self.frame((self.account.rx + k) % SLOTS, self.mostly(3, 0, 1, 2, 7, 0xFFFFFFFF), length)

    def card_sends(self):
        """The card sets a bit where cleaning looks, or beside it."""
        queue = self.dice.randrange(SENDS)
        slot = (self.account.clean[queue] + self.mostly(31, 0, 30, 32)) % SLOTS
        self.done_byte(slot, self.mostly(1, 0, 0xFF, 2), ring=1 + queue)

    def receiving(self):
        n = self.dice.choice((0, 1, 2, 4, 8, 64, 512, U64))
        self.receive(n, self.mostly(0, 1, U64), 0, self.lent_ring(), self.lent_addresses(), self.rooms(min(n, SLOTS)))

    def sending(self):
        """A send of a new batch, or of some ids that are out."""
        dice, ids = self.dice, self.account.ids_out()
        if dice.random() < 0.5 or not ids:
            n = dice.choice((1, 2, 5, 32, 33, 64, 200))
            count = self.batch(n, dice.randrange(33), [n] * LISTS)[1]
        else:
            some = dice.sample(ids, min(len(ids), dice.choice((1, 2, 3, 8, 12))))
            self.handles([self.handle([number]) for number in some])
            count = len(some)
        queue = dice.randrange(SENDS)
        self.send(count, self.mostly(queue, 4, U64), 1 + queue, self.lent_ring(), self.lent_addresses(), self.rooms(count))

    def batching(self):
        self.batch(self.dice.choice((0, 1, 9, 40, U64)), self.mostly(8, 33), self.rooms(min(40, self.account.entries)))

    def taking(self):
        self.add("take", self.mostly(self.dice.randrange(33), 33, 96, 97, U64))

    def releasing(self):
        self.add("release", *self.handle())

    def truncating(self):
        self.add("truncate", *self.handle(), self.dice.choice((0, 1, 20, 64, U64)))

    def starting(self):
        self.start(entries=self.lent_addresses())

    def on_memory(self):
        """A view, a clone or a headroom."""
        size = min(self.pool_memory(), self.room)
        lent = self.mostly(size, max(0, size - 1), min(size + 1, self.room), 0, self.room)
        word = self.dice.choice(("view", "clone", "headroom"))
        if word == "headroom":
            asked = self.mostly(self.dice.randrange(33), 32, 33, U64)
            self.add(word, *self.handle(), asked, lent, self.dice.randrange(256))
        else:
            self.add(word, *self.handle(), lent)

    def on_registers(self):
        random_register_record(self, self.dice)

    def filling(self):
        """Some bytes of packet memory."""
        at = self.dice.randrange(min(self.pool_memory(), self.room) + 1)
        self.add("memory", at, self.dice.randbytes(min(self.dice.randrange(1, 64), self.room - at)))

    def forging(self):
        """One value is forged, and taken back after a few records; or the last one is."""
        if self.undo:
            self.forge(*self.undo)
            self.undo = None
            return
        dice = self.dice
        name = dice.choice(list(ACCOUNT_FIELDS))
        place = dice.randrange(len(getattr(self.account, name))) if name in ACCOUNT_ARRAYS else 0
        if name in ("free_ids", "hands") and dice.random() < 0.8:
            place = dice.randrange(max(1, min(self.account.entries, 4096)))
        old = self.value_of(name, place)
        self.undo = (name, old, place)
        self.forge(name, dice.choice((old ^ 1, old + 1 & U64, max(0, old - 1), old ^ 32, 0, 512, 2, dice.randrange(1100), U64)), place)
        self.add("sound")

    def showing(self):
        """A look at something."""
        dice, at = self.dice, self.dice.randrange(min(40000, self.room) + 1)
        array = dice.randrange(RINGS + LISTS + 1)
        most = min(self.room, PLACES) if array == RINGS + LISTS else PLACES
        self.add(*dice.choice((
            ("account",),
            ("account",),
            ("slot", dice.randrange(RINGS), dice.choice((dice.randrange(520), dice.randrange(4096)))),
            ("places", dice.randrange(LISTS), dice.randrange(70), dice.randrange(9)),
            ("bytes", at, min(dice.randrange(40), self.room - at)),
            ("array", dice.randrange(8, 12), dice.randrange(500), dice.randrange(9)),
            ("digest", array, min(most, dice.choice((0, 1, 40, RING_BYTES, RING_BYTES, dice.randrange(PLACES), PLACES)))),
            ("counts",),
            ("sound",),
        )))

    # ---- streams

    def turn(self):
        """A few records of one sort."""
        sorts = {self.receiving: 20, self.card_receives: 15, self.sending: 15, self.card_sends: 14, self.on_memory: 16, self.releasing: 25}
        sorts |= {self.taking: 10, self.truncating: 5, self.batching: 3, self.filling: 3, self.starting: 1, self.new_account: 0.4, self.showing: 8}
        sorts |= {self.forging: 30 if self.undo else 4, self.on_registers: 25}
        self.dice.choices(list(sorts), list(sorts.values()))[0]()

    def turns(self, count):
        """A fresh account and random records, until there are so many more."""
        end = self.count + count
        self.new_account()
        while self.count < end:
            self.turn()
        self.look()


def random_stream(seed, count, memory=MEMORY):
    """Some random records, by their seed."""
    s = RandomStream(seed, memory)
    s.turns(count)
    return s
