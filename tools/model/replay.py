"""What the program `replay` must print of a stream of records, by docs/REPLAY.md. The calls are those of account.py and registers.py.

What a refused call answers beside its number is docs/DECISIONS.md's (D2, D3).
"""
from array import array
from collections import namedtuple

from model import account as rules
from model import card, framing, registers
from model.account import Account, Handle
from model.framing import sure
from model.limits import ENTRIES, SIZES, SLOT_BYTES
from model.refusals import Refused
from model.registers import StartUp, Window

RINGS, LISTS = 5, 4
PLACES = 2**16  # the bytes of a ring, and the places of a list and of the addresses
MEMORY = 2**22  # the bytes of packet memory of `replay`
HOST_MEMORY = ENTRIES * SIZES[-1] + 1  # those that the host in C lends to its stored streams: one more than the largest pool has

# ---- fields that can be forged, in the order of their numbers: a name, and what a value is cut to


def cut_to(bits):
    """A number of so many bits."""
    return lambda value: value % 2**bits


def flag(value):
    """Any value but 0 counts as 1."""
    return int(value != 0)


def kind_of(value):
    """An interrupt kind: 0 is none, else the kind is the value less 1."""
    return value - 1 if value else None


u8, u16, u32, u64 = map(cut_to, (8, 16, 32, 64))
ACCOUNT_NUMBERS = {"pool": u32, "entries": u64, "size": u64, "receives": u64, "sends": u64, "depth": u64, "started": flag, "rx": u64}
ACCOUNT_ARRAYS = {"free_ids": u16, "hands": u8, "slots": u16, "sent": u16, "clean": u64, "tx": u64}
ACCOUNT_FIELDS = ACCOUNT_NUMBERS | ACCOUNT_ARRAYS
STATE_FIELDS = {"map_length": u64, "receives": u64, "sends": u64, "tries": u64, "kind": kind_of, "rate": u32}
STATE_FIELDS |= {"addresses": u64, "place": u64, "made": u64, "kept": u32}
WINDOW_FIELDS = {"size": u64, "threshold": u64, "interval": u64, "on": flag, "calls": u64, "sum": u64, "count": u64, "rates": u32}


def forge(kept, fields, field, place, value):
    """Sets a field of something kept, or a place of one that is an array."""
    sure(field < len(fields))
    name, cut = list(fields.items())[field]
    held = getattr(kept, name)
    if isinstance(held, list):
        sure(place < len(held))
        held[place] = cut(value)
    else:
        sure(place == 0)
        setattr(kept, name, cut(value))
    return [field, place]


# ---- what lines have in common


def digest(places):
    """A number in which each place counts."""
    total = 0
    for place in places:
        total = (total * 31 + place + 1) % 2**32
    return total


def answered(call, *refused):
    """0 and what a call answers, or the number of its refusal and what else a refused call answers."""
    try:
        return [0, *call()]
    except Refused as why:
        return [*why.args, *refused]


def shown(value):
    """A value as lines have it: a test is 1 or 0, and a tail that is not written a dash."""
    if value is None:
        return "-"
    return int(value) if isinstance(value, bool) else value


def part(places, at, count):
    """Places that a record names, if they are there. What is written into them is kept."""
    sure(at + count <= len(places))
    return memoryview(places)[at : at + count]


# ---- what is kept


class Host:
    """What `replay` keeps, and for each kind of record a method, which answers the rest of the record's line."""

    def __init__(self, memory=MEMORY):
        """Everything is 0 at the start."""
        self.account = Account()
        self.account.free_ids = [0] * ENTRIES
        self.rings = [bytearray(PLACES) for _ in range(RINGS)]
        self.lists = [array(letter, [0]) * PLACES for letter in "IHHH"]
        self.addresses = array("Q", [0]) * PLACES
        self.memory = bytearray(memory)
        self.state, self.window, self.sums = StartUp(), Window(on=0), [0] * 4

    def counts(self):
        """What the free stack, the receive ring, all send queues and the application have; zeros if the account is not sound."""
        if not self.account.sound():
            return [0] * 4
        free, receive, queues, out = self.account.counts()
        return [free, receive, sum(queues), out]

    def ring(self, ring):
        """A ring that a record names."""
        sure(ring < RINGS)
        return self.rings[ring]

    def places(self, held):
        """A list that a record names."""
        sure(held < LISTS)
        return self.lists[held]

    def lent(self, ring, size, entries):
        """The first bytes of a ring, and the first addresses."""
        return part(self.ring(ring), 0, size), part(self.addresses, 0, entries)

    def lent_lists(self, rooms):
        """The first places of each list."""
        return [part(places, 0, room) for places, room in zip(self.lists, rooms)]

    def replaced(self, name, refused, call, *given):
        """Keeps what a call makes in place of what is kept, or something else where it is refused: the number."""
        setattr(self, name, refused)
        try:
            setattr(self, name, call(*given))
        except Refused as why:
            return list(why.args)
        return [0]

    # ---- the account's calls

    def fresh(self, *numbers):
        return self.replaced("account", Account(), rules.fresh, *numbers) + self.counts()

    def every_count(self):
        if not self.account.sound():
            return [1] + [0] * 7
        free, receive, queues, out = self.account.counts()
        return [0, free, receive, *queues, out]

    def take(self, size):
        return answered(lambda: rules.take(self.account, size), 0, 0, 0, 0) + self.counts()

    def batch(self, n, size, *rooms):
        lists = self.lent_lists(rooms)
        return answered(lambda: [rules.batch(self.account, n, size, lists)], 0) + self.counts()

    def release(self, *handle):
        def call():
            rules.release(self.account, Handle(*handle))
            return []

        return answered(call) + self.counts()

    def truncate(self, *handle_and_size):
        *handle, size = handle_and_size
        return answered(lambda: rules.truncate(self.account, Handle(*handle), size), *handle)

    def clone(self, *handle_and_size):
        *handle, size = handle_and_size
        memory = part(self.memory, 0, size)
        return answered(lambda: rules.clone(self.account, Handle(*handle), memory), 0, 0, 0, 0) + self.counts()

    def view(self, *handle_and_size):
        *handle, size = handle_and_size
        memory = part(self.memory, 0, size)

        def call():
            packet = rules.view(self.account, Handle(*handle), memory)
            return [len(packet), digest(packet)]

        return answered(call, 0, 0)

    def headroom(self, pool, number, offset, length, asked, size, fill):
        memory = part(self.memory, 0, size)

        def call():
            room = rules.headroom(self.account, Handle(pool, number, offset, length), asked, memory)
            room[:] = bytes([fill]) * len(room)
            return [len(room)]

        return answered(call, 0)

    def start(self, queue, *lent):
        ring, addresses = self.lent(*lent)
        return answered(lambda: [rules.start(self.account, queue, ring, addresses)], None) + self.counts()

    def receive(self, queue, ring, size, entries, n, *rooms):
        lent, lists = self.lent(ring, size, entries), self.lent_lists(rooms)
        number, *answer = answered(lambda: rules.receive(self.account, queue, *lent, n, lists), 0, None)
        return (answer if number == 0 else [number, *answer]) + self.counts()

    def send(self, queue, ring, size, entries, *rooms):
        lent, lists = self.lent(ring, size, entries), self.lent_lists(rooms)
        return answered(lambda: rules.send(self.account, queue, *lent, lists), 0, None) + self.counts()

    # ---- what is set

    def set_ring(self, ring, at, *values):
        part(self.ring(ring), at, len(values))[:] = bytes(values)
        return len(values)

    def set_list(self, held, at, *values):
        places = self.places(held)
        cut = array(places.typecode, [value % 2 ** (8 * places.itemsize) for value in values])
        part(places, at, len(values))[:] = cut
        return len(values)

    def set_addresses(self, at, *values):
        part(self.addresses, at, len(values))[:] = array("Q", values)
        return len(values)

    def set_memory(self, at, *values):
        part(self.memory, at, len(values))[:] = bytes(values)
        return len(values)

    def forge_account(self, *given):
        return forge(self.account, ACCOUNT_FIELDS, *given)

    # ---- what is shown

    def show_slot(self, ring, slot):
        return part(self.ring(ring), slot * SLOT_BYTES, SLOT_BYTES)

    def show_places(self, held, at, count):
        return part(self.places(held), at, count)

    def show_bytes(self, at, count):
        return part(self.memory, at, count)

    def show_account(self):
        numbers = [int(getattr(self.account, name)) for name in ACCOUNT_NUMBERS]
        *long, clean, tx = (getattr(self.account, name) for name in ACCOUNT_ARRAYS)
        return [*numbers, *map(digest, long), *clean, *tx]

    def show_array(self, field, at, count):
        sure(len(ACCOUNT_NUMBERS) <= field < len(ACCOUNT_FIELDS))
        places = getattr(self.account, list(ACCOUNT_FIELDS)[field])
        sure(at + count <= len(places))
        return places[at : at + count]

    def show_digest(self, number, count):
        arrays = [*self.rings, *self.lists, self.memory]
        sure(number < len(arrays))
        return digest(part(arrays[number], 0, count))

    # ---- the registers' calls

    def set_up(self, map_length, receives, sends, tries, asked, kind, rate, count):
        numbers = map_length, receives, sends, tries, kind if asked else None, rate
        return self.replaced("state", StartUp(), registers.set_up, *numbers, part(self.addresses, 0, count))

    def forge_state(self, *given):
        return forge(self.state, STATE_FIELDS, *given)

    def show_state(self):
        state = self.state
        interrupts = 0 if state.kind is None else (state.kind + 1) % 2**64
        numbers = [state.map_length, state.receives, state.sends, state.tries, interrupts, state.rate]
        return [*numbers, digest(state.addresses), state.place, state.made, state.kept]

    def add(self, *counters):
        self.sums = registers.added(self.sums, *counters)
        return self.sums

    def set_sums(self, *sums):
        self.sums = list(sums)
        return self.sums

    # ---- the interrupt window

    def open_window(self, *numbers):
        return self.replaced("window", Window(), registers.window, *numbers)

    def tick(self):
        return answered(lambda: [self.window.tick()], 0)

    def rated(self, *numbers):
        return answered(lambda: [self.window.rated(*numbers)], 0) + [self.window.on]

    def forge_window(self, *given):
        return forge(self.window, WINDOW_FIELDS, *given)

    def show_window(self):
        *numbers, rates = (getattr(self.window, name) for name in WINDOW_FIELDS)
        return [*numbers, *rates]

    # ---- records

    def answer(self, kind, body):
        """What follows a record's number on its line."""
        sure(kind in KINDS)
        word, form, call, unit = KINDS[kind]
        answer = call(self, *framing.unpacked(form, unit, body))
        return [word, *map(shown, answer if isinstance(answer, (list, tuple, memoryview)) else [answer])]


def alone(call):
    """A call that looks at nothing that is kept."""
    return lambda host, *numbers: call(*numbers)


# a kind's word, the numbers of its body by the letters of `struct`, its call, and the bytes of each place that it sets
Kind = namedtuple("Kind", "word form call unit", defaults=[0])
KINDS = {
    1: Kind("fresh", "I4Q", Host.fresh),
    2: Kind("counts", "", Host.every_count),
    3: Kind("take", "Q", Host.take),
    4: Kind("batch", "QQ4H", Host.batch),
    5: Kind("release", "I3H", Host.release),
    6: Kind("truncate", "I3HQ", Host.truncate),
    7: Kind("clone", "I3HI", Host.clone),
    8: Kind("view", "I3HI", Host.view),
    9: Kind("headroom", "I3HQIB", Host.headroom),
    10: Kind("start", "Q3H", Host.start),
    11: Kind("receive", "Q3HQ4H", Host.receive),
    12: Kind("send", "Q3H4H", Host.send),
    13: Kind("sound", "", lambda host: host.account.sound()),
    14: Kind("in-range", "4Q", alone(rules.in_range)),
    20: Kind("ring", "HH", Host.set_ring, 1),
    21: Kind("list", "HH", Host.set_list, 4),
    22: Kind("addresses", "H", Host.set_addresses, 8),
    23: Kind("memory", "I", Host.set_memory, 1),
    24: Kind("forge", "HHQ", Host.forge_account),
    30: Kind("slot", "HH", Host.show_slot),
    31: Kind("places", "HHH", Host.show_places),
    32: Kind("bytes", "IH", Host.show_bytes),
    33: Kind("account", "", Host.show_account),
    34: Kind("array", "HHH", Host.show_array),
    35: Kind("digest", "HI", Host.show_digest),
    40: Kind("set-up", "4QHQIH", Host.set_up),
    41: Kind("step", "I", lambda host, value: host.state.step(value)),
    42: Kind("state-sound", "", lambda host: host.state.sound()),
    43: Kind("forge-state", "HHQ", Host.forge_state),
    44: Kind("state", "", Host.show_state),
    50: Kind("counters", "QQ", alone(registers.counters)),
    51: Kind("add", "6I", Host.add),
    52: Kind("sums", "4Q", Host.set_sums),
    53: Kind("link", "QQ", alone(registers.link)),
    54: Kind("speed", "I", alone(card.link_speed)),
    55: Kind("mac", "QQ", alone(registers.mac)),
    56: Kind("mac-of", "II", alone(registers.mac_of)),
    57: Kind("mac-write", "Q6sQ", alone(registers.mac_write)),
    58: Kind("promiscuous", "QBQI", alone(registers.promiscuous)),
    59: Kind("enable", "QQQIQI", alone(registers.enable)),
    60: Kind("disable", "QQQI", alone(registers.disable)),
    61: Kind("byte-count", "II", alone(registers.byte_count)),
    62: Kind("in-map", "QI", alone(card.in_map)),
    70: Kind("window", "QQQ", Host.open_window),
    71: Kind("tick", "", Host.tick),
    72: Kind("rated", "QIQQ", Host.rated),
    73: Kind("window-sound", "", lambda host: host.window.sound()),
    74: Kind("forge-window", "HHQ", Host.forge_window),
    75: Kind("window-fields", "", Host.show_window),
}
NUMBERS = {kind.word: number for number, kind in KINDS.items()}


def record(word, *values):
    """A record's bytes. What a kind sets is given as one list."""
    kind = KINDS[NUMBERS[word]]
    return framing.framed(NUMBERS[word], framing.packed(kind.form, kind.unit, values))


def lines(stream, memory=MEMORY):
    """What is printed of a stream, with so many bytes of packet memory."""
    return framing.lines(stream, Host(memory).answer)
