"""A stream of records for `replay` (docs/REPLAY.md) that grows, with the model beside it, and the records that scenes have in common."""
import struct

from model.card import LINK_FIELD, LINK_UP
from model.limits import RING_BYTES, SLOT_BYTES, SLOTS, U16, U32
from model.registers import ADDRESSES, TESTS
from model.replay import ACCOUNT_FIELDS, LISTS, MEMORY, NUMBERS, RINGS, STATE_FIELDS, WINDOW_FIELDS, Host, record

MAP = 0x20000  # the length of a map that holds every register
WIDE = 2**32  # lost where a u64 is cut to 32 bits


class Stream:
    """Records, and the model after them: its state says which arguments are worth trying next. The model's answers are not in a stream."""

    def __init__(self, memory=MEMORY):
        self.bytes, self.count, self.host, self.marks = bytearray(), 0, Host(memory), []

    @property
    def account(self):
        return self.host.account

    def case(self, name):
        """The next record is the first of a case."""
        self.marks.append((name, self.count + 1))

    def add(self, word, *values):
        """One more record: the model's answer."""
        added = record(word, *values)
        self.bytes += added
        self.count += 1
        return self.host.answer(NUMBERS[word], bytes(added[4:]))[1:]

    def end(self, bad_record):
        """A record that is not good, which ends the run."""
        self.bytes += bad_record
        self.count += 1

    # ---- calls with most arguments as they should be

    def fresh(self, entries, size=64, receives=1, sends=1, pool=7):
        return self.add("fresh", pool, entries, size, receives, sends)

    def start(self, queue=0, ring=0, size=RING_BYTES, entries=None):
        return self.add("start", queue, ring, size, self.account.entries if entries is None else entries)

    def receive(self, n, queue=0, ring=0, size=RING_BYTES, entries=None, rooms=None):
        entries = self.account.entries if entries is None else entries
        return self.add("receive", queue, ring, size, entries, n, *(rooms or [min(n, SLOTS)] * LISTS))

    def send(self, count, queue=0, ring=1, size=RING_BYTES, entries=None, rooms=None):
        entries = self.account.entries if entries is None else entries
        return self.add("send", queue, ring, size, entries, *(rooms or [count] * LISTS))

    def batch(self, n, size=8, rooms=None):
        return self.add("batch", n, size, *(rooms or [min(max(n, 1), self.account.entries)] * LISTS))

    def calls(self, handle, entries, memory):
        """A record of each call, with a handle, so many addresses and so much packet memory."""
        lent = RING_BYTES, entries
        return [
            ("counts",), ("take", 8), ("batch", 1, 8, 8, 8, 8, 8), ("release", *handle), ("truncate", *handle, 3),
            ("clone", *handle, memory), ("view", *handle, memory), ("headroom", *handle, 3, memory, 0xEE),
            ("start", 0, 0, *lent), ("receive", 0, 0, *lent, 1, 1, 1, 1, 1), ("send", 0, 1, *lent, 1, 1, 1, 1),
        ]

    def each_call(self, handle=(7, 0, 32, 8)):
        """One record of each call, with arguments that suit the account."""
        for call in self.calls(handle, min(self.account.entries, U16), min(self.pool_memory(), self.room)):
            self.add(*call)

    # ---- what is set

    def addresses(self, count, first=2**64 - 2**12, step=64):
        """So many addresses, in steps, which may pass 2^64."""
        self.add("addresses", 0, [(first + step * k) % 2**64 for k in range(count)])

    def entry_addresses(self):
        """An address for each entry; they pass 2^64."""
        self.addresses(self.account.entries)

    def handles(self, handles, at=0):
        """Handles go into the lists."""
        for held in range(LISTS):
            self.add("list", held, at, [handle[held] for handle in handles])

    def holds(self, word, number, wanted):
        """A ring or a list shall hold some places at its begin: those that do not yet are set, from the first to the last of them."""
        kept = {"ring": self.host.rings, "list": self.host.lists}[word][number]
        wrong = [at for at, value in enumerate(wanted) if kept[at] != value]
        if wrong:
            self.add(word, number, wrong[0], wanted[wrong[0] : wrong[-1] + 1])

    def frame(self, slot, status=3, length=60, ring=0):
        """The card writes a frame's status and length at a receive slot."""
        self.add("ring", ring, slot * SLOT_BYTES + 8, struct.pack("<IH", status, length))

    def done_byte(self, slot, value=1, ring=1):
        """The card writes the byte of a send slot that has the done bit."""
        self.add("ring", ring, slot * SLOT_BYTES + 12, [value])

    def forge(self, name, value, place=0):
        """A field of the account, or a place of it, is forged."""
        self.add("forge", list(ACCOUNT_FIELDS).index(name), place, value)

    def forge_state(self, **fields):
        """Fields of the start-up state are forged. Its kind is given as the kind and 1 more, or 0 for none."""
        for name, value in fields.items():
            self.add("forge-state", list(STATE_FIELDS).index(name), 0, value)

    def forge_window(self, **fields):
        """Fields of the window are forged."""
        for name, value in fields.items():
            self.add("forge-window", list(WINDOW_FIELDS).index(name), 0, value)

    # ---- what is shown

    def look(self):
        """The whole account."""
        self.add("account")
        self.add("sound")

    def slots(self, ring, *slots):
        for slot in slots:
            self.add("slot", ring, slot)

    def lists(self, count):
        """The first places of each list."""
        for held in range(LISTS):
            self.add("places", held, 0, count)

    def array(self, name, at, count):
        """Places of one of the account's arrays."""
        self.add("array", list(ACCOUNT_FIELDS).index(name), at, count)

    def ring_digest(self, ring, count=RING_BYTES):
        """The digest of a ring's first bytes."""
        self.add("digest", ring, count)

    def list_digest(self, held, count):
        """The digest of a list's first places."""
        self.add("digest", RINGS + held, count)

    # ---- what the model says

    @property
    def room(self):
        """The packet memory that there is."""
        return len(self.host.memory)

    def pool_memory(self):
        """The packet memory that the account asks for."""
        return self.account.entries * self.account.size

    def value_of(self, name, place=0):
        """What a field of the account holds, or a place of it."""
        held = getattr(self.account, name)
        return held[place] if isinstance(held, list) else int(held)

    # ---- start-ups

    def ring_addresses(self):
        """An address for each queue that a start-up may have, no two words of them alike."""
        self.add("addresses", 0, [(0xA1B2C300 + 7 * k) << 32 | 0xD4E5F600 + 11 * k for k in range(ADDRESSES)])

    def set_up(self, receives, sends, tries=3, kind=None, map_length=MAP, rate=0x28, count=None):
        count = receives + sends if count is None else count
        return self.add("set-up", map_length, receives, sends, tries, int(kind is not None), kind or 0, rate, count)

    def items(self):
        """The items of the start-up."""
        return self.host.state.sequence()[0]

    def waits(self):
        """The places of the start-up's waits, but for the link's."""
        return [place for place, (name, *_) in enumerate(self.items()) if name in TESTS]

    def card_value(self, good=True):
        """What a card gives for the register just read: what a wait waits for and no more, or all but a bit of it; else one of four words."""
        state, turn = self.host.state, self.count
        noise = (0, U32, 0x5A5A5A5A, 0xA5A5A5A5)[turn % 4]
        if not state.passes() or state.place >= len(self.items()):
            return noise
        name, *words = self.items()[state.place]
        if name == "link":
            return LINK_UP | (1 + turn % 3) << 28 if good else (0, LINK_UP, LINK_FIELD | 0x80000000)[turn % 3]
        if name not in TESTS:
            return noise
        mask, bit = words[1], words[1] & -words[1]
        if name == "clear":
            return noise & ~mask if good else noise & ~mask | (bit if turn % 2 else mask ^ bit)
        return noise | mask if good else (noise | mask) ^ bit

    def run(self, most=4000, good=lambda place, made: True, after=2):
        """Steps to the end of a start-up, and a few more. What the card gives may go by the item's place and its actions made."""
        value = 0
        for _ in range(most):
            action = self.add("step", value)[0]
            if action in ("done", "refused"):
                break
            if action == "read":
                value = self.card_value(good(self.host.state.place, self.host.state.made))
        for _ in range(after):
            self.add("step", value)
        self.add("state-sound")


def spans(marks, count):
    """The first and the last record of each case, which ends before the next one's first record. A case with no record is none."""
    ends = [first - 1 for _, first in marks[1:]] + [count]
    return [(name, first, last) for (name, first), last in zip(marks, ends) if first <= last]
