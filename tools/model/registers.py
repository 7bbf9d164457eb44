"""Document 01's "Registers" in Python: the start-up state, the register calls at run time, the statistics and the interrupt window.

The card and the order of its accesses are those of card.py. Where document 01 leaves a point open, docs/DECISIONS.md decides it (D19 to D28). An action
is a name and its numbers: read, write, pause, done or refused.
"""
from functools import lru_cache

from model import card
from model.card import MSI, MSIX, in_map, link_speed
from model.limits import CLOCK_CALLS, FEWEST_RATES, LINK_READS, MOST_RATES, QUEUES, SIGNALLED_QUEUES, TRIES, U32, WAIT_PAUSE
from model.refusals import NO_INTERRUPT, NOT_SOUND, OUT_OF_RANGE, OUTSIDE_MAP, WAIT_FAILED, WRONG_LENGTH, need

ADDRESSES = 2 * QUEUES  # the ring addresses of a start-up state
DONE = ("done",)


def actions(item, value):
    """The actions of an item that is no wait, the value last read being given."""
    name, register, *words = item
    if name == "change":
        clear, flags = words
        return [("read", register), ("write", register, value & ~clear & U32 | flags)]
    return [item]


# ---- start-up


TESTS = {"set": lambda value, mask: value & mask == mask, "clear": lambda value, mask: value & mask == 0}  # when a wait is over


@lru_cache(maxsize=256)
def start_up_sequence(map_length, receives, sends, kind, rate, addresses):
    """The items of a start-up, and how many of them come before the first whose register is outside the map."""
    items = card.reset_and_init(receives, sends, kind, rate, addresses)
    inside = [name == "pause" or in_map(map_length, register) for name, register, *_ in items]
    return items, [*inside, False].index(False)


def queues_in_range(receives, sends, tries):
    """Whether a start-up may have these numbers."""
    return receives <= QUEUES and sends <= QUEUES and 1 <= tries <= TRIES


def may_signal(kind, receives):
    """Whether a start-up may ask for interrupts of a kind; None asks for none."""
    return kind is None or kind in (MSI, MSIX) and receives <= SIGNALLED_QUEUES


class StartUp:
    """A start-up state. With no numbers it is the one that a refused set-up leaves, which has no reads to a wait and so is not sound."""

    def __init__(self, map_length=0, receives=0, sends=0, tries=0, kind=None, rate=0, addresses=()):
        self.map_length, self.receives, self.sends, self.tries, self.kind, self.rate = map_length, receives, sends, tries, kind, rate
        self.addresses = [*addresses, *[0] * (ADDRESSES - len(addresses))]
        self.place = self.made = self.kept = 0  # the item, how many of its actions are made, and the number of a refusal

    def passes(self):
        """Whether the numbers of the set-up do."""
        return queues_in_range(self.receives, self.sends, self.tries) and may_signal(self.kind, self.receives)

    def sequence(self):
        """The items, and how many of them the map reaches."""
        addresses = tuple(self.addresses[: self.receives + self.sends])
        return start_up_sequence(self.map_length, self.receives, self.sends, self.kind, self.rate, addresses)

    def most(self, item):
        """The most actions of an item: those of a wait are its reads and the pauses between them."""
        if item[0] in TESTS:
            return 2 * self.tries - 1
        return {"change": 2, "link": 2 * LINK_READS - 1}.get(item[0], 1)

    def sound(self):
        """Whether some run from a set-up comes to this state."""
        if not self.passes():
            return False
        items, reach = self.sequence()
        if self.place > reach:
            return False
        if self.place == len(items):
            return self.made == 0 and self.kept == 0
        begins = self.place == 0 and self.made == 0 and self.kept == 0
        if self.place == reach:  # no action of the item is made: the run begins here, or was refused here
            return begins or self.made == 0 and self.kept == OUTSIDE_MAP
        item = items[self.place]
        if self.kept == WAIT_FAILED:
            return item[0] in TESTS and self.made == self.most(item)
        return begins or self.kept == 0 and 1 <= self.made <= self.most(item)

    def over(self, item, value):
        """Whether all of an item's actions are made, the value last read being given."""
        if self.made == 0:
            return False
        just_read = self.made % 2 == 1
        if item[0] in TESTS:
            return just_read and TESTS[item[0]](value, item[2])
        if item[0] == "link" and just_read and link_speed(value) != 0:
            return True
        return self.made == self.most(item)

    def next_action(self, item, value):
        """The next action of an item that is not over."""
        if item[0] in TESTS and self.made == self.most(item):
            return ("refused", WAIT_FAILED, item[1])
        if item[0] in TESTS or item[0] == "link":
            return ("read", item[1]) if self.made % 2 == 0 else ("pause", WAIT_PAUSE)
        return actions(item, value)[self.made]

    def step(self, value):
        """The next action, the value last read being given."""
        if not self.sound():
            return ("refused", NOT_SOUND, 0)
        items, reach = self.sequence()
        if self.kept:
            return ("refused", self.kept, items[self.place][1])
        if self.place < len(items) and self.over(items[self.place], value):
            self.place, self.made = self.place + 1, 0
        if self.place == len(items):
            return DONE
        item = items[self.place]
        action = self.next_action(item, value) if self.place < reach else ("refused", OUTSIDE_MAP, item[1])
        if action[0] == "refused":
            self.kept = action[1]
        else:
            self.made += 1
        return action


def set_up(map_length, receives, sends, tries, kind, rate, addresses):
    """A start-up state at its begin. The kind None asks for no interrupts."""
    need(queues_in_range(receives, sends, tries), OUT_OF_RANGE)
    need(len(addresses) >= receives + sends, WRONG_LENGTH)
    need(may_signal(kind, receives), NO_INTERRUPT)
    return StartUp(map_length, receives, sends, tries, kind, rate, addresses[: receives + sends])


# ---- calls at run time: which action comes after so many


def call(items, map_length, made, value=0):
    """The action of some items after so many, 11 in place of one outside the map, Done after the last."""
    listed = [action for item in items for action in actions(item, value)]
    if made >= len(listed):
        return DONE
    _, register, *_ = action = listed[made]
    return action if in_map(map_length, register) else ("refused", OUTSIDE_MAP, register)


def counters(map_length, made):
    """Reads the counters."""
    return call(card.read_stats(), map_length, made)


def link(map_length, made):
    """Reads the link's state."""
    return call([("read", card.LINKS)], map_length, made)


def mac(map_length, made):
    """Reads the MAC address."""
    return call(card.get_mac(), map_length, made)


def mac_write(map_length, address, made):
    """Writes it."""
    return call(card.set_mac(address), map_length, made)


def promiscuous(map_length, on, made, value):
    """Switches promiscuous mode."""
    return call(card.set_promisc(on != 0), map_length, made, value)


def enable(map_length, kind, queue, rate, made, value):
    """Enables a queue's interrupts."""
    if kind not in (MSI, MSIX) or queue >= SIGNALLED_QUEUES:
        return ("refused", NO_INTERRUPT, 0)
    return call(card.enable_interrupt(kind, queue, rate), map_length, made, value)


def disable(map_length, queue, made, value):
    """Disables them."""
    if queue >= SIGNALLED_QUEUES:
        return ("refused", NO_INTERRUPT, 0)
    return call(card.disable_interrupt(queue), map_length, made, value)


# ---- what is read


def mac_of(low, high):
    """The six bytes of a MAC address, of RAL and RAH."""
    return list((low + (high << 32)).to_bytes(8, "little")[:6])


def byte_count(low, high):
    """A count of bytes, of its two registers."""
    return low + (high << 32)


def added(sums, gprc, gptc, gorcl, gorch, gotcl, gotch):
    """The statistics with what the counters read."""
    counts = (gprc, gptc, byte_count(gorcl, gorch), byte_count(gotcl, gotch))
    return [(total + count) % 2**64 for total, count in zip(sums, counts)]


# ---- the interrupt window


class Window:
    """The rates of late, and whether interrupts are on. With no numbers it is the one that a refused set-up leaves, which is not sound."""

    def __init__(self, size=0, threshold=0, interval=0, on=1):
        self.size, self.threshold, self.interval, self.on = size, threshold, interval, on
        self.calls = self.sum = self.count = 0
        self.rates = [0] * MOST_RATES

    def sound(self):
        """Document 01's rule."""
        if not FEWEST_RATES <= self.size <= MOST_RATES or self.count > self.size - 1:
            return False
        return self.calls < CLOCK_CALLS and self.sum == sum(self.rates[: self.count])

    def tick(self):
        """One receive call more: whether the clock is looked at."""
        need(self.sound(), NOT_SOUND)
        self.calls = (self.calls + 1) % CLOCK_CALLS
        return self.calls == 0

    def rated(self, elapsed, rate, received, asked):
        """A rate: whether that decided."""
        need(self.sound(), NOT_SOUND)
        if elapsed <= self.interval:
            return False
        held = [*self.rates[: self.count], rate]
        if len(held) == self.size:
            held.pop(0)
        self.rates[: len(held)] = held
        self.sum, self.count = sum(held), len(held)
        self.on = int(self.sum // self.count <= self.threshold and received != asked)
        return True


def window(size, threshold, interval):
    """A window at its begin."""
    need(FEWEST_RATES <= size <= MOST_RATES, OUT_OF_RANGE)
    return Window(size, threshold, interval)
