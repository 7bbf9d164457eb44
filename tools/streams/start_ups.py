"""Random start-ups for `replay` by a seed: ring addresses, a set-up, and a step for each action, fed the value last read."""
import random

from model.card import CTRL, EEC, EIMC, EIMS, LINK_FIELD, LINK_UP, MSI, MSIX, RAH, RAL, RDRXCTL, receive_ring, send_ring
from model.limits import QUEUES, SIGNALLED_QUEUES, U16, U32, U64
from model.registers import ADDRESSES, TESTS
from streams.stream import MAP, WIDE, Stream

RXDCTL, TXDCTL = ([ring(queue).control for queue in range(QUEUES)] for ring in (receive_ring, send_ring))
WAITS = [CTRL, EEC, RDRXCTL, *RXDCTL, *TXDCTL, "link"]  # the registers of the waits, in their order


class Card:
    """What the registers give: each wait passes at one of its reads, that for a given register (or "link") at none."""

    def __init__(self, dice, never=None):
        self.dice, self.never = dice, never
        self.place, self.passing = None, 1  # the wait under way, and the read at which it passes
        self.noise = dice.choice((0, U32, 0x5A5A5A5A, None, None))  # the bits that no wait asks for; None: any

    def begin(self, place, register, most):
        """A wait of at most so many reads begins."""
        self.place = place
        some = (1, 1, 1, min(2, most), max(1, most - 1), most, self.dice.randint(1, most))
        self.passing = most + 1 if register == self.never else self.dice.choice(some)

    def value(self, state):
        """A value for the register that was just read."""
        item = state.sequence()[0][state.place]
        name, register, *words = item
        noise = self.dice.getrandbits(32) if self.noise is None else self.noise
        if name != "link" and name not in TESTS:
            return noise
        if state.place != self.place:
            self.begin(state.place, "link" if name == "link" else register, (state.most(item) + 1) // 2)
        passes = (state.made + 1) // 2 >= self.passing
        return self.link_value(noise, passes) if name == "link" else self.wait_value(name, words[0], noise, passes)

    def link_value(self, noise, passes):
        """A value of LINKS."""
        link = LINK_UP | self.dice.randint(1, 3) << 28 if passes else self.dice.choice((0, LINK_UP, LINK_FIELD))
        return noise & ~(LINK_UP | LINK_FIELD) | link

    def wait_value(self, name, mask, noise, passes):
        """A value of a register that is waited for."""
        if name == "set":
            return noise | mask if passes else noise & ~mask
        return noise & ~mask | (0 if passes else mask & self.dice.getrandbits(32) or mask)


class StartUps(Stream):
    """Start-ups one after the other."""

    def __init__(self, seed):
        super().__init__()
        self.dice, self.over = random.Random(seed), False

    def begin(self, receives, sends, tries, kind=None, map_length=MAP, asked=None, count=None):
        """A set-up with a random rate and random addresses, and the steps to its first read. The kind of no interrupts is any."""
        dice = self.dice
        if asked is None:
            asked = 0 if kind is None else dice.choice((1, 2, U16))
        kind = dice.choice((0, MSI, MSIX, dice.getrandbits(64))) if kind is None else kind
        count = min(receives + sends if count is None else count, U16)
        self.add("addresses", 0, [dice.getrandbits(64) for _ in range(min(count, ADDRESSES + 2))])
        self.add("set-up", map_length, receives, sends, tries, asked, kind, dice.getrandbits(32), count)
        self.feed(0)

    def feed(self, value):
        """Steps, each fed a value, until a register is read or the start-up is over."""
        name = None
        while name not in ("read", "done", "refused"):
            name = self.add("step", value)[0]
        self.over = name != "read"

    def play(self, card, most=U64):
        """A card's values, at most so many, until the start-up is over; then a few steps more."""
        while not self.over and most > 0:
            self.feed(card.value(self.host.state))
            most -= 1
        for _ in range(self.dice.choice((0, 1, 3)) if self.over else 0):
            self.add("step", self.dice.choice((0, U32, self.dice.getrandbits(32))))

    # ---- sorts of start-ups

    def passed(self, receives, sends, kind=None):
        """Every wait passes, or all but the link's."""
        dice = self.dice
        self.begin(receives, sends, dice.choice((1, 2, 3, 5, 10000) if receives + sends < 4 else (1, 2, 3)), kind)
        self.play(Card(dice, "link" if dice.random() < 0.1 else None))

    def given_up(self, wait):
        """One of WAITS is given up; there may be more queues than it takes."""
        dice = self.dice
        receives, sends = dice.randrange(4), dice.randrange(4)
        if wait in RXDCTL:
            receives = min(RXDCTL.index(wait) + dice.randint(1, 3), QUEUES)
        if wait in TXDCTL:
            sends = min(TXDCTL.index(wait) + dice.randint(1, 3), QUEUES)
        kind = dice.choice((None, MSI, MSIX)) if receives <= SIGNALLED_QUEUES else None
        self.begin(receives, sends, dice.choice((1, 2, 3) if receives + sends > 6 else (1, 2, 3, 10000)), kind)
        self.play(Card(dice, wait))

    def narrow(self):
        """A map that ends around a register that is above all before it, or anywhere."""
        dice = self.dice
        around = dice.choice((0, EIMS, EIMC, RAL, RAH, EEC)) + dice.randint(3, 5)
        length = dice.choice((around, around, around, dice.randrange(MAP), WIDE + dice.randrange(9), U64))
        self.begin(dice.randrange(4), dice.randrange(4), dice.randint(1, 3), dice.choice((None, MSI, MSIX)), length)
        self.play(Card(dice))

    def left_off(self):
        """A start-up that is left before it is over, or is fed random values."""
        dice = self.dice
        self.begin(dice.randint(0, QUEUES), dice.randint(0, QUEUES), dice.choice((1, 2, 3, 10000)))
        if dice.random() < 0.5:
            self.play(Card(dice), dice.choice((0, 1, dice.randrange(30), dice.randrange(300))))
        else:
            for _ in range(dice.randrange(60)):
                self.feed(dice.choice((0, U32, dice.getrandbits(32))))

    def any_numbers(self):
        """Any numbers of a set-up: all good, or one of them not, or several."""
        dice = self.dice
        wrong = dice.choice(("", "", "queues", "W", "kind", "count", "kind count", "queues W kind count"))

        def one(name, usual, *others):
            return dice.choice(others if name in wrong and dice.random() < 0.7 else usual)

        receives, sends = (one("queues", (0, 1, 2, 16, 17, 64), 65, 66, 2**16, U32, WIDE + 1, U64, dice.getrandbits(32)) for _ in range(2))
        tries = one("W", (1, 2, 3, 10000), 0, 10001, 2**16 + 1, U32, WIDE + 1, dice.getrandbits(32))
        kind = one("kind", (MSI, MSIX), 0, 3, 4, WIDE, WIDE + MSI, WIDE + MSIX, U64, dice.getrandbits(64))
        few = min(receives + sends, U16 - 1)
        count = one("count", (few, few, few + 1, ADDRESSES, ADDRESSES + 1, U16), max(few - 1, 0), max(few - 1, 0), 0, ADDRESSES - 1)
        self.begin(receives, sends, tries, kind, MAP, dice.choice((0, 1, 1, 2, 256, U16)), count)
        self.play(Card(dice), dice.choice((0, 1, 40)))


def random_start_ups(seed):
    """Some start-ups of each sort. Those of 132 seeds in a row have every number of queues each way, each kind of interrupts on every number of
    receive queues that it may have, and every wait given up.
    """
    s = StartUps(seed)
    dice = s.dice
    sorts = [
        lambda: s.passed(seed % (QUEUES + 1), (3 * seed + 1) % (QUEUES + 1)),
        lambda: s.passed(seed % (SIGNALLED_QUEUES + 1), dice.randrange(4), (MSI, MSIX)[seed % 2]),
        lambda: s.given_up(WAITS[seed % len(WAITS)]),
        s.narrow,
        s.left_off,
        *[s.any_numbers] * dice.randint(1, 5),
    ]
    dice.shuffle(sorts)
    for sort in sorts:
        sort()
    return s
