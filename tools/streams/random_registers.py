"""Random records on the registers (docs/REPLAY.md, kinds 40 to 75) and the addresses of their set-ups."""
from model.card import COUNTERS, EEC, EIAC, EICR, EIMC, EIMS, FCTRL, GPIE, LINK_UP, LINKS, RAH, RAL, eitr, ivar
from model.limits import U32, U64
from model.registers import ADDRESSES
from model.replay import PLACES, STATE_FIELDS, WINDOW_FIELDS
from streams.stream import MAP, WIDE


# ---- arguments


def near(dice, *usual):
    """A number that is often a usual one or near it, and sometimes any."""
    pick = dice.random()
    if pick < 0.75:
        return dice.choice(usual)
    if pick < 0.9:
        return min(U64, max(0, dice.choice(usual) + dice.randrange(-3, 4)))
    return dice.choice((dice.randrange(2**64), WIDE, WIDE + dice.randrange(20), U64, dice.randrange(100), 1 << dice.randrange(64)))


def word(dice):
    """A word of 32 bits."""
    return dice.choice((0, U32, dice.randrange(2**32), 0x5A5A5A5A, 1 << dice.randrange(32), U32 ^ 1 << dice.randrange(32)))


def map_length(dice):
    """A map that ends anywhere, often around a register."""
    queue = dice.randrange(16)
    register = dice.choice((EIMS, EIMC, EICR, EIAC, GPIE, FCTRL, RAL, RAH, EEC, LINKS, *COUNTERS, eitr(queue), ivar(queue // 2)))
    return near(dice, MAP, MAP, register + 3, register + 4, register + 5)


def made(dice):
    """How many actions are made."""
    return near(dice, *range(10))


def queue_and_kind(dice):
    """A queue, and a kind of its interrupts."""
    return near(dice, *range(17)), near(dice, 1, 2)


# ---- records of one sort


def addresses(s, dice):
    s.add("addresses", dice.randrange(140), [dice.randrange(2**64) for _ in range(dice.randrange(6))])


def set_up(s, dice):
    """A set-up, often with numbers in range."""
    receives, sends = near(dice, 0, 1, 2, 16), near(dice, 0, 1, 3)
    asked, kind, count = dice.choice((0, 1, 1, 65535)), near(dice, 1, 2), receives + sends + dice.choice((0, 0, 0, 1, -1))
    numbers = near(dice, MAP, EEC + 3, RAL + 4), receives, sends, near(dice, 1, 2, 3, 10000)
    s.add("set-up", *numbers, asked, kind, word(dice), min(PLACES - 1, max(0, count)))
    s.add("state")


def steps(s, dice):
    """Some steps, mostly of a start-up that goes on."""
    if dice.random() < 0.8 and (s.host.state.kept or not s.host.state.sound()):
        s.set_up(dice.randrange(4), dice.randrange(4), dice.randrange(1, 4), dice.choice((None, 1, 2)), rate=word(dice))
    for _ in range(dice.choice((1, 1, 3, 30))):
        s.add("step", s.card_value(dice.random() < 0.9) if dice.random() < 0.8 else word(dice))


def forged_state(s, dice):
    """A forged state, often one that a run can be at."""
    end = len(s.items()) if s.host.state.passes() else 0
    usual = {"map_length": (MAP, EEC + 4), "receives": (0, 1, 16), "sends": (0, 1, 64), "tries": (1, 2, 10000), "kind": (0, 2, 3), "rate": (7,)}
    usual |= {"addresses": (1, U64), "place": (0, end, dice.randrange(end + 1)), "made": (0, 1, 2, 3), "kept": (0, 10, 11)}
    name = dice.choice((*usual, "place", "made", "kept"))
    at = dice.randrange(ADDRESSES) if name == "addresses" else 0
    s.add("forge-state", list(STATE_FIELDS).index(name), at, near(dice, *usual[name]))
    s.add("state-sound")


def forged_window(s, dice):
    """A forged window, often one with a right sum."""
    window = s.host.window
    usual = {"size": (2, 5, 64), "threshold": (3, 1200), "interval": (10, 0), "on": (0, 1), "calls": (0, 4095), "rates": (1, U32)}
    usual |= {"sum": (sum(window.rates[: window.count]),), "count": (max(window.size, 1) - 1, 0, 1)}
    name = dice.choice(list(usual))
    at = dice.randrange(len(window.rates)) if name == "rates" else 0
    s.add("forge-window", list(WINDOW_FIELDS).index(name), at, near(dice, *usual[name]))
    if dice.random() < 0.5:
        s.forge_window(sum=sum(window.rates[: window.count]))
    s.add("window-sound")


def run_time_call(s, dice):
    """A call on the registers at run time."""
    queue, kind = queue_and_kind(dice)
    s.add(*dice.choice((
        ("counters", map_length(dice), made(dice)),
        ("link", map_length(dice), made(dice)),
        ("mac", map_length(dice), made(dice)),
        ("mac-write", map_length(dice), dice.randbytes(6), made(dice)),
        ("promiscuous", map_length(dice), dice.randrange(4), made(dice), word(dice)),
        ("enable", map_length(dice), kind, queue, word(dice), made(dice), word(dice)),
        ("enable", map_length(dice), kind, queue, word(dice), made(dice), word(dice)),
        ("disable", map_length(dice), queue, made(dice), word(dice)),
    )))


def meaning(s, dice):
    """What words mean, and what they add to the sums."""
    s.add(*dice.choice((
        ("add", *[word(dice) for _ in range(6)]),
        ("sums", *[near(dice, U64, U64 - U32, 0) for _ in range(4)]),
        ("speed", word(dice) | dice.choice((0, LINK_UP))),
        ("mac-of", word(dice), word(dice)),
        ("byte-count", word(dice), word(dice)),
        ("in-map", map_length(dice), dice.choice((EIMS, EIMC, RAH, EEC, word(dice)))),
    )))


def window(s, dice):
    s.add("window", near(dice, 2, 3, 5, 64), near(dice, 3, 1200), near(dice, 0, 10))


def ticks(s, dice):
    for _ in range(dice.choice((1, 2, 40))):
        s.add("tick")


def rates(s, dice):
    for _ in range(dice.choice((1, 2, 8, 70))):
        rate = word(dice) if dice.random() < 0.3 else dice.randrange(9)
        s.add("rated", near(dice, 11, 10, 0), rate, near(dice, 1, 2, 3), near(dice, 2, 3, 4))


def showing(s, dice):
    s.add(dice.choice(("window-fields", "window-sound", "state-sound", "state")))


def random_register_record(s, dice):
    """One more record, or a few of one sort."""
    sorts = {addresses: 2, set_up: 2, steps: 10, forged_state: 2, run_time_call: 9, meaning: 5, ticks: 1, rates: 2, forged_window: 1, showing: 2}
    sorts[window] = 1 if s.host.window.sound() else 40
    dice.choices(list(sorts), list(sorts.values()))[0](s, dice)
