"""Scenes on the interrupt window: its set-up, its counter, its rates and decisions, and forged ones."""
from model.limits import U32, U64
from streams.stream import WIDE


def window(s):
    """Windows from their set-up on."""
    set_ups(s)
    counter(s)
    decisions(s)
    rates(s)


def set_ups(s):
    """Each R at its bounds and past them."""
    for size in (1, 2, 64, 65, 0, WIDE + 2, U64):
        s.case(f"window of {size} rates")
        s.add("window", size, 1200, 10**9)
        for word in ("window-fields", "window-sound", "tick"):
            s.add(word)
        s.add("rated", 10**9 + 1, 1, 1, 2)


def counter(s):
    """The counter to its second round, and forged."""
    s.case("the counter")
    s.add("window", 5, 0, 0)
    for n in range(1, 8194):
        s.add("tick")
        if n in (4095, 4096, 4097, 8192, 8193):
            s.add("window-fields")
    for calls in (4094, 4095, 4096, WIDE, U64):
        s.case(f"the counter at {calls}")
        s.forge_window(calls=calls)
        for word in ("window-sound", "tick", "tick"):
            s.add(word)
        s.add("rated", 1, 1, 1, 2)
        s.add("window-fields")


def decisions(s):
    """Elapsed and the interval; the threshold met and exceeded; what was received of what was asked."""
    for interval in (0, 1000, U64 - 1, U64):
        s.case(f"an interval of {interval}")
        s.add("window", 3, 5, interval)
        for elapsed in sorted({0, max(interval - 1, 0), interval, min(interval + 1, U64), U64}):
            s.add("rated", elapsed, 5, 3, 4)
            s.add("rated", elapsed, 7, 4, 4)
        s.add("window-fields")
    few, many = (10, 11, 9, 10, 12, 10, 10, 0), (U32, U32 - 2, U32)
    for threshold, rates in ((10, few), (U32, (U32, U32, 0)), (U32 - 1, many), (0, (0, 1, 0, 0)), (U64, (U32,)), (WIDE, (U32,))):
        s.case(f"a threshold of {threshold}")
        s.add("window", 3, threshold, 0)
        for rate in rates:
            s.add("rated", 1, rate, 0, 1)
            s.add("window-sound")
        s.add("window-fields")
    s.case("received and asked")
    s.add("window", 2, U64, 0)
    for received, asked in ((0, 0), (1, 1), (0, 1), (1, 0), (WIDE, 0), (0, WIDE), (WIDE, WIDE), (U64, U64), (U64, U32)):
        s.add("rated", 1, 3, received, asked)


def rates(s):
    """R rates and more, and sums at their greatest."""
    for size in (2, 3, 5, 63, 64):
        s.case(f"{size} rates and more")
        s.add("window", size, 3, 0)
        for n in range(size + 3):
            s.add("rated", 9, n * n % 8, 1, 2)
        s.add("window-fields")
    for threshold in (U32 - 1, U32):
        s.case(f"the greatest rates, and a threshold of {threshold}")
        s.add("window", 64, threshold, 0)
        for _ in range(66):
            s.add("rated", 1, U32, 1, 2)
        s.add("window-sound")
        s.add("window-fields")


FORGED = (
    ("size", 5, (0, 1, 2, 3, 4, 5, 64, 65, WIDE + 5, U64)),
    ("count", 3, (0, 2, 4, 5, 63, 64, 65, WIDE + 3, U64)),
    ("sum", 24, (0, 23, 25, WIDE + 24, U64)),
    ("calls", 1, (0, 4095, 4096, WIDE, U64)),
    ("threshold", 100, (7, U64)),
    ("interval", 10, (0, U64)),
    ("on", 1, (0, 1, 2, WIDE, U64)),
)  # a field, its sound value, and others


def forged_windows(s):
    """Each field forged by itself, and then a rate."""
    s.add("window", 5, 100, 10)
    for rate in (7, 8, 9):
        s.add("rated", 11, rate, 1, 2)
    for name, right, values in FORGED:
        s.case(f"window forged: {name}")
        for value in values:
            s.forge_window(**{name: value})
            s.add("window-sound")
            s.add("rated", 5, 1, 1, 2)
            s.add("tick")
            s.forge_window(**{name: right})
        s.add("window-fields")
    s.case("window forged: a rate")
    for at, value in ((0, 8), (0, WIDE + 7), (2, 0), (2, 9), (3, 1), (63, U64)):
        s.add("forge-window", 7, at, value)
        s.add("window-sound")
    forged_limits(s)


def forged_limits(s):
    """No rates and R at its limits, and the greatest window by hand: 63 rates of 2^32 - 1."""
    s.case("window forged: no rates")
    s.forge_window(count=0, sum=0)
    for size in (0, 1, 2, 64, 65):
        s.forge_window(size=size)
        s.add("window-sound")
        s.add("tick")
    s.case("window forged: the greatest")
    s.forge_window(size=64, count=63, sum=63 * U32, on=0)
    for at in range(64):
        s.add("forge-window", 7, at, U32)
    s.add("window-sound")
    s.add("rated", 11, U32, 1, 2)
    s.add("rated", 11, 0, 1, 2)
    s.add("window-fields")
    s.forge_window(count=64, sum=64 * U32)
    s.add("window-sound")
    s.add("window-fields")
