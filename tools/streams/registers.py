"""Scenes on the registers: start-ups, their states and set-ups, the calls at run time, and what words of registers mean."""
from model.card import COUNTERS, EEC, EIAC, EICR, EIMC, EIMS, FCTRL, GPIE, LINKS, RAH, RAL, eitr, ivar
from model.limits import U32, U64
from model.replay import PLACES
from streams.stream import MAP, WIDE


def before_the_first_set_up(s):
    """Before the first set-up and the first window."""
    s.case("before the first set-up")
    for word in ("state-sound", "state", "window-sound", "window-fields", "tick"):
        s.add(word)
    s.add("step", 7)
    s.add("rated", 1, 1, 1, 2)
    s.add("add", *[0] * 6)


# ---- set-ups


def set_up(s):
    """Every number of a set-up, each limit met and passed, and which number comes first."""
    before_the_first_set_up(s)
    s.ring_addresses()
    s.add("addresses", PLACES - 1, [U64])
    s.add("addresses", PLACES - 1, [])
    s.case("set-up: a number outside its range")
    for receives, sends, tries in ((65, 0, 1), (0, 65, 1), (0, 0, 0), (0, 0, 10001), (WIDE, 0, 1), (0, WIDE + 1, 1), (0, 0, WIDE + 1), (U64, U64, U64)):
        s.set_up(receives, sends, tries, count=200)
        s.add("state")
        s.add("step", 0)
    s.case("set-up: the limits met, and an address too few")
    for receives, sends, tries in ((64, 64, 10000), (64, 0, 1), (0, 64, 1), (0, 0, 1)):
        s.set_up(receives, sends, tries)
        s.add("state")
        s.add("state-sound")
        s.add("step", 1)
        s.set_up(receives, sends, tries, count=max(receives + sends - 1, 0))
        s.add("state")
        s.add("step", 1)
    s.case("set-up: interrupt kinds")
    for kind in (0, 1, 2, 3, WIDE + 1, WIDE + 2, U64):
        for receives in (0, 1, 16, 17):
            s.set_up(receives, 1, kind=kind)
            s.add("state")
            s.add("step", 0)
    s.case("set-up: two reasons at once")
    s.set_up(65, 1, kind=0, count=0)
    s.set_up(17, 1, kind=0, count=17)
    s.set_up(17, 64, kind=1, count=PLACES - 1)
    s.set_up(17, 1, kind=None)
    for asked in (0, 1, 256, 65535):
        s.add("set-up", MAP, 1, 1, 1, asked, 3, 0, 2)
    set_up_refused_then_forged(s)


def set_up_refused_then_forged(s):
    """A refused set-up leaves zeros, which a forged W makes a start-up."""
    s.case("set-up: refused, then forged")
    s.set_up(1, 1, tries=0)
    s.forge_state(tries=2)
    s.add("state")
    s.add("state-sound")
    s.run()
    s.forge_state(map_length=MAP, made=0, kept=0, place=0)
    s.run()
    s.set_up(1, 1, tries=0)
    s.forge_state(tries=1, map_length=MAP, receives=1, sends=1, kind=3)
    s.add("state")
    s.run()


# ---- start-ups


def start_ups(s):
    """Start-ups to their end, by their queues and interrupt kinds."""
    s.ring_addresses()
    for queues in (0, 1, 4, 16, 17):
        for kind in (None, 1, 2):
            s.case(f"start-up: {queues} queues each way, interrupt kind {kind}")
            s.set_up(queues, queues, kind=kind, rate=0xFA7 + queues)
            s.run()
    for receives, sends, kind in ((0, 17, 2), (17, 0, None), (1, 16, 1), (16, 1, 2), (4, 0, 1), (0, 4, None), (64, 64, None)):
        s.case(f"start-up: {receives} receive queues, {sends} send queues, interrupt kind {kind}")
        s.set_up(receives, sends, 1, kind)
        s.run()


def waits(s):
    """Each wait fails at its last read, or passes at it; the link comes late, or never."""
    s.ring_addresses()
    for tries in (1, 2, 3):
        s.set_up(1, 1, tries)
        for wait in s.waits():
            for passing in (U64, 2 * tries - 1):
                s.case(f"wait at {wait} of {tries} reads, {'given up' if passing == U64 else 'passed at the last'}")
                s.set_up(1, 1, tries)
                s.run(good=lambda place, made: place != wait or made >= passing)
    for passing in (1, 3, 101, 199, 201, U64):
        s.case(f"link {'never up' if passing == U64 else f'up after {passing} actions'}")
        s.set_up(0, 0, 1)
        last = len(s.items()) - 1
        s.run(good=lambda place, made: place != last or made >= passing)


def maps(s):
    """Start-ups in maps that end just below, at and above the registers that are higher than all before them."""
    s.ring_addresses()
    for length in (0, 1, 3, 4, 5, 2**63, U64):
        s.case(f"start-up in a map of {length} bytes")
        s.set_up(1, 1, kind=2, map_length=length)
        s.run(most=40)
    for register in (EIMS, EIMC, RAL, RAH, EEC):
        for length in (register + 3, register + 4, register + 5):
            s.case(f"start-up in a map of {length} bytes")
            s.set_up(1, 1, kind=1, map_length=length)
            s.run(most=60)


# ---- forged states


def forged_states(s):
    """States with a field or more forged."""
    s.ring_addresses()
    forged_places(s)
    forged_counts(s)
    forged_set_ups(s)
    forged_maps(s)
    forged_rate_and_addresses(s)


def forged_places(s):
    """Every place with some actions made, and every refusal kept."""
    s.set_up(1, 1, 2, 2)
    for place in range(len(s.items()) + 2):
        s.case(f"state forged at place {place}")
        for made, kept in ((0, 0), (1, 0), (2, 0), (3, 10), (0, 11)):
            s.forge_state(place=place, made=made, kept=kept)
            s.add("state-sound")
            s.add("step", 0x40000000)
        s.add("state")


def forged_counts(s):
    """The actions made of a wait, of the reset's, of a change and of the link wait, to past the last."""
    s.set_up(1, 1, 3, 2)
    last = len(s.items()) - 1
    for place, most in [(wait, 7) for wait in s.waits()] + [(0, 2), (17, 4), (last, 203)]:
        s.case(f"actions made forged at place {place}")
        for made in sorted({0, 1, 2, 3, 4, 5, max(most, 3) - 3, most - 2, most - 1, most, most + 1, U64}):
            for kept in (0, 1, 9, 10, 11, 12, WIDE, WIDE + 10):
                s.forge_state(place=place, made=made, kept=kept)
                s.add("state-sound")
                if kept in (0, 10):
                    s.add("step", 0)
    s.case("the longest wait")
    for made in (19997, 19998, 19999, 20000):
        s.forge_state(tries=10000, place=s.waits()[0], made=made, kept=0)
        for _ in range(3):
            s.add("step", 8)
        s.add("state")


def forged_set_ups(s):
    """Each number of the set-up, with a state that is at its start, at its end or at no place."""
    s.set_up(1, 1, 2, 2)
    values = {
        "receives": (0, 1, 16, 17, 64, 65, WIDE + 1, U64, 1),
        "sends": (0, 1, 64, 65, WIDE + 1, U64, 1),
        "tries": (0, 1, 10000, 10001, WIDE + 1, U64, 2),
        "kind": (0, 1, 2, 3, 4, WIDE + 2, U64, 2),
        "rate": (U64, WIDE + 5),
        "map_length": (0, 3, 4, EIMS + 3, EIMS + 4, EEC + 3, EEC + 4, U64),
    }
    for place, made in ((0, 0), (len(s.items()), 0), (U64, 0), (WIDE, 0), (0, U64), (2**63, 1)):
        s.case(f"set-up forged at place {place}, {made} made")
        s.set_up(1, 1, 2, 2)
        s.forge_state(place=place, made=made)
        s.add("state-sound")
        for name, others in values.items():
            for value in others:
                s.forge_state(**{name: value})
                s.add("state")
                s.add("state-sound")


def forged_maps(s):
    """Refused states in another map, and states at a register outside the map, by their numbers."""
    for length in (EEC + 4, EEC + 3, EEC, RAL, 0):
        s.case(f"11 kept in a map of {length} bytes")
        s.set_up(0, 0, 1, map_length=EEC + 3)
        s.run(after=0)
        s.forge_state(map_length=length)
        s.add("state")
        s.add("state-sound")
        s.add("step", 0)
    for length in (0, EEC + 3):
        s.set_up(0, 0, 1, map_length=length)
        _, outside = s.host.state.sequence()
        for place in (outside, outside + 1):
            s.case(f"forged at place {place} in a map of {length} bytes")
            for made, kept in ((0, 0), (0, 11), (0, 10), (0, 1), (1, 0), (1, 10), (1, 11)):
                s.forge_state(place=place, made=made, kept=kept)
                s.add("state-sound")
                s.add("step", 0)


def forged_rate_and_addresses(s):
    """A forged throttle rate; ring addresses that are forged, and those that a set-up of fewer queues did not copy."""
    s.case("throttle rate forged")
    s.set_up(1, 0, 1, 1)
    s.forge_state(rate=WIDE + 5)
    s.run()
    s.case("ring addresses forged")
    s.set_up(1, 1, 1, count=9)
    s.forge_state(receives=2, sends=3)
    s.add("state")
    for at, value in ((0, 0x1122334455667788), (1, U64), (3, WIDE), (4, 5), (127, 9)):
        s.add("forge-state", 6, at, value)
        s.add("state")
    s.run()


# ---- calls at run time


def run_time_calls(s):
    """Each list from its first action to past its last, in maps that end around each of its registers."""
    run_time_reads(s)
    run_time_writes(s)
    run_time_interrupts(s)


def run_time_reads(s):
    """Counters, link and MAC address."""
    for word, registers in (("counters", COUNTERS), ("link", (LINKS,)), ("mac", (RAL, RAH))):
        s.case(word)
        for made in (*range(len(registers) + 2), WIDE, U64):
            s.add(word, MAP, made)
        for made, register in enumerate(registers):
            for length in (register + 3, register + 4, register + 5, 3, 4, 0, U64):
                s.add(word, length, made)


def run_time_writes(s):
    """The MAC address and promiscuous mode."""
    s.case("mac-write")
    for length in (MAP, RAL + 3, RAL + 4, RAH + 3, RAH + 4, RAH + 5, 0):
        for made in (0, 1, 2, 3, WIDE, U64):
            s.add("mac-write", length, bytes((0x91, 0xA2, 0xB3, 0xC4, 0xD5, 0xE6)), made)
    for made in (0, 1):
        s.add("mac-write", MAP, bytes([255] * 6), made)
    s.case("promiscuous")
    for value in (0, U32, 0x300, 0x100, 0x200, 0xFFFFFCFF, 0x12345678):
        for on in (0, 1, 2, 255):
            s.add("promiscuous", MAP, on, 1, value)
    for made in (0, 1, 2, 3, WIDE, U64):
        for length in (FCTRL + 3, FCTRL + 4, FCTRL + 5):
            s.add("promiscuous", length, 1, made, 0x5A5A5A5A)


def run_time_interrupts(s):
    """A queue's interrupts: queues and kinds, and maps that end around each register."""
    for queue in (0, 1, 2, 15, 16, 31, 32, 64, WIDE, WIDE + 1, U64):
        s.case(f"interrupts of queue {queue}")
        for kind in (0, 1, 2, 3, WIDE + 1, U64):
            for made in (0, 1, 3, 9) if queue > 15 or kind not in (1, 2) else (*range(10), WIDE, U64):
                s.add("enable", MAP, kind, queue, 0x89ABCDEF, made, 0x5A5A5A5A if made % 2 else U32)
        for made in (*range(6), WIDE, U64) if queue < 16 else (0, 1, 5):
            s.add("disable", MAP, queue, made, U32)
            s.add("disable", MAP, queue, made, 0)
    for queue in (0, 15):
        s.case(f"interrupts of queue {queue} in narrow maps")
        for register in (EIMS, EIMC, EICR, EIAC, GPIE, eitr(queue), ivar(queue // 2)):
            for length in (register + 3, register + 4, register + 5):
                for made in range(9):
                    s.add("enable", length, 1 + made % 2, queue, 7, made, 0)
                    s.add("enable", length, 2 - made % 2, queue, 7, made, 0)
                for made in range(5):
                    s.add("disable", length, queue, made, 0)
    s.add("enable", 0, 3, 16, 0, 0, 0)
    s.add("disable", 0, 16, 0, 0)


# ---- words


def register_words(s):
    """What the words of the link, of a MAC address and of a byte count mean, and which registers a map holds."""
    for rest in (0, 0x8FFFFFFF, 0x00000001):
        for up in (0, 0x40000000):
            for field in range(4):
                s.add("speed", up | field << 28 | rest)
    for low, high in ((0, 0), (U32, U32), (0xC4B3A291, 0xFFFFE6D5), (0x04030201, 0x08070605), (0, 0xFFFF0000), (U32, 0), (0, U32)):
        s.add("mac-of", low, high)
        s.add("byte-count", low, high)
    for length in (*range(9), WIDE - 1, WIDE, WIDE + 2, WIDE + 3, WIDE + 4, U64):
        for register in (0, 1, 3, 4, 5, U32 - 1, U32):
            s.add("in-map", length, register)


def statistics(s):
    """Sums, also past 2^64."""
    s.add("sums", 1, 2, 3, 4)
    s.add("add", 10, 20, 30, 40, 50, 60)
    s.add("sums", U64, U64, U64, U64)
    s.add("add", 0, 0, 0, 0, 0, 0)
    s.add("add", 1, 1, 1, 0, 1, 0)
    for place in range(6):
        s.add("sums", U64, U64 - 1, U64, U64)
        s.add("add", *[int(k == place) for k in range(6)])
    s.add("sums", U64, U64, U64, U64)
    for _ in range(3):
        s.add("add", *[U32] * 6)
