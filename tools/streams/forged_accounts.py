"""Scenes on accounts with a field or a place forged: whether they are sound, and what calls answer."""
from model.account import APPLICATION
from model.limits import SLOTS, U64


def base(s):
    """A sound account with something in every hand: 40 sent on queue 0, 38 left of 70 on queue 2, 40 out."""
    s.fresh(700, receives=1, sends=3)
    s.entry_addresses()
    s.batch(150, 16)
    s.send(40, queue=0)
    s.add("list", 1, 0, s.host.lists[1][40:150])
    s.send(70, queue=2, ring=2)
    s.done_byte(31, ring=2)
    s.send(0, queue=2, ring=2)
    s.start()
    s.look()


def packet_out(s):
    """A handle of a packet that is out."""
    return (7, s.account.hands.index(APPLICATION), 32, 8)


# ---- one thing wrong


def changed_numbers(account):
    """Fields that are numbers, and values that are wrong or look so."""
    numbers = {"pool": [8], "entries": [0, 699, 701, 4096, 4097, U64], "size": [0, 32, 63, 128, 32768, U64], "receives": [0, 2, U64]}
    numbers |= {"sends": [0, 2, 4, 5, U64], "depth": [0, account.depth - 1, account.depth + 1, 4096, 5000, U64]}
    numbers |= {"started": [0, 2**63], "rx": [1, 511, 512, U64]}
    return [(name, value, 0) for name, values in numbers.items() for value in values]


def changed_places(account, out):
    """Places of the arrays, and values that are wrong or look so."""
    second = 2 * SLOTS  # where the slots of queue 2 begin
    lists = {
        "free_ids": (0, account.depth - 1, account.depth),
        "slots": (0, 300, 511),
        "sent": (0, 39, 40, second + 32, second + 69, second + 31, 3 * SLOTS),
    }
    ids = (account.free_ids[1], account.slots[1], account.sent[1], account.sent[second + 40], out, 700, 4096, 65535)
    changes = [(name, value, place) for name, places in lists.items() for place in places for value in ids]
    for number in (out, account.free_ids[0], account.slots[0], account.sent[0], account.sent[second + 32], 699):
        changes += [("hands", hand, number) for hand in (0, 1, 2, 3, 4, 5, 6, 7, 255, 256)]
    changes += [("hands", 9, number) for number in (700, 4095)]
    for queue in range(4):
        changes += [("clean", value, queue) for value in (1, 31, 32, 64, 511, 512, 544, U64)]
        changes += [("tx", value, queue) for value in (0, 1, 39, 41, 69, 71, 511, 512, U64)]
    return changes


def forged_accounts(s):
    """Each change by itself: is it sound, and what does a call answer, another one each turn? Then it is taken back."""
    base(s)
    for turn, (name, value, place) in enumerate(changed_numbers(s.account) + changed_places(s.account, s.account.ids_out()[0])):
        old = s.value_of(name, place)
        s.case(f"{name} {value} at {place}")
        s.forge(name, value, place)
        s.add("sound")
        if s.account.sound():
            s.add("counts")
        else:
            calls = s.calls(packet_out(s), 700, 700 * 64)
            s.add(*calls[turn % len(calls)])
        s.forge(name, old, place)
    s.look()
    sound_forgeries(s)


def sound_forgeries(s):
    """Two free ids in another order, and a ring that stands at another slot, are sound."""
    s.case("sound forgeries")
    for place, value in ((0, s.account.free_ids[1]), (1, s.account.free_ids[0])):
        s.forge("free_ids", value, place)
    s.look()
    s.forge("rx", 17)
    s.frame(17, 3, 20)
    s.receive(2)
    s.look()


def forged_indices(s):
    """An empty queue with both indices forged, so that only their own rules can fail: a sound one is sent on."""
    base(s)
    for value in (1, 16, 31, 32, 33, 48, 256, 480, 496, 511, 512, 544, U64):
        s.case(f"both indices at {value}")
        s.forge("clean", value, 1)
        s.forge("tx", value, 1)
        s.add("sound")
        s.send(0, queue=1, ring=3)
        s.add("counts")
    s.forge("clean", 480, 1)
    s.forge("tx", 480, 1)
    s.look()


def out_past_the_entries(s):
    """The hand of an id past the entries is forged as out: the account is sound, and no call takes the id for good."""
    base(s)
    handle = (7, 700, 32, 8)
    s.forge("hands", 2, 700)
    s.look()
    s.add("counts")
    s.add("truncate", *handle, 3)
    s.add("view", *handle, s.pool_memory())
    s.add("clone", *handle, s.pool_memory())
    s.add("headroom", *handle, 3, s.pool_memory(), 5)
    s.add("release", *handle)
    s.handles([handle])
    s.send(1)
    s.look()


def forged_starts(s):
    """A ring that has not started, with an rx index or said to be started; no entries; a started ring with no queue."""
    for entries in (5, 600):
        s.case(f"not started, {entries} entries")
        s.fresh(entries)
        for value in (1, 511, 0):
            s.forge("rx", value)
            s.add("sound")
            s.add("take", 8)
        s.forge("started", 1)
        s.look()
        s.forge("started", 0)
        s.look()
    s.case("no entries")
    s.fresh(1)
    s.forge("entries", 0)
    s.forge("depth", 0)
    s.look()
    s.add("take", 8)
    s.case("started, and no receive queue")
    s.fresh(600)
    s.entry_addresses()
    s.start()
    s.forge("receives", 0)
    s.look()
    s.receive(1)
    s.forge("started", 0)
    s.look()


def each_call_when_forged(s):
    """Every call on three accounts that are not sound, with everything shown before and after."""
    for name, value in (("depth", 5000), ("hands", 2), ("rx", SLOTS)):
        s.case(f"every call with {name} {value}")
        base(s)
        s.forge(name, value)
        s.look()
        s.lists(3)
        s.each_call(packet_out(s))
        s.lists(3)
        s.slots(0, 0, 511)
        s.look()
