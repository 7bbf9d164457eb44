"""Scenes on an account's packets: fresh, take, batch, release, truncate, and clone, view and headroom on packet memory."""
from model.account import FREE
from model.limits import SIZES, U32, U64
from model.replay import ACCOUNT_ARRAYS, LISTS, PLACES, RINGS


def blank(s):
    """Before the first fresh everything is 0."""
    s.look()
    s.each_call()
    for ring in (0, RINGS - 1):
        s.slots(ring, 0, 4095)
    s.lists(3)
    s.add("bytes", s.room - 3, 3)
    for name in ACCOUNT_ARRAYS:
        s.array(name, 0, 4)
    s.look()


def fresh(s):
    """Each number of a fresh account at its bounds and past them."""
    s.case("fresh: entries")
    for entries in (0, 1, 2, 4095, 4096, 4097, 65536, 2**32 + 1, U64):
        s.fresh(entries)
        s.add("in-range", entries, 64, 1, 1)
    s.case("fresh: sizes")
    for size in (0, 1, 32, 63, 65, 96, 2047, 16383, 16385, 32768, 2**32 + 64, 2**63, U64, *SIZES):
        s.fresh(3, size)
        s.add("take", max(0, s.account.size - 32))
        s.add("in-range", 3, size, 1, 1)
    s.case("fresh: receive queues")
    for receives in (0, 1, 2, 2**32, U64):
        s.fresh(3, receives=receives)
        s.add("in-range", 3, 64, receives, 1)
    s.case("fresh: send queues")
    for sends in (0, 1, 2, 3, 4, 5, 2**32, U64):
        s.fresh(3, sends=sends)
        s.add("in-range", 3, 64, 1, sends)
    s.case("fresh: pool numbers")
    for pool in (0, 2**32 - 1):
        s.fresh(3, pool=pool)
        s.add("take", 1)
    s.case("every call after a refused fresh")
    s.fresh(0, 3, 2, 5)
    s.look()
    s.each_call()
    s.array("free_ids", 4090, 6)


def take(s):
    """One packet to an empty stack; sizes at their bounds; the order of 5 and 6."""
    s.fresh(4)
    for size in (33, U64, 2**16, 2**32 + 8, 0, 1, 31, 32, 32, 33, 0):
        s.add("take", size)
    s.look()
    s.fresh(3, 16384)
    for size in (16352, 16353, 0):
        s.add("take", size)


# ---- handles


def good_handles(account, number):
    """Good handles of an id that is out."""
    size = account.size
    return [(account.pool, number, offset, length) for offset, length in ((32, size - 32), (0, size), (32, 0), (0, 0))]


def wrong_handles(account, number):
    """Handles of an id that is out, with each field wrong in turn."""
    pool, entries, size = account.pool, account.entries, account.size
    free = account.hands.index(FREE)
    others = [(wrong, number, 32, 8) for wrong in (pool + 1, pool ^ 2**31, 0)]
    others += [(pool, wrong, 32, 8) for wrong in (entries, 65535, free)]
    others += [(pool, number, wrong, 8) for wrong in (1, 31, 33, 64, 65535)]
    return others + [(pool, number, *wrong) for wrong in ((32, size - 31), (0, size + 1), (0, 65535), (65535, 65535))]


def handles(s):
    """Every call with a handle, with each field wrong in turn, and stale handles."""
    s.fresh(6, pool=0x12345678)
    s.add("memory", 0, [k * 7 % 256 for k in range(6 * 64)])
    for _ in range(3):
        s.add("take", 8)
    s.case("good and wrong handles")
    for handle in good_handles(s.account, 4) + wrong_handles(s.account, 4):
        s.add("truncate", *handle, 5)
        s.add("truncate", *handle, U64)
        s.add("view", *handle, s.pool_memory())
        s.add("headroom", *handle, 7, s.pool_memory(), handle[1] % 256)
        if s.add("clone", *handle, s.pool_memory())[0] == 0:
            s.add("bytes", 0, 6 * 64)
            s.add("release", s.account.pool, s.account.free_ids[s.account.depth], 32, 1)
    for handle in wrong_handles(s.account, 4):
        s.add("release", *handle)
    s.look()
    s.case("stale handles")
    handle = (s.account.pool, 4, 32, 8)
    s.add("release", *handle)
    s.add("release", *handle)
    s.add("take", 20)
    s.add("view", *handle, s.pool_memory())
    s.add("release", *handle)
    s.look()


# ---- batches


def batch(s):
    """Batches of none, some and all, with lists too short in turn, and oversize ones."""
    for n in (0, 1, 2, 5, 6, 7, U64):
        s.case(f"batch: {n} of 6")
        s.fresh(6)
        for held in range(LISTS):
            rooms = [min(max(n, 1), 6)] * LISTS
            rooms[held] -= 1
            s.batch(n, rooms=rooms)
            s.batch(n, 33, rooms=rooms)
        s.batch(n, 33)
        s.batch(n, U64)
        s.batch(n, 32)
        s.lists(7)
        s.batch(n, rooms=(9, 9, 9, 9))
        s.batch(0)
        s.look()
    s.batch(0, rooms=(5000, 5000, 65535, 65535))
    s.case("batch: 4,096 of 4,096")
    s.fresh(4096)
    s.batch(4096, 16)
    for at in (0, 2000, 4000):
        s.add("places", 1, at, 50)
    s.look()


# ---- packet memory


def packet_memory(s):
    """Packet memory of every wrong size, clones and headrooms to their refusals, and two reasons at once."""
    s.fresh(4)
    s.add("memory", 0, [255 - k % 256 for k in range(256)])
    for size in (16, 32):
        s.add("take", size)
    good, bad = (7, 3, 32, 16), (7, 0, 32, 16)
    s.case("memory of a wrong length")
    for size in (0, 255, 257, 64, 4096, s.room):
        for handle in (good, bad):
            s.add("clone", *handle, size)
            s.add("view", *handle, size)
            s.add("headroom", *handle, 40, size, 1)
    s.case("headroom: asked")
    for asked in (0, 1, 14, 31, 32, 33, 64, 2**16, U64):
        for offset in (0, 32):
            s.add("headroom", 7, 3, offset, 16, asked, 256, asked % 251)
            s.add("headroom", *bad, asked, 256, 9)
        s.add("bytes", 180, 76)
    s.case("clone: too long, or none free")
    for handle in ((7, 3, 0, 33), (7, 3, 0, 64), (7, 3, 0, 32), (7, 2, 32, 32), (7, 2, 32, 32), (7, 2, 0, 33), bad):
        s.add("clone", *handle, 256)
    s.add("bytes", 0, 256)
    s.look()


def large_pool(s, entries, size):
    """A pool's entries at the end of its packet memory, full packets, and the memory one too short, one too long and all that there is."""
    s.case(f"packet memory of {entries} entries of {size or 'the usual size'}")
    s.fresh(entries, size)
    size, last, whole = s.account.size, entries - 1, s.pool_memory()
    s.add("take", size - 32)
    s.add("memory", whole - size, [k * 11 % 256 for k in range(size)])
    handle = (7, last, 32, size - 32)
    for memory in (whole, whole - 1, min(whole + 1, s.room), s.room):
        s.add("view", *handle, memory)
        s.add("headroom", *handle, 32, memory, 0x77)
        s.add("clone", *handle, memory)
    s.add("view", 7, last - 1, 32, size - 32, whole)
    s.add("bytes", whole - size - 2, 40)
    s.add("bytes", whole - 2 * size, 40)
    s.add("release", *handle)
    s.look()


def large_memory(s):
    """Pools that fill the packet memory of `replay`."""
    for entries, size in ((4096, 1024), (2048, 0), (256, 16384)):
        large_pool(s, entries, size)


def large_pools(s):
    """Pools that `replay` has no memory for, up to the largest."""
    for entries, size in ((4096, 0), (2049, 0), (257, 16384), (4096, 8192), (4095, 16384), (4096, 16384)):
        large_pool(s, entries, size)


# ---- the ends of what is kept


def last_places(s):
    """The last places of what is kept, set and shown."""
    for ring in (0, RINGS - 1):
        s.add("ring", ring, PLACES - 3, [1, 2, 3])
        s.add("ring", ring, PLACES - 1, [])
        s.slots(ring, 4095)
    for held in range(LISTS):
        s.add("list", held, PLACES - 2, [2**32 - 1, 2**31 + 2**16])
        s.add("list", held, PLACES - 1, [])
        s.add("places", held, PLACES - 3, 3)
        s.add("places", held, PLACES - 1, 0)
    s.add("addresses", PLACES - 1, [U64])
    s.add("addresses", PLACES - 1, [])
    s.add("memory", s.room - 2, [8, 9])
    s.add("memory", s.room, [])
    s.add("bytes", s.room - 4, 4)
    s.add("bytes", s.room, 0)
    for name in ACCOUNT_ARRAYS:
        last = len(getattr(s.account, name)) - 1
        old = s.value_of(name, last)
        s.forge(name, U64 - 1, last)
        s.array(name, last, 1)
        s.array(name, last + 1, 0)
        s.forge(name, old, last)


def digests(s):
    """The digest of none, of some and of all places of each array, empty and with something at its begin and its end."""
    for array in range(RINGS + LISTS + 1):
        for count in (0, 1, 8192, PLACES):
            s.add("digest", array, count)
    for ring in range(RINGS):
        s.add("ring", ring, 0, [ring + 1, 255])
        s.add("ring", ring, PLACES - 1, [ring + 7])
    for held in range(LISTS):
        s.add("list", held, 0, [held + 1, U32])
        s.add("list", held, PLACES - 1, [U32])
    s.add("memory", 0, [1, 2, 3])
    s.add("memory", s.room - 1, [9])
    for array in range(RINGS + LISTS + 1):
        for count in (1, 2, PLACES - 1, PLACES):
            s.add("digest", array, count)
    s.add("digest", RINGS + LISTS, s.room)
