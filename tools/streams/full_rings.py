"""Scenes that take the rings round: cleaning where the card is done with all or a part, a full send ring and its wrap, receives across the end.

The digests of the whole ring and of the lists are shown after each call.
"""
from model.limits import RING_BYTES, SLOT_BYTES, SLOTS
from model.replay import LISTS

ENTRIES = 1100  # of every account
LISTED = 600  # the places of a list that are lent
FIRST_ADDRESS = 0xFFFF_FFFF_FFFF_0000  # they pass 2^64 between two entries


def taken(s, n):
    """A fresh account with n packets taken, their ids into a list of zeros, and a send ring of zeros."""
    s.holds("list", 1, [0] * LISTED)
    s.holds("ring", 1, bytes(RING_BYTES))
    s.fresh(ENTRIES)
    s.batch(n, rooms=[LISTED] * LISTS)
    s.list_digest(1, LISTED)


def send(s, begin, end):
    """A send of some of the handles that the largest batch of a fresh account has: every batch begins with the same ones."""
    handles = [(7, ENTRIES - 1 - k, 32, 8) for k in range(LISTED)]
    for held in range(LISTS):
        places = [handle[held] for handle in handles]
        s.holds("list", held, places[begin:end] if held == 1 else places)
    s.send(end - begin, rooms=(LISTED, end - begin, LISTED, LISTED))
    s.ring_digest(1)


def sent_by_card(s, slots):
    """The card is done with the first slots of the send ring."""
    ring = s.host.rings[1][:RING_BYTES]
    ring[12 : slots * SLOT_BYTES : SLOT_BYTES] = [1] * slots
    s.holds("ring", 1, ring)


def cleaning_rounds(s):
    """So many sent, the first slots done by the card, and an empty send."""
    s.addresses(ENTRIES, FIRST_ADDRESS)
    for n, slots in ((31, SLOTS), (32, SLOTS), (63, SLOTS), (64, SLOTS), (64, 31), (64, 32), (64, 63)):
        s.case(f"clean {n}" if slots == SLOTS else f"{slots} done of {n}")
        taken(s, n)
        send(s, 0, n)
        sent_by_card(s, slots)
        send(s, 0, 0)


def full_ring_and_wrap(s):
    """A full send ring, all of it done, cleaned, and then sent into round its end."""
    s.addresses(ENTRIES, FIRST_ADDRESS)
    s.case("wrap")
    taken(s, LISTED)
    send(s, 0, LISTED)
    sent_by_card(s, SLOTS)
    send(s, 511, 531)
    send(s, 531, 540)


def filled_by_card(s, slots):
    """The card has put a frame of 60 bytes into each of the first slots of the receive ring."""
    ring = s.host.rings[0][:RING_BYTES]
    ring[8 : slots * SLOT_BYTES : SLOT_BYTES], ring[12 : slots * SLOT_BYTES : SLOT_BYTES] = [3] * slots, [60] * slots
    s.holds("ring", 0, ring)


def receive(s, n):
    """A receive into lists of which the offsets are 9 and all else 0."""
    for held, value in enumerate((0, 0, 9, 0)):
        s.holds("list", held, [value] * LISTED)
    s.receive(n, rooms=[LISTED] * LISTS)
    s.ring_digest(0)
    for held in (1, 2, 3):
        s.list_digest(held, LISTED)


def receive_across_the_end(s):
    """Receives up to the end of the ring, and across it."""
    s.addresses(ENTRIES, FIRST_ADDRESS)
    s.case("across")
    s.fresh(ENTRIES)
    s.start()
    s.ring_digest(0)
    filled_by_card(s, SLOTS)
    receive(s, 510)
    filled_by_card(s, 3)
    receive(s, 8)
