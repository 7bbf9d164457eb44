"""Document 01's account and the calls on it: where each buffer is, when that is sound, and the rules of the pool, of receive and of send.

Each call tests the reasons for a refusal in document 01's order, and raises `Refused` before it changes anything; what a refused call answers beside
its number is left to those who print it. Rings, packet memory, addresses and lists are lent to a call as places that it may write;
the lists are four: pools, ids, offsets and lengths. Points that document 01 leaves open are decided as in docs/DECISIONS.md: the numbers of the hands
(D5), array places past a count, which stay as they were last written (D7), how many handles a send has (D8), an oversize batch (D9), a clone of a
long frame (D10).
"""
from collections import namedtuple

from model.limits import BATCH, ENTRIES, HEADROOM, RECEIVES, RING_BYTES, SENDS, SIZES, SLOT_BYTES, SLOTS, USUAL_SIZE
from model.refusals import BAD_HANDLE, NO_HEADROOM, NO_QUEUE, NONE_FREE, NOT_SOUND, OUT_OF_RANGE, TOO_LARGE, WRONG_LENGTH, WRONG_START, need

FREE, RECEIVE_RING, APPLICATION, FIRST_SEND_QUEUE = range(4)  # the hands

Handle = namedtuple("Handle", "pool id offset length")


def in_range(entries, size, receives, sends):
    """Whether an account may have these numbers."""
    return 1 <= entries <= ENTRIES and size in SIZES and receives <= RECEIVES and sends <= SENDS


# ---- the account


class Account:
    """Where each buffer of a pool is. As made here, every buffer is free."""

    def __init__(self, pool=0, entries=0, size=0, receives=0, sends=0):
        self.pool, self.entries, self.size, self.receives, self.sends = pool, entries, size, receives, sends
        self.free_ids, self.depth = list(range(ENTRIES)), entries
        self.hands = [FREE] * ENTRIES
        self.started, self.rx, self.slots = False, 0, [0] * SLOTS
        self.sent, self.clean, self.tx = [0] * (SENDS * SLOTS), [0] * SENDS, [0] * SENDS

    def pop(self, hand):
        """The id on top of the free stack, which goes to a hand."""
        self.depth -= 1
        self.hands[self.free_ids[self.depth]] = hand
        return self.free_ids[self.depth]

    def push(self, buffer):
        """A buffer is free again."""
        self.free_ids[self.depth], self.hands[buffer] = buffer, FREE
        self.depth += 1

    def pending(self, queue):
        """How many buffers a send queue has."""
        return (self.tx[queue] - self.clean[queue]) % SLOTS

    def oldest(self, queue, count):
        """The ids of a send queue that were sent first."""
        return [self.sent[SLOTS * queue + (self.clean[queue] + k) % SLOTS] for k in range(count)]

    def ids_out(self):
        """The ids that the application has."""
        return [buffer for buffer, hand in enumerate(self.hands[: self.entries]) if hand == APPLICATION]

    def lists(self):
        """The ids that each hand but the application's has, by the hand's number."""
        queues = {FIRST_SEND_QUEUE + queue: self.oldest(queue, self.pending(queue)) for queue in range(self.sends)}
        return {FREE: self.free_ids[: self.depth], RECEIVE_RING: self.slots if self.started else []} | queues

    def numbers_sound(self):
        """Whether the numbers and the indices are those that a sound account may have."""
        if not in_range(self.entries, self.size, self.receives, self.sends) or self.depth > self.entries:
            return False
        if self.rx >= SLOTS or (self.rx != 0 and not self.started) or (self.started and self.receives == 0):
            return False
        return all(self.clean[queue] < SLOTS and self.tx[queue] < SLOTS and self.clean[queue] % BATCH == 0 for queue in range(self.sends))

    def sound(self):
        """Whether the numbers are, and every id stands exactly once in the list of its recorded hand and in no other, or in none if it is out."""
        if not self.numbers_sound():
            return False
        found, places = [APPLICATION] * self.entries, 0
        for hand, ids in self.lists().items():
            if max(ids, default=0) >= self.entries:
                return False
            for buffer in ids:
                found[buffer] = hand
            places += len(ids)
        # the ids that are listed are as many as the places of the lists, so none stands twice
        return found == self.hands[: self.entries] and places == self.entries - found.count(APPLICATION)

    def counts(self):
        """What each hand has: the free stack, the receive ring, a list of the send queues, the application."""
        queues = [self.pending(queue) if queue < self.sends else 0 for queue in range(SENDS)]
        return self.depth, SLOTS if self.started else 0, queues, self.hands[: self.entries].count(APPLICATION)


def fresh(pool, entries, size, receives, sends):
    """A new account."""
    size = size or USUAL_SIZE
    need(in_range(entries, size, receives, sends), OUT_OF_RANGE)
    return Account(pool, entries, size, receives, sends)


# ---- handles and what is lent


def good(account, handle):
    """Whether a handle is good."""
    if handle.pool != account.pool or handle.id >= account.entries or account.hands[handle.id] != APPLICATION:
        return False
    return handle.offset in (0, HEADROOM) and handle.offset + handle.length <= account.size


def put_handle(lists, place, handle):
    """A handle goes to a place of the lists."""
    for places, number in zip(lists, handle):
        places[place] = number


def word(places, at, width):
    """A little-endian word of some bytes."""
    return int.from_bytes(places[at : at + width], "little")


def put_word(places, at, width, value):
    """Writes one."""
    places[at : at + width] = value.to_bytes(width, "little")


def need_lent(account, ring, addresses):
    """A ring and addresses must have the right lengths."""
    need(len(ring) == RING_BYTES and len(addresses) == account.entries, WRONG_LENGTH)


def need_memory(account, memory):
    """Packet memory must have the right length."""
    need(len(memory) == account.entries * account.size, WRONG_LENGTH)


# ---- pool rules


def taken(account, size):
    """A packet off the stack, if it is not too large and there is one."""
    need(size <= account.size - HEADROOM, TOO_LARGE)
    need(account.depth > 0, NONE_FREE)
    return Handle(account.pool, account.pop(APPLICATION), HEADROOM, size)


def take(account, size):
    """One packet."""
    need(account.sound(), NOT_SOUND)
    return taken(account, size)


def batch(account, n, size, lists):
    """So many packets as there are, up to n, into the lists: how many."""
    need(account.sound(), NOT_SOUND)
    need(all(len(places) >= min(max(n, 1), account.entries) for places in lists), WRONG_LENGTH)
    if size > account.size - HEADROOM:
        return 0
    count = min(max(n, 1), account.depth)
    for place in range(count):
        put_handle(lists, place, taken(account, size))
    return count


def release(account, handle):
    """A packet is given back."""
    need(account.sound(), NOT_SOUND)
    need(good(account, handle), BAD_HANDLE, 0)
    account.push(handle.id)


def truncate(account, handle, size):
    """The handle of a packet cut to a size."""
    need(account.sound(), NOT_SOUND)
    need(good(account, handle), BAD_HANDLE, 0)
    return handle._replace(length=min(handle.length, size))


def need_packet(account, handle, memory):
    """What each call on packet memory tests first."""
    need(account.sound(), NOT_SOUND)
    need_memory(account, memory)
    need(good(account, handle), BAD_HANDLE, 0)


def view(account, handle, memory):
    """A packet's own part of packet memory."""
    need_packet(account, handle, memory)
    begin = handle.id * account.size + handle.offset
    return memory[begin : begin + handle.length]


def clone(account, handle, memory):
    """A packet of the same length, with the same bytes."""
    packet = view(account, handle, memory)
    other = taken(account, handle.length)
    begin = other.id * account.size + other.offset
    memory[begin : begin + other.length] = packet
    return other


def headroom(account, handle, asked, memory):
    """The part just before a packet, to write into."""
    need_packet(account, handle, memory)
    need(asked <= HEADROOM, TOO_LARGE)
    need(asked <= handle.offset, NO_HEADROOM)
    end = handle.id * account.size + handle.offset
    return memory[end - asked : end]


# ---- receive rules


def offer(account, slot, ring, addresses):
    """A free buffer goes into a slot of the receive ring."""
    account.slots[slot] = account.pop(RECEIVE_RING)
    put_word(ring, slot * SLOT_BYTES, 8, addresses[account.slots[slot]])
    put_word(ring, slot * SLOT_BYTES + 8, 8, 0)


def start(account, queue, ring, addresses):
    """Fills the receive ring: the tail."""
    need(account.sound(), NOT_SOUND)
    need_lent(account, ring, addresses)
    need(queue < account.receives, NO_QUEUE)
    need(not account.started, WRONG_START)
    need(account.depth >= SLOTS, NONE_FREE)
    for slot in range(SLOTS):
        offer(account, slot, ring, addresses)
    account.started = True
    return SLOTS - 1


def stop_reason(account, status, length, all_taken):
    """The first reason for a receive to stop at a slot, if there is one."""
    reasons = {
        "asked": all_taken,
        "not-done": not status & 1,
        "split": not status & 2,
        "too-long": length > account.size,
        "no-buffer": account.depth == 0,
    }
    return next((reason for reason, holds in reasons.items() if holds), None)


def receive(account, queue, ring, addresses, n, lists):
    """Receives up to n packets into the lists: the reason for stopping, how many, and the tail, which is None if none is written."""
    need(account.sound(), NOT_SOUND)
    need_lent(account, ring, addresses)
    need(all(len(places) >= min(n, SLOTS) for places in lists), WRONG_LENGTH)
    need(queue < account.receives, NO_QUEUE)
    need(account.started, WRONG_START)
    count, tail = 0, None
    while True:
        slot = account.rx
        status, length = word(ring, slot * SLOT_BYTES + 8, 4), word(ring, slot * SLOT_BYTES + 12, 2)
        reason = stop_reason(account, status, length, count == n)
        if reason:
            return reason, count, tail
        buffer = account.slots[slot]
        put_handle(lists, count, Handle(account.pool, buffer, 0, length))
        account.hands[buffer] = APPLICATION
        offer(account, slot, ring, addresses)
        count, tail, account.rx = count + 1, slot, (slot + 1) % SLOTS


# ---- send rules


def need_handles(account, handles):
    """Each handle must be good, and no id may stand twice."""
    seen = set()
    for index, handle in enumerate(handles):
        need(good(account, handle) and handle.id not in seen, BAD_HANDLE, index)
        seen.add(handle.id)


def clean(account, queue, ring):
    """Gives back the batches of sent buffers that the card is done with."""
    while account.pending(queue) >= BATCH:
        last = (account.clean[queue] + BATCH - 1) % SLOTS
        if not word(ring, last * SLOT_BYTES + 12, 4) & 1:
            break
        for buffer in account.oldest(queue, BATCH):
            account.push(buffer)
        account.clean[queue] = (account.clean[queue] + BATCH) % SLOTS


def describe(account, queue, ring, address, handle):
    """A packet goes into the next slot of a send queue."""
    slot = account.tx[queue]
    put_word(ring, slot * SLOT_BYTES, 8, (address + handle.offset) % 2**64)
    put_word(ring, slot * SLOT_BYTES + 8, 4, 0x2B300000 + handle.length)
    put_word(ring, slot * SLOT_BYTES + 12, 4, handle.length << 14)
    account.sent[SLOTS * queue + slot], account.hands[handle.id] = handle.id, FIRST_SEND_QUEUE + queue
    account.tx[queue] = (slot + 1) % SLOTS


def send(account, queue, ring, addresses, lists):
    """Sends as many of the packets in the lists as fit: how many, and the tail."""
    need(account.sound(), NOT_SOUND)
    need_lent(account, ring, addresses)
    pools, ids, offsets, lengths = lists
    need(all(len(places) >= len(ids) for places in (pools, offsets, lengths)), WRONG_LENGTH)
    need(queue < account.sends, NO_QUEUE)
    handles = list(map(Handle, pools, ids, offsets, lengths))
    need_handles(account, handles)
    clean(account, queue, ring)
    count = min(len(handles), SLOTS - 1 - account.pending(queue))
    for handle in handles[:count]:
        describe(account, queue, ring, addresses[handle.id], handle)
    return count, account.tx[queue]
