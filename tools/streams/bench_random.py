"""Random streams for document 01's bench program, by their seeds."""
import random

from model.bench import SEND, record
from model.framing import framed
from model.limits import BATCH, SLOTS
from streams.bench import BenchStream, done, frames, fresh, receive, release, send, start, take

HELD = 0x20000  # the bytes of its input that `bench` holds at once
SET_UPS = ((700, 2048, 1), (1200, 64, 4), (20, 128, 2), (4096, 16384, 3), (512, 0, 0))  # entries, size and send queues


def some_ids(s, dice, count):
    """So many ids, mostly of packets that are out."""
    out = s.account.ids_out()
    return [dice.choice(out) if out and dice.random() < 0.98 else dice.randrange(s.account.entries + 8) for _ in range(count)]


def random_send(s, dice):
    """A send, mostly to a queue that there is and of ids that do not repeat."""
    sends, ids = s.account.sends, some_ids(s, dice, dice.randrange(40))
    queue = dice.randrange(sends) if sends and dice.random() < 0.95 else dice.randrange(6)
    return send(queue, dict.fromkeys(ids) if dice.random() < 0.9 else ids)


def random_done_bit(s, dice):
    """A done bit, mostly the one that cleaning looks at."""
    queue = dice.randrange(s.account.sends)
    return done(queue, [s.account.clean[queue] + BATCH - 1 if dice.random() < 0.7 else dice.randrange(SLOTS)])


def random_record(s, dice, slot):
    """A record that mostly makes sense where the bench stands; slot is the next that the card fills."""
    size = s.account.size
    sorts = {"start": 2, "take": 10, "release": 8, "done": 15 if s.account.sends else 0, "frame": 40, "receive": 10, "send": 15}
    sort = dice.choices(list(sorts), list(sorts.values()))[0]
    if sort == "start":
        return start()
    if sort == "take":
        return take(dice.choice((0, 1, size - 32, size - 31, dice.randrange(size))))
    if sort == "release":
        return release(*some_ids(s, dice, 1))
    if sort == "done":
        return random_done_bit(s, dice)
    if sort == "frame":
        status = 3 if dice.random() < 0.96 else dice.choice((0, 1, 2, 7, 0xFFFFFFFF))
        return frames([slot], status, dice.randrange(size + 1) if dice.random() < 0.97 else size + 1)
    if sort == "receive":
        return receive(dice.choice((0, 1, 2, 32, 64, 1000, 2**32 - 1)))
    return random_send(s, dice)


def random_stream(seed, count, *set_up):
    """A fresh account and so many random records."""
    dice, s, slot = random.Random(seed), BenchStream(), 0
    s.add(fresh(*set_up))
    for _ in range(count):
        # the card fills the ring in order, and comes back to where the host looks
        slot = slot + 1 if dice.random() < 0.97 else s.account.rx
        s.add(random_record(s, dice, slot))
    return s.bytes


def shifted_stream(seed, count):
    """A random stream in which a long record, a send to an unknown queue, moves the others about: any of them may lie across two reads."""
    dice = random.Random(seed)
    set_up = dice.choice(SET_UPS)
    begin, ids = fresh(*set_up), dice.randrange(32765)
    return begin + record(SEND, 65535, ids, [0] * ids) + random_stream(seed, count, *set_up)[len(begin) :]


def cut_stream(seed, count):
    """The same cut off anywhere or near the end of what is held at once, or with a record in it that is not good."""
    dice, stream = random.Random(seed), shifted_stream(seed, count)
    anywhere = dice.randrange(len(stream) + 1)
    ends = (anywhere, HELD + dice.randrange(-4, 5), 2 * HELD + dice.randrange(-4, 5))
    return dice.choice([stream[:end] for end in ends] + [stream[:anywhere] + framed(9, b"") + take()])


def stored_streams():
    """The random streams that `benches` serves."""
    return [random_stream(1, 3000, 700, 2048, 1), random_stream(2, 1500, 1200, 64, 4), random_stream(3, 400, 20, 128, 2)]
