"""Plays calls on a pool and its rings through the Rust's own functions and through `replay`, and compares line by line.

Pool, packets, the filling of the receive ring, receive, send and cleaning are the Rust's. The shim rings.rs reads the records of docs/REPLAY.md too, and
answers each from the Rust's state, over ordinary memory and with the addresses of the script. Where docs/DIFFERENCES.md lists a difference, the Rust
must differ just so (`expected`). Stop reasons, hands and a pool's number are not the Rust's, and are not compared.
"""
import os
import subprocess
from collections import Counter

from model.limits import SLOTS
from rust.source import built

PACKET = ["struct Packet", "impl Packet", *(f"impl {name} for Packet" for name in ("Clone", "Deref", "DerefMut", "Drop")), "enum Prefetch"]
POOL = ["struct Mempool", "impl Mempool", "fn alloc_pkt_batch", "fn alloc_pkt", "fn memset"]
RINGS = ["struct IxgbeRxQueue", "struct IxgbeTxQueue", "fn wrap_ring", "fn clean_tx_queue"]
ITEMS = {"memory.rs": PACKET + POOL, "ixgbe.rs": RINGS}
ROOTS = ["start_rx_queue", "rx_batch", "tx_batch"]

STOPS = ("asked", "not-done", "no-buffer")  # with which a receive is compared
# what docs/DIFFERENCES.md lists by a call and its number: what it is, what the Rust does, and from which number on it answers the same
LISTED = {
    ("take", "5"): ("a packet too large", "none", 4),
    ("take", "6"): ("a packet from an empty stack", "none", 4),
    ("clone", "5"): ("a clone too large", "panic", 4),
    ("clone", "6"): ("a clone from an empty stack", "panic", 4),
    ("headroom", "5"): ("headroom above 32", "panic", 1),
    ("headroom", "7"): ("headroom before a received frame", "before", 1),
    ("receive", "3"): ("a receive with no such queue", "panic", 0),
    ("receive", "8"): ("a receive before the start", "done", 0),
    ("send", "3"): ("a send with no such queue", "panic", 0),
}


# ---- what the Rust must say


def expected(line):
    """What the Rust must say where `replay` says this line, and which stop or difference that is, if it is one."""
    number, word, *answer = line.split()
    verdict, rest = (answer or [""])[0], answer[1:]
    if word == "receive" and verdict in STOPS:
        return verdict, " ".join([number, word, "done", *rest])
    if (word, verdict) == ("receive", "split"):
        return "a split frame", " ".join([number, word, "panic", rest[0], "-", *rest[2:]])
    if (word, verdict) == ("receive", "too-long"):
        return "a frame too long", " ".join(map(str, (number, word, "done", *taken_too(*map(int, rest)))))
    if word == "start" and verdict != "0":
        return refused_start(number, verdict, *map(int, rest[1:]))
    if (word, verdict) not in LISTED:
        return None, line
    why, end, since = LISTED[word, verdict]
    return why, " ".join([number, word, end, *rest[since:]])


def taken_too(count, tail, free, ring, sends, out):
    """What the Rust answers where a receive stops at a frame too long, after others and before none: it takes that one, if there is a buffer."""
    more = int(free > 0)
    return count + more, (tail + more) % SLOTS, free - more, ring, sends, out + more


def refused_start(number, verdict, free, ring, *others):
    """Where a start is refused, the Rust takes 512, or all that there are."""
    why = "a start with under 512 free" if verdict == "6" else "a second start"
    end = ("0", SLOTS - 1) if free >= SLOTS else ("error", "-")
    return why, " ".join(map(str, (number, "start", *end, max(free - SLOTS, 0), ring + min(free, SLOTS), *others)))


# ---- what is compared


def output(command, stream):
    """The lines that a program prints, also if it does not come to its end."""
    try:
        run = subprocess.run(command, input=stream, stdout=subprocess.PIPE, stderr=subprocess.DEVNULL, timeout=120, check=False)
    except subprocess.TimeoutExpired as late:
        return (late.stdout or b"").decode().splitlines()
    return run.stdout.decode().splitlines()


def equal(name, ours, theirs, count, listed):
    """Whether the lines of a script are equal, but for what is listed; how often that came is counted."""
    for place in range(count):
        line, other = (lines[place] if place < len(lines) else "no line" for lines in (ours, theirs))
        why, must = expected(line) if place < len(ours) else (None, "a line")
        listed[why] += 1
        if must != other:
            at = max(0, len(os.path.commonprefix([must, other])) - 60)  # lines may be long
            print(f"{name}, record {place + 1}: {line[:60]}\n  must {must[at : at + 140]}\n  Rust {other[at : at + 140]}", flush=True)
            return False
    return True


def shown(title, counts):
    return f"{title}: {', '.join(f'{name} {often}' for name, often in sorted(counts.items()))}"


def compare(source, command, scripts):
    """Whether the lines of all scripts, each with its name, are equal. What the scripts did is printed."""
    count = lines = differ = 0
    calls, reached, listed = Counter(), Counter(), Counter()
    with built("rings.rs", source, ITEMS, ROOTS) as rust:
        for count, (name, script) in enumerate(scripts, 1):
            stream = bytes(script.bytes)
            differ += not equal(name, output(command, stream), output([rust], stream), script.count, listed)
            lines, calls, reached = lines + script.count, calls + script.calls, reached + script.reached
    del listed[None]
    stops = {stop: listed.pop(stop, 0) for stop in STOPS}
    print(shown("calls", calls), shown("receives stopped", stops), shown("reached", reached), shown("as docs/DIFFERENCES.md lists", listed), sep="\n")
    print(f"{count} scripts, {calls.total()} calls, {lines} lines, {differ} scripts differ")
    return differ == 0
