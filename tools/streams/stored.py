"""Which scene makes which stored stream, and which records of it each case has.

A stored stream is named by its place: tests/replay and tests/replay_host have a file NAME.in of records and a file NAME.out of lines for each, a
program's own folder under crates/ has stdin and stdout. A stream of tests/replay that no scene makes was recorded, and has start-ups.
"""
from functools import partial

from model.framing import records
from model.replay import HOST_MEMORY, MEMORY, NUMBERS, record
from streams import bench, bench_random, each_number, each_refusal, forged_accounts, full_rings, packets, registers, rings, windows
from streams.random_records import RandomStream
from streams.stream import Stream, spans

REPLAY, REPLAY_HOST = "tests/replay", "tests/replay_host"

# the scenes that make a stream each, which has the scene's name
SCENES = [
    packets.blank, packets.fresh, packets.take, packets.handles, packets.batch,
    packets.packet_memory, packets.large_memory, packets.last_places, packets.digests,
    each_number.packet_calls, each_number.clone_view_headroom, each_number.ring_calls,
    rings.start, rings.receive_stops, rings.receive, rings.send, rings.send_done, rings.cleaning, rings.descriptors,
    full_rings.cleaning_rounds, full_rings.full_ring_and_wrap, full_rings.receive_across_the_end,
    each_refusal.each_refusal_of_start, each_refusal.receive_to_each_stop, each_refusal.each_refusal_of_receive,
    each_refusal.each_refusal_of_send, each_refusal.bad_handles,
    forged_accounts.forged_accounts, forged_accounts.forged_indices, forged_accounts.forged_starts,
    forged_accounts.out_past_the_entries, forged_accounts.each_call_when_forged,
    registers.set_up, registers.start_ups, registers.waits, registers.maps, registers.forged_states,
    registers.run_time_calls, registers.register_words, registers.statistics,
    windows.window, windows.forged_windows,
]
HOST_SCENES = [packets.blank, packets.large_pools, packets.last_places]


# ---- how streams are made


def played(scene, memory=MEMORY):
    """The stream of a scene. All of it is a case, but for the cases that it names itself."""
    s = Stream(memory)
    s.case(scene.__name__.replace("_", " "))
    scene(s)
    return s


def random_records(seed, count, bad_record, memory=MEMORY):
    """Random records, one that is not good, and a good one after it, which prints nothing."""
    s = RandomStream(seed, memory)
    s.case("random records")
    s.turns(count)
    s.end(bad_record)
    s.bytes += record("sound")
    return s


def example():
    """The example of docs/REPLAY.md."""
    s = Stream()
    s.case("the example")
    s.fresh(4)
    s.add("take", 8)
    s.add("release", 7, 0, 32, 8)
    s.add("view", 7, 3, 32, 8, 256)
    s.add("list", 1, 0, [3, 2**16 + 5])
    s.add("places", 1, 0, 3)
    s.end(record("slot", 0, 4096))
    return s


STREAMS = {f"{REPLAY}/{scene.__name__}": partial(played, scene) for scene in SCENES}
STREAMS[f"{REPLAY}/random"] = partial(random_records, 1, 2000, record("slot", 0, 4096))
STREAMS |= {f"{REPLAY_HOST}/{scene.__name__}": partial(played, scene, HOST_MEMORY) for scene in HOST_SCENES}
STREAMS[f"{REPLAY_HOST}/random"] = partial(random_records, 2, 1000, record("view", 7, 0, 32, 8, HOST_MEMORY + 1), HOST_MEMORY)
STREAMS["crates/replay"] = example

BENCH_STREAMS = {
    "crates/bench": bench.example,
    "crates/benches": lambda: bench.behind_lengths(bench.worked_streams() + bench_random.stored_streams()),
}


def names():
    """The names of the stored streams that are made here."""
    return [*STREAMS, *BENCH_STREAMS]


def made(name):
    """The bytes of a stored stream, by its scenes."""
    return BENCH_STREAMS[name]() if name in BENCH_STREAMS else bytes(STREAMS[name]().bytes)


# ---- cases


def recorded_cases(stream):
    """The cases of a stream that was recorded: its start-ups, each from its set-up on."""
    kinds = [one[0] if one else None for one in records(stream)]
    set_ups = [number for number, kind in enumerate(kinds, 1) if kind == NUMBERS["set-up"]]
    return spans([(f"start-up {k}", number) for k, number in enumerate(set_ups, 1)], len(kinds))


def cases(name, stream):
    """The cases of a stored stream, with the first and the last record of each. Those for `bench` have none."""
    if name in BENCH_STREAMS:
        return []
    if name not in STREAMS:
        return recorded_cases(stream)
    s = STREAMS[name]()
    return spans(s.marks, s.count)
