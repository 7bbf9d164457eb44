"""The one command of tools/, beside the shell scripts:

    python3 tools --help

model/ is document 01 in Python and what the programs must print, streams/ makes streams of records, compare/ runs programs on streams and compares,
rust/ compares `replay` with the Rust's own functions. No folder imports from another one but from model/: they are put together here.
"""
import sys

sys.dont_write_bytecode = True  # no __pycache__ in the tree

import argparse
from itertools import chain, islice
from pathlib import Path

import compare.models
import compare.stored
import compare.wrong_programs
import rust.rings
import rust.start_ups
from model.replay import HOST_MEMORY, MEMORY
from streams import bad_records, bench, bench_random, random_records, rust_domain, start_ups
from streams import stored as scenes

ROOT = Path(__file__).resolve().parent.parent
RECORDED = "tests/replay/start_ups_recorded"
BENCH_RECORDS = 20000  # of a random stream for `bench`


# ---- stored streams


def records_of(name):
    """The records of a stored stream."""
    return compare.stored.read(compare.stored.stored(ROOT, name).records)


def place(name, line):
    """What stands in a line of a stored stream: for `replay` a record, and the case that it belongs to."""
    cases = scenes.cases(name, records_of(name))
    return next((f"record {line}, case {case}" for case, first, last in cases if first <= line <= last), f"line {line}")


def stored_make(given):
    """Writes the records of each stream that scenes make, and the lines of each by the model."""

    def asked(name):
        return not given.names or name in given.names or name.rsplit("/", 1)[1] in given.names

    for name in filter(asked, scenes.names()):
        records = compare.stored.stored(ROOT, name).records
        records.parent.mkdir(parents=True, exist_ok=True)
        records.write_bytes(scenes.made(name))
    streams = [one for one in compare.stored.all_stored(ROOT) if asked(one.name)]
    for one in streams:
        one.lines.write_text(compare.stored.model_lines(one))
        print(f"{one.name}: {one.records.stat().st_size} bytes of records, {one.lines.stat().st_size} of lines")
    return bool(streams)


def stored_check(given):
    """Makes the stored lines anew, and with --scenes the streams."""
    right = compare.stored.check_lines(compare.stored.all_stored(ROOT), place)
    if given.scenes:
        right &= compare.stored.check_records(ROOT, ((name, scenes.made(name)) for name in scenes.names()))
    return right


def stored_run(given):
    """Runs a program on each stored stream of a folder."""
    return compare.stored.run(compare.stored.in_folder(ROOT, given.folder), [given.program, *given.arguments], place)


def cases(_):
    """Prints which records of which stream each case has."""
    print("| case | stream | records |", "|---|---|---|", sep="\n")
    for one in compare.stored.all_stored(ROOT):
        for case, first, last in scenes.cases(one.name, records_of(one.name)):
            print(f"| {case} | {one.name} | {first} to {last} |" if first < last else f"| {case} | {one.name} | {first} |")
    return True


# ---- comparisons


def by_seed(given, make):
    """As many random things as are asked for, with their seeds."""
    return ((f"seed {seed}", make(seed)) for seed in range(given.seed, given.seed + given.count))


def numbered(streams):
    """Streams with their numbers."""
    return ((f"stream {number}", stream) for number, stream in enumerate(streams, 1))


def start_up_stream(seed):
    """Random start-ups."""
    return bytes(start_ups.random_start_ups(seed).bytes)


def command_and_memory(given):
    """How `replay` is run, or a host that is told how much packet memory to lend, and how much there is."""
    return ([given.program], MEMORY) if given.memory is None else ([given.program, str(given.memory)], given.memory)


def compare_replay(given):
    """Compares `replay` or a host."""
    command, memory = command_and_memory(given)
    folder = {MEMORY: "tests/replay", HOST_MEMORY: "tests/replay_host"}.get(memory)
    stored = compare.stored.in_folder(ROOT, folder) if folder else []
    groups = (
        ("stored", ((one.name, records_of(one.name)) for one in stored)),
        ("empty", numbered([b""])),
        ("not good", numbered(bad_records.bad_streams(memory))),
        ("random", by_seed(given, lambda seed: bytes(random_records.random_stream(seed, given.size, memory).bytes))),
        ("start-ups", by_seed(given, start_up_stream)),
    )
    return compare.models.compare_replay(command, memory, groups)


def compare_bench(given):
    """Compares `bench`."""
    groups = (
        ("worked", numbered(bench.worked_streams())),
        ("random", by_seed(given, lambda seed: bench_random.shifted_stream(seed, BENCH_RECORDS))),
        ("cut", by_seed(given, lambda seed: bench_random.cut_stream(seed, BENCH_RECORDS))),
    )
    return compare.models.compare_bench([given.program], groups)


def rust_rings(given):
    """Compares `replay` or a host with the Rust's pool and rings."""
    command, memory = command_and_memory(given)
    return rust.rings.compare(given.source, command, by_seed(given, lambda seed: rust_domain.script(seed, memory)))


def rust_start_ups(given):
    """Compares `replay` with the Rust's start-up."""
    recorded = [("recorded", records_of(RECORDED))]
    return rust.start_ups.compare(given.source, [given.program], chain(recorded, by_seed(given, start_up_stream)))


def bench_steady(given):
    """Prints records of steady traffic."""
    sys.stdout.buffer.writelines(islice(bench.steady_records(), given.count))
    return True


def wrong_programs(given):
    """Prints what the refusals of the wrong programs show."""
    return compare.wrong_programs.tell(ROOT, given.said)


# ---- the command

PROGRAM, FOLDER = ("program", {}), ("folder", {"choices": list(compare.stored.FOLDERS)})
SOURCE = ("source", {"help": "a folder of ixy.rs, with src/ixgbe.rs, src/memory.rs and src/vfio.rs in it"})
NAMES = ("names", {"nargs": "*", "help": "of streams, as tests/replay/take or take; all if there is none"})
ARGUMENTS = ("arguments", {"nargs": "*", "help": "of the program, after --"})
SCENES = ("--scenes", {"action": "store_true", "help": "compare the stored streams with those of their scenes too"})
COUNT, SIZE = ("count", {"type": int, "help": "how many"}), ("size", {"type": int, "help": "records of a random stream"})
SEED = ("seed", {"type": int, "nargs": "?", "default": 1000, "help": "the first seed"})
SAID = ("said", {"type": Path, "help": "a file with what `rt ci` printed"})
LENT = {"type": int, "help": "the packet memory that a host lends, which is told it as its argument"}

COMMANDS = (
    ("stored make", stored_make, "write the stored streams that scenes make, and all stored lines by the model", [NAMES]),
    ("stored check", stored_check, "compare all stored lines with the model's, made anew from the stored streams", [SCENES]),
    ("stored run", stored_run, "run a program on each stored stream of a folder, and compare what it prints", [PROGRAM, FOLDER, ARGUMENTS]),
    ("cases", cases, "print which records of which stored stream each case has", []),
    ("compare replay", compare_replay, "compare replay with the model on stored, bad and random streams", [PROGRAM, COUNT, SIZE, SEED, ("--memory", LENT)]),
    ("compare bench", compare_bench, "compare bench with the model on worked, random and cut streams", [PROGRAM, COUNT, SEED]),
    ("rust rings", rust_rings, "compare replay with the Rust's pool and rings", [SOURCE, PROGRAM, COUNT, SEED, ("memory", LENT | {"nargs": "?"})]),
    ("rust start-ups", rust_start_ups, "compare replay with the Rust's start-up, recorded and random", [SOURCE, PROGRAM, COUNT, SEED]),
    ("wrong-programs", wrong_programs, "print what the refusal of each must-fail edit shows, by the lines of a run of `rt ci`", [SAID]),
    ("bench steady", bench_steady, "print records of steady traffic for bench", [COUNT]),
)


def parser():
    """The words of every command."""
    each = "\n".join(f"  {name:16}{does}" for name, _, does, _ in COMMANDS)
    words = argparse.ArgumentParser("python3 tools", formatter_class=argparse.RawDescriptionHelpFormatter, description=f"commands:\n{each}")
    groups = {"": words.add_subparsers(required=True, metavar="COMMAND", help="see above")}
    for name, call, does, arguments in COMMANDS:
        group, _, last = name.rpartition(" ")
        if group not in groups:
            groups[group] = groups[""].add_parser(group).add_subparsers(required=True, metavar="COMMAND")
        command = groups[group].add_parser(last, help=does, description=does)
        command.set_defaults(call=call)
        for argument, options in arguments:
            command.add_argument(argument, **options)
    return words


if __name__ == "__main__":
    given = parser().parse_args()
    sys.exit(0 if given.call(given) else 1)
