"""The stored streams and lines: where they are, whether the lines are the model's and the records a scene's, and whether a program prints the lines."""
import os
from collections import namedtuple
from functools import partial

from compare.programs import first_difference, printed, tell, text
from model import bench, replay

FOLDERS = {"tests/replay": replay.lines, "tests/replay_host": partial(replay.lines, memory=replay.HOST_MEMORY)}
CRATES = {"crates/replay": replay.lines, "crates/bench": bench.lines, "crates/benches": bench.lines_of_each}

# a stored stream: its name, the files of its records and of its lines, and the model that gives it lines
Stored = namedtuple("Stored", "name records lines model")


def stored(root, name):
    """A stored stream by its name, also one that is not there yet."""
    if name in CRATES:
        return Stored(name, root / name / "stdin", root / name / "stdout", CRATES[name])
    return Stored(name, root / f"{name}.in", root / f"{name}.out", FOLDERS[os.path.dirname(name)])


def in_folder(root, folder):
    """The stored streams of a folder, also one of which only the lines are there."""
    names = {path.stem for path in (root / folder).glob("*")}
    return [stored(root, f"{folder}/{name}") for name in sorted(names)]


def read(path):
    """A stored file, which is empty if it is not there."""
    return path.read_bytes() if path.exists() else b""


def all_stored(root):
    """Every stored stream."""
    return [one for folder in FOLDERS for one in in_folder(root, folder)] + [stored(root, name) for name in CRATES]


def stored_lines(one):
    """The stored lines."""
    return read(one.lines).decode()


def model_lines(one):
    """The lines that the model gives the stored records."""
    return text(one.model(read(one.records)))


def equal_lines(streams, found, right, place):
    """Whether two texts of each stream are equal. Where they are not, `place` says what stands in the first line that differs."""
    lines = differ = 0
    for one in streams:
        wanted = right(one)
        difference = first_difference(found(one), wanted)
        if difference:
            tell(f"{one.name}, {place(one.name, difference.line)}", difference)
        lines, differ = lines + wanted.count("\n"), differ + (difference is not None)
    print(f"{len(streams)} stored streams, {lines} lines: {differ} differ")
    return differ == 0 and lines > 0


def check_lines(streams, place):
    """Whether the stored lines are the model's."""
    return equal_lines(streams, stored_lines, model_lines, place)


def run(streams, command, place):
    """Whether a program prints the stored lines, and ends with status 0."""
    return equal_lines(streams, lambda one: printed(command, read(one.records)), stored_lines, place)


def check_records(root, made):
    """Whether the stored records are those of the scenes, which are given with the streams' names."""
    count = differ = 0
    for count, (name, records) in enumerate(made, 1):
        found = read(stored(root, name).records)
        if found != records:
            print(f"{name}: the stored records and those of its scene differ from byte {len(os.path.commonprefix([found, records]))} on")
            differ += 1
    print(f"{count} streams of scenes: {differ} differ")
    return differ == 0
