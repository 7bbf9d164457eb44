"""Compares a program with its model on many streams, and counts how often each call answered what."""
from collections import Counter

from compare.programs import first_difference, printed, tell, text
from model import bench, replay


def replay_answer(line):
    """What a line of `replay` is counted as: its word, and for a call of the account the number."""
    if line.startswith("bad"):
        return "bad"
    _, word, *answer = line.split()
    return f"{word} {answer[0]}" if replay.NUMBERS[word] < replay.NUMBERS["sound"] else word


def bench_answer(line):
    """What a line of `bench` is counted as: its kind and the number."""
    return "bad" if line.startswith("bad") else " ".join(line.split()[1:3])


def compared(command, model, answer, groups):
    """Whether a program prints of every stream what the model does. The streams stand in groups; a group and a stream have names."""
    answers, differ = Counter(), 0
    for group, streams in groups:
        count = lines = longest = 0
        for count, (name, stream) in enumerate(streams, 1):
            right = list(model(stream))
            answers.update(map(answer, right))
            difference = first_difference(printed(command, stream), text(right))
            if difference:
                tell(f"{group}, {name}, line {difference.line}", difference)
                differ += 1
            lines, longest = lines + len(right), max(longest, len(stream))
        print(f"{group}: {count} streams, the longest of {longest} bytes, {lines} lines", flush=True)
    print(*(f"{name} {often}" for name, often in sorted(answers.items())), f"{differ} streams differ", sep="\n")
    return differ == 0


def compare_replay(command, memory, groups):
    """Compares `replay`, or a host that lends it packet memory of another length."""
    return compared(command, lambda stream: replay.lines(stream, memory), replay_answer, groups)


def compare_bench(command, groups):
    """Compares `bench`."""
    return compared(command, bench.lines, bench_answer, groups)
