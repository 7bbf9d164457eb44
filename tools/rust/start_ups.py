"""Plays start-ups through the Rust's own start-up functions and through `replay`, and compares their actions one by one.

The shim start_ups.rs gives the Rust the values that the records of a stream feed, and prints what the Rust does with the registers as `replay` prints an
action. Where docs/DIFFERENCES.md lists a difference, the Rust must differ just so (`expected`), or is compared up to there. What the Rust writes into the
rings is not compared.
"""
import itertools
import subprocess
from collections import Counter

from model.card import LINKS
from model.framing import records, unpacked
from model.limits import WAIT_PAUSE
from model.replay import KINDS, PLACES
from rust.source import built

ITEMS = {"ixgbe.rs": ["struct IxgbeRxQueue", "struct IxgbeTxQueue"], "vfio.rs": []}
ROOTS = ["reset_and_init"]
LAST = ("done", "refused")  # with which a start-up is over
TO_THE_END, SO_FAR, NOT_PLAYED = "to their end", "only so far", "not played"


class StartUp:
    """A start-up of a stream: its set-up's numbers and ring addresses, the set-up's answer, and for each step the value fed and the action."""

    def __init__(self, numbers, addresses, answer):
        self.map_length, receives, sends, _, self.asked, self.kind, self.rate, _ = numbers
        self.receives, self.sends, self.answer, self.steps = receives, sends, answer, []
        self.addresses = addresses[: receives + sends]

    def step(self, value, action):
        """One more step. Those after the last action only repeat it."""
        if not self.steps or self.steps[-1][1].split()[0] not in LAST:
            self.steps.append((value, action))

    def actions(self):
        return [action for _, action in self.steps]

    def values(self):
        """The values that the registers gave: each is fed to the step after its read."""
        return [fed for (_, action), (fed, _) in itertools.pairwise(self.steps) if action.startswith("read")]


def start_ups(stream, lines):
    """The start-ups of a stream, by its records and what `replay` printed of them."""
    found, addresses = [], [0] * PLACES
    for record, line in zip(records(stream), lines):
        if line.startswith("bad"):
            break
        kind, body = record
        numbers = unpacked(KINDS[kind].form, KINDS[kind].unit, body)
        _, word, answer = line.split(" ", 2)
        if word == "addresses":
            at, *values = numbers
            addresses[at : at + len(values)] = values
        elif word == "set-up":
            found.append(StartUp(numbers, addresses, int(answer)))
        else:
            found[-1].step(numbers[0], answer)
    return found


def theirs(program, played):
    """What the Rust does at each start-up, with how it ends. After its end it reads the link once more, for a log line."""
    lines = []
    for one in played:
        values = one.values() + [0] * (one.actions()[-1] == "done")
        numbers = one.map_length, one.receives, one.sends, one.asked, one.kind, one.rate, len(one.addresses)
        lines.append(" ".join(map(str, (*numbers, *one.addresses, *values))))
    out = subprocess.run([program], input="\n".join(lines).encode(), stdout=subprocess.PIPE, check=True).stdout.decode()
    found = [[]]
    for line in out.splitlines():
        found[-1].append(line)
        if line.split()[0] not in ("read", "write", "pause"):
            found.append([])
    return found[:-1]


def expected(one):
    """How far a start-up is compared and why, and what the Rust must do (docs/DIFFERENCES.md)."""
    *before, last = actions = one.actions()
    name, *numbers = last.split()
    if name == "done":  # the log line at the end reads the link once more
        return TO_THE_END, "done", [*before, f"read {LINKS}", "done"]
    if name != "refused":
        return SO_FAR, "the stream ends", [*actions, "over"]
    number, register = numbers
    if number == "10":  # the Rust waits on
        return SO_FAR, "a wait given up", [*before, f"pause {WAIT_PAUSE}", f"read {register}", "over"]
    if one.map_length < 4:  # the Rust goes on
        return SO_FAR, "a map under 4 bytes", None
    return TO_THE_END, "a register outside the map", [*before, "panic"]


def equal(name, must, actions):
    """Whether the Rust did what it must."""
    for number, (one, other) in enumerate(itertools.zip_longest(must, actions), 1):
        if one != other:
            print(f"{name}, action {number}:\n  must {one}\n  Rust {other}", flush=True)
            return False
    return True


def compare_stream(name, stream, command, rust, tally):
    """How many start-ups of a stream differ. What became of each is counted."""
    out = subprocess.run(command, input=stream, stdout=subprocess.PIPE, check=True).stdout.decode()
    found = list(enumerate(start_ups(stream, out.splitlines()), 1))
    played = [(number, one) for number, one in found if one.answer == 0]
    tally[NOT_PLAYED, "refused at set-up"] += len(found) - len(played)
    differ = 0
    for (number, one), actions in zip(played, theirs(rust, [one for _, one in played]), strict=True):
        far, why, must = expected(one)
        tally[far, why] += 1
        if must is not None:
            tally["actions"] += len(must) - 1
            differ += not equal(f"{name}, start-up {number}", must, actions)
    return differ


def summary(tally, far):
    """How many start-ups were compared so far, and why not further."""
    reasons = {key[1]: often for key, often in sorted(tally.items()) if key[0] == far}
    return f"{far} {sum(reasons.values())} ({', '.join(f'{why} {often}' for why, often in reasons.items())})"


def compare(source, command, streams):
    """Whether all start-ups of some streams, each with its name, are equal."""
    count, differ, tally = 0, 0, Counter()
    with built("start_ups.rs", source, ITEMS, ROOTS) as rust:
        for count, (name, stream) in enumerate(streams, 1):
            differ += compare_stream(name, stream, command, rust, tally)
    actions = tally.pop("actions")
    print(*(summary(tally, far) for far in (TO_THE_END, SO_FAR, NOT_PLAYED)), sep="\n")
    print(f"{count} streams, {tally.total()} start-ups, {actions} actions compared, {differ} start-ups differ")
    return differ == 0
