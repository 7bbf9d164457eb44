"""What a program prints of a stream, and where that is not what it should print."""
import itertools
import subprocess
from collections import namedtuple

Difference = namedtuple("Difference", "line found right")


def printed(command, stream):
    """What a program prints of a stream, with one more line for its status if that is not 0."""
    done = subprocess.run(command, input=stream, stdout=subprocess.PIPE, check=False)
    return done.stdout.decode("latin-1") + (f"status {done.returncode}\n" if done.returncode else "")


def text(lines):
    """Lines as they are printed."""
    return "".join(line + "\n" for line in lines)


def first_difference(found, right):
    """The first line in which a text is not as it should be, if there is one."""
    if found == right:
        return None
    pairs = itertools.zip_longest(found.split("\n"), right.split("\n"))
    return next(Difference(number, *pair) for number, pair in enumerate(pairs, 1) if pair[0] != pair[1])


def tell(place, difference):
    """Prints where and how a text is not as it should be."""
    print(f"{place}:\n  found {difference.found}\n  right {difference.right}", flush=True)
