"""The framing that the records of `replay` and of `bench` share: a u16 length of the rest, a u16 kind, and the body, little-endian."""
import struct

UNITS = {1: "B", 2: "H", 4: "I", 8: "Q"}  # the struct letter of a place of so many bytes


class Bad(Exception):
    """A record that prints `bad` and ends the run."""


def sure(holds):
    """A record is good only if something holds."""
    if not holds:
        raise Bad


def framed(kind, body, length=None):
    """A record's bytes; one that is not good may give a wrong length."""
    return struct.pack("<HH", 2 + len(body) if length is None else length, kind) + body


def packed(form, unit, values):
    """The body of a record, by a form of `struct`. Where a record sets places of so many bytes, its last value is the list of them."""
    if unit:
        *values, places = values
        form += f"{len(places)}{UNITS[unit]}"
        values += places
    return struct.pack("<" + form, *values)


def unpacked(form, unit, body):
    """The numbers of a body, if it has the right length."""
    rest = len(body) - struct.calcsize("<" + form)
    sure(rest >= 0 and rest % unit == 0 if unit else rest == 0)
    if unit:
        form += f"{rest // unit}{UNITS[unit]}"
    return struct.unpack("<" + form, body)


def records(stream):
    """The kind and the body of each record. None stands for one that is cut short or has no kind; nothing follows it."""
    at = 0
    while at < len(stream):
        end = at + 2 + int.from_bytes(stream[at : at + 2], "little")
        if end < at + 4 or end > len(stream):
            yield None
            return
        yield int.from_bytes(stream[at + 2 : at + 4], "little"), stream[at + 4 : end]
        at = end


def lines(stream, answer):
    """The line of each record: its number, and what `answer` says to its kind and body. A record that is not good ends them."""
    for number, record in enumerate(records(stream), 1):
        try:
            sure(record is not None)
            yield " ".join(map(str, [number, *answer(*record)]))
        except Bad:
            yield f"bad {number}"
            return
