#!/usr/bin/env python3
"""The expected output of script_table, worked out by the rules of the page on scripts and reports.
Writes crates/script_table/stdout's text to standard output.

A script is taken byte by byte, by a reader that knows how many bytes it still wants."""

from sheet import LONGEST, in_hex, mask_size

PLAIN = bytes.fromhex("41 0002 00020788 4E 00000002 0000 50")
WHOLE = (
    bytes.fromhex("53 0010 0001F400 58 80000001 1234 4B")
    + b"0123456789ABCDEF"
    + bytes.fromhex("52 000003 0003")
    + bytes.fromhex("57 FFFFFE 0009") + b"RWFLPQZRW" + bytes.fromhex("0001")
    + bytes.fromhex("46 000800 40")
    + bytes.fromhex("4C 01 50 07 51 08 5A")
    + bytes.fromhex("52 FFFFFF FFFF")
)
# What follows each letter: how many bytes in each operand.
OPERANDS = {"R": (3, 2), "W": (3, 2), "F": (3, 1), "L": (1,), "P": (1,), "Q": (1,), "Z": ()}


def number(data):
    value = 0
    for byte in data:
        value = value * 256 + byte
    return value


class End(Exception):
    pass


class Reader:
    def __init__(self, data):
        self.data, self.at = data, 0

    def take(self, count):
        taken = []
        while len(taken) < count:
            if self.at == len(self.data):
                raise End
            taken.append(self.data[self.at])
            self.at += 1
        return taken


def commands(data):
    """The commands, each with its place, letter, operands, data and mask; and how it ended."""
    reader = Reader(data)
    found = []
    while reader.at < len(data):
        place = reader.at
        letter = chr(reader.take(1)[0])
        if letter not in OPERANDS:
            return found, (4, place)
        try:
            operands = [number(reader.take(width)) for width in OPERANDS[letter]]
            body, mask = [], []
            if letter == "W":
                body = reader.take(operands[1])
                mask = reader.take(mask_size(operands[1]))
        except End:
            return found, (5, place)
        found.append((place, letter, operands, body, mask))
    return found, None


def words(place, letter, operands, body, mask):
    text = {
        "R": "read at {0:06X}, length {1}",
        "W": "write at {0:06X}, length {1}, data [" + in_hex(body) + "], mask [" + in_hex(mask) + "]",
        "F": "fill at {0:06X}, line {1}",
        "L": "latency type {0}",
        "P": "coverage {0}",
        "Q": "register {0}",
        "Z": "reset",
    }[letter]
    return f"@{place} " + text.format(*operands)


# The two openings as they were meant, and where their commands begin.
OPENINGS = {PLAIN: "A 2 133000 7519", WHOLE[:31]: "S 16 128000 7813"}


def listing(data):
    opening = next((o for o in OPENINGS if data[:len(o)] == o and len(data) <= LONGEST), None)
    if opening is None:
        print(f"of {len(data)}: ! 01 @0")
        print("! 01 @0")
        return
    print(f"of {len(data)}: {OPENINGS[opening]}")
    found, ending = commands(data[len(opening):])
    for command in found:
        print(words(*command))
    if ending:
        print("! {:02d} @{}".format(*ending))


def counts(data):
    found, ending = commands(data)
    print(f"commands {len(found)} in {len(data)}")
    if found:
        place, letter, operands, body, mask = found[-1]
        length = operands[1] if letter in "RW" else 0
        print(f"@{place} length {length} data {len(body)} mask {len(mask)}")
    print("by {} at {}".format(*ending) if ending else "at the end")


def write(length, cut):
    whole = b"W\0\0\0" + bytes([length // 256, length % 256]) + bytes(length + mask_size(length))
    counts(whole[:len(whole) - cut])


def main():
    for count in range(len(WHOLE) + 1):
        listing(WHOLE[:count])
    for letter in range(256):
        listing(PLAIN + bytes([letter]))
    counts(b"R\0\0\0\0\0")
    counts(b"R\0\0\0\xff\xff")
    for length in (0, 1, 7, 8, 9, 4095, 4096, 4097, 65528, 65529, 65535):
        write(length, 0)
        write(length, 1)
    counts(b"Z" * (LONGEST - 15))
    listing(PLAIN + b"Z" * (LONGEST + 1 - 15))


if __name__ == "__main__":
    main()
