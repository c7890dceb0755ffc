"""Reads the cases of refusal_table and bus_trace: the file stdin of each program, with its lists of cases and the chips
that they are tried on, and the words for amounts that depend on the chip."""
from pathlib import Path

from little_chip import Chip, Stack
from sheet import OPENING, TCPH, TPU, TRP, TRST, fewest_clocks

CRATES = Path(__file__).parent.parent / "crates"


def read(program):
    """The cases of each list by its name, and the lines that stand in no list, all as words."""
    lists, lines = {}, []
    with open(CRATES / program / "stdin", encoding="ascii") as file:
        for line in file:
            words = line.split()
            if not words or words[0].startswith("#"):
                continue
            if line.startswith(" "):
                cases.append(words)
            elif words[0] == "list":
                cases = lists[words[1]] = []
            else:
                lines.append(words)
    return lists, lines


def stack_of(opening):
    """The chip and its layers, of an opening as words in hexadecimal."""
    opening = bytes.fromhex("".join(opening))
    make, pages, khz, clock_range, word, strobes, letter = OPENING.unpack(opening[:OPENING.size])
    chip = Chip(make.decode(), khz, clock_range.decode(), pages, word, strobes)
    return Stack(chip, 1, opening[OPENING.size:]) if letter == b"K" else Stack(chip)


class Bench:
    """A chip that cases are tried on. `attempt` of each table tries one of them and prints its line."""

    def __init__(self, opening, bounds):
        self.top = stack_of(opening)
        self.chip = self.top.chip
        times = {"tCPH": TCPH, "tRST": TRST, "tPU": TPU, "tRP": TRP}
        self.named = {name: fewest_clocks(ns, self.chip.khz) for name, ns in times.items()}
        self.named |= {"page": self.chip.page, "size": self.top.size, "drive": self.chip.table[0] & 3}
        self.named |= bounds

    def term(self, text):
        if text in self.named:
            return self.named[text]
        return int(text[:-1], 16) if text.endswith("h") else int(text)

    def amount(self, text):
        """A number or a name, or the sum or the difference of two."""
        if "+" in text:
            return sum(map(self.term, text.split("+")))
        first, *less = map(self.term, text.split("-"))
        return first - sum(less)


def play(program, bench):
    lists, lines = read(program)
    for words in lines:
        if words[0] == "title":
            print(*words[1:])
            continue
        on = words.index("on")
        order, name, *bounds = words[:on]
        numbers = dict(zip(bounds[::2], map(int, bounds[1::2])))
        chip = bench(words[on + 1:], numbers)
        if order == "play":
            for case in lists[name]:
                chip.attempt(case)
        else:
            chip.hide(int(name))
