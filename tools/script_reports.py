#!/usr/bin/env python3
"""The reports of scripts, worked out by the rules of the page on scripts and reports with a little port. Reads a script
from standard input and writes its report to standard output."""
import sys

import report_lines as lines
from little_chip import Chip, Refused, Stack
from little_port import Lost, Port
from script_table import commands
from sheet import LONGEST, OPENING, PAGE, TCEM, clock_refused, mask_bits, period_ps

PAGES = range(1, 17)
HIDDEN = {b"P": 0, b"K": 1}  # pages, by the letter of the stack
KEY = 16                     # bytes, behind an opening with pages hidden


def opened(script):
    """The stack, the first line, and the bytes of the commands."""
    if len(script) > LONGEST or len(script) < OPENING.size:
        raise Refused(1)
    make, pages, khz, clock_range, word, strobes, letter = OPENING.unpack(script[:OPENING.size])
    make, clock_range = make.decode("latin-1"), clock_range.decode("latin-1")
    if make not in PAGE or clock_range not in TCEM or letter not in HIDDEN:
        raise Refused(1)
    hidden = HIDDEN[letter]
    if pages not in PAGES or pages <= hidden:
        raise Refused(1)
    rest = script[OPENING.size:]
    key, rest = (rest[:KEY], rest[KEY:]) if hidden else (bytes(KEY), rest)
    if len(key) < KEY:
        raise Refused(1)
    number = clock_refused(clock_range, khz)
    if number:
        raise Refused(number)
    chip = Chip(make, khz, clock_range, pages, word, strobes)
    return Stack(chip, hidden, key), lines.line(make, str(pages), str(khz), str(period_ps(khz))), rest


def served(port, letter, operands, data, mask):
    """The line of a command that is taken."""

    def spent():
        return lines.cost(len(port.lows), sum(port.lows))

    match letter, operands:
        case "R", (start, length):
            got = port.read(start, length)
            return lines.data_line(letter, start, got, spent())
        case "W", (start, length):
            port.write(start, data, mask)
            return lines.write_line(start, length, mask_bits(mask), spent())
        case "F", (start, line):
            got = port.fill(start, line)
            return lines.data_line(letter, start, got, spent())
        case "L", (value,):
            port.set_type(value)
            return lines.setting_line(letter, value, spent())
        case "P", (value,):
            port.set_coverage(value)
            return lines.setting_line(letter, value, spent())
        case "Q", (number,):
            got = port.read_register(number)
            return lines.register_line(number, got, spent())
        case "Z", ():
            port.reset()
            return lines.reset_line(spent())
    raise ValueError(letter)


def report(script):
    """The lines of a report."""
    try:
        top, first, rest = opened(script)
    except Refused as refusal:
        return [lines.refusal_line(*refusal.args, 0)]
    port = Port(top)
    found, ending = commands(rest)
    printed = [first]
    for place, *command in found:
        try:
            printed.append(served(port, *command))
        except Refused as refusal:
            number, = refusal.args
            assert 6 <= number <= 12, "a frame was sent that the chip refuses"
            printed.append(lines.refusal_line(number, place))
        except Lost as lost:
            good, = lost.args
            printed.append(lines.refusal_line(19, place, good))
    if ending:
        printed.append(lines.refusal_line(*ending))
    return printed


if __name__ == "__main__":
    print(*report(sys.stdin.buffer.read()), sep="\n")
