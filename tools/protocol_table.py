#!/usr/bin/env python3
"""Writes the rows of crates/protocol_table/stdin to standard output.

A row is a question and its answer, parted by " = ". The answers are worked out from the times and
the tables of the data sheets (sheet.py), and not by the formulas of the code: clock numbers by
search among exact times, addresses by a counter that steps from byte to byte, splits by adding
two bytes at a time, register values by their bits as text.

Numbers are decimal, or two hexadecimal digits and an h; a byte string stands last, behind a #, and
a number behind a plus is that of zeros to add.
"""

import struct

from sheet import (AFTER_RESET, BLOCKS, COMMANDS, COVERAGES, EXTENDED, LONGEST, NORMAL, OPENING, PAGE, READ_CODES, TCEM,
                   TCPH, TPU, TRC, TRP, TRST, WRITE_CODES, block_length, clock_refused, fewest_clocks, in_hex, keeps_tcem,
                   last_start, latency_of, low_clocks, mask_bits, mask_size, most_clocks, period_ps, taken, walk)

BURSTS = ["linear"] + [order + "-" + block for order in ("wrapped", "hybrid") for block in BLOCKS.values()]

REFUSALS = [
    ("bad-setup", 1, "script"),
    ("clock-out-of-range", 2, "chip"),
    ("clock-too-slow", 3, "chip"),
    ("unknown-command", 4, "script"),
    ("command-cut-short", 5, "script"),
    ("strobe-still-lost", 6, "port"),
    ("bad-length", 7, "port"),
    ("bad-fill", 8, "port"),
    ("bad-setting", 9, "port"),
    ("past-size", 10, "port"),
    ("bad-mask", 11, "port"),
    ("not-refreshed", 12, "port"),
    ("wrong-phase", 13, "chip"),
    ("too-soon", 14, "chip"),
    ("bad-start", 15, "chip"),
    ("bad-count", 16, "chip"),
    ("too-long", 17, "chip"),
    ("bad-register", 18, "chip"),
    ("no-strobe", 19, "chip"),
    ("window-too-large", 20, "chip"),
]

U32 = 2**32 - 1
U64 = 2**64 - 1


def row(*words):
    """Prints a row; the last word is its answer."""
    *question, answer = words
    if isinstance(answer, (list, tuple)):
        answer = " ".join(str(word) for word in answer)
    print(" ".join(str(word) for word in question), "=", answer)


def yes_or_no(flag):
    return "true" if flag else "false"


# Clocks

CLOCKS = [
    0, 1, 10249, 10250, 16667, 25600, 33333, 40999, 41000, 50000, 55555, 55556, 66000,
    66001, 75000, 83333, 83334, 100000, 109000, 109001, 111112, 125000, 128000, 133000,
    133001, U32,
]


def clock_rows():
    for khz in CLOCKS:
        for clock_range in (NORMAL, EXTENDED):
            refused = clock_refused(clock_range, khz)
            if refused:
                row("clock", clock_range, khz, ["refused", refused])
                continue
            latency = latency_of(khz)
            tcem = most_clocks(TCEM[clock_range], khz)
            waits = [fewest_clocks(ns, khz) for ns in (TCPH, TRC, TRST, TPU, TRP)]
            row("clock", clock_range, khz,
                [khz, latency, latency, tcem] + waits + [period_ps(khz)])


def keeps_rows():
    for clock_range, khz in ((NORMAL, 133000), (EXTENDED, 133000), (NORMAL, 10250),
                             (EXTENDED, 66667)):
        tcem = most_clocks(TCEM[clock_range], khz)
        for low in (0, tcem - 1, tcem, tcem + 1, U32 + 1 + tcem):
            row("keeps", clock_range, khz, low, yes_or_no(keeps_tcem(clock_range, khz, low)))
    row("keeps", NORMAL, 133000, U64, "false")


# Frames


def opening_bytes(command, address):
    """The five bytes; None where the address needs more room than the command has for it."""
    code = COMMANDS[command]
    try:
        if command == "global-reset":
            return struct.pack(">B4x", code) if address == 0 else None
        if command.startswith("register"):
            return struct.pack(">B3xB", code, address)
        return struct.pack(">Bx", code) + address.to_bytes(3, "big")
    except (struct.error, OverflowError):
        return None


ADDRESSES = [0, 1, 0xFF, 0x100, 0x804, 0xFFFFFF, 0x1000000]

OPENS_NOTHING = """
    0100000000 1F00000000 2100000000 3F00000804 4100000000 6000000000 7F00000000 8100000000
    9F00000000 A100000000 C100000000 E000000000 FE00000000
    0001000000 2080000000 8001000000 A0FF000000 4001000000 C001000000 FF01000000
    4000010000 4000000100 C000010008 C0000001FF FF00010000 FF00000100 FF00000001 FFFFFFFFFF
"""


def opening_rows():
    for command in COMMANDS:
        for address in ADDRESSES:
            opening = opening_bytes(command, address)
            row("opening", command, address, in_hex(opening) if opening else "none")
    for command, code in COMMANDS.items():
        for address in (0, 0xFF, 0x804, 0xFFFFFF):
            opening = opening_bytes(command, address)
            if opening:
                row("opened", "#" + in_hex(opening), [in_hex([code]), address])
    for text in OPENS_NOTHING.split():
        row("opened", "#" + text, "none")


def place_rows():
    for make, page in PAGE.items():
        for address in (0, 1023, 1024, 2047, 2048, 0x804, 65536, 0xFFFFFF, U32):
            start = last_start(page, address)
            row("place", make, address, [range(0, start + 1, page).index(start), address - start])


def addresses_of(page, burst, start, count):
    """The addresses of a burst by its name."""
    order, _, block = burst.partition("-")
    return walk(page, order == "hybrid", block_length(block or "page", page), start, count)


def burst_rows():
    for make, page in PAGE.items():
        for burst in BURSTS:
            block = burst.partition("-")[2]
            length = block_length(block or "page", page)
            windows = [
                (2, 0, 18),
                (page + length - 1, length - 2, 5),
                (3 * page + 7, page - 9, 14),
                (U32 - 1, length - 1, 3),
            ]
            for start, first, count in windows:
                addresses = addresses_of(page, burst, start, first + count)[first:]
                row("burst", make, burst, start, first, count, addresses)


LATENCIES = {3: "three", 4: "four", 5: "five"}


def low_row(often, resets, frame, clocks):
    """The low clocks of a frame so often and of global resets, added one by one."""
    total = 0
    for _ in range(often):
        total += clocks
    for _ in range(resets):
        total += low_clocks("global-reset")
    row("low", often, resets, *frame, min(total, U64))


def low_rows():
    for latency in (3, 6, 10):
        for count in (0, 1, 2, 1038):
            low_row(1, 0, ["read", latency, count], low_clocks("read", latency, count))
    for latency, name in LATENCIES.items():
        for count in (1, 2, 251):
            low_row(1, 0, ["write", name, count], low_clocks("write", latency, count))
        low_row(1, 0, ["register-read", name], low_clocks("register-read", latency, 2))
    low_row(1, 0, ["register-write"], low_clocks("register-write", 1, 2))
    low_row(1, 0, ["global-reset"], low_clocks("global-reset"))
    low_row(0, 0, ["global-reset"], low_clocks("global-reset"))
    low_row(4, 1, ["read", 10, 1038], low_clocks("read", 10, 1038))
    low_row(3, 2, ["write", "five", 250], low_clocks("write", 5, 250))
    low_row(2, 1, ["register-write"], low_clocks("register-write", 1, 2))
    # the sum is held at 64 bits
    low_row(1, 2, ["read", 10, U64], low_clocks("read", 10, U64))
    low_row(2, 0, ["read", 6, U64], low_clocks("read", 6, U64))
    low_row(3, 5, ["write", "four", U64 - 1], low_clocks("write", 4, U64 - 1))


# Masks

MASKS = [b"", b"\x00", b"\x02", b"\x80", b"\xff", b"\x01\x80", b"\xff\x7f",
         b"\x10\x32\x54\x76\x98\xba\xdc\xfe", b"\x00" * 9 + b"\x40"]


def mask_rows():
    for mask in MASKS:
        bits = mask_bits(mask)
        last = len(bits)
        for length, byte in ((0, 1), (7, 7), (last - 1, last - 1), (last, last), (U64, U64 - 1)):
            if length < 0:
                continue
            size = mask_size(length)
            masked = byte < last and bits[byte]
            row("mask", length, byte, "#" + in_hex(mask),
                [size, yes_or_no(any(bits[length:])), bits.count(True), yes_or_no(masked)])


# Mode registers

def mr0_meaning(value):
    bits = f"{value:08b}"
    kind = {"0": "variable", "1": "fixed"}[bits[2]]
    # a reserved code reads as 5
    return [kind, READ_CODES.get(bits[3:6], 5), "0" + str(int(bits[6:], 2))]


def mr4_meaning(value):
    bits = f"{value:08b}"
    return [WRITE_CODES.get(bits[:3], 5), COVERAGES[bits[5:]]]


def part_of(coverage, size):
    """The addresses that a coverage keeps, by halving as often as its name says."""
    addresses = range(size)
    if coverage == "all":
        return addresses
    if coverage == "nothing":
        return addresses[:0]
    side, part = coverage.split("-")
    for _ in range(["half", "quarter", "eighth"].index(part) + 1):
        middle = len(addresses) // 2
        addresses = addresses[:middle] if side == "bottom" else addresses[middle:]
    return addresses


def ends(addresses):
    return [addresses[0], addresses[-1] + 1] if addresses else [0, 0]


def mr8_meaning(value):
    bits = f"{value:08b}"
    return ("hybrid-" if bits[5] == "1" else "wrapped-") + BLOCKS[bits[6:]]


def register_rows():
    for value in range(256):
        latency, coverage = mr4_meaning(value)
        kept = ends(part_of(coverage, 8))
        row("meaning", f"{value:02X}h",
            mr0_meaning(value) + [latency] + kept + [mr8_meaning(value)])
    takes = taken()
    for number in (0, 1, 2, 3, 4, 5, 8, 9, 255):
        values = [f"{v:02X}" for v in range(256) if f"{v:08b}" in takes.get(number, ())]
        row("accepts", f"{number:02X}h", values or "none")
    for number in list(range(13)) + [255]:
        for make, held in AFTER_RESET.items():
            row("access", make, f"{number:02X}h",
                [yes_or_no(number in held), yes_or_no(number in takes),
                 in_hex([held[number]]) if number in held else "none"])


def code_for(codes, wanted):
    return next(code for code, latency in codes.items() if latency == wanted)


def setting_rows():
    drives = {"00h": "00", "01h": "01", "02h": "10", "FFh": "11"}
    parts = list(COVERAGES.items())
    for clock_range, khz in ((NORMAL, 66000), (EXTENDED, 109000), (NORMAL, 133000)):
        latency = latency_of(khz)
        for kind, bit in (("variable", "0"), ("fixed", "1")):
            for drive, low in drives.items():
                # every coverage once for each clock
                part, name = parts[0]
                parts = parts[1:] + parts[:1]
                mr0 = "00" + bit + code_for(READ_CODES, latency) + low
                mr4 = code_for(WRITE_CODES, latency) + "00" + part
                row("settings", clock_range, khz, kind, drive, name,
                    [in_hex([int(mr0, 2)]), in_hex([int(mr4, 2)])])
    for line, value in (("line-16", "00"), ("line-32", "01"), ("line-64", "02")):
        row("settings", line, value)
    for value in (0, 3, 5, 6):
        for burst in ("linear", "wrapped-32", "hybrid-page"):
            wire = burst if burst == "linear" else mr8_meaning(value)
            row("wire", burst, f"{value:02X}h", wire)


def kept_rows():
    for size in (5 * 2048, 2**24):
        for coverage in COVERAGES.values():
            part = part_of(coverage, size)
            row("kept", coverage, size, ends(part) if part else "none")


# Splits


def frame_clocks(direction, latency, count):
    """The low clocks at worst: a read may take the latency twice."""
    if direction == "read":
        return low_clocks("read", latency + latency, count)
    return low_clocks("write", latency, count)


class Splitting:
    """Which pieces one frame can carry."""

    def __init__(self, direction, make, clock_range, khz, latency):
        self.words = [direction, make, clock_range, khz, LATENCIES[latency]]
        self.page = PAGE[make]
        lengths = [0]
        while keeps_tcem(clock_range, khz, frame_clocks(direction, latency, lengths[-1] + 2)):
            lengths.append(lengths[-1] + 2)
        self.lengths = lengths[1:]
        self.limit = lengths[-1]

    def piece(self, start, end):
        """The longest piece, grown by two bytes while its last byte is in the page of its first."""
        length = 0
        page_end = last_start(self.page, start) + self.page
        while start + length < end and length + 2 <= self.limit and start + length < page_end:
            length += 2
        return length

    def pieces(self, start, end):
        found = []
        while start < end:
            found.append(self.piece(start, end))
            start += found[-1]
        return found

    def fewest(self, start, end):
        """The fewest pieces of all splits, breadth first."""
        reached = {start}
        count = 0
        while end not in reached:
            count += 1
            ahead = set()
            for at in reached:
                page_end = last_start(self.page, at) + self.page
                ahead.update(at + n for n in self.lengths if at + n <= min(page_end, end))
            reached = ahead
        return count


def even_ends(start, length):
    """The range rounded out to even ends; None where its end has no 32 bits."""
    end = start + length
    while f"{start:b}"[-1] == "1":
        start -= 1
    while f"{end:b}"[-1] == "1":
        end += 1
    return None if end > U32 else (start, end)


def piece_rows():
    for direction, make, clock_range, khz, latency in (
        ("read", "A", NORMAL, 133000, 5), ("read", "S", NORMAL, 133000, 5),
        ("write", "S", EXTENDED, 133000, 5), ("write", "A", NORMAL, 133000, 5),
        ("read", "A", EXTENDED, 41000, 3), ("write", "A", NORMAL, 10250, 3),
        ("read", "S", NORMAL, 10250, 5), ("write", "S", NORMAL, 109000, 4),
    ):
        splitting = Splitting(direction, make, clock_range, khz, latency)
        page, limit = splitting.page, splitting.limit
        for start, end in ((0, limit), (0, limit + 2), (2, page + 2), (page - 200, page + 600),
                           (8, 4), (8, 8), (U32 - 31, U32 - 1)):
            count = splitting.fewest(start, end) if start < end else 0
            assert count == len(splitting.pieces(start, end))
            row("pieces", *splitting.words, start, end,
                [limit, splitting.piece(start, end), count])


def frames_rows():
    ranges = {
        ("read", "S", NORMAL, 133000): [(0, 1), (0, 1038), (0, 1039), (0, 1040), (1, 1037),
                                        (1, 1038), (1010, 1038), (1012, 1038), (1, 4096),
                                        (U32 - 3, 2), (U32 - 1, 1), (U32, 1)],
        ("read", "A", NORMAL, 133000): [(0, 1024), (0, 1025), (1, 1023), (1, 1024), (1023, 2),
                                        (512, 4096)],
        ("write", "S", EXTENDED, 133000): [(0, 249), (0, 250), (0, 251), (1, 249), (1, 250),
                                           (2000, 100), (3, 4095)],
        ("write", "A", EXTENDED, 133000): [(0, 250), (0, 251), (1000, 48), (0, 1024)],
        ("read", "A", EXTENDED, 41000): [(0, 64), (0, 65), (0, 66), (1, 64), (0, 4096)],
        ("write", "S", NORMAL, 10250): [(0, 70), (0, 71), (1, 4096), (U32 - 3, 2), (U32, 1)],
        ("read", "S", NORMAL, 66001): [(0, 502), (0, 504), (0, 506), (0, 2048)],
    }
    for (direction, make, clock_range, khz), places in ranges.items():
        splitting = Splitting(direction, make, clock_range, khz, latency_of(khz))
        for start, length in places:
            end = even_ends(start, length)
            count = "none" if end is None else len(splitting.pieces(*end))
            assert end is None or length > 1100 or count == splitting.fewest(*end)
            row("frames", direction, make, clock_range, khz, start, length, count)


def rounded_rows():
    for start, length in ((0, 1), (0, 2), (1, 1), (1, 2), (3, 3), (6, 0), (0xFFFFFF, 1),
                          (U32, 0), (U32 - 1, 0), (U32 - 1, 1), (U32 - 2, 1), (U32 - 2, 2),
                          (0, U32), (0, U32 - 1), (1, U32 - 2), (1, U32 - 1)):
        row("rounded", start, length, even_ends(start, length) or "none")


# Scripts


def script(chip="A", pages=2, khz=133000, clock_range=NORMAL, refresh=2, strobes=0, stack="P",
           key=b""):
    fields = OPENING.pack(chip.encode("latin-1"), pages, khz,
                         clock_range.encode("latin-1"), refresh, strobes, stack.encode("latin-1"))
    return fields + key


KEY = bytes(range(0xA0, 0xB0))

BAD_SETUP = "! 01 @0 script"


def script_row(behind, **fields):
    """An opening that is well formed, its clock perhaps refused, and the first line on it."""
    values = dict(chip="A", pages=2, khz=133000, clock_range=NORMAL, refresh=2, strobes=0,
                  stack="P", key=b"")
    values.update(fields)
    text = "#" + in_hex(script(**values) + behind)
    refused = clock_refused(values["clock_range"], values["khz"])
    if refused:
        row("script", text, f"! {refused:02d} @0 chip")
        row("report", text, f"! {refused:02d} @0")
        return
    tcem = most_clocks(TCEM[values["clock_range"]], values["khz"])
    key = values["key"] or bytes(16)
    row("script", text, [PAGE[values["chip"]], values["pages"], values["khz"], tcem,
                         values["refresh"], values["strobes"], len(script(**values)),
                         in_hex(key)])
    row("report", text, [values["chip"], values["pages"], values["khz"],
                         period_ps(values["khz"])])


def bad_setup(data):
    row("script", "#" + in_hex(data), BAD_SETUP)


def script_rows():
    script_row(b"")
    script_row(b"", chip="S", pages=1)
    script_row(b"", pages=16, khz=66000, clock_range=EXTENDED)
    script_row(b"", chip="S", pages=16, khz=128000, refresh=U32, strobes=65535)
    script_row(b"", khz=10250, refresh=0x01020304, strobes=0x0506)
    script_row(b"", khz=41000, clock_range=EXTENDED, refresh=0x80000000, strobes=256)
    script_row(b"", stack="K", key=KEY)
    script_row(b"Z", chip="S", pages=16, stack="K", key=bytes(reversed(KEY)))
    script_row(bytes.fromhex("57000003 0003 0A0B0C 02"))
    script_row(b"K" * 16)
    for clock_range, khz in ((EXTENDED, 0), (NORMAL, 133001), (EXTENDED, U32), (NORMAL, 10249),
                             (EXTENDED, 40999), (NORMAL, 1)):
        script_row(b"", khz=khz, clock_range=clock_range)
    script_row(b"", chip="S", khz=0, stack="K", key=KEY)


def bad_script_rows():
    for length in range(15):
        bad_setup(script()[:length])
    for length in range(15, 31):
        bad_setup(script(stack="K", key=KEY)[:length])
    for letter in "asBN\xc1":
        bad_setup(script(chip=letter))
    for letter in "nxAP\xce":
        bad_setup(script(clock_range=letter))
    for letter in "pkQN\xd0":
        bad_setup(script(stack=letter, key=KEY))
    for pages in (0, 17, 256, 65535):
        bad_setup(script(pages=pages))
    bad_setup(script(pages=1, stack="K", key=KEY))
    # 1 before 2 and 3
    bad_setup(script(chip="B", khz=0))
    bad_setup(script(pages=17, khz=133001))
    bad_setup(script(clock_range="Y", khz=0))
    bad_setup(script(stack="Q", khz=10249))
    bad_setup(script(pages=1, khz=0, stack="K", key=KEY))
    bad_setup(script(khz=10249, stack="K", key=KEY[:15]))
    row("report", "#" + in_hex(script()[:14]), "! 01 @0")
    row("report", "#", "! 01 @0")
    # the longest script
    plain = [1024, 2, 133000, 532, 2, 0, 15, in_hex(bytes(16))]
    for total, answer in ((16, plain), (LONGEST, plain), (LONGEST + 1, BAD_SETUP)):
        row("script", f"#{in_hex(script())}+{total - len(script())}", answer)


def refusal_rows():
    for name, number, layer in REFUSALS:
        if name == "no-strobe":
            row("refusal", name, 30, 1024, f"! 19 @30 k=1024 {layer}")
            row("refusal", name, U32, U32, f"! 19 @{U32} k={U32} {layer}")
            row("refusal", name, 0, 0, f"! 19 @0 k=0 {layer}")
        else:
            row("refusal", name, 21, f"! {number:02d} @21 {layer}")
    row("refusal", "past-size", 0, "! 10 @0 port")
    row("refusal", "bad-start", U32, f"! 15 @{U32} chip")


def main():
    for rows in (clock_rows, keeps_rows, opening_rows, place_rows, burst_rows, low_rows,
                 mask_rows, register_rows, setting_rows, kept_rows, piece_rows, frames_rows,
                 rounded_rows, script_rows, bad_script_rows, refusal_rows):
        rows()


if __name__ == "__main__":
    main()
