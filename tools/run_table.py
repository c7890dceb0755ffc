#!/usr/bin/env python3
"""Writes crates/run_table/stdin to standard output: scripts, each with the report that script_reports.py works out.

The cases are put together from commands here; a command out of its range is written all the same, in its width."""
import struct

from protocol_table import KEY, script as opening
from script_reports import report
from sheet import AFTER_RESET, BLOCKS, COVERAGES, EXTENDED, LONGEST, NORMAL, PAGE, in_hex, mask_size

LINES = [int(block) for block in BLOCKS.values() if block != "page"]
OTHER_KEY = bytes.fromhex("00FF0123456789ABCDEF80400102FE7F")

# ---- commands


def read(start, length):
    return b"R" + start.to_bytes(3, "big") + struct.pack(">H", length)


def write(start, data, mask=None):
    """With no mask, one that masks nothing."""
    mask = bytes(mask_size(len(data))) if mask is None else bytes(mask)
    return b"W" + start.to_bytes(3, "big") + struct.pack(">H", len(data)) + bytes(data) + mask


def fill(start, line):
    return b"F" + start.to_bytes(3, "big") + bytes([line])


def latency_type(value):
    return b"L" + bytes([value])


def coverage(code):
    return b"P" + bytes([code])


def register(number):
    return b"Q" + bytes([number])


RESET = b"Z"


def stairs(count, first=1):
    """Bytes that tell their places: no two that are 256 apart are alike."""
    return bytes((first + at + at // 251) % 256 for at in range(count))


# ---- the table

written = []


def case(title, script, *commands, zeros=0):
    """So many zeros follow, which the table counts and does not write out."""
    script += b"".join(commands)
    written.append(f"# {title}")
    written.append("script " + in_hex(script) + (f"+{zeros}" if zeros else ""))
    written.extend("> " + line for line in report(script + bytes(zeros)))


def both(title, commands, **fields):
    """On each make; `commands` is told the page."""
    for make, page in PAGE.items():
        case(f"{title}, chip {make}", opening(make, **fields), *commands(page))


# ---- openings


def openings():
    case("a write, a read, a fill, and a read that ends past the size", opening(),
         write(3, [10, 11, 12], [2]), read(3, 3), fill(6, 16), read(0x7FF, 2))
    case("an opening and no command", opening())
    case("an opening with its key and no command", opening("S", 16, 128000, EXTENDED, stack="K", key=KEY))
    case("an opening that is short of a byte", opening()[:-1])
    case("an opening of a single byte", opening()[:1])
    case("a key that is short of a byte", opening(stack="K", key=KEY[:-1]))
    case("a key of 14 bytes, with the letter behind it 15", opening(stack="K", key=KEY[:-2]), RESET)
    for make in "Ba":
        case(f"the chip {make}", opening(make), RESET)
    for clock_range in "Yn":
        case(f"the temperature range {clock_range}", opening(clock_range=clock_range), RESET)
    for stack in "Jk":
        case(f"the stack {stack}", opening(stack=stack, key=KEY), RESET)
    for pages in (0, 17, 256):
        case(f"a chip of {pages} pages", opening(pages=pages), RESET)
    case("a window that hides the only page", opening(pages=1, stack="K", key=KEY), RESET)
    both("one page", lambda page: [read(0, 1), read(page - 1, 1), read(page - 1, 2), fill(page - 16, 16)], pages=1)
    both("sixteen pages", lambda page: [write(16 * page - 3, b"end"), read(16 * page - 4, 4), read(16 * page, 1)],
         pages=16)
    both("two pages, of which one is hidden",
         lambda page: [read(page - 2, 2), read(page - 1, 2), fill(page - 2, 16), fill(page, 16)],
         stack="K", key=KEY)
    for khz in (0, 133001, 2**32 - 1):
        case(f"{khz} kHz", opening(khz=khz), RESET)
    for clock_range, khz in ((NORMAL, 10249), (EXTENDED, 40999), (NORMAL, 1)):
        case(f"{khz} kHz in range {clock_range}", opening(khz=khz, clock_range=clock_range), RESET)
    case("1 comes before 2", opening(pages=17, khz=0), RESET)
    case("1 comes before 3, by a key that is short", opening(khz=10249, stack="K", key=KEY[:-1]))
    case("2 under a key", opening("S", khz=133001, stack="K", key=KEY), RESET)
    # one write that is refused by 7, for it is too long, fills the longest script
    length = LONGEST - len(opening()) - len(write(0, b""))
    data = next(count for count in range(length) if count + mask_size(count) == length)
    longest = b"W\0\0\0" + struct.pack(">H", data)
    case("the longest script", opening(), longest, zeros=length)
    case("a script that is too long by a byte", opening(), longest, zeros=length + 1)


# ---- how a script ends


def endings():
    case("a script that begins with no command", opening(), b"X", RESET)
    case("a letter in lower case, after commands that stand", opening(), write(0, b"ab"), read(0, 2), b"r", read(0, 2))
    case("a line feed behind the last command", opening("S"), RESET, register(0), b"\n")
    case("a byte that is no letter", opening(), register(8), b"\xd2", RESET)
    whole = {
        "a read": read(1, 2),
        "a fill": fill(2, 16),
        "a latency type": latency_type(0),
        "a coverage": coverage(0),
        "a register": register(0),
    }
    for name, command in whole.items():
        case(f"{name} that is short of a byte", opening(), RESET, command[:-1])
    case("a letter that is the last byte", opening("S"), latency_type(1), b"R")
    whole = write(4, stairs(9))
    for name, count in (("the operands", 5), ("the data", 6 + 8), ("the mask", 6 + 9 + 1)):
        case(f"a write that is short of a byte in {name}", opening(), register(4), whole[:count])
    case("a write of 65,535 bytes, for which no script has room", opening(), b"W\0\0\0\xff\xff", bytes(20))
    case("a write whose data look like commands", opening(), write(0, b"ZZQQ"), read(0, 4), write(1, b"", b""), RESET)
    case("4 comes before 6", opening(strobes=1), register(0), register(0), register(0), b"Y", RESET)
    case("5 comes before 6", opening(strobes=1), register(0), register(0), register(0), read(0, 1)[:-1])
    case("5 comes before 7", opening(), RESET, read(0, 0)[:-1])


# ---- 6 and 19


def losses():
    case("the first read is answered, the second is lost", opening(strobes=1), read(0, 4), read(0, 4))
    case("after a loss every command but a reset is refused by 6, whatever else is wrong with it",
         opening(strobes=1), register(0), read(0, 4), read(0, 4), read(0, 0), write(0, b"ab"), write(0, b"abc", [8]),
         fill(0, 16), fill(1, 16), latency_type(0), latency_type(2), coverage(0), coverage(8), register(0), register(5),
         read(0x7FF, 2), RESET, register(0), register(0), register(0))
    case("a reset brings the strobe back, and begins the count again, before a loss too",
         opening("S", strobes=3), read(0, 1), read(0, 1), RESET, read(0, 1), register(1), fill(0, 16), fill(0, 16),
         fill(0, 16), RESET, fill(0, 16), fill(2, 16), fill(4, 16), read(0, 1))
    case("a read is lost in its second frame, from an even start", opening(strobes=2), read(0, 1), read(0x3F0, 32))
    case("a read is lost in its second frame, from an odd start", opening(strobes=2), read(0, 1), read(0x3F1, 32))
    case("a read is lost in its first frame, from an odd start", opening(strobes=1), read(0, 1), read(0x3F1, 32))
    case("a read is lost in its last frame, of one byte", opening(strobes=2), register(2), read(0x3F1, 16))
    case("a read is lost once its only byte before the page end has come", opening(strobes=1), read(0x3FF, 2))
    case("a read is lost in the third of its five frames, from an odd start",
         opening(pages=8, strobes=2), read(0x401, 4096))
    case("a read is lost in the third of its four frames, from an even start",
         opening("S", 4, strobes=2), read(0x400, 4096))
    case("a read is lost in the last of its 65 frames", opening(pages=5, khz=10250, strobes=64), read(1, 4096))
    case("a read is answered in all its frames, and the next is lost",
         opening("S", 4, clock_range=EXTENDED, strobes=2), read(0, 480), read(0, 2))
    case("a lost read under a window and a key",
         opening(pages=4, strobes=3, stack="K", key=KEY), read(0x3FD, 6), read(0x3FD, 6), read(0, 1))
    case("a lost register read", opening(strobes=2), register(0), register(8), register(4), register(4))
    case("a lost fill", opening(strobes=1), fill(0, 32), fill(0, 32))
    case("the strobe goes as a fill writes MR8: the fill is lost", opening(strobes=1), register(8), fill(6, 32), RESET,
         register(8), RESET, fill(6, 32))
    case("the strobe goes as a write begins: the write is taken, and the next read is lost",
         opening(strobes=1), read(0, 2), write(0, b"abcd"), write(2, b"xy"), read(0, 4), RESET, read(0, 4))
    case("the strobe goes as a write of two frames begins", opening("S", strobes=2), register(0), register(8),
         write(0x7FE, b"abcd"), register(0), RESET, read(0x7FE, 4))
    case("the strobe goes as a latency type is set", opening(strobes=1), read(0, 2), latency_type(1), coverage(0),
         register(0), RESET, register(0))
    case("the strobe goes as a coverage is set", opening("S", strobes=1), fill(0, 16), coverage(5), read(0, 1),
         read(0x1800, 1), read(0x800, 1), RESET, read(0, 1))
    case("a command that is refused takes no strobe", opening(strobes=1), read(0, 1), read(0, 0), fill(0, 8),
         register(7), read(0x800, 1), RESET, read(0, 1), read(0x800, 1), read(0, 1))
    case("only memory and register reads are counted", opening(strobes=3), write(0, b"ab"), latency_type(0),
         coverage(0), read(0, 2), write(0, b"cd"), register(0), fill(0, 16), write(2, b"ef"), fill(0, 16))
    case("a strobe count of 256", opening(strobes=256), *[register(0)] * 257)
    case("in the fixed type too", opening(strobes=2, refresh=0), latency_type(1), read(0, 2), read(0, 2), read(0, 2),
         RESET, read(0, 2))
    case("bytes stay as they are while the strobe is gone, and over resets",
         opening("S", strobes=2, stack="K", key=OTHER_KEY), write(0x7F0, stairs(16)), read(0x7F0, 8), read(0x7F8, 8),
         read(0x7F0, 16), RESET, read(0x7F0, 16), RESET, fill(0x7F6, 16))


# ---- 7 to 12


def requests():
    case("lengths of reads", opening("S", 3), read(0, 0), read(0, 1), read(0, 4097), read(0, 65535), read(0x1800, 0))
    case("after a 7 the script goes on behind data and mask", opening(pages=8), write(0, b""), write(0, stairs(4097)),
         read(0, 9), write(2, b"", b""), write(0, b"ok"), read(0, 2))
    case("7 comes before 10 and 12", opening(), coverage(4), read(0x800, 0), read(0x7FF, 4097), write(0x800, b""),
         read(0, 1))
    lines = (0, 1, 8, 15, 16, 17, 31, 32, 33, 48, 63, 64, 65, 128, 255)
    case("lines of fills", opening(), *[fill(0, line) for line in lines])
    case("starts of fills", opening("S"), *[fill(start, 16) for start in (1, 15, 14, 0xFFF, 0xFFE, 0x1000, 0x1001)])
    case("8 comes before 10 and 12", opening(), coverage(4), fill(0x801, 16), fill(0x800, 0), fill(0x800, 16),
         fill(0, 15), fill(0, 16))
    case("a fill that is refused leaves MR8 as it is", opening(), fill(1, 16), fill(0, 8), fill(0x800, 16), register(8),
         coverage(4), fill(0, 16), register(8))
    case("latency types", opening(), *[latency_type(value) for value in (0, 1, 2, 0x20, 255)], register(0))
    case("coverages", opening("S"), *[coverage(code) for code in (*range(9), 0x80, 255)], register(4))
    case("registers", opening(), *[register(number) for number in (*range(10), 128, 255)])
    both("ends of reads",
         lambda page: [read(2 * page - 1, 1), read(2 * page - 1, 2), read(2 * page, 1), read(2 * page - 9, 9),
                       read(2 * page - 9, 10), read(0xFFFFFF, 1), read(0xFFFFFF, 4096)])
    both("ends of writes",
         lambda page: [write(2 * page - 1, b"a"), write(2 * page - 1, b"bc"), write(2 * page, b"d"),
                       write(2 * page - 9, stairs(9, 101)), write(2 * page - 9, stairs(10, 201)),
                       write(0xFFFFFE, b"efg"), read(2 * page - 10, 10)])
    both("starts of fills at the size",
         lambda page: [fill(2 * page - 2, line) for line in LINES] + [fill(2 * page, line) for line in LINES])
    case("the size under a window", opening(pages=3, stack="K", key=OTHER_KEY), read(0x7FF, 1), read(0x7FF, 2),
         write(0x7FE, b"ab"), write(0x7FF, b"cd"), fill(0x7FE, 64), fill(0x800, 64), read(0xFFFFFF, 1),
         read(0xFFFC00, 2))
    case("10 comes before 11 and 12", opening(), coverage(4), write(0x7FF, b"ab", [4]), read(0x7FF, 2), fill(0x800, 16))
    bits = ((1, 1), (1, 2), (1, 128), (3, 4), (3, 8), (7, 64), (7, 128), (8, 128))
    case("bits past the length of a write", opening(), *[write(0, stairs(length), [bit]) for length, bit in bits],
         write(0, stairs(9), [255, 1]), write(0, stairs(9), [0, 2]), write(0, stairs(15), [0, 64]),
         write(0, stairs(15), [0, 128]), write(0, stairs(16), [0, 128]), read(0, 16))
    case("11 comes before 12", opening(), coverage(4), write(0, b"a", [2]), write(0, b"a", [1]))


# ---- coverages


def refreshed():
    for make, page in PAGE.items():
        size = 2 * page
        for code, name in enumerate(COVERAGES.values()):
            edges = [size // 8, size // 4, size // 2, size - size // 4, size - size // 8]
            commands = [write(edge - 1, bytes([code + 1, code + 2])) for edge in edges]
            commands.append(coverage(code))
            for edge in (*edges, size):
                commands += [read(edge - 1, 1)] if edge == size else [read(edge - 1, 1), read(edge, 1)]
            commands += [read(0, 1), read(size // 8 - 1, 2), read(size // 2 - 3, 6), read(size - size // 8 - 1, 2)]
            case(f"coverage of {name}, chip {make}", opening(make), *commands)
    for code in range(8):
        # half of three pages ends within one
        commands = [write(start, bytes([start % 255] * 2)) for start in (0x17E, 0x180, 0x1FE, 0x200, 0x4FE, 0x500)]
        commands += [coverage(code), read(0x17E, 4), read(0x1FE, 4), read(0x1FE, 2), read(0x200, 2), read(0x4FE, 2),
                     read(0x500, 2), read(0x67E, 2), read(0x680, 2), read(0x7FF, 1), fill(0x1F0, 16), fill(0x200, 64)]
        case(f"coverage {code} below a window", opening(pages=3, stack="K", key=KEY), *commands)
    case("a window hides the bottom half of two pages", opening("S", stack="K", key=KEY), coverage(1),
         read(0, 1), fill(0, 16), write(0, b"a"), coverage(5), read(0, 1), read(0x7FF, 1))
    case("bytes stay as they are under narrow coverages: only writes change them", opening(), write(0, stairs(16)),
         write(0x7F0, stairs(16, 101)), coverage(1), read(0, 16), read(0x7F0, 16), coverage(7), read(0, 16),
         read(0x7F0, 16), coverage(4), read(0, 16), read(0x7F0, 16), coverage(0), read(0, 16), read(0x7F0, 16))
    case("a write is refused where a byte of it is not refreshed, a masked one too", opening("S"), coverage(2),
         write(0x3FE, b"abc"), write(0x3FE, b"abc", [4]), write(0x3FE, b"ab"), coverage(6), write(0xBFF, b"xy", [1]),
         write(0xC00, b"xy"), coverage(0), read(0x3FE, 4), read(0xBFE, 4))
    case("fills by the coverage", opening(), coverage(3), *[fill(0xFE, line) for line in LINES],
         *[fill(0x100, line) for line in LINES], coverage(7), *[fill(0x6FE, line) for line in LINES],
         *[fill(0x700, line) for line in LINES])
    case("a coverage that is set twice, and one that a reset ends", opening("S"), coverage(5), coverage(5), register(4),
         read(0, 1), RESET, register(4), read(0, 1))
    case("long reads that end where the refreshed part ends, and a byte behind it",
         opening("S", 4, clock_range=EXTENDED), coverage(1), read(0xE00, 512), read(0xE00, 513), read(1, 4096))
    case("coverages of sixteen pages, of which one is hidden", opening("S", 16, stack="K", key=KEY), coverage(3),
         read(0x7FE, 2), read(0x7FE, 3), read(0x800, 1), coverage(2), read(0x17FF, 1), read(0x1800, 1), coverage(7),
         read(0x67FF, 1), read(0x67FF, 2), read(0x6800, 2), read(0x77FF, 1), read(0x77FF, 2), coverage(5),
         read(0x37FF, 1), read(0x3800, 1))
    case("coverages of one page", opening(pages=1), coverage(1), read(0x1FF, 1), read(0x200, 1), coverage(3),
         fill(0x7E, 64), fill(0x80, 64), coverage(7), fill(0x37E, 64), fill(0x380, 64), read(0x3FF, 1))


# ---- settings and registers


def settings():
    for make in PAGE:
        for khz in (66000, 109000, 133000):
            case(f"registers after wake, settings and a reset, chip {make} at {khz} kHz", opening(make, khz=khz),
                 *[register(number) for number in AFTER_RESET[make]], latency_type(1), coverage(6), register(0),
                 register(4), coverage(3), latency_type(0), register(0), register(4), fill(0, 32), latency_type(1),
                 RESET, *[register(number) for number in AFTER_RESET[make]])
    case("a latency type is written also where it is set already", opening(), latency_type(0), latency_type(0),
         latency_type(1), latency_type(1), register(0))
    case("a coverage keeps the latency type, and a latency type the coverage", opening("S"), latency_type(1),
         coverage(2), read(0, 2), latency_type(0), read(0x400, 2), read(0x3FE, 2), register(0), register(4))
    case("registers through a window and a key", opening(pages=4, stack="K", key=KEY), *[register(n) for n in range(5)],
         fill(0, 64), register(8), latency_type(1), register(0))


# ---- latencies


def latencies():
    both("variable and fixed reads", lambda page: [read(0, 6), latency_type(1), read(0, 6), read(0, 6), fill(0, 16),
                                                   latency_type(0), read(0, 6), fill(0, 16), read(0, 6)], refresh=1)
    case("each frame of a read is a read of its own", opening("S", khz=10250, refresh=0b101101), read(1, 300),
         read(0, 2), read(0, 2))
    case("bit 31 of the refresh word, and round to bit 0", opening(refresh=0x80000001), *[read(0, 2)] * 34)
    case("bit 8 of the refresh word", opening("S", refresh=0x00000100), *[read(2, 1)] * 10)
    case("a refresh in front of every read", opening(refresh=2**32 - 1), *[read(at, 3) for at in range(3)],
         fill(0, 64), register(0))
    case("register reads, writes and refused reads are not counted for the refresh word", opening(refresh=0b110),
         read(0, 2), register(0), write(0, b"ab"), read(0, 0), read(0, 2), coverage(0), read(0, 2), read(0, 2))
    case("fixed reads are not counted for the refresh word", opening(refresh=0b110), read(0, 2), latency_type(1),
         read(0, 2), read(0, 2), latency_type(0), read(0, 2), read(0, 2), read(0, 2))
    case("a reset begins the refresh word again", opening(refresh=0b001), read(0, 2), read(0, 2), RESET, read(0, 2),
         read(0, 2), RESET, fill(0, 16))
    case("a lost read, and a reset: the refresh word begins again", opening(refresh=0b010, strobes=2), read(0, 2),
         read(0, 2), read(0, 2), RESET, read(0, 2), read(0, 2), read(0, 2))


def clocks():
    for clock_range, slowest in ((NORMAL, 10250), (EXTENDED, 41000)):
        for khz in (slowest, 60000, 65999, 66000, 66001, 80000, 108999, 109000, 109001, 120000, 133000):
            make = "S" if khz % 2 else "A"
            case(f"chip {make} at {khz} kHz in range {clock_range}",
                 opening(make, khz=khz, clock_range=clock_range, refresh=0b10), write(5, stairs(70)), read(5, 68),
                 read(6, 64), fill(20, 64), register(0), latency_type(1), read(0, 1), fill(20, 16), coverage(1), RESET,
                 register(4))
    for make, khz in (("A", 128000), ("S", 75000), ("A", 16667), ("S", 33333)):
        case(f"the period of {khz} kHz", opening(make, khz=khz))


# ---- ranges in pieces


def splits():
    case("a read of 1,038 bytes at 0 is one frame; one of 1,040 at 0, or of 1,038 at 1, is two",
         opening("S", refresh=0), read(0, 1038), read(0, 1040), read(1, 1038))
    case("a write of 250 bytes at 0 is one frame in range X; one of 251, or of 250 at 1, is two",
         opening("S", clock_range=EXTENDED), write(0, stairs(250)), write(0, stairs(251)), write(1, stairs(249)),
         write(1, stairs(250)), read(0, 240), read(0, 241), read(1, 239), read(1, 240), read(0, 251))
    case("writes of up to a page are one frame in range N, on chip S",
         opening("S", refresh=0), write(0, stairs(1048)), write(0, stairs(1049)), read(1040, 10))
    case("the slowest clock of range N: reads of up to 64 bytes, writes of up to 70", opening(khz=10250),
         write(0, stairs(70)), write(0, stairs(71)), write(1, stairs(69)), write(1, stairs(70)), read(0, 64),
         read(0, 65), read(1, 63), read(1, 64))
    case("the slowest clock of range X", opening("S", khz=41000, clock_range=EXTENDED), write(0, stairs(70)),
         write(0, stairs(72)), read(0, 64), read(0, 66), read(1, 130))
    case("range N at 133,000 kHz: a page of chip A is shorter than both limits", opening("A", 3),
         write(0, stairs(1024)), write(1, stairs(1024)), read(0x3F6, 14))
    both("the end of a page",
         lambda page: [write(page - 3, stairs(3)), write(page - 3, stairs(4)), write(page - 1, stairs(2)),
                       read(page - 4, 4), read(page - 4, 5), read(page - 1, 1), read(page - 1, 2), read(page, 2),
                       read(page - 2, 2), read(page - 3, 6)])
    both("the end of a page under a window and a key",
         lambda page: [read(page - 5, 10), write(page - 2, stairs(5)), read(page - 5, 10), fill(page - 2, 16),
                       fill(page, 16)], pages=3, stack="K", key=OTHER_KEY)
    case("reads of one and two bytes from each start", opening(), write(0, stairs(6)),
         *[read(start, length) for start in range(4) for length in (1, 2)])
    case("a write with an odd start and an odd end changes no byte beside it", opening(), write(0, b"abcdefgh"),
         write(3, b"X"), read(0, 8), write(1, b"YZ"), read(0, 8), write(4, b"V"), read(0, 8), write(7, b"W"),
         read(0, 10))
    case("a later write wins where two meet", opening("S"), write(0x7FC, stairs(8)), write(0x7FB, stairs(5, 201)),
         write(0x800, b"z"), read(0x7FA, 12))
    case("a page and a piece of both beside it, from odd to odd", opening(pages=4, clock_range=EXTENDED),
         write(0x3FB, stairs(0x407)), read(0x3F9, 0x40B))


def longest_requests():
    for make, pages in (("A", 6), ("S", 3)):
        case(f"4,096 bytes from an odd start, chip {make}", opening(make, pages, refresh=0b100), read(0x201, 4097),
             write(0x201, stairs(4096)), read(0x201, 4096))
    case("4,096 bytes through a window and a key, in range X",
         opening(pages=5, clock_range=EXTENDED, refresh=0xAAAAAAAA, stack="K", key=KEY), write(0xFFC, b"over"),
         read(0, 4096), read(0xFFF, 1))
    case("a write of 31 frames at the slowest clock", opening("S", 4, khz=10250), write(7, stairs(2100)),
         read(0x830, 16))


# ---- masks


def masks():
    case("masks of each bit", opening(), write(0, b"abcdefgh"),
         *[write(0, b"ABCDEFGH", [255 - 2**bit]) + read(0, 8) for bit in range(8)])
    case("masks from an odd start, over two bytes of mask", opening("S"), write(0, bytes([0xEE] * 24)),
         write(3, stairs(17), [0x55, 0xAA, 0x00]), read(0, 24), write(3, stairs(17, 65), [0xAA, 0x55, 0x01]),
         read(0, 24))
    case("a write whose bytes are all masked sends its frames", opening(pages=4), write(0, b"abcd"),
         write(0, b"wxyz", [15]), write(0x3FE, b"wxyz", [15]), write(1, stairs(16), [255, 255]), read(0, 4),
         read(0x3FE, 4))
    case("a mask over the end of a page and from an odd start", opening(), write(0x3FB, stairs(11), [0x36, 0x05]),
         read(0x3F8, 16))
    case("masks over several frames", opening("S", clock_range=EXTENDED), write(1, stairs(501), [0x0F] * 62 + [0x1E]),
         read(0, 502))
    case("masks under a key: a masked byte keeps what is below it", opening(stack="K", key=KEY),
         write(2, bytes([0x11] * 8), [0x99]), read(0, 12), write(2, bytes([0x22] * 8), [0x66]), read(0, 12))


# ---- fills


def fills():
    for make in PAGE:
        commands = [write(0, stairs(128))]
        for line in LINES:
            commands += [fill(64 + start, line) for start in (0, 2, 14, 16, 30, 38, 62)]
        case(f"fills from starts that wrap, chip {make}", opening(make), *commands)
    case("a fill after one of the same line and of others, and after a reset", opening("S"), write(0, stairs(64)),
         *[fill(0, line) for line in (16, 16, 32, 32, 16, 64, 64, 32)], register(8), RESET, register(8), fill(0, 32),
         fill(0, 32), register(8))
    case("a read after a fill is linear all the same", opening(), write(0, stairs(40)), fill(6, 16), read(6, 30),
         register(8), write(14, b"over"), read(12, 8), fill(14, 16))
    both("the first and the last line of a page",
         lambda page: [write(page - 8, stairs(16)), fill(page - 2, 16), fill(page - 2, 64), fill(page, 16),
                       fill(page + 2, 64)])
    case("fills under a window and a key", opening(pages=3, stack="K", key=OTHER_KEY), write(0x3F0, stairs(32)),
         *[fill(start, line) for line in LINES for start in (0x3F6, 0x40A)])
    for clock_range, khz in ((NORMAL, 10250), (EXTENDED, 41000)):
        case(f"fills of 64 bytes that meet a refresh, at {khz} kHz",
             opening(khz=khz, clock_range=clock_range, refresh=1), fill(2, 64), fill(2, 64), latency_type(1),
             fill(2, 64))


# ---- layers


def layers():
    both("a byte that was never written reads as its key byte", lambda page: [read(0, 33), read(5, 16), fill(8, 16)],
         stack="K", key=KEY)
    case("a key of zeros", opening(stack="K", key=bytes(16)), read(0, 16), write(0, b"plain"), read(0, 16))
    case("what is written under a key comes back", opening("S", 5, stack="K", key=OTHER_KEY), write(0x1233, stairs(40)),
         read(0x1233, 40), read(0x1230, 16), read(0x1250, 16))
    case("a key whose bytes are letters of commands", opening(stack="K", key=b"ZZZZRRRRWWWWQQQQ"), RESET, read(0, 16))


def mixed():
    case("all commands, over a bare chip", opening("S", 2, 100000, refresh=0b1001, strobes=9), write(0x7F1, stairs(20)),
         read(0x7F1, 20), fill(0x7FE, 32), latency_type(1), read(0x7F0, 24), coverage(1), read(0x7F1, 15),
         read(0x7F1, 16), register(0), register(4), register(8), coverage(0), fill(0x800, 32), latency_type(0),
         read(0x800, 5), RESET, read(0x7F1, 20), fill(0x7FE, 64))
    case("all commands, through a window and a key",
         opening("A", 4, 80000, EXTENDED, 0xF0F0F0F0, 12, "K", bytes(reversed(KEY))), write(0x3F1, stairs(31), [0] * 4),
         read(0x3F1, 31), fill(0x3FA, 16), latency_type(1), read(0x3F0, 32), coverage(5), read(0x3FF, 1),
         read(0x400, 15), register(0), register(4), register(8), coverage(0), fill(0x3F2, 64), latency_type(0),
         read(0x400, 15), read(0x3F8, 16), RESET, read(0x3F8, 16), write(0xBFF, b"!"), read(0xBFE, 2), read(0xBFF, 2))


if __name__ == "__main__":
    for part in (openings, endings, losses, requests, refreshed, settings, latencies, clocks, splits, longest_requests,
                 masks, fills, layers, mixed):
        part()
    print(*written, sep="\n")
