"""The numbers of the two data sheets and of the formats, each stated once for the scripts of this folder, and what
follows from them by exact fractions and by counting."""
import struct
from fractions import Fraction

# Temperature ranges, and times in nanoseconds.
NORMAL, EXTENDED = "N", "X"
TCEM = {NORMAL: 4000, EXTENDED: 1000}
TCPH, TRC, TRST, TPU, TRP = 18, 60, 2000, 150000, 1000

# The fastest clock in kHz of each latency.
FASTEST = {3: 66000, 4: 109000, 5: 133000}

# The bytes of a page, by the letter of the make.
PAGE = {"A": 1024, "S": 2048}

# The codes of the commands.
COMMANDS = {
    "read": 0x00,
    "linear-read": 0x20,
    "write": 0x80,
    "linear-write": 0xA0,
    "register-read": 0x40,
    "register-write": 0xC0,
    "global-reset": 0xFF,
}

# What the registers hold after a reset.
AFTER_RESET = {
    "A": {0: 0x09, 1: 0x0D, 2: 0x95, 3: 0xE0, 4: 0x40, 8: 0x05},
    "S": {0: 0x08, 1: 0x9A, 2: 0xC5, 3: 0x00, 4: 0x40, 8: 0x05},
}

# The codes of MR0 and MR4 for latencies, of MR4 for coverages and of MR8 for blocks, by their bits.
READ_CODES = {"000": 3, "001": 4, "010": 5}
WRITE_CODES = {"000": 3, "100": 4, "010": 5}
COVERAGES = {
    "000": "all",
    "001": "bottom-half",
    "010": "bottom-quarter",
    "011": "bottom-eighth",
    "100": "nothing",
    "101": "top-half",
    "110": "top-quarter",
    "111": "top-eighth",
}
BLOCKS = {"00": "16", "01": "32", "10": "64", "11": "page"}


def taken():
    """The values that each register takes, as text of their bits: those with no reserved code."""
    mr0 = {"00" + kind + code + drive for kind in "01" for code in READ_CODES
           for drive in ("00", "01", "10", "11")}
    mr4 = {code + "00" + coverage for code in WRITE_CODES for coverage in COVERAGES}
    mr8 = {"00000" + hybrid + block for hybrid in "01" for block in BLOCKS}
    return {0: mr0, 4: mr4, 8: mr8}


def block_length(block, page):
    return page if block == "page" else int(block)


def lasts(clocks, khz):
    """How long so many clocks last, in nanoseconds."""
    return Fraction(clocks * 10**6, khz)


def least(holds):
    """The least number from which on `holds` is true, by doubling and halving."""
    if holds(0):
        return 0
    above = 1
    while not holds(above):
        above *= 2
    below = above // 2
    while above - below > 1:
        middle = (above + below) // 2
        if holds(middle):
            above = middle
        else:
            below = middle
    return above


def fewest_clocks(ns, khz):
    """The fewest clocks that last at least a time."""
    return least(lambda clocks: lasts(clocks, khz) >= ns)


def most_clocks(ns, khz):
    """The most clocks that last no longer than a time."""
    return least(lambda clocks: lasts(clocks + 1, khz) > ns)


def period_ps(khz):
    """The period to the nearest picosecond; of two as near the later."""
    exact = Fraction(10**9, khz)
    near = int(exact)
    return min(range(near - 1, near + 3), key=lambda ps: (abs(ps - exact), -ps))


def latency_of(khz):
    return next(clocks for clocks, fastest in FASTEST.items() if khz <= fastest)


def low_clocks(kind, latency=0, count=0):
    """Clocks of CE# low, by the edges of the clock: each byte has one, and a clock has two."""
    opening = ["command", "command", "A3", "A2", "A1", "A0"]
    if kind == "global-reset":
        edges = len(opening) + 2
    else:
        edges = len(opening) + sum(2 for _ in range(latency)) + count
    return least(lambda clocks: clocks + clocks >= edges)


def keeps_tcem(clock_range, khz, clocks):
    return lasts(clocks, khz) <= TCEM[clock_range]


def clock_refused(clock_range, khz):
    """2 for a clock that no chip takes, 3 where a line of 64 bytes may not be read in one frame."""
    if khz < 1 or khz > max(FASTEST.values()):
        return 2
    worst = low_clocks("read", latency_of(khz) + latency_of(khz), 64)
    return None if keeps_tcem(clock_range, khz, worst) else 3


def last_start(length, address):
    """Where the block of this length begins that an address lies in."""
    return range(0, address + 1, length)[-1]


def walk(page, hybrid, length, start, count):
    """The addresses of a burst in blocks of a length, by an address counter that steps from byte to byte."""
    page_start = last_start(page, start)
    block_start = last_start(length, start)
    once = hybrid and length != page
    counter = start
    addresses = []
    for sent in range(1, count + 1):
        addresses.append(counter)
        counter += 1
        if once and sent >= length:
            # the block is done: on behind it, and at the end of the page to its start
            if sent == length:
                counter = block_start + length
            if counter == page_start + page:
                counter = page_start
        elif counter == block_start + length:
            counter = block_start
    return addresses


def mask_size(length):
    """The bytes of a mask for so many of a write."""
    return len(range(0, length, 8))


def mask_bits(mask):
    """One flag for each byte of a write, the lowest bit of each byte of the mask first."""
    return [digit == "1" for byte in mask for digit in reversed(f"{byte:08b}")]


# The opening of a script: make, pages, kHz, range, refresh word, strobe count, stack; and the most bytes of a script.
OPENING = struct.Struct(">cHIcIHc")
LONGEST = 32768


def in_hex(data):
    return bytes(data).hex().upper()
