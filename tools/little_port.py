"""A little port over the stacks of little_chip: a request is refused by the rules one after the other, a range is sent
in pieces that grow by two bytes, and what was read is kept by its address."""
from little_chip import Refused
from protocol_table import Splitting, code_for, even_ends, part_of
from sheet import (BLOCKS, COVERAGES, READ_CODES, TRP, WRITE_CODES, fewest_clocks, last_start, latency_of, mask_bits,
                   mask_size)

MOST = 4096  # bytes of a read or a write
LINES = [int(block) for block in BLOCKS.values() if block != "page"]
TYPES = ["0", "1"]  # variable, fixed


class Lost(Exception):
    """19, with the good bytes."""


class Port:
    """Woken as it is made. `lows` has the low clocks of each frame of the latest request."""

    def __init__(self, top):
        self.top = top
        self.chip = top.chip
        self.latency = latency_of(self.chip.khz)
        make, clock = self.chip.make, (self.chip.range, self.chip.khz)
        self.reading = Splitting("read", make, *clock, self.latency)
        self.writing = Splitting("write", make, *clock, self.latency)
        self.lost = False
        self.lows = []
        self.send(self.chip.wake)
        self.set_up()

    # ---- frames

    def send(self, frame, *operands):
        """A frame, as soon as the chip takes it."""
        got = frame(self.chip.least_gap(), *operands)
        self.lows.append(self.chip.low)
        return got

    def ask(self, good, frame, *operands):
        """A frame that reads, where so many bytes of the request are good before it."""
        got = self.send(frame, *operands)
        if got is None:
            self.lost = True
            raise Lost(good)
        return got

    def put_bits(self, number, bits):
        self.send(self.chip.write_register, number, int(bits, 2))

    def set_up(self):
        drive = self.chip.bits(0)[6:]
        self.put_bits(0, "00" + TYPES[0] + code_for(READ_CODES, self.latency) + drive)
        self.put_bits(4, code_for(WRITE_CODES, self.latency) + "00" + code_for(COVERAGES, "all"))

    # ---- what refuses a request, in the order of the numbers

    def begin(self):
        self.lows = []
        if self.lost:
            raise Refused(6)

    def admit_length(self, length):
        if length not in range(1, MOST + 1):
            raise Refused(7)

    def admit_line(self, start, line):
        if line not in LINES or start & 1:
            raise Refused(8)

    def admit_setting(self, value, known):
        if value not in known:
            raise Refused(9)

    def admit_addresses(self, addresses):
        if any(address not in range(self.top.size) for address in addresses):
            raise Refused(10)

    def admit_mask(self, mask, length):
        if len(mask) != mask_size(length) or any(mask_bits(mask)[length:]):
            raise Refused(11)

    def admit_refreshed(self, addresses):
        refreshed = part_of(COVERAGES[self.chip.bits(4)[5:]], self.chip.size)
        if any(address + self.top.shift not in refreshed for address in addresses):
            raise Refused(12)

    # ---- requests

    def pieces(self, splitting, start, length):
        """The pieces of a range as their addresses."""
        at, end = even_ends(start, length)
        for count in splitting.pieces(at, end):
            yield range(at, at + count)
            at += count

    def read(self, start, length):
        asked = range(start, start + length)
        self.begin()
        self.admit_length(length)
        self.admit_addresses(asked)
        self.admit_refreshed(asked)
        found = {}
        for piece in self.pieces(self.reading, start, length):
            good = len([address for address in asked if address in found])
            got = self.ask(good, self.top.read, True, piece[0], len(piece))
            found.update(zip(piece, got))
        return [found[address] for address in asked]

    def write(self, start, data, mask):
        asked = range(start, start + len(data))
        self.begin()
        self.admit_length(len(data))
        self.admit_addresses(asked)
        self.admit_mask(mask, len(data))
        self.admit_refreshed(asked)
        wanted = {address: byte for address, byte, bit in zip(asked, data, mask_bits(mask)) if not bit}
        for piece in self.pieces(self.writing, start, len(data)):
            bits = "".join("0" if address in wanted else "1" for address in piece)
            masks = bytes(int(bits[at:at + 8][::-1], 2) for at in range(0, len(bits), 8))
            self.send(self.top.write, True, piece[0], [wanted.get(address, 0) for address in piece], masks)

    def fill(self, start, line):
        self.begin()
        self.admit_line(start, line)
        self.admit_addresses([start])
        first = last_start(line, start)
        self.admit_refreshed(range(first, first + line))
        bits = "00000" + "0" + code_for(BLOCKS, str(line))
        if self.chip.bits(8) != bits:
            self.put_bits(8, bits)
        return self.ask(0, self.top.read, False, start, line)

    def set_type(self, value):
        self.begin()
        self.admit_setting(value, range(len(TYPES)))
        bits = self.chip.bits(0)
        self.put_bits(0, bits[:2] + TYPES[value] + bits[3:])

    def set_coverage(self, value):
        self.begin()
        self.admit_setting(value, range(len(COVERAGES)))
        self.put_bits(4, self.chip.bits(4)[:5] + f"{value:03b}")

    def read_register(self, number):
        self.begin()
        self.admit_setting(number, self.chip.table)
        return self.ask(0, self.chip.read_register, number)

    def reset(self):
        self.lows = []
        self.chip.reset(fewest_clocks(TRP, self.chip.khz))
        self.lost = False
        self.set_up()
