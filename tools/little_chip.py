"""A little chip for the expected output of bus_trace and refusal_table and the reports of run_table: times in exact
fractions, a dictionary of bytes, bursts by stepping an address counter, and a window and a scrambler that move
addresses and combine bytes one at a time."""
from sheet import (AFTER_RESET, BLOCKS, PAGE, READ_CODES, TPU, TCPH, TRC, TRP, TRST, WRITE_CODES, block_length,
                   keeps_tcem, lasts, least, low_clocks, mask_bits, mask_size, taken, walk)


class Refused(Exception):
    pass


class Chip:
    def __init__(self, make, khz, clock_range, pages, word, strobes):
        self.make = make
        self.khz = khz
        self.range = clock_range
        self.page = PAGE[make]
        self.pages = pages
        self.size = pages * self.page
        self.word = word        # bit k: the k-th read of variable latency meets a refresh
        self.strobes = strobes  # reads that are answered before the strobe goes; 0: it stays
        self.table = AFTER_RESET[make]
        self.registers = dict(self.table)
        self.bytes = {}
        self.awake = False
        self.strobe = True
        self.due = TPU          # the wait that is due before the next frame
        self.low = None         # low clocks of the latest frame
        self.answered = 0       # reads answered since wake or reset
        self.varied = 0         # reads of variable latency since wake or reset
        self.frames = 0
        self.clocks = 0

    def state(self):
        return (dict(self.registers), self.awake, self.strobe, self.due, self.low, self.frames, self.clocks)

    # ---- tests before a frame goes over the bus

    def is_too_soon(self, gap):
        spent = lasts(gap, self.khz)
        return spent < TCPH or spent < self.due or self.low is not None and lasts(gap + self.low, self.khz) < TRC

    def least_gap(self):
        return least(lambda gap: not self.is_too_soon(gap))

    def admit(self, gap, waking):
        if self.awake == waking:
            raise Refused(13)
        if self.is_too_soon(gap):
            raise Refused(14)

    def admit_start(self, start):
        if start & 1 or start not in range(self.size):
            raise Refused(15)

    def admit_low(self, low):
        if not keeps_tcem(self.range, self.khz, low):
            raise Refused(17)

    # ---- the frame itself

    def begins(self):
        if self.strobes and self.answered >= self.strobes:
            self.strobe = False

    def ends(self, low):
        self.low = low
        self.due = 0
        self.frames += 1
        self.clocks += low

    def bits(self, number):
        return f"{self.registers[number]:08b}"

    def read_latency(self):
        return READ_CODES[self.bits(0)[3:6]]

    def write_latency(self):
        return WRITE_CODES[self.bits(4)[:3]]

    def walk(self, linear, start, count):
        """The addresses of a burst, which goes by MR8 if it is not linear."""
        bits = self.bits(8)
        block = "page" if linear else BLOCKS[bits[6:]]
        return walk(self.page, not linear and bits[5] == "1", block_length(block, self.page), start, count)

    def wake(self, gap):
        self.admit(gap, True)
        self.begins()
        self.registers = dict(self.table)
        self.awake = True
        self.due = TRST
        self.low = low_clocks("global-reset")
        self.frames = self.clocks = self.answered = self.varied = 0

    def read(self, gap, linear, start, count):
        """None where no strobe came."""
        self.admit(gap, False)
        self.admit_start(start)
        if count == 0:
            raise Refused(16)
        latency = self.read_latency()
        self.admit_low(low_clocks("read", latency + latency, count))
        self.begins()
        variable = self.strobe and self.bits(0)[2] == "0"
        refresh = self.word >> self.varied % 32 & 1
        self.ends(low_clocks("read", latency if variable and not refresh else latency + latency, count))
        if not self.strobe:
            return None
        self.answered += 1
        self.varied += variable
        return [self.bytes.get(a, 0) for a in self.walk(linear, start, count)]

    def write(self, gap, linear, start, data, mask):
        """A set bit of the mask keeps a byte from being written."""
        self.admit(gap, False)
        self.admit_start(start)
        if len(data) == 0 or len(data) % 2 or len(mask) != mask_size(len(data)):
            raise Refused(16)
        low = low_clocks("write", self.write_latency(), len(data))
        self.admit_low(low)
        self.begins()
        masked = mask_bits(mask)
        for i, a in enumerate(self.walk(linear, start, len(data))):
            if not masked[i]:
                self.bytes[a] = data[i]
        self.ends(low)

    def read_register(self, gap, number):
        """None where no strobe came."""
        self.admit(gap, False)
        if number not in self.table:
            raise Refused(18)
        self.begins()
        self.ends(low_clocks("register-read", self.read_latency(), 2))
        if not self.strobe:
            return None
        self.answered += 1
        return self.registers[number]

    def write_register(self, gap, number, value):
        self.admit(gap, False)
        if f"{value:08b}" not in taken().get(number, ()):
            raise Refused(18)
        self.begins()
        self.registers[number] = value
        self.ends(low_clocks("register-write", 1, 2))

    def reset(self, pulse):
        if not self.awake:
            raise Refused(13)
        if lasts(pulse, self.khz) < TRP:
            raise Refused(14)
        self.registers = dict(self.table)
        self.strobe = True
        self.due = TRST
        self.answered = self.varied = 0


class Stack:
    """The memory frames through a scrambler over a window that hides so many pages; with none and no key, the chip."""

    def __init__(self, chip, hidden=0, key=bytes(16)):
        self.chip = chip
        self.shift = hidden * chip.page
        self.size = chip.size - self.shift
        self.key = key

    def mixed(self, linear, start, data):
        seen = self.chip.walk(linear, start, len(data))
        return [b ^ self.key[a % 16] for b, a in zip(data, seen)]

    def read(self, gap, linear, start, count):
        got = self.chip.read(gap, linear, start + self.shift, count)
        return None if got is None else self.mixed(linear, start, got)

    def write(self, gap, linear, start, data, mask):
        self.chip.write(gap, linear, start + self.shift, self.mixed(linear, start, data), mask)
