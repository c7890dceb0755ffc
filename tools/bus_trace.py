#!/usr/bin/env python3
"""The expected output of bus_trace, worked out by simulation on a little chip: the cases are those of
crates/bus_trace/stdin. Writes crates/bus_trace/stdout's text to standard output."""
from cases import Bench, play
from little_chip import Refused
from sheet import COMMANDS


def spaced(data):
    return bytes(data).hex(" ").upper()


class Trace(Bench):
    def line(self, command, address, gap, action, more="", place=0, read=None):
        """`read` turns what was read into words."""
        head = f"  {spaced([COMMANDS[command], *address.to_bytes(4, 'big')])}, gap {gap}{more}"
        try:
            got = action()
        except Refused as refusal:
            print(f"{head}: refused by {refusal} at {place}")
            return
        if read is None:
            answer = "done"
        elif got is None:
            answer = f"refused by 19 at {place}, 0 good"
        else:
            answer = read(got)
        print(f"{head}, low {self.chip.low}: {answer}")

    def memory_line(self, kind, burst, start, gap, count, action, read=None):
        """`action` is told whether the burst is linear."""
        linear = burst == "linear"
        self.line(f"linear-{kind}" if linear else kind, start, gap, lambda: action(linear), f", {count} bytes", start,
                  read)

    def attempt(self, case):
        match case:
            case ["pages"]:
                print(f"  {self.top.size // self.chip.page} pages of {self.chip.page} bytes")
            case ["refreshed", "by", "the", "bottom", "half"]:
                print(f"  {' '.join(case)}: " + " ".join(self.refreshed()))
            case ["counts"]:
                print(f"  {self.chip.frames} frames, {self.chip.clocks} low clocks")
            case ["pulse", "of", length]:
                self.pulse(self.amount(length))
            case ["after", gap, *frame]:
                self.send(self.amount(gap), frame)
            case ["soonest", *frame]:
                self.send(self.chip.least_gap(), frame)
            case _:
                raise ValueError(case)

    def refreshed(self):
        """Of each page of the stack, whether all its bytes lie in the bottom half of the chip."""
        page, half = self.chip.page, self.chip.size // 2
        for start in range(self.top.shift, self.chip.size, page):
            yield "yes" if all(address < half for address in range(start, start + page)) else "no"

    def pulse(self, length):
        try:
            self.chip.reset(length)
            print(f"  pulse of {length}: done")
        except Refused as refusal:
            print(f"  pulse of {length}: refused by {refusal} at 0")

    def send(self, gap, frame):
        match frame:
            case ["wake"]:
                self.line("global-reset", 0, gap, lambda: self.chip.wake(gap))
            case ["read", register]:
                number = int(register.removeprefix("MR"))
                self.line("register-read", number, gap, lambda: self.chip.read_register(gap, number),
                          read=lambda got: f"holds {got:02X}")
            case ["read", count, "at", start, burst]:
                count, start = self.amount(count), self.amount(start)
                self.memory_line("read", burst, start, gap, count,
                                 lambda linear: self.top.read(gap, linear, start, count),
                                 lambda got: f"done {spaced(got)}")
            case ["write", register, "with", value]:
                number, value = int(register.removeprefix("MR")), self.amount(value)
                self.line("register-write", number, gap, lambda: self.chip.write_register(gap, number, value),
                          f", value {value:02X}")
            case ["write", data, "mask", mask, "at", start, burst]:
                data, mask, start = data.encode(), bytes.fromhex(mask), self.amount(start)
                self.memory_line("write", burst, start, gap, len(data),
                                 lambda linear: self.top.write(gap, linear, start, data, mask))
            case _:
                raise ValueError(frame)


play("bus_trace", Trace)
