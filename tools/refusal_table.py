#!/usr/bin/env python3
"""The expected output of refusal_table, worked out by the rules of the pages on a little chip: the cases are those of
crates/refusal_table/stdin. Writes crates/refusal_table/stdout's text to standard output."""
from cases import Bench, play
from little_chip import Refused
from sheet import mask_size

DATA = 0x5A


class Table(Bench):
    def line(self, text, place, action, read=None):
        """`read` turns what was read into words; a buffer changes where memory was read."""
        before = self.chip.state()
        filled = False
        try:
            got = action()
            if read is None:
                answer = "done"
            elif got is None:
                answer = f"19 at {place}, k=0"
            else:
                answer = read(got)
                filled = isinstance(got, list)
        except Refused as refusal:
            answer = f"{refusal} at {place}"
        state = "stayed" if self.chip.state() == before else "changed"
        print(f"  {text}: {answer}; state {state}, buffer {'changed' if filled else 'stayed'}")

    def write(self, gap, count, start, size):
        self.line(f"after {gap}, write {count} at {start}, mask of {size}", start,
                  lambda: self.top.write(gap, True, start, bytes([DATA] * count), bytes(size)))

    def attempt(self, case):
        match case:
            case ["title", *text]:
                print("", *text)
            case ["pulse", "of", length]:
                length = self.amount(length)
                self.line(f"pulse of {length}", 0, lambda: self.chip.reset(length))
            case ["after", gap, *frame]:
                self.send(self.amount(gap), frame)
            case _:
                raise ValueError(case)

    def send(self, gap, frame):
        match frame:
            case ["wake"]:
                self.line(f"after {gap}, wake", 0, lambda: self.chip.wake(gap))
            case ["read", register]:
                number = int(register.removeprefix("MR"))
                self.line(f"after {gap}, read {register}", 0, lambda: self.chip.read_register(gap, number),
                          lambda got: f"holds {got:02X}")
            case ["read", count, "at", start]:
                count, start = self.amount(count), self.amount(start)
                self.line(f"after {gap}, read {count} at {start}", start,
                          lambda: self.top.read(gap, True, start, count), lambda got: f"done, first {got[0]:02X}")
            case ["write", register, "with", value]:
                number, value = int(register.removeprefix("MR")), self.amount(value)
                self.line(f"after {gap}, write {register} with {value:02X}", 0,
                          lambda: self.chip.write_register(gap, number, value))
            case ["write", count, "at", start]:
                count = self.amount(count)
                self.write(gap, count, self.amount(start), mask_size(count))
            case ["write", count, "at", start, "mask", "of", size]:
                self.write(gap, self.amount(count), self.amount(start), int(size))
            case _:
                raise ValueError(frame)

    def hide(self, hidden):
        left = self.chip.pages - hidden
        print(f"  hide {hidden} of {self.chip.pages}: " + (f"{left} left" if left > 0 else "20 at 0; state stayed"))


play("refusal_table", Table)
