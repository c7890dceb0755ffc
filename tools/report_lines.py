#!/usr/bin/env python3
"""The expected output of report_lines, worked out by the rules of the page on scripts and reports.
Writes crates/report_lines/stdout's text to standard output."""

DIGITS = "0123456789ABCDEF"
MOST = 2**64 - 1
ADDRESSES = [0, 3, 0xABCD, 0x0ABCDE, 0xFFFFFF, 0x1000000, 0x12345678, 2**32 - 1]
DATA = [0x00, 0x01, 0x09, 0x0A, 0x0F, 0x10, 0x7F, 0x80, 0x90, 0x99, 0x9A, 0xA0, 0xAB, 0xEF, 0xF0, 0xFF]


def in_hex(number, digits):
    """The last so many digits of a number."""
    text = ""
    while len(text) < digits:
        number, digit = divmod(number, 16)
        text = DIGITS[digit] + text
    return text


def line(*parts):
    return " ".join(parts)


def cost(frames, clocks):
    return f"f={frames}", f"c={clocks}"


ONE = cost(1, 1)


def data_line(letter, address, data, spent=ONE):
    return line(letter, in_hex(address, 6), str(len(data)), "".join(in_hex(byte, 2) for byte in data), *spent)


def write_line(address, length, mask, spent=ONE):
    """`mask` lists for each bit whether it is set."""
    unwritten = len([bit for bit in mask if bit])
    return line("W", in_hex(address, 6), str(length), f"w={max(length - unwritten, 0)}", *spent)


def setting_line(letter, value, spent=ONE):
    return line(letter, str(value), *spent)


def register_line(number, byte, spent=ONE):
    return line("Q", str(number), in_hex(byte, 2), *spent)


def reset_line(spent):
    return line("Z", *spent)


def refusal_line(number, place, good=None):
    return line("!", f"{number:02d}", f"@{place}", *([] if good is None else [f"k={good}"]))


def bits(*mask):
    return [bool(byte & 1 << k) for byte in mask for k in range(8)]


def quoted():
    print(data_line("R", 3, [0x0A, 0x00, 0x0C], cost(1, 10)))
    print(write_line(3, 3, [False, True, False], cost(1, 10)))
    print(data_line("F", 6, [0] * 13 + [0x0A, 0x00, 0x0C], cost(2, 26)))
    print(setting_line("L", 1, cost(1, 5)))
    print(setting_line("P", 0, cost(1, 5)))
    print(register_line(0, 9, cost(1, 9)))
    print(reset_line(cost(2, 10)))
    print(refusal_line(10, 21))
    print(refusal_line(19, 30, 1024))


def reads():
    for address in ADDRESSES:
        print(data_line("R", address, [0x00, 0x01, 0x09]))
    for byte in DATA:
        print(data_line("R", 0, [byte]))
    for length in (0, 1, 3, 16, 256, 4095, 4096):
        print(data_line("R", 0, [k % 256 for k in range(length)]))


def writes():
    for address in ADDRESSES:
        print(write_line(address, 1, bits(0)))
    for length in range(9):
        for mask in (0x00, 0x01, 0x11, 0xFF):
            print(write_line(0, length, bits(mask)))
    print(write_line(0, 0, []))
    print(write_line(0, 65535, []))
    print(write_line(0, 16, bits(0x55, 0xAA)))
    print(write_line(0, 16, bits(0xFF, 0x7F)))
    print(write_line(0, 16, bits(0xFF, 0xFF)))
    for byte in (0x00, 0x80, 0xFF):
        print(write_line(0, 4096, bits(*[byte] * 512)))


def fills():
    for address in ADDRESSES:
        for length in (16, 32, 64):
            print(data_line("F", address, list(range(length))))


def settings():
    for value in (0, 1, 255):
        print(setting_line("L", value))
    for code in (*range(8), 255):
        print(setting_line("P", code))


def registers():
    for number in (0, 1, 2, 3, 4, 8, 255):
        for byte in (0x00, 0x09, 0x0A, 0x90, 0xFF):
            print(register_line(number, byte))


def costs():
    for frames in (0, 1, 10, MOST):
        for clocks in (0, 1, 10, MOST):
            print(reset_line(cost(frames, clocks)))
            print(setting_line("L", 1, cost(frames, clocks)))


def refusals():
    for number in range(1, 21):
        for good in (0, 1, 4096, 2**32 - 1) if number == 19 else (None,):
            for place in (0, 32767, MOST):
                print(refusal_line(number, place, good))


def main():
    for part in (quoted, reads, writes, fills, settings, registers, costs, refusals):
        part()


if __name__ == "__main__":
    main()
