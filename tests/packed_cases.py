#!/usr/bin/env python3
"""The cases of crates/packed_cases and what they must print, from document 01 alone.

python3 tests/packed_cases.py           writes crates/packed_cases/stdin and stdout
python3 tests/packed_cases.py --check   says whether the two files are what it would write

Numbers are handled here as strings of binary digits, which nothing in the library does.
"""
import random

import expected

TOP = 4294967295
BOUNDARIES = sorted({b + d for b in (0, 128, 16384, 2**21, 2**28, 2**31, TOP) for d in (-1, 0, 1) if 0 <= b + d <= TOP})


def pack(x):
    """Groups of seven binary digits, lowest first, the top bit set when more follow."""
    digits = bin(x)[2:]
    digits = digits.zfill(-(-len(digits) // 7) * 7)
    groups = [digits[i:i + 7] for i in range(0, len(digits), 7)][::-1]
    return bytes(int(("0" if i == len(groups) - 1 else "1") + g, 2) for i, g in enumerate(groups))


def read(s, at):
    """("value", v, next), or ("refused", number, place)."""
    digits = ""
    for count in range(5):
        if at + count >= len(s):
            return "refused", 1, len(s)
        byte = format(s[at + count], "08b")
        digits = byte[1:] + digits
        if count == 4 and s[at + count] > 0x0F:
            return "refused", 2, at
        if byte[0] == "0":
            if count > 0 and byte == "00000000":
                return "refused", 2, at
            return "value", int(digits, 2), at + count + 1
    raise AssertionError("a fifth byte up to 0F ends the number")


def hexes(s):
    return "".join(" %02x" % b for b in s)


def written(form, place, size):
    room = bytearray(b"\xaa" * size)
    if place + len(form) <= size:
        room[place:place + len(form)] = form
        answer = "end %d" % (place + len(form))
    else:
        answer = "refused 35 at 0"
    return " at %d: %s,%s" % (place, answer, hexes(room))


def write_case(x, place, size):
    return bytes([0, place, size, 0]) + x.to_bytes(4, "little") + bytes(8), "write %d" % x + written(pack(x), place, size)


def row_case(row, place, size):
    """Three numbers, or none of them."""
    numbers = b"".join(x.to_bytes(4, "little") for x in row)
    return bytes([3, place, size, 0]) + numbers, "row %d %d %d" % row + written(b"".join(map(pack, row)), place, size)


def read_case(s, place):
    kind, a, b = read(s, place)
    answer = "value %d next %d" % (a, b) if kind == "value" else "refused %d at %d" % (a, b)
    line = "read%s at %d: %s" % (hexes(s), place, answer)
    return bytes([1, place, len(s), 0]) + s + bytes(12 - len(s)), line


def delay_case(x):
    """2d, or -2d - 1 when negative."""
    d = x // 2 if x % 2 == 0 else -(x + 1) // 2
    assert x == (2 * d if d >= 0 else -2 * d - 1)
    return bytes([2, 0, 0, 0]) + x.to_bytes(4, "little") + bytes(8), "delay %d: %d packed %d" % (x, d, x)


def cases():
    chance = random.Random(2000)
    for x in BOUNDARIES:
        size = len(pack(x))
        yield write_case(x, 0, size)
        yield write_case(x, 0, size - 1)
        yield write_case(x, 3, size + 5)
        yield write_case(x, 255, 12)
        yield delay_case(x)
        form = pack(x)
        for cut in range(size + 1):
            yield read_case(form[:cut], 0)
        yield read_case(form + b"\x80", 0)
        yield read_case(b"\xff" + form + b"\x00", 1)
        if size < 5:
            yield read_case(form[:-1] + bytes([form[-1] | 0x80]) + b"\x00", 0)
    for s in ("8000", "808000", "80808000", "8080808000", "8080808080", "80808080", "8080", "80", "",
              "ffffffff0f", "ffffffff10", "ffffffff7f", "ffffffff8f", "8080808010", "8080808001", "80808080ff", "8180808000"):
        s = bytes.fromhex(s)
        for place in (0, 1, 4, len(s), len(s) + 1, 255):
            yield read_case(s, place)
    lengths = (0, 127, 128, 16383, 16384, 2**21 - 1, 2**21, 2**28 - 1, 2**28, TOP)      # the first and the last of each length
    for row in zip(lengths * 3, lengths[3:] + lengths * 2, lengths[7:] + lengths * 3):
        size = sum(len(pack(x)) for x in row)
        for place in (0, 3):
            for room in sorted({size - 1, size, size + 1, 13, 14, 15, 16, 17}):
                yield row_case(row, place, room + place)
        yield row_case(row, 255, 20)
    for _ in range(750):
        x = chance.getrandbits(chance.randrange(1, 33))
        yield write_case(x, chance.randrange(10), chance.randrange(13))
        yield delay_case(x)
        yield row_case(tuple(chance.getrandbits(chance.randrange(1, 33)) for _ in range(3)), chance.randrange(8), chance.randrange(21))
        s = bytes(chance.choice((0, 1, 0x0F, 0x10, 0x7F, 0x80, 0x81, 0xFF, chance.randrange(256))) for _ in range(chance.randrange(13)))
        yield read_case(s, chance.randrange(8))


def main():
    made = list(cases())
    stdin = b"".join(r for r, _ in made)
    assert len(stdin) <= expected.BUFFER
    expected.keep("packed_cases", stdin, "".join(line + "\n" for _, line in made).encode())
    print("packed_cases: %d cases" % len(made))


main()
