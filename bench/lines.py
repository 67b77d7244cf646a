#!/usr/bin/env python3
"""lines.py COUNT SEED: writes COUNT random lines for `decode`, the same for the same seed.

Good components of all kinds, requests, nested parameters to ten levels (eight
are allowed), damaged elements, random octets, lines that are not octets, and
blank lines.
"""

import random
import sys

HEX_UPPER = "0123456789ABCDEF"


def value(tag, contents):
    return bytes([tag, len(contents)]) + contents


def integer(number):
    """An INTEGER in the fewest octets."""
    size = 1 if -128 <= number <= 127 else 2
    return value(0x02, number.to_bytes(size, "big", signed=True))


def some_number(r):
    kind = r.random()
    if kind < 0.6:
        return r.randrange(128)
    if kind < 0.8:
        return r.choice((-32768, -129, -128, -1, 0, 1, 127, 128, 255, 256, 32767))
    return r.randrange(-32768, 32768)


def small(r):
    return value(0x02, bytes([r.randrange(128)]))


def some_octets(r, most):
    return bytes(r.randrange(256) for _ in range(r.randrange(most + 1)))


def some_tag(r, constructed):
    while True:
        tag = r.randrange(256)
        if tag & 0x1F != 0x1F:
            return tag | 0x20 if constructed else tag & 0xDF


def some_value(r, room, depth):
    """A value of at most `room` octets with at most `depth` levels."""
    if depth > 1 and room >= 4 and r.random() < 0.4:
        contents = b""
        while len(contents) + 4 < room and r.random() < 0.6:
            contents += some_value(r, room - 2 - len(contents), depth - 1)
        return value(some_tag(r, True), contents)
    kind = r.random()
    if kind < 0.5:
        return integer(some_number(r))[: room] if room >= 4 else b"\x05\x00"
    if kind < 0.6:
        return b"\x05\x00"
    return value(some_tag(r, False), some_octets(r, min(room - 2, 12)))


def nested(r):
    """A value in a value in a value .. , to 1 to 10 levels with the component."""
    inside = r.choice((b"", b"\x05\x00", integer(some_number(r))))
    for _ in range(r.randrange(9)):
        inside = value(some_tag(r, True), inside)
        if r.random() < 0.2:
            inside += integer(some_number(r))
    return inside if inside else b"\x30\x00"


def parameter(r):
    kind = r.random()
    if kind < 0.35:
        return integer(some_number(r))
    if kind < 0.55:
        return value(0x30, small(r) + small(r))
    if kind < 0.7:
        return nested(r)
    if kind < 0.75:
        return value(some_tag(r, False), bytes(r.randrange(256) for _ in range(r.randrange(60, 112))))
    return some_value(r, 60, 6)


def request(r):
    operation = r.randrange(40, 46)
    if operation == 40:
        argument = small(r) if r.random() < 0.6 else b""
    elif operation == 42:
        argument = value(0x30, small(r) + small(r))
    else:
        argument = small(r)
    return value(0xA1, integer(some_number(r)) + integer(operation) + argument)


def component(r):
    kind = r.random()
    id = integer(some_number(r))
    if kind < 0.45:
        return request(r)
    if kind < 0.6:
        operation = r.randrange(38, 48) if r.random() < 0.7 else some_number(r)
        return value(0xA1, id + integer(operation) + (parameter(r) if r.random() < 0.8 else b""))
    if kind < 0.75:
        if r.random() < 0.4:
            return value(0xA2, id)
        operation = r.randrange(40, 46) if r.random() < 0.7 else some_number(r)
        return value(0xA2, id + value(0x30, integer(operation) + parameter(r)))
    if kind < 0.88:
        code = r.choice((0, 3, 7, 11, 28, 29, 30, 31, 32)) if r.random() < 0.7 else some_number(r)
        return value(0xA3, id + integer(code) + (parameter(r) if r.random() < 0.3 else b""))
    if r.random() < 0.3:
        id = b"\x05\x00"
    problem = r.randrange(10) if r.random() < 0.8 else r.randrange(256)
    return value(0xA4, id + value(r.randrange(0x80, 0x84), bytes([problem])))


def element(component):
    return bytes([0x1C, (len(component) + 1) % 256, 0x91]) + component


def damaged(r, octets):
    """An element with one damage, its length put right more often than not."""
    octets = bytearray(octets)
    kind = r.random()
    if kind < 0.35:
        octets[r.randrange(len(octets))] = r.randrange(256)
        return bytes(octets)
    if kind < 0.45:
        octets[r.randrange(len(octets))] ^= 1 << r.randrange(8)
        return bytes(octets)
    if kind < 0.6:
        del octets[r.randrange(len(octets)) :]
    elif kind < 0.7:
        octets += some_octets(r, 6)
    elif kind < 0.8:
        at = r.randrange(len(octets))
        octets[at:at] = some_octets(r, 3)
    elif kind < 0.88:
        at = r.randrange(len(octets))
        del octets[at : at + r.randrange(1, 4)]
    else:
        # a longer or shorter component within an element of the right length
        if r.random() < 0.5:
            octets += b"\x02\x01" + bytes([r.randrange(256)])
        else:
            del octets[-3:]
        if len(octets) > 4:
            octets[4] = (len(octets) - 5) % 256
    if len(octets) > 1 and r.random() < 0.8:
        octets[1] = (len(octets) - 2) % 256
    if len(octets) > 4 and r.random() < 0.3:
        octets[4] = (len(octets) - 5) % 256
    return bytes(octets)


TELLING = bytes.fromhex("000001010202020202020304050510203030307F80818283A1A2A4BF1F3FFF")


def scrambled(r):
    """An element with a component of telling octets, in no good order."""
    contents = bytes(r.choice(TELLING) for _ in range(r.randrange(20)))
    tag = r.randrange(0xA1, 0xA5)
    if r.random() < 0.5:
        contents = integer(some_number(r)) + contents
    return element(value(tag, contents))


def written(r, octets):
    """The octets as a line of text: mostly upper-case pairs with spaces."""
    kind = r.random()
    if kind < 0.7:
        text = octets.hex(" ").upper()
    elif kind < 0.8:
        text = octets.hex(" ")
    elif kind < 0.88:
        text = octets.hex().upper()
    elif kind < 0.93:
        text = octets.hex()
    else:
        text = "".join(
            r.choice(("", " ", "  ", "\t", " \t"))
            + "".join(r.choice((digit, digit.lower())) for digit in "%02X" % octet)
            for octet in octets
        ) + r.choice(("", " ", "\r", " \r"))
    return text.encode("ascii")


def spoiled(r, line):
    """A line that is, nearly always, not octets."""
    line = bytearray(line)
    kind = r.random()
    if kind < 0.4:
        line += HEX_UPPER[r.randrange(16)].encode("ascii")
    elif kind < 0.7:
        at = r.randrange(len(line) + 1)
        line[at:at] = bytes([r.choice([b for b in range(256) if b != 10])])
    elif kind < 0.85:
        line = bytearray(r.choice((b"invoke", b"0x1C", b"1C,02", b"1C 2 91", b"# 1C", b"1 C", b"G0", b"\xff\xfe", b"\xc3\xa9", b"\x00")))
    else:
        at = r.randrange(len(line) + 1)
        line[at:at] = r.choice((b" ", b"\t", b"\r", b"\v", b"\f", b"-", b"x"))
    return bytes(line)


def line(r):
    kind = r.random()
    if kind < 0.01:
        return r.choice((b"", b" ", b"\t", b"\r", b" \t \r"))
    if kind < 0.04:
        return spoiled(r, written(r, element(component(r))))
    if kind < 0.07:
        octets = some_octets(r, 140)
        if r.random() < 0.5 and len(octets) > 3:
            octets = element(octets[: len(octets) - 3])
        if r.random() < 0.5 and len(octets) > 5:
            octets = octets[:3] + bytes([r.randrange(0xA1, 0xA5), (len(octets) - 5) % 256]) + octets[5:]
        return written(r, octets)
    if kind < 0.1:
        return written(r, scrambled(r))
    octets = element(component(r))
    if kind < 0.36:
        octets = damaged(r, octets)
    return written(r, octets)


def main():
    if len(sys.argv) != 3:
        sys.exit("usage: lines.py COUNT SEED")
    count, seed = int(sys.argv[1]), int(sys.argv[2])
    r = random.Random(seed)
    for _ in range(count):
        sys.stdout.buffer.write(line(r) + b"\n")


if __name__ == "__main__":
    main()
