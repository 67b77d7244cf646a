#!/usr/bin/env python3
"""Writes the chosen lines of crates/decode/stdin, by rule.

    bench/cases.py > crates/decode/stdin
    bench/rules.py < crates/decode/stdin > crates/decode/stdout

Each function below answers the lines of one group; docs/FACILITY.md has the rules.
"""

import functools
import pathlib
import sys

from lines import element, integer, value

IDS = (-32768, -32767, -129, -128, -127, -1, 0, 1, 126, 127, 128, 129, 255, 256, 32766, 32767)
COMPONENTS = (0xA1, 0xA2, 0xA3, 0xA4)
NULL = b"\x05\x00"
ID = integer(1)
DROP = integer(43)
FIVE = integer(5)

GOOD_INVOKE = ID + DROP + FIVE
GOOD_RESULT = ID + value(0x30, integer(40) + value(0x30, integer(0) + integer(1)))
GOOD_ERROR = ID + integer(29) + FIVE
GOOD_REJECT = ID + value(0x81, b"\x01")
GOOD = dict(zip(COMPONENTS, (GOOD_INVOKE, GOOD_RESULT, GOOD_ERROR, GOOD_REJECT)))

TELLING = bytes.fromhex("00 01 02 05 06 1F 2A 30 31 7F 80 81 84 A0 A3 A4 FF")


def spaced(octets):
    return octets.hex(" ").upper().encode()


def packed(octets):
    return octets.hex().upper().encode()


def compact(group):
    """A group with its lines written without spaces."""

    @functools.wraps(group)
    def lines():
        return (line.replace(b" ", b"") for line in group())

    return lines


def component(tag, contents):
    return spaced(element(value(tag, contents)))


def invoke(*values):
    return component(0xA1, b"".join(values))


# The element: causes 11 to 14


def counts():
    """Each number of octets at a boundary; good as far as the number lets it be."""
    for count in (1, 2, 3, 4, 5, 6):
        for tag in COMPONENTS + (0xA0, 0xA5):
            yield spaced((bytes([0x1C, max(count - 2, 0), 0x91, tag, max(count - 5, 0)]) + b"\x02")[:count])
    for fill in range(115, 124):  # 128 to 136 octets, the component's length put as one octet
        yield spaced(long_invoke(fill))
    for count in (131, 132, 133, 140, 255, 256, 257, 258, 1000):
        yield packed(bytes([0x1C, (count - 2) % 256, 0x91]) + bytes(count - 3))
        yield packed(bytes(count))
    # counts that are 14 if cut to eight or sixteen bits, with a good element in front
    good = element(value(0xA1, GOOD_INVOKE))
    yield spaced(good + bytes(256))
    yield packed(good + bytes(65536))


def long_invoke(fill):
    contents = ID + DROP + bytes([0x04, fill]) + bytes(fill)
    body = bytes([0xA1, len(contents)]) + contents
    return bytes([0x1C, len(body) + 1, 0x91]) + body


def longest():
    """Components of the greatest length: 127 octets of contents, 132 of the element."""
    yield invoke(ID, DROP, value(0x04, bytes(119)))
    yield invoke(ID, DROP, value(0x30, value(0x04, bytes(117))))
    yield invoke(integer(300), DROP, value(0x04, bytes(118)))
    yield component(0xA2, ID + value(0x30, DROP + value(0x04, bytes(117))))
    yield component(0xA3, ID + integer(300) + value(0x04, bytes(118)))
    yield component(0xA4, NULL + value(0x80, b"\x00") + value(0x04, bytes(120)))
    yield component(0xA1, ID * 42)
    yield component(0xA1, NULL * 63)
    good = bytearray(element(value(0xA1, ID + DROP + value(0x04, bytes(119)))))
    for at, octet in ((4, 126), (4, 128), (4, 255), (12, 118), (12, 120), (12, 127), (12, 128), (12, 255), (1, 0x81), (1, 0x83), (1, 2)):
        bad = bytearray(good)
        bad[at] = octet
        yield spaced(bytes(bad))
    yield spaced(bytes([0x1C, 0x82, 0x91, 0xA1, 0x80]) + good[5:])


def first_octets():
    """Causes 12, 13, 14 and 15 together: the lowest goes first."""
    good = element(value(0xA1, GOOD_INVOKE))
    for wrong in range(16):
        octets = bytearray(good)
        for at, octet in enumerate((0x1D, 0x0D, 0x11, 0xA0)):
            if wrong >> at & 1:
                octets[at] = octet
        yield spaced(bytes(octets))


# Every octet changed


def sweep_drop():
    good = element(value(0xA1, GOOD_INVOKE))
    for at in range(len(good)):
        for octet in range(256):
            yield packed(good[:at] + bytes([octet]) + good[at + 1 :])


def sweep_others():
    """Telling octets in each place of the other components and of a split."""
    split = ID + integer(42) + value(0x30, integer(0) + FIVE)
    for tag, contents in ((0xA1, split), (0xA2, GOOD_RESULT), (0xA3, GOOD_ERROR), (0xA4, GOOD_REJECT), (0xA4, NULL + value(0x80, b"\x02"))):
        good = element(value(tag, contents))
        for at in range(3, len(good)):
            for octet in TELLING:
                yield packed(good[:at] + bytes([octet]) + good[at + 1 :])


def cut():
    """Good elements cut after each octet, as they are and with the lengths put right."""
    for tag, contents in GOOD.items():
        for count in range(len(contents)):
            octets = element(value(tag, contents))[: 5 + count]
            yield spaced(octets)
            yield spaced(octets[:1] + bytes([len(octets) - 2]) + octets[2:])
            yield component(tag, contents[:count])


# Structure: cause 16


@compact
def ill_values():
    """An ill value in each place of each component: short, long tag, long length, overrun."""
    ill = [b"\x02", b"\x30", b"\x00", b"\xff"]
    ill += [bytes([tag, 0]) for tag in (0x1F, 0x3F, 0x5F, 0x7F, 0x9F, 0xBF, 0xDF, 0xFF)]
    ill += [bytes([0x02, length]) for length in (1, 2, 127, 128, 129, 255)]
    ill += [b"\x30\x80\x00\x00", b"\x04\x81\x01\x00", b"\x04\x88" + b"\xff" * 8, b"\x30\x01\x02", b"\x30\x02\x02\x01"]
    for tag, contents in GOOD.items():
        for at in starts(contents):
            for octets in ill:
                yield component(tag, contents[:at] + octets)
    for octets in ill:
        yield invoke(ID, integer(42), value(0x30, integer(0) + octets))
        yield invoke(ID, integer(42), value(0x30, octets), FIVE)
        yield component(0xA2, ID + value(0x30, octets))
        yield component(0xA2, ID + value(0x30, integer(40) + octets))


def starts(contents):
    """The offsets where the values of a list begin, and its end."""
    at = 0
    while at < len(contents):
        yield at
        at += 2 + contents[at + 1]
    yield at


def behind():
    """Octets behind the component."""
    for tag, contents in GOOD.items():
        for more in (b"\x00", b"\x00\x00", NULL, b"\xff", b"\xa1", value(0xA1, GOOD_INVOKE)):
            body = value(tag, contents) + more
            yield spaced(bytes([0x1C, len(body) + 1, 0x91]) + body)
    yield spaced(bytes.fromhex("1C 04 91 A1 00 00"))
    yield spaced(bytes.fromhex("1C 05 91 A4 00 05 00"))
    # an ill value inside goes before octets behind, and these before a mistyped value
    yield spaced(bytes.fromhex("1C 0D 91 A1 09 02 01 01 02 01 2B 02 02 05 00"))
    yield spaced(bytes.fromhex("1C 0D 91 A1 09 04 01 01 02 01 2B 02 01 05 00"))
    yield spaced(bytes.fromhex("1C 07 91 A1 03 02 01 01 00"))


@compact
def levels():
    """Nesting: the parameter of an invoke and an error begins at level two, of a result at level three."""
    inner = {"nothing": b"", "null": NULL, "stray": b"\x05", "list": NULL + FIVE}
    for tag in (0x30, 0x31, 0xA0, 0x60, 0xE0, 0x20):
        for depth in range(1 if tag == 0x30 else 5, 10):
            for octets in inner.values():
                if tag != 0x30 and octets not in (b"", NULL):
                    continue
                nest = octets
                for _ in range(depth):
                    nest = value(tag, nest)
                yield invoke(ID, DROP, nest)
                if tag == 0x30:
                    yield component(0xA2, ID + value(0x30, DROP + nest))
                    yield component(0xA3, ID + integer(29) + nest)
                    yield component(0xA4, NULL + nest)
    # a ninth level behind values of all eight, and two nests side by side
    nest = NULL
    for _ in range(7):
        nest = value(0x30, NULL + nest)
    yield invoke(ID, DROP, nest)
    seven = b""
    for _ in range(7):
        seven = value(0x30, seven)
    yield invoke(ID, DROP, value(0x30, seven + seven))
    yield invoke(ID, DROP, value(0x30, seven[2:] + seven[2:]))
    yield invoke(seven + seven)
    yield invoke(seven + value(0x30, seven))


def order():
    """Two faults: cause 16 goes before 17, and the first in reading order before the next."""
    yield invoke(value(0x04, b"\x01"), DROP, b"\x02\x02\x05")
    yield invoke(value(0x04, b"\x01"), DROP, value(0x30, b"\x02"))
    yield invoke(value(0x30, b"\x02"), b"\x02\x05")
    yield invoke(value(0x30, b"\x02\x05"), b"\x1f\x00")
    yield invoke(value(0x30, NULL), b"\x1f\x00")
    yield invoke(value(0x30, value(0x30, b"\x3f")), b"\x1f\x00")
    yield invoke(value(0x30, NULL + value(0x30, NULL) + b"\x02"), b"\x02")
    yield invoke(value(0x30, b"\x02\x80"), b"\x30\x80")
    yield invoke(value(0x04, b"\x02\x80"), b"\x30\x80")
    yield invoke(value(0x04, b"\x01"), value(0x04, b"\x01"))
    yield invoke(ID, value(0x04, b"\x01"), FIVE, FIVE)
    yield invoke(ID, DROP, FIVE, FIVE)
    yield component(0xA2, value(0x04, b"\x01") + value(0x31, b""))
    yield component(0xA2, ID + value(0x31, b"") + FIVE)
    yield component(0xA4, value(0x04, b"\x01") + value(0x84, b""))
    yield component(0xA4, NULL + value(0x84, b"") + FIVE)


@compact
def any_values():
    """Parameters of every kind of tag: primitive contents are left alone, constructed are opened."""
    for tag in (0x00, 0x01, 0x02, 0x03, 0x04, 0x05, 0x06, 0x0A, 0x10, 0x1E, 0x40, 0x5E, 0x80, 0x9E, 0xC0, 0xDE):
        for contents in (b"", b"\x05", b"\xff\xff\xff", b"\x30\x80\x00\x00"):
            yield invoke(ID, DROP, value(tag, contents))
            yield invoke(ID, DROP, value(tag | 0x20, contents))
    for tag in (0x00, 0x20, 0xC0, 0xE0, 0x02, 0x30):
        for contents in (b"", NULL):
            yield component(0xA2, ID + value(0x30, DROP + value(tag, contents)))
            yield component(0xA3, ID + integer(29) + value(tag, contents))
    yield invoke(b"\x00\x00", DROP)
    yield invoke(ID, b"\x00\x00")
    yield invoke(b"\x00\x00")


# Types: cause 17

NOT_IDS = [
    b"\x02\x00",
    b"\x02\x02\x00\x00",
    b"\x02\x02\x00\x01",
    b"\x02\x02\x00\x7f",
    b"\x02\x02\xff\x80",
    b"\x02\x02\xff\xff",
    b"\x02\x03\x00\x80\x00",
    b"\x02\x03\x01\x00\x00",
    b"\x02\x04\x00\x00\x00\x01",
    b"\x01\x01\x01",
    b"\x03\x01\x01",
    b"\x04\x01\x01",
    b"\x05\x00",
    b"\x05\x01\x00",
    b"\x0a\x01\x01",
    b"\x22\x00",
    b"\x22\x03\x02\x01\x01",
    b"\x25\x00",
    b"\x30\x00",
    b"\x30\x03\x02\x01\x01",
    b"\x42\x01\x01",
    b"\x80\x01\x01",
    b"\x82\x01\x01",
    b"\xc2\x01\x01",
]


def numbers():
    """Each boundary of an INTEGER in each place that has one."""
    for number in IDS:
        n = integer(number)
        yield invoke(n, DROP, FIVE)
        yield invoke(n, integer(46))
        yield invoke(n, DROP)
        yield invoke(ID, n)
        yield invoke(ID, n, FIVE)
        yield component(0xA2, n)
        yield component(0xA2, n + value(0x30, integer(40) + NULL))
        yield component(0xA2, ID + value(0x30, n + NULL))
        yield component(0xA3, n + integer(31))
        yield component(0xA3, ID + n)
        yield component(0xA3, n + n + n)
        yield component(0xA4, n + value(0x81, b"\x02"))


@compact
def mistyped():
    """Something else in each place that has an INTEGER."""
    for octets in NOT_IDS:
        yield invoke(octets, DROP, FIVE)
        yield invoke(ID, octets, FIVE)
        yield invoke(octets)
        yield component(0xA2, octets)
        yield component(0xA2, octets + value(0x30, DROP + NULL))
        yield component(0xA2, ID + value(0x30, octets + NULL))
        yield component(0xA2, ID + octets)
        yield component(0xA3, octets + integer(29))
        yield component(0xA3, ID + octets)
        yield component(0xA4, octets + value(0x80, b"\x00"))


def missing_and_surplus():
    for tag in COMPONENTS:
        yield component(tag, b"")
        for count in range(1, 6):
            yield component(tag, ID * count)
            yield component(tag, NULL * count)
    inside = (b"", DROP, NULL, DROP + NULL, NULL + DROP, DROP + DROP, DROP + NULL + NULL, value(0x30, DROP + NULL), DROP + value(0x30, b""))
    for octets in inside:
        for tag in (0x30, 0x31, 0x20, 0xA0, 0xB0):
            yield component(0xA2, ID + value(tag, octets))
        yield component(0xA2, ID + value(0x30, octets) + NULL)
        yield component(0xA2, value(0x30, octets))
    yield component(0xA2, ID + value(0x10, b""))
    yield component(0xA2, ID + value(0x10, DROP + NULL))
    yield component(0xA2, value(0x30, DROP + NULL) + ID)
    yield component(0xA2, ID + DROP + NULL)
    yield component(0xA3, integer(29) + NULL)
    yield component(0xA3, ID + integer(29) + NULL + NULL)
    yield component(0xA3, ID + value(0x30, integer(29)))


def rejects():
    for tag in (0x80, 0x81, 0x82, 0x83):
        for id in (NULL, ID, integer(-129)):
            for problem in (0, 1, 2, 3, 7, 10, 127, 128, 254, 255):
                yield component(0xA4, id + value(tag, bytes([problem])))
            yield component(0xA4, id + value(tag, b""))
            yield component(0xA4, id + value(tag, b"\x00\x00"))
            yield component(0xA4, id + value(tag, b"\x00") + NULL)
            yield component(0xA4, id + value(tag, b"\x00") * 2)
        yield component(0xA4, value(tag, b"\x00"))
        yield component(0xA4, value(tag, b"\x00") + ID)
        yield component(0xA4, value(tag, b"\x00") + NULL)
    for tag in (0x00, 0x01, 0x02, 0x7E, 0x84, 0x9E, 0xA0, 0xA1, 0xA2, 0xA3, 0xC0, 0xC1):
        for contents in (b"", b"\x00", b"\x02\x01\x00"):
            yield component(0xA4, NULL + value(tag, contents))
    yield component(0xA4, NULL)
    yield component(0xA4, ID)
    yield component(0xA4, NULL + NULL)
    yield component(0xA4, NULL + ID + value(0x80, b"\x00"))
    yield component(0xA4, ID + NULL + value(0x80, b"\x00"))


# Requests: causes 18 and 19

ARGUMENTS = [
    b"",
    b"\x02\x01\x00",
    b"\x02\x01\x01",
    b"\x02\x01\x7e",
    b"\x02\x01\x7f",
    b"\x02\x01\x80",
    b"\x02\x01\xff",
    b"\x02\x00",
    b"\x02\x02\x00\x05",
    b"\x02\x02\x00\x7f",
    b"\x02\x02\x00\x80",
    b"\x02\x02\x01\x05",
    b"\x02\x03\x00\x00\x05",
    b"\x05\x00",
    b"\x01\x01\x05",
    b"\x04\x01\x05",
    b"\x0a\x01\x05",
    b"\x22\x03\x02\x01\x05",
    b"\x80\x01\x05",
    b"\x82\x01\x05",
    b"\x30\x00",
    b"\x30\x03\x02\x01\x05",
    b"\x30\x06\x02\x01\x00\x02\x01\x05",
    b"\xa0\x03\x02\x01\x05",
]


def requests():
    for operation in range(39, 48):
        for argument in ARGUMENTS:
            yield invoke(ID, integer(operation), argument)
    for operation in (-32768, -216, -129, -128, -43, -40, -1, 0, 1, 38, 127, 128, 168, 171, 256, 296, 299, 301, 32767):
        yield invoke(ID, integer(operation), FIVE)
    for id in IDS:
        yield invoke(integer(id), integer(46), FIVE)
        yield invoke(integer(id), integer(300), FIVE)
        yield invoke(integer(id), integer(41))
        yield invoke(integer(id), integer(45), NULL)
        yield invoke(integer(id), integer(40), NULL)
        yield invoke(integer(id), integer(42), value(0x30, b""))


def splits():
    ends = [b"\x02\x01\x00", b"\x02\x01\x05", b"\x02\x01\x7f", b"\x02\x01\x80", b"\x02\x01\xff", b"\x02\x02\x00\x80", b"\x02\x02\x00\x05", b"\x02\x00", b"\x05\x00", b"\x04\x01\x05", b"\x30\x00", b"\x80\x01\x05"]
    split = integer(42)
    for conference in ends:
        for party in ends:
            yield invoke(ID, split, value(0x30, conference + party))
        yield invoke(ID, split, value(0x30, conference))
        yield invoke(ID, split, conference)
        yield invoke(ID, split, conference, conference)
        yield invoke(ID, split, value(0x30, conference + FIVE + FIVE))
    both = integer(0) + FIVE
    for tag in (0x10, 0x20, 0x30, 0x31, 0x70, 0xA0, 0xB0, 0xF0):
        yield invoke(ID, split, value(tag, both))
    yield invoke(ID, split, value(0x30, value(0x30, both)))
    yield invoke(ID, split, value(0x30, both), NULL)


# Lines


def ways():
    """The same octets written in all ways, and lines that are not octets."""
    drop = element(value(0xA1, GOOD_INVOKE))
    line = spaced(drop)
    yield line
    yield line.lower()
    yield packed(drop)
    yield packed(drop).lower()
    yield line.replace(b"A", b"a")
    yield line.replace(b"1C", b"1c").replace(b"2B", b"2b")
    yield line.replace(b" ", b"\t")
    yield line.replace(b" ", b"\r")
    yield line.replace(b" ", b" \t\r ")
    yield b"  " + line + b"  "
    yield b"\t" + line + b"\t"
    yield b"\r" + line
    yield line + b"\r"
    yield packed(drop) + b"\r"
    yield line.lower() + b" \r"
    yield line[:20] + packed(drop[7:])
    yield packed(drop[:7]) + line[20:]
    for blank in (b"", b" ", b"\t", b"\r", b" \t\r\t ", b" " * 1000, b"\r\r"):
        yield blank
    # pairs broken or halved
    for broken in (b"1", b"1C 0", b"1 C", b"1\tC", b"1\rC", b"1C0", b"1C 0C 9 1A1", b"1C 0C 91 A1 09 02 01 01 02 01 2B 02 01 5", b"C" + line, b" 1", b"1 ", b"1\r", b"1 C 0 C 9 1", b"01C 0C 91"):
        yield broken
    yield packed(drop)[:-1]
    yield packed(drop)[1:]
    yield b"1" + b" " * 300 + b"C"
    # a fault far behind
    yield packed(bytes(200)) + b"0"
    yield packed(bytes(200)) + b"G0"
    yield packed(bytes(1500)) + b" 0"
    # other bytes in front, behind and between
    for other in (b"0x1C 08", b"1C,08", b"1C-08", b"1C:08:91", b"1C;08", b"# 1C", b"1C # 08", b"-1C", b"+1C", b"1C 0O", b"1C 0l", b"1C \xff\xfe 91", b"\xef\xbb\xbf" + line, b"1C\xc2\xa0\x30\x38", b"\xef\xbc\x91\xef\xbc\xa3", b"\xc3\xa9", b"\xc3(", b"\xe2\x82", b"\xf0\x9f\x98\x80", b"\x80", b"\x00", b"1C\x00", b"1C 08\x1a", b"1C\v08", b"1C\f08", b"1C\x85\x30\x38", b"\\x1C", b"1C 0\xb2", b"1_C", b"drop party 5", b"G", b"g0", b"0G", b"@0", b"`0", b"/0", b":0", b"\x1b[0m1C"):
        yield other
    # every byte but the line feed, between two pairs, behind a digit, and alone
    for byte in range(256):
        if byte != 0x0A:
            yield line[:20] + bytes([byte]) + line[20:]
    for byte in range(256):
        if byte != 0x0A:
            yield b"1C 01 9" + bytes([byte])
    for byte in range(256):
        if byte != 0x0A:
            yield bytes([byte])


# The trace to learn from


def trace():
    return pathlib.Path(__file__, "../../samples/trace.txt").resolve().read_bytes().splitlines()


GROUPS = (
    counts,
    longest,
    first_octets,
    cut,
    ill_values,
    behind,
    levels,
    order,
    any_values,
    numbers,
    mistyped,
    missing_and_surplus,
    rejects,
    requests,
    splits,
    ways,
    sweep_others,
    sweep_drop,
    trace,
)


def main():
    lines = [line for group in GROUPS for line in group()]
    if sys.argv[1:] == ["--count"]:
        for group in GROUPS:
            print("%6d %s" % (len(list(group())), group.__name__))
        return
    # carriage returns and line feeds as DOS writes them, then a last line without its line feed
    end = b"\r\n".join(lines[:20]) + b"\r\n" + element(value(0xA1, GOOD_INVOKE)).hex(" ").encode()
    sys.stdout.buffer.write(b"".join(line + b"\n" for line in lines) + end)


if __name__ == "__main__":
    main()
