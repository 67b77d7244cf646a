#!/usr/bin/env python3
"""Reads lines of octets on standard input and prints what `decode` prints.

The values are split by pyasn1's BER decoder; the rules of docs/FACILITY.md
that go beyond BER, or that pyasn1 takes otherwise, are checked around it:

- pyasn1 reads indefinite lengths: switched off here, as its own DER codec does.
- pyasn1 reads lengths of more than one octet, and long tags: refused here.
- pyasn1's Any refuses the tag 00 (end of contents): read here.
- pyasn1 lets an OverflowError through on lengths of eight octets: caught here.
- pyasn1 leaves the contents of an Any alone: opened here, level by level.
- pyasn1 reads an INTEGER of any number of octets: counted here.

This is the yardstick of speed: see bench/decode.sh.
"""

import sys

from pyasn1.codec.ber import decoder
from pyasn1.error import PyAsn1Error
from pyasn1.type import tagmap, univ

INVOKE, RESULT, ERROR, REJECT = 0xA1, 0xA2, 0xA3, 0xA4
PROBLEM_KINDS = {0x80: "general", 0x81: "invoke", 0x82: "result", 0x83: "error"}
GENERAL_PROBLEMS = {15: 0, 16: 2, 17: 1}
INVOKE_PROBLEMS = {18: 1, 19: 2}
REQUESTS = {
    40: "begin size",
    41: "add conference",
    43: "drop party",
    44: "isolate party",
    45: "reattach party",
}
BEGIN, SPLIT = 40, 42


class ValueDecoder(decoder.SingleItemDecoder):
    supportIndefLength = False


class ListDecoder(decoder.StreamingDecoder):
    SINGLE_ITEM_DECODER = ValueDecoder


class AnyValue(univ.Any):
    """A value of any tag, 00 too."""

    @property
    def tagMap(self):
        return tagmap.TagMap({self.tagSet: self}, {}, self)


ANY_VALUE = AnyValue()


class Value:
    __slots__ = "tag", "place", "octets", "values"

    def __init__(self, place, octets):
        self.tag = octets[0]
        self.place = place
        self.octets = octets
        self.values = []

    def integer(self):
        """The number of an INTEGER of one or two octets, the fewest, or None."""
        if self.tag != 0x02 or len(self.octets) not in (3, 4):
            return None
        number = int.from_bytes(self.octets[2:], "big", signed=True)
        if len(self.octets) == 4 and -128 <= number <= 127:
            return None
        return number

    def small(self):
        """The number of an INTEGER of 0 to 127, or None."""
        if len(self.octets) == 3 and self.tag == 0x02 and self.octets[2] < 128:
            return self.octets[2]
        return None


class Fault(Exception):
    def __init__(self, cause, place):
        self.cause = cause
        self.place = place


def hex_pairs(octets):
    return octets.hex(" ").upper()


def read_values(octets, place, level):
    """The values of a list that begins at a place, each opened if constructed."""
    values = []
    if not octets:
        return values
    if level > 8:
        raise Fault(16, place)
    try:
        for item in ListDecoder(octets, asn1Spec=ANY_VALUE):
            if isinstance(item, PyAsn1Error):
                raise Fault(16, place)
            value = Value(place, item.asOctets())
            if value.tag & 0x1F == 0x1F or value.octets[1] > 127:
                raise Fault(16, place)
            if value.tag & 0x20:
                value.values = read_values(value.octets[2:], place + 2, level + 1)
            values.append(value)
            place += len(value.octets)
            if level == 1:
                break
    except (PyAsn1Error, OverflowError):
        raise Fault(16, place) from None
    return values


def read_component(octets):
    """The component of an element."""
    count = len(octets)
    if not 3 <= count <= 132:
        raise Fault(11, count)
    if octets[0] != 0x1C:
        raise Fault(12, 0)
    if octets[1] != count - 2:
        raise Fault(13, 1)
    if octets[2] != 0x91:
        raise Fault(14, 2)
    if count == 3 or octets[3] not in (INVOKE, RESULT, ERROR, REJECT):
        raise Fault(15, 3)
    component = read_values(octets[3:], 3, 1)[0]
    behind = 3 + len(component.octets)
    if behind < count:
        raise Fault(16, behind)
    return component


def integer_at(values, index, end):
    if index >= len(values):
        raise Fault(17, end)
    number = values[index].integer()
    if number is None:
        raise Fault(17, values[index].place)
    return number


def with_parameter(text, parameter):
    return f"{text} parameter {hex_pairs(parameter.octets)} at {parameter.place}"


def invoke(values, end):
    id = integer_at(values, 0, end)
    operation = integer_at(values, 1, end)
    if len(values) > 3:
        raise Fault(17, values[3].place)
    text = f"invoke {id} operation {operation}"
    if len(values) == 3:
        text = with_parameter(text, values[2])
    try:
        return text + "\n  " + request(operation, values, end)
    except Fault as fault:
        size = 1 if -128 <= id <= 127 else 2
        reject = bytes([0x02, size]) + id.to_bytes(size, "big", signed=True)
        reject += bytes([0x81, 0x01, INVOKE_PROBLEMS[fault.cause]])
        reply = bytes([0x62, 0x1C, len(reject) + 3, 0x91, REJECT, len(reject)]) + reject
        return f"{text}\n  fault {fault.cause} at {fault.place} argument reply {hex_pairs(reply)}"


def request(operation, values, end):
    if not 40 <= operation <= 45:
        raise Fault(18, values[1].place)
    if len(values) == 2:
        if operation == BEGIN:
            return "begin"
        raise Fault(19, end)
    argument = values[2]
    if operation == SPLIT:
        numbers = [value.small() for value in argument.values]
        if argument.tag != 0x30 or len(numbers) != 2 or None in numbers:
            raise Fault(19, argument.place)
        return f"split conference {numbers[0]} party {numbers[1]}"
    number = argument.small()
    if number is None:
        raise Fault(19, argument.place)
    return f"{REQUESTS[operation]} {number}"


def result(values, end):
    id = integer_at(values, 0, end)
    if len(values) == 1:
        return f"result {id}"
    sequence = values[1]
    if sequence.tag != 0x30 or len(sequence.values) != 2:
        raise Fault(17, sequence.place)
    operation = sequence.values[0].integer()
    if operation is None:
        raise Fault(17, sequence.place)
    if len(values) > 2:
        raise Fault(17, values[2].place)
    return with_parameter(f"result {id} operation {operation}", sequence.values[1])


def error(values, end):
    id = integer_at(values, 0, end)
    code = integer_at(values, 1, end)
    if len(values) > 3:
        raise Fault(17, values[3].place)
    text = f"error {id} error {code}"
    return with_parameter(text, values[2]) if len(values) == 3 else text


def reject(values, end):
    if values and values[0].octets == b"\x05\x00":
        id = "none"
    else:
        id = integer_at(values, 0, end)
    if len(values) == 1:
        raise Fault(17, end)
    problem = values[1]
    if problem.tag not in PROBLEM_KINDS or len(problem.octets) != 3:
        raise Fault(17, problem.place)
    if len(values) > 2:
        raise Fault(17, values[2].place)
    return f"reject {id} {PROBLEM_KINDS[problem.tag]} problem {problem.octets[2]}"


READERS = {INVOKE: invoke, RESULT: result, ERROR: error, REJECT: reject}


def account(octets):
    try:
        component = read_component(octets)
        return READERS[component.tag](component.values, len(octets))
    except Fault as fault:
        if fault.cause < 15:
            return f"fault {fault.cause} at {fault.place} element"
        reply = bytes.fromhex("621C0891A40505008001") + bytes([GENERAL_PROBLEMS[fault.cause]])
        return f"fault {fault.cause} at {fault.place} component reply {hex_pairs(reply)}"


def octets_of(line):
    """The octets of a line, or None; bytes.fromhex passes over \\v and \\f too."""
    try:
        text = line.decode("ascii")
        return None if "\v" in text or "\f" in text else bytes.fromhex(text)
    except ValueError:
        return None


def main():
    for line in sys.stdin.buffer:
        octets = octets_of(line)
        if octets is None:
            print("not octets")
        elif octets:
            print(account(octets))


if __name__ == "__main__":
    main()
