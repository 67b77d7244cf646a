#!/usr/bin/env python3
"""Reads lines of octets on standard input and prints what `decode` prints.

Written straight from the rules of docs/FACILITY.md, with nothing but the
language itself, so that expected outputs do not come from the program.
"""

import sys

MOST_OCTETS = 132
MOST_LEVELS = 8
MOST_CONTENTS = 127

FACILITY_ELEMENT = 0x1C
REMOTE_OPERATIONS = 0x91
INVOKE, RESULT, ERROR, REJECT = 0xA1, 0xA2, 0xA3, 0xA4
INTEGER, NULL, SEQUENCE = 0x02, 0x05, 0x30
PROBLEMS = {0x80: "general", 0x81: "invoke", 0x82: "result", 0x83: "error"}
BEGIN, ADD, SPLIT, DROP, ISOLATE, REATTACH = 40, 41, 42, 43, 44, 45

HEX_DIGITS = b"0123456789ABCDEFabcdef"
WHITE_SPACE = b" \t\r"


class Fault(Exception):
    """A cause, the place of it, and the octets of the reply or none."""

    def __init__(self, cause, place, reply=()):
        super().__init__(cause, place)
        self.cause = cause
        self.place = place
        self.reply = reply

    def text(self):
        if self.cause <= 14:
            layer = "element"
        elif self.cause <= 17:
            layer = "component"
        else:
            layer = "argument"
        text = "fault %d at %d %s" % (self.cause, self.place, layer)
        if self.reply:
            text += " reply " + pairs(self.reply)
        return text


def pairs(octets):
    return " ".join("%02X" % octet for octet in octets)


# Octets of a line


def octets_of(line):
    """The octets that a line's pairs of hex digits say, or None."""
    octets = []
    at = 0
    while at < len(line):
        if line[at] in WHITE_SPACE:
            at += 1
        elif at + 1 < len(line) and line[at] in HEX_DIGITS and line[at + 1] in HEX_DIGITS:
            octets.append(int(line[at : at + 2], 16))
            at += 2
        else:
            return None
    return octets


# Element layer: causes 11 to 14


def check_element(octets):
    if len(octets) < 3 or len(octets) > MOST_OCTETS:
        raise Fault(11, len(octets))
    if octets[0] != FACILITY_ELEMENT:
        raise Fault(12, 0)
    if octets[1] != len(octets) - 2:
        raise Fault(13, 1)
    if octets[2] != REMOTE_OPERATIONS:
        raise Fault(14, 2)


# Component layer: causes 15 to 17


def component_fault(cause, place):
    problem = {15: 0, 16: 2, 17: 1}[cause]
    return Fault(cause, place, [0x62, 0x1C, 0x08, 0x91, 0xA4, 0x05, 0x05, 0x00, 0x80, 0x01, problem])


def check_tag(octets):
    if len(octets) == 3 or octets[3] not in (INVOKE, RESULT, ERROR, REJECT):
        raise component_fault(15, 3)


def check_structure(octets):
    end = check_value(octets, 3, len(octets), 1)
    if end < len(octets):
        raise component_fault(16, end)


def check_value(octets, at, limit, level):
    """Checks the value at a place, which must end by the limit; answers its end."""
    if limit - at < 2:
        raise component_fault(16, at)
    tag, length = octets[at], octets[at + 1]
    end = at + 2 + length
    if tag % 32 == 31 or length > MOST_CONTENTS or end > limit or level > MOST_LEVELS:
        raise component_fault(16, at)
    if tag & 0x20:
        inner = at + 2
        while inner < end:
            inner = check_value(octets, inner, end, level + 1)
    return end


class Value:
    """A value of a well structured element."""

    def __init__(self, octets, at):
        self.tag = octets[at]
        self.at = at
        self.end = at + 2 + octets[at + 1]
        self.contents = octets[at + 2 : self.end]
        self.octets = octets[at : self.end]
        self.element = octets

    def list(self):
        """The values directly in a constructed value."""
        values = []
        at = self.at + 2
        while at < self.end:
            values.append(Value(self.element, at))
            at = values[-1].end
        return values

    def number(self):
        """The number that an INTEGER of one or two octets says, or None."""
        if self.tag != INTEGER:
            return None
        if len(self.contents) == 1:
            (low,) = self.contents
            return low if low < 128 else low - 256
        if len(self.contents) == 2:
            high, low = self.contents
            number = high * 256 + low
            if number >= 32768:
                number -= 65536
            return None if -128 <= number <= 127 else number
        return None


class Component:
    """tag; id (None: NULL); code (operation, error or problem; None: none);
    code_at; kind of a problem; parameter (None: none); end."""

    def __init__(self, tag, end):
        self.tag = tag
        self.end = end
        self.id = None
        self.code = None
        self.code_at = None
        self.kind = None
        self.parameter = None

    def text(self):
        id = "none" if self.id is None else str(self.id)
        if self.tag == INVOKE:
            text = "invoke %s operation %d" % (id, self.code)
        elif self.tag == RESULT:
            text = "result %s" % id
            if self.code is not None:
                text += " operation %d" % self.code
        elif self.tag == ERROR:
            text = "error %s error %d" % (id, self.code)
        else:
            text = "reject %s %s problem %d" % (id, self.kind, self.code)
        if self.parameter is not None:
            text += " parameter %s at %d" % (pairs(self.parameter.octets), self.parameter.at)
        return text


def read_component(octets):
    """Reads an element that is well up to and with cause 16."""
    whole = Value(octets, 3)
    values = whole.list()
    component = Component(whole.tag, whole.end)

    def take():
        if not values:
            raise component_fault(17, whole.end)
        return values.pop(0)

    def take_number():
        value = take()
        number = value.number()
        if number is None:
            raise component_fault(17, value.at)
        return number, value.at

    if whole.tag == REJECT and values and values[0].tag == NULL and values[0].contents == []:
        take()
    else:
        component.id, _ = take_number()

    if whole.tag in (INVOKE, ERROR):
        component.code, component.code_at = take_number()
        if values:
            component.parameter = take()
    elif whole.tag == RESULT:
        if values:
            sequence = take()
            inner = sequence.list() if sequence.tag == SEQUENCE else []
            if len(inner) != 2 or inner[0].number() is None:
                raise component_fault(17, sequence.at)
            component.code, component.code_at = inner[0].number(), inner[0].at
            component.parameter = inner[1]
    else:
        problem = take()
        if problem.tag not in PROBLEMS or len(problem.contents) != 1:
            raise component_fault(17, problem.at)
        component.kind = PROBLEMS[problem.tag]
        component.code, component.code_at = problem.contents[0], problem.at

    if values:
        raise component_fault(17, values[0].at)
    return component


# Argument layer: causes 18 and 19


def argument_fault(cause, place, id):
    problem = {18: 1, 19: 2}[cause]
    id_octets = [id % 256] if -128 <= id <= 127 else [id % 65536 // 256, id % 256]
    component = [INTEGER, len(id_octets)] + id_octets + [0x81, 0x01, problem]
    body = [0x91, REJECT, len(component)] + component
    return Fault(cause, place, [0x62, 0x1C, len(body)] + body)


def small_number(value):
    """The number of a value 02 01 00 to 02 01 7F, or None."""
    if value.tag == INTEGER and len(value.contents) == 1 and value.contents[0] <= 127:
        return value.contents[0]
    return None


def read_request(component):
    """The text of an invoke's request."""
    if component.tag != INVOKE:
        raise Fault(18, 3)
    if not BEGIN <= component.code <= REATTACH:
        raise argument_fault(18, component.code_at, component.id)
    argument = component.parameter
    if argument is None:
        if component.code == BEGIN:
            return "begin"
        raise argument_fault(19, component.end, component.id)
    wrong = argument_fault(19, argument.at, component.id)
    if component.code == SPLIT:
        inner = argument.list() if argument.tag == SEQUENCE else []
        if len(inner) != 2 or None in (small_number(inner[0]), small_number(inner[1])):
            raise wrong
        return "split conference %d party %d" % (small_number(inner[0]), small_number(inner[1]))
    number = small_number(argument)
    if number is None:
        raise wrong
    words = {
        BEGIN: "begin size",
        ADD: "add conference",
        DROP: "drop party",
        ISOLATE: "isolate party",
        REATTACH: "reattach party",
    }
    return "%s %d" % (words[component.code], number)


# The account of a line


def account(line):
    """The lines of text that a line of input is answered with."""
    octets = octets_of(line)
    if octets is None:
        return ["not octets"]
    if not octets:
        return []
    try:
        check_element(octets)
        check_tag(octets)
        check_structure(octets)
        component = read_component(octets)
    except Fault as fault:
        return [fault.text()]
    answer = [component.text()]
    if component.tag == INVOKE:
        try:
            answer.append("  " + read_request(component))
        except Fault as fault:
            answer.append("  " + fault.text())
    return answer


def main():
    out = []
    for line in sys.stdin.buffer.read().split(b"\n"):
        out += account(line)
    sys.stdout.write("".join(text + "\n" for text in out))


if __name__ == "__main__":
    main()
