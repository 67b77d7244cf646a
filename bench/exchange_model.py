#!/usr/bin/env python3
"""Reads a script on standard input and prints what `exchange` prints.

Written straight from the rules of docs/CONTROLLER.md and docs/LINE.md, with
bench/rules.py to read the elements, so that expected outputs do not come from
the program.
"""

import re
import sys

import rules
from rules import ADD, BEGIN, DROP, ISOLATE, SPLIT

ABSENT, CALLING, IDLE, HELD, CLEARING = "absent", "calling", "idle", "held", "clearing"

# Notices, and what those about another party add to a heard sum
ESTABLISHED, DISCONNECTED, OTHER_ADDED = 0xC2, 0xC3, 0xC4
ISOLATED, REATTACHED, OTHER_ISOLATED, OTHER_REATTACHED = 0xC5, 0xC6, 0xC7, 0xC8
OTHER_SPLIT, OTHER_DISCONNECTED = 0xC9, 0xCA
HEARD = {OTHER_ADDED: 1, OTHER_SPLIT: -1, OTHER_DISCONNECTED: -1}

# Errors of an operation
NOT_SUBSCRIBED, NOT_AVAILABLE, INVALID_CALL_STATE, RESOURCE_UNAVAILABLE = 0, 3, 7, 11
ILL_CONFERENCE, ILL_PARTY, PARTIES_EXCEEDED, NOT_ACTIVE, NOT_ALLOWED = 28, 29, 30, 31, 32

# Invoke problems of a reject
UNRECOGNIZED_OPERATION, RESOURCE_LIMITATION = 1, 3

# Beginnings of messages
CAUSE = [0x08, 0x02, 0x82, 0x9F]
FACILITY = [0x62]
CONNECT = [0x07]
DISCONNECT = [0x45] + CAUSE
RELEASE_COMPLETE = [0x5A] + CAUSE
PARTY_DISC = 46


class Refusal(Exception):
    """A numbered refusal: 1, 2 of a level, 3 out of range, 4 a wrong state, 5 a leg up or down, 6 no room."""

    def __init__(self, number):
        super().__init__(number)
        self.number = number


class Denied(Exception):
    """A request that is answered with an error or a reject."""

    def __init__(self, tag, octets):
        super().__init__(tag, octets)
        self.tag = tag
        self.octets = octets


def error(number):
    return Denied(rules.ERROR, integer(number))


def reject(problem):
    return Denied(rules.REJECT, value(0x81, [problem]))


# Octets


def value(tag, contents):
    return [tag, len(contents)] + contents


def integer(number):
    """An INTEGER in the fewest octets."""
    size = 1 if -128 <= number <= 127 else 2
    return value(rules.INTEGER, list(number.to_bytes(size, "big", signed=True)))


def element(tag, contents):
    component = value(tag, contents)
    return [rules.FACILITY_ELEMENT, len(component) + 1, rules.REMOTE_OPERATIONS] + component


def result(id, operation, answered):
    """A return result; what is not answered is left out."""
    return element(rules.RESULT, integer(id) + (value(rules.SEQUENCE, integer(operation) + answered) if answered else []))


# The line to the remote users


class Outbox:
    """The messages that wait, and each leg's heard sum."""

    ROOM = 128

    def __init__(self):
        self.waiting = []
        self.heard = {}

    def room(self):
        return self.ROOM - len(self.waiting)

    def tell(self, leg, notice):
        assert self.room() > 0 and 1 <= leg <= 64
        self.waiting.append((leg, notice))
        before = 0 if notice == ESTABLISHED else self.heard.get(leg, 0)
        self.heard[leg] = max(-127, min(127, before + HEARD.get(notice, 0)))

    def collect(self):
        collected, self.waiting = self.waiting, []
        return collected


# Calls, conferences, parties


class Call:
    """A state; marked speech or not; the leg or the conference that it leads to. A link keeps its conference when clearing."""

    def __init__(self):
        self.become(ABSENT)

    def become(self, state, speech=False, leg=None, conference=None):
        self.state = state
        self.speech = speech
        self.leg = leg
        self.conference = conference

    def in_progress(self):
        return self.state in (IDLE, HELD)


class Party:
    def __init__(self, id, leg):
        self.id = id
        self.leg = leg
        self.isolated = False


class Conference:
    """Its parties stand in order of joining."""

    def __init__(self, id, size):
        self.id = id
        self.size = size
        self.open = True
        self.parties = []
        self.last_party = None

    def party(self, id):
        for party in self.parties:
            if party.id == id:
                return party
        return None

    def join(self, leg):
        self.last_party = next_id(self.last_party, [party.id for party in self.parties])
        party = Party(self.last_party, leg)
        self.parties.append(party)
        return party

    def others(self, party):
        return [other for other in self.parties if other is not party]


def next_id(last, in_use):
    """The next of the circle 0 to 127 after the last given, passing over those in use."""
    id = 0 if last is None else (last + 1) % 128
    while id in in_use:
        id = (id + 1) % 128
    return id


class Level:
    def __init__(self, size, conferences, subscribed, active):
        if not 1 <= size <= 30:
            raise Refusal(1)
        if not 1 <= conferences <= 8:
            raise Refusal(2)
        self.size = size
        self.conferences = conferences
        self.subscribed = subscribed
        self.active = active


class Request:
    """An invoke id, an operation and its numbers, read from an element; or a fault is raised."""

    def __init__(self, octets):
        rules.check_element(octets)
        rules.check_tag(octets)
        rules.check_structure(octets)
        component = rules.read_component(octets)
        rules.read_request(component)
        self.id = component.id
        self.operation = component.code
        argument = component.parameter
        if argument is None:
            self.numbers = [None]
        elif self.operation == SPLIT:
            self.numbers = [rules.small_number(number) for number in argument.list()]
        else:
            self.numbers = [rules.small_number(argument)]


class Exchange:
    """Reports answer the legs gone and a PartyDISC with its link, or None; requests the legs gone and a message."""

    def __init__(self, level):
        self.level = level
        self.calls = {reference: Call() for reference in range(1, 128)}
        self.conferences = []
        self.last_conference = None
        self.last_disc = None
        self.line = Outbox()

    # Looking up

    def call(self, reference):
        if not 1 <= reference <= 127:
            raise Refusal(3)
        return self.calls[reference]

    def call_to(self, leg):
        """The call that leads to a leg, or None."""
        for call in self.calls.values():
            if call.leg == leg:
                return call
        return None

    def seat_of(self, leg):
        """The conference and the party that a leg is, or None."""
        for conference in self.conferences:
            for party in conference.parties:
                if party.leg == leg:
                    return conference, party
        return None

    def link_of(self, conference):
        for reference, call in self.calls.items():
            if call.conference is conference:
                return reference

    def open_conference(self, id):
        for conference in self.conferences:
            if conference.id == id and conference.open:
                return conference
        raise error(ILL_CONFERENCE)

    def linked(self, call, id):
        """The open conference that a call links, and a party of it."""
        if not call.in_progress() or call.conference is None:
            raise error(NOT_ACTIVE)
        return call.conference, self.party(call.conference, id)

    def party(self, conference, id):
        party = conference.party(id)
        if party is None:
            raise error(ILL_PARTY)
        return party

    # Reports

    def calling(self, reference):
        call = self.call(reference)
        if call.state != ABSENT:
            raise Refusal(4)
        call.become(CALLING)
        return 0, None

    def answer(self, reference, leg, speech):
        call = self.call(reference)
        if not 1 <= leg <= 64:
            raise Refusal(3)
        if call.state != CALLING:
            raise Refusal(4)
        if self.call_to(leg) or self.seat_of(leg):
            raise Refusal(5)
        call.become(IDLE, speech, leg=leg)
        return 0, None

    def hold(self, reference):
        call = self.call(reference)
        if call.state != IDLE:
            raise Refusal(4)
        call.state = HELD
        return 0, None

    def retrieve(self, reference):
        call = self.call(reference)
        if call.state != HELD:
            raise Refusal(4)
        call.state = IDLE
        return 0, None

    def clearing(self, leg):
        if not 1 <= leg <= 64:
            raise Refusal(3)
        call, seat = self.call_to(leg), self.seat_of(leg)
        if call:
            call.become(CLEARING)
            return 1, None
        if seat is None:
            raise Refusal(5)
        conference, party = seat
        if len(conference.others(party)) > self.line.room():
            raise Refusal(6)
        self.leave(conference, party, OTHER_DISCONNECTED)
        if not conference.open:
            return 1, None
        self.last_disc = next_id(self.last_disc, [])
        invoke = integer(self.last_disc) + integer(PARTY_DISC) + integer(party.id)
        return 1, (self.link_of(conference), FACILITY + element(rules.INVOKE, invoke))

    def disconnect(self, reference):
        call = self.call(reference)
        if call.state not in (CALLING, IDLE, HELD):
            raise Refusal(4)
        gone = 0 if call.leg is None else 1
        if call.conference:
            call.conference.open = False
        call.become(CLEARING, conference=call.conference)
        return gone, None

    def released(self, reference):
        call = self.call(reference)
        if call.state != CLEARING:
            raise Refusal(4)
        gone = 0
        if call.conference:
            gone = len(call.conference.parties)
            self.conferences.remove(call.conference)
        call.become(ABSENT)
        return gone, None

    # Telling

    def needs(self, notices):
        if self.line.room() < notices:
            raise reject(RESOURCE_LIMITATION)

    def tell_others(self, conference, party, notice):
        for other in conference.others(party):
            self.line.tell(other.leg, notice)

    def leave(self, conference, party, notice):
        """A party leaves, and the others hear of it."""
        self.tell_others(conference, party, notice)
        conference.parties.remove(party)

    # Requests

    def turn_away(self, reference, octets):
        self.call(reference)
        request = Request(octets)
        denied = reject(RESOURCE_LIMITATION)
        return 0, FACILITY + element(denied.tag, integer(request.id) + denied.octets)

    def settle(self, reference, setup, speech, octets):
        call = self.call(reference)
        request = Request(octets)
        was_absent = call.state == ABSENT
        try:
            self.check_carrier(call, setup, request.operation)
            gone, answered = self.carry_out(call, setup, speech, request)
        except Denied as denied:
            head = RELEASE_COMPLETE if setup and was_absent else FACILITY
            return 0, head + element(denied.tag, integer(request.id) + denied.octets)
        head = CONNECT if setup else DISCONNECT if request.operation == ADD else FACILITY
        return gone, head + result(request.id, request.operation, answered)

    def check_carrier(self, call, setup, operation):
        if operation != BEGIN and setup != (operation == SPLIT):
            raise reject(UNRECOGNIZED_OPERATION)
        if setup and call.state != ABSENT:
            raise reject(RESOURCE_LIMITATION)

    def carry_out(self, call, setup, speech, request):
        """The legs gone and the octets of the result."""
        number = request.numbers[0]
        if request.operation == BEGIN and setup:
            return 0, self.begin_from_null(call, speech, number)
        if request.operation == BEGIN:
            return 0, self.begin_from_call(call, number)
        if request.operation == ADD:
            return 0, self.add(call, number)
        if request.operation == SPLIT:
            return 0, self.split(call, speech, *request.numbers)
        if request.operation == DROP:
            return 1, self.drop(call, number)
        if request.operation == ISOLATE:
            return 0, self.mark(call, number, True, ISOLATED, OTHER_ISOLATED)
        return 0, self.mark(call, number, False, REATTACHED, OTHER_REATTACHED)

    def size_asked(self, size):
        return self.level.size if size is None else size

    def may_begin(self, size, least):
        if not self.level.subscribed:
            raise error(NOT_SUBSCRIBED)
        if not least <= size <= self.level.size:
            raise error(PARTIES_EXCEEDED)
        if len(self.conferences) >= self.level.conferences:
            raise error(RESOURCE_UNAVAILABLE)

    def new_conference(self, size):
        self.last_conference = next_id(self.last_conference, [conference.id for conference in self.conferences])
        conference = Conference(self.last_conference, size)
        self.conferences.append(conference)
        return conference

    def begin_from_null(self, call, speech, size):
        size = self.size_asked(size)
        self.may_begin(size, 0)
        if not speech:
            raise error(NOT_AVAILABLE)
        conference = self.new_conference(size)
        call.become(IDLE, speech, conference=conference)
        return value(rules.SEQUENCE, integer(conference.id))

    def begin_from_call(self, call, size):
        size = self.size_asked(size)
        self.may_begin(size, 1)
        if not call.in_progress():
            raise error(INVALID_CALL_STATE)
        if not call.speech or not self.level.active or call.conference:
            raise error(NOT_AVAILABLE)
        self.needs(1)
        conference = self.new_conference(size)
        party = conference.join(call.leg)
        call.become(call.state, call.speech, conference=conference)
        self.line.tell(party.leg, ESTABLISHED)
        return value(rules.SEQUENCE, integer(conference.id) + integer(party.id))

    def add(self, call, id):
        conference = self.open_conference(id)
        if len(conference.parties) >= conference.size:
            raise error(PARTIES_EXCEEDED)
        if not call.in_progress():
            raise error(INVALID_CALL_STATE)
        if not call.speech or call.conference:
            raise error(NOT_ALLOWED)
        self.needs(1 + len(conference.parties))
        party = conference.join(call.leg)
        call.become(CLEARING)
        self.line.tell(party.leg, ESTABLISHED)
        self.tell_others(conference, party, OTHER_ADDED)
        return integer(party.id)

    def split(self, call, speech, conference_id, party_id):
        conference = self.open_conference(conference_id)
        party = self.party(conference, party_id)
        if not speech:
            raise reject(RESOURCE_LIMITATION)
        self.needs(len(conference.parties))
        self.line.tell(party.leg, DISCONNECTED)
        self.leave(conference, party, OTHER_SPLIT)
        call.become(IDLE, speech, leg=party.leg)
        return []

    def drop(self, call, id):
        conference, party = self.linked(call, id)
        self.needs(len(conference.others(party)))
        self.leave(conference, party, OTHER_DISCONNECTED)
        return []

    def mark(self, call, id, isolated, own, other):
        """Isolate and reattach; a party already so stays so, and nobody is told."""
        conference, party = self.linked(call, id)
        if party.isolated != isolated:
            self.needs(len(conference.parties))
            party.isolated = isolated
            self.line.tell(party.leg, own)
            self.tell_others(conference, party, other)
        return []

    # The account

    def listing(self):
        lines = []
        for conference in sorted(self.conferences, key=lambda conference: conference.id):
            lines.append("conference %d size %d %s" % (conference.id, conference.size, "open" if conference.open else "ending"))
            for party in conference.parties:
                state = "isolated" if party.isolated else "joined"
                lines.append("party %d leg %d %s heard %d" % (party.id, party.leg, state, self.line.heard.get(party.leg, 0)))
        return lines


# Lines of a script


class NotUnderstood(Exception):
    pass


def number(word):
    """A decimal number; above 255 it is out of every range, and 255 here."""
    if not word.isdigit():
        raise NotUnderstood
    digits = word.lstrip(b"0") or b"0"
    return 255 if len(digits) > 3 else min(255, int(digits))


def octets(words):
    pairs = rules.octets_of(b" ".join(words))
    if pairs is None:
        raise NotUnderstood
    return pairs


def choice(word, yes, no):
    if word not in (yes, no):
        raise NotUnderstood
    return word == yes


def understand(words):
    """The name of a line and all that belongs to it."""
    match words:
        case [b"level", size, conferences, subscribed, active]:
            begun = choice(subscribed, b"subscribed", b"unsubscribed"), choice(active, b"active", b"idle")
            return "level", number(size), number(conferences), *begun
        case [b"calling" | b"hold" | b"retrieve" | b"disconnect" | b"released" as name, reference]:
            return name.decode(), number(reference)
        case [b"answer", reference, leg, speech]:
            return "answer", number(reference), number(leg), choice(speech, b"speech", b"other")
        case [b"clearing", leg]:
            return "clearing", number(leg)
        case [b"away", b"facility", reference, *pairs]:
            return "turn_away", number(reference), octets(pairs)
        case [b"away", b"setup", reference, speech, *pairs]:
            choice(speech, b"speech", b"other")
            return "turn_away", number(reference), octets(pairs)
        case [b"facility", reference, *pairs]:
            return "settle", number(reference), False, False, octets(pairs)
        case [b"setup", reference, speech, *pairs]:
            return "settle", number(reference), True, choice(speech, b"speech", b"other"), octets(pairs)
        case [b"collect"]:
            return ("collect",)
    raise NotUnderstood


class Script:
    """The exchange begun last, or None, with the steps done on it and those refused."""

    def __init__(self):
        self.exchange = None

    def line(self, line):
        """The lines of text that a line of the script is answered with."""
        words = [word for word in re.split(b"[ \t\r]", line) if word]
        if not words:
            return []
        try:
            name, *rest = understand(words)
        except NotUnderstood:
            return ["not understood"]
        if name == "level":
            return self.begin(*rest)
        if self.exchange is None:
            return ["no level"]
        return self.step(name, rest)

    def begin(self, *rest):
        try:
            level = Level(*rest)
        except Refusal as refusal:
            return ["level refused %d" % refusal.number]
        account = self.account()
        self.exchange = Exchange(level)
        self.steps = self.refused = 0
        return account

    def step(self, name, rest):
        self.steps += 1
        if name == "collect":
            return self.collect()
        try:
            gone, told = getattr(self.exchange, name)(*rest)
        except Refusal as refusal:
            self.refused += 1
            return ["refused %d" % refusal.number]
        except rules.Fault as fault:
            return [fault.text()]
        if told is None:
            return ["gone %d" % gone]
        if name == "clearing":
            return ["gone %d to %d %s" % (gone, told[0], rules.pairs(told[1]))]
        return ["gone %d reply %s" % (gone, rules.pairs(told))]

    def collect(self):
        collected = self.exchange.line.collect()
        lines = ["notify %d %s" % (leg, rules.pairs([0x6E, 0x27, 0x01, notice])) for leg, notice in collected]
        return lines + ["collected %d" % len(collected)]

    def account(self):
        """The account of the exchange, if one was begun."""
        if self.exchange is None:
            return []
        return self.exchange.listing() + ["steps %d refused %d" % (self.steps, self.refused)]


def main():
    script = Script()
    out = []
    for line in sys.stdin.buffer.read().split(b"\n"):
        out += script.line(line)
    out += script.account()
    sys.stdout.write("".join(text + "\n" for text in out))


if __name__ == "__main__":
    main()
