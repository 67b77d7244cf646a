#!/usr/bin/env python3
"""scripts.py SEED STEPS: writes a random script of STEPS steps for `exchange`, the same for the same seed.

The steps come in moods, each with its own taste for certain steps and its own
share of random ones. The others are sensible by a model that follows the
script, so that conferences live long, fill, turn their circles of ids round
and run out of room on the line. Lines that are no step come on top.
"""

import random
import sys

import lines
from exchange_model import ABSENT, CALLING, CLEARING, IDLE, HELD, Script
from rules import ADD, BEGIN, DROP, ISOLATE, REATTACH, SPLIT

# How often each kind of sensible step is taken, by mood
MOODS = (
    dict(calling=4, answer=4, hold=1, retrieve=1, begin_null=2, begin_call=2, add=5, split=1, drop=1, isolate=2, reattach=2, clear_party=1, clear_call=1, hang_up=1, end=1, released=4),
    # legs come, and few go
    dict(calling=6, answer=6, begin_null=1, begin_call=1, add=6, hold=1, retrieve=1, released=4),
    # parties come and go in conferences that stay: PartyIds and PartyDISCs go round
    dict(calling=6, answer=6, begin_null=1, add=6, drop=2, clear_party=3, split=1, isolate=1, released=6),
    dict(calling=6, answer=6, begin_null=1, add=6, clear_party=5, released=6),
    dict(calling=1, answer=1, begin_null=1, add=6, split=5, released=6),
    # conferences come and go: ConferenceIds go round
    dict(calling=1, answer=1, begin_null=5, begin_call=1, add=1, end=5, released=8),
    dict(calling=5, answer=5, begin_call=5, end=4, clear_party=2, released=8),
    # much is told
    dict(calling=2, answer=2, begin_null=1, begin_call=1, add=2, isolate=8, reattach=8, drop=1, clear_party=1, released=2),
)

CALL_STEPS = (b"calling", b"hold", b"retrieve", b"disconnect", b"released")
# Lines that are none of a script, but blank ones
NEVER = (
    b"collects", b"Calling 1", b"calling", b"calling 1 2", b"calling -1", b"calling +1", b"calling 1.", b"calling 0x1", b"answer 1 2",
    b"answer 1 2 yes", b"answer 1 2 speech now", b"clearing", b"clearing 1 1", b"facility", b"facility 1 1", b"facility 1 1 C",
    b"facility 1 0x1C", b"facility x 1C", b"setup 1", b"setup 1 1C", b"setup 1 Speech 1C", b"setup speech 1 1C", b"setup 300 speech 1C0",
    b"away", b"away 1", b"away calling 1", b"away away facility 1 1C", b"away setup 1 1C", b"collect 1", b"collect\x0b", b"level",
    b"level 1 1", b"level 1 1 subscribed", b"level 1 1 active subscribed", b"level 1 1 subscribed active idle",
    b"level -1 1 subscribed idle", b"level 10 4 Subscribed active", b"# calling 1", b"\xff\xfe", b"calling\xc2\xa01", b"calling 1\x00",
)


class Writer:
    def __init__(self, seed, steps):
        self.r = random.Random(seed)
        self.model = Script()
        self.left = steps
        self.one_level = self.r.random() < 0.5
        self.change_tastes()

    def change_tastes(self):
        """Which moods come, and how surely those that came last go first."""
        self.moods = self.r.sample(MOODS, self.r.choice((1, 2, 3, len(MOODS))))
        self.lateness = self.r.choice((0, 0.99, 1))

    # Text

    def word(self, number):
        zeros = self.r.choice((1, 2, 30)) if self.r.random() < 0.02 else 0
        return b"0" * zeros + b"%d" % number

    def text(self, *words):
        """A line of words; numbers among them become decimal words."""
        words = [self.word(word) if isinstance(word, int) else word for word in words]
        if self.r.random() < 0.95:
            return b" ".join(words)
        gap = lambda least: b"".join(self.r.choice((b" ", b"\t", b"\r")) for _ in range(self.r.randrange(least, 4)))
        return gap(0) + b"".join(word + gap(1) for word in words)

    def speech(self, share):
        return b"speech" if self.r.random() < share else b"other"

    # Elements

    def request(self, operation, *numbers):
        """A request's octets as text."""
        octets = [lines.integer(number) for number in numbers]
        argument = lines.value(0x30, b"".join(octets)) if operation == SPLIT else b"".join(octets)
        invoke = lines.integer(lines.some_number(self.r)) + lines.integer(operation) + argument
        return lines.written(self.r, lines.element(lines.value(0xA1, invoke)))

    def any_octets(self):
        """Octets as text: any request, any component, or something damaged."""
        r = self.r
        kind = r.random()
        octets = lines.element(lines.request(r) if kind < 0.5 else lines.component(r))
        if 0.6 < kind < 0.85:
            octets = lines.damaged(r, octets)
        if 0.85 < kind < 0.95:
            octets = lines.scrambled(r)
        if 0.95 < kind:
            octets = lines.some_octets(r, r.choice((2, 5, 130, 140, 1000)))
        return lines.written(r, octets)

    # What there is, by the model

    def references(self, *states):
        return [reference for reference, call in self.exchange().calls.items() if call.state in states]

    def leading(self, to_leg):
        """References of calls in progress that lead to a leg, or else to a conference."""
        return [reference for reference in self.references(IDLE, HELD) if (self.exchange().calls[reference].leg is not None) == to_leg]

    def exchange(self):
        return self.model.exchange

    def open_conferences(self):
        return [conference for conference in self.exchange().conferences if conference.open]

    def conference_to_join(self):
        """An open conference, mostly the oldest that has a seat, and seldom a full one."""
        conferences = self.open_conferences()
        seats = [conference for conference in conferences if len(conference.parties) < conference.size]
        if self.r.random() < 0.1:
            return self.pick(conferences)
        return seats[0] if seats and self.r.random() < 0.7 else self.pick(seats)

    def caller(self):
        """The reference of a call that leads to a leg, seldom of one that is not speech."""
        references = self.leading(to_leg=True)
        if self.r.random() < 0.1:
            return self.pick(references)
        return self.pick([reference for reference in references if self.exchange().calls[reference].speech])

    def may_begin(self, level):
        """Whether to try to begin a conference: seldom where the level does not let it."""
        return self.r.random() < 0.1 or (level.subscribed and len(self.exchange().conferences) < level.conferences)

    def pick(self, items):
        return self.r.choice(items) if items else None

    def late(self, items):
        """The last and not the only one, as far as the tastes go: the others stay while ids go round."""
        if self.r.random() < self.lateness:
            return items[-1] if len(items) > 1 else None
        return self.pick(items)

    # Sensible steps: None if there is nothing to do of that kind

    def on_one(self, name, references):
        return self.text(name, self.r.choice(references)) if references else None

    def calling(self):
        return self.on_one(b"calling", self.references(ABSENT))

    def hold(self):
        return self.on_one(b"hold", self.references(IDLE))

    def retrieve(self):
        return self.on_one(b"retrieve", self.references(HELD))

    def hang_up(self):
        return self.on_one(b"disconnect", self.references(CALLING) + self.leading(to_leg=True))

    def end(self):
        conference = self.late(self.open_conferences())
        return self.text(b"disconnect", self.exchange().link_of(conference)) if conference else None

    def released(self):
        return self.on_one(b"released", self.references(CLEARING))

    def answer(self):
        exchange = self.exchange()
        reference = self.pick(self.references(CALLING))
        down = [leg for leg in range(1, 65) if not exchange.call_to(leg) and not exchange.seat_of(leg)]
        return self.text(b"answer", reference, self.r.choice(down), self.speech(0.95)) if reference and down else None

    def clear_party(self):
        conference = self.pick([conference for conference in self.exchange().conferences if conference.parties])
        party = self.late(conference.parties) if conference else None
        return self.text(b"clearing", party.leg) if party else None

    def clear_call(self):
        reference = self.pick(self.leading(to_leg=True))
        return self.text(b"clearing", self.exchange().calls[reference].leg) if reference else None

    def size(self):
        largest = self.exchange().level.size
        return self.r.choice(((), (), (largest,), (self.r.randrange(largest + 1),), (self.r.randrange(largest + 1),)))

    def begin_null(self):
        reference = self.pick(self.references(ABSENT))
        if not reference or not self.may_begin(self.exchange().level):
            return None
        return self.text(b"setup", reference, self.speech(0.95), self.request(BEGIN, *self.size()))

    def begin_call(self):
        reference, level = self.caller(), self.exchange().level
        if not reference or not self.may_begin(level) or not (level.active or self.r.random() < 0.1):
            return None
        return self.text(b"facility", reference, self.request(BEGIN, *self.size()))

    def add(self):
        reference, conference = self.caller(), self.conference_to_join()
        return self.text(b"facility", reference, self.request(ADD, conference.id)) if reference and conference else None

    def split(self):
        reference = self.pick(self.references(ABSENT))
        conference = self.pick([conference for conference in self.open_conferences() if conference.parties])
        party = self.late(conference.parties) if conference else None
        return self.text(b"setup", reference, self.speech(0.9), self.request(SPLIT, conference.id, party.id)) if reference and party else None

    def of_link(self, operation, isolated):
        """A request of a link for a party, of those isolated or not, if that is asked for."""
        reference = self.pick(self.leading(to_leg=False))
        if not reference:
            return None
        party = self.late([party for party in self.exchange().calls[reference].conference.parties if isolated in (None, party.isolated)])
        return self.text(b"facility", reference, self.request(operation, party.id)) if party else None

    def drop(self):
        return self.of_link(DROP, None)

    def isolate(self):
        return self.of_link(ISOLATE, self.r.choice((None, False, False)))

    def reattach(self):
        return self.of_link(REATTACH, self.r.choice((None, True, True)))

    # Random steps

    def any_number(self, most):
        """A reference or leg, now and then out of range."""
        if self.r.random() < 0.94:
            return self.r.randrange(1, most + 1)
        return self.r.choice((0, most + 1, 65, 127, 128, 255, 256, 256 + self.r.randrange(1, most + 1), 300, 65536 + 1, 10**20 - 1, 10**400))

    def any_reference(self):
        """A reference of any state alike, or any number."""
        references = self.references(self.r.choice((ABSENT, CALLING, IDLE, HELD, CLEARING)))
        return self.any_number(127) if not references or self.r.random() < 0.4 else self.r.choice(references)

    def any_request(self):
        """Mostly a well-formed request for ids that may well be there."""
        r = self.r
        if r.random() < 0.3:
            return self.any_octets()
        operation = r.choice((BEGIN, ADD, SPLIT, DROP, ISOLATE, REATTACH))
        conferences = [conference.id for conference in self.exchange().conferences]
        conference = r.choice(conferences) if conferences and r.random() < 0.8 else r.randrange(128)
        parties = [party.id for each in self.exchange().conferences for party in each.parties]
        party = r.choice(parties) if parties and r.random() < 0.8 else r.randrange(128)
        if operation == BEGIN:
            return self.request(BEGIN, *r.choice(((), (0,), (r.randrange(31),), (r.randrange(128),))))
        if operation == SPLIT:
            return self.request(SPLIT, conference, party)
        return self.request(operation, conference if operation == ADD else party)

    def any_step(self):
        r = self.r
        kind = r.random()
        if kind < 0.25:
            return self.text(r.choice(CALL_STEPS), self.any_reference() if r.random() < 0.5 else self.any_number(127))
        if kind < 0.35:
            return self.text(b"answer", self.any_reference(), self.any_number(64), self.speech(0.5))
        if kind < 0.38:
            return self.text(b"clearing", self.any_number(64))
        away = (b"away",) if r.random() < 0.1 else ()
        carrier = (b"facility", self.any_reference()) if r.random() < 0.6 else (b"setup", self.any_reference(), self.speech(0.7))
        return self.text(*away, *carrier, self.any_request())

    # Lines

    def level(self):
        r = self.r
        size, conferences = r.choice(((3, 1), (10, 4), (30, 8), (30, 8), (30, 2), (1, 8), (r.randrange(1, 31), r.randrange(1, 9))))
        if r.random() < 0.1:
            size, conferences = r.choice((0, 1, 30, 31, 255, 256, 300, 10**30)), r.choice((0, 1, 8, 9, 256, 257, 10**30))
        subscribed = b"subscribed" if r.random() < 0.95 else b"unsubscribed"
        return self.text(b"level", size, conferences, subscribed, r.choice((b"active", b"active", b"active", b"idle")))

    def no_step(self):
        r = self.r
        kind = r.random()
        if kind < 0.2:
            return r.choice((b"", b" ", b"\t", b"\r", b" \t\r "))
        if kind < 0.4:
            return self.text(b"level", r.choice((0, 31, 300)), r.choice((1, 9)), b"subscribed", b"active")
        if kind < 0.5:
            return self.text(b"level", r.choice((1, 30)), r.choice((0, 9, 300)), b"unsubscribed", b"idle")
        if kind < 0.6:
            return self.text(b"facility", r.choice((1, 300)), lines.spoiled(r, self.any_octets()))
        return r.choice(NEVER)

    def write(self, line):
        """Writes a line, and lets the model follow."""
        before = self.model.steps if self.exchange() else 0
        self.model.line(line)
        if self.exchange() and self.model.steps > before:
            self.left -= 1
        sys.stdout.buffer.write(line + b"\n")

    def write_level(self):
        """Writes a level, and again until one is made."""
        exchange = self.exchange()
        while self.exchange() is exchange:
            self.write(self.level())

    def sensible_step(self, mood):
        """A step to the mood's taste; a random one if none of a few is possible."""
        for name in self.r.choices(list(mood), list(mood.values()), k=6):
            step = getattr(self, name)()
            if step:
                return step
        return self.any_step()

    def write_mood(self):
        r = self.r
        mood = r.choice(self.moods)
        randomness = r.choice((0, 0, 0.1, 0.5, 0.6, 0.8))
        collects = r.choice((0, 0.01, 0.05, 0.05, 0.3))
        for _ in range(min(self.left, r.choice((30, 100, 300, 1000)))):
            if r.random() < 0.02:
                self.write(self.no_step())
            if not self.left:
                break
            if r.random() < collects:
                self.write(b"collect")
            else:
                self.write(self.any_step() if r.random() < randomness else self.sensible_step(mood))

    def write_script(self):
        if self.r.random() < 0.2:
            self.write(b"calling 1")
            self.write(b"facility 300 1C")
            self.write(b"collect")
            self.write(b"level 0 1 subscribed idle")
            self.write(b"nothing")
        self.write_level()
        while self.left:
            self.write_mood()
            if self.r.random() < 0.1:
                self.change_tastes()
            if not self.one_level and self.r.random() < 0.2:
                self.write_level()


def main():
    if len(sys.argv) != 3:
        sys.exit("usage: scripts.py SEED STEPS")
    Writer(int(sys.argv[1]), int(sys.argv[2])).write_script()


if __name__ == "__main__":
    main()
