# Plays scripts of calls on rings that keep a total, straight from the rules of a
# player: which calls its state allows, when a call is refused, what it writes to the
# caller's strips and what it answers. Rings are lists of letters and words are tuples,
# and charges, rules and crossings are those of ring_judge.py. It shares no method with
# the programs that it is there to check.

from dataclasses import dataclass, fields
from typing import Any

from preset_format import BAD_LETTER, Refusal
from ring_judge import (
    BAD_LENGTH, LONGEST_RING, SHORT_STRIP, Density, Rule, crossing, judge, rule_label, step,
    window,
)

BAD_POSITION = 13

OPEN, TOUCH, STEP, READ, CLOSE = range(5)
DONE = "done"

# The strips that a call reads or writes.
NEEDED = {
    OPEN: ("cells", "opening", "crossed", "touched"),
    TOUCH: ("cells", "touched"),
    STEP: ("cells", "spare", "crossed"),
    READ: ("cells", "opening", "crossed", "touched"),
    CLOSE: (),
}


@dataclass(frozen=True)
class Call:
    name: int
    ring: tuple = ()  # of open
    site: int = 0  # of touch and read
    letter: int = 0  # of touch


@dataclass(frozen=True)
class Reading:
    """What the meters of a site answer."""
    opening: Any
    crossed: Any
    touched: Any
    now: Any


@dataclass(frozen=True)
class Refused:
    """A call's answer where it is refused."""
    code: int
    place: int


@dataclass
class Strips:
    """The caller's strips, each of any length."""
    cells: list
    spare: list
    opening: list
    crossed: list
    touched: list

    def lent(self, rooms):
        """As much of the front of each strip as these rooms say."""
        return Strips(*(getattr(self, field.name)[:room]
                        for field, room in zip(fields(self), rooms)))

    def take_back(self, lent):
        """The entries of lent strips go back to where they came from."""
        for field in fields(self):
            put_front(getattr(self, field.name), getattr(lent, field.name))


def put_front(strip, entries):
    """The first entries of a strip are replaced; those past them stay."""
    strip[:len(entries)] = entries


def site_charges(density, ring):
    """The charge of each site, on the cells from it on."""
    return [density.charges[window(ring, site, density.k)] for site in range(len(ring))]


class Player:
    """A bench that holds, and how many cells the open ring has, or None."""

    def __init__(self, rule: Rule, density: Density):
        self.rule = rule
        self.density = density
        self.kind = density.kind
        self.label = rule_label(rule, density)
        self.length = None

    def ask(self, call, strips):
        """The answer to a call on these strips, or None where the state does not allow it."""
        if (call.name == OPEN) != (self.length is None):
            return None
        length = len(call.ring) if call.name == OPEN else self.length
        fitting = list(self.refusals(call, length, strips))
        if fitting:
            return Refused(*min(fitting))
        return WORK[call.name](self, call, strips)

    def refusals(self, call, length, strips):
        """Code and place of every refusal that fits; the lowest is given."""
        if call.name == OPEN and not 1 <= length <= LONGEST_RING:
            yield BAD_LENGTH, 0
        if any(len(getattr(strips, name)) < length for name in NEEDED[call.name]):
            yield SHORT_STRIP, 0
        if call.name in (TOUCH, READ) and call.site >= length:
            yield BAD_POSITION, 0
        for place, letter in enumerate(self.tested_letters(call, length, strips)):
            if letter >= self.rule.q:
                yield BAD_LETTER, place

    @staticmethod
    def tested_letters(call, length, strips):
        """The ring that open is given, or the open one and then the letter of a touch."""
        if call.name == OPEN:
            return call.ring
        if call.name == CLOSE:
            return ()
        given = [call.letter] if call.name == TOUCH else []
        return strips.cells[:length] + given

    def ring(self, strips):
        return strips.cells[:self.length]

    def book(self, strip, charges):
        """Each charge is added to its site's entry."""
        put_front(strip, list(map(self.kind.plus, strip, charges)))

    def open(self, call, strips):
        self.length = len(call.ring)
        put_front(strips.cells, call.ring)
        put_front(strips.opening, site_charges(self.density, call.ring))
        put_front(strips.crossed, [self.kind.zero] * self.length)
        put_front(strips.touched, [self.kind.zero] * self.length)
        return DONE

    def touch(self, call, strips):
        before = site_charges(self.density, self.ring(strips))
        strips.cells[call.site] = call.letter
        after = site_charges(self.density, self.ring(strips))
        self.book(strips.touched, map(self.kind.minus, after, before))
        return DONE

    def step(self, _call, strips):
        ring = self.ring(strips)
        reach, width = self.rule.l, self.label.m - 1
        self.book(strips.crossed, [crossing(self.label, window(ring, site - reach, width))
                                   for site in range(self.length)])
        put_front(strips.spare, ring)
        put_front(strips.cells, step(self.rule, ring))
        return DONE

    def read(self, call, strips):
        site = call.site
        now = self.density.charges[window(self.ring(strips), site, self.density.k)]
        return Reading(strips.opening[site], strips.crossed[site], strips.touched[site], now)

    def close(self, _call, _strips):
        self.length = None
        return DONE

    def laws_hold(self, strips, longest):
        """Whether each arc's charge is what it opened with and what came to it since.

        An arc is a first site and a length, up to the longest that is given. What came
        is what was touched, and what crossed into the first site less what crossed into
        the site after the last.
        """
        length, plus = self.length, self.kind.plus
        gains = [self.kind.minus(now, plus(opening, touched)) for now, opening, touched in zip(
            site_charges(self.density, self.ring(strips)), strips.opening, strips.touched)]
        for first in range(length):
            gain = self.kind.zero
            for arc in range(min(length, longest) + 1):
                if plus(gain, strips.crossed[(first + arc) % length]) != strips.crossed[first]:
                    return False
                gain = plus(gain, gains[(first + arc) % length])
        return True


WORK = {OPEN: Player.open, TOUCH: Player.touch, STEP: Player.step, READ: Player.read,
        CLOSE: Player.close}


def perform(rule, density, script, crossings, ring, strips, answers):
    """The call: judges, and plays the script where the bench holds.

    Gives the finding, and the player if there is one; a refusal is raised.
    """
    if len(answers) < len(script):
        raise Refusal(SHORT_STRIP, 0)
    finding = judge(rule, density, len(crossings), len(ring))
    put_front(crossings, finding.crossings)
    if finding.word is not None:
        put_front(ring, finding.ring)
        return finding, None
    player = Player(rule, density)
    put_front(answers, [player.ask(call, strips) for call in script])
    return finding, player
