# The lines of the judge cases: writes a call as a line, reads it again, and says
# its result by ring_judge.py.
#
# A call is a line of decimal numbers, one space apart:
#   CALL KIND CROSSINGS RING and then two parts
# CROSSINGS and RING are the lengths of the strips that are lent for them.
#   CALL 0 judge: a rule and a density     CALL 1 compare: two densities
#   CALL 2 next ring: a rule and a ring    CALL 3 total: a density and a ring
#   a rule:    FORM Q N L COUNT and COUNT letters; FORM 0 table, 1 sum
#   a density: FORM Q K COUNT and then, for FORM 0 (table), COUNT entries, and for
#              FORM 1 (pattern), COUNT letters and one entry
#   an entry:  SIGNED PLAIN; the part that the kind lacks is 0, and a charge in cents
#              is its sixteen bits as a number
#   a ring:    COUNT and COUNT letters
#
# A result line is one of
#   first CODE PLACE, second CODE PLACE: making a part is refused, the first part
#       before the second
#   refused CODE PLACE: the call is refused
#   holds J, breaks WORD RING BEFORE AFTER J
#   agree J, differ WORD RING FIRST SECOND J
#   next RING, total CHARGE
# Words and rings are digits with nothing between, and J is charges between commas. A
# charge is as in a preset's text: one in cents is its value.
# `clean` ends each line whose call writes into strips: what was in them past the
# part that is written is still there.

from preset_format import Refusal
from ring_judge import (
    KINDS, compare, judge, next_ring, pattern_density, sum_rule, table_density,
    table_rule, total,
)

JUDGE, COMPARE, NEXT_RING, TOTAL = range(4)
TABLE = 0
SUM = 1
PATTERN = 1


# Lines


def line(call, kind, crossing_room, ring_room, first, second):
    return " ".join(map(str, [call, kind, crossing_room, ring_room, *first, *second]))


def rule_part(form, q, n, l, letters):
    return [form, q, n, l, len(letters), *letters]


def table_part(kind, q, k, charges):
    entries = [part for charge in charges for part in KINDS[kind].parts(charge)]
    return [TABLE, q, k, len(charges), *entries]


def pattern_part(kind, q, k, letters, charge):
    return [PATTERN, q, k, len(letters), *letters, *KINDS[kind].parts(charge)]


def ring_part(ring):
    return [len(ring), *ring]


class Reader:
    """Takes the numbers of a line from the left."""

    def __init__(self, text):
        self._numbers = iter([int(word) for word in text.split(" ")])

    def number(self):
        return next(self._numbers)

    def numbers(self, count):
        return [self.number() for _ in range(count)]

    def charge(self, kind):
        return kind.from_parts(self.number(), self.number())

    def rule(self):
        """A rule that is still to be made, as a function."""
        form, q, n, l, count = self.numbers(5)
        letters = self.numbers(count)
        make = sum_rule if form == SUM else table_rule
        return lambda: make(q, n, l, letters)

    def density(self, kind):
        """A density that is still to be made, as a function."""
        form, q, k, count = self.numbers(4)
        if form == PATTERN:
            letters = self.numbers(count)
            entry = self.charge(kind)
            return lambda: pattern_density(kind, q, k, letters, entry)
        entries = [self.charge(kind) for _ in range(count)]
        return lambda: table_density(kind, q, k, entries)

    def ring(self):
        """A ring, as a function like the other parts."""
        letters = self.numbers(self.number())
        return lambda: letters

    def ended(self):
        return next(self._numbers, None) is None


def read_case(text):
    """The call, the kind, the sizes of the two strips and the two parts to be made."""
    reader = Reader(text)
    call, kind_number, crossing_room, ring_room = reader.numbers(4)
    kind = KINDS[kind_number]
    first = reader.rule() if call in (JUDGE, NEXT_RING) else reader.density(kind)
    second = reader.density(kind) if call in (JUDGE, COMPARE) else reader.ring()
    assert reader.ended()
    return call, kind, crossing_room, ring_room, first, second


# Results


def digits(letters):
    return "".join(map(str, letters))


def finding_text(kind, finding, names):
    """A finding's words; names are the verdict's without and with a failing word."""
    crossings = ",".join(map(kind.text, finding.crossings))
    if finding.word is None:
        return f"{names[0]} {crossings} clean"
    assert finding.first != finding.second
    return (f"{names[1]} {digits(finding.word)} {digits(finding.ring)} "
            f"{kind.text(finding.first)} {kind.text(finding.second)} {crossings} clean")


def call_text(call, kind, crossing_room, ring_room, first, second):
    if call == JUDGE:
        finding = judge(first, second, crossing_room, ring_room)
        return finding_text(kind, finding, ("holds", "breaks"))
    if call == COMPARE:
        finding = compare(first, second, crossing_room, ring_room)
        return finding_text(kind, finding, ("agree", "differ"))
    if call == NEXT_RING:
        return f"next {digits(next_ring(first, second, ring_room))} clean"
    return f"total {kind.text(total(first, second))}"


def result_line(text):
    call, kind, crossing_room, ring_room, make_first, make_second = read_case(text)
    stage = "first"
    try:
        first = make_first()
        stage = "second"
        second = make_second()
        stage = "refused"
        return call_text(call, kind, crossing_room, ring_room, first, second)
    except Refusal as refusal:
        return f"{stage} {refusal.code} {refusal.place}"
