# Judges cellular automata on rings and compares densities, straight from the
# definitions and by words: a word is a tuple of letters, and rules, densities
# and labels are asked for words. It shares no method with the programs that it
# is there to check. A call that is refused raises Refusal with a code and a place.

import itertools
import operator
from dataclasses import dataclass
from functools import cache
from typing import Any, Callable

from preset_format import (
    BAD_ALPHABET, BAD_ENTRY, BAD_LETTER, BAD_REACH, BAD_WIDTH, BAD_WINDOW, BOTH, CENTS,
    CHANNELS, HIGHEST_CENTS, HIGHEST_PITCH, LARGEST_SIZE, PITCH, TOO_LARGE, VOICES, Refusal,
)

ALPHABETS_DIFFER = 8
BAD_LENGTH = 11
SHORT_STRIP = 12

LOWEST_VOICES = -(2**31)
HIGHEST_VOICES = 2**31 - 1
PITCH_CLASSES = HIGHEST_PITCH + 1
OCTAVE = HIGHEST_CENTS + 1
LONGEST_RING = 4096


# Charges


@dataclass(frozen=True)
class Kind:
    """A kind of charge; entries and sums with one meaning are equal values."""
    zero: Any
    plus: Callable
    opposite: Callable
    is_entry: Callable
    from_parts: Callable  # the charge of a signed and a plain part
    parts: Callable  # the two parts of a charge; the one that the kind lacks is 0
    text: Callable
    same: Callable = operator.eq  # whether any two charges have one meaning

    def minus(self, first, second):
        return self.plus(first, self.opposite(second))

    def sum(self, charges):
        total = self.zero
        for charge in charges:
            total = self.plus(total, charge)
        return total


def signed64(value):
    """The value modulo 2**64, read as a signed number of 64 bits."""
    rest = value % 2**64
    return rest - 2**64 if rest >= 2**63 else rest


def is_voices_entry(value):
    return LOWEST_VOICES <= value <= HIGHEST_VOICES


# A charge in cents is sixteen bits: four decimal digits of four bits each.


def cents_charge(value):
    """The charge whose digits are those of the value modulo an octave."""
    return int(str(value % OCTAVE), 16)


def cents_value(bits):
    """What the digits mean, modulo an octave; a digit above nine counts too."""
    thousands, hundreds, tens, ones = (int(digit, 16) for digit in f"{bits:04x}")
    return (1000 * thousands + 100 * hundreds + 10 * tens + ones) % OCTAVE


def is_cents_entry(bits):
    digits = f"{bits:04x}"
    return digits.isdecimal() and int(digits) <= HIGHEST_CENTS


KINDS = {
    VOICES: Kind(
        zero=0,
        plus=lambda a, b: signed64(a + b),
        opposite=lambda a: signed64(-a),
        is_entry=is_voices_entry,
        from_parts=lambda signed, plain: signed,
        parts=lambda a: (a, 0),
        text=str,
    ),
    PITCH: Kind(
        zero=0,
        plus=lambda a, b: (a + b) % PITCH_CLASSES,
        opposite=lambda a: -a % PITCH_CLASSES,
        is_entry=lambda a: True,
        from_parts=lambda signed, plain: plain,
        parts=lambda a: (0, a),
        text=str,
    ),
    CHANNELS: Kind(
        zero=0,
        plus=lambda a, b: a ^ b,
        opposite=lambda a: a,
        is_entry=lambda a: True,
        from_parts=lambda signed, plain: plain,
        parts=lambda a: (0, a),
        text=str,
    ),
    BOTH: Kind(
        zero=(0, 0),
        plus=lambda a, b: (signed64(a[0] + b[0]), (a[1] + b[1]) % PITCH_CLASSES),
        opposite=lambda a: (signed64(-a[0]), -a[1] % PITCH_CLASSES),
        is_entry=lambda a: is_voices_entry(a[0]),
        from_parts=lambda signed, plain: (signed, plain),
        parts=lambda a: a,
        text=lambda a: f"{a[0]}:{a[1]}",
    ),
    CENTS: Kind(
        zero=0,
        plus=lambda a, b: cents_charge(cents_value(a) + cents_value(b)),
        opposite=lambda a: cents_charge(-cents_value(a)),
        is_entry=is_cents_entry,
        from_parts=lambda signed, plain: plain,
        parts=lambda a: (0, a),
        text=lambda a: str(cents_value(a)),
        same=lambda a, b: cents_value(a) == cents_value(b),
    ),
}


def preset_charges(preset):
    """The charges of a preset's entries, of which those in cents are sent as their value."""
    if preset.kind == CENTS:
        return [cents_charge(plain) for _, plain in preset.entries]
    return [KINDS[preset.kind].from_parts(signed, plain) for signed, plain in preset.entries]


# Words and rings


def words(q, n):
    """All words of n letters in code order: the first letter is most significant."""
    return itertools.product(range(q), repeat=n)


def window(ring, start, length):
    """The word that a ring shows from a cell on; it may pass a cell more than once."""
    return tuple(ring[(start + i) % len(ring)] for i in range(length))


# Rules and densities


@dataclass(frozen=True)
class Rule:
    q: int
    n: int
    l: int
    answers: dict  # a letter for each word of n letters


@dataclass(frozen=True)
class Density:
    kind: Kind
    q: int
    k: int
    charges: dict  # a charge for each word of k letters


def check_rule_sizes(q, n, l):
    if not 2 <= q <= 8:
        raise Refusal(BAD_ALPHABET, 0)
    if not 1 <= n <= 12:
        raise Refusal(BAD_WINDOW, 0)
    if not l < n:
        raise Refusal(BAD_REACH, 0)
    if q**n > LARGEST_SIZE:
        raise Refusal(TOO_LARGE, 0)


def check_density_sizes(q, k):
    if not 2 <= q <= 8:
        raise Refusal(BAD_ALPHABET, 0)
    if not 1 <= k <= 12:
        raise Refusal(BAD_WIDTH, 0)
    if q**k > LARGEST_SIZE:
        raise Refusal(TOO_LARGE, 0)


def front(strip, count):
    """The first entries of a strip; those past them are not looked at."""
    if len(strip) < count:
        raise Refusal(SHORT_STRIP, 0)
    return strip[:count]


def check_letters(q, letters):
    for index, letter in enumerate(letters):
        if not letter < q:
            raise Refusal(BAD_LETTER, index)


def table_rule(q, n, l, letters):
    """A rule from its answers in code order."""
    check_rule_sizes(q, n, l)
    letters = front(letters, q**n)
    check_letters(q, letters)
    return Rule(q, n, l, dict(zip(words(q, n), letters)))


def sum_rule(q, n, l, letters):
    """A rule from one answer for each sum of the window's letters."""
    check_rule_sizes(q, n, l)
    letters = front(letters, n * (q - 1) + 1)
    check_letters(q, letters)
    return Rule(q, n, l, {word: letters[sum(word)] for word in words(q, n)})


def table_density(kind, q, k, entries):
    """A density from its charges in code order."""
    check_density_sizes(q, k)
    entries = front(entries, q**k)
    for index, entry in enumerate(entries):
        if not kind.is_entry(entry):
            raise Refusal(BAD_ENTRY, index)
    return Density(kind, q, k, dict(zip(words(q, k), entries)))


def pattern_density(kind, q, k, letters, entry):
    """A density that gives one word a charge and all others zero."""
    check_density_sizes(q, k)
    letters = front(letters, k)
    check_letters(q, letters)
    if not kind.is_entry(entry):
        raise Refusal(BAD_ENTRY, 0)
    pattern = tuple(letters)
    return Density(kind, q, k, {word: entry if word == pattern else kind.zero
                                for word in words(q, k)})


# On a ring


def step(rule, ring):
    """The ring after one step."""
    return [rule.answers[window(ring, cell - rule.l, rule.n)]
            for cell in range(len(ring))]


def ring_total(density, ring):
    """The sum of the charges of a ring's sites."""
    return density.kind.sum(density.charges[window(ring, site, density.k)]
                            for site in range(len(ring)))


def check_length(ring):
    if not 1 <= len(ring) <= LONGEST_RING:
        raise Refusal(BAD_LENGTH, 0)


def next_ring(rule, ring, room):
    """The call: the next ring, for a strip with this many cells."""
    check_length(ring)
    if room < len(ring):
        raise Refusal(SHORT_STRIP, 0)
    check_letters(rule.q, ring)
    return step(rule, ring)


def total(density, ring):
    """The call: the total of a ring."""
    check_length(ring)
    check_letters(density.q, ring)
    return ring_total(density, ring)


# Labels, crossings and verdicts


@dataclass(frozen=True)
class Label:
    kind: Kind
    q: int
    m: int
    charge: Callable  # of a word of m letters


@dataclass(frozen=True)
class Finding:
    """A verdict: without a failing word the bench holds, or the densities agree."""
    crossings: list  # J for each word of m - 1 letters, in code order
    word: tuple = None
    ring: tuple = None
    first: Any = None  # the ring's total before a step, or under the first density
    second: Any = None  # its total after the step, or under the second density


def rule_label(rule, density):
    """On each word: the density on the next letters less the density from the reach on."""
    n, l, k = rule.n, rule.l, density.k

    @cache
    def charge(word):
        next_letters = tuple(rule.answers[word[j:j + n]] for j in range(k))
        return density.kind.minus(density.charges[next_letters],
                                  density.charges[word[l:l + k]])

    return Label(density.kind, rule.q, n + k - 1, charge)


def two_label(first, second):
    """On each word: the first density less the second, each on the leading letters."""

    @cache
    def charge(word):
        return first.kind.minus(first.charges[word[:first.k]],
                                second.charges[word[:second.k]])

    return Label(first.kind, first.q, max(first.k, second.k), charge)


def crossing(label, word):
    """J of a word of m - 1 letters."""
    rest = label.m - 1
    return label.kind.opposite(label.kind.sum(
        label.charge((0,) * (rest - j) + word[:j + 1]) for j in range(rest)))


def failing_word(label):
    """The failing word with the smallest code, or None."""
    crossed = cache(lambda word: crossing(label, word))
    for word in words(label.q, label.m):
        balance = label.kind.minus(crossed(word[:-1]), crossed(word[1:]))
        if label.charge(word) != balance:
            return word
    return None


def label_sum(label, ring):
    """The sum of the label over all windows of a ring."""
    return label.kind.sum(label.charge(window(ring, i, label.m))
                          for i in range(len(ring)))


def shown_ring(label, word):
    ring_a = word + (0,) * (label.m - 1)
    return ring_a if label_sum(label, ring_a) != label.kind.zero else ring_a[1:]


def find(label, crossing_room, ring_room, totals):
    """The finding on a label; totals gives a ring's two totals."""
    if crossing_room < label.q ** (label.m - 1) or ring_room < 2 * label.m - 1:
        raise Refusal(SHORT_STRIP, 0)
    crossings = [crossing(label, word) for word in words(label.q, label.m - 1)]
    word = failing_word(label)
    if word is None:
        return Finding(crossings)
    ring = shown_ring(label, word)
    return Finding(crossings, word, ring, *totals(ring))


def judge(rule, density, crossing_room, ring_room):
    """The call: whether the rule keeps the density's total, for strips of these sizes."""
    if rule.q != density.q:
        raise Refusal(ALPHABETS_DIFFER, 0)
    if rule.q ** (rule.n + density.k - 1) > LARGEST_SIZE:
        raise Refusal(TOO_LARGE, 0)
    return find(
        rule_label(rule, density), crossing_room, ring_room,
        lambda ring: (ring_total(density, ring), ring_total(density, step(rule, ring))))


def compare(first, second, crossing_room, ring_room):
    """The call: whether two densities give every ring the same total."""
    if first.q != second.q:
        raise Refusal(ALPHABETS_DIFFER, 0)
    if first.q ** max(first.k, second.k) > LARGEST_SIZE:
        raise Refusal(TOO_LARGE, 0)
    return find(
        two_label(first, second), crossing_room, ring_room,
        lambda ring: (ring_total(first, ring), ring_total(second, ring)))
