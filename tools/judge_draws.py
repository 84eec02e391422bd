# Rules and densities for the judge cases, drawn at random or made so that a total
# is kept: rules as lists of letters, densities as lists of charges.

from preset_format import (
    BOTH, CENTS, CHANNELS, HIGHEST_CENTS, HIGHEST_CHANNELS, PITCH, VOICES,
)
from ring_judge import (
    HIGHEST_VOICES, KINDS, LOWEST_VOICES, OCTAVE, PITCH_CLASSES, cents_charge, words,
)


# Rules, as lists of letters


def number_letters(number, n):
    """The rule with two letters whose number has the answer for code c as its bit c."""
    return [(number >> code) & 1 for code in range(2**n)]


def by_words(q, n, value):
    """The values for all words in code order; value takes a word."""
    return [value(word) for word in words(q, n)]


def random_letters(chance, q, count):
    return [chance.below(q) for _ in range(count)]


def random_table(chance, q, n):
    return random_letters(chance, q, q**n)


def shift_table(chance, q, n):
    """Each cell takes the letter at one place of its window."""
    at = chance.below(n)
    return by_words(q, n, lambda word: word[at])


def permuted_table(q, n, at, image):
    """Each cell takes the letter at one place of its window, renamed."""
    return by_words(q, n, lambda word: image[word[at]])


def random_permutation(chance, q):
    left = list(range(q))
    return [left.pop(chance.below(len(left))) for _ in range(q)]


def traffic_table(chance, q, n):
    """Each cell hands as much as fits to the cell on its right; needs a window of three."""
    at = chance.between(1, n - 2)

    def answer(word):
        left, here, right = word[at - 1:at + 2]
        return here + min(left, q - 1 - here) - min(here, q - 1 - right)

    return by_words(q, n, answer)


def linear_table(chance, q, n):
    """A weighted sum of the window modulo q whose weights sum to one."""
    weights = [chance.below(q) for _ in range(n)]
    at = chance.below(n)
    weights[at] = (weights[at] + 1 - sum(weights)) % q
    return by_words(q, n, lambda word: sum(a * b for a, b in zip(weights, word)) % q)


# Densities, as lists of charges


# Cents at the ends, and where the most digits carry.
CENTS_EDGES = [0, 1, 999, 1000, HIGHEST_CENTS]


def multiple(kind, times, charge):
    return KINDS[kind].sum([charge] * times)


def random_charge(chance, kind):
    signed = chance.between(-9, 9)
    if chance.happens(6):
        signed = chance.pick([LOWEST_VOICES, HIGHEST_VOICES,
                              chance.between(LOWEST_VOICES, HIGHEST_VOICES)])
    if kind == VOICES:
        return signed
    if kind == PITCH:
        return chance.below(PITCH_CLASSES)
    if kind == CHANNELS:
        if chance.happens(6):
            return chance.between(0, HIGHEST_CHANNELS)
        return chance.below(8)
    if kind == CENTS:
        if chance.happens(40):
            return cents_charge(chance.pick(CENTS_EDGES))
        return cents_charge(chance.below(OCTAVE))
    return signed, chance.below(PITCH_CLASSES)


def small_charge(chance, kind):
    """A charge that a few sums and opposites keep among the entries."""
    if kind == VOICES:
        return chance.between(-5, 5)
    if kind == BOTH:
        return chance.between(-5, 5), chance.below(PITCH_CLASSES)
    return random_charge(chance, kind)


def two_charge(chance, kind):
    """One of two charges, so that many sums are zero where a kind admits it."""
    pairs = {VOICES: (0, 1), PITCH: (0, 6), CHANNELS: (0, 1), BOTH: ((0, 0), (0, 6)),
             CENTS: (0, cents_charge(600))}
    return chance.pick(pairs[kind])


def random_density(chance, kind, q, k, draw=random_charge):
    return [draw(chance, kind) for _ in range(q**k)]


def constant_density(chance, kind, q, k):
    return [random_charge(chance, kind)] * q**k


def plus_all(kind, first, second):
    return list(map(KINDS[kind].plus, first, second))


def difference_density(chance, kind, q, k):
    """A function of the word without its last letter less the same without its first."""
    values = {word: small_charge(chance, kind) for word in words(q, k - 1)}
    return by_words(
        q, k, lambda word: KINDS[kind].minus(values[word[:-1]], values[word[1:]]))


def letter_density(chance, kind, q, k, unit):
    """One letter of the word weighs, letter a by a units, and a difference is added."""
    at = chance.below(k)
    weighed = by_words(q, k, lambda word: multiple(kind, word[at], unit))
    if chance.happens(40):
        return plus_all(kind, weighed, difference_density(chance, kind, q, k))
    return weighed


def turning_unit(chance, kind, q):
    """A charge of which q together are zero."""
    units = {
        VOICES: [0],
        PITCH: [c for c in range(PITCH_CLASSES) if c * q % PITCH_CLASSES == 0],
        CHANNELS: [0] if q % 2 else range(8),
        BOTH: [(0, c) for c in range(PITCH_CLASSES) if c * q % PITCH_CLASSES == 0],
        CENTS: [cents_charge(c) for c in range(OCTAVE) if c * q % OCTAVE == 0],
    }
    return chance.pick(list(units[kind]))


def invariant_density(chance, kind, q, k, image):
    """A density that gives a word and the word with its letters renamed the same."""
    charges = {}
    for word in words(q, k):
        charge = random_charge(chance, kind)
        while word not in charges:
            charges[word] = charge
            word = tuple(image[letter] for letter in word)
    return by_words(q, k, charges.get)


def changed(chance, values, value):
    """A copy with the value at one place replaced."""
    at = chance.below(len(values))
    return values[:at] + [value] + values[at + 1:]
