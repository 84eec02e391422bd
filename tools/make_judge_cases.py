# Writes the judge cases: crates/judge_cases/stdin holds one call a line, and
# crates/judge_cases/stdout the expected result of each line, by ring_judge.py; the
# lines are explained in judge_lines.py. The cases come from a fixed seed, so running
# it again writes the same files. Counts go to stderr. Before anything is written
# ring_judge.py is checked: on the worked examples, on counts of rules that are known
# from elsewhere, and against trying all short rings.

import sys
from collections import Counter
from dataclasses import dataclass
from pathlib import Path
from typing import Callable

sys.dont_write_bytecode = True

from case_files import Chance, write_lines
from judge_draws import (
    CENTS_EDGES, by_words, changed, constant_density, difference_density,
    invariant_density, letter_density, linear_table, number_letters, permuted_table,
    plus_all, random_charge, random_density, random_letters, random_permutation,
    random_table, shift_table, small_charge, traffic_table, turning_unit, two_charge,
)
from judge_lines import (
    COMPARE, JUDGE, NEXT_RING, PATTERN, SUM, TABLE, TOTAL, line, pattern_part, read_case,
    result_line, ring_part, rule_part, table_part,
)
from preset_format import BOTH, CENTS, CHANNELS, LARGEST_SIZE, PITCH, VOICES
from ring_judge import (
    HIGHEST_VOICES, KINDS, LONGEST_RING, LOWEST_VOICES, OCTAVE, PITCH_CLASSES, Kind, Label,
    cents_charge, cents_value, failing_word, label_sum, ring_total, rule_label, step,
    two_label, words,
)

CASES_FOLDER = Path(__file__).resolve().parent.parent / "crates" / "judge_cases"
SEED = 50923
MOST_FILE_BYTES = 1_000_000

KEEPING_ELEMENTARY = (170, 184, 204, 226, 240)
KEEPING_FOUR_INPUTS = 22

FINDINGS = {"holds", "breaks", "agree", "differ"}
ANSWERS = FINDINGS | {"next", "total"}


# Shapes and strips


def all_shapes():
    """Every (q, n, k) that a bench may have."""
    return [(q, n, k) for q in range(2, 9) for n in range(1, 13) for k in range(1, 13)
            if q ** (n + k - 1) <= LARGEST_SIZE]


def small_shapes():
    """For each q the shapes with few crossings and short tables."""
    return {q: [(n, k) for shape_q, n, k in all_shapes()
                if shape_q == q and q ** (n + k - 2) <= 64 and q**n + 2 * q**k <= 150]
            for q in range(2, 9)}


SMALL_SHAPES = small_shapes()


def draw_shape(chance):
    q = chance.between(2, 8)
    return (q, *chance.pick(SMALL_SHAPES[q]))


def rooms(chance, q, m):
    """Sizes of the two strips: mostly enough, exactly or with some to spare."""
    crossing_room, ring_room = q ** (m - 1), 2 * m - 1
    if chance.happens(3):
        return crossing_room - 1, ring_room
    if chance.happens(3):
        return crossing_room, ring_room - 1
    spare = [0, 0, 1, 3, 40]
    return crossing_room + chance.pick(spare), ring_room + chance.pick(spare)


def judge_line(chance, kind, q, n, k, rule, density):
    return line(JUDGE, kind, *rooms(chance, q, n + k - 1), rule, density)


def compare_line(chance, kind, q, k, first, second):
    return line(COMPARE, kind, *rooms(chance, q, k), first, second)


# Groups of judge cases


def elementary_part(number):
    """An elementary rule: two letters, a window of three, reach one."""
    return rule_part(TABLE, 2, 3, 1, number_letters(number, 3))


def elementary_rules():
    lines = []
    # In cents a one weighs a third of an octave.
    for kind, one in ((VOICES, 1), (CHANNELS, 1), (CENTS, cents_charge(400))):
        density = table_part(kind, 2, 1, [0, one])
        lines += [line(JUDGE, kind, 4, 5, elementary_part(number), density)
                  for number in range(256)]
    return lines


def keeping_four_inputs():
    """The numbers of the rules with two letters and four inputs that keep the ones."""
    numbers = []
    for number in range(2**16):
        answers = dict(zip(words(2, 4), number_letters(number, 4)))
        label = Label(KINDS[VOICES], 2, 4, lambda word: answers[word] - word[0])
        if failing_word(label) is None:
            numbers.append(number)
    return numbers


def four_input_rules(chance, keeping):
    density = table_part(VOICES, 2, 1, [0, 1])
    numbers = keeping + [chance.below(2**16) for _ in range(100)]
    # Rules that differ from one that keeps the ones at a single word come close.
    numbers += [chance.pick(keeping) ^ (1 << chance.below(16)) for _ in range(100)]
    return [line(JUDGE, VOICES, 8, 7,
                 rule_part(TABLE, 2, 4, chance.below(4), number_letters(number, 4)),
                 density)
            for number in numbers]


def worked_examples():
    voices = table_part(VOICES, 2, 1, [0, 1])
    lines = [line(JUDGE, VOICES, 4, 5, elementary_part(number), voices)
             for number in (184, 90)]
    lines.append(line(JUDGE, CHANNELS, 4, 5, elementary_part(150),
                      table_part(CHANNELS, 2, 1, [0, 1])))
    lines.append(line(JUDGE, PITCH, 2, 3, rule_part(TABLE, 2, 2, 0, [1] * 4),
                      table_part(PITCH, 2, 1, [0, 4])))
    lines.append(line(JUDGE, CENTS, 2, 3, rule_part(TABLE, 2, 2, 0, [1] * 4),
                      table_part(CENTS, 2, 1, [0, cents_charge(400)])))
    lines.append(line(JUDGE, VOICES, 1, 1, rule_part(TABLE, 2, 1, 0, [1, 0]), voices))
    lines.append(line(COMPARE, VOICES, 2, 3, pattern_part(VOICES, 2, 2, [1, 0], 1),
                      pattern_part(VOICES, 2, 2, [0, 1], 1)))
    wide = rule_part(SUM, 8, 4, 1, [a % 8 for a in range(29)])
    for k in (1, 2):
        lines.append(line(JUDGE, VOICES, 512, 7, wide, table_part(
            VOICES, 8, k, [a % 8 for a in range(8**k)])))
    for n in (12, 13):
        lines.append(line(JUDGE, VOICES, 2048, 23,
                          rule_part(SUM, 2, n, 0, [a % 2 for a in range(14)]), voices))
    return lines


def any_rule(chance, q, n):
    """A rule of any sort, as a part."""
    l = chance.below(n)
    if chance.happens(30):
        return rule_part(SUM, q, n, l, random_letters(chance, q, n * (q - 1) + 1))
    draw = chance.pick([random_table, random_table, shift_table, linear_table])
    return rule_part(TABLE, q, n, l, draw(chance, q, n))


def any_density(chance, kind, q, k):
    """A density of any sort, as a part."""
    if chance.happens(30):
        return pattern_part(kind, q, k, random_letters(chance, q, k),
                            random_charge(chance, kind))
    draw = chance.pick([random_charge, random_charge, two_charge])
    return table_part(kind, q, k, random_density(chance, kind, q, k, draw))


def any_benches(chance):
    """Rules and densities that have nothing to do with each other."""
    lines = []
    for _ in range(600):
        kind = chance.below(len(KINDS))
        q, n, k = draw_shape(chance)
        lines.append(judge_line(chance, kind, q, n, k, any_rule(chance, q, n),
                                any_density(chance, kind, q, k)))
    return lines


def shifting_benches(chance):
    """Rules that turn the ring, under any density: they hold."""
    lines = []
    for _ in range(200):
        kind = chance.below(len(KINDS))
        q, n, k = draw_shape(chance)
        rule = rule_part(TABLE, q, n, chance.below(n), shift_table(chance, q, n))
        lines.append(judge_line(chance, kind, q, n, k, rule,
                                any_density(chance, kind, q, k)))
    return lines


def constant_benches(chance):
    """Densities whose total no rule can change."""
    lines = []
    for _ in range(200):
        kind = chance.below(len(KINDS))
        q, n, k = draw_shape(chance)
        charges = constant_density(chance, kind, q, k)
        if chance.happens(70):
            charges = plus_all(kind, [small_charge(chance, kind)] * q**k,
                               difference_density(chance, kind, q, k))
        lines.append(judge_line(chance, kind, q, n, k, any_rule(chance, q, n),
                                table_part(kind, q, k, charges)))
    return lines


def conserving_bench(chance, kind, q, n, k):
    """Letters and charges of a rule that keeps a density's total by its making."""
    sort = chance.below(3)
    if sort == 0 and n >= 3:
        return (traffic_table(chance, q, n),
                letter_density(chance, kind, q, k, small_charge(chance, kind)))
    if sort == 1:
        return (linear_table(chance, q, n),
                letter_density(chance, kind, q, k, turning_unit(chance, kind, q)))
    image = random_permutation(chance, q)
    return (permuted_table(q, n, chance.below(n), image),
            invariant_density(chance, kind, q, k, image))


def conserving_benches(chance):
    """Rules that keep a total by their making, and the same with one value changed."""
    lines = []
    for _ in range(700):
        kind = chance.below(len(KINDS))
        q, n, k = draw_shape(chance)
        letters, charges = conserving_bench(chance, kind, q, n, k)
        if chance.happens(20):
            letters = changed(chance, letters, chance.below(q))
        elif chance.happens(15):
            charges = changed(chance, charges, random_charge(chance, kind))
        lines.append(judge_line(chance, kind, q, n, k,
                                rule_part(TABLE, q, n, chance.below(n), letters),
                                table_part(kind, q, k, charges)))
    return lines


def sum_benches(chance):
    """Sums modulo q of a window of q·t + 1 cells, under charges that turn with q."""
    lines = []
    for _ in range(150):
        kind = chance.below(len(KINDS))
        q = chance.pick([2, 2, 3, 4])
        n = chance.pick([n for n in range(1, 8) if n % q == 1 and q ** (n - 1) <= 256])
        k = chance.pick([k for k in range(1, 4) if q ** (n + k - 2) <= 256])
        letters = [a % q for a in range(n * (q - 1) + 1)]
        if chance.happens(20):
            letters = changed(chance, letters, chance.below(q))
        charges = letter_density(chance, kind, q, k, turning_unit(chance, kind, q))
        lines.append(judge_line(chance, kind, q, n, k,
                                rule_part(SUM, q, n, chance.below(n), letters),
                                table_part(kind, q, k, charges)))
    return lines


def hidden_breaks(chance):
    """Few charges that cancel each other, so that ring A often shows no change."""
    lines = []
    for _ in range(300):
        kind = chance.pick([PITCH, CHANNELS, BOTH, CENTS])
        q, n, k = draw_shape(chance)
        rule = rule_part(TABLE, q, n, chance.below(n), random_table(chance, q, n))
        charges = random_density(chance, kind, q, k, two_charge)
        lines.append(judge_line(chance, kind, q, n, k, rule,
                                table_part(kind, q, k, charges)))
    for q in range(2, 9):
        charges = [(PITCH, charge) for charge in range(1, PITCH_CLASSES)]
        charges += [(CENTS, cents_charge(value)) for value in (1, 400, 600, 800, 999, 1199)]
        for kind, charge in charges:
            # Every letter becomes the last: a ring of zeros gains at each of its cells.
            lines.append(judge_line(
                chance, kind, q, 2, 1, rule_part(TABLE, q, 2, 0, [q - 1] * q**2),
                table_part(kind, q, 1, [0] * (q - 1) + [charge])))
    return lines


def cents_density(chance, q, k):
    """Mostly cents at the ends, as a part; few numbers where the table is long."""
    def edge():
        return cents_charge(chance.pick(CENTS_EDGES))
    if q**k > 32:
        return pattern_part(CENTS, q, k, random_letters(chance, q, k), edge())
    return table_part(CENTS, q, k, [
        edge() if chance.happens(70) else random_charge(chance, CENTS) for _ in range(q**k)])


def cents_benches(chance):
    """Densities in cents of every width, under rules that turn the ring and any others."""
    lines = []
    for k in range(1, 13):
        for turn in range(9):
            q = chance.pick([q for q in (2, 2, 3, 4, 8) if q**k <= 512] or [2])
            n = chance.pick([n for n in range(1, 4) if q ** (n + k - 1) <= 4096])
            letters = (shift_table(chance, q, n) if turn % 3 == 0 else
                       [q - 1] * q**n if turn % 3 == 1 else random_table(chance, q, n))
            lines.append(line(JUDGE, CENTS, q ** (n + k - 2), 2 * (n + k) - 3,
                              rule_part(TABLE, q, n, chance.below(n), letters),
                              cents_density(chance, q, k)))
    return lines


def cents_entries(chance):
    """Each end of the cents as an entry, and beyond it what is none, at every place."""
    lines = []
    for charge in list(map(cents_charge, CENTS_EDGES)) + BAD_CENTS:
        for at in range(4):
            charges = random_density(chance, CENTS, 2, 2)
            charges[at] = charge
            lines.append(line(JUDGE, CENTS, 8, 7, elementary_part(chance.pick([30, 184, 240])),
                              table_part(CENTS, 2, 2, charges)))
            lines.append(line(TOTAL, CENTS, 0, 0, table_part(CENTS, 2, 2, charges),
                              ring_part(random_letters(chance, 2, 9))))
        parts = [pattern_part(CENTS, 2, 3, random_letters(chance, 2, 3), charge),
                 cents_density(chance, 2, 2)]
        for first, second in (parts, parts[::-1]):
            lines.append(line(COMPARE, CENTS, 4, 5, first, second))
    return lines


def one_letter_benches(chance):
    """Windows and widths of one, where J has one entry and ring B no cell."""
    lines = []
    for q in range(2, 9):
        for kind in KINDS:
            for _ in range(4):
                image = chance.pick([list(range(q)), random_letters(chance, q, q),
                                     random_permutation(chance, q)])
                form = chance.pick([TABLE, SUM])
                lines.append(judge_line(chance, kind, q, 1, 1,
                                        rule_part(form, q, 1, 0, image),
                                        any_density(chance, kind, q, 1)))
    return lines


def large_rule(chance, q, n):
    """A rule in few letters where the table is long, as a part."""
    l = chance.below(n)
    if q**n > 600 and chance.happens(75):
        letters = [chance.pick([0, a % q]) for a in range(n * (q - 1) + 1)]
        return rule_part(SUM, q, n, l, letters)
    draw = random_table
    if chance.happens(60):
        draw = shift_table if n < 3 or chance.happens(30) else traffic_table
    return rule_part(TABLE, q, n, l, draw(chance, q, n))


def large_density(chance, kind, q, k):
    """A density in few numbers where the table is long, as a part."""
    if q**k > 64 and chance.happens(80):
        return pattern_part(kind, q, k, random_letters(chance, q, k),
                            small_charge(chance, kind))
    if chance.happens(50):
        return table_part(kind, q, k, letter_density(
            chance, kind, q, k, small_charge(chance, kind)))
    return table_part(kind, q, k, random_density(chance, kind, q, k, small_charge))


def large_benches(chance):
    """As many words as are allowed, and a few with somewhat fewer."""
    shapes = [(2, n, 13 - n) for n in range(1, 13)]
    shapes += [(8, n, 5 - n) for n in range(1, 5)] * 3
    shapes += [(4, n, 7 - n) for n in (1, 3, 6)]
    shapes += [(3, n, 8 - n) for n in (2, 5, 7)]
    shapes += [(5, 3, 3), (6, 2, 3), (7, 4, 1), (2, 10, 2), (2, 12, 1), (2, 12, 1)]
    return [judge_line(chance, kind, q, n, k, large_rule(chance, q, n),
                       large_density(chance, kind, q, k))
            for q, n, k in shapes for kind in [chance.below(len(KINDS))]]


# Groups of compare cases


def shifted_charges(q, k, charges, wider, offset):
    """The density read from a later letter on, with letters around it that weigh nothing."""
    by_word = dict(zip(words(q, k), charges))
    return by_words(q, k + wider, lambda word: by_word[word[offset:offset + k]])


def comparisons(chance):
    """Equal, shifted and changed densities, and densities that differ by a difference."""
    lines = []
    for _ in range(450):
        kind = chance.below(len(KINDS))
        q = chance.between(2, 8)
        k = chance.pick([k for k in range(1, 6) if q**k <= 64])
        wider = chance.pick([w for w in range(3) if q ** (k + w) <= 64])
        first = random_density(chance, kind, q, k, small_charge)
        offset = chance.between(0, wider)
        second = shifted_charges(q, k, first, wider, offset)
        if chance.happens(40):
            second = plus_all(kind, second, difference_density(chance, kind, q, k + wider))
        if chance.happens(30):
            second = changed(chance, second, random_charge(chance, kind))
        parts = [table_part(kind, q, k, first), table_part(kind, q, k + wider, second)]
        if chance.happens(50):
            parts.reverse()
        lines.append(compare_line(chance, kind, q, k + wider, *parts))
    return lines


def pattern_comparisons(chance):
    """A pattern against the same word elsewhere in a table, and against other patterns."""
    lines = []
    for _ in range(200):
        kind = chance.below(len(KINDS))
        q = chance.between(2, 8)
        k = chance.pick([k for k in range(1, 6) if q**k <= 64])
        wider = chance.pick([w for w in range(3) if q ** (k + w) <= 64])
        pattern = random_letters(chance, q, k)
        charge = small_charge(chance, kind)
        first = pattern_part(kind, q, k, pattern, charge)
        charges = by_words(
            q, k, lambda word: charge if list(word) == pattern else KINDS[kind].zero)
        second = shifted_charges(q, k, charges, wider, chance.between(0, wider))
        if chance.happens(25):
            second = changed(chance, second, random_charge(chance, kind))
        parts = [first, table_part(kind, q, k + wider, second)]
        if chance.happens(50):
            parts.reverse()
        lines.append(compare_line(chance, kind, q, k + wider, *parts))
    for _ in range(200):
        kind = chance.below(len(KINDS))
        q = chance.between(2, 8)
        widths = [k for k in range(1, 7) if q**k <= 64]
        k, other = chance.pick(widths), chance.pick(widths)
        pattern = random_letters(chance, q, k)
        charge = random_charge(chance, kind)
        second = pattern_part(kind, q, other, random_letters(chance, q, other),
                              random_charge(chance, kind))
        if chance.happens(30):
            second = pattern_part(kind, q, k, pattern[::-1], charge)
            other = k
        lines.append(compare_line(chance, kind, q, max(k, other),
                                  pattern_part(kind, q, k, pattern, charge), second))
    for kind in KINDS:
        for k in range(2, 13):
            # A run of ones begins as often as it ends.
            charge = small_charge(chance, kind)
            room = (2 ** (k - 1), 2 * k - 1)
            if k <= 8 or kind in (PITCH, CENTS):
                lines.append(line(COMPARE, kind, *room,
                                  pattern_part(kind, 2, k, [0] + [1] * (k - 1), charge),
                                  pattern_part(kind, 2, k, [1] * (k - 1) + [0], charge)))
    lines.append(line(COMPARE, CHANNELS, 512, 7,
                      pattern_part(CHANNELS, 8, 4, [0, 0, 0, 7], 3),
                      pattern_part(CHANNELS, 8, 1, [7], 3)))
    return lines


def any_comparisons(chance):
    lines = []
    for _ in range(250):
        kind = chance.below(len(KINDS))
        q = chance.between(2, 8)
        widths = [k for k in range(1, 6) if q**k <= 64]
        k, other = chance.pick(widths), chance.pick(widths)
        lines.append(compare_line(chance, kind, q, max(k, other),
                                  any_density(chance, kind, q, k),
                                  any_density(chance, kind, q, other)))
    return lines


# Groups of rings


def draw_window(chance):
    """An alphabet size and a window or width, seldom of one letter."""
    q = chance.between(2, 8)
    if chance.happens(10):
        return q, 1
    return q, chance.pick([n for n in range(2, 8) if q**n <= 128])


def ring_length(chance, window):
    """A length below the window, near it or beyond."""
    if chance.happens(8):
        return 1
    return chance.pick([chance.between(1, window), window + chance.below(3),
                        chance.between(3, 40)])


def next_rings(chance):
    lines = []
    for _ in range(350):
        q, n = draw_window(chance)
        length = ring_length(chance, n)
        room = length + chance.pick([0, 0, 1, 7, 60])
        if chance.happens(4):
            room = length - 1
        lines.append(line(NEXT_RING, chance.below(len(KINDS)), chance.pick([0, 0, 5]), room,
                          any_rule(chance, q, n), ring_part(random_letters(chance, q, length))))
    for n in range(1, 13):
        for length in (1, 2, n, n + 1):
            rule = rule_part(SUM, 2, n, chance.below(n), random_letters(chance, 2, n + 1))
            lines.append(line(NEXT_RING, VOICES, 0, length, rule,
                              ring_part(random_letters(chance, 2, length))))
    longest = random_letters(chance, 2, LONGEST_RING)
    lines.append(line(NEXT_RING, VOICES, 0, LONGEST_RING, elementary_part(110),
                      ring_part(longest)))
    return lines


def totals(chance):
    lines = []
    for _ in range(350):
        kind = chance.below(len(KINDS))
        q, k = draw_window(chance)
        length = ring_length(chance, k)
        lines.append(line(TOTAL, kind, 0, 0, any_density(chance, kind, q, k),
                          ring_part(random_letters(chance, q, length))))
    for kind in KINDS:
        for k in range(1, 13):
            pattern = random_letters(chance, 2, 1) * k
            density = pattern_part(kind, 2, k, pattern, random_charge(chance, kind))
            lines.append(line(TOTAL, kind, 0, 0, density, ring_part(pattern[:1])))
    for charges in ([0, HIGHEST_VOICES], [LOWEST_VOICES, 0]):
        lines.append(line(TOTAL, VOICES, 0, 0, table_part(VOICES, 2, 1, charges),
                          ring_part(random_letters(chance, 2, LONGEST_RING))))
    return lines


# Groups of refusals


# Alphabet sizes out of range; some look right when all but their low bits are lost.
BAD_ALPHABETS = [0, 1, 9, 10, 99, 258, 65538, 2**32 + 2]
BAD_WINDOWS = [0, 13, 14, 99, 259, 65537, 2**32 + 3]
FAR_REACHES = [12, 13, 99, 256, 65536, 2**32]
BAD_LETTERS = [2, 3, 9, 99, 255]
# Kinds of which some charges are no entries; those in cents are too large or have a digit
# above nine: 1199 and 1200 are sixteen bits here, 0x04AF and 0x04B0.
RANGED = (VOICES, BOTH, CENTS)
BAD_CENTS = [0x1200, 0x000A, 0x0A00, 0xA000, 0x00F0, 0x119A, 0x9999, 0xFFFF, 1199, 1200]
RULE_CODES = (4, 5, 6, 9, 12, 14)
DENSITY_CODES = (4, 7, 9, 12, 14, 15)


def code_sets(chance, codes):
    """Each code, the highest more often, each two, and some larger sets."""
    sets = [[code] for code in codes] * 3 + [[code] for code in codes[-3:]] * 5
    sets += [[a, b] for a in codes for b in codes if a < b] * 2
    sets += [[code for code in codes if chance.happens(60)] for _ in range(12)]
    return sets


def faulty_rule(chance, form, codes):
    """A rule part that these codes fit, wherever all of them can."""
    q, n = chance.pick([(2, 3), (2, 1), (3, 2), (5, 1), (8, 1)])
    if 9 in codes:
        q, n = chance.pick([(8, 5), (3, 8), (4, 7), (5, 6), (8, 12)])
    l = chance.below(n)
    count = n * (q - 1) + 1 if form == SUM else min(q**n, 100)
    letters = random_letters(chance, q, count) + random_letters(chance, 256, chance.below(4))
    if 12 in codes:
        letters = letters[:count - chance.pick([1, 1, 2, count])]
    if 14 in codes:
        for _ in range(chance.between(1, 2)):
            if letters:
                at = chance.below(min(count, len(letters)))
                letters[at] = chance.pick([q, q + 1, 255])
    if 6 in codes:
        l = chance.pick([n, n + 1, n + 12, *FAR_REACHES])
    if 5 in codes:
        n = chance.pick(BAD_WINDOWS)
    if 4 in codes:
        q = chance.pick(BAD_ALPHABETS)
    return rule_part(form, q, n, l, letters)


def bad_charge(chance, kind):
    """A charge that is no entry, for the kinds that have such."""
    if kind == CENTS:
        return chance.pick(BAD_CENTS)
    signed = chance.pick([LOWEST_VOICES - 1, HIGHEST_VOICES + 1, -(2**32), 2**32,
                          -(2**63), 2**63 - 1])
    return (signed, chance.below(PITCH_CLASSES)) if kind == BOTH else signed


def faulty_density(chance, kind, form, codes):
    """A density part that these codes fit, wherever all of them can."""
    q, k = chance.pick([(2, 3), (2, 1), (3, 2), (5, 1), (8, 1)])
    if 9 in codes:
        q, k = chance.pick([(8, 5), (3, 8), (4, 7), (5, 6), (8, 12)])
    out_of_range = 15 in codes and kind in RANGED
    count = k if form == PATTERN else min(q**k, 100)
    keep = count - chance.pick([1, 1, 2, count]) if 12 in codes else None
    if form == PATTERN:
        values = random_letters(chance, q, count) + random_letters(chance, 256, chance.below(4))
    else:
        values = [random_charge(chance, kind) for _ in range(count + chance.below(3))]
    values = values[:keep] if keep is None or keep >= 0 else []
    reached = min(count, len(values))
    if form == PATTERN:
        if 14 in codes and reached:
            values[chance.below(reached)] = chance.pick([q, q + 1, 255])
    elif out_of_range and reached:
        for _ in range(chance.between(1, 2)):
            values[chance.below(reached)] = bad_charge(chance, kind)
    if 7 in codes:
        k = chance.pick(BAD_WINDOWS)
    if 4 in codes:
        q = chance.pick(BAD_ALPHABETS)
    if form == PATTERN:
        charge = bad_charge(chance, kind) if out_of_range else random_charge(chance, kind)
        return pattern_part(kind, q, k, values, charge)
    return table_part(kind, q, k, values)


def faulty_rules(chance):
    lines = []
    for form in (TABLE, SUM):
        for codes in code_sets(chance, RULE_CODES):
            rule = faulty_rule(chance, form, codes)
            kind = chance.below(len(KINDS))
            if chance.happens(70):
                # The second part may be faulty too: the first is made first.
                density = chance.pick([
                    table_part(kind, 2, 1, [KINDS[kind].zero] * 2),
                    faulty_density(chance, kind, chance.below(2),
                                   [chance.pick(DENSITY_CODES)])])
                lines.append(line(JUDGE, kind, 40, 40, rule, density))
            else:
                lines.append(line(NEXT_RING, kind, 0, 9, rule, ring_part(
                    random_letters(chance, 2, chance.between(0, 9)))))
    return lines


def faulty_densities(chance):
    lines = []
    for kind in KINDS:
        for form in (TABLE, PATTERN):
            for codes in code_sets(chance, DENSITY_CODES):
                density = faulty_density(chance, kind, form, codes)
                call = chance.pick([JUDGE, COMPARE, COMPARE, TOTAL])
                good = table_part(kind, 2, 1, [KINDS[kind].zero] * 2)
                if call == JUDGE:
                    lines.append(line(JUDGE, kind, 40, 40, elementary_part(184), density))
                elif call == TOTAL:
                    lines.append(line(TOTAL, kind, 0, 0, density, ring_part(
                        random_letters(chance, 2, chance.between(0, 9)))))
                else:
                    second = chance.pick([good, faulty_density(
                        chance, kind, form, [chance.pick(DENSITY_CODES)])])
                    parts = [density, second] if chance.happens(50) else [good, density]
                    lines.append(line(COMPARE, kind, 40, 40, *parts))
    return lines


def surplus_values(chance):
    """Wrong letters and entries past those that are needed: they are ignored."""
    lines = []
    for _ in range(40):
        kind = chance.below(len(KINDS))
        rule = rule_part(TABLE, 2, 2, chance.below(2),
                         random_letters(chance, 2, 4) + random_letters(chance, 256, 3))
        if chance.happens(50):
            rule = rule_part(SUM, 3, 2, chance.below(2),
                             random_letters(chance, 3, 5) + random_letters(chance, 256, 3))
        q = rule[1]
        density = pattern_part(kind, q, 2, random_letters(chance, q, 2) + [q, 255],
                               random_charge(chance, kind))
        if chance.happens(50):
            surplus = [random_charge(chance, kind)]
            if kind in RANGED:
                surplus = [bad_charge(chance, kind)]
            density = table_part(kind, q, 1, random_density(chance, kind, q, 1) + surplus)
        lines.append(line(JUDGE, kind, 9, 5, rule, density))
    return lines


def small_rule(chance, q, n):
    return rule_part(SUM, q, n, chance.below(n), random_letters(chance, q, n * (q - 1) + 1))


def small_density(chance, kind, q, k):
    return pattern_part(kind, q, k, random_letters(chance, q, k), small_charge(chance, kind))


def refused_benches(chance):
    """Judge and compare refused by 8, 9 and 12, one at a time and together."""
    lines = []
    for _ in range(40):
        kind = chance.below(len(KINDS))
        q = chance.between(2, 8)
        other = chance.pick([a for a in range(2, 9) if a != q])
        wide = chance.happens(40)
        n, k = (4, 4) if wide else (2, 1)
        room = chance.pick([(4096, 4096), (0, 0)])
        lines.append(line(JUDGE, kind, *room, small_rule(chance, q, n),
                          small_density(chance, kind, other, k)))
        lines.append(line(COMPARE, kind, *room, small_density(chance, kind, q, n),
                          small_density(chance, kind, other, k)))
    for q in range(2, 9):
        most = max(m for m in range(1, 13) if q**m <= LARGEST_SIZE)
        for n in range(1, most + 1):
            k = most + 2 - n
            if k <= most:
                kind = chance.below(len(KINDS))
                room = chance.pick([(4096, 4096), (0, 0)])
                lines.append(line(JUDGE, kind, *room, small_rule(chance, q, n),
                                  small_density(chance, kind, q, k)))
    for _ in range(25):
        kind = chance.below(len(KINDS))
        q, n, k = draw_shape(chance)
        m = n + k - 1
        for crossing_room, ring_room in (
                (q ** (m - 1) - 1, 2 * m - 1), (q ** (m - 1), 2 * m - 2), (0, 0),
                (LARGEST_SIZE, 2 * m - 2), (q ** (m - 1) - 1, LARGEST_SIZE),
                (q ** (m - 1), 2 * m - 1)):
            lines.append(line(JUDGE, kind, crossing_room, ring_room,
                              small_rule(chance, q, n), small_density(chance, kind, q, k)))
    for _ in range(20):
        kind = chance.below(len(KINDS))
        q = chance.between(2, 8)
        widths = [k for k in range(1, 5) if q**k <= 64]
        k, other = chance.pick(widths), chance.pick(widths)
        m = max(k, other)
        for crossing_room, ring_room in (
                (q ** (m - 1) - 1, 2 * m - 1), (q ** (m - 1), 2 * m - 2), (0, 0),
                (q ** (m - 1), 2 * m - 1)):
            lines.append(line(COMPARE, kind, crossing_room, ring_room,
                              small_density(chance, kind, q, k),
                              small_density(chance, kind, q, other)))
    return lines


def refused_rings(chance):
    """Next ring refused by 11, 12 and 14 and total by 11 and 14, singly and together."""
    lines = []
    for _ in range(60):
        kind = chance.below(len(KINDS))
        q, n, k = draw_shape(chance)
        length = chance.between(1, 12)
        ring = random_letters(chance, q, length)
        for _ in range(chance.between(1, 3)):
            ring[chance.below(length)] = chance.pick([q, q + 1, *BAD_LETTERS])
        room = length - chance.pick([0, 0, 0, 1, length])
        lines.append(line(NEXT_RING, kind, 0, room, small_rule(chance, q, n),
                          ring_part(ring)))
        lines.append(line(TOTAL, kind, 0, 0, small_density(chance, kind, q, k),
                          ring_part(ring)))
    too_long = random_letters(chance, 2, LONGEST_RING + 1)
    for ring in ([], too_long, too_long[:-1] + [2], [9] + too_long[:-1]):
        room = chance.pick([0, LONGEST_RING])
        lines.append(line(NEXT_RING, VOICES, 0, room, elementary_part(30), ring_part(ring)))
        lines.append(line(TOTAL, VOICES, 0, 0, table_part(VOICES, 2, 1, [0, 1]),
                          ring_part(ring)))
    lines.append(line(NEXT_RING, VOICES, 0, LONGEST_RING - 1, elementary_part(30),
                      ring_part(too_long[:-1])))
    lines.append(line(NEXT_RING, VOICES, 0, LONGEST_RING, elementary_part(30), ring_part([])))
    return lines


def all_lines(keeping):
    """Every line once, in the order in which it first comes."""
    chance = Chance(SEED)
    groups = [
        worked_examples(), elementary_rules(), four_input_rules(chance, keeping),
        any_benches(chance), shifting_benches(chance), constant_benches(chance),
        conserving_benches(chance), sum_benches(chance), hidden_breaks(chance),
        cents_benches(chance), cents_entries(chance), one_letter_benches(chance),
        large_benches(chance), comparisons(chance),
        pattern_comparisons(chance), any_comparisons(chance), next_rings(chance),
        totals(chance), faulty_rules(chance), faulty_densities(chance),
        surplus_values(chance), refused_benches(chance), refused_rings(chance),
    ]
    return list(dict.fromkeys(text for group in groups for text in group))


# Checks


WORKED_RESULTS = [
    "holds 0,0,1,0 clean",
    "breaks 100 10000 1 2 0,-1,0,-1 clean",
    "holds 0,1,1,0 clean",
    "breaks 00 00 0 8 8,8 clean",
    "breaks 00 00 0 800 800,800 clean",
    "breaks 0 0 0 1 0 clean",
    "agree 0,1 clean",
    None,
    "refused 9 0",
    None,
    "first 5 0",
]


def check_worked_examples():
    """The examples with known results; None stands for a verdict, whichever it is."""
    results = [result_line(text) for text in worked_examples()]
    assert len(results) == len(WORKED_RESULTS)
    for result, expected in zip(results, WORKED_RESULTS):
        if expected is None:
            assert result.split()[0] in ("holds", "breaks"), result
        else:
            assert result == expected, (result, expected)


def check_elementary():
    """Five elementary rules keep the ones, and no other; and their number in thirds."""
    results = [result_line(text) for text in elementary_rules()]
    holding, _, thirds = [[number for number, result in enumerate(results[at:at + 256])
                           if result.startswith("holds")] for at in (0, 256, 512)]
    assert tuple(holding) == KEEPING_ELEMENTARY, holding
    assert set(holding) <= set(thirds), thirds


def check_laws():
    """The laws of a commutative group, on some charges of each kind."""
    chance = Chance(SEED)
    for number, kind in KINDS.items():
        charges = [random_charge(chance, number) for _ in range(12)] + [kind.zero]
        if number == VOICES:
            charges += [2**63 - 1, -(2**63)]
        if number == CENTS:
            charges += BAD_CENTS
        for a in charges:
            assert kind.same(kind.plus(kind.zero, a), a)
            assert kind.plus(a, kind.opposite(a)) == kind.zero
            for b in charges:
                assert kind.plus(a, b) == kind.plus(b, a)
                for c in charges:
                    assert kind.plus(kind.plus(a, b), c) == kind.plus(a, kind.plus(b, c))


def check_cents():
    """What sixteen bits mean in cents, and which may be entries."""
    kind = KINDS[CENTS]
    for value in range(OCTAVE):
        assert cents_value(cents_charge(value)) == value
    entries = [bits for bits in range(2**16) if kind.is_entry(bits)]
    assert entries == list(map(cents_charge, range(OCTAVE)))
    for bits, value in ((0x0119, 119), (0x1199, 1199), (0x1200, 0), (0x000A, 10),
                        (0x0A00, 1000), (0xA000, 400), (0x00F0, 150), (0xFFFF, 1065)):
        assert kind.text(bits) == str(value), hex(bits)
        assert kind.plus(bits, 0) == cents_charge(value)
    assert kind.plus(0x0999, 0x0001) == 0x1000
    assert kind.plus(0x1199, 0x0001) == 0
    assert kind.plus(0x0702, 0x0702) == 0x0204
    assert kind.opposite(0x0386) == 0x0814
    assert kind.same(0x000A, 0x0010) and kind.same(0x1200, 0) and not kind.same(0x000A, 0)


def rings_up_to(q, longest):
    for length in range(1, longest + 1):
        yield from words(q, length)


# For each q the longest rings that are tried, and on how many lines of each verdict.
TRIED = {2: (8, 100), 3: (8, 6), 4: (6, 15), 5: (5, 15), 6: (4, 15), 7: (4, 10), 8: (4, 10)}


@dataclass
class Bench:
    """The two parts of a judge or compare line, with their label."""
    kind: Kind
    label: Label
    totals: Callable  # the two totals of a ring


def read_bench(text):
    call, kind, _, _, make_first, make_second = read_case(text)
    first, second = make_first(), make_second()
    if call == COMPARE:
        return Bench(kind, two_label(first, second),
                     lambda ring: (ring_total(first, ring), ring_total(second, ring)))
    return Bench(kind, rule_label(first, second),
                 lambda ring: (ring_total(second, step(first, ring)),
                               ring_total(second, ring)))


def no_ring_differs(bench, longest):
    """Whether all rings up to a length have the two totals equal."""
    return not any(first != second for first, second in
                   map(bench.totals, rings_up_to(bench.label.q, longest)))


def check_on_rings(lines, results):
    """Verdicts against all short rings, where ring A is no longer than these."""
    tried = Counter()
    for text, result in zip(lines, results):
        word = result.split(" ", 1)[0]
        if word not in FINDINGS:
            continue
        bench = read_bench(text)
        q, m = bench.label.q, bench.label.m
        longest, most = TRIED[q]
        if 2 * m - 1 > longest or tried[word, q] >= most:
            continue
        tried[word, q] += 1
        assert no_ring_differs(bench, longest) == (word in ("holds", "agree")), text
    return tried


def check_label_sums(lines, results):
    """On each shown ring the label's sum is the difference of the two totals."""
    for text, result in zip(lines, results):
        word, *fields = result.split(" ")
        if word in ("breaks", "differ"):
            bench = read_bench(text)
            ring = [int(digit) for digit in fields[1]]
            gain = bench.kind.minus(*bench.totals(ring))
            assert label_sum(bench.label, ring) == gain != bench.kind.zero, text


def count_ring_b(results):
    """How many shown rings are ring B: ring A has an odd number of cells."""
    shown = [result.split(" ")[2] for result in results
             if result.startswith(("breaks", "differ"))]
    return sum(len(ring) % 2 == 0 for ring in shown)


def result_word(result):
    """A result's first word, and its code if it is a refusal."""
    word, field, *_ = result.split(" ")
    return f"{word} {field}" if word in ("first", "second", "refused") else word


# The refusals that there are: of making a part, of judge and compare, of rings.
REFUSALS = {f"first {code}" for code in (4, 5, 6, 7, 9, 12, 14, 15)}
REFUSALS |= {f"second {code}" for code in (4, 7, 9, 12, 14, 15)}
REFUSALS |= {f"refused {code}" for code in (8, 9, 11, 12, 14)}
LEAST_PER_WORD = 8
CENTS_REFUSED = {"first 15", "second 15"}
LEAST_RING_B = 100


def check_counts(counts, results):
    assert set(counts) == ANSWERS | REFUSALS, set(counts) ^ (ANSWERS | REFUSALS)
    assert min(counts.values()) >= LEAST_PER_WORD, counts
    assert count_ring_b(results) >= LEAST_RING_B


def check_cents_results(lines, results):
    """Benches in cents hold and break at every width, and entries beyond them are refused."""
    widths = {"holds": set(), "breaks": set()}
    counts = Counter()
    for text, result in zip(lines, results):
        call, kind = text.split(" ", 2)[:2]
        if int(kind) != CENTS:
            continue
        word = result_word(result)
        counts[word] += 1
        if int(call) == JUDGE and word in widths:
            widths[word].add(read_case(text)[5]().k)
    assert widths == {"holds": set(range(1, 13)), "breaks": set(range(1, 13))}, widths
    assert ANSWERS | CENTS_REFUSED <= set(counts), counts
    return counts


def main():
    check_cents()
    check_laws()
    check_worked_examples()
    check_elementary()
    keeping = keeping_four_inputs()
    assert len(keeping) == KEEPING_FOUR_INPUTS, keeping
    lines = all_lines(keeping)
    results = [result_line(text) for text in lines]
    counts = Counter(map(result_word, results))
    check_counts(counts, results)
    check_label_sums(lines, results)
    cents = check_cents_results(lines, results)
    tried = check_on_rings(lines, results)
    write_lines(CASES_FOLDER, "stdin", lines, MOST_FILE_BYTES)
    write_lines(CASES_FOLDER, "stdout", results, MOST_FILE_BYTES)
    print(f"cases: {len(lines)}", file=sys.stderr)
    for word, count in sorted(counts.items()):
        print(f"{word}: {count}", file=sys.stderr)
    print(f"in cents: {sum(cents.values())}", file=sys.stderr)
    print(f"ring B shown: {count_ring_b(results)}", file=sys.stderr)
    print(f"tried on all short rings: {sum(tried.values())}", file=sys.stderr)


if __name__ == "__main__":
    main()
