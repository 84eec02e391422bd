# Writes the player cases: crates/player_cases/stdin holds one case a line, and
# crates/player_cases/stdout the expected result of each, by ring_player.py; the lines
# are explained in player_lines.py. The cases come from a fixed seed, so running it
# again writes the same files. Counts go to stderr. Before anything is written
# ring_player.py is checked: on a worked example, and on every case in which a ring is
# open by the law of arcs.

import sys
from collections import Counter
from dataclasses import dataclass
from pathlib import Path

sys.dont_write_bytecode = True

from case_files import Chance, write_lines
from judge_draws import (
    changed, constant_density, difference_density, letter_density, plus_all,
    random_letters, shift_table, small_charge, traffic_table, turning_unit,
)
from judge_lines import PATTERN, SUM, TABLE, pattern_part, rule_part, table_part
from make_judge_cases import (
    KEEPING_ELEMENTARY, SMALL_SHAPES, any_density, any_rule, conserving_bench, draw_shape,
    elementary_part,
)
from player_lines import ask_later, line, player_strips, read_case, result_lines
from preset_format import BOTH, CENTS, CHANNELS, KIND_NAMES, PITCH, VOICES
from ring_judge import KINDS, LONGEST_RING, cents_charge
from ring_player import CLOSE, DONE, OPEN, READ, STEP, TOUCH, Player, Reading, Refused

CASES_FOLDER = Path(__file__).resolve().parent.parent / "crates" / "player_cases"
SEED = 184
MOST_FILE_BYTES = 1_000_000
CALL_NAMES = ("open", "touch", "step", "read", "close")


# Benches


@dataclass
class Bench:
    kind: int
    q: int
    n: int
    k: int
    rule: list
    density: list

    @property
    def m(self):
        return self.n + self.k - 1


def draw_wide_shape(chance, least):
    """A shape with a window of at least so many cells."""
    q = chance.pick([2, 2, 3, 4] if least > 2 else [2, 2, 3, 4, 5, 6, 7, 8])
    return (q, *chance.pick([(n, k) for n, k in SMALL_SHAPES[q] if n >= least]))


def draw_unit(chance, kind):
    """A small charge that is not zero."""
    return chance.pick([charge for charge in [small_charge(chance, kind) for _ in range(9)]
                        if charge != KINDS[kind].zero])


def elementary_bench(chance):
    """An elementary rule that keeps the ones, which may stand anywhere in wider words."""
    kind = chance.below(len(KINDS))
    k = chance.pick([1, 1, 2, 3])
    charges = letter_density(chance, kind, 2, k, draw_unit(chance, kind))
    return Bench(kind, 2, 3, k, elementary_part(chance.pick(KEEPING_ELEMENTARY)),
                 table_part(kind, 2, k, charges))


def traffic_bench(chance):
    """A rule by which each cell hands on what fits, and letters that weigh what they count."""
    kind = chance.below(len(KINDS))
    q, n, k = draw_wide_shape(chance, 3)
    charges = letter_density(chance, kind, q, k, draw_unit(chance, kind))
    rule = rule_part(TABLE, q, n, chance.below(n), traffic_table(chance, q, n))
    return Bench(kind, q, n, k, rule, table_part(kind, q, k, charges))


def shifting_bench(chance):
    """A rule that turns the ring, under any density."""
    kind = chance.below(len(KINDS))
    q, n, k = draw_wide_shape(chance, 2)
    rule = rule_part(TABLE, q, n, chance.below(n), shift_table(chance, q, n))
    return Bench(kind, q, n, k, rule, any_density(chance, kind, q, k))


def keeping_bench(chance):
    """A rule that keeps a total by its making."""
    kind = chance.below(len(KINDS))
    q, n, k = draw_shape(chance)
    letters, charges = conserving_bench(chance, kind, q, n, k)
    return Bench(kind, q, n, k, rule_part(TABLE, q, n, chance.below(n), letters),
                 table_part(kind, q, k, charges))


def sum_bench(chance):
    """The sum modulo q of a window of q·t + 1 cells, under charges that turn with q."""
    kind = chance.pick([PITCH, CHANNELS, CHANNELS, BOTH, CENTS])
    q, n = chance.pick([(2, 3), (2, 3), (2, 5)] if kind == CHANNELS else
                       [(2, 3), (2, 5), (3, 4), (3, 4), (6, 1)])
    k = chance.pick([k for k in range(1, 4) if q ** (n + k - 2) <= 64])
    letters = [a % q for a in range(n * (q - 1) + 1)]
    charges = letter_density(chance, kind, q, k, turning_unit(chance, kind, q))
    return Bench(kind, q, n, k, rule_part(SUM, q, n, chance.below(n), letters),
                 table_part(kind, q, k, charges))


def constant_bench(chance):
    """A density whose total no rule can change."""
    kind = chance.below(len(KINDS))
    q, n, k = draw_shape(chance)
    charges = plus_all(kind, constant_density(chance, kind, q, k),
                       difference_density(chance, kind, q, k))
    if not all(map(KINDS[kind].is_entry, charges)):
        charges = constant_density(chance, kind, q, k)
    rule = rule_part(SUM, q, n, chance.below(n), random_letters(chance, q, n * (q - 1) + 1))
    return Bench(kind, q, n, k, rule, table_part(kind, q, k, charges))


def still_bench(chance):
    """A rule that changes nothing, by sums of one cell, under any density."""
    kind = chance.below(len(KINDS))
    q = chance.between(2, 8)
    k = chance.pick([k for n, k in SMALL_SHAPES[q] if n == 1])
    return Bench(kind, q, 1, k, rule_part(SUM, q, 1, 0, list(range(q))),
                 any_density(chance, kind, q, k))


def any_bench(chance):
    """A rule and a density that have nothing to do with each other."""
    kind = chance.below(len(KINDS))
    q, n, k = draw_shape(chance)
    return Bench(kind, q, n, k, any_rule(chance, q, n), any_density(chance, kind, q, k))


def spoilt_bench(chance):
    """A bench that holds but for one answer that may be changed."""
    bench = traffic_bench(chance)
    form, q, n, l, _, *letters = bench.rule
    bench.rule = rule_part(form, q, n, l, changed(chance, letters, chance.below(q)))
    return bench


DRAWS = [
    (elementary_bench, 75), (traffic_bench, 55), (shifting_bench, 75), (keeping_bench, 38),
    (sum_bench, 50), (constant_bench, 44), (still_bench, 12), (any_bench, 25),
    (spoilt_bench, 30),
]


# Scripts and strips


def flat(lists):
    return [number for numbers in lists for number in numbers]


def draw_length(chance, m):
    """A length below the window, near it or beyond, up to about twelve."""
    return chance.pick([chance.between(1, m), chance.between(1, m), m + chance.below(3),
                        chance.between(1, 12), chance.between(5, 12)])


def draw_ring(chance, bench):
    if chance.happens(4):
        return []
    ring = random_letters(chance, bench.q, draw_length(chance, bench.m))
    if chance.happens(8):
        for _ in range(chance.between(1, 2)):
            ring[chance.below(len(ring))] = chance.pick([bench.q, bench.q + 1, 9, 255])
    return ring


IDLE_NAMES = [OPEN] * 12 + [TOUCH, STEP, READ, CLOSE]
OPEN_NAMES = [TOUCH] * 6 + [STEP] * 8 + [READ] * 7 + [CLOSE, OPEN]


def draw_site(chance, length):
    if chance.happens(6):
        return chance.pick([length, length + 1, LONGEST_RING, 2**63 - 1])
    return chance.below(max(length, 1))


def draw_letter(chance, q):
    return chance.pick([q, q + 1, 255]) if chance.happens(6) else chance.below(q)


def draw_call(chance, bench, rings, length):
    """A call as three numbers; length is that of the open ring, or None."""
    name = chance.pick(IDLE_NAMES if length is None else OPEN_NAMES)
    if name == OPEN:
        at = chance.below(len(rings))
        return [OPEN, sum(map(len, rings[:at])), len(rings[at])]
    site = draw_site(chance, length or 0)
    if name == TOUCH:
        return [TOUCH, site, draw_letter(chance, bench.q)]
    return [READ, site, 0] if name == READ else [name, 0, 0]


def draw_script(chance, bench, rings):
    """Calls that take it that no strip is too short."""
    calls, length = [], None
    letters = flat(rings)
    count = chance.between(1, 30) if chance.happens(30) else chance.between(15, 30)
    for _ in range(count):
        name, first, second = call = draw_call(chance, bench, rings, length)
        calls.append(call)
        if name == OPEN and length is None and second > 0:
            length = second if max(letters[first:first + second]) < bench.q else None
        elif name == CLOSE:
            length = None
    return calls


def draw_rooms(chance, bench, rings, calls):
    """Lengths of the strips: mostly enough, exactly or with some to spare."""
    longest = max(map(len, rings))
    if chance.happens(10):
        longest = len(chance.pick(rings))
    strips = [longest + chance.pick([0, 0, 1, 2, 5]) for _ in range(5)]
    if chance.happens(16):
        at = chance.pick([0, 1, 1, 1, 2, 3, 4])
        strips[at] = max(longest - chance.pick([1, 1, 2, longest]), 0)
    crossings, ring = bench.q ** (bench.m - 1), 2 * bench.m - 1
    rooms = [crossings, ring, *strips, len(calls)]
    for at in (0, 1, 7):
        rooms[at] += chance.pick([0, 0, 1, 3])
    if chance.happens(7):
        at, needed = chance.pick([(0, crossings), (1, ring), (7, len(calls))])
        rooms[at] = needed - 1
    return rooms


def draw_row(chance, bench, rooms):
    """A touch, step or read on strips that may be cut down."""
    name = chance.pick([TOUCH, STEP, READ])
    cells = rooms[2]
    site = 0 if name == STEP else draw_site(chance, chance.between(1, max(cells, 1)))
    letter = draw_letter(chance, bench.q) if name == TOUCH else 0
    cut = [chance.below(room + 1) if chance.happens(8) else room for room in rooms[2:7]]
    return [name, site, letter, *cut]


def draw_later(chance, bench, rooms):
    """A letter put into a cell, which may lie past the ring or not be there, and rows."""
    letter = chance.pick([bench.q, 255, chance.below(bench.q)])
    place = rooms[2] if chance.happens(60) else chance.below(rooms[2] + 1)
    rows = [draw_row(chance, bench, rooms) for _ in range(chance.between(0, 4))]
    return [place, letter, *flat(rows)]


def case_line(chance, bench):
    rings = [draw_ring(chance, bench) for _ in range(chance.between(1, 3))]
    calls = draw_script(chance, bench, rings)
    rooms = draw_rooms(chance, bench, rings, calls)
    return line(bench.kind, rooms, bench.rule, bench.density, flat(rings), flat(calls),
                draw_later(chance, bench, rooms))


# Cases


def worked_example():
    """Rule 184: a car drives on, and another is put into the cell that it left."""
    calls = [[OPEN, 0, 4], [STEP, 0, 0], [READ, 1, 0], [READ, 2, 0], [TOUCH, 1, 1],
             [READ, 1, 0]]
    return line(VOICES, [4, 5, 4, 4, 4, 4, 4, 6], elementary_part(184),
                table_part(VOICES, 2, 1, [0, 1]), [1, 1, 0, 0], flat(calls), [4, 0])


def wide_cases(chance):
    """Windows of many cells on short rings."""
    lines = []
    for n, k in ((9, 1), (7, 3), (3, 7)):
        rule = rule_part(SUM, 2, n, n - 1, [a % 2 for a in range(n + 1)])
        charges = letter_density(chance, CHANNELS, 2, k, 5)
        bench = Bench(CHANNELS, 2, n, k, rule, table_part(CHANNELS, 2, k, charges))
        lines.append(case_line(chance, bench))
    for n, k in ((1, 8), (2, 7)):
        bench = Bench(BOTH, 2, n, k, rule_part(TABLE, 2, n, 0, shift_table(chance, 2, n)),
                      pattern_part(BOTH, 2, k, random_letters(chance, 2, k), (3, 7)))
        lines.append(case_line(chance, bench))
    for n, k in ((7, 2), (2, 7)):
        bench = Bench(CENTS, 2, n, k, rule_part(TABLE, 2, n, 0, shift_table(chance, 2, n)),
                      pattern_part(CENTS, 2, k, random_letters(chance, 2, k),
                                   cents_charge(999)))
        lines.append(case_line(chance, bench))
    return lines


def long_rings(chance):
    """A ring of the most cells that are allowed, and rings of one cell more."""
    letters = random_letters(chance, 2, LONGEST_RING + 1)
    most = [OPEN, 1, LONGEST_RING]
    beyond = [OPEN, 0, LONGEST_RING + 1]
    last = LONGEST_RING - 1
    calls = [beyond, most, [STEP, 0, 0], [READ, last, 0], [TOUCH, last, 1], [TOUCH, 0, 0],
             [READ, LONGEST_RING, 0], [STEP, 0, 0], [READ, 0, 0]]
    rule, density = elementary_part(184), table_part(VOICES, 2, 2, [0, 1, 2, 3])
    lines = [line(VOICES, [8, 7, *[LONGEST_RING + 1] * 5, len(calls)], rule, density,
                  letters, flat(calls), [0, 1])]
    letters[-1] = 9
    calls = [beyond, most, [OPEN, 1, 3], [STEP, 0, 0], beyond, [CLOSE, 0, 0], beyond, most]
    lines.append(line(VOICES, [8, 7, *[3] * 5, len(calls)], rule, density,
                      letters, flat(calls), [0, 1]))
    return lines


def all_lines():
    """Every line once, in the order in which it first comes."""
    chance = Chance(SEED)
    lines = [worked_example()]
    lines += [case_line(chance, draw(chance)) for draw, count in DRAWS for _ in range(count)]
    lines += wide_cases(chance) + long_rings(chance)
    return list(dict.fromkeys(lines))


# Checks and counts


ARCS_AFTER_EACH_CALL = 64


def check_worked_example():
    """The worked example's cells and readings, and its first lines."""
    case = read_case(worked_example())
    player, strips = Player(case.rule, case.density), player_strips(case)
    assert [player.ask(call, strips) for call in case.script[:2]] == [DONE, DONE]
    assert strips.spare == [1, 1, 0, 0] and strips.cells == [1, 0, 1, 0], strips
    answers = [player.ask(call, strips) for call in case.script[2:]]
    assert answers == [Reading(1, 0, 0, 0), Reading(0, 1, 0, 1), DONE,
                       Reading(1, 0, 1, 1)], answers
    assert strips.cells == [1, 1, 1, 0], strips
    assert result_lines(case)[:4] == ["holds open", "done", "done", "reading 1:0 0:0 0:0 0:0"]


def check_cents_example():
    """Letters that move to the left, in cents: sums beyond an octave and opposites."""
    calls = [[OPEN, 0, 4], [STEP, 0, 0], [TOUCH, 0, 3], [STEP, 0, 0], [READ, 1, 0]]
    case = read_case(line(CENTS, [4, 3, 4, 4, 5, 5, 5, 5],
                          rule_part(TABLE, 4, 2, 0, [0, 1, 2, 3] * 4),
                          table_part(CENTS, 4, 1, [0, 0x0386, 0x0702, 0x1199]),
                          [0, 1, 2, 3], flat(calls), [4, 0]))
    player, strips = Player(case.rule, case.density), player_strips(case)
    answers = [player.ask(call, strips) for call in case.script]
    assert answers[-1] == Reading(0x0386, 0x0112, 0, 0x1199), answers
    assert strips.cells == [2, 3, 0, 3] and strips.touched[:4] == [0x0813, 0, 0, 0], strips
    assert strips.crossed[:4] == [0x0001, 0x0112, 0x0499, 0x0001], strips
    # past the ring each strip keeps its mark
    assert [strips.opening[4], strips.crossed[4], strips.touched[4]] == [8, 0, 4], strips


def window_of(call, player):
    """The most cells that a call takes together around a site."""
    if call.name == STEP:
        return max(player.rule.n, player.label.m - 1)
    return player.density.k


def count_call(counts, player, call, answer, where):
    name = CALL_NAMES[call.name]
    if answer is None:
        counts[f"untimely {name}"] += 1
    elif isinstance(answer, Refused):
        counts[f"{where} {name} refused {answer.code}"] += 1
    else:
        counts[f"{where} {name}"] += 1
        if call.name != CLOSE and player.length < window_of(call, player):
            counts[f"wrapped {name}"] += 1


def check_laws(player, strips, longest):
    assert player.length is None or player.laws_hold(strips, longest), strips


def replay(counts, case):
    """Plays a case that holds call by call, with its counts and the law of arcs."""
    player, strips = Player(case.rule, case.density), player_strips(case)
    opened = 0
    for call in case.script:
        answer = player.ask(call, strips)
        count_call(counts, player, call, answer, "script")
        check_laws(player, strips, ARCS_AFTER_EACH_CALL)
        opened += call.name == OPEN and answer == DONE
    check_laws(player, strips, LONGEST_RING)
    counts["ring opened again"] += opened > 1
    if player.length is not None:
        for (call, _), answer in zip(case.rows, ask_later(case, player, strips)):
            count_call(counts, player, call, answer, "later")


RULE_FORMS = {str(TABLE): "table", str(SUM): "sum"}
DENSITY_FORMS = {str(TABLE): "table", str(PATTERN): "pattern"}


def count_case(counts, text, verdict):
    """Counts a case, and the calls of one that holds."""
    word, field, *_ = verdict.split(" ")
    counts["breaks" if word == "breaks" else f"{word} {field}"] += 1
    if word == "holds":
        kind, rule, density = (part[0] for part in text.split(";")[:3])
        counts[f"holds in {KIND_NAMES[int(kind)]}"] += 1
        counts[f"holds by {RULE_FORMS[rule]} rule"] += 1
        counts[f"holds by {DENSITY_FORMS[density]} density"] += 1
        replay(counts, read_case(text))


REFUSALS = {
    "script": {OPEN: (11, 12, 14), TOUCH: (13, 14), STEP: (12,), READ: (13,)},
    "later": {TOUCH: (12, 13, 14), STEP: (12, 14), READ: (12, 13, 14)},
}


def wanted_counts():
    """Each sort of case, call and refusal that there is, by its name in the counts."""
    wanted = {"breaks", "holds open", "holds idle", "refused 12", "ring opened again"}
    wanted |= {f"holds in {name}" for name in KIND_NAMES}
    wanted |= {f"holds by {form} rule" for form in RULE_FORMS.values()}
    wanted |= {f"holds by {form} density" for form in DENSITY_FORMS.values()}
    for name, word in enumerate(CALL_NAMES):
        wanted |= {f"script {word}", f"untimely {word}"}
        wanted |= {f"wrapped {word}"} if name != CLOSE else set()
        wanted |= {f"later {word}"} if name in REFUSALS["later"] else set()
    wanted |= {f"{where} {CALL_NAMES[name]} refused {code}" for where, calls in REFUSALS.items()
               for name, codes in calls.items() for code in codes}
    return wanted


LEAST_PER_SORT = 5


def main():
    check_worked_example()
    check_cents_example()
    lines = all_lines()
    results = [result_lines(read_case(text)) for text in lines]
    counts = Counter()
    for text, result in zip(lines, results):
        count_case(counts, text, result[0])
    print(f"cases: {len(lines)}", file=sys.stderr)
    for name, count in sorted(counts.items()):
        print(f"{name}: {count}", file=sys.stderr)
    assert set(counts) == wanted_counts(), set(counts) ^ wanted_counts()
    assert min(counts.values()) >= LEAST_PER_SORT, counts
    write_lines(CASES_FOLDER, "stdin", lines, MOST_FILE_BYTES)
    write_lines(CASES_FOLDER, "stdout", [text for result in results for text in result],
                MOST_FILE_BYTES)


if __name__ == "__main__":
    main()
