# The lines of the player cases: writes a case as a line, reads it again, and says
# what comes of it by ring_player.py.
#
# A case is a line of six parts with `;` between them, each of decimal numbers, one
# space apart:
#   KIND and the lengths of the strips that are lent: CROSSINGS RING CELLS SPARE
#       OPENING CROSSED TOUCHED ANSWERS
#   a rule and a density, as judge_lines.py writes them
#   letters, which rings are stretches of
#   the script, three numbers a call: 0 START COUNT opens the ring of COUNT letters from
#       the letter START on, 1 SITE LETTER touches, 2 0 0 steps, 3 SITE 0 reads, and
#       4 0 0 closes
#   what follows where a ring is open after the script: PLACE LETTER, and then rows of
#       eight numbers. The letter is put into the cell with no call, if there is such a
#       cell. Each row is a touch, step or read, and the lengths that the five strips
#       of the player are cut down to for it.
# Strips begin with marks that differ from entry to entry.
#
# The result of a case is several lines, first one of
#   refused CODE PLACE: the script was not judged
#   breaks CODE LENGTH BEFORE AFTER: the failing word's code, the length of the ring
#       that shows it, and that ring's totals
#   holds open, holds idle: whether a ring is open after the script
# Then come the strips: a line for each answer (done, refused CODE PLACE, none where the
# state did not allow the call, or reading and the opening, crossed and touched charges
# and the charge now), and a line for each other strip. After `holds open` come the
# answers to the rows and the player's strips once more. A charge is SIGNED:PLAIN, and
# one in cents has its sixteen bits as the plain part.

from dataclasses import dataclass

from judge_lines import Reader
from preset_format import SURPLUS, Refusal
from ring_judge import KINDS, Density, Kind, Rule
from ring_player import (
    CLOSE, DONE, OPEN, READ, STEP, TOUCH, Call, Refused, Strips, perform,
)

MARK_CODE = SURPLUS  # no call is refused with it
FIRST_CHARGES = {"crossings": 400, "opening": 100, "crossed": 200, "touched": 300}
FIRST_LETTERS = {"ring": 50, "cells": 100, "spare": 150}
CALL_WIDTH, ROW_WIDTH = 3, 8


# Lines


def line(kind, rooms, rule, density, letters, script, later):
    parts = [kind, *rooms], rule, density, letters, script, later
    return ";".join(" ".join(map(str, part)) for part in parts)


@dataclass
class Case:
    kind: Kind
    rooms: list
    rule: Rule
    density: Density
    script: list
    spoiled: tuple  # a place and the letter that is put there
    rows: list  # a call and the rooms of the five strips, each


def numbers(part):
    return [int(word) for word in part.split()]


def rows_of(values, count):
    return [values[at:at + count] for at in range(0, len(values), count)]


def read_call(letters, name, first, second):
    calls = {
        OPEN: lambda: Call(OPEN, ring=tuple(letters[first:first + second])),
        TOUCH: lambda: Call(TOUCH, site=first, letter=second),
        STEP: lambda: Call(STEP),
        READ: lambda: Call(READ, site=first),
        CLOSE: lambda: Call(CLOSE),
    }
    return calls[name]()


def read_case(text):
    sizes, rule, density, letters, script, later = text.split(";")
    kind_number, *rooms = numbers(sizes)
    kind = KINDS[kind_number]
    letters = numbers(letters)
    place, letter, *rows = numbers(later)
    return Case(
        kind, rooms, Reader(rule).rule()(), Reader(density).density(kind)(),
        [read_call(letters, *row) for row in rows_of(numbers(script), CALL_WIDTH)],
        (place, letter),
        [(read_call(letters, *row[:CALL_WIDTH]), row[CALL_WIDTH:])
         for row in rows_of(rows, ROW_WIDTH)])


# Strips


def marked_letters(name, room):
    first = FIRST_LETTERS[name]
    return [mark % 256 for mark in range(first, first + room)]


def marked_charges(kind, name, room):
    first = FIRST_CHARGES[name]
    return [kind.from_parts(mark, mark % 12) for mark in range(first, first + room)]


def marked_answers(room):
    return [Refused(MARK_CODE, place) for place in range(room)]


def player_strips(case):
    """The five strips of the player as they are lent at first."""
    cells, spare, opening, crossed, touched = case.rooms[2:7]
    return Strips(
        marked_letters("cells", cells), marked_letters("spare", spare),
        marked_charges(case.kind, "opening", opening),
        marked_charges(case.kind, "crossed", crossed),
        marked_charges(case.kind, "touched", touched))


# Results


def charge_words(kind, charges):
    return [f"{signed}:{plain}" for signed, plain in map(kind.parts, charges)]


def words_line(*words):
    return " ".join(map(str, words))


def answer_line(kind, answer):
    if answer is None:
        return "none"
    if answer == DONE:
        return "done"
    if isinstance(answer, Refused):
        return words_line("refused", answer.code, answer.place)
    return words_line("reading", *charge_words(
        kind, (answer.opening, answer.crossed, answer.touched, answer.now)))


def strip_lines(kind, strips):
    return [words_line("cells", *strips.cells), words_line("spare", *strips.spare)] + [
        words_line(name, *charge_words(kind, getattr(strips, name)))
        for name in ("opening", "crossed", "touched")]


def verdict_line(kind, q, finding, player):
    if player is None:
        code = sum(letter * q**i for i, letter in enumerate(reversed(finding.word)))
        return words_line("breaks", code, len(finding.ring), *charge_words(
            kind, (finding.first, finding.second)))
    return "holds idle" if player.length is None else "holds open"


def ask_later(case, player, strips):
    """The answers to the rows of a case, on strips that are cut down."""
    place, letter = case.spoiled
    if place < len(strips.cells):
        strips.cells[place] = letter
    answers = []
    for call, rooms in case.rows:
        lent = strips.lent(rooms)
        answers.append(player.ask(call, lent))
        strips.take_back(lent)
    return answers


def result_lines(case):
    kind, rooms = case.kind, case.rooms
    crossings = marked_charges(kind, "crossings", rooms[0])
    ring = marked_letters("ring", rooms[1])
    strips, answers = player_strips(case), marked_answers(rooms[7])
    player = None
    try:
        finding, player = perform(
            case.rule, case.density, case.script, crossings, ring, strips, answers)
        verdict = verdict_line(kind, case.rule.q, finding, player)
    except Refusal as refusal:
        verdict = words_line("refused", refusal.code, refusal.place)
    lines = [verdict]
    lines += [answer_line(kind, answer) for answer in answers]
    lines += [words_line("crossings", *charge_words(kind, crossings)),
              words_line("ring", *ring), *strip_lines(kind, strips)]
    if verdict == "holds open":
        lines += [answer_line(kind, answer) for answer in ask_later(case, player, strips)]
        lines += strip_lines(kind, strips)
    return lines
