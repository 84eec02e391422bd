# Writes the presets in presets/: for each one NAME.preset (its bytes) and
# NAME.txt (its text), and damaged.preset, which is no preset and has no text.
# Writes the gate's run of the program, crates/ringbench/{args,data,stdout,status}:
# some of these presets are judged. Running it again writes the same files.

import sys
from pathlib import Path

sys.dont_write_bytecode = True

from preset_format import (
    BOTH, CENTS, CHANNELS, CUT_SHORT, PITCH, VOICES, Preset, Refusal, preset_text,
    read_whole, write_preset,
)
from ring_judge import (
    KINDS, judge, preset_charges, step, table_density, table_rule, words,
)

ROOT = Path(__file__).resolve().parent.parent
PRESETS_FOLDER = ROOT / "presets"
RUN_FOLDER = ROOT / "crates" / "ringbench"


def rule_letters(q, n, answer):
    """The answers for all windows in code order; answer takes a word."""
    return [answer(word) for word in words(q, n)]


def signed_entries(values):
    return [(value, 0) for value in values]


def plain_entries(values):
    return [(0, value) for value in values]


def elementary(number, kind=VOICES, k=1, entries=None):
    """An elementary rule: two letters, a window of three, reach one."""
    letters = [(number >> code) & 1 for code in range(8)]
    if entries is None:
        entries = signed_entries([0, 1])
    return Preset(kind, 2, 3, 1, k, letters, entries)


def pitch_rotate():
    """Each cell takes its right neighbour's letter; the letters are a chord."""
    letters = rule_letters(4, 2, lambda word: word[1])
    return Preset(PITCH, 4, 2, 0, 1, letters, plain_entries([0, 3, 7, 10]))


def both_rotate():
    """Each cell takes its left neighbour's letter; letters weigh voices and pitch."""
    letters = rule_letters(3, 2, lambda word: word[0])
    return Preset(BOTH, 3, 2, 1, 1, letters, [(0, 0), (1, 4), (-1, 7)])


def cents_rotate():
    """Each cell takes its right neighbour's letter; the letters are pitches in cents."""
    letters = rule_letters(4, 2, lambda word: word[1])
    return Preset(CENTS, 4, 2, 0, 1, letters, plain_entries([0, 386, 702, 1199]))


def eight_letters():
    """Each cell takes its right neighbour's letter; letter a weighs a voices."""
    letters = rule_letters(8, 2, lambda word: word[1])
    return Preset(VOICES, 8, 2, 0, 1, letters, signed_entries(range(8)))


def window12():
    """Each cell keeps its letter, but a one before eleven zeros becomes zero."""
    lone = (1,) + (0,) * 11
    letters = rule_letters(2, 12, lambda word: 0 if word == lone else word[0])
    return Preset(VOICES, 2, 12, 0, 1, letters, signed_entries([0, 1]))


def traffic_pairs():
    """Rule 184 where each word 10 weighs one voice."""
    return elementary(184, k=2, entries=signed_entries([0, 0, 1, 0]))


def wide_break():
    """A one before nine zeros and a one moves to the right, but its cell gives it up
    where a zero stands before the eleven, and the next cell takes it where a zero
    stands after them. On a ring of up to twelve cells the two always go together."""
    run = (1,) + (0,) * 9 + (1,)
    gives, takes = (0,) + run, run + (0,)

    def answer(word):
        return 0 if word == gives else 1 if word == takes else word[1]

    return Preset(VOICES, 2, 12, 1, 1, rule_letters(2, 12, answer), signed_entries([0, 1]))


def pitch_ring_b():
    """Every cell becomes one: a ring of three zeros gains 12, which is no change."""
    return Preset(PITCH, 2, 2, 0, 1, [1] * 4, plain_entries([0, 4]))


def cents_octave():
    """Every cell becomes one: a ring of three zeros gains an octave, which is no change."""
    return Preset(CENTS, 2, 2, 0, 1, [1] * 4, plain_entries([0, 400]))


def flip():
    """Each cell takes the other letter."""
    return Preset(VOICES, 2, 1, 0, 1, [1, 0], signed_entries([0, 1]))


def damaged_bytes():
    """Rule 184 without its last byte."""
    return write_preset(elementary(184))[:-1]


def all_presets():
    """Every preset by its name."""
    presets = {f"rule{number}": elementary(number)
               for number in (90, 170, 184, 204, 226, 240)}
    presets["rule150-channels"] = elementary(150, CHANNELS, 1, plain_entries([0, 1]))
    presets["pitch-rotate"] = pitch_rotate()
    presets["both-rotate"] = both_rotate()
    presets["cents-rotate"] = cents_rotate()
    presets["eight-letters"] = eight_letters()
    presets["window12"] = window12()
    presets["traffic-pairs"] = traffic_pairs()
    presets["wide-break"] = wide_break()
    presets["pitch-ring-b"] = pitch_ring_b()
    presets["cents-octave"] = cents_octave()
    presets["flip"] = flip()
    return presets


def rule_of(preset):
    return table_rule(preset.q, preset.n, preset.l, preset.letters)


def keeps_ones(rule, size):
    """Whether one step keeps the number of ones on every ring of this size."""
    return all(sum(step(rule, ring)) == sum(ring) for ring in words(rule.q, size))


def check_first_break(preset, size):
    """The preset keeps the ones on rings of fewer cells, but not on this size."""
    rule = rule_of(preset)
    for smaller in range(1, size):
        assert keeps_ones(rule, smaller), smaller
    assert not keeps_ones(rule, size)


def finding(preset):
    """The verdict on a preset."""
    kind = KINDS[preset.kind]
    density = table_density(kind, preset.q, preset.k, preset_charges(preset))
    m = preset.n + preset.k - 1
    return judge(rule_of(preset), density, preset.q ** (m - 1), 2 * m - 1)


BREAKING = {"rule90", "traffic-pairs", "window12", "wide-break", "pitch-ring-b",
            "cents-octave", "flip"}


def check_verdicts(presets):
    for name, preset in presets.items():
        assert (finding(preset).word is not None) == (name in BREAKING), name


def check_rule184():
    expected = bytes.fromhex("000203010100000001010100010002")
    assert write_preset(elementary(184)) == expected


def check_damaged():
    try:
        read_whole(damaged_bytes())
    except Refusal as refusal:
        assert (refusal.code, refusal.place) == (CUT_SHORT, 14)
    else:
        raise AssertionError("read")


# The gate's run of the program judges these, each kind of line among them.
JUDGED = ("rule184", "damaged", "rule90", "pitch-ring-b", "cents-octave", "both-rotate",
          "wide-break")


def verdict_line(name, data):
    """The line that `ringbench judge` prints of a file."""
    try:
        preset = read_whole(data)
    except Refusal as refusal:
        return f"{name}\trefused\t{refusal.code}\t{refusal.place}"
    found = finding(preset)
    if found.word is None:
        return f"{name}\tholds"
    digits = ("".join(map(str, letters)) for letters in (found.word, found.ring))
    totals = map(KINDS[preset.kind].text, (found.first, found.second))
    return "\t".join((name, "breaks", *digits, *totals))


def write_run():
    """The gate's run: its files and arguments, and the output and status that are due."""
    names = [f"{name}.preset" for name in JUDGED]
    lines = []
    (RUN_FOLDER / "data").mkdir(exist_ok=True)
    for name in names:
        data = (PRESETS_FOLDER / name).read_bytes()
        (RUN_FOLDER / "data" / name).write_bytes(data)
        lines.append(verdict_line(name, data))
    (RUN_FOLDER / "args").write_text("\n".join(["judge", *names]) + "\n")
    (RUN_FOLDER / "stdout").write_text("\n".join(lines) + "\n")
    (RUN_FOLDER / "status").write_text("1\n")


def write_files(name, preset):
    data = write_preset(preset)
    assert read_whole(data) == preset, name
    (PRESETS_FOLDER / f"{name}.preset").write_bytes(data)
    (PRESETS_FOLDER / f"{name}.txt").write_bytes(preset_text(preset).encode("ascii"))


def main():
    presets = all_presets()
    check_first_break(presets["window12"], 12)
    check_first_break(presets["wide-break"], 13)
    check_verdicts(presets)
    check_rule184()
    check_damaged()
    PRESETS_FOLDER.mkdir(exist_ok=True)
    for name, preset in presets.items():
        write_files(name, preset)
    (PRESETS_FOLDER / "damaged.preset").write_bytes(damaged_bytes())
    write_run()


if __name__ == "__main__":
    main()
