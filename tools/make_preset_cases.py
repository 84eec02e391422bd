# Writes the preset reading cases: crates/preset_cases/stdin holds one input a
# line in hex (`-` for the empty input), and crates/preset_cases/stdout holds the
# expected result of each line. The cases come from a fixed seed, so running it
# again writes the same files. Counts go to stderr.
#
# A result line has these fields, one space apart:
#   1. reading the whole input: `ok` or CODE@PLACE
#   2. reading with the rest handed on: `rest=N` or CODE@PLACE
# and after `rest=N` also KIND Q N L K LETTERS ENTRIES `back`, where `back`
# stands for: writing these values gives exactly the bytes that were read.

import sys
from collections import Counter
from pathlib import Path

sys.dont_write_bytecode = True

from case_files import Chance, write_lines
from preset_format import (
    BOTH, CENTS, CHANNELS, HIGHEST_CENTS, HIGHEST_CHANNELS, HIGHEST_PITCH, LARGEST_SIZE,
    LIMIT, PITCH, VOICES, Preset, Refusal, check_format, preset_numbers, read_preset,
    read_whole, write_number, write_preset,
)

CASES_FOLDER = Path(__file__).resolve().parent.parent / "crates" / "preset_cases"
SEED = 20417
CODES = (1, 2, 3, 4, 5, 6, 7, 9, 10, 14, 15)
LEAST_CASES = 2400
LEAST_PER_CODE = 20
MOST_FILE_BYTES = 600_000

KINDS = (VOICES, PITCH, CHANNELS, BOTH, CENTS)
LOWEST_VOICES = -(2**31)
HIGHEST_VOICES = 2**31 - 1

# Values where a number grows by one byte, and the two ends.
NUMBER_EDGES = [0, 1, 127, 128, 16383, 16384, 2097151, 2097152,
                268435455, 268435456, LIMIT - 1, LIMIT]

# Cents at the ends, where the most digits carry, and where a number grows by one byte.
CENTS_EDGES = [0, 1, 127, 128, 999, 1000, HIGHEST_CENTS - 1, HIGHEST_CENTS]

# Spellings that are refused whatever follows them.
MISSPELT = [bytes.fromhex(text) for text in (
    "80", "8000", "8001", "807f", "8081", "808000", "80808000", "8080808000",
    "8080808080", "808080808000", "8180808080", "818080808000", "8fffffffff",
    "8fffffffff7f", "ffffffffff", "9080808080", "9080808000", "9080808001",
    "ffffffff7f", "a080808000",
)]

# Starts of numbers that are cut short when the input ends after them.
UNFINISHED = [bytes.fromhex(text) for text in (
    "81", "ff", "8180", "8fff", "818080", "81808080", "8fffffff", "90808080",
    "ffffffff",
)]


# Building presets


def random_signed(chance):
    if chance.happens(15):
        return chance.pick([LOWEST_VOICES, LOWEST_VOICES + 1, HIGHEST_VOICES - 1,
                            HIGHEST_VOICES, -1, 0, 63, 64, -64, -65])
    if chance.happens(15):
        return chance.between(LOWEST_VOICES, HIGHEST_VOICES)
    return chance.between(-9, 9)


def random_entry(chance, kind):
    if kind == VOICES:
        return random_signed(chance), 0
    if kind == PITCH:
        return 0, chance.between(0, HIGHEST_PITCH)
    if kind == CHANNELS:
        if chance.happens(20):
            return 0, chance.pick([127, 128, 16383, 16384, HIGHEST_CHANNELS])
        return 0, chance.between(0, HIGHEST_CHANNELS)
    if kind == CENTS:
        if chance.happens(40):
            return 0, chance.pick(CENTS_EDGES)
        return 0, chance.between(0, HIGHEST_CENTS)
    return random_signed(chance), chance.between(0, HIGHEST_PITCH)


def short_entry(chance, kind):
    """An entry whose parts take one byte each, for large presets."""
    signed = chance.between(0, 9) if kind in (VOICES, BOTH) else 0
    plain = 0 if kind == VOICES else chance.between(0, 9)
    return signed, plain


def random_preset(chance, kind, q, n, k, l=None, entry=random_entry):
    if l is None:
        l = chance.below(n)
    letters = [chance.below(q) for _ in range(q**n)]
    entries = [entry(chance, kind) for _ in range(q**k)]
    return Preset(kind, q, n, l, k, letters, entries)


def fits(q, n, k):
    return q ** (n + k - 1) <= LARGEST_SIZE


def shapes(most_numbers):
    """Every allowed (q, n, k) whose letters and entries stay within a count."""
    return [(q, n, k) for q in range(2, 9) for n in range(1, 13)
            for k in range(1, 13) if fits(q, n, k) and q**n + q**k <= most_numbers]


def spell(preset):
    """The bytes of each number of a preset, as a list."""
    return [write_number(number) for number in preset_numbers(preset)]


def replace(parts, index, part):
    """The input with one part replaced."""
    return b"".join(parts[:index] + [part] + parts[index + 1:])


def small_presets():
    """One small preset a kind, with numbers of several lengths."""
    return [
        Preset(VOICES, 2, 2, 1, 1, [0, 1, 1, 0], [(-1, 0), (150, 0)]),
        Preset(VOICES, 2, 1, 0, 2, [1, 0],
               [(LOWEST_VOICES, 0), (64, 0), (-8192, 0), (HIGHEST_VOICES, 0)]),
        Preset(PITCH, 3, 1, 0, 1, [2, 0, 1], [(0, 11), (0, 0), (0, 7)]),
        Preset(CHANNELS, 2, 2, 0, 1, [0, 1, 0, 1], [(0, 65535), (0, 300)]),
        Preset(BOTH, 2, 1, 0, 1, [0, 1], [(3, 11), (LOWEST_VOICES, 0)]),
        Preset(CENTS, 2, 1, 0, 2, [1, 0], [(0, 1199), (0, 1000), (0, 127), (0, 128)]),
    ]


# Groups of inputs


def plain_examples():
    texts = ["", "00", "80", "81", "8000", "0002", "0080", "0081", "90808080",
             "9080808000", "ffffffffff", "822c", "8fffffff7f",
             "000203010100000001010100010002"]
    return [bytes.fromhex(text) for text in texts]


def good_presets(chance):
    inputs = []
    for q, n, k in shapes(90):
        for kind in KINDS:
            inputs.append(write_preset(random_preset(chance, kind, q, n, k)))
    for n in range(1, 7):
        for l in range(n):
            kind = chance.pick(KINDS)
            inputs.append(write_preset(random_preset(chance, kind, 2, n, 1, l)))
    return inputs


def extreme_entries():
    inputs = []
    extremes = {
        VOICES: [(LOWEST_VOICES, 0), (HIGHEST_VOICES, 0)],
        PITCH: [(0, 0), (0, HIGHEST_PITCH)],
        CHANNELS: [(0, 0), (0, HIGHEST_CHANNELS)],
        BOTH: [(LOWEST_VOICES, HIGHEST_PITCH), (HIGHEST_VOICES, 0)],
        CENTS: [(0, 0), (0, HIGHEST_CENTS)],
    }
    for kind, (low, high) in extremes.items():
        for entries in ([low, high], [high, low], [low, low], [high, high]):
            for letters in ([0, 1], [1, 1]):
                inputs.append(write_preset(Preset(kind, 2, 1, 0, 1, letters, entries)))
    for kind in (VOICES, BOTH):
        tail = [b"\x00"] if kind == BOTH else []
        for first in NUMBER_EDGES:
            for second in (0, first):
                parts = [bytes([kind, 2, 1, 0, 1, 1, 0]), write_number(first)] + tail
                parts += [write_number(second)] + tail
                inputs.append(b"".join(parts))
    # Cents and numbers beyond them, which are refused where they stand.
    values = CENTS_EDGES + [HIGHEST_CENTS + 1, HIGHEST_CENTS + 2] + NUMBER_EDGES
    for first in values:
        for second in (0, first, HIGHEST_CENTS, HIGHEST_CENTS + 1):
            header = bytes([CENTS, 2, 1, 0, 1, 1, 0])
            inputs.append(header + write_number(first) + write_number(second))
    return inputs


def large_presets(chance):
    """Presets close to the largest size, whole, cut, and with a surplus."""
    plan = [
        (VOICES, 8, 4, 1), (BOTH, 8, 4, 1), (PITCH, 2, 12, 1), (VOICES, 2, 12, 1),
        (PITCH, 2, 1, 12), (VOICES, 2, 1, 12), (CHANNELS, 4, 6, 1),
        (BOTH, 3, 7, 1), (PITCH, 5, 5, 1), (CHANNELS, 7, 1, 4), (VOICES, 6, 1, 4),
        (BOTH, 8, 3, 1), (PITCH, 8, 3, 2), (CHANNELS, 8, 2, 3), (VOICES, 8, 2, 1),
        (CHANNELS, 8, 1, 1), (BOTH, 8, 1, 2), (VOICES, 2, 11, 2), (PITCH, 2, 7, 6),
        (BOTH, 2, 6, 7), (CENTS, 2, 12, 1), (CENTS, 8, 2, 3), (CENTS, 3, 2, 6),
    ]
    inputs = [write_preset(random_preset(chance, *shape, entry=short_entry))
              for shape in plan]
    inputs.append(write_preset(random_preset(chance, VOICES, 2, 12, 1, 11)))
    inputs.append(write_preset(random_preset(chance, CENTS, 2, 1, 12)))
    whole = inputs[3]
    inputs += [whole[:-1], whole[:2053], whole + b"\x00"]
    inputs.append(whole[:4100] + b"\x02" + whole[4101:])
    cut = inputs[4]
    inputs += [cut[:-1], cut[:-1] + b"\x0c", cut + b"\x80"]
    return inputs


def all_size_headers(chance):
    """Headers alone, for every q, n and k: too large, or cut short after k."""
    inputs = []
    for q in range(2, 9):
        for n in range(1, 13):
            for k in range(1, 13):
                inputs.append(bytes([chance.pick(KINDS), q, n, chance.below(n), k]))
    return inputs


def too_large(chance):
    """The smallest sizes over the limit for every q, with numbers after them."""
    inputs = []
    for q in range(2, 9):
        total = next(m for m in range(1, 24) if q**m > LARGEST_SIZE)
        for n in range(1, 13):
            k = total + 1 - n
            if 1 <= k <= 12:
                header = bytes([chance.pick(KINDS), q, n, chance.below(n), k])
                inputs.append(header + bytes(chance.between(1, 30)))
    return inputs


def header_faults(chance):
    """Each header field out of range by one and by much."""
    far = [100, 127, 128, 255, 256, 257, 258, 259, 260, 300, 65536, 65538, 65540,
           2**31, 2**32 - 2, 2**32 - 1]
    inputs = []
    for preset in small_presets():
        parts = spell(preset)
        values = {
            0: [5, 6, 7] + far,
            1: [0, 1, 9, 10] + far,
            2: [0, 13, 14] + far,
            3: [preset.n, preset.n + 1, 12] + far,
            4: [0, 13, 14] + far,
        }
        for field, bad in values.items():
            for value in bad:
                inputs.append(replace(parts, field, write_number(value)))
                if chance.happens(30):
                    inputs.append(b"".join(parts[:field]) + write_number(value))
    for n in range(1, 13):
        for l in (n - 1, n, n + 1):
            inputs.append(bytes([chance.pick(KINDS), 2, n, l, 1]))
    return inputs


def body_faults(chance):
    """Each letter and each entry part out of range."""
    inputs = []
    for preset in small_presets():
        parts = spell(preset)
        first_entry = 5 + len(preset.letters)
        for index in range(5, first_entry):
            for value in (preset.q, preset.q + 1, 127, 128, 256, 257, LIMIT):
                inputs.append(replace(parts, index, write_number(value)))
        for index in range(first_entry, len(parts)):
            values = [11, 12, 13, 127, 128, 256, 267, LIMIT]
            if preset.kind == CHANNELS:
                values = [65535, 65536, 65537, 131071, LIMIT]
            if preset.kind == CENTS:
                values = [1199, 1200, 1201, 2399, 4096, 4608, 65536, 65655, LIMIT]
            for value in values:
                inputs.append(replace(parts, index, write_number(value)))
    for q in range(2, 9):
        for _ in range(4):
            preset = random_preset(chance, chance.pick(KINDS), q, 1, 1)
            at = chance.below(q)
            inputs.append(replace(spell(preset), 5 + at, bytes([q])))
    return inputs


def truncations(chance):
    inputs = []
    presets = small_presets()
    presets += [random_preset(chance, kind, 2, 2, 2) for kind in KINDS]
    for preset in presets:
        data = write_preset(preset)
        inputs += [data[:end] for end in range(len(data))]
    return inputs


def extensions(chance):
    inputs = []
    for preset in small_presets():
        data = write_preset(preset)
        for surplus in ("00", "01", "7f", "80", "81", "ff", "0000", "8000",
                        "ffffffffff", "0002030101"):
            inputs.append(data + bytes.fromhex(surplus))
        inputs.append(data + data)
        for _ in range(8):
            inputs.append(data + random_bytes(chance, chance.between(1, 20)))
    return inputs


def misspelt_numbers(chance):
    """Misspelt numbers at every position, with and without what follows."""
    inputs = []
    for preset in small_presets():
        parts = spell(preset)
        for index, part in enumerate(parts):
            start = b"".join(parts[:index])
            inputs.append(start + b"\x80")
            inputs.append(replace(parts, index, b"\x80" + part))
            for _ in range(5):
                bad = chance.pick(MISSPELT)
                inputs.append(replace(parts, index, bad))
                if chance.happens(25):
                    inputs.append(start + bad)
    return inputs


def unfinished_numbers(chance):
    """Numbers cut short inside, at every position."""
    inputs = []
    for preset in small_presets():
        parts = spell(preset)
        for index in range(len(parts)):
            start = b"".join(parts[:index])
            for _ in range(4):
                inputs.append(start + chance.pick(UNFINISHED))
    for unfinished in UNFINISHED + MISSPELT:
        inputs.append(unfinished)
    return inputs


def two_faults(chance):
    """Two numbers replaced by odd ones, so that the first fault must decide."""
    odd = MISSPELT + [write_number(value) for value in
                      (0, 2, 3, 4, 5, 8, 9, 12, 13, 128, 1200, 65536, LIMIT)]
    inputs = []
    for preset in small_presets():
        for _ in range(40):
            parts = spell(preset)
            for _ in range(2):
                parts[chance.below(len(parts))] = chance.pick(odd)
            inputs.append(b"".join(parts))
    return inputs


def random_bytes(chance, length):
    return bytes(chance.below(256) for _ in range(length))


def drawn_presets(chance, count):
    """The bytes of small presets of any kind, each made as it is asked for."""
    small = shapes(24)
    for _ in range(count):
        preset = random_preset(chance, chance.pick(KINDS), *chance.pick(small))
        yield bytearray(write_preset(preset))


def byte_flips(chance):
    """Presets with one to three bytes changed."""
    inputs = []
    for data in drawn_presets(chance, 400):
        for _ in range(chance.between(1, 3)):
            at = chance.below(len(data))
            if chance.happens(50):
                data[at] ^= 1 << chance.below(8)
            else:
                data[at] = chance.below(256)
        inputs.append(bytes(data))
    return inputs


def byte_edits(chance):
    """Presets with one byte taken out or put in."""
    inputs = []
    for data in drawn_presets(chance, 200):
        at = chance.below(len(data))
        if chance.happens(50):
            inputs.append(bytes(data[:at] + data[at + 1:]))
        else:
            inputs.append(bytes(data[:at] + random_bytes(chance, 1) + data[at:]))
    return inputs


def random_strings(chance):
    """Random bytes, bare or after a good header."""
    inputs = []
    for _ in range(120):
        inputs.append(random_bytes(chance, chance.between(1, 30)))
    for _ in range(160):
        length = chance.between(1, 30)
        inputs.append(bytes(chance.below(5) for _ in range(length)))
    small = shapes(24)
    for _ in range(160):
        kind = chance.pick(KINDS)
        q, n, k = chance.pick(small)
        header = bytes([kind, q, n, chance.below(n), k])
        letters = bytes(chance.below(q) for _ in range(q**n))
        inputs.append(header + letters + random_bytes(chance, chance.between(0, 40)))
    return inputs


def header_changes(chance):
    """Presets with one or two header bytes changed to small values."""
    inputs = []
    for data in drawn_presets(chance, 300):
        for _ in range(chance.between(1, 2)):
            data[chance.below(5)] = chance.below(16)
        inputs.append(bytes(data))
    return inputs


def all_inputs():
    """Every input once, in the order in which it first comes."""
    chance = Chance(SEED)
    groups = [
        plain_examples(), good_presets(chance), extreme_entries(),
        large_presets(chance), all_size_headers(chance), too_large(chance),
        header_faults(chance), body_faults(chance), truncations(chance),
        extensions(chance), misspelt_numbers(chance), unfinished_numbers(chance),
        two_faults(chance), byte_flips(chance), byte_edits(chance),
        random_strings(chance), header_changes(chance),
    ]
    return list(dict.fromkeys(data for group in groups for data in group))


# Results


def attempt(read, data):
    """The result of a reader and the refusal, one of them None."""
    try:
        return read(data), None
    except Refusal as refusal:
        return None, refusal


def preset_fields(preset):
    letters = "".join(str(letter) for letter in preset.letters)
    entries = ",".join(f"{signed}:{plain}" for signed, plain in preset.entries)
    numbers = (preset.kind, preset.q, preset.n, preset.l, preset.k)
    return [*map(str, numbers), letters, entries]


def result_line(data):
    whole, whole_refusal = attempt(read_whole, data)
    first = str(whole_refusal) if whole_refusal else "ok"
    found, refusal = attempt(read_preset, data)
    if refusal:
        assert first == str(refusal)
        return f"{first} {refusal}"
    preset, end = found
    assert write_preset(preset) == data[:end]
    assert first == ("ok" if end == len(data) else f"10@{end}")
    assert whole is None or whole == preset
    return " ".join([first, f"rest={len(data) - end}", *preset_fields(preset), "back"])


def count_results(lines):
    """How often each code, or ok, is the result of reading the whole."""
    return Counter(line.split(" ", 1)[0].split("@")[0] for line in lines)


def kinds_read(lines):
    """The kinds of the presets that are read to their end."""
    return {int(line.split(" ")[2]) for line in lines if line.startswith("ok ")}


def check_counts(counts):
    assert sum(counts.values()) >= LEAST_CASES
    assert set(counts) == {"ok"} | {str(code) for code in CODES}
    for code in CODES:
        assert counts[str(code)] >= LEAST_PER_CODE, code


def main():
    check_format()
    inputs = all_inputs()
    results = [result_line(data) for data in inputs]
    counts = count_results(results)
    check_counts(counts)
    assert kinds_read(results) == set(KINDS)
    write_lines(CASES_FOLDER, "stdin", [data.hex() or "-" for data in inputs], MOST_FILE_BYTES)
    write_lines(CASES_FOLDER, "stdout", results, MOST_FILE_BYTES)
    print(f"cases: {len(inputs)}", file=sys.stderr)
    for result in ("ok", *map(str, CODES)):
        print(f"{result}: {counts[result]}", file=sys.stderr)


if __name__ == "__main__":
    main()
