# The preset format: reads and writes presets as bytes, and writes them as text.

from dataclasses import dataclass

LIMIT = 4_294_967_295
LONGEST_NUMBER = 5
LARGEST_SIZE = 4096

VOICES, PITCH, CHANNELS, BOTH, CENTS = range(5)
KIND_NAMES = ("voices", "pitch", "channels", "both", "cents")
HIGHEST_PITCH = 11
HIGHEST_CHANNELS = 65535
HIGHEST_CENTS = 1199

CUT_SHORT = 1
MISSPELT = 2
BAD_KIND = 3
BAD_ALPHABET = 4
BAD_WINDOW = 5
BAD_REACH = 6
BAD_WIDTH = 7
TOO_LARGE = 9
SURPLUS = 10
BAD_LETTER = 14
BAD_ENTRY = 15


class Refusal(Exception):
    """The input is refused: why (code) and the byte where it happens (place)."""

    def __init__(self, code, place):
        super().__init__(f"{code}@{place}")
        self.code = code
        self.place = place


@dataclass
class Preset:
    kind: int
    q: int  # alphabet size
    n: int  # window
    l: int  # reach
    k: int  # width
    letters: list  # the rule's answers, q**n of them, in code order
    entries: list  # the density, q**k pairs (signed part, plain part)


# Numbers


def read_number(data, place):
    """Read the number that starts at place; return it and the place after it."""
    value = 0
    for index in range(LONGEST_NUMBER):
        at = place + index
        if at >= len(data):
            raise Refusal(CUT_SHORT, place)
        byte = data[at]
        if index == 0 and byte == 0x80:
            raise Refusal(MISSPELT, place)
        value = (value << 7) | (byte & 0x7F)
        if byte < 0x80:
            if value > LIMIT:
                raise Refusal(MISSPELT, place)
            return value, at + 1
    raise Refusal(MISSPELT, place)


def write_number(value):
    """Write a number in the fewest bytes, most significant group first."""
    if not 0 <= value <= LIMIT:
        raise ValueError(f"number out of range: {value}")
    groups = [value & 0x7F]
    value >>= 7
    while value:
        groups.append(0x80 | (value & 0x7F))
        value >>= 7
    return bytes(reversed(groups))


def signed_from_number(number):
    """The signed value that a number stands for."""
    return -((number + 1) // 2) if number % 2 else number // 2


def number_from_signed(value):
    """The number that stands for a signed value."""
    return 2 * value if value >= 0 else -2 * value - 1


# Reading presets


class _Cursor:
    """A place in the input that moves past each number it reads."""

    def __init__(self, data):
        self.data = data
        self.place = 0

    def number(self):
        value, self.place = read_number(self.data, self.place)
        return value

    def number_within(self, low, high, code):
        """Read a number; refuse it with code unless low <= number <= high."""
        start = self.place
        value = self.number()
        if not low <= value <= high:
            raise Refusal(code, start)
        return value


def _read_entry(cursor, kind):
    if kind == VOICES:
        return signed_from_number(cursor.number()), 0
    if kind == PITCH:
        return 0, cursor.number_within(0, HIGHEST_PITCH, BAD_ENTRY)
    if kind == CHANNELS:
        return 0, cursor.number_within(0, HIGHEST_CHANNELS, BAD_ENTRY)
    if kind == CENTS:
        return 0, cursor.number_within(0, HIGHEST_CENTS, BAD_ENTRY)
    signed = signed_from_number(cursor.number())
    return signed, cursor.number_within(0, HIGHEST_PITCH, BAD_ENTRY)


def read_preset(data):
    """Read a preset from the left; return it and the place after it."""
    cursor = _Cursor(data)
    kind = cursor.number_within(0, CENTS, BAD_KIND)
    q = cursor.number_within(2, 8, BAD_ALPHABET)
    n = cursor.number_within(1, 12, BAD_WINDOW)
    l = cursor.number_within(0, n - 1, BAD_REACH)
    k_place = cursor.place
    k = cursor.number_within(1, 12, BAD_WIDTH)
    if q ** (n + k - 1) > LARGEST_SIZE:
        raise Refusal(TOO_LARGE, k_place)
    letters = [cursor.number_within(0, q - 1, BAD_LETTER) for _ in range(q**n)]
    entries = [_read_entry(cursor, kind) for _ in range(q**k)]
    return Preset(kind, q, n, l, k, letters, entries), cursor.place


def read_whole(data):
    """Read a preset that takes up the whole input."""
    preset, end = read_preset(data)
    if end < len(data):
        raise Refusal(SURPLUS, end)
    return preset


# Writing presets


def entry_numbers(kind, entry):
    """The numbers sent for one entry: one, or two for kind both."""
    signed, plain = entry
    if kind == VOICES:
        return [number_from_signed(signed)]
    if kind == BOTH:
        return [number_from_signed(signed), plain]
    return [plain]


def preset_numbers(preset):
    """All the numbers of a preset in the order they are sent."""
    numbers = [preset.kind, preset.q, preset.n, preset.l, preset.k]
    numbers += preset.letters
    for entry in preset.entries:
        numbers += entry_numbers(preset.kind, entry)
    return numbers


def write_preset(preset):
    """The bytes of a preset. The values are not checked against their ranges."""
    return b"".join(write_number(number) for number in preset_numbers(preset))


# Text


def entry_text(kind, entry):
    signed, plain = entry
    if kind == VOICES:
        return str(signed)
    if kind == BOTH:
        return f"{signed}:{plain}"
    return str(plain)


def preset_text(preset):
    """The text of a preset, one line a part."""
    rule = " ".join(str(letter) for letter in preset.letters)
    density = " ".join(entry_text(preset.kind, entry) for entry in preset.entries)
    lines = [
        f"kind {KIND_NAMES[preset.kind]}",
        f"letters {preset.q}",
        f"window {preset.n}",
        f"reach {preset.l}",
        f"width {preset.k}",
        f"rule {rule}",
        f"density {density}",
        f"bytes {len(write_preset(preset))}",
    ]
    return "".join(line + "\n" for line in lines)


def check_format():
    """Check the format on known values."""
    for value, hexes in ((0, "00"), (127, "7f"), (128, "8100"), (300, "822c"),
                         (LIMIT, "8fffffff7f")):
        data = bytes.fromhex(hexes)
        assert write_number(value) == data
        assert read_number(data, 0) == (value, len(data))
    for hexes, code in (("80", 2), ("8000", 2), ("9080808000", 2),
                        ("ffffffffff", 2), ("8180808080", 2), ("81", 1),
                        ("90808080", 1), ("", 1)):
        try:
            read_number(bytes.fromhex(hexes), 0)
        except Refusal as refusal:
            assert (refusal.code, refusal.place) == (code, 0), hexes
        else:
            raise AssertionError(hexes)
    for value in (0, -1, 1, -2, 2, -(2**31), 2**31 - 1):
        assert signed_from_number(number_from_signed(value)) == value
    cents = Preset(CENTS, 2, 1, 0, 1, [0, 1], [(0, 127), (0, HIGHEST_CENTS)])
    data = bytes.fromhex("0402010001 0001 7f892f")
    assert write_preset(cents) == data
    assert read_whole(data) == cents
    assert preset_text(cents).endswith("density 127 1199\nbytes 10\n")
    assert preset_text(cents).startswith("kind cents\n")
    for hexes, code, place in (("0402010001 0001 7f8930", BAD_ENTRY, 8),
                               ("0502010001 0001 0000", BAD_KIND, 0)):
        try:
            read_whole(bytes.fromhex(hexes))
        except Refusal as refusal:
            assert (refusal.code, refusal.place) == (code, place), hexes
        else:
            raise AssertionError(hexes)


def main():
    check_format()


if __name__ == "__main__":
    main()
