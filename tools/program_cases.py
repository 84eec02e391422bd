# What the program has to do, case by case: its words, its standard input and the files
# of its folder, which has those of presets/, and then its status, what it prints, what
# it says on standard error and the files that it writes. What is due comes from the
# README, from docs/ and from specs/ of the crates cli, console and report, worked out
# by hand; it is not what the program was seen to print.

from collections.abc import Callable
from dataclasses import dataclass, field
from pathlib import Path
from typing import Any

ROOT = Path(__file__).resolve().parent.parent
PRESETS = ROOT / "presets"
SESSION = ROOT / "tools" / "session"
# a stream that is closed
CLOSED = object()


@dataclass(frozen=True)
class Link:
    """A symbolic link."""

    to: str


@dataclass(frozen=True)
class Hard:
    """Another name of a file."""

    to: str


@dataclass(frozen=True)
class Folder:
    """A folder."""


@dataclass
class Case:
    """A run of the program; no file is changed or made but those that are written."""

    name: str
    words: list
    status: int = 0
    # what is printed: a text, or a file that has it
    out: Any = ""
    # the lines of standard error, without "ringbench: " in front, and with PLACE for the folder
    err: list = field(default_factory=list)
    # standard input, and what is in the folder beside the presets
    script: Any = ""
    files: dict = field(default_factory=dict)
    # the bytes of the files that are written, and the permissions that files have and keep
    written: dict = field(default_factory=dict)
    modes: dict = field(default_factory=dict)
    # another standard input or output: a file by its name, or CLOSED
    input: Any = None
    output: Any = None


@dataclass
class LongRun:
    """A run that may take no more memory for many steps than for a few."""

    name: str
    # the words and the script, by the number of steps
    asked: Callable
    few: int
    many: int
    # what the many end with, and how many lines they are
    last: str
    lines: int


def bad_usage(name, words, sentence):
    """Words that ask nothing."""
    return Case(name, words, status=1, err=[f"{sentence} (ringbench help tells what there is)"])


def refused(code, place, reason):
    """What is printed of a refusal."""
    return f"refused {code} {place}\nRefused with code {code} at place {place}: {reason}.\n"


CUT_SHORT = refused(1, 14, "the bytes end where a number is due")
NO_FILE = "none.preset cannot be read: No such file or directory (os error 2)"
IS_FOLDER = "folder cannot be read: Is a directory (os error 21)"
FULL = "standard output cannot be written: No space left on device (os error 28)"
NO_OUTPUT = "standard output cannot be written: Bad file descriptor (os error 9)"
RULE_184 = (PRESETS / "rule184.preset").read_bytes()
# beside traffic-pairs, where each car with a gap in front of it weighs one: each gap with a car in front of it
GAP_PAIRS = bytes.fromhex("0002030102 0000000101010001 00020000")
# cents-rotate, where the last letter weighs a cent less
CENTS_1198 = bytes.fromhex("0404020001 00010203000102030001020300010203 00 8302 853E 892E")
# each word 10 or each word 01 weighs 700 cents
CENTS_PAIRS = bytes.fromhex("0402030102 0000000101010001 0000853C00")
CENTS_GAP_PAIRS = bytes.fromhex("0402030102 0000000101010001 00853C0000")
# 256 bytes is the room that the program first lends a word
LONG_PATH = "./" * 500 + "rule184.preset"


# Showing a preset

SHOW = [
    *[
        Case("a preset is shown as its text", ["show", path.name], out=path.with_suffix(".txt"))
        for path in sorted(PRESETS.glob("*.preset"))
        if path.stem != "damaged"
    ],
    Case("a damaged preset", ["show", "damaged.preset"], status=1, out=CUT_SHORT),
    Case(
        "an empty file",
        ["show", "empty"],
        files={"empty": ""},
        status=1,
        out=refused(1, 0, "the bytes end where a number is due"),
    ),
    Case(
        "a byte too many",
        ["show", "long"],
        files={"long": RULE_184 + b"\0"},
        status=1,
        out=refused(10, 15, "bytes follow the end of the preset"),
    ),
    Case(
        "a letter that is not in the alphabet",
        ["show", "letter"],
        files={"letter": bytes.fromhex("0002030101 0000020101010001 0002")},
        status=1,
        out=refused(14, 7, "a letter is not below the alphabet size"),
    ),
    Case(
        "a kind that is not known",
        ["show", "kind"],
        files={"kind": b"\5" + RULE_184[1:]},
        status=1,
        out=refused(3, 0, "the kind of charge is above 4"),
    ),
    Case(
        "the most cents and the fewest",
        ["show", "cents"],
        files={"cents": bytes.fromhex("0402010002 0001 00892F87688767")},
        out="kind cents\nletters 2\nwindow 1\nreach 0\nwidth 2\nrule 0 1\ndensity 0 1199 1000 999\nbytes 14\n",
    ),
    Case(
        "an octave in cents",
        ["show", "octave"],
        files={"octave": bytes.fromhex("0402010002 0001 00892F89308767")},
        status=1,
        out=refused(15, 10, "an entry is outside the range of its kind"),
    ),
    Case("a long name", ["show", LONG_PATH], out=PRESETS / "rule184.txt"),
    *[
        Case(f"a name of {length} bytes", ["show", name], out=PRESETS / "rule184.txt", files={name: RULE_184})
        for length in [254, 255]
        for name in ["n" * length]
    ],
    *[
        Case(
            f"a name of {length} bytes with folders",
            ["show", "./" * ((length - 14) // 2) + "/" * (length % 2) + "rule184.preset"],
            out=PRESETS / "rule184.txt",
        )
        for length in [256, 257, 511, 512, 513]
    ],
    Case(
        "a name that begins with a minus sign",
        ["show", "./-m"],
        files={"-m": RULE_184},
        out=PRESETS / "rule184.txt",
    ),
    Case("a name that is a minus sign", ["show", "-"], files={"-": RULE_184}, out=PRESETS / "rule184.txt"),
    Case("a name with blanks", ["show", "a b"], files={"a b": RULE_184}, out=PRESETS / "rule184.txt"),
    Case("a name beyond ASCII", ["show", "ü"], files={"ü": RULE_184}, out=PRESETS / "rule184.txt"),
]


# Encoding a text

ENCODED = "{}: 15 bytes\n".format
OWN_TEXT = "{} is the text itself, which is kept".format
TEXT_184 = (PRESETS / "rule184.txt").read_bytes()
TEXT_CENTS = (PRESETS / "cents-rotate.txt").read_bytes()


def bad_text(name, text, sentence):
    """A text that gives no preset: a file that would be written is kept."""
    return Case(
        name, ["encode", "text", "rule90.preset"], files={"text": text}, status=1, err=[f"text: {sentence}"]
    )


def own_text(name, text, preset, files):
    """A preset that would be written onto its own text."""
    return Case(name, ["encode", text, preset], files=files, status=1, err=[OWN_TEXT(preset)])


ENCODE = [
    *[
        Case(
            "a text is encoded as its preset",
            ["encode", path.name, "new.preset"],
            out=f"new.preset: {len(path.with_suffix('.preset').read_bytes())} bytes\n",
            written={"new.preset": path.with_suffix(".preset")},
        )
        for path in sorted(PRESETS.glob("*.txt"))
    ],
    Case(
        "over a file, which keeps its permissions",
        ["encode", "rule184.txt", "rule90.preset"],
        out=ENCODED("rule90.preset"),
        written={"rule90.preset": RULE_184},
        modes={"rule90.preset": 0o640},
    ),
    Case(
        "over a file that all may run",
        ["encode", "rule184.txt", "rule90.preset"],
        out=ENCODED("rule90.preset"),
        written={"rule90.preset": RULE_184},
        modes={"rule90.preset": 0o777},
    ),
    Case(
        "through a symbolic link, which is kept",
        ["encode", "rule184.txt", "link"],
        files={"link": Link("rule90.preset")},
        out=ENCODED("link"),
        written={"rule90.preset": RULE_184},
    ),
    Case(
        "through a link to another folder",
        ["encode", "rule184.txt", "link"],
        files={"folder": Folder(), "folder/old": b"old", "link": Link("folder/old")},
        out=ENCODED("link"),
        written={"folder/old": RULE_184},
    ),
    Case(
        "into a folder",
        ["encode", "rule184.txt", "folder/new.preset"],
        files={"folder": Folder()},
        out=ENCODED("folder/new.preset"),
        written={"folder/new.preset": RULE_184},
    ),
    Case("to a device", ["encode", "rule184.txt", "/dev/null"], out=ENCODED("/dev/null")),
    bad_text("no text", "", "The text ends where the line kind is due."),
    bad_text("a text that ends", "kind voices\nletters 2\n", "The text ends where the line window is due."),
    bad_text("a wrong line", "kind voices\n\nwindow 3\n", "Line 3: expected the word letters."),
    bad_text("a wrong kind", "kind sounds\n", "Line 1: expected voices, pitch, channels, both or cents."),
    bad_text("a kind's name cut short", "kind cent\n", "Line 1: expected voices, pitch, channels, both or cents."),
    bad_text("no number", "kind voices\nletters two\n", "Line 2: expected a number."),
    bad_text("a number too many", "kind voices\nletters 2 2\n", "Line 2: expected the end of the line."),
    bad_text(
        "a letter that is not in the alphabet",
        TEXT_184.replace(b"rule 0", b"rule 2"),
        "Line 6: a letter is not below the alphabet size.",
    ),
    bad_text("a letter too few", TEXT_184.replace(b"rule 0", b"rule"), "Line 6: expected 8 letters."),
    bad_text("an entry too many", TEXT_184.replace(b"0 1\nbytes", b"0 1 0\nbytes"), "Line 7: expected 2 entries."),
    bad_text("a line too many", TEXT_184 + b"bytes 15\n", "Line 9: expected the end of the text."),
    bad_text(
        "a reach that is not below the window",
        TEXT_184.replace(b"reach 1", b"reach 3"),
        "Line 4: the reach is not below the window.",
    ),
    bad_text(
        "an octave in cents",
        TEXT_CENTS.replace(b"386", b"1200"),
        "Line 7: an entry is outside the range of its kind.",
    ),
    bad_text(
        "many octaves in cents",
        TEXT_CENTS.replace(b"1199", b"65536"),
        "Line 7: an entry is outside the range of its kind.",
    ),
    bad_text("cents below zero", TEXT_CENTS.replace(b"386", b"-386"), "Line 7: expected an entry of the kind."),
    bad_text("cents with a part", TEXT_CENTS.replace(b"386", b"0:386"), "Line 7: expected an entry of the kind."),
    bad_text("an entry in cents too few", TEXT_CENTS.replace(b"386 ", b""), "Line 7: expected 4 entries."),
    Case(
        "cents with zeros in front",
        ["encode", "text", "new.preset"],
        files={"text": TEXT_CENTS.replace(b" 0 386", b" 0000 0386")},
        out="new.preset: 28 bytes\n",
        written={"new.preset": PRESETS / "cents-rotate.preset"},
    ),
    Case(
        "a bad text makes no file",
        ["encode", "damaged.preset", "new.preset"],
        status=1,
        err=["damaged.preset: Line 1: expected the word kind."],
    ),
    own_text("onto its text by the same name", "rule184.txt", "rule184.txt", {}),
    own_text("onto its text by another spelling", "rule184.txt", "./folder/../rule184.txt", {"folder": Folder()}),
    own_text("onto its text by another name", "rule184.txt", "other", {"other": Hard("rule184.txt")}),
    own_text("onto its text through a link", "rule184.txt", "link", {"link": Link("rule184.txt")}),
    own_text("from a link onto its text", "link", "rule184.txt", {"link": Link("rule184.txt")}),
    Case(
        "onto a copy of its text",
        ["encode", "rule184.txt", "copy"],
        files={"copy": TEXT_184},
        out=ENCODED("copy"),
        written={"copy": RULE_184},
    ),
    Case(
        "into a folder that is not there",
        ["encode", "rule184.txt", "none/new.preset"],
        status=1,
        err=["none/new.preset cannot be written: No such file or directory (os error 2)"],
    ),
    Case(
        "onto a folder",
        ["encode", "rule184.txt", "folder"],
        files={"folder": Folder()},
        status=1,
        err=["folder cannot be written: Is a directory (os error 21)"],
    ),
    Case(
        "to a device that is full",
        ["encode", "rule184.txt", "/dev/full"],
        status=1,
        err=["/dev/full cannot be written: No space left on device (os error 28)"],
    ),
    Case(
        "an unfinished file in the way",
        ["encode", "rule184.txt", "new.preset"],
        files={"new.preset.unfinished": b"unfinished"},
        status=1,
        err=["new.preset cannot be written: new.preset.unfinished is in the way"],
    ),
    Case(
        "an unfinished file in the way of a file that is there",
        ["encode", "rule184.txt", "rule90.preset"],
        files={"rule90.preset.unfinished": b"unfinished"},
        status=1,
        err=["rule90.preset cannot be written: PLACE/rule90.preset.unfinished is in the way"],
    ),
    Case(
        "an unfinished file in the way of what a link names",
        ["encode", "rule184.txt", "link"],
        files={"link": Link("folder/old"), "folder": Folder(), "folder/old": b"old", "folder/old.unfinished": b"new"},
        status=1,
        err=["link cannot be written: PLACE/folder/old.unfinished is in the way"],
    ),
    Case(
        "the file is written where it cannot be told of",
        ["encode", "rule184.txt", "new.preset"],
        output="/dev/full",
        status=1,
        err=[FULL],
        written={"new.preset": RULE_184},
    ),
    Case(
        "the file is written where standard output is closed",
        ["encode", "rule184.txt", "new.preset"],
        output=CLOSED,
        status=1,
        err=[NO_OUTPUT],
        written={"new.preset": RULE_184},
    ),
    Case(
        "into a folder that may not be written",
        ["encode", "rule184.txt", "folder/new.preset"],
        files={"folder": Folder()},
        modes={"folder": 0o555},
        status=1,
        err=["folder/new.preset cannot be written: Permission denied (os error 13)"],
    ),
    Case("a text that is not there", ["encode", "none.preset", "rule90.preset"], status=1, err=[NO_FILE]),
    Case(
        "a text of a name that is no line",
        ["encode", "no\nne.txt", "new.preset"],
        status=1,
        err=["no\\x0ane.txt cannot be read: No such file or directory (os error 2)"],
    ),
    Case(
        "a folder for a text",
        ["encode", "folder", "rule90.preset"],
        files={"folder": Folder()},
        status=1,
        err=[IS_FOLDER],
    ),
]


# Judging presets, their crossings, and comparing their densities

HOLDS = "{}\tholds\n".format
RULE_184_HOLDS = HOLDS("rule184.preset")
RULE_90_BREAKS = "rule90.preset\tbreaks\t100\t10000\t1\t2\n"
DAMAGED = "damaged.preset\trefused\t1\t14\n"

JUDGE = [
    Case(
        "all hold, in the order that is asked",
        ["judge", "rule204.preset", "rule184.preset", "both-rotate.preset"],
        out=HOLDS("rule204.preset") + RULE_184_HOLDS + HOLDS("both-rotate.preset"),
    ),
    Case("one holds", ["judge", "rule184.preset"], out=RULE_184_HOLDS),
    Case(
        "the first alone breaks",
        ["judge", "rule90.preset", "rule184.preset"],
        status=1,
        out=RULE_90_BREAKS + RULE_184_HOLDS,
    ),
    Case(
        "the last alone breaks",
        ["judge", "rule184.preset", "rule90.preset"],
        status=1,
        out=RULE_184_HOLDS + RULE_90_BREAKS,
    ),
    Case(
        "the first alone is damaged",
        ["judge", "damaged.preset", "rule184.preset"],
        status=1,
        out=DAMAGED + RULE_184_HOLDS,
    ),
    Case(
        "one is not there",
        ["judge", "rule184.preset", "none.preset", "rule204.preset"],
        status=1,
        out=RULE_184_HOLDS + HOLDS("rule204.preset"),
        err=[NO_FILE],
    ),
    Case(
        "one is a folder",
        ["judge", "folder", "rule204.preset"],
        files={"folder": Folder()},
        status=1,
        out=HOLDS("rule204.preset"),
        err=[IS_FOLDER],
    ),
    Case(
        "a word that is not UTF-8 among others",
        ["judge", "rule184.preset", b"\xff\x01", "rule204.preset"],
        status=1,
        out=RULE_184_HOLDS + HOLDS("rule204.preset"),
        err=["\\xff\\x01 is not UTF-8 (ringbench help tells what there is)"],
    ),
    Case(
        "an option among others",
        ["judge", "--all", "rule184.preset", "rule204.preset"],
        status=1,
        out=RULE_184_HOLDS + HOLDS("rule204.preset"),
        err=["--all is no option here (ringbench help tells what there is)"],
    ),
    Case("one twice", ["judge", "rule184.preset", "rule184.preset"], out=RULE_184_HOLDS * 2),
    Case("one in cents holds", ["judge", "cents-rotate.preset"], out=HOLDS("cents-rotate.preset")),
    # three cells gain 1200 cents, which is no change, and two gain 800
    Case(
        "one in cents breaks",
        ["judge", "cents-octave.preset", "cents-rotate.preset"],
        status=1,
        out="cents-octave.preset\tbreaks\t00\t00\t0\t800\n" + HOLDS("cents-rotate.preset"),
    ),
    Case(
        "one in cents is refused",
        ["judge", "octave"],
        files={"octave": bytes.fromhex("0402010001 0001 008930")},
        status=1,
        out="octave\trefused\t15\t8\n",
    ),
]

CROSSINGS = [
    # a car crosses where a gap is in front of it
    Case("rule 184", ["crossings", "rule184.preset"], out="00\t0\n01\t0\n10\t1\n11\t0\n"),
    # each letter goes to the right, with its voices and its pitch class
    Case("letters that move", ["crossings", "both-rotate.preset"], out="0\t0:0\n1\t1:4\n2\t-1:7\n"),
    # each letter goes to the left: its opposite crosses to the right
    Case("letters that move to the left", ["crossings", "pitch-rotate.preset"], out="0\t0\n1\t9\n2\t5\n3\t2\n"),
    # likewise in cents: 1200 less 386, 702 and 1199
    Case("cents that move to the left", ["crossings", "cents-rotate.preset"], out="0\t0\n1\t814\n2\t498\n3\t1\n"),
    # one that breaks: a zero gains 400 cents, and the table says how much too little is in front of it
    Case("cents that break", ["crossings", "cents-octave.preset"], status=1, out="0\t800\n1\t800\n"),
    # what crosses is the first letter with or without the second
    Case("rule 150", ["crossings", "rule150-channels.preset"], out="00\t0\n01\t1\n10\t1\n11\t0\n"),
    # one that breaks has a table all the same
    Case("rule 90", ["crossings", "rule90.preset"], status=1, out="00\t0\n01\t-1\n10\t0\n11\t-1\n"),
    Case("a damaged preset", ["crossings", "damaged.preset"], status=1, out=CUT_SHORT),
]

COMPARE = [
    # a run of cars begins as often as it ends
    Case(
        "two densities agree",
        ["compare", "traffic-pairs.preset", "gap-pairs.preset"],
        files={"gap-pairs.preset": GAP_PAIRS},
        out="traffic-pairs.preset\tgap-pairs.preset\tagree\n",
    ),
    # a ring of two cars and a gap: two cars, but one with a gap in front
    Case(
        "two differ",
        ["compare", "rule184.preset", "traffic-pairs.preset"],
        status=1,
        out="rule184.preset\ttraffic-pairs.preset\tdiffer\t11\t110\t2\t1\n",
    ),
    Case(
        "two differ the other way round",
        ["compare", "traffic-pairs.preset", "rule184.preset"],
        status=1,
        out="traffic-pairs.preset\trule184.preset\tdiffer\t11\t110\t1\t2\n",
    ),
    Case(
        "two kinds",
        ["compare", "rule184.preset", "pitch-rotate.preset"],
        status=1,
        out="rule184.preset\tpitch-rotate.preset\tkinds differ\n",
    ),
    Case(
        "pitch and cents",
        ["compare", "pitch-rotate.preset", "cents-rotate.preset"],
        status=1,
        out="pitch-rotate.preset\tcents-rotate.preset\tkinds differ\n",
    ),
    Case(
        "two in cents agree",
        ["compare", "pairs", "gap-pairs"],
        files={"pairs": CENTS_PAIRS, "gap-pairs": CENTS_GAP_PAIRS},
        out="pairs\tgap-pairs\tagree\n",
    ),
    Case(
        "two in cents differ",
        ["compare", "cents-rotate.preset", "1198"],
        files={"1198": CENTS_1198},
        status=1,
        out="cents-rotate.preset\t1198\tdiffer\t3\t3\t1199\t1198\n",
    ),
    Case("the first is damaged", ["compare", "damaged.preset", "rule184.preset"], status=1, out=DAMAGED),
    Case("the second is damaged", ["compare", "rule184.preset", "damaged.preset"], status=1, out=DAMAGED),
    Case("the second is not there", ["compare", "rule184.preset", "none.preset"], status=1, err=[NO_FILE]),
    Case(
        "two alphabets",
        ["compare", "rule184.preset", "eight-letters.preset"],
        status=1,
        out="rule184.preset\teight-letters.preset\trefused\t8\t0\n",
    ),
]


# Running a ring

BAD_LETTER = refused(14, 1, "a letter is not below the alphabet size")
BAD_LENGTH = refused(11, 0, "the ring does not have 1 to 4096 cells")
ROWS_184 = ["1100 0 0 0 0", "1010 0 0 1 0", "0101 0 1 1 1", "1010 1 1 2 1"]


def rows(lines):
    return "".join(f"{line}\n" for line in lines)


RUN = [
    Case("rule 184", ["run", "rule184.preset", "1100", "3"], out=rows(row.split()[0] for row in ROWS_184)),
    Case("rule 184 with meters", ["run", "rule184.preset", "1100", "3", "--meters"], out=rows(ROWS_184)),
    Case("pitch", ["run", "pitch-rotate.preset", "0123", "1"], out="0123\n1230\n"),
    Case(
        "pitch with meters",
        ["run", "pitch-rotate.preset", "0123", "2", "--meters"],
        out="0123 0 0 0 0\n1230 0 9 5 2\n2301 9 2 7 2\n",
    ),
    Case("channels", ["run", "rule150-channels.preset", "1000", "1"], out="1000\n1101\n"),
    Case(
        "channels with meters",
        ["run", "rule150-channels.preset", "1000", "1", "--meters"],
        out="1000 0 0 0 0\n1101 1 1 0 0\n",
    ),
    Case("both", ["run", "both-rotate.preset", "012", "1"], out="012\n201\n"),
    Case(
        "both with meters",
        ["run", "both-rotate.preset", "012", "1", "--meters"],
        out="012 0:0 0:0 0:0\n201 -1:7 0:0 1:4\n",
    ),
    Case("cents", ["run", "cents-rotate.preset", "0123", "1"], out="0123\n1230\n"),
    # into the second site came 814 and then 498 cents, an octave and 112
    Case(
        "cents with meters",
        ["run", "cents-rotate.preset", "0123", "2", "--meters"],
        out="0123 0 0 0 0\n1230 0 814 498 1\n2301 814 112 499 1\n",
    ),
    Case(
        "cents that break, with meters",
        ["run", "cents-octave.preset", "000", "1", "--meters"],
        status=1,
        out="cents-octave.preset\tbreaks\n",
    ),
    Case("no steps", ["run", "rule184.preset", "1100", "0"], out="1100\n"),
    Case("no steps with meters", ["run", "rule184.preset", "1100", "0", "--meters"], out="1100 0 0 0 0\n"),
    Case("one cell", ["run", "rule184.preset", "1", "1", "--meters"], out="1 0\n1 0\n"),
    Case("a letter too high", ["run", "rule184.preset", "1200", "3"], status=1, out=BAD_LETTER),
    Case(
        "a letter too high with meters",
        ["run", "rule184.preset", "1200", "3", "--meters"],
        status=1,
        out=BAD_LETTER,
    ),
    Case("a letter too high and no steps", ["run", "rule184.preset", "1900", "0"], status=1, out=BAD_LETTER),
    Case("no cells", ["run", "rule184.preset", "", "3"], status=1, out=BAD_LENGTH),
    Case("no cells with meters", ["run", "rule184.preset", "", "3", "--meters"], status=1, out=BAD_LENGTH),
    Case(
        "as many cells as there may be",
        ["run", "rule204.preset", "01" * 2048, "1"],
        out=rows(["01" * 2048, "01" * 2048]),
    ),
    Case("too many cells", ["run", "rule204.preset", "0" * 4097, "1"], status=1, out=BAD_LENGTH),
    Case(
        "too many cells with meters",
        ["run", "rule204.preset", "0" * 4097, "1", "--meters"],
        status=1,
        out=BAD_LENGTH,
    ),
    # the next letter is 1 where one neighbour is
    Case("a preset that breaks", ["run", "rule90.preset", "00100", "2"], out="00100\n01010\n10001\n"),
    Case(
        "a preset that breaks, with meters",
        ["run", "rule90.preset", "00100", "2", "--meters"],
        status=1,
        out="rule90.preset\tbreaks\n",
    ),
    Case("a damaged preset", ["run", "damaged.preset", "00100", "2"], status=1, out=CUT_SHORT),
    Case("a damaged preset with meters", ["run", "damaged.preset", "00100", "2", "--meters"], status=1, out=CUT_SHORT),
]


# Playing a script

NOT_ON_RING = "Refused with code 13 at place 0: the position is not on the ring."
NO_LETTER = "Refused with code 14 at place 4: a letter is not below the alphabet size."
# a number beyond those of a page stands for the end of them
BEYOND = "9" * 30
NUMBER_END = str(2**63)


def plays(name, script, answers, preset="rule184.preset"):
    return Case(name, ["play", preset], script=script, out=answers)


def bad_line(name, line, wanted):
    """A script that is not played at all, since its third line is no command."""
    return Case(
        name,
        ["play", "rule184.preset"],
        script=f"open 1100\n\n{line}\nstep\nbad as well\n",
        status=1,
        err=[f"the script: Line 3: expected {wanted}."],
    )


COMMAND_NAMES = "open, step, touch, read, arc, meters or close"

PLAY = [
    Case(
        "the session of tools/session",
        ["play", "rule184.preset"],
        script=SESSION / "script",
        out=SESSION / "answers",
    ),
    plays(
        "voices: one call of each sort",
        "open 1100\nstep\ntouch 3 1\nread 3\nread 2\narc 1 2\nmeters\nclose\n",
        "open 1100: done\n"
        "step: done\n"
        "touch 3 1: done\n"
        "read 3: opening 0, crossed 0, touched 1, now 1\n"
        "read 2: opening 0, crossed 1, touched 0, now 1\n"
        "arc 1 2: opening 1, in 0, out 0, touched 0, now 1, adds up\n"
        "meters:\n"
        "site\topening\tcrossed\ttouched\tnow\n"
        "0\t1\t0\t0\t1\n"
        "1\t1\t0\t0\t0\n"
        "2\t0\t1\t0\t1\n"
        "3\t0\t0\t1\t1\n"
        "close: done\n",
    ),
    plays(
        "pitch: one call of each sort",
        "open 0123\nstep\ntouch 0 3\nread 1\narc 1 2\nmeters\nclose\n",
        "open 0123: done\n"
        "step: done\n"
        "touch 0 3: done\n"
        "read 1: opening 3, crossed 9, touched 0, now 7\n"
        "arc 1 2: opening 10, in 9, out 2, touched 0, now 5, adds up\n"
        "meters:\n"
        "site\topening\tcrossed\ttouched\tnow\n"
        "0\t0\t0\t7\t10\n"
        "1\t3\t9\t0\t7\n"
        "2\t7\t5\t0\t10\n"
        "3\t10\t2\t0\t0\n"
        "close: done\n",
        "pitch-rotate.preset",
    ),
    plays(
        "channels: one call of each sort",
        "open 1000\nstep\ntouch 1 0\nread 0\narc 0 2\nmeters\nclose\n",
        "open 1000: done\n"
        "step: done\n"
        "touch 1 0: done\n"
        "read 0: opening 1, crossed 1, touched 0, now 1\n"
        "arc 0 2: opening 1, in 1, out 0, touched 1, now 1, adds up\n"
        "meters:\n"
        "site\topening\tcrossed\ttouched\tnow\n"
        "0\t1\t1\t0\t1\n"
        "1\t0\t1\t1\t0\n"
        "2\t0\t0\t0\t0\n"
        "3\t0\t0\t0\t1\n"
        "close: done\n",
        "rule150-channels.preset",
    ),
    plays(
        "both: one call of each sort",
        "open 012\nstep\ntouch 0 0\nread 0\narc 0 3\nmeters\nclose\n",
        "open 012: done\n"
        "step: done\n"
        "touch 0 0: done\n"
        "read 0: opening 0:0, crossed -1:7, touched 1:5, now 0:0\n"
        "arc 0 3: opening 0:11, in -1:7, out -1:7, touched 1:5, now 1:4, adds up\n"
        "meters:\n"
        "site\topening\tcrossed\ttouched\tnow\n"
        "0\t0:0\t-1:7\t1:5\t0:0\n"
        "1\t1:4\t0:0\t0:0\t0:0\n"
        "2\t-1:7\t1:4\t0:0\t1:4\n"
        "close: done\n",
        "both-rotate.preset",
    ),
    plays(
        "cents: one call of each sort",
        "open 0123\nstep\ntouch 0 3\nread 1\narc 1 2\nmeters\nclose\n",
        "open 0123: done\n"
        "step: done\n"
        "touch 0 3: done\n"
        "read 1: opening 386, crossed 814, touched 0, now 702\n"
        "arc 1 2: opening 1088, in 814, out 1, touched 0, now 701, adds up\n"
        "meters:\n"
        "site\topening\tcrossed\ttouched\tnow\n"
        "0\t0\t0\t813\t1199\n"
        "1\t386\t814\t0\t702\n"
        "2\t702\t498\t0\t1199\n"
        "3\t1199\t1\t0\t0\n"
        "close: done\n",
        "cents-rotate.preset",
    ),
    plays("an empty script", "", ""),
    plays("a script of blank lines and comments", "\n# open 10\n   \t\r\n#\n", ""),
    plays(
        "comments, tabs, carriage returns and blank lines",
        "# a comment\n\n\t open\t1100 \r\n   \nread 1# at once\n#step\n#\r\nclose",
        "open 1100: done\nread 1: opening 1, crossed 0, touched 0, now 1\nclose: done\n",
    ),
    plays(
        "two sessions",
        "open 10\nstep\nclose\nopen 0011\nmeters\nclose\n",
        "open 10: done\nstep: done\nclose: done\nopen 0011: done\n"
        "meters:\nsite\topening\tcrossed\ttouched\tnow\n0\t0\t0\t0\t0\n1\t0\t0\t0\t0\n2\t1\t0\t0\t1\n3\t1\t0\t0\t1\n"
        "close: done\n",
    ),
    plays(
        "no ring is open",
        "step\nstep 0\nstep 2\ntouch 0 1\nread 0\narc 0 1\nmeters\nclose\n",
        "".join(
            f"{command}: no ring is open\n"
            for command in ["step", "step 0", "step 2", "touch 0 1", "read 0", "arc 0 1", "meters", "close"]
        ),
    ),
    plays(
        "a ring is open",
        "open 10\nopen 01\nopen\nopen 9\nread 0\nread 1\n",
        "open 10: done\nopen 01: a ring is open\nopen: a ring is open\nopen 9: a ring is open\n"
        "read 0: opening 1, crossed 0, touched 0, now 1\nread 1: opening 0, crossed 0, touched 0, now 0\n",
    ),
    plays(
        "a ring that is refused is not open",
        "open\nopen 12\nmeters\nopen 1\n",
        "open: Refused with code 11 at place 0: the ring does not have 1 to 4096 cells.\n"
        "open 12: Refused with code 14 at place 1: a letter is not below the alphabet size.\n"
        "meters: no ring is open\nopen 1: done\n",
    ),
    plays(
        "steps",
        "open 10\nstep 0\nread 1\nstep 3\nread 1\nstep 000001\nread 1\n",
        "open 10: done\nstep 0: done\nread 1: opening 0, crossed 0, touched 0, now 0\n"
        "step 3: done\nread 1: opening 0, crossed 2, touched 0, now 1\n"
        "step 1: done\nread 1: opening 0, crossed 2, touched 0, now 0\n",
    ),
    plays(
        "letters that are too high",
        f"open 1100\ntouch 0 2\ntouch 0 255\ntouch 0 256\ntouch 0 257\ntouch 0 {BEYOND}\nread 0\n",
        "open 1100: done\n"
        + "".join(f"touch 0 {letter}: {NO_LETTER}\n" for letter in [2, 255, 256, 257, NUMBER_END])
        + "read 0: opening 1, crossed 0, touched 0, now 1\n",
    ),
    plays(
        "sites that are not on the ring",
        f"open 1100\nread 3\nread 4\ntouch 4 1\nread {2**63 - 1}\nread {BEYOND}\narc 4 1\narc 4 0\narc {BEYOND} 9\n",
        "open 1100: done\nread 3: opening 0, crossed 0, touched 0, now 0\n"
        + "".join(
            f"{command}: {NOT_ON_RING}\n"
            for command in [
                "read 4",
                "touch 4 1",
                f"read {2**63 - 1}",
                f"read {NUMBER_END}",
                "arc 4 1",
                "arc 4 0",
                f"arc {NUMBER_END} 9",
            ]
        ),
    ),
    plays(
        "arcs",
        f"open 1100\nstep\narc 2 0\narc 0 4\narc 2 4\narc 3 2\narc 1 3\narc 0 5\narc 3 5\narc 0 {BEYOND}\n",
        "open 1100: done\nstep: done\n"
        "arc 2 0: opening 0, in 1, out 1, touched 0, now 0, adds up\n"
        "arc 0 4: opening 2, in 0, out 0, touched 0, now 2, adds up\n"
        "arc 2 4: opening 2, in 1, out 1, touched 0, now 2, adds up\n"
        "arc 3 2: opening 1, in 0, out 0, touched 0, now 1, adds up\n"
        "arc 1 3: opening 1, in 0, out 0, touched 0, now 1, adds up\n"
        "arc 0 5: the arc is longer than the ring\n"
        "arc 3 5: the arc is longer than the ring\n"
        f"arc 0 {NUMBER_END}: the arc is longer than the ring\n",
    ),
    plays(
        "the last site of the longest ring",
        f"open {'0' * 4095}1\nread 4095\narc 4095 4096\narc 4095 4097\n",
        f"open {'0' * 4095}1: done\nread 4095: opening 1, crossed 0, touched 0, now 1\n"
        "arc 4095 4096: opening 1, in 0, out 0, touched 0, now 1, adds up\n"
        "arc 4095 4097: the arc is longer than the ring\n",
    ),
    plays(
        "a ring that is too long",
        f"open {'0' * 4097}\n",
        f"open {'0' * 4097}: Refused with code 11 at place 0: the ring does not have 1 to 4096 cells.\n",
    ),
    Case(
        "a preset that breaks",
        ["play", "rule90.preset"],
        script="open 10\n",
        status=1,
        out="rule90.preset\tbreaks\n",
    ),
    Case("a damaged preset", ["play", "damaged.preset"], script="open 10\n", status=1, out=CUT_SHORT),
    Case(
        "a folder for the script",
        ["play", "rule184.preset"],
        input=".",
        status=1,
        err=["standard input cannot be read: Is a directory (os error 21)"],
    ),
    Case(
        "no standard input",
        ["play", "rule184.preset"],
        input=CLOSED,
        status=1,
        err=["standard input cannot be read: Bad file descriptor (os error 9)"],
    ),
    bad_line("an unknown command", "jump", COMMAND_NAMES),
    bad_line("a command in capitals", "Open 10", COMMAND_NAMES),
    bad_line("a longer name", "steps 2", COMMAND_NAMES),
    bad_line("a shorter name", "ope 10", COMMAND_NAMES),
    bad_line("no ring", "open 1a", "a ring as digits"),
    bad_line("no site to read", "read", "a site"),
    bad_line("no number for a site to read", "read -1", "a site"),
    bad_line("no site to touch", "touch # 0 1", "a site"),
    bad_line("no number for a site to touch", "touch x 1", "a site"),
    bad_line("no site of an arc", "arc", "a site"),
    bad_line("no number for a site of an arc", "arc x 1", "a site"),
    bad_line("no letter", "touch 0", "a letter"),
    bad_line("no number for a letter", "touch 0 1x", "a letter"),
    bad_line("no length", "arc 0", "a number of sites"),
    bad_line("no number for a length", "arc 0 -1", "a number of sites"),
    bad_line("no number of steps", "step by step", "a number of steps"),
    bad_line("too many steps", "step 1000001", "at most 1000000 steps"),
    bad_line("far too many steps", f"step {BEYOND}", "at most 1000000 steps"),
    bad_line("a word after a ring", "open 1100 0", "the end of the line"),
    bad_line("a word after steps", "step 1 1", "the end of the line"),
    bad_line("a word after a letter", "touch 0 1 1", "the end of the line"),
    bad_line("a word after a site", "read 0 1", "the end of the line"),
    bad_line("a word after a length", "arc 0 1 1", "the end of the line"),
    bad_line("a word after meters", "meters 0", "the end of the line"),
    bad_line("a word after close", "close 1100", "the end of the line"),
    Case(
        "the first line is wrong",
        ["play", "rule184.preset"],
        script="opens 1100",
        status=1,
        err=[f"the script: Line 1: expected {COMMAND_NAMES}."],
    ),
    Case(
        "a line that is not UTF-8",
        ["play", "rule184.preset"],
        script=b"open 10\n\xff\n",
        status=1,
        err=[f"the script: Line 2: expected {COMMAND_NAMES}."],
    ),
]


# Words that ask nothing, and the page of help


COMMANDS = [
    "show PRESET ",
    "encode TEXT PRESET ",
    "judge PRESET... ",
    "crossings PRESET ",
    "compare PRESET PRESET ",
    "play PRESET ",
    "run PRESET RING STEPS [--meters]\n",
    "help, --help, -h ",
]


def page_of_help():
    """The page of help as its source has it, which has a line for each command."""
    source = (ROOT / "crates" / "cli" / "src" / "help.rt").read_text(encoding="utf-8")
    page = source.split('"\\\n')[1].split('";\n')[0]
    for command in COMMANDS:
        assert f"\n  {command}" in page, f"the page of help lacks {command}"
    return page


HELP = [
    *[
        Case("the page of help", words, out=page_of_help())
        for words in [
            ["help"],
            ["--help"],
            ["-h"],
            ["show", "--help"],
            ["judge", "rule184.preset", "-h"],
            ["encode", "rule184.txt", "rule90.preset", "--help"],
            ["run", "rule184.preset", "--help", "x", "y", "z"],
            ["none", "-h"],
        ]
    ],
    bad_usage("no command", [], "no command is given"),
    bad_usage("an unknown command", ["draw"], "draw is no command"),
    bad_usage("a command in capitals", ["Show", "rule184.preset"], "Show is no command"),
    bad_usage("an option for a command", ["--all"], "--all is no option here"),
    bad_usage("a command that is not UTF-8", [b"\xffshow"], "\\xffshow is no command"),
    bad_usage("a command of other letters", ["zeigen\u00fc"], "zeigen\u00fc is no command"),
    bad_usage("a command that is no line", ["show\nall"], "show\\x0aall is no command"),
    bad_usage("an empty command", [""], "'' is no command"),
    bad_usage("a sign that is not printed", ["a\n\x7fb"], "a\\x0a\\x7fb is no command"),
    bad_usage("help with a word", ["help", "show"], "show is one word too many"),
    bad_usage("help with an option", ["help", "--all"], "--all is no option here"),
    bad_usage("nothing to judge", ["judge"], "PRESET is missing"),
    *[
        case
        for command in ["show", "crossings", "play"]
        for case in [
            bad_usage("no preset", [command], "PRESET is missing"),
            bad_usage("a word too many", [command, "rule184.preset", "more"], "more is one word too many"),
            bad_usage("an option for a preset", [command, "-x"], "-x is no option here"),
            bad_usage("an option too many", [command, "rule184.preset", "--all"], "--all is no option here"),
            bad_usage("a name that is not UTF-8", [command, b"a\xff"], "a\\xff is not UTF-8"),
        ]
    ],
    *[
        case
        for command, first, what in [("encode", "rule184.txt", "TEXT"), ("compare", "rule184.preset", "PRESET")]
        for case in [
            bad_usage("no file", [command], f"{what} is missing"),
            bad_usage("one file", [command, first], "PRESET is missing"),
            bad_usage("three files", [command, first, "rule90.preset", "more"], "more is one word too many"),
            bad_usage("an option too many", [command, first, "rule90.preset", "--all"], "--all is no option here"),
            bad_usage("an option for the first", [command, "--all", "rule90.preset"], "--all is no option here"),
            bad_usage("an option for the second", [command, first, "--all"], "--all is no option here"),
            bad_usage("the first is not UTF-8", [command, b"\x80", "rule90.preset"], "\\x80 is not UTF-8"),
            bad_usage("the second is not UTF-8", [command, first, b"\x80"], "\\x80 is not UTF-8"),
        ]
    ],
    bad_usage("nothing to run", ["run"], "PRESET is missing"),
    bad_usage("no ring", ["run", "rule184.preset"], "RING is missing"),
    bad_usage("no steps", ["run", "rule184.preset", "10"], "STEPS is missing"),
    bad_usage("the preset is not UTF-8", ["run", b"\xff", "10", "1"], "\\xff is not UTF-8"),
    bad_usage("the ring is not UTF-8", ["run", "rule184.preset", b"1\xff", "1"], "1\\xff is no ring as digits"),
    bad_usage("the steps are not UTF-8", ["run", "rule184.preset", "10", b"1\xff"], "1\\xff is no number of steps"),
    bad_usage(
        "the option is not UTF-8", ["run", "rule184.preset", "10", "1", b"\xff"], "\\xff is one word too many"
    ),
    bad_usage("no ring as digits", ["run", "rule184.preset", "1o", "1"], "1o is no ring as digits"),
    bad_usage("a ring below zero", ["run", "rule184.preset", "-10", "1"], "-10 is no option here"),
    bad_usage("no number of steps", ["run", "rule184.preset", "10", "1.5"], "1.5 is no number of steps"),
    bad_usage("steps below zero", ["run", "rule184.preset", "10", "-1"], "-1 is no option here"),
    bad_usage(
        "too many steps",
        ["run", "rule184.preset", "10", "1000001"],
        "1000001 steps are too many: at most 1000000 are run at once",
    ),
    bad_usage(
        "far too many steps",
        ["run", "rule184.preset", "10", BEYOND],
        f"{BEYOND} steps are too many: at most 1000000 are run at once",
    ),
    bad_usage("another option", ["run", "rule184.preset", "10", "1", "--meter"], "--meter is no option here"),
    bad_usage("a word for the option", ["run", "rule184.preset", "10", "1", "meters"], "meters is one word too many"),
    bad_usage(
        "the option twice",
        ["run", "rule184.preset", "10", "1", "--meters", "--meters"],
        "--meters is no option here",
    ),
    bad_usage(
        "a word after the option",
        ["run", "rule184.preset", "10", "1", "--meters", "more"],
        "more is one word too many",
    ),
    bad_usage("the option first", ["run", "--meters", "rule184.preset", "10", "1"], "--meters is no option here"),
]


# Files that cannot be read, and a standard output that cannot be written

READS = [
    ["show", "{}"],
    ["judge", "{}"],
    ["crossings", "{}"],
    ["compare", "{}", "rule184.preset"],
    ["compare", "rule184.preset", "{}"],
    ["play", "{}"],
    ["run", "{}", "10", "1"],
    ["run", "{}", "10", "1", "--meters"],
]
PRINTS = [
    ["show", "rule184.preset"],
    ["show", "damaged.preset"],
    ["judge", "rule184.preset"],
    # said once, since nothing more can be printed
    ["judge", "rule184.preset", "rule90.preset", "none.preset"],
    ["crossings", "rule184.preset"],
    ["crossings", "damaged.preset"],
    ["compare", "rule184.preset", "rule204.preset"],
    ["compare", "rule184.preset", "pitch-rotate.preset"],
    ["play", "rule184.preset"],
    ["play", "rule90.preset"],
    ["play", "damaged.preset"],
    ["run", "rule184.preset", "10", "1"],
    ["run", "rule184.preset", "10", "1", "--meters"],
    ["run", "rule184.preset", "12", "1"],
    ["run", "rule184.preset", "12", "1", "--meters"],
    ["help"],
    ["show", "-h"],
]

STREAMS = [
    *[
        case
        for words in READS
        for case in [
            Case(
                "a file that is not there",
                [word.format("none.preset") for word in words],
                script="open 10\n",
                status=1,
                err=[NO_FILE],
            ),
            Case(
                "a folder for a file",
                [word.format("folder") for word in words],
                script="open 10\n",
                files={"folder": Folder()},
                status=1,
                err=[IS_FOLDER],
            ),
            Case(
                "a file that may not be read",
                [word.format("rule90.preset") for word in words],
                script="open 10\n",
                modes={"rule90.preset": 0o200},
                status=1,
                err=["rule90.preset cannot be read: Permission denied (os error 13)"],
            ),
        ]
    ],
    *[
        Case(name, words, script="open 10\nmeters\narc 0 1\n", output=output, status=1, err=[sentence])
        for words in PRINTS
        for name, output, sentence in [
            ("standard output is full", "/dev/full", FULL),
            ("standard output is closed", CLOSED, NO_OUTPUT),
        ]
    ],
]

CASES = [*SHOW, *ENCODE, *JUDGE, *CROSSINGS, *COMPARE, *RUN, *PLAY, *HELP, *STREAMS]

# Long runs: a car on a ring of two cells crosses into each site in every other step

LONG_RUNS = [
    LongRun(
        "steps of a session",
        lambda steps: (["play", "rule184.preset"], f"open 10\nstep {steps}\nread 0\n"),
        few=1_000,
        many=1_000_000,
        last="open 10: done\nstep 1000000: done\nread 0: opening 1, crossed 500000, touched 0, now 1\n",
        lines=3,
    ),
    LongRun(
        "rows",
        lambda steps: (["run", "rule184.preset", "10", str(steps)], ""),
        few=1_000,
        many=100_000,
        last="01\n10\n",
        lines=100_001,
    ),
    LongRun(
        "rows with meters",
        lambda steps: (["run", "rule184.preset", "10", str(steps), "--meters"], ""),
        few=1_000,
        many=100_000,
        last="01 49999 50000\n10 50000 50000\n",
        lines=100_001,
    ),
    LongRun(
        "meters of a session",
        lambda times: (["play", "rule184.preset"], f"open {'10' * 500}\n" + "meters\n" * times),
        few=1,
        many=200,
        last="999\t0\t0\t0\t0\n",
        lines=1 + 200 * 1002,
    ),
]
