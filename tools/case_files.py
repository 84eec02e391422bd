# What the scripts that write cases share: random choices that stay the same from
# run to run, and the files.

import random
import sys


class Chance:
    """Random choices that use only Random.random, whose sequence never changes."""

    def __init__(self, seed):
        self._random = random.Random(seed).random

    def below(self, count):
        return int(self._random() * count)

    def between(self, low, high):
        return low + self.below(high - low + 1)

    def pick(self, values):
        return values[self.below(len(values))]

    def happens(self, percent):
        return self.below(100) < percent


def write_lines(folder, name, lines, most_bytes):
    """Write a file of a folder, a line each; its size goes to stderr."""
    data = "".join(line + "\n" for line in lines).encode("ascii")
    assert len(data) < most_bytes, (name, len(data))
    folder.mkdir(parents=True, exist_ok=True)
    (folder / name).write_bytes(data)
    print(f"{name}: {len(data)} bytes", file=sys.stderr)
