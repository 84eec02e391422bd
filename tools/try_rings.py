# Tries a preset on every ring of up to ten cells and prints whether a total
# changes. It cannot say that none ever does: it is here to be timed against the
# judge. Usage: try_rings.py PRESET

import sys
from pathlib import Path

sys.dont_write_bytecode = True

from preset_format import read_whole
from ring_judge import (
    KINDS, preset_charges, ring_total, step, table_density, table_rule, words,
)

MOST_CELLS = 10


def changing_ring(rule, density):
    """The first ring whose total changes in a step, with both totals, or None."""
    for size in range(1, MOST_CELLS + 1):
        for ring in words(rule.q, size):
            before = ring_total(density, ring)
            after = ring_total(density, step(rule, ring))
            if before != after:
                return ring, before, after
    return None


def main():
    preset = read_whole(Path(sys.argv[1]).read_bytes())
    kind = KINDS[preset.kind]
    rule = table_rule(preset.q, preset.n, preset.l, preset.letters)
    density = table_density(kind, preset.q, preset.k, preset_charges(preset))
    found = changing_ring(rule, density)
    if found is None:
        print(f"no total changes on rings of up to {MOST_CELLS} cells")
    else:
        ring, before, after = found
        letters = "".join(map(str, ring))
        print(f"ring {letters}: {kind.text(before)} before, {kind.text(after)} after")


if __name__ == "__main__":
    main()
