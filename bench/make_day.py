#!/usr/bin/env python3
"""Writes a day of a large shop into a folder, the same bytes on every run: make_day.py FOLDER [LINES]

book.bin has 740 models and 790 derivations: nearly a forest, in which a model was taken from one of the forty before
it; six pairs that were corrected against each other, which makes circles; and second sources for one model in eight,
until there are 790. orders.txt has 300 lines, or as many as are asked for: mostly orders, with holds, releases,
entries and strikes between them, and an indexing soon after each change of the book.
"""
import sys
from pathlib import Path

MODELS, DERIVATIONS, ROOTS, CIRCLES = 740, 790, 3, 6


class Draw:
    """A plain sequence of numbers, the same on every machine."""

    def __init__(self, seed):
        self.seed = seed

    def below(self, n):
        self.seed = (self.seed * 1664525 + 1013904223) % 2**32
        return (self.seed >> 16) % n


def make_book(draw):
    source = {v: v - 1 - draw.below(min(v, 40)) for v in range(ROOTS, MODELS)}
    pairs = {(u, v) for v, u in source.items()}
    while len(pairs) < len(source) + CIRCLES:
        v = ROOTS + draw.below(MODELS - ROOTS)
        pairs.add((v, source[v]))
    eighths = list(range(8, MODELS, 8))
    while len(pairs) < DERIVATIONS:
        v = eighths.pop(draw.below(len(eighths)))
        u = draw.below(v)
        if (u, v) not in pairs:
            pairs.add((u, v))
    return pairs


def make_lines(draw, pairs, many):
    standing, holds, lines, stale = sorted(pairs), {}, ["I"], False
    while len(lines) < many:
        kind, m, other, p = draw.below(100), draw.below(MODELS), draw.below(MODELS), 1 + draw.below(9)
        if stale and draw.below(3) == 0:
            lines.append("I")
            stale = False
        elif kind < 76:
            lines.append("C %d" % m)
        elif kind < 86:
            lines.append("H %d %d" % (m, p))
            if len(holds) < 64:
                holds.setdefault(m, p)
        elif kind < 92:
            m = sorted(holds)[draw.below(len(holds))] if holds else m
            lines.append("R %d %d" % (m, holds.pop(m, p)))
        elif kind < 96 and m != other and (m, other) not in standing:
            lines.append("E %d %d" % (m, other))
            standing.append((m, other))
            stale = True
        elif kind >= 96:
            lines.append("S %d %d" % standing.pop(draw.below(len(standing))))
            stale = True
    return lines


def main():
    folder = Path(sys.argv[1])
    many = int(sys.argv[2]) if len(sys.argv) > 2 else 300
    draw = Draw(740)
    pairs = make_book(draw)
    numbers = [MODELS, len(pairs)] + [u for u, _ in sorted(pairs)] + [v for _, v in sorted(pairs)]
    folder.mkdir(parents=True, exist_ok=True)
    (folder / "book.bin").write_bytes(b"".join(number.to_bytes(2, "little") for number in numbers))
    (folder / "orders.txt").write_text("".join(line + "\n" for line in make_lines(draw, pairs, many)))


if __name__ == "__main__":
    main()
