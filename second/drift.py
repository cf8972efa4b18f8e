"""How far a long chain moves coefficients from the exact product, by each rule.

Usage: python3 second/drift.py. Three lines: the rule, the mean error and the
largest one, over all coefficients of a thousand blocks of one seed.

The chain has 32 factors of order 4. By turns each number takes half of the
difference of its two neighbours, in a ring, so half of the sums are at a half.
A level block stays level: what the roundings add to the level stays in it.
"""

import random
from fractions import Fraction

import generate
import model

ORDER, ROUNDS, BLOCKS = 4, 8, 1000
LEVEL, NOISE, SEED = 100, 20, 1


def half_difference(row):
    """The factor: the next number less the one before, by 1/2."""
    entries = [0] * ORDER
    entries[(row + 1) % ORDER], entries[(row - 1) % ORDER] = 2048, -2048
    return generate.single_row(row, ORDER, entries)


def chain():
    return generate.sheet_of(ORDER, [half_difference(row) for _ in range(ROUNDS) for row in range(ORDER)])


def some_blocks():
    """Noise around a level, of mean zero."""
    rng = random.Random(SEED)
    return [[LEVEL + rng.randint(-NOISE, NOISE) for _ in range(ORDER)] for _ in range(BLOCKS)]


def errors(rule, sheet, x):
    """Each coefficient less the exact product, in samples."""
    answer, y = model.line_forward(rule, sheet, x, [0] * ORDER)
    assert answer == model.accepted()
    e, d = model.line_exact(sheet, x)
    return [y[m] - Fraction(e[m], d) for m in range(ORDER)]


def main():
    sheet, blocks = chain(), some_blocks()
    for rule in model.RULES:
        off = [error for x in blocks for error in errors(rule, sheet, x)]
        mean, largest = sum(off) / len(off), max(abs(error) for error in off)
        print(f"rule {rule}: mean error {round(100 * mean):4}/100 of a sample, largest {round(100 * largest):3}/100")


if __name__ == "__main__":
    main()
