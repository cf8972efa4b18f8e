"""The figures a to h and the worked example of document 01, figures of its
requests, and the laws tried at random, each with each rule.
Usage: python3 second/figures.py [SEED [COUNT]]. One line for each group; exit
code 1 on any failure."""

import random
import sys
from collections import namedtuple

import generate
import model

NUMBER, SIDE, PLACE, ELEMENT = 0, 1, 2, 3
OK = (0, 0, 0, 0)

SHEET_A = [2, 1, 2, 1, 1, 2048]
SHEET_B = [2, 2, 2, 1, 1, 2048, 3, 1, -1, -6144]
SHEET_C = [3, 1, 1, 2, 0, 1]
SHEET_D = [3, 1, 4, 1, 1, -1, 1, 4096, 1024]
SHEET_E = [2, 1, 2, 1, 1, 4096]

# Request R-5, worked out by hand: what rules 0, 1 and 2 give.

# A sum of so many halves and so many units.
HALVES = [
    (0, -1, [0, -1, 0]), (0, 0, [0, 0, 0]), (0, 1, [0, 0, 0]),
    (1, -1, [0, 0, 0]), (1, 0, [1, 0, 0]), (1, 1, [1, 0, 1]),
    (3, -1, [1, 1, 1]), (3, 0, [2, 1, 2]), (3, 1, [2, 1, 2]),
    (5, -1, [2, 2, 2]), (5, 0, [3, 2, 2]), (5, 1, [3, 2, 3]),
    (-1, -1, [-1, -1, -1]), (-1, 0, [0, -1, 0]), (-1, 1, [0, -1, 0]),
    (-3, -1, [-2, -2, -2]), (-3, 0, [-1, -2, -2]), (-3, 1, [-1, -2, -1]),
    (-5, -1, [-3, -3, -3]), (-5, 0, [-2, -3, -2]), (-5, 1, [-2, -3, -2]),
]

# Sheet a on a block, and on both sides of one. With its own odd number inside
# the rounding, rule 2 would end the first rows in 2, 0, 2 and 0.
LINES = [
    ([1, 5], [[1, 6], [1, 5], [1, 5]]),
    ([3, 5], [[3, 7], [3, 6], [3, 7]]),
    ([-1, 5], [[-1, 5], [-1, 4], [-1, 5]]),
    ([-3, 5], [[-3, 4], [-3, 3], [-3, 3]]),
]
BLOCKS = [
    ([1, 1, 0, 0], [[1, 2, 1, 1], [1, 1, 0, 0], [1, 1, 0, 1]]),
    ([1, -1, 0, 0], [[1, 0, 1, 0], [1, -1, 0, -1], [1, -1, 0, 0]]),
    ([3, 1, 0, 0], [[3, 3, 2, 1], [3, 2, 1, 1], [3, 3, 2, 1]]),
    ([-1, 1, 0, 0], [[-1, 1, 0, 0], [-1, 0, -1, 0], [-1, 1, 0, 0]]),
]
ALLOWANCES = [
    (SHEET_A, [[0, 2048], [0, 4096], [0, 2048]]),
    (SHEET_B, [[5120, 2048], [10240, 4096], [5120, 2048]]),
    (SHEET_D, [[0, 2048, 0], [0, 4096, 0], [0, 2048, 0]]),
    (SHEET_E, [[0, 0], [0, 0], [0, 0]]),
]

# The smallest case in which a share of 2048 is too little for rule 1.
SHEET_ALMOST = [2, 1, 2, 1, 1, 4095]

# A half of the first number is added and taken off again, four times, so the
# exact product of (1, 0) is (1, 0). Each pair of factors adds 1, -1 or 0.
SHEET_DRIFT = [2, 8] + [2, 1, 1, 2048, 2, 1, 1, -2048] * 4
DRIFT = [[1, 4], [1, -4], [1, 0]]

# Request R-7, worked out by hand: the element that a refusal 11 names. Entries
# are 0 or 1, so that a stage is a few additions and no rule rounds anything.
T = model.SAMPLE_LIMIT
LOW_2 = SHEET_E
UP_2 = [2, 1, 3, 1, 1, 4096]
LOW_3 = [3, 1, 2, 1, 1, 1, 4096, 4096, 0]  # adds number 0 to numbers 1 and 2
UP_3 = [3, 1, 3, 1, 1, 1, 0, 4096, 4096]  # adds number 2 to numbers 0 and 1
ROW_0 = [2, 1, 4, 0, 1, 1, 4096]  # adds number 1 to number 0
ROW_1 = [2, 1, 4, 1, 1, 1, 4096]  # adds number 0 to number 1
MIDDLE = [3, 1, 4, 1, 1, 1, 1, 4096, 4096]  # adds numbers 0 and 2 to number 1
TURN_UP = [3, 2, 1, 2, 0, 1, 3, 1, 1, 1, 0, 4096, 4096]  # (x0, x1, x2) to (x2, x0, x1), then UP_3
UP_TURN = [3, 2, 3, 1, 1, 1, 0, 4096, 4096, 1, 2, 0, 1]  # the same factors the other way round
SWAP_UP = [2, 2, 1, 1, 0, 3, 1, 1, 4096]  # (x0, x1) to (x1, x0), then UP_2
UP_SWAP = [2, 2, 3, 1, 1, 4096, 1, 1, 0]
WIDE = [2, 9] + [2, 1, 1, 16383, 3, 1, 1, 16383] * 4 + [2, 1, 1, 16383]

# What is run, column sheet, row sheet (none: a line), block, answer. Beside it
# the numbers up to the refused stage, and where the orders name different
# elements, which.
ELEMENTS = [
    ("forward", LOW_3, None, [1, T, T], (11, 0, 1, 1)),  # 1, T+1, T+1
    ("inverse", LOW_3, None, [-1, T, T], (11, 0, 1, 1)),  # -1, T+1, T+1: kind 2 is undone in reading order
    ("forward", UP_3, None, [T, T, 1], (11, 0, 1, 0)),  # T+1, T+1, 1: reading 0, recovery 1
    ("inverse", UP_3, None, [T, T, -1], (11, 0, 1, 1)),  # T+1, T+1, -1: reading 0, recovery 1
    ("forward", MIDDLE, None, [1, T, 0], (11, 0, 1, 1)),  # 1, T+1, 0: of a line only number r can be beyond
    ("inverse", MIDDLE, None, [-1, T, 0], (11, 0, 1, 1)),  # -1, T+1, 0
    ("forward", UP_3, None, [0, T + 1, -T - 1], (11, 0, 0, 1)),  # as given: reading 1, recovery 2
    ("inverse", UP_3, None, [0, T + 1, -T - 1], (11, 0, 0, 1)),  # the same
    ("forward", TURN_UP, None, [T, 1, T], (11, 0, 2, 0)),  # T, T, 1; then T+1, T+1, 1: reading 0, recovery 1
    ("inverse", UP_TURN, None, [-1, T, T], (11, 0, 2, 1)),  # T, T, -1; then T+1, T+1, -1: reading 0, recovery 1
    ("forward", LOW_2, LOW_2, [1, T, T, -T], (11, 0, 1, 1)),  # 1, T+1; T+1, T+1
    ("inverse", LOW_2, LOW_2, [-1, T, T, T], (11, 0, 1, 1)),  # -1, T+1; T+1, -T-1
    ("forward", UP_2, UP_2, [-T, T, T, 1], (11, 0, 1, 0)),  # T+1, T+1; T+1, 1: reading 0, recovery 2
    ("inverse", UP_2, UP_2, [T, T, T, -1], (11, 0, 1, 2)),  # -T-1, T+1; T+1, -1: reading 0, recovery 2
    ("forward", ROW_1, ROW_0, [T, 1, -T, T], (11, 0, 1, 0)),  # T+1, 1; T+1, T+1: reading 0, recovery 3
    ("inverse", ROW_1, ROW_0, [T, -1, T, T], (11, 0, 1, 3)),  # T+1, -1; -T-1, T+1: reading 0, recovery 3
    # 1, T+1, 0; T+1, T+1, 0; 0, 0, 0: reading 1, recovery 3, row r before column q
    ("forward", MIDDLE, MIDDLE, [1, T, 0, T, -T, 0, 0, 0, 0], (11, 0, 1, 1)),
    # -1, T+1, 0; T+1, -T-1, 0; 0, 0, 0: reading 1, recovery 3
    ("inverse", MIDDLE, MIDDLE, [-1, T, 0, T, T, 0, 0, 0, 0], (11, 0, 1, 3)),
    ("forward", UP_2, UP_2, [0, T + 1, 0, -T - 1], (11, 0, 0, 1)),  # as given: reading 1, recovery 3
    ("inverse", UP_2, UP_2, [0, T + 1, 0, -T - 1], (11, 0, 0, 1)),  # the same
    ("forward", SWAP_UP, SWAP_UP, [1, T, T, -T], (11, 0, 2, 0)),  # -T, T; T, 1; then T+1, T+1; T+1, 1
    ("inverse", UP_SWAP, UP_SWAP, [-1, T, T, T], (11, 0, 2, 2)),  # T, T; T, -1; then -T-1, T+1; T+1, -1
]

# In every other answer it is 0, also where a stage is named.
NO_ELEMENT = (WIDE, (13, 0, 9, 0))


# Request R-4, worked out by hand. The camera: triangles for its columns, single
# rows for its four bands. The numbers after the column pass alone, then after both.
CAMERA_COLUMNS = [4, 2, 2, 1, 1, 1, 1, -4096, 0, -4096, 0, 0, -4096, 3, 1, 1, 1, 1, 3072, 2048, 1024, 0, 0, 0]
CAMERA_BANDS = [4, 4, 4, 0, 1, 1, 1, 1, -4096, 0, 0, 4, 2, 1, 1, 1, 1, 0, -4096, 0, 4, 3, 1, 1, 1, 1, 0, -4096, 0,
                4, 1, 1, 1, 1, 1, 1024, 1024, 1024]
CAMERA_SAMPLES = [101, 104, 97, 121, 103, 107, 98, 124, 102, 105, 99, 127, 98, 101, 96, 122]
CAMERA_BETWEEN = [101, 104, 98, 124, 2, 3, 1, 3, -1, -2, 1, 3, -4, -4, -3, -5]
CAMERA_AFTER = [-3, 107, -6, 20, -1, 2, -2, 0, 1, 0, 3, 5, 0, -4, 1, -1]
CAMERA_ALLOWANCES = [4096, 7168, 4096, 4096] + [0, 2048, 0, 0] * 3

# Two sheets, a block, what two passes make of it by rules 0, 1 and 2. Of sheet a
# on both sides, the rows first would end in 1, and the joint run does.
PASSES = [
    (SHEET_A, SHEET_A, [1, 1, 0, 0], [[1, 2, 1, 2], [1, 1, 0, 0], [1, 1, 0, 0]]),
    (SHEET_A, SHEET_B, [3, 5, 1, 1], [[-7, -7, -6, -6], [-6, -6, -4, -4], [-7, -7, -5, -5]]),
    (SHEET_C, SHEET_A, [3, 5, 1, 0, -1, 5], [[-1, 5, 3, 7, 1, 1], [-1, 4, 3, 6, 1, 0], [-1, 5, 3, 7, 1, 0]]),
]

# By rule 0: sheet a's own share, and half of it beside the row's: 2048 + 1024 + 2048.
PASS_ALLOWANCES = [
    (SHEET_A, SHEET_A, [[0, 2048, 2048, 5120], [0, 4096, 4096, 10240], [0, 2048, 2048, 5120]]),
    (SHEET_E, SHEET_A, [[0, 2048, 0, 2048], [0, 4096, 0, 4096], [0, 2048, 0, 2048]]),
]

# What is run, the column sheet or none, the row sheet or none, how many lines
# (of a pass alone), block, answer. Beside it the numbers of the refused stage, and
# where reading order and line after line name different elements, which.
PASS_ELEMENTS = [
    ("forward", LOW_3, None, 2, [1, 1, 0, T, T, 0], (11, 0, 1, 3)),  # 1, 1; 1, T+1; T+1, 1: reading 3, by columns 4
    ("inverse", LOW_3, None, 2, [-1, -1, 0, T, T, 0], (11, 0, 1, 4)),  # -1, -1; 1, T+1; T+1, 1: reading 3, by columns 4
    ("forward", UP_3, None, 2, [T, T, T, T, 1, 1], (11, 0, 1, 0)),  # T+1 four times: reading 0, column 0 upward 2
    ("inverse", UP_3, None, 2, [T, T, T, T, -1, -1], (11, 0, 1, 2)),  # T+1 four times: reading 0, column 0 upward 2
    ("forward", MIDDLE, None, 2, [0, 1, 0, T, 0, 0], (11, 0, 1, 3)),  # only number 3
    ("inverse", MIDDLE, None, 2, [0, -1, 0, T, 0, 0], (11, 0, 1, 3)),  # only number 3
    ("forward", None, UP_3, 2, [T, T, 1, T, T, 1], (11, 0, 1, 0)),  # T+1, T+1, 1 twice: reading 0, row 0 from the right 1
    ("inverse", None, UP_3, 2, [T, T, -1, T, T, -1], (11, 0, 1, 1)),  # T+1, T+1, -1 twice: reading 0, row 0 from the right 1
    ("inverse", None, LOW_3, 2, [-1, 0, 0, -1, T, T], (11, 0, 1, 4)),  # only row 1, from the left
    ("inverse", LOW_3, None, 2, [0, T + 1, T + 1, 0, 0, 0], (11, 0, 0, 1)),  # as given: reading 1, by columns 2
    ("inverse", None, UP_3, 2, [0, T + 1, T + 1, 0, 0, 0], (11, 0, 0, 1)),  # as given: reading 1, from the right 2
    ("forward", LOW_3, UP_2, None, [1, 1, 0, T, T, 0], (11, 0, 1, 3)),  # in the column pass, as above
    ("forward", SHEET_C, UP_2, None, [T, 1, 0, 0, T, 1], (11, 0, 2, 0)),  # T, 1; T, 1; 0, 0, then T+1, 1; T+1, 1
    # -1, -1; 0, T; T, 0, then -1, -1; 1, T+1; T+1, 1: reading 3, by columns 4
    ("inverse", LOW_3, LOW_2, None, [-1, -2, 0, T, T, T], (11, 0, 2, 4)),
    # -1, -1; T, 0; 0, T, then -1, -1; 0, T; T, 0, then the same
    ("inverse", LOW_3, SWAP_UP, None, [-2, -1, T, 0, T, T], (11, 0, 3, 4)),
    # in the row pass, which is undone first: T+1, T+1, -1 twice
    ("inverse", LOW_2, UP_3, None, [T, T, -1, T, T, -1], (11, 0, 1, 1)),
]


class Group:
    """Counts the trials of one group and keeps what failed."""

    def __init__(self, name):
        self.name = name
        self.trials = 0
        self.failures = []

    def same(self, got, wanted, about=""):
        self.trials += 1
        if got != wanted:
            self.failures.append(f"{about} got {got}, wanted {wanted}")

    def holds(self, truth, about):
        self.same(bool(truth), True, about)

    def report(self):
        print(f"{self.name}: {self.trials} tried, {len(self.failures)} failed")
        for failure in self.failures[:5]:
            print("  " + failure)
        return not self.failures


def run(sheet, x, rule=model.NEAREST):
    return model.line_forward(rule, sheet, x, [9] * len(x))


def allowance(sheet, rule=model.NEAREST):
    return model.line_allowance(rule, sheet, [9] * sheet[0])


def unhex(text):
    return list(bytes.fromhex(text))


# ---------------------------------------------------------------------------
# Figures


def figure_a(group):
    group.same(run(SHEET_A, [3, 5]), (OK, [3, 7]))
    group.same(run(SHEET_A, [-2, 5]), (OK, [-2, 4]))
    group.same(run(SHEET_A, [-1, 5]), (OK, [-1, 5]))
    group.same(model.encode(SHEET_A), unhex("04 02 04 02 02 80 20"))
    group.same(allowance(SHEET_A), (OK, [0, 2048]))


def figure_b(group):
    group.same(run(SHEET_B, [3, 5]), (OK, [-7, -7]))
    group.same(model.line_inverse(model.NEAREST, SHEET_B, [-7, -7], [9, 9]), (OK, [3, 5]))


def figure_c(group):
    group.same(run(SHEET_C, [10, 20, 30]), (OK, [30, 10, 20]))


def figure_d(group):
    group.same(run(SHEET_D, [4, 7, 3]), (OK, [4, -2, 3]))
    group.same(allowance(SHEET_D), (OK, [0, 2048, 0]))


def figure_e(group):
    group.same(run(SHEET_E, [16777215, 0]), (OK, [16777215, 16777215]))
    group.same(run(SHEET_E, [16777215, 1]), ((11, 0, 1, 1), [9, 9]))
    group.same(run(SHEET_E, [16777216, 0]), ((11, 0, 0, 0), [9, 9]))
    group.same(allowance(SHEET_E), (OK, [0, 0]))


def figure_f(group):
    got = model.joint_forward(model.NEAREST, SHEET_A, SHEET_A, [1, 1, 0, 0], [9] * 4)
    group.same(got, (OK, [1, 2, 1, 1]))


def figure_g(group):
    for table in (model.BUILT_IN, model.FIRST_PRINTING):
        group.same(len(table), 45)
        group.same(model.check(table), OK)
        group.same(run(table, [100, 0, 0, 0]), (OK, [50, 50, 50, 50]))


# "DCT" of source 001, section 5, in ten-thousandths.
PRINTED_DCT = [
    [5000, 5000, 5000, 5000],
    [6533, 2706, -2706, -6533],
    [5000, -5000, -5000, 5000],
    [2706, -6533, 6533, -2706],
]


def far_elements(table):
    """How many elements of the exact product are beyond 50/10000 of the transposed DCT."""
    beyond = 0
    for j in range(4):
        column, scale = model.line_exact(table, [int(k == j) for k in range(4)])
        beyond += sum(abs(10000 * column[i] - scale * PRINTED_DCT[j][i]) > 50 * scale for i in range(4))
    return beyond


def request_2(group):
    group.same(run(model.FIRST_PRINTING, [0, 100, 0, 0]), (OK, [163, -94, 94, -65]))
    group.same(run(model.BUILT_IN, [0, 100, 0, 0]), (OK, [65, 28, -28, -65]))
    group.same(far_elements(model.BUILT_IN), 0)
    group.holds(far_elements(model.FIRST_PRINTING) > 0, "the first printing passes")


def line_at(halves, units):
    """A sheet and a block whose second number, 7, has that sum at scale 4096."""
    s = 2048 * halves + units
    return [2, 1, 2, 1, 1, abs(s)], [1 if s > 0 else -1, 7]


def block_at(halves, units):
    """Sheets and a block whose last number, 7, has that sum at scale 16777216:
    the units from (0,0) by two entries, the halves from (0,1) by one."""
    return [2, 1, 2, 1, 1, 1], [2, 1, 2, 1, 1, -1], [-units, 2048 * halves, 0, 7]


def rule_halves(group):
    for halves, units, wanted in HALVES:
        sheet, x = line_at(halves, units)
        col, row, block = block_at(halves, units)
        for rule in model.RULES:
            about = (halves, units, rule)
            group.same(model.R(rule, 2048 * halves + units), wanted[rule], about)
            group.same(model.R2(rule, 8388608 * halves + units), wanted[rule], about)
            group.same(run(sheet, x, rule), (OK, [x[0], 7 + wanted[rule]]), about)
            answer, y = model.joint_forward(rule, col, row, block, [9] * 4)
            group.same((answer, y[3]), (OK, 7 + wanted[rule]), about)


def rule_runs(group):
    for rule in model.RULES:
        for x, wanted in LINES:
            group.same(run(SHEET_A, x, rule), (OK, wanted[rule]))
            group.same(model.line_inverse(rule, SHEET_A, wanted[rule], [9, 9]), (OK, x))
        for x, wanted in BLOCKS:
            group.same(model.joint_forward(rule, SHEET_A, SHEET_A, x, [9] * 4), (OK, wanted[rule]))
            group.same(model.joint_inverse(rule, SHEET_A, SHEET_A, wanted[rule], [9] * 4), (OK, x))


def rule_drift(group):
    e, d = model.line_exact(SHEET_DRIFT, [1, 0])
    group.same(e, [d, 0])
    for rule in model.RULES:
        group.same(run(SHEET_DRIFT, [1, 0], rule), (OK, DRIFT[rule]))


def rule_allowances(group):
    for rule in model.RULES:
        for sheet, wanted in ALLOWANCES:
            group.same(allowance(sheet, rule), (OK, wanted[rule]))
        share = [2048, 4096, 2048][rule]
        group.same(model.joint_allowance(rule, SHEET_A, SHEET_A, [9] * 4), (OK, [0, share, share, share]))
    group.same(run(SHEET_ALMOST, [1, 0], model.FLOOR), (OK, [1, 0]))
    group.same(allowance(SHEET_ALMOST, model.FLOOR), (OK, [0, 4096]))
    e, d = model.line_exact(SHEET_ALMOST, [1, 0])
    off = 4096 * abs(d * 0 - e[1])
    group.holds(d * 2048 < off <= d * 4096, "a share of 2048 is enough")


def rule_refusals(group):
    """16 comes before all others: here no sheet is one, and no length fits."""
    for rule in generate.WRONG_RULES:
        refused = ((16, 0, 0, 0), [9])
        group.same(model.line_forward(rule, [], [], [9]), refused)
        group.same(model.line_inverse(rule, [], [], [9]), refused)
        group.same(model.line_allowance(rule, [], [9]), refused)
        group.same(model.joint_forward(rule, [], [], [], [9]), refused)
        group.same(model.joint_inverse(rule, [], [], [], [9]), refused)
        group.same(model.joint_allowance(rule, [], [], [9]), refused)
        group.same(model.line_strip(rule, [], [1], [9], [], model.line_forward), refused + ([],))
        group.same(model.joint_strip(rule, [], [], [1], [9], [], model.joint_inverse), refused + ([],))


def elements(group):
    """R-7: the figures are the same by every rule, since nothing is rounded."""
    for what, col, row, x, answer in ELEMENTS:
        call = run_forward if what == "forward" else run_inverse
        for rule in model.RULES:
            group.same(call(rule, (col, row), x), (answer, [9] * len(x)), (what, col, row, x))
    sheet, answer = NO_ELEMENT
    group.same(allowance(sheet), (answer, [9, 9]))


def camera(group):
    """R-4: the pair that 12 forbids, as two passes, as one pass and the other, back, and its allowances."""
    c, r, x, y = CAMERA_COLUMNS, CAMERA_BANDS, CAMERA_SAMPLES, [9] * 16
    group.same(model.check_pair(c, r), (12, 0, 0, 0))
    group.same(model.joint_forward(0, c, r, x, y), ((12, 0, 0, 0), y))
    group.same(model.two_pass_forward(0, c, r, x, y), (OK, CAMERA_AFTER))
    group.same(model.two_pass_inverse(0, c, r, CAMERA_AFTER, y), (OK, x))
    group.same(model.two_pass_allowance(0, c, r, y), (OK, CAMERA_ALLOWANCES))
    group.same(model.column_forward(0, c, 4, x, y), (OK, CAMERA_BETWEEN))
    group.same(model.row_forward(0, r, 4, CAMERA_BETWEEN, y), (OK, CAMERA_AFTER))
    group.same(model.row_inverse(0, r, 4, CAMERA_AFTER, y), (OK, CAMERA_BETWEEN))
    group.same(model.column_inverse(0, c, 4, CAMERA_BETWEEN, y), (OK, x))


def pass_runs(group):
    for rule in model.RULES:
        for col, row, x, wanted in PASSES:
            y = [9] * len(x)
            group.same(model.two_pass_forward(rule, col, row, x, y), (OK, wanted[rule]))
            group.same(model.two_pass_inverse(rule, col, row, wanted[rule], y), (OK, x))
        for col, row, wanted in PASS_ALLOWANCES:
            group.same(model.two_pass_allowance(rule, col, row, [9] * 4), (OK, wanted[rule]))


PASS_CALLS = {
    "forward": (model.column_forward, model.row_forward, model.two_pass_forward),
    "inverse": (model.column_inverse, model.row_inverse, model.two_pass_inverse),
}


def pass_elements(group):
    """The same by every rule, since nothing is rounded."""
    for what, col, row, lines, x, answer in PASS_ELEMENTS:
        down, along, both = PASS_CALLS[what]
        for rule in model.RULES:
            y = [9] * len(x)
            got = both(rule, col, row, x, y) if lines is None else (
                down(rule, col, lines, x, y) if row is None else along(rule, row, lines, x, y))
            group.same(got, (answer, y), (what, col, row, x))


# Rule, column sheet, row sheet, lengths of input and output, answer: each fault
# stands beside later ones. Of a pass alone: rule, sheet, other order, lengths, answer.
NO_SHEET = [0]  # 2, place 0
NO_SIGN = [2, 1, 2, 1, 0, 2048]  # 7, place 4
PAIR_REFUSALS = [
    (3, NO_SHEET, NO_SHEET, 1, 1, (16, 0, 0, 0)),
    (0, NO_SIGN, NO_SHEET, 1, 1, (7, 0, 4, 0)),
    (0, SHEET_A, NO_SIGN, 1, 1, (7, 1, 4, 0)),
    (0, SHEET_A, SHEET_D, 1, 1, (10, 0, 0, 0)),
    (0, SHEET_A, SHEET_D, 6, 1, (10, 1, 0, 0)),
    (0, SHEET_B, SHEET_A, 5, 4, (10, 0, 0, 0)),
]
PASS_REFUSALS = [
    (3, NO_SHEET, 0, 1, 1, (16, 0, 0, 0)),
    (0, NO_SIGN, 0, 1, 1, (7, 0, 4, 0)),
    (0, SHEET_A, 0, 1, 1, (2, 0, 0, 0)),
    (0, SHEET_A, 0, 0, 0, (2, 0, 0, 0)),
    (0, SHEET_A, 17, 34, 34, (2, 0, 0, 0)),
    (0, SHEET_A, 2 ** 32 - 1, 1, 1, (2, 0, 0, 0)),
    (0, SHEET_A, 3, 1, 1, (10, 0, 0, 0)),
    (0, SHEET_A, 3, 6, 1, (10, 1, 0, 0)),
    (0, SHEET_A, 16, 32, 31, (10, 1, 0, 0)),
]


def pass_refusals(group):
    for rule, col, row, x, y, answer in PAIR_REFUSALS:
        for call in (model.two_pass_forward, model.two_pass_inverse):
            group.same(call(rule, col, row, [0] * x, [9] * y), (answer, [9] * y))
    for rule, sheet, other, x, y, answer in PASS_REFUSALS:
        for call in (model.column_forward, model.column_inverse, model.row_forward, model.row_inverse):
            group.same(call(rule, sheet, other, [0] * x, [9] * y), (answer, [9] * y))
    group.same(model.two_pass_allowance(3, [], [], [9]), ((16, 0, 0, 0), [9]))
    group.same(model.two_pass_allowance(0, SHEET_A, NO_SIGN, [9]), ((7, 1, 4, 0), [9]))
    group.same(model.two_pass_allowance(0, SHEET_A, SHEET_D, [9]), ((10, 1, 0, 0), [9]))
    group.same(model.two_pass_allowance(0, WIDE, SHEET_A, [9] * 4), ((13, 0, 9, 0), [9] * 4))
    group.same(model.two_pass_allowance(0, SHEET_E, WIDE, [9] * 4), ((13, 0, 10, 0), [9] * 4))
    # from 2048, 2048: 12288, 53245, 227303, 964450, 4086916, 17313165, 73337397
    group.same(model.two_pass_allowance(0, SHEET_A, WIDE, [9] * 4), ((13, 0, 8, 0), [9] * 4))


def figure_h(group):
    group.same(model.encode([16384]), unhex("80 80 02"))
    group.same(model.read(unhex("84 00"), [9]), ((14, 0, 0, 0), [9]))


def worked_example(group):
    printed = model.program(unhex("14 04 04 04 02 02 80 20 06 02 01 FF 5F 06 0A"))
    group.same(printed, "forward -7 -7\nback 3 5\nallow 5120 2048\n")


def limits(group):
    draft = generate.longest_draft(random.Random(1))
    sheet = generate.numbers_of(draft)
    group.same((len(sheet), model.check(sheet)), (4386, OK))
    group.same(model.check(sheet + [0]), (9, 0, 4386, 0))


# ---------------------------------------------------------------------------
# Laws. Each is tried on a line (row is None), on a pair and on a pair for two
# passes, by one shape of run: run_forward(rule, recipe, x), where a recipe is
# (column sheet, row sheet). One rule holds throughout a law.


class TwoPass(tuple):
    """A pair for two passes; a pair for a joint run is a plain tuple."""


def call_on(recipe, line, joint, two_pass, rule, *blocks):
    """The recipe's call on its sheets."""
    col, row = recipe
    if row is None:
        return line(rule, col, *blocks)
    return (two_pass if isinstance(recipe, TwoPass) else joint)(rule, col, row, *blocks)


def run_forward(rule, recipe, x):
    return call_on(recipe, model.line_forward, model.joint_forward, model.two_pass_forward, rule, x, [9] * len(x))


def run_inverse(rule, recipe, y):
    return call_on(recipe, model.line_inverse, model.joint_inverse, model.two_pass_inverse, rule, y, [9] * len(y))


def run_allowance(rule, recipe, length):
    return call_on(recipe, model.line_allowance, model.joint_allowance, model.two_pass_allowance, rule, [9] * length)


def exact(recipe, x):
    col, row = recipe
    if row is None:
        return model.line_exact(col, x)
    return (model.two_pass_exact if isinstance(recipe, TwoPass) else model.joint_exact)(col, row, x)


def block_length(recipe):
    col, row = recipe
    return col[0] if row is None else col[0] * row[0]


def some_line(rng):
    return (generate.numbers_of(generate.ruled_draft(rng)), None)


def some_pair(rng):
    column, row = generate.ruled_pair(rng)
    return (generate.numbers_of(column), generate.numbers_of(row))


def crowd_line(rng, inverse=False):
    """A line in which several numbers may be beyond the bound at one stage."""
    return (generate.numbers_of(generate.crowd_line(rng, inverse)), None)


def crowd_pair(rng, inverse=False):
    """The same in two dimensions."""
    column, row = generate.crowd_pair(rng, inverse)
    return (generate.numbers_of(column), generate.numbers_of(row))


def some_two_pass(rng):
    """Sheets that are unlike in kinds and counts, mostly."""
    column, row = generate.unlike_pair(rng)
    return TwoPass((generate.numbers_of(column), generate.numbers_of(row)))


def crowd_two_pass(rng, inverse=False):
    """Two passes in which several numbers may be beyond the bound at one stage."""
    column, row = generate.crowd_passes(rng, inverse)
    return TwoPass((generate.numbers_of(column), generate.numbers_of(row)))


def edge_run(rng, rule, recipe, inverse):
    """A block that meets the bound at some stage."""
    col, row = recipe
    if isinstance(recipe, TwoPass):
        stages = model.both_passes(*model.unlike_pair_of(col, row))
        return generate.pass_block_to_edge(rng, rule, stages, col[0], row[0], inverse)
    if row is None:
        return generate.line_block_to_edge(rng, rule, col, inverse)
    return generate.joint_block_to_edge(rng, rule, col, row, inverse)


def some_input(rng, rule, recipe, inverse=False):
    if generate.chance(rng, 0.3):
        return edge_run(rng, rule, recipe, inverse)
    return generate.some_block(rng, block_length(recipe))


def round_trip_law(rng, rule, recipe, group):
    """The inverse undoes an accepted forward run."""
    x = some_input(rng, rule, recipe)
    answer, y = run_forward(rule, recipe, x)
    if answer == OK:
        group.same(run_inverse(rule, recipe, y), (OK, x), recipe)


def trip_round_law(rng, rule, recipe, group):
    """The forward run undoes an accepted inverse run."""
    y = some_input(rng, rule, recipe, True)
    answer, x = run_inverse(rule, recipe, y)
    if answer == OK:
        group.same(run_forward(rule, recipe, x), (OK, y), recipe)


def allowance_law(rng, rule, recipe, group):
    """4096·|D·y - E| ≤ D·b."""
    x = some_input(rng, rule, recipe)
    answer, y = run_forward(rule, recipe, x)
    allowed, b = run_allowance(rule, recipe, len(x))
    if answer == OK and allowed == OK:
        e, d = exact(recipe, x)
        kept = all(4096 * abs(d * y[m] - e[m]) <= d * b[m] for m in range(len(x)))
        group.holds(kept, (recipe, x))


def difference_law(rng, rule, recipe, group):
    """4096·|F(x) - F(z) - F(x-z)| ≤ 3·b."""
    x, z = some_input(rng, rule, recipe), some_input(rng, rule, recipe)
    apart = [p - q for p, q in zip(x, z)]
    runs = [run_forward(rule, recipe, block) for block in (x, z, apart)]
    allowed, b = run_allowance(rule, recipe, len(x))
    if allowed == OK and all(answer == OK for answer, _ in runs):
        (_, fx), (_, fz), (_, fd) = runs
        kept = all(
            4096 * abs(fx[m] - fz[m] - fd[m]) <= 3 * b[m] for m in range(len(x))
        )
        group.holds(kept, (recipe, x, z))


def cut_sheet(sheet, position):
    """Two sheets: the factors before the position, and those from it on."""
    starts = factor_starts(sheet)
    middle = starts[position]
    first = [sheet[0], position] + sheet[2:middle]
    second = [sheet[0], sheet[1] - position] + sheet[middle:]
    return first, second


def factor_starts(sheet):
    """The index of each factor's kind: a kind's length follows from n alone."""
    n = sheet[0]
    lengths = {1: 1 + n, 2: 1 + n + n * (n - 1) // 2, 4: 2 + n + n - 1}
    lengths[3] = lengths[2]
    starts, index = [], 2
    for _ in range(sheet[1]):
        starts.append(index)
        index += lengths[sheet[index]]
    return starts


def cut_law(rng, rule, recipe, group):
    """The whole run is the run of the first part, then of the second."""
    try_cut(rng, rule, recipe, some_input(rng, rule, recipe), group)


def crowd_cut_law(rng, rule, recipe, group):
    """The same where several numbers are beyond the bound at one stage."""
    try_cut(rng, rule, recipe, generate.crowd_block(rng, block_length(recipe)), group)


def try_cut(rng, rule, recipe, x, group):
    """A refusal of the second part has the first part's count added to its
    stage; its element is the whole run's."""
    col, row = recipe
    if col[1] < 2:
        return
    position = rng.randint(1, col[1] - 1)
    cut_col = cut_sheet(col, position)
    cut_row = (None, None) if row is None else cut_sheet(row, position)
    answer, between = run_forward(rule, (cut_col[0], cut_row[0]), x)
    after = [9] * len(x)
    if answer == OK:
        answer, after = run_forward(rule, (cut_col[1], cut_row[1]), between)
        if answer[NUMBER] == 11:
            answer = (11, 0, answer[PLACE] + position, answer[ELEMENT])
    group.same((answer, after), run_forward(rule, recipe, x), (recipe, x))


# A part of a two-pass run as a call: its number in the stream, the sheet, and
# the row sheet or the other order.
Part = namedtuple("Part", "number sheet other")
PARTS = {21: model.two_pass_forward, 24: model.column_forward, 26: model.row_forward}


def run_part(rule, part, x, y):
    return PARTS[part.number](rule, part.sheet, part.other, x, y)


def two_pass_parts(recipe, position):
    """The parts before and after a stage. R-4: "a cut falls between column
    stages, between the passes or between row stages"."""
    col, row = recipe
    if position < col[1]:
        first, second = cut_sheet(col, position)
        return Part(24, first, row[0]), Part(21, second, row)
    if position == col[1]:
        return Part(24, col, row[0]), Part(26, row, col[0])
    first, second = cut_sheet(row, position - col[1])
    return Part(21, col, first), Part(26, second, col[0])


def two_pass_position(rng, recipe):
    """A stage to cut at, each of the three places as often as may be."""
    k1, k2 = recipe[0][1], recipe[1][1]
    return rng.choice(rng.choice([places for places in (range(1, k1), [k1], range(k1 + 1, k1 + k2)) if places]))


def pass_cut_law(rng, rule, recipe, group):
    """The whole run is the run of the first part, then of the second, at the three places."""
    try_pass_cut(rng, rule, recipe, some_input(rng, rule, recipe), group)


def crowd_pass_cut_law(rng, rule, recipe, group):
    """The same where several numbers are beyond the bound at one stage."""
    try_pass_cut(rng, rule, recipe, generate.crowd_block(rng, block_length(recipe)), group)


def try_pass_cut(rng, rule, recipe, x, group):
    position = two_pass_position(rng, recipe)
    first, second = two_pass_parts(recipe, position)
    untouched = [9] * len(x)
    answer, after = run_part(rule, first, x, untouched)
    if answer == OK:
        answer, after = run_part(rule, second, after, untouched)
        if answer[NUMBER] == 11:
            answer = (11, 0, answer[PLACE] + position, answer[ELEMENT])
    group.same((answer, after), run_forward(rule, recipe, x), (recipe, x, position))


def by_line_runs(rule, recipe, x, back):
    """Two passes got from the line runs of each column and of each row. The
    first refused stage counts; of the lines refused there, an inverse run names
    the first line's own element, a forward run and stage 0 the least of all."""
    col, row = recipe
    n1, n2, x, before = col[0], row[0], list(x), 0
    columns = [[i * n2 + j for i in range(n1)] for j in range(n2)]
    rows = [[i * n2 + j for j in range(n2)] for i in range(n1)]
    passes = [(col, columns), (row, rows)]
    for sheet, lines in reversed(passes) if back else passes:
        run_line = run_inverse if back else run_forward
        runs = [run_line(rule, (sheet, None), [x[e] for e in line]) for line in lines]
        stages = [answer[PLACE] for answer, _ in runs if answer != OK]
        if stages:
            named = [line[answer[ELEMENT]] for line, (answer, _) in zip(lines, runs)
                     if answer != OK and answer[PLACE] == min(stages)]
            stage = before + min(stages)
            return (11, 0, stage, named[0] if back and stage > 0 else min(named)), [9] * len(x)
        for line, (_, after) in zip(lines, runs):
            for e, number in zip(line, after):
                x[e] = number
        before += sheet[1]
    return OK, x


def lines_law(rng, rule, recipe, group):
    """Two passes are the line runs of each column, then of each row."""
    x, y = some_input(rng, rule, recipe), some_input(rng, rule, recipe, True)
    group.same(run_forward(rule, recipe, x), by_line_runs(rule, recipe, x, False), (recipe, x))
    group.same(run_inverse(rule, recipe, y), by_line_runs(rule, recipe, y, True), (recipe, y))


def crowd_lines_law(rng, rule, recipe, group):
    """The same where several numbers are beyond the bound at one stage; back, of another recipe."""
    x = generate.crowd_block(rng, block_length(recipe))
    group.same(run_forward(rule, recipe, x), by_line_runs(rule, recipe, x, False), (recipe, x))
    recipe = crowd_two_pass(rng, True)
    y = generate.crowd_block(rng, block_length(recipe))
    group.same(run_inverse(rule, recipe, y), by_line_runs(rule, recipe, y, True), (recipe, y))


def pass_trip_law(rng, rule, recipe, group):
    """A pass alone undoes itself, down the columns and along the rows, both ways."""
    sheet, other = recipe[0], recipe[1][0]
    x = generate.some_block(rng, sheet[0] * other)
    y = [9] * len(x)
    for there, back in ((model.column_forward, model.column_inverse), (model.row_forward, model.row_inverse)):
        for one, two in ((there, back), (back, there)):
            answer, after = one(rule, sheet, other, x, y)
            if answer == OK:
                group.same(two(rule, sheet, other, after, y), (OK, x), (sheet, other))


def encoding_law(rng, group):
    """Reading what was written gives the sheet; writing what was read, the bytes."""
    sheet = generate.numbers_of(generate.some_draft(rng))
    data = model.encode(sheet)
    room = [0] * (len(data) + 3)
    group.same(model.write(sheet, room), ((0, 0, len(data), 0), data + [0] * 3))
    room = [7] * (len(sheet) + 2)
    group.same(model.read(data, room), ((0, 0, len(sheet), 0), sheet + [7] * 2))


def decoding_law(rng, group):
    """Byte strings that aren't refused by 14 are the encoding of their numbers."""
    data = [rng.choice([0, 1, 2, 127, 128, 129, 255, rng.randrange(256)])
            for _ in range(rng.randint(0, 6))]
    try:
        numbers = model.decode(data)
    except model.Refused:
        return
    group.same(model.encode(numbers), data)


# Each law with the makers of its recipes.
SOME = {"line": some_line, "joint": some_pair, "two-pass": some_two_pass}
CROWDS = {"line": crowd_line, "joint": crowd_pair, "two-pass": crowd_two_pass}
LAWS = [
    (round_trip_law, SOME),
    (trip_round_law, SOME),
    (allowance_law, SOME),
    (difference_law, SOME),
    (cut_law, {"line": some_line, "joint": some_pair}),
    (crowd_cut_law, {"line": crowd_line, "joint": crowd_pair}),
    (pass_cut_law, {"two-pass": some_two_pass}),
    (crowd_pass_cut_law, {"two-pass": crowd_two_pass}),
    (lines_law, {"two-pass": some_two_pass}),
    (crowd_lines_law, {"two-pass": crowd_two_pass}),
    (pass_trip_law, {"two-pass": some_two_pass}),
]
FIGURES = [
    figure_a, figure_b, figure_c, figure_d, figure_e, figure_f, figure_g, figure_h, request_2,
    rule_halves, rule_runs, rule_drift, rule_allowances, rule_refusals, elements,
    camera, pass_runs, pass_elements, pass_refusals, worked_example, limits,
]


def try_law(law, kind, some_recipe, rule, seed, count):
    group = Group(f"{law.__name__} {kind} rule {rule}")
    rng = random.Random(f"{group.name} {seed}")
    for _ in range(count):
        law(rng, rule, some_recipe(rng), group)
    return group


def try_code_law(law, seed, count):
    group = Group(law.__name__)
    rng = random.Random(f"{group.name} {seed}")
    for _ in range(count):
        law(rng, group)
    return group


def all_groups(seed, count):
    for figure in FIGURES:
        group = Group(figure.__name__)
        figure(group)
        yield group
    for law, makers in LAWS:
        for rule in model.RULES:
            for kind, some_recipe in makers.items():
                yield try_law(law, kind, some_recipe, rule, seed, count)
    for law in (encoding_law, decoding_law):
        yield try_code_law(law, seed, count)


def main(arguments):
    seed = arguments[0] if arguments else "1"
    count = int(arguments[1]) if len(arguments) > 1 else 300
    reports = [group.report() for group in all_groups(seed, count)]
    return 0 if all(reports) else 1


if __name__ == "__main__":
    sys.exit(main(sys.argv[1:]))
