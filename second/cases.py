"""Seeded cases with expected answers, as 32-bit little-endian signed words.

Usage: python3 second/cases.py CALLS SEED COUNT > stream
CALLS is a comma list of call names (or `all`, or `figures` for the printed
figures, whatever SEED and COUNT); COUNT cases of each call follow
one another, so a list of calls gives the streams of its calls end to end.
With TALLY=1 in the environment the answers are counted on standard error, and
for the runs and allowances how many cases another rule would answer otherwise,
and for refusals 11 how much hangs on the element that they name.

A case: call number, rule, lengths of A, B, X, Y; the words of A, B, X, Y;
number, side, place, element; the words of Y after the call.
"""

import os
import random
import struct
import sys
from collections import Counter, namedtuple

import figures as laws
import generate
import model
from generate import chance, nearest_if_wrong, numbers_of

# A: column sheet or recipe bytes; B: row sheet, or of a pass alone the other
# order; X: input block; Y: lent output. A call that takes no rule has 0. A cut of
# two passes says its own call, since its parts are calls of three kinds.
Case = namedtuple("Case", "rule a b x y answer after call", defaults=[None])

# How often a run's sheet is damaged, its lengths are wrong, its pair doesn't
# match. The rest goes through the factors, a few with the largest sums.
RUN_DAMAGE = 0.22
WRONG_LENGTH = 0.12
MISMATCH = 0.08
STEEP = 0.06
HEAVY = 0.003

# How often a run has several numbers beyond the bound at one stage, mostly.
CROWD = 0.34


# ---------------------------------------------------------------------------
# Calls on sheets


def some_sheet(rng, longest, damaged):
    """A sheet; a share of them is damaged, of which some are valid still."""
    if longest:
        return numbers_of(generate.longest_draft(rng))
    return numbers_of(generate.maybe_damage(rng, generate.some_draft(rng), damaged))


def case_check(rng, longest):
    sheet = some_sheet(rng, longest, 0.55)
    return Case(0, sheet, [], [], [], model.check(sheet), [])


def pair_for_check(rng, longest):
    """Matching or not, then for half of the pairs a fault in either or both."""
    if longest:
        column, row = generate.longest_pair(rng)
    elif chance(rng, 0.45):
        column, row = generate.mismatching_pair(rng)
    else:
        column, row = generate.matching_pair(rng)
    if not longest and chance(rng, 0.5):
        column, row = generate.damage_pair(rng, column, row)
    return numbers_of(column), numbers_of(row)


def case_pair(rng, longest):
    col, row = pair_for_check(rng, longest)
    return Case(0, col, row, [], [], model.check_pair(col, row), [])


def case_rest(rng, longest):
    col, row = pair_for_check(rng, longest)
    which, start = model.rest(col, row)
    return Case(0, col, row, [], [], (which, 0, start, 0), [])


# ---------------------------------------------------------------------------
# Calls with room


def room_length(rng, needed):
    """Too short, exact or longer."""
    near = [needed - 1, needed, needed, needed + 1, needed + rng.randint(1, 9)]
    return max(0, rng.choice(near + [rng.randint(0, needed), 0 if chance(rng, 0.3) else needed]))


def bytes_for_read(rng, longest):
    """Encodings of valid and faulty sheets, and byte strings that are none."""
    numbers = some_sheet(rng, longest, 0.4)
    if chance(rng, 0.9):
        numbers = generate.in_three_groups(numbers)
    if not longest and chance(rng, 0.25):
        return generate.damage_bytes(rng, numbers)
    return model.encode(numbers)


def count_of_numbers(data):
    """How many numbers the bytes seem to hold: bytes without the top bit."""
    return sum(1 for byte in data if byte < 128)


def case_read(rng, longest):
    data = bytes_for_read(rng, longest)
    room = generate.lent(rng, room_length(rng, count_of_numbers(data)))
    answer, after = model.read(data, room)
    return Case(0, data, [], [], room, answer, after)


def case_write(rng, longest):
    sheet = some_sheet(rng, longest, 0.35)
    needed = len(model.encode(sheet))
    room = [rng.randrange(256) for _ in range(room_length(rng, needed))]
    answer, after = model.write(sheet, room)
    return Case(0, sheet, [], [], room, answer, after)


def case_table(rng, longest, call):
    length = 4386 if longest else rng.choice([0, 44, 45, 46, rng.randint(0, 100)])
    room = generate.lent(rng, length)
    answer, after = call(room)
    return Case(0, [], [], [], room, answer, after)


def case_built_in(rng, longest):
    return case_table(rng, longest, model.built_in)


def case_first_printing(rng, longest):
    return case_table(rng, longest, model.first_printing)


# ---------------------------------------------------------------------------
# Runs and allowances of a line


def wrong_length(rng, right, orders):
    """A length near the right one, or one got from the orders in another way."""
    wrong = [0, right - 1, right + 1, 2 * right, sum(orders), orders[0], rng.randint(0, 20)]
    return max(0, rng.choice([length for length in wrong if length != right]))


def block_lengths(rng, orders):
    """Lengths of input and output: right, or one wrong, or both."""
    right = 1
    for n in orders:
        right *= n
    if not chance(rng, WRONG_LENGTH):
        return right, right
    way = rng.randrange(4)
    for_input = wrong_length(rng, right, orders) if way != 1 else right
    for_output = wrong_length(rng, right, orders) if way != 0 else right
    return for_input, for_input if way == 3 else for_output


def case_rule(rng, longest):
    """Any number; the longest sheet isn't spent on a wrong one."""
    return generate.true_rule(rng) if longest else generate.some_rule(rng)


def line_draft(rng, longest):
    if longest:
        return generate.longest_draft(rng, generate.faint_entry)
    if chance(rng, STEEP):
        return generate.steep_draft(rng)
    return generate.ruled_draft(rng)


def forward_input(rng, rule, sheet, length):
    """A block for a forward run of a valid sheet."""
    if length == sheet[0] and chance(rng, 0.3):
        return generate.line_block_to_edge(rng, rule, sheet, False)
    return generate.some_block(rng, length)


def inverse_input(rng, rule, sheet, length):
    """Real coefficients, a block that meets the bound, or any block."""
    if length == sheet[0] and chance(rng, 0.45):
        answer, y = model.line_forward(rule, sheet, generate.some_block(rng, length), [0] * length)
        if answer[0] == 0:
            return y
    if length == sheet[0] and chance(rng, 0.3):
        return generate.line_block_to_edge(rng, rule, sheet, True)
    return generate.some_block(rng, length)


def case_crowd(rng, recipe, call):
    """A run in which it matters which element is named; sheet and slices are right."""
    col, row = recipe
    rule, x = generate.some_rule(rng), generate.crowd_block(rng, laws.block_length(recipe))
    y = generate.lent(rng, len(x))
    answer, after = call(rule, col, x, y) if row is None else call(rule, col, row, x, y)
    return Case(rule, col, row or [], x, y, answer, after)


def case_line_run(rng, longest, make_input, call):
    if not longest and chance(rng, CROWD):
        return case_crowd(rng, laws.crowd_line(rng, call is model.line_inverse), call)
    rule, draft = case_rule(rng, longest), line_draft(rng, longest)
    sheet = numbers_of(draft)
    x_length, y_length = (16, 16) if longest else block_lengths(rng, [sheet[0]])
    x = [generate.small(rng) for _ in range(16)] if longest else make_input(rng, nearest_if_wrong(rule), sheet, x_length)
    if not longest:
        sheet = numbers_of(generate.maybe_damage(rng, draft, RUN_DAMAGE))
    y = generate.lent(rng, y_length)
    answer, after = call(rule, sheet, x, y)
    return Case(rule, sheet, [], x, y, answer, after)


def case_line_forward(rng, longest):
    return case_line_run(rng, longest, forward_input, model.line_forward)


def case_line_inverse(rng, longest):
    return case_line_run(rng, longest, inverse_input, model.line_inverse)


def allowance_sheet(rng, rule, longest):
    """Some pass the limit at a late stage, a few by one unit only."""
    if longest:
        return numbers_of(generate.longest_draft(rng))
    u = rng.random()
    if u < 0.03:
        return generate.limit_sheet(rng, nearest_if_wrong(rule))
    if u < 0.12:
        return numbers_of(generate.steep_draft(rng))
    return numbers_of(generate.maybe_damage(rng, generate.some_draft(rng), RUN_DAMAGE))


def case_line_allowance(rng, longest):
    rule = case_rule(rng, longest)
    sheet = allowance_sheet(rng, rule, longest)
    order = sheet[0] if sheet and 1 <= sheet[0] <= 16 else rng.randint(1, 16)
    out = generate.lent(rng, order if longest else block_lengths(rng, [order])[1])
    answer, after = model.line_allowance(rule, sheet, out)
    return Case(rule, sheet, [], [], out, answer, after)


# ---------------------------------------------------------------------------
# Joint runs and allowances


def joint_drafts(rng, longest):
    if longest:
        return generate.longest_pair(rng, generate.faint_entry)
    u = rng.random()
    if u < MISMATCH:
        return generate.mismatching_pair(rng)
    if u < MISMATCH + STEEP:
        return generate.steep_pair(rng)
    if u < MISMATCH + STEEP + HEAVY:
        return generate.heavy_pair(rng)
    return generate.ruled_pair(rng)


def fits_pair(col, row, length):
    """Whether a run of that length goes through the factors at all."""
    return length == col[0] * row[0] and model.check_pair(col, row)[0] == 0


def joint_forward_input(rng, rule, col, row, length):
    if fits_pair(col, row, length) and chance(rng, 0.3):
        return generate.joint_block_to_edge(rng, rule, col, row, False)
    return generate.some_block(rng, length)


def joint_inverse_input(rng, rule, col, row, length):
    """Real coefficients, a block that meets the bound, or any block."""
    if fits_pair(col, row, length) and chance(rng, 0.45):
        x = generate.some_block(rng, length)
        answer, y = model.joint_forward(rule, col, row, x, [0] * length)
        if answer[0] == 0:
            return y
    if fits_pair(col, row, length) and chance(rng, 0.3):
        return generate.joint_block_to_edge(rng, rule, col, row, True)
    return generate.some_block(rng, length)


def case_heavy_run(rng, call):
    """The largest sums that a stage can have."""
    rule = generate.some_rule(rng)
    column, row = generate.heavy_pair(rng)
    col_sheet, row_sheet = numbers_of(column), numbers_of(row)
    x = [rng.choice([1, -1]) * model.SAMPLE_LIMIT] * (col_sheet[0] * row_sheet[0])
    y = generate.lent(rng, len(x))
    answer, after = call(rule, col_sheet, row_sheet, x, y)
    return Case(rule, col_sheet, row_sheet, x, y, answer, after)


def case_joint_run(rng, longest, make_input, call):
    if not longest and chance(rng, HEAVY):
        return case_heavy_run(rng, call)
    if not longest and chance(rng, CROWD):
        return case_crowd(rng, laws.crowd_pair(rng, call is model.joint_inverse), call)
    rule = case_rule(rng, longest)
    column, row = joint_drafts(rng, longest)
    col_sheet, row_sheet = numbers_of(column), numbers_of(row)
    if longest:
        x, y_length = [generate.small(rng) for _ in range(256)], 256
    else:
        x_length, y_length = block_lengths(rng, [col_sheet[0], row_sheet[0]])
        x = make_input(rng, nearest_if_wrong(rule), col_sheet, row_sheet, x_length)
        if chance(rng, RUN_DAMAGE):
            column, row = generate.damage_pair(rng, column, row)
            col_sheet, row_sheet = numbers_of(column), numbers_of(row)
    y = generate.lent(rng, y_length)
    answer, after = call(rule, col_sheet, row_sheet, x, y)
    return Case(rule, col_sheet, row_sheet, x, y, answer, after)


def case_joint_forward(rng, longest):
    return case_joint_run(rng, longest, joint_forward_input, model.joint_forward)


def case_joint_inverse(rng, longest):
    return case_joint_run(rng, longest, joint_inverse_input, model.joint_inverse)


def limit_pair(rng, rule):
    """A line sheet at the limit of allowance beside a sheet of order 1 with
    the same kinds: the joint rule then gives the line's allowances."""
    sheet = generate.limit_sheet(rng, rule)
    one = generate.sheet_of(1, [generate.single_row(0, 1, [0])] * sheet[1])
    return (sheet, one) if chance(rng, 0.5) else (one, sheet)


def case_joint_allowance(rng, longest):
    rule = case_rule(rng, longest)
    if not longest and chance(rng, 0.03):
        col, row = limit_pair(rng, nearest_if_wrong(rule))
        orders = [col[0], row[0]]
    else:
        column, row_draft = joint_drafts(rng, longest)
        orders = [column[0][1], row_draft[0][1]]
        if not longest and chance(rng, RUN_DAMAGE):
            column, row_draft = generate.damage_pair(rng, column, row_draft)
        col, row = numbers_of(column), numbers_of(row_draft)
    out = generate.lent(rng, 256 if longest else block_lengths(rng, orders)[1])
    answer, after = model.joint_allowance(rule, col, row, out)
    return Case(rule, col, row, [], out, answer, after)


# ---------------------------------------------------------------------------
# Request R-4: two passes, and one pass alone


def two_pass_drafts(rng, longest):
    """Mostly unlike; at times a pair that a joint run takes too."""
    if longest:
        return [generate.longest_draft(rng, generate.faint_entry) for _ in range(2)]
    u = rng.random()
    if u < MISMATCH:
        return generate.matching_pair(rng)
    if u < MISMATCH + STEEP:
        return generate.steep_unlike_pair(rng)
    if u < MISMATCH + STEEP + HEAVY:
        return generate.heavy_unlike_pair(rng)
    return generate.unlike_pair(rng)


def pass_input(rng, rule, stages, n1, n2, length, inverse):
    """Real coefficients for an inverse run, a block that meets the bound, or any block."""
    fits = length == n1 * n2
    if inverse and fits and chance(rng, 0.45):
        try:
            x = model.rows_of(generate.some_block(rng, length), n1, n2)
            return model.flat(model.pass_stages_forward(rule, stages, x))
        except model.Refused:
            pass
    if fits and chance(rng, 0.3):
        return generate.pass_block_to_edge(rng, rule, stages, n1, n2, inverse)
    return generate.some_block(rng, length)


def case_two_pass_run(rng, longest, call):
    inverse = call is model.two_pass_inverse
    if not longest and chance(rng, CROWD):
        return case_crowd(rng, laws.crowd_two_pass(rng, inverse), call)
    rule = case_rule(rng, longest)
    column, row = two_pass_drafts(rng, longest)
    col_sheet, row_sheet = numbers_of(column), numbers_of(row)
    n1, n2 = col_sheet[0], row_sheet[0]
    x_length, y_length = (n1 * n2, n1 * n2) if longest else block_lengths(rng, [n1, n2])
    stages = model.both_passes(*model.unlike_pair_of(col_sheet, row_sheet))
    x = ([generate.small(rng) for _ in range(x_length)] if longest
         else pass_input(rng, nearest_if_wrong(rule), stages, n1, n2, x_length, inverse))
    if not longest and chance(rng, RUN_DAMAGE):
        col_sheet, row_sheet = [numbers_of(draft) for draft in generate.damage_pair(rng, column, row)]
    y = generate.lent(rng, y_length)
    answer, after = call(rule, col_sheet, row_sheet, x, y)
    return Case(rule, col_sheet, row_sheet, x, y, answer, after)


def case_two_pass_forward(rng, longest):
    return case_two_pass_run(rng, longest, model.two_pass_forward)


def case_two_pass_inverse(rng, longest):
    return case_two_pass_run(rng, longest, model.two_pass_inverse)


def passes_to_limit(rng, rule):
    """A line sheet at the limit of allowance in either pass, or a pair whose row
    pass passes it for the column pass's sake."""
    sheet, plain = generate.limit_sheet(rng, rule), generate.sheet_of(1, [generate.single_row(0, 1, [0])])
    return rng.choice([(sheet, plain), (plain, sheet), (laws.SHEET_E, sheet), (laws.SHEET_A, laws.WIDE)])


def case_two_pass_allowance(rng, longest):
    rule = case_rule(rng, longest)
    if not longest and chance(rng, 0.04):
        col, row = passes_to_limit(rng, nearest_if_wrong(rule))
        orders = [col[0], row[0]]
    else:
        column, row_draft = two_pass_drafts(rng, longest)
        orders = [column[0][1], row_draft[0][1]]
        if not longest and chance(rng, RUN_DAMAGE):
            column, row_draft = generate.damage_pair(rng, column, row_draft)
        col, row = numbers_of(column), numbers_of(row_draft)
    out = generate.lent(rng, 256 if longest else block_lengths(rng, orders)[1])
    answer, after = model.two_pass_allowance(rule, col, row, out)
    return Case(rule, col, row, [], out, answer, after)


def pass_case(rng, rule, sheet, other, x, y_length, call):
    """The other order stands in B, in a word of its bits."""
    y = generate.lent(rng, y_length)
    answer, after = call(rule, sheet, other, x, y)
    return Case(rule, sheet, [signed(other)], x, y, answer, after)


def case_pass(rng, longest, way, inverse, call):
    """One pass alone."""
    if not longest and chance(rng, CROWD):
        draft, other = generate.crowd_pass(rng, inverse)
        x = generate.crowd_block(rng, draft[0][1] * other)
        return pass_case(rng, generate.some_rule(rng), numbers_of(draft), other, x, len(x), call)
    rule, draft = case_rule(rng, longest), line_draft(rng, longest)
    other = 16 if longest else generate.some_order(rng)
    sheet = numbers_of(draft)
    lines = generate.order_if_wrong(other)
    n1, n2 = (sheet[0], lines) if way == model.DOWN else (lines, sheet[0])
    if longest:
        return pass_case(rng, rule, sheet, other, [generate.small(rng) for _ in range(256)], 256, call)
    x_length, y_length = block_lengths(rng, [n1, n2]) if lines else rng.choice([(0, 0), (0, 1), (sheet[0], sheet[0])])
    if other == lines > 0:
        x = pass_input(rng, nearest_if_wrong(rule), model.pass_of(way, model.recipe_of(sheet)), n1, n2, x_length, inverse)
    else:
        x = generate.some_block(rng, x_length)
    sheet = numbers_of(generate.maybe_damage(rng, draft, RUN_DAMAGE))
    return pass_case(rng, rule, sheet, other, x, y_length, call)


def case_column_forward(rng, longest):
    return case_pass(rng, longest, model.DOWN, False, model.column_forward)


def case_column_inverse(rng, longest):
    return case_pass(rng, longest, model.DOWN, True, model.column_inverse)


def case_row_forward(rng, longest):
    return case_pass(rng, longest, model.ALONG, False, model.row_forward)


def case_row_inverse(rng, longest):
    return case_pass(rng, longest, model.ALONG, True, model.row_inverse)


# ---------------------------------------------------------------------------
# Strips: X is the count of bytes and the input, Y the output and the bytes


def strip_input(rng, size, make_block, blocks):
    """Blocks end to end; some a number longer or shorter."""
    x = [number for _ in range(blocks) for number in make_block(size)]
    if chance(rng, 0.08):
        return x + generate.some_block(rng, rng.randint(1, size + 1))
    return x[:-1] if x and chance(rng, 0.03) else x


def strip_case(rng, rule, col, row, x, size, run):
    """The lent slices are right in most cases."""
    wrong = [0, -1, 1, size, -size]
    y_length = max(0, len(x) + (rng.choice(wrong) if chance(rng, 0.06) else 0))
    marks = max(0, len(x) // size + (rng.choice(wrong) if chance(rng, 0.06) else 0))
    out, before = generate.lent(rng, y_length), [rng.randrange(256) for _ in range(marks)]
    answer, after, numbers = run(x, out, before)
    return Case(rule, col, row, [marks] + x, out + before, answer, after + numbers)


def strip_blocks(rng, longest, size):
    """How many blocks: none, a few, or, once, as many as the room of a case holds."""
    return 4096 // size if longest else rng.choice([0, 1, 1, 2, 3, rng.randint(2, max(2, 96 // size))])


def case_line_strip(rng, longest, make_input, call):
    rule, draft = case_rule(rng, longest), generate.ruled_draft(rng) if longest else line_draft(rng, False)
    sheet = numbers_of(draft)
    size, made_by = sheet[0], nearest_if_wrong(rule)
    x = strip_input(rng, size, lambda length: make_input(rng, made_by, sheet, length), strip_blocks(rng, longest, size))
    sheet = sheet if longest else numbers_of(generate.maybe_damage(rng, draft, RUN_DAMAGE))
    return strip_case(rng, rule, sheet, [], x, size, lambda v, w, marks: model.line_strip(rule, sheet, v, w, marks, call))


def case_joint_strip(rng, longest, make_input, call):
    rule = case_rule(rng, longest)
    column, row = generate.ruled_pair(rng) if longest else joint_drafts(rng, False)
    col_sheet, row_sheet = numbers_of(column), numbers_of(row)
    size, made_by = col_sheet[0] * row_sheet[0], nearest_if_wrong(rule)
    x = strip_input(rng, size, lambda length: make_input(rng, made_by, col_sheet, row_sheet, length),
                    strip_blocks(rng, longest, size))
    if not longest and chance(rng, RUN_DAMAGE):
        column, row = generate.damage_pair(rng, column, row)
        col_sheet, row_sheet = numbers_of(column), numbers_of(row)
    return strip_case(rng, rule, col_sheet, row_sheet, x, size,
                      lambda v, w, marks: model.joint_strip(rule, col_sheet, row_sheet, v, w, marks, call))


def case_line_strip_forward(rng, longest):
    return case_line_strip(rng, longest, forward_input, model.line_forward)


def case_line_strip_inverse(rng, longest):
    return case_line_strip(rng, longest, inverse_input, model.line_inverse)


def case_joint_strip_forward(rng, longest):
    return case_joint_strip(rng, longest, joint_forward_input, model.joint_forward)


def case_joint_strip_inverse(rng, longest):
    return case_joint_strip(rng, longest, joint_inverse_input, model.joint_inverse)


# ---------------------------------------------------------------------------
# Program


def program_block(rng, sheet, length):
    """A block that three groups can hold; runs reach the bound by growth."""
    if chance(rng, 0.15):
        return [rng.choice([-1048576, 1048575, 1000000]) for _ in range(length)]
    return generate.in_three_groups(forward_input(rng, model.NEAREST, sheet, length))


def program_to_edge(rng):
    """A sheet and a block of three groups that meets the very bound: four
    entries of 4 on numbers near 1048575, and the last number fills the gap."""
    sign = rng.choice([1, -1])
    block = [sign * rng.randint(1040000, 1048575) for _ in range(4)]
    wanted = sign * (model.SAMPLE_LIMIT + rng.choice([0, 1]))
    row = rng.randrange(5)
    block.insert(row, wanted - 4 * sum(block))
    return generate.sheet_of(5, [generate.single_row(row, 5, [16384] * 5)]), block


def program_count(rng, sheet_length, total):
    """The count c: mostly right, else negative, past the end, or shifted."""
    if chance(rng, 0.88):
        return sheet_length
    wrong = [-1, 0, total, total + 1, sheet_length - 1, sheet_length + 1, 1048575, -1048576]
    return rng.choice(wrong)


def program_numbers(rng, longest):
    """A count, a sheet, a block."""
    if longest:
        sheet = numbers_of(generate.longest_draft(rng, generate.faint_entry))
        return [len(sheet)] + sheet + [generate.small(rng) for _ in range(16)]
    draft = generate.steep_draft(rng) if chance(rng, 0.10) else generate.some_draft(rng)
    sheet = numbers_of(draft)
    block = program_block(rng, sheet, block_lengths(rng, [sheet[0]])[0])
    if chance(rng, 0.04):
        sheet = generate.limit_sheet(rng, model.NEAREST)
        block = [generate.tiny(rng) for _ in range(sheet[0])]
    elif chance(rng, 0.02):
        sheet, block = program_to_edge(rng)
    elif chance(rng, RUN_DAMAGE):
        sheet = generate.in_three_groups(numbers_of(generate.damage(rng, draft)))
    count = program_count(rng, len(sheet), len(sheet) + len(block))
    return [count] + sheet + block


def full_input(rng):
    """Just as many bytes as the program reads, or some more."""
    length = model.PROGRAM_LIMIT + rng.choice([0, 0, 1, 1, 1, rng.randint(2, 40)])
    start = model.encode(program_numbers(rng, False))
    filler = rng.choice([[0], [2], [128], [rng.randrange(128)]])
    return start + filler * (length - len(start))


def program_bytes(rng, longest):
    u = rng.random()
    if not longest and u < 0.008:
        return full_input(rng)
    numbers = program_numbers(rng, longest)
    if not longest and u < 0.10:
        return generate.damage_bytes(rng, numbers)
    return [] if not longest and u < 0.11 else model.encode(numbers)


def case_program(rng, longest):
    data = program_bytes(rng, longest)
    printed = list(model.program(data).encode("ascii"))
    return Case(0, data, [], [], [0] * len(printed), (0, 0, len(printed), 0), printed)


# ---------------------------------------------------------------------------
# The laws of demand 3, tried on the library's own coefficients, each with one
# of the three rules: the laws speak of no other number. Where a law leaves
# room, Y holds the least coefficients before the call and the largest after
# it. The cut law leaves none: the answer expected of the second part is got
# from the whole run.


def law_recipe(rng, longest, shape):
    """Checked sheets: the laws speak of no other."""
    if not longest:
        return laws.SOME[shape](rng)
    if shape == "line":
        return numbers_of(generate.longest_draft(rng, generate.faint_entry)), None
    if shape == "joint":
        column, row = generate.longest_pair(rng, generate.faint_entry)
        return numbers_of(column), numbers_of(row)
    return laws.TwoPass(numbers_of(generate.longest_draft(rng, generate.fainter_entry)) for _ in range(2))


def law_block(rng, rule, recipe, longest):
    if longest:
        return [generate.small(rng) for _ in range(laws.block_length(recipe))]
    return laws.some_input(rng, rule, recipe)


def around(exact, scale, room):
    """The whole numbers y with 4096·|scale·y - exact| ≤ scale·room, least and largest."""
    middle, reach, whole = 4096 * exact, scale * room, 4096 * scale
    return -((reach - middle) // whole), (middle + reach) // whole


def law_case(rule, recipe, x, ranges):
    """A forward run whose coefficients have to lie in those ranges."""
    col, row = recipe
    least, most = [low for low, _ in ranges], [high for _, high in ranges]
    return Case(rule, col, row or [], x, least, laws.OK, most)


def by_exact_product(rng, rule, recipe, longest):
    """4096·|D·y - E| ≤ D·b, around the exact product E."""
    x = law_block(rng, rule, recipe, longest)
    answer, _ = laws.run_forward(rule, recipe, x)
    allowed, b = laws.run_allowance(rule, recipe, len(x))
    if answer != laws.OK or allowed != laws.OK:
        return None
    e, d = laws.exact(recipe, x)
    return law_case(rule, recipe, x, [around(e[m], d, b[m]) for m in range(len(x))])


def by_difference(rng, rule, recipe, longest):
    """4096·|F(x) - F(z) - F(x-z)| ≤ 3·b, around F(x) - F(z)."""
    x, z = law_block(rng, rule, recipe, longest), law_block(rng, rule, recipe, longest)
    apart = [p - q for p, q in zip(x, z)]
    (first, fx), (second, fz), (third, _) = [laws.run_forward(rule, recipe, v) for v in (x, z, apart)]
    allowed, b = laws.run_allowance(rule, recipe, len(x))
    if {first, second, third, allowed} != {laws.OK}:
        return None
    return law_case(rule, recipe, apart, [around(fx[m] - fz[m], 1, 3 * b[m]) for m in range(len(x))])


def case_law(rng, longest, shape):
    """Either law, on a recipe and a block that it speaks of, by one rule."""
    law, rule = rng.choice([by_exact_product, by_difference]), generate.true_rule(rng)
    while True:
        case = law(rng, rule, law_recipe(rng, longest, shape), longest)
        if case is not None:
            return case


def cut_run(rng, rule, longest, shape):
    """A recipe to be cut, and a block for it."""
    if not longest and chance(rng, CROWD):
        recipe = laws.CROWDS[shape](rng)
        return recipe, generate.crowd_block(rng, laws.block_length(recipe))
    recipe = law_recipe(rng, longest, shape)
    return recipe, law_block(rng, rule, recipe, longest)


def case_cut(rng, longest, shape):
    """The second part of a cut recipe, on what the first part gave, all by one rule."""
    rule, joint = generate.true_rule(rng), shape == "joint"
    while True:
        recipe, x = cut_run(rng, rule, longest, shape)
        col, row = recipe
        if col[1] < 2:
            continue
        position = rng.randint(1, col[1] - 1)
        (col1, col2), (row1, row2) = laws.cut_sheet(col, position), laws.cut_sheet(row, position) if joint else (None, None)
        first, between = laws.run_forward(rule, (col1, row1), x)
        if first != laws.OK:
            continue
        (number, side, stage, element), whole = laws.run_forward(rule, recipe, x)
        y = generate.lent(rng, len(x))
        after = whole if number == 0 else y
        answer = (number, side, stage - position if number else 0, element)
        return Case(rule, col2, row2 or [], between, y, answer, after)


def part_case(rng, rule, part, x, number, side, stage, element, whole):
    """A part of a cut two-pass run, with what the whole run says of it."""
    y = generate.lent(rng, len(x))
    b = part.other if part.number == 21 else [part.other]
    return Case(rule, part.sheet, b, x, y, (number, side, stage, element), whole if number == 0 else y, part.number)


def case_two_pass_cut(rng, longest):
    """The second part of a two-pass run cut at one of the three places, on what
    the first part gave; or the first part, where the whole run ends within it."""
    rule = generate.true_rule(rng)
    recipe, x = cut_run(rng, rule, longest, "two-pass")
    position = laws.two_pass_position(rng, recipe)
    first, second = laws.two_pass_parts(recipe, position)
    (number, side, stage, element), whole = laws.run_forward(rule, recipe, x)
    if number != 0 and stage <= position:
        return part_case(rng, rule, first, x, number, side, stage, element, whole)
    _, between = laws.run_part(rule, first, x, [9] * len(x))
    return part_case(rng, rule, second, between, number, side, stage - position if number else 0, element, whole)


def case_line_law(rng, longest):
    return case_law(rng, longest, "line")


def case_joint_law(rng, longest):
    return case_law(rng, longest, "joint")


def case_two_pass_law(rng, longest):
    return case_law(rng, longest, "two-pass")


def case_line_cut(rng, longest):
    return case_cut(rng, longest, "line")


def case_joint_cut(rng, longest):
    return case_cut(rng, longest, "joint")


# ---------------------------------------------------------------------------
# The stream

CALLS = {
    "check": (1, case_check),
    "pair": (2, case_pair),
    "rest": (3, case_rest),
    "read": (4, case_read),
    "write": (5, case_write),
    "built-in": (6, case_built_in),
    "line-forward": (7, case_line_forward),
    "line-inverse": (8, case_line_inverse),
    "line-allowance": (9, case_line_allowance),
    "joint-forward": (10, case_joint_forward),
    "joint-inverse": (11, case_joint_inverse),
    "joint-allowance": (12, case_joint_allowance),
    "program": (13, case_program),
    "line-law": (14, case_line_law),
    "joint-law": (15, case_joint_law),
    "first-printing": (16, case_first_printing),
    "line-strip-forward": (17, case_line_strip_forward),
    "line-strip-inverse": (18, case_line_strip_inverse),
    "joint-strip-forward": (19, case_joint_strip_forward),
    "joint-strip-inverse": (20, case_joint_strip_inverse),
    "two-pass-forward": (21, case_two_pass_forward),
    "two-pass-inverse": (22, case_two_pass_inverse),
    "two-pass-allowance": (23, case_two_pass_allowance),
    "column-forward": (24, case_column_forward),
    "column-inverse": (25, case_column_inverse),
    "row-forward": (26, case_row_forward),
    "row-inverse": (27, case_row_inverse),
    "two-pass-law": (28, case_two_pass_law),
    "line-cut": (7, case_line_cut),
    "joint-cut": (10, case_joint_cut),
    "two-pass-cut": (21, case_two_pass_cut),
}


# The figures of document 01 and of its requests as they are printed, so that
# no line of the model stands between them and the library. Lent memory is 9.


def printed(call, a, b, x, length, answer, after, rule=0):
    """One figure; a refused call leaves the 9s."""
    return call, Case(rule, a, b, x, [9] * length, answer, after or [9] * length)


def rule_cases():
    """Request R-5: what rules 0, 1 and 2 give, and the refusal of any other."""
    a, ok = laws.SHEET_A, laws.OK
    for rule in (0, 1, 2):
        for halves, units, wanted in laws.HALVES:
            sheet, x = laws.line_at(halves, units)
            yield printed(7, sheet, [], x, 2, ok, [x[0], 7 + wanted[rule]], rule)
            col, row, x = laws.block_at(halves, units)
            # A unit below zero in the sums of the other two numbers: 0, or -1 by the floor.
            below = [-1 if rule == 1 and sign * units < 0 else 0 for sign in (1, -1)]
            yield printed(10, col, row, x, 4, ok, [x[0], x[1] + below[0], below[1], 7 + wanted[rule]], rule)
        for x, wanted in laws.LINES:
            yield printed(7, a, [], x, 2, ok, wanted[rule], rule)
            yield printed(8, a, [], wanted[rule], 2, ok, x, rule)
        for x, wanted in laws.BLOCKS:
            yield printed(10, a, a, x, 4, ok, wanted[rule], rule)
            yield printed(11, a, a, wanted[rule], 4, ok, x, rule)
        yield printed(7, laws.SHEET_DRIFT, [], [1, 0], 2, ok, laws.DRIFT[rule], rule)
        for sheet, wanted in laws.ALLOWANCES:
            yield printed(9, sheet, [], [], sheet[0], ok, wanted[rule], rule)
        share = [2048, 4096, 2048][rule]
        yield printed(12, a, a, [], 4, ok, [0, share, share, share], rule)
    yield printed(7, laws.SHEET_ALMOST, [], [1, 0], 2, ok, [1, 0], 1)
    yield printed(9, laws.SHEET_ALMOST, [], [], 2, ok, [0, 4096], 1)
    for call in (7, 8, 9, 10, 11, 12, 17, 18, 19, 20):
        for rule in (3, 2 ** 32 - 1):
            yield printed(call, [], [], [0], 1, (16, 0, 0, 0), None, rule)


def element_cases():
    """Request R-7: which element a refusal 11 names, the same by every rule."""
    calls = {("forward", False): 7, ("inverse", False): 8, ("forward", True): 10, ("inverse", True): 11}
    for what, col, row, x, answer in laws.ELEMENTS:
        for rule in (0, 1, 2):
            yield printed(calls[what, row is not None], col, row or [], x, len(x), answer, None, rule)
    sheet, answer = laws.NO_ELEMENT
    yield printed(9, sheet, [], [], 2, answer, None)


def two_pass_cases():
    """Request R-4: the camera, the three rules, allowances, elements, and the order of faults."""
    ok, c, r, x, after = laws.OK, laws.CAMERA_COLUMNS, laws.CAMERA_BANDS, laws.CAMERA_SAMPLES, laws.CAMERA_AFTER
    yield printed(2, c, r, [], 0, (12, 0, 0, 0), [])
    yield printed(10, c, r, x, 16, (12, 0, 0, 0), None)
    yield printed(21, c, r, x, 16, ok, after)
    yield printed(22, c, r, after, 16, ok, x)
    yield printed(23, c, r, [], 16, ok, laws.CAMERA_ALLOWANCES)
    yield printed(24, c, [4], x, 16, ok, laws.CAMERA_BETWEEN)
    yield printed(25, c, [4], laws.CAMERA_BETWEEN, 16, ok, x)
    yield printed(26, r, [4], laws.CAMERA_BETWEEN, 16, ok, after)
    yield printed(27, r, [4], after, 16, ok, laws.CAMERA_BETWEEN)
    for rule in (0, 1, 2):
        for col, row, x, wanted in laws.PASSES:
            yield printed(21, col, row, x, len(x), ok, wanted[rule], rule)
            yield printed(22, col, row, wanted[rule], len(x), ok, x, rule)
        for col, row, wanted in laws.PASS_ALLOWANCES:
            yield printed(23, col, row, [], 4, ok, wanted[rule], rule)
        for what, col, row, lines, x, answer in laws.PASS_ELEMENTS:
            back = int(what == "inverse")
            a, b, call = (col, row, 21) if lines is None else (col, [lines], 24) if row is None else (row, [lines], 26)
            yield printed(call + back, a, b, x, len(x), answer, None, rule)
    for rule, col, row, x, y, answer in laws.PAIR_REFUSALS:
        for call in (21, 22):
            yield printed(call, col, row, [0] * x, y, answer, None, rule)
    for rule, sheet, other, x, y, answer in laws.PASS_REFUSALS:
        for call in (24, 25, 26, 27):
            yield printed(call, sheet, [signed(other)], [0] * x, y, answer, None, rule)
    yield printed(23, [], [], [], 1, (16, 0, 0, 0), None, 3)
    yield printed(23, laws.SHEET_E, laws.WIDE, [], 4, (13, 0, 10, 0), None)
    yield printed(23, laws.SHEET_A, laws.WIDE, [], 4, (13, 0, 8, 0), None)


def figure_cases():
    ok, corrected, first = laws.OK, model.BUILT_IN, model.FIRST_PRINTING
    sheet_a, sheet_b, sheet_c, sheet_d, sheet_e = laws.SHEET_A, laws.SHEET_B, laws.SHEET_C, laws.SHEET_D, laws.SHEET_E
    forward, inverse, allow, joint, read, write = 7, 8, 9, 10, 4, 5
    bytes_a = [0x04, 0x02, 0x04, 0x02, 0x02, 0x80, 0x20]
    yield printed(forward, sheet_a, [], [3, 5], 2, ok, [3, 7])
    yield printed(forward, sheet_a, [], [-2, 5], 2, ok, [-2, 4])
    yield printed(forward, sheet_a, [], [-1, 5], 2, ok, [-1, 5])
    yield printed(allow, sheet_a, [], [], 2, ok, [0, 2048])
    yield printed(write, sheet_a, [], [], 7, (0, 0, 7, 0), bytes_a)
    yield printed(read, bytes_a, [], [], 6, (0, 0, 6, 0), sheet_a)
    yield printed(forward, sheet_b, [], [3, 5], 2, ok, [-7, -7])
    yield printed(inverse, sheet_b, [], [-7, -7], 2, ok, [3, 5])
    yield printed(forward, sheet_c, [], [10, 20, 30], 3, ok, [30, 10, 20])
    yield printed(forward, sheet_d, [], [4, 7, 3], 3, ok, [4, -2, 3])
    yield printed(allow, sheet_d, [], [], 3, ok, [0, 2048, 0])
    yield printed(forward, sheet_e, [], [16777215, 0], 2, ok, [16777215, 16777215])
    yield printed(forward, sheet_e, [], [16777215, 1], 2, (11, 0, 1, 1), None)
    yield printed(forward, sheet_e, [], [16777216, 0], 2, (11, 0, 0, 0), None)
    yield printed(allow, sheet_e, [], [], 2, ok, [0, 0])
    yield printed(joint, sheet_a, sheet_a, [1, 1, 0, 0], 4, ok, [1, 2, 1, 1])
    yield printed(11, sheet_a, sheet_a, [1, 2, 1, 1], 4, ok, [1, 1, 0, 0])
    for table in (corrected, first):
        yield printed(forward, table, [], [100, 0, 0, 0], 4, ok, [50, 50, 50, 50])
        yield printed(inverse, table, [], [50, 50, 50, 50], 4, ok, [100, 0, 0, 0])
    yield printed(forward, first, [], [0, 100, 0, 0], 4, ok, [163, -94, 94, -65])
    yield printed(forward, corrected, [], [0, 100, 0, 0], 4, ok, [65, 28, -28, -65])
    yield printed(read, [0x84, 0x00], [], [], 2, (14, 0, 0, 0), None)
    yield from rule_cases()
    yield from element_cases()
    yield from two_pass_cases()


def signed(bits):
    """The word of 32 bits, as a signed number."""
    return bits - 2 ** 32 if bits > generate.I32_MAX else bits


def words_of(call_number, case):
    """A case in the order of the stream."""
    head = [case.call or call_number, signed(case.rule), len(case.a), len(case.b), len(case.x), len(case.y)]
    before = case.a + case.b + case.x + case.y
    return head + before + list(case.answer) + case.after


def packed(words):
    return struct.pack(f"<{len(words)}i", *words)


def cases_of(name, seed, count):
    """The cases of one call; the longest sheet stands in the middle, once."""
    rng = random.Random(f"{name} {seed}")
    make = CALLS[name][1]
    for turn in range(count):
        yield make(rng, turn == count // 2)


def tally_key(name, case):
    """What a tally counts: the answer's number; for the program the one printed."""
    if name != "program":
        return case.answer[0]
    lines = bytes(case.after).decode("ascii").splitlines()
    refused = [line.split()[1] for line in lines if line.startswith("refused")]
    return int(refused[0]) if refused else 0


BY_RULE = {
    7: lambda rule, case: model.line_forward(rule, case.a, case.x, case.y),
    8: lambda rule, case: model.line_inverse(rule, case.a, case.x, case.y),
    9: lambda rule, case: model.line_allowance(rule, case.a, case.y),
    10: lambda rule, case: model.joint_forward(rule, case.a, case.b, case.x, case.y),
    11: lambda rule, case: model.joint_inverse(rule, case.a, case.b, case.x, case.y),
    12: lambda rule, case: model.joint_allowance(rule, case.a, case.b, case.y),
    21: lambda rule, case: model.two_pass_forward(rule, case.a, case.b, case.x, case.y),
    22: lambda rule, case: model.two_pass_inverse(rule, case.a, case.b, case.x, case.y),
    23: lambda rule, case: model.two_pass_allowance(rule, case.a, case.b, case.y),
    24: lambda rule, case: model.column_forward(rule, case.a, other_order(case), case.x, case.y),
    25: lambda rule, case: model.column_inverse(rule, case.a, other_order(case), case.x, case.y),
    26: lambda rule, case: model.row_forward(rule, case.a, other_order(case), case.x, case.y),
    27: lambda rule, case: model.row_inverse(rule, case.a, other_order(case), case.x, case.y),
}


def other_order(case):
    """The number whose word is B."""
    return case.b[0] % 2 ** 32


def tally_rules(number, case):
    """Which of rules 1 and 2 would not give what rule 0 gives."""
    if number not in BY_RULE:
        return []
    by_rule = [BY_RULE[number](rule, case) for rule in model.RULES]
    return [f"rule {rule} differs" for rule in (1, 2) if by_rule[rule] != by_rule[0]]


def line_stage(back, case, stage):
    """The numbers of a line's stage, and the recovery order of its factor; at
    stage 0 that of the first factor, which a wrong call might go by."""
    recipe = model.recipe_of(case.a)
    factors, step = (recipe.factors[::-1], model.undo_line) if back else (recipe.factors, model.apply_line)
    x = case.x
    for factor in factors[:stage]:
        x = step(case.rule, factor, x)
    return x, model.line_recovery(factors[max(0, stage - 1)], recipe.order)


def joint_stage(back, case, stage):
    """The same of a rectangle."""
    a, b = model.pair_of(case.a, case.b)
    pairs, step = list(zip(a.factors, b.factors)), model.undo_joint if back else model.apply_joint
    pairs = pairs[::-1] if back else pairs
    x = model.rows_of(case.x, a.order, b.order)
    for fa, fb in pairs[:stage]:
        x = step(case.rule, fa, fb, x)
    return model.flat(x), model.joint_elements(*pairs[max(0, stage - 1)], a.order, b.order)


def pass_stage(back, case, stage, ways):
    """The same of two passes, or of one."""
    if ways == [model.DOWN, model.ALONG]:
        a, b = model.unlike_pair_of(case.a, case.b)
        stages, n1, n2 = model.both_passes(a, b), a.order, b.order
    else:
        recipe = model.recipe_of(case.a)
        stages, orders = model.pass_of(ways[0], recipe), [recipe.order, other_order(case)]
        n1, n2 = orders if ways == [model.DOWN] else orders[::-1]
    stages, step = (stages[::-1], model.undo_line) if back else (stages, model.apply_line)
    x = model.rows_of(case.x, n1, n2)
    for way, factor in stages[:stage]:
        x = model.on_lines(way, lambda line: step(case.rule, factor, line), x)
    return model.flat(x), model.pass_elements(*stages[max(0, stage - 1)], n1, n2)


STAGE = {
    7: lambda case, stage: line_stage(False, case, stage),
    8: lambda case, stage: line_stage(True, case, stage),
    10: lambda case, stage: joint_stage(False, case, stage),
    11: lambda case, stage: joint_stage(True, case, stage),
    21: lambda case, stage: pass_stage(False, case, stage, [model.DOWN, model.ALONG]),
    22: lambda case, stage: pass_stage(True, case, stage, [model.DOWN, model.ALONG]),
    24: lambda case, stage: pass_stage(False, case, stage, [model.DOWN]),
    25: lambda case, stage: pass_stage(True, case, stage, [model.DOWN]),
    26: lambda case, stage: pass_stage(False, case, stage, [model.ALONG]),
    27: lambda case, stage: pass_stage(True, case, stage, [model.ALONG]),
}


def tally_elements(number, case):
    """For a refusal 11: at which stage, whether several numbers were beyond the
    bound there, whether reading order and recovery order name different ones."""
    if number not in STAGE or case.answer[0] != 11:
        return []
    stage = case.answer[2]
    numbers, recovery = STAGE[number](case, stage)
    first, first_recovered = [[e for e in order if model.is_beyond(numbers[e])][0]
                              for order in (model.reading_order(numbers), recovery)]
    several = sum(model.is_beyond(z) for z in numbers) > 1
    return (["11 at stage 0" if stage == 0 else "11 at a later stage"]
            + ["11 with several beyond"] * several + ["11 where the orders differ"] * (first != first_recovered))


def print_tally(name, tally, more, count, size):
    answers = " ".join(f"{number}:{tally[number]}" for number in sorted(tally))
    counts = "".join(f", {what}: {more[what]}" for what in sorted(more))
    print(f"{name} {count} cases, {size // max(1, count)} bytes a case, {answers}{counts}",
          file=sys.stderr)


def write_stream(name, seed, count, out, tallied):
    number, tally, more, size = CALLS[name][0], Counter(), Counter(), 0
    for case in cases_of(name, seed, count):
        size += out.write(packed(words_of(number, case)))
        if tallied:
            tally[tally_key(name, case)] += 1
            own = case.call or number
            more.update(tally_rules(own, case) + tally_elements(own, case))
            more.update([f"call {case.call}"] * (case.call is not None))
    if tallied:
        print_tally(name, tally, more, count, size)


def main(arguments):
    if len(arguments) != 3:
        sys.exit(__doc__)
    calls, seed, count = arguments
    if calls == "figures":
        for number, case in figure_cases():
            sys.stdout.buffer.write(packed(words_of(number, case)))
        return
    names = list(CALLS) if calls == "all" else calls.split(",")
    for name in names:
        if name not in CALLS:
            sys.exit(f"no call {name}; calls: {','.join(CALLS)}")
    for name in names:
        write_stream(name, seed, int(count), sys.stdout.buffer, os.environ.get("TALLY") == "1")


if __name__ == "__main__":
    main(sys.argv[1:])
