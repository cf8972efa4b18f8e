"""Every call of document 01 as a plain function over lists of whole numbers.

A direct transcription, in the document's order and words, with numbers
without bounds. It shares no code with the product that it tests. Every call
gives its answer, the four numbers (number, side, place, element); a call that
is lent memory gives the answer and that memory as it is afterwards.
"""

from collections import namedtuple

# ---------------------------------------------------------------------------
# Numbers and their bounds

ORDER_LIMIT = 16
COUNT_LIMIT = 32
ENTRY_LIMIT = 16384
SAMPLE_LIMIT = 16777215
ALLOWANCE_LIMIT = 67108863
PROGRAM_LIMIT = 16384

SCALE = 4096  # an entry e means e/4096
SCALE2 = SCALE * SCALE  # 16777216, the scale of a product of two entries

PERMUTATION, LOWER, UPPER, SINGLE_ROW = 1, 2, 3, 4

# Request R-5: "0 as today, 1 floor, 2 nearest with halves to even".
NEAREST, FLOOR, EVEN = 0, 1, 2
RULES = (NEAREST, FLOOR, EVEN)

# What one rounding adds to an allowance, in 1/4096: "the 2048 added for
# rounding is 4096 under rule 1".
SHARES = {NEAREST: 2048, FLOOR: 4096, EVEN: 2048}


class Refused(Exception):
    """The first fault found, with its number, side and place. Request R-7: an
    element for refusal 11; "it is 0 in every other answer"."""

    def __init__(self, number, place, side=0, element=0):
        super().__init__(number, side, place, element)
        self.answer = (number, side, place, element)


def accepted(place=0):
    """"Accepted: 0, 0, and the place is 0, or the count written"."""
    return (0, 0, place, 0)


# ---------------------------------------------------------------------------
# The sheet

# matrix holds the factor at scale 4096: entries as they stand, a sign on the
# diagonal as +-4096, a permutation's 1 as 4096. used[m] lists the columns
# where row m of the matrix isn't zero.
Factor = namedtuple("Factor", "kind places row signs matrix used")
Recipe = namedtuple("Recipe", "order factors")


class SheetReader:
    """"Sheets are read left to right and the first fault answers"."""

    def __init__(self, sheet, side):
        self.sheet = sheet
        self.side = side
        self.index = 0

    def take(self, fault, fits):
        """The next number: 1 if the sheet ends here, `fault` if it doesn't fit."""
        if self.index == len(self.sheet):
            raise Refused(1, len(self.sheet), self.side)
        value = self.sheet[self.index]
        if not fits(value):
            raise Refused(fault, self.index, self.side)
        self.index += 1
        return value

    def take_places(self, n):
        """n places: 5 if not 0..n-1, 6 if used earlier in that permutation."""
        places = []
        for _ in range(n):
            place = self.take(5, lambda v: 0 <= v <= n - 1)
            if place in places:
                raise Refused(6, self.index - 1, self.side)
            places.append(place)
        return places

    def take_signs(self, n):
        """n signs: 7 if not 1 or -1."""
        return [self.take(7, lambda v: v in (1, -1)) for _ in range(n)]

    def take_entry(self):
        """An entry: 8 if beyond 16384."""
        return self.take(8, lambda v: -ENTRY_LIMIT <= v <= ENTRY_LIMIT)

    def take_factor(self, n):
        """A kind and what the table of the sheet says follows it."""
        kind = self.take(4, lambda v: 1 <= v <= 4)
        places, row, signs = None, None, None
        matrix = [[0] * n for _ in range(n)]
        if kind == PERMUTATION:
            places = self.take_places(n)
            for i in range(n):
                matrix[i][places[i]] = SCALE
        else:
            if kind == SINGLE_ROW:
                row = self.take(5, lambda v: 0 <= v <= n - 1)
            signs = self.take_signs(n)
            for m in range(n):
                matrix[m][m] = signs[m] * SCALE
                for k in entry_columns(kind, row, n, m):
                    matrix[m][k] = self.take_entry()
        used = [[k for k in range(n) if line[k] != 0] for line in matrix]
        return Factor(kind, places, row, signs, matrix, used)

    def take_recipe(self):
        """n, the factor count K, K factors, and nothing after them."""
        n = self.take(2, lambda v: 1 <= v <= ORDER_LIMIT)
        count = self.take(3, lambda v: 1 <= v <= COUNT_LIMIT)
        factors = [self.take_factor(n) for _ in range(count)]
        if self.index < len(self.sheet):
            raise Refused(9, self.index, self.side)
        return Recipe(n, factors)


def entry_columns(kind, row, n, m):
    """The columns in which row m of a factor has entries off the diagonal."""
    if kind == LOWER:
        return range(0, m)
    if kind == UPPER:
        return range(m + 1, n)
    if kind == SINGLE_ROW and m == row:
        return [k for k in range(n) if k != row]
    return []


def recipe_of(sheet, side=0):
    """The recipe of a sheet, or its first fault in 1 to 9."""
    return SheetReader(sheet, side).take_recipe()


def pair_of(col, row):
    """Two sheets: faults of the column sheet, of the row sheet, then 12."""
    column_recipe = recipe_of(col, 0)
    row_recipe = recipe_of(row, 1)
    match(column_recipe, row_recipe)
    return column_recipe, row_recipe


def unlike_pair_of(col, row):
    """Request R-4: "as for the joint run, without 12"."""
    return recipe_of(col, 0), recipe_of(row, 1)


def match(a, b):
    """12: "first position whose kinds differ, else the smaller count"."""
    smaller = min(len(a.factors), len(b.factors))
    for position in range(smaller):
        if a.factors[position].kind != b.factors[position].kind:
            raise Refused(12, position)
    if len(a.factors) != len(b.factors):
        raise Refused(12, smaller)


# ---------------------------------------------------------------------------
# Factor rules in one dimension


def rounded(rule, s, scale):
    """s/scale as a whole number, by a rule. The quotient is a floor, also below
    zero. Rule 2 takes the even quotient, whatever the sum is added to then."""
    if rule == NEAREST:
        return (s + scale // 2) // scale
    quotient, over = s // scale, s % scale
    if rule == FLOOR or 2 * over < scale:
        return quotient
    if 2 * over > scale:
        return quotient + 1
    return quotient if quotient % 2 == 0 else quotient + 1


def R(rule, s):
    """Rule 0: "the floor of (s + 2048)/4096: nearest, halves upward"."""
    return rounded(rule, s, SCALE)


def line_sum(factor, m, x):
    """The sum of a(m,k)·x(k) off the diagonal of row m."""
    total = 0
    for k in factor.used[m]:
        if k != m:
            total += factor.matrix[m][k] * x[k]
    return total


def apply_line(rule, factor, x):
    """The vector after the factor."""
    n = len(x)
    if factor.kind == PERMUTATION:
        return [x[factor.places[i]] for i in range(n)]
    return [factor.signs[m] * x[m] + R(rule, line_sum(factor, m, x)) for m in range(n)]


def undo_line(rule, factor, y):
    """The vector before the factor, each sum over recovered numbers only."""
    n = len(y)
    x = [None] * n
    if factor.kind == PERMUTATION:
        for i in range(n):
            x[factor.places[i]] = y[i]
        return x
    for m in line_recovery(factor, n):
        x[m] = factor.signs[m] * (y[m] - R(rule, line_sum(factor, m, x)))
    return x


def line_recovery(factor, n):
    """"From the top for kind 2, from the bottom for kind 3"; kind 4 row r last.
    A permutation undone has no such order, and none can be seen: no number
    changes, so none passes the bound."""
    if factor.kind in (PERMUTATION, LOWER):
        return list(range(n))
    if factor.kind == UPPER:
        return list(reversed(range(n)))
    return [k for k in range(n) if k != factor.row] + [factor.row]


def is_beyond(number):
    return not -SAMPLE_LIMIT <= number <= SAMPLE_LIMIT


def reading_order(numbers):
    """Row by row, which is how the numbers of a block lie."""
    return range(len(numbers))


def check_bound(numbers, stage, order):
    """A run is refused at the first stage with a number beyond the bound. The
    element is the first such number of the whole stage in the order given."""
    for element in order:
        if is_beyond(numbers[element]):
            raise Refused(11, stage, element=element)


def line_stages_forward(rule, recipe, x):
    """Stage 0 is the input, stage s the vector after s factors. R-7: "in a
    forward run and at stage 0 the first offending element in reading order"."""
    check_bound(x, 0, reading_order(x))
    for stage, factor in enumerate(recipe.factors, 1):
        x = apply_line(rule, factor, x)
        check_bound(x, stage, reading_order(x))
    return x


def line_stages_inverse(rule, recipe, y):
    """Stage s is the vector after s factors undone, the last factor first. R-7:
    "in an inverse run the first in 01's recovery order for that factor"."""
    check_bound(y, 0, reading_order(y))
    for stage, factor in enumerate(reversed(recipe.factors), 1):
        y = undo_line(rule, factor, y)
        check_bound(y, stage, line_recovery(factor, recipe.order))
    return y


# ---------------------------------------------------------------------------
# Two dimensions


def R2(rule, s):
    """Rule 0: "the floor of (s + 8388608)/16777216"."""
    return rounded(rule, s, SCALE2)


def rows_of(block, n1, n2):
    """A block of n1 rows by n2 numbers, row by row."""
    return [list(block[i * n2:(i + 1) * n2]) for i in range(n1)]


def flat(rows):
    """The block again as one list."""
    return [number for row in rows for number in row]


def joint_sum(a, b, i, j, x):
    """The sum of A(i,l)·B(j,k)·X(l,k) over all (l,k) other than (i,j)."""
    total = 0
    for l in a.used[i]:
        for k in b.used[j]:
            if (l, k) != (i, j):
                total += a.matrix[i][l] * b.matrix[j][k] * x[l][k]
    return total


def apply_joint(rule, a, b, x):
    """One stage: A·X·B-transposed with one rounding for each element."""
    n1, n2 = len(x), len(x[0])
    if a.kind == PERMUTATION:
        return [[x[a.places[i]][b.places[j]] for j in range(n2)] for i in range(n1)]
    return [
        [
            a.signs[i] * b.signs[j] * x[i][j] + R2(rule, joint_sum(a, b, i, j, x))
            for j in range(n2)
        ]
        for i in range(n1)
    ]


def undo_joint(rule, a, b, y):
    """The block before one stage, in the recovery order."""
    n1, n2 = len(y), len(y[0])
    x = [[None] * n2 for _ in range(n1)]
    if a.kind == PERMUTATION:
        for i in range(n1):
            for j in range(n2):
                x[a.places[i]][b.places[j]] = y[i][j]
        return x
    for i, j in joint_recovery(a, b, n1, n2):
        x[i][j] = a.signs[i] * b.signs[j] * (y[i][j] - R2(rule, joint_sum(a, b, i, j, x)))
    return x


def joint_recovery(a, b, n1, n2):
    """Kind 2 row by row from (0,0); kind 3 the reverse; kind 4: elements in
    neither, row r from the left, column q from the top, (r,q) last. For a
    permutation any order will do, as for a line."""
    row_by_row = [(i, j) for i in range(n1) for j in range(n2)]
    if a.kind in (PERMUTATION, LOWER):
        return row_by_row
    if a.kind == UPPER:
        return list(reversed(row_by_row))
    r, q = a.row, b.row
    in_neither = [(i, j) for (i, j) in row_by_row if i != r and j != q]
    row_r = [(r, j) for j in range(n2) if j != q]
    column_q = [(i, q) for i in range(n1) if i != r]
    return in_neither + row_r + column_q + [(r, q)]


def joint_elements(a, b, n1, n2):
    """The recovery order by element number, "counted row by row"."""
    return [i * n2 + j for i, j in joint_recovery(a, b, n1, n2)]


def joint_stages_forward(rule, a, b, x):
    """The stages of a joint run, both recipes' factors in step."""
    check_bound(flat(x), 0, reading_order(flat(x)))
    for stage, (fa, fb) in enumerate(zip(a.factors, b.factors), 1):
        x = apply_joint(rule, fa, fb, x)
        check_bound(flat(x), stage, reading_order(flat(x)))
    return x


def joint_stages_inverse(rule, a, b, y):
    """The stages of a joint inverse run, the last factors first."""
    check_bound(flat(y), 0, reading_order(flat(y)))
    pairs = list(zip(a.factors, b.factors))
    for stage, (fa, fb) in enumerate(reversed(pairs), 1):
        y = undo_joint(rule, fa, fb, y)
        check_bound(flat(y), stage, joint_elements(fa, fb, a.order, b.order))
    return y


# ---------------------------------------------------------------------------
# Request R-4: two passes over a rectangle

# A pass goes one of two ways: "down each column" or "along each row".
DOWN, ALONG = "down", "along"


def turned(block):
    """The columns of a block, as rows."""
    return [list(column) for column in zip(*block)]


def on_lines(way, step, block):
    """A step taken on every column, or on every row."""
    if way == ALONG:
        return [step(row) for row in block]
    return turned([step(column) for column in turned(block)])


def pass_of(way, recipe):
    """"A stage is one factor over the whole rectangle"."""
    return [(way, factor) for factor in recipe.factors]


def both_passes(a, b):
    """"The column sheet down each column, then the row sheet along each row"."""
    return pass_of(DOWN, a) + pass_of(ALONG, b)


def pass_elements(way, factor, n1, n2):
    """R-7, of a pass undone: "line after line by number", each line in the
    factor's recovery order. Elements are those of the whole block."""
    if way == DOWN:
        return [i * n2 + j for j in range(n2) for i in line_recovery(factor, n1)]
    return [i * n2 + j for i in range(n1) for j in line_recovery(factor, n2)]


def pass_stages_forward(rule, stages, x):
    """The stages of one pass or of two, "counted in the order applied"."""
    check_bound(flat(x), 0, reading_order(flat(x)))
    for stage, (way, factor) in enumerate(stages, 1):
        x = on_lines(way, lambda line: apply_line(rule, factor, line), x)
        check_bound(flat(x), stage, reading_order(flat(x)))
    return x


def pass_stages_inverse(rule, stages, y):
    """"Or undone": the last stage first, so that the rows are undone first."""
    check_bound(flat(y), 0, reading_order(flat(y)))
    for stage, (way, factor) in enumerate(reversed(stages), 1):
        y = on_lines(way, lambda line: undo_line(rule, factor, line), y)
        check_bound(flat(y), stage, pass_elements(way, factor, len(y), len(y[0])))
    return y


# ---------------------------------------------------------------------------
# Allowance


def ceiling(s, scale):
    """The quotient upward."""
    return -((-s) // scale)


def allow_line(rule, factor, b):
    """"b(m) + ceiling of (sum of |a(m,k)|·b(k) / 4096), plus 2048 if any entry
    of that row off the diagonal is no multiple of 4096"; the 2048 by the rule."""
    n = len(b)
    if factor.kind == PERMUTATION:
        return [b[factor.places[i]] for i in range(n)]
    after = []
    for m in range(n):
        total, share = 0, 0
        for k in factor.used[m]:
            if k != m:
                entry = factor.matrix[m][k]
                total += abs(entry) * b[k]
                if entry % SCALE != 0:
                    share = SHARES[rule]
        after.append(b[m] + ceiling(total, SCALE) + share)
    return after


def allow_joint(rule, fa, fb, b):
    """The same with |A(i,l)|·|B(j,k)|·b(l,k) over all (l,k) other than (i,j),
    a diagonal sign counting as +-4096, both in the sum and in the products."""
    n1, n2 = len(b), len(b[0])
    if fa.kind == PERMUTATION:
        return [[b[fa.places[i]][fb.places[j]] for j in range(n2)] for i in range(n1)]
    after = [[None] * n2 for _ in range(n1)]
    for i in range(n1):
        for j in range(n2):
            total, share = 0, 0
            for l in fa.used[i]:
                for k in fb.used[j]:
                    if (l, k) != (i, j):
                        product = fa.matrix[i][l] * fb.matrix[j][k]
                        total += abs(product) * b[l][k]
                        if product % SCALE2 != 0:
                            share = SHARES[rule]
            after[i][j] = b[i][j] + ceiling(total, SCALE2) + share
    return after


def check_allowance(allowances, stage):
    """13: "allowance above its limit at some element", first stage."""
    if max(allowances) > ALLOWANCE_LIMIT:
        raise Refused(13, stage)


def line_stages_allowance(rule, recipe):
    """"All allowances start at 0"."""
    b = [0] * recipe.order
    for stage, factor in enumerate(recipe.factors, 1):
        b = allow_line(rule, factor, b)
        check_allowance(b, stage)
    return b


def joint_stages_allowance(rule, a, b):
    """The same for a block of n1 rows by n2 numbers."""
    allowances = [[0] * b.order for _ in range(a.order)]
    for stage, (fa, fb) in enumerate(zip(a.factors, b.factors), 1):
        allowances = allow_joint(rule, fa, fb, allowances)
        check_allowance(flat(allowances), stage)
    return allowances


def pass_stages_allowance(rule, stages, n1, n2):
    """"The row pass's allowance starts from the column pass's"."""
    b = [[0] * n2 for _ in range(n1)]
    for stage, (way, factor) in enumerate(stages, 1):
        b = on_lines(way, lambda line: allow_line(rule, factor, line), b)
        check_allowance(flat(b), stage)
    return b


def line_exact(sheet, x):
    """E and D = 4096^K: every factor scaled by 4096, without rounding."""
    recipe = recipe_of(sheet)
    n = recipe.order
    e = list(x)
    for factor in recipe.factors:
        e = [sum(factor.matrix[m][k] * e[k] for k in range(n)) for m in range(n)]
    return e, SCALE ** len(recipe.factors)


def joint_exact(col, row, x):
    """E and D = 4096^(2K): both factors scaled, without rounding."""
    a, b = pair_of(col, row)
    n1, n2 = a.order, b.order
    e = rows_of(x, n1, n2)
    for fa, fb in zip(a.factors, b.factors):
        e = exact_stage(fa, fb, e)
    return flat(e), SCALE ** (2 * len(a.factors))


def two_pass_exact(col, row, x):
    """E and D = 4096^(K1+K2): "scale 4096 for each factor of either sheet"."""
    a, b = unlike_pair_of(col, row)
    e = rows_of(x, a.order, b.order)
    for way, factor in both_passes(a, b):
        e = on_lines(way, lambda line: exact_line(factor, line), e)
    return flat(e), SCALE ** (len(a.factors) + len(b.factors))


def exact_line(factor, x):
    """A line after a factor scaled by 4096."""
    return [sum(factor.matrix[m][k] * x[k] for k in factor.used[m]) for m in range(len(x))]


def exact_stage(fa, fb, x):
    """A·X·B-transposed at scale 4096^2, as a double sum for each element."""
    n1, n2 = len(x), len(x[0])
    return [
        [
            sum(
                fa.matrix[i][l] * fb.matrix[j][k] * x[l][k]
                for l in fa.used[i]
                for k in fb.used[j]
            )
            for j in range(n2)
        ]
        for i in range(n1)
    ]


# ---------------------------------------------------------------------------
# Recipe bytes


def encode_number(v):
    """2v, or -2v-1 below zero, in groups of seven bits, low group first, the
    top bit set on all but the last. (No limit on the groups here: a number of
    an accepted sheet never needs more than three.)"""
    rest_of_v = 2 * v if v >= 0 else -2 * v - 1
    groups = [rest_of_v % 128]
    while rest_of_v >= 128:
        rest_of_v //= 128
        groups.append(rest_of_v % 128)
    return [group + 128 for group in groups[:-1]] + groups[-1:]


def encode(numbers):
    """"The bytes are the numbers of the sheet and nothing more"."""
    return [byte for v in numbers for byte in encode_number(v)]


def decode_number(data, first):
    """The number that starts at a byte, and the index after it. 14 if it is
    cut, has a fourth group, or has a last group 0 that doesn't stand alone."""
    unsigned = 0
    for group in range(3):
        if first + group == len(data):
            raise Refused(14, first)
        byte = data[first + group]
        unsigned += (byte % 128) * 128 ** group
        if byte < 128:
            if byte == 0 and group > 0:
                raise Refused(14, first)
            v = unsigned // 2 if unsigned % 2 == 0 else -((unsigned + 1) // 2)
            return v, first + group + 1
    raise Refused(14, first)


def decode(data):
    """All numbers of a byte string."""
    numbers, index = [], 0
    while index < len(data):
        v, index = decode_number(data, index)
        numbers.append(v)
    return numbers


# ---------------------------------------------------------------------------
# What comes back: the calls on sheets


def check(sheet):
    """1 to 9."""
    try:
        recipe_of(sheet)
    except Refused as refused:
        return refused.answer
    return accepted()


def check_pair(col, row):
    """1 to 9 for the column sheet, then for the row sheet, then 12."""
    try:
        pair_of(col, row)
    except Refused as refused:
        return refused.answer
    return accepted()


def rest(col, row):
    """"The rest of the faulty sheet, from the place on": which slice it is a
    part of, 0 column or 1 row, and where it starts. "With no fault in 1 to 9,
    the empty end of the column sheet"."""
    number, side, place, _ = check_pair(col, row)
    if 1 <= number <= 9:
        return (side, place)
    return (0, len(col))


def write_into(output, room):
    """A call that can answer 15: the output, then the room as it was."""
    if len(output) > len(room):
        raise Refused(15, len(output))
    return accepted(len(output)), list(output) + list(room[len(output):])


def read(data, room):
    """"The reader answers 14 for the whole byte string first, then 1 to 9,
    then 15". Refused calls leave lent memory untouched."""
    try:
        sheet = decode(data)
        recipe_of(sheet)
        return write_into(sheet, room)
    except Refused as refused:
        return refused.answer, list(room)


def write(sheet, room):
    """"The writer 1 to 9, then 15"."""
    try:
        recipe_of(sheet)
        return write_into(encode(sheet), room)
    except Refused as refused:
        return refused.answer, list(room)


# ---------------------------------------------------------------------------
# What comes back: the runs and the allowances


def check_rule(rule):
    """"16 for a rule not 0, 1 or 2, place 0, before all others"."""
    if rule not in RULES:
        raise Refused(16, 0)


def check_lengths(wanted, x, y):
    """10 for the input, then 10 with side 1 for the output."""
    if x is not None and len(x) != wanted:
        raise Refused(10, 0, 0)
    if len(y) != wanted:
        raise Refused(10, 0, 1)


def line_forward(rule, sheet, x, y):
    """A forward run; "writes the lent output at the end"."""
    try:
        check_rule(rule)
        recipe = recipe_of(sheet)
        check_lengths(recipe.order, x, y)
        return accepted(), line_stages_forward(rule, recipe, list(x))
    except Refused as refused:
        return refused.answer, list(y)


def line_inverse(rule, sheet, y_in, out):
    """An inverse run."""
    try:
        check_rule(rule)
        recipe = recipe_of(sheet)
        check_lengths(recipe.order, y_in, out)
        return accepted(), line_stages_inverse(rule, recipe, list(y_in))
    except Refused as refused:
        return refused.answer, list(out)


def line_allowance(rule, sheet, out):
    """The allowances of a recipe; it has no input, so its 10 has side 1."""
    try:
        check_rule(rule)
        recipe = recipe_of(sheet)
        check_lengths(recipe.order, None, out)
        return accepted(), line_stages_allowance(rule, recipe)
    except Refused as refused:
        return refused.answer, list(out)


def joint_forward(rule, col, row, x, y):
    """A forward run in two dimensions."""
    try:
        check_rule(rule)
        a, b = pair_of(col, row)
        check_lengths(a.order * b.order, x, y)
        block = rows_of(x, a.order, b.order)
        return accepted(), flat(joint_stages_forward(rule, a, b, block))
    except Refused as refused:
        return refused.answer, list(y)


def joint_inverse(rule, col, row, y_in, out):
    """An inverse run in two dimensions."""
    try:
        check_rule(rule)
        a, b = pair_of(col, row)
        check_lengths(a.order * b.order, y_in, out)
        block = rows_of(y_in, a.order, b.order)
        return accepted(), flat(joint_stages_inverse(rule, a, b, block))
    except Refused as refused:
        return refused.answer, list(out)


def joint_allowance(rule, col, row, out):
    """The allowances of a pair of recipes."""
    try:
        check_rule(rule)
        a, b = pair_of(col, row)
        check_lengths(a.order * b.order, None, out)
        return accepted(), flat(joint_stages_allowance(rule, a, b))
    except Refused as refused:
        return refused.answer, list(out)


# ---------------------------------------------------------------------------
# Request R-4: the calls of two passes, and of one pass alone


def two_pass_forward(rule, col, row, x, y):
    """A forward run of two passes."""
    try:
        check_rule(rule)
        a, b = unlike_pair_of(col, row)
        check_lengths(a.order * b.order, x, y)
        block = rows_of(x, a.order, b.order)
        return accepted(), flat(pass_stages_forward(rule, both_passes(a, b), block))
    except Refused as refused:
        return refused.answer, list(y)


def two_pass_inverse(rule, col, row, y_in, out):
    """"The inverse undoes rows first"."""
    try:
        check_rule(rule)
        a, b = unlike_pair_of(col, row)
        check_lengths(a.order * b.order, y_in, out)
        block = rows_of(y_in, a.order, b.order)
        return accepted(), flat(pass_stages_inverse(rule, both_passes(a, b), block))
    except Refused as refused:
        return refused.answer, list(out)


def two_pass_allowance(rule, col, row, out):
    """The allowances of both passes."""
    try:
        check_rule(rule)
        a, b = unlike_pair_of(col, row)
        check_lengths(a.order * b.order, None, out)
        return accepted(), flat(pass_stages_allowance(rule, both_passes(a, b), a.order, b.order))
    except Refused as refused:
        return refused.answer, list(out)


def check_other_order(other):
    """"Refused 2, place 0, after the sheet's own faults"."""
    if not 1 <= other <= ORDER_LIMIT:
        raise Refused(2, 0)


def one_pass(rule, way, sheet, other, x, y, run):
    """"One pass alone": the sheet is that of no pair, so its faults have side 0
    whichever way it goes. A column pass has `other` columns, a row pass rows."""
    try:
        check_rule(rule)
        recipe = recipe_of(sheet)
        check_other_order(other)
        n1, n2 = (recipe.order, other) if way == DOWN else (other, recipe.order)
        check_lengths(n1 * n2, x, y)
        return accepted(), flat(run(rule, pass_of(way, recipe), rows_of(x, n1, n2)))
    except Refused as refused:
        return refused.answer, list(y)


def column_forward(rule, sheet, other, x, y):
    return one_pass(rule, DOWN, sheet, other, x, y, pass_stages_forward)


def column_inverse(rule, sheet, other, x, y):
    return one_pass(rule, DOWN, sheet, other, x, y, pass_stages_inverse)


def row_forward(rule, sheet, other, x, y):
    return one_pass(rule, ALONG, sheet, other, x, y, pass_stages_forward)


def row_inverse(rule, sheet, other, x, y):
    return one_pass(rule, ALONG, sheet, other, x, y, pass_stages_inverse)


# ---------------------------------------------------------------------------
# Request R-1: whole strips


def strip(rule, recipes, call, x, out, marks):
    """Each block's single call, one after another: the answer, the output, the bytes.

    recipes() gives the orders or refuses by 1 to 9 or 12; call is the single
    call on a block and its part of the output."""
    try:
        check_rule(rule)
        size = 1
        for order in recipes():
            size *= order
        if len(x) % size:
            raise Refused(10, 0, 0)
        if len(out) != len(x) or len(marks) != len(x) // size:
            raise Refused(10, 0, 1)
    except Refused as refused:
        return refused.answer, list(out), list(marks)
    after, numbers = [], []
    for start in range(0, len(x), size):
        answer, part = call(x[start:start + size], out[start:start + size])
        after += part
        numbers.append(answer[0])
    return accepted(), after, numbers


def line_strip(rule, sheet, x, out, marks, call):
    """call: line_forward or line_inverse."""
    return strip(rule, lambda: [recipe_of(sheet).order], lambda v, w: call(rule, sheet, v, w), x, out, marks)


def joint_strip(rule, col, row, x, out, marks, call):
    """call: joint_forward or joint_inverse."""
    return strip(rule, lambda: [recipe.order for recipe in pair_of(col, row)],
                 lambda v, w: call(rule, col, row, v, w), x, out, marks)


# ---------------------------------------------------------------------------
# Built-in recipe

# Request R-2: U lost a sign in print, row 1, column 3.
FIRST_PRINTING = [
    4, 5,
    1, 3, 2, 0, 1,
    2, 1, 1, 1, 1, 1612, 0, -4096, -815, 3281, 0,
    3, -1, 1, 1, 1, 6238, 2048, -2676, 3101, 2484, 0,
    2, 1, 1, 1, 1, -2106, 2106, -4096, -872, 3281, 0,
    1, 3, 2, 1, 0,
]
BUILT_IN = [-2484 if number == 2484 else number for number in FIRST_PRINTING]


def write_table(table, room):
    """"A call writes it into a lent slice, or answers 15"."""
    try:
        return write_into(table, room)
    except Refused as refused:
        return refused.answer, list(room)


def built_in(room):
    return write_table(BUILT_IN, room)


def first_printing(room):
    return write_table(FIRST_PRINTING, room)


# ---------------------------------------------------------------------------
# Program


def result_line(word, answer, numbers):
    """One printed line: the numbers, or `refused`, number, side, place."""
    number, side, place, _ = answer
    if number != 0:
        return f"refused {number} {side} {place}\n"
    return " ".join([word] + [str(number) for number in numbers]) + "\n"


def split_input(data):
    """A count c, c sheet numbers, then the block."""
    if len(data) > PROGRAM_LIMIT:
        raise Refused(15, PROGRAM_LIMIT)
    numbers = decode(data)
    if not numbers or not 0 <= numbers[0] <= len(numbers) - 1:
        raise Refused(10, 0)
    c = numbers[0]
    return numbers[1:1 + c], numbers[1 + c:]


def program(data):
    """The printed text: the forward result, the inverse of that, the allowance,
    all by rule 0; after a refused forward run nothing follows."""
    try:
        sheet, block = split_input(data)
    except Refused as refused:
        return result_line("", refused.answer, [])
    answer, forward = line_forward(NEAREST, sheet, block, [0] * len(block))
    text = result_line("forward", answer, forward)
    if answer[0] != 0:
        return text
    answer, back = line_inverse(NEAREST, sheet, forward, [0] * len(block))
    text += result_line("back", answer, back)
    answer, allow = line_allowance(NEAREST, sheet, [0] * len(block))
    return text + result_line("allow", answer, allow)
