"""Random sheets, damages, blocks and byte strings for figures.py and cases.py.

A sheet under construction is a draft: a list of (role, number), so that a
damage can aim at a sign, a place or an entry. Everything comes out of the
random source handed in, so that a seed gives the same cases each time.
"""

import model

I32_MIN, I32_MAX = -2147483648, 2147483647

BOUND_EDGES = [16777215, -16777215, 16777216, -16777216, I32_MAX, -I32_MAX, I32_MIN]
NUMBER_EDGES = [
    0, 1, 2, 4, 5, 16, 17, 32, 33, -1, -2, 16384, -16384, 16385, -16385, I32_MAX, I32_MIN,
]


def numbers_of(draft):
    """The sheet of a draft."""
    return [number for _, number in draft]


def any_i32(rng):
    return rng.getrandbits(32) + I32_MIN


def lent(rng, length):
    """Lent memory before a call: any numbers, so that "untouched" is tested."""
    return [any_i32(rng) for _ in range(length)]


def chance(rng, share):
    return rng.random() < share


# ---------------------------------------------------------------------------
# Rules

# Numbers of 32 bits that are no rule: just past the last, a refusal's number,
# what a rule is if only some of its bits are looked at, the largest.
WRONG_RULES = [3, 4, 16, 255, 256, 65536, 65537, I32_MAX, I32_MAX + 1, 2 ** 32 - 2, 2 ** 32 - 1]
WRONG_RULE = 0.04

# How often a run's sheets are such that the rules part.
HALF = 0.45


def true_rule(rng):
    return rng.choice(model.RULES)


def some_rule(rng):
    """A rule, or at times a number that is none."""
    return rng.choice(WRONG_RULES) if chance(rng, WRONG_RULE) else true_rule(rng)


def nearest_if_wrong(rule):
    """A rule by which a block for the call is worked out."""
    return rule if rule in model.RULES else model.NEAREST


# ---------------------------------------------------------------------------
# Valid sheets


def uniform_entry(rng):
    return rng.randint(-16384, 16384)


def whole_entry(rng):
    """A multiple of 4096: no rounding, no share of allowance."""
    return 4096 * rng.randint(-4, 4)


def half_entry(rng):
    """A multiple of 2048: sums fall on halves, where the rules part."""
    return 2048 * rng.randint(-8, 8)


def odd_half_entry(rng):
    """An odd multiple of 2048, or 0: half of the sums fall on halves."""
    return rng.choice([-6144, -2048, -2048, 2048, 2048, 6144, 0, 0, 0])


def small_whole_entry(rng):
    return 4096 * rng.choice([-1, 0, 0, 0, 1])


def rare_half_entry(rng):
    """Mostly 0: long chains stay within the bound and fall on halves too."""
    return rng.choice([-2048, 2048]) if chance(rng, 0.1) else 0


def extreme_entry(rng):
    return rng.choice([-16384, 16384, -16383, 16383])


def sparse_entry(rng):
    return 0 if chance(rng, 0.7) else uniform_entry(rng)


def faint_entry(rng):
    """Small enough that long chains stay within the bound."""
    return rng.randint(-150, 150)


def fainter_entry(rng):
    """Small enough that the allowances of two passes of 32 factors stay within their limit."""
    return rng.randint(-40, 40)


def steep_entry(rng):
    """Large and mostly no multiple of 4096: allowances grow fast."""
    return rng.choice([-1, 1]) * rng.randint(9000, 16384)


def mixed_entry(rng):
    return rng.choice([uniform_entry, whole_entry, half_entry, extreme_entry, sparse_entry])(rng)


ENTRY_MAKERS = [
    uniform_entry, whole_entry, half_entry, half_entry, extreme_entry,
    sparse_entry, faint_entry, mixed_entry,
]
LONG_ENTRY_MAKERS = [faint_entry, faint_entry, rare_half_entry, sparse_entry, mixed_entry]


def plain_sign(rng):
    return 1


def any_sign(rng):
    return rng.choice([1, -1])


def minus_sign(rng):
    return -1


SIGN_MAKERS = [plain_sign, any_sign, any_sign, minus_sign]


def factor_draft(rng, n, kind, entry, sign):
    """A kind and what follows it, with roles."""
    draft = [("kind", kind)]
    if kind == model.PERMUTATION:
        return draft + [("place", p) for p in rng.sample(range(n), n)]
    row = None
    if kind == model.SINGLE_ROW:
        row = rng.randrange(n)
        draft.append(("row", row))
    draft += [("sign", sign(rng)) for _ in range(n)]
    for m in range(n):
        draft += [("entry", entry(rng)) for _ in model.entry_columns(kind, row, n, m)]
    return draft


def sheet_draft(rng, n, kinds, entry=None, sign=None):
    """A valid sheet of order n with factors of the given kinds."""
    makers = ENTRY_MAKERS if n * len(kinds) <= 40 else LONG_ENTRY_MAKERS
    entry = entry or rng.choice(makers)
    sign = sign or rng.choice(SIGN_MAKERS)
    return planned_draft(rng, n, [(kind, entry) for kind in kinds], sign)


def planned_draft(rng, n, plan, sign):
    """A valid sheet whose plan has for each factor its kind and its maker of entries."""
    draft = [("order", n), ("count", len(plan))]
    for kind, entry in plan:
        draft += factor_draft(rng, n, kind, entry, sign)
    return draft


def some_kinds(rng, count):
    return [rng.randint(1, 4) for _ in range(count)]


def some_shape(rng):
    """Order and count: mostly small, a steady share of large ones."""
    u = rng.random()
    if u < 0.90:
        return rng.randint(1, 5), rng.randint(1, 4)
    if u < 0.99:
        return rng.randint(1, 9), rng.randint(1, 8)
    if u < 0.996:
        return rng.randint(1, 16), rng.randint(1, 32)
    return 16, 32


def some_draft(rng):
    n, count = some_shape(rng)
    return sheet_draft(rng, n, some_kinds(rng, count))


def longest_draft(rng, entry=None):
    """The longest sheet, 4386 numbers: order 16, 32 lower or upper factors."""
    kinds = [rng.choice([model.LOWER, model.UPPER]) for _ in range(32)]
    return sheet_draft(rng, 16, kinds, entry)


def steep_draft(rng):
    """A sheet whose allowances or blocks may pass their limit at a late stage."""
    kinds = [rng.choice([1, 2, 3, 4, 4, 4]) for _ in range(rng.randint(5, 14))]
    return sheet_draft(rng, rng.randint(2, 5), kinds, steep_entry)


def half_kinds(rng):
    """Kinds with sums, a permutation at times."""
    return [rng.choice([1, 2, 2, 2, 3, 3, 3, 4, 4, 4]) for _ in range(rng.randint(1, 4))]


def half_draft(rng):
    """A sheet under which the rules part: most blocks have sums at halves."""
    return sheet_draft(rng, rng.randint(2, 6), half_kinds(rng), odd_half_entry)


def ruled_draft(rng):
    """Any sheet, or one under which the rules part."""
    return half_draft(rng) if chance(rng, HALF) else some_draft(rng)


# ---------------------------------------------------------------------------
# Damages to a draft


def role_edges(role, n, number):
    """Numbers that are wrong, or just right, for a role."""
    common = [I32_MIN, I32_MAX, -1]
    special = {
        "order": [0, 17, n + 1, n - 1],
        "count": [0, 33, number + 1, number - 1],
        "kind": [0, 5, 1, 2, 3, 4],
        "place": [n, n + 1, n - 1],
        "row": [n, n + 1, n - 1],
        "sign": [0, 2, -2, 4096],
        "entry": [16385, -16385, 16384, -16384],
        "extra": [0, 1],
    }
    return special[role] + common


def change_role(rng, draft):
    """Aim at one role, all roles alike, so that no fault is rare."""
    if not draft:
        return draft
    role = rng.choice(sorted({role for role, _ in draft}))
    index = rng.choice([i for i, item in enumerate(draft) if item[0] == role])
    number = rng.choice(role_edges(role, draft[0][1], draft[index][1]))
    return put(draft, index, role, number)


def change_any(rng, draft):
    """An edge number at any index."""
    if not draft:
        return draft
    index = rng.randrange(len(draft))
    return put(draft, index, draft[index][0], rng.choice(NUMBER_EDGES + [draft[0][1]]))


def put(draft, index, role, number):
    number = max(I32_MIN, min(I32_MAX, number))
    return draft[:index] + [(role, number)] + draft[index + 1:]


def repeat_place(rng, draft):
    """A place used earlier in the same permutation."""
    places = [i for i, item in enumerate(draft) if item[0] == "place"]
    if len(places) < 2:
        return change_role(rng, draft)
    at = rng.randrange(1, len(places))
    return put(draft, places[at], "place", draft[places[at - 1]][1])


def cut_tail(rng, draft):
    if not draft:
        return draft
    return draft[:rng.choice([len(draft) - 1, rng.randrange(len(draft))])]


def append_numbers(rng, draft):
    count = rng.choice([1, 1, 2, rng.randint(1, 9)])
    return draft + [("extra", rng.choice([0, 1, any_i32(rng)])) for _ in range(count)]


def empty(rng, draft):
    return []


def overlong(rng, draft):
    """Past the length of the longest sheet; rare, since it is long."""
    if not chance(rng, 0.05):
        return append_numbers(rng, draft)
    wanted = 4386 + rng.randint(1, 40)
    return draft + [("extra", 0)] * max(1, wanted - len(draft))


DAMAGES = (
    [change_role] * 10 + [change_any] * 4 + [repeat_place] * 3 + [cut_tail] * 3
    + [append_numbers] * 2 + [empty, overlong]
)


def damage(rng, draft):
    """One damage or several, so that the order of faults is tested too."""
    for _ in range(rng.choice([1, 1, 1, 2, 3])):
        draft = rng.choice(DAMAGES)(rng, draft)
    return draft


def maybe_damage(rng, draft, share):
    return damage(rng, draft) if chance(rng, share) else draft


# ---------------------------------------------------------------------------
# Pairs of sheets


def joint_shape(rng):
    """Orders and count of a pair; above 8 by 8 rare, since a stage is long."""
    u = rng.random()
    if u < 0.80:
        return rng.randint(1, 4), rng.randint(1, 4), rng.randint(1, 3)
    if u < 0.985:
        return rng.randint(1, 8), rng.randint(1, 6), rng.randint(1, 5)
    if u < 0.997:
        return rng.randint(8, 16), rng.randint(8, 16), rng.randint(1, 8)
    return 16, 16, rng.randint(1, 32)


def matching_pair(rng):
    """Equal kinds; orders and single rows as they come."""
    n1, n2, count = joint_shape(rng)
    kinds = some_kinds(rng, count)
    return sheet_draft(rng, n1, kinds), sheet_draft(rng, n2, kinds)


def longest_pair(rng, entry=None):
    """Two sheets of 4386 numbers."""
    column = longest_draft(rng, entry)
    kinds = [number for role, number in column if role == "kind"]
    return column, sheet_draft(rng, 16, kinds, entry)


def steep_pair(rng):
    """A pair whose allowances or blocks may pass their limit at a late stage."""
    kinds = [rng.choice([1, 2, 3, 4, 4]) for _ in range(rng.randint(3, 8))]
    first = sheet_draft(rng, rng.randint(1, 3), kinds, rng.choice([steep_entry, uniform_entry]))
    return first, sheet_draft(rng, rng.randint(1, 3), kinds, rng.choice([steep_entry, half_entry]))


def half_pair(rng):
    """A pair under which the rules part. Halves in both sheets give quarters,
    so mostly one of them has whole entries."""
    kinds = half_kinds(rng)
    entries = rng.choice([(odd_half_entry, small_whole_entry), (small_whole_entry, odd_half_entry),
                          (odd_half_entry, odd_half_entry)])
    first, second = [sheet_draft(rng, rng.randint(1, 4), kinds, entry) for entry in entries]
    return first, second


def ruled_pair(rng):
    """Any pair, or one under which the rules part."""
    return half_pair(rng) if chance(rng, HALF) else matching_pair(rng)


def heavy_pair(rng):
    """Orders 16 with entries at their limit and of one sign: the largest sums."""
    kinds = [rng.choice([2, 3, 4]) for _ in range(rng.randint(1, 3))]
    entry = rng.choice([lambda rng: 16384, lambda rng: 16383, lambda rng: -16384])
    sign = rng.choice([plain_sign, minus_sign])
    return sheet_draft(rng, 16, kinds, entry, sign), sheet_draft(rng, 16, kinds, entry, sign)


def mismatching_pair(rng):
    """Kinds that differ at some positions, unequal counts, or both."""
    n1, n2, count = joint_shape(rng)
    kinds = some_kinds(rng, count)
    other = list(kinds)
    way = rng.randrange(3)
    if way != 0:
        for _ in range(rng.choice([1, 1, 2])):
            position = rng.randrange(count)
            other[position] = rng.choice([k for k in (1, 2, 3, 4) if k != kinds[position]])
    if way != 1:
        more = some_kinds(rng, rng.randint(1, 3))
        longer = rng.choice([kinds, other])
        longer += more[:model.COUNT_LIMIT - count]
    return sheet_draft(rng, n1, kinds), sheet_draft(rng, n2, other)


def damage_pair(rng, column, row):
    """A fault in the column sheet, in the row sheet, or in both."""
    side = rng.randrange(4)
    if side in (0, 2):
        column = damage(rng, column)
    if side in (1, 2, 3):
        row = damage(rng, row)
    return column, row


# ---------------------------------------------------------------------------
# Request R-4: unlike pairs, and the other order of a pass alone

# Numbers of 32 bits that are no order, some of them one if only some of their
# bits are looked at.
WRONG_ORDERS = [0, 0, 17, 17, 18, 32, 256, 259, 65538, I32_MAX, I32_MAX + 1, 2 ** 32 - 1, 2 ** 32 - 1]
WRONG_ORDER = 0.1


def unlike_pair(rng):
    """Kinds and counts as they come, each sheet's by itself; the rules part at times."""
    n1, n2, most = joint_shape(rng)
    column, row = [
        sheet_draft(rng, n, half_kinds(rng), odd_half_entry) if chance(rng, HALF)
        else sheet_draft(rng, n, some_kinds(rng, rng.randint(1, most + 1)))
        for n in (n1, n2)
    ]
    return column, row


def steep_unlike_pair(rng):
    """An unlike pair whose allowances or blocks may pass their limit in either pass."""
    column, row = [
        sheet_draft(rng, rng.randint(1, 3), [rng.choice([1, 2, 3, 4, 4]) for _ in range(rng.randint(1, 7))],
                    rng.choice([steep_entry, uniform_entry, half_entry]))
        for _ in range(2)
    ]
    return column, row


def heavy_unlike_pair(rng):
    """Orders 16 with entries at their limit and of one sign: the largest sums."""
    entry = rng.choice([lambda rng: 16384, lambda rng: 16383, lambda rng: -16384])
    column, row = [
        sheet_draft(rng, 16, [rng.choice([2, 3, 4]) for _ in range(rng.randint(1, 3))], entry, sign)
        for sign in (plain_sign, minus_sign)
    ]
    return column, row


def true_order(rng):
    """How many columns or rows a pass alone has: mostly few, the largest too."""
    u = rng.random()
    return rng.randint(1, 4) if u < 0.85 else rng.randint(1, 9) if u < 0.96 else rng.choice([15, 16])


def some_order(rng):
    """An order, or at times a number that is none."""
    return rng.choice(WRONG_ORDERS) if chance(rng, WRONG_ORDER) else true_order(rng)


def order_if_wrong(other):
    """An order by which a block for the call is made: short where the number is large."""
    return min(other, 18)


# ---------------------------------------------------------------------------
# Blocks


def tiny(rng):
    return rng.randint(-3, 3)


def small(rng):
    return rng.randint(-300, 300)


def small_odd(rng):
    """Next to a half entry this is a sum at a half."""
    return 2 * rng.randint(-40, 40) + 1


def near_bound(rng):
    return rng.choice([-1, 1]) * (16777215 - rng.choice([0, 0, 1, 2, rng.randint(0, 5000)]))


def scaled_by(bits):
    """Numbers up to a power of two, so that a chain may fail at any stage."""
    return lambda rng: rng.randint(-(2 ** bits), 2 ** bits)


def some_block(rng, length):
    """A block whose numbers are of one size, at times with one edge among them."""
    maker = rng.choice([tiny, tiny, small, small_odd, scaled_by(rng.randint(4, 24)), near_bound])
    block = [maker(rng) for _ in range(length)]
    if length and chance(rng, 0.12):
        block[rng.randrange(length)] = rng.choice(BOUND_EDGES)
    if chance(rng, 0.02):
        block = [rng.choice(BOUND_EDGES) for _ in range(length)]
    return block


def edge_block(rng, length):
    """A stage with one number at the bound or one past it."""
    maker = rng.choice([tiny, small, scaled_by(rng.randint(4, 22))])
    block = [maker(rng) for _ in range(length)]
    block[rng.randrange(length)] = rng.choice([1, -1]) * rng.choice([16777215, 16777216])
    return block


def within(block, limit):
    return all(-limit <= number <= limit for number in block)


def edge_stage(rng, count):
    """A stage of a run, the input only at times: blocks do that well enough."""
    return rng.randint(0 if chance(rng, 0.15) else 1, count)


def block_to_edge(rng, length, back):
    """A block whose run reaches the very bound at a chosen stage: start there
    and go back to the input, without any bound. A few tries for an input that
    isn't itself beyond the bound."""
    for _ in range(4):
        block = back(edge_block(rng, length))
        if within(block, model.SAMPLE_LIMIT):
            return block
    return block if within(block, I32_MAX) else some_block(rng, length)


def line_block_to_edge(rng, rule, sheet, inverse):
    """A block for a line run that meets the bound at some stage."""
    recipe = model.recipe_of(sheet)
    stage = edge_stage(rng, len(recipe.factors))

    def back(block):
        if inverse:
            for factor in recipe.factors[len(recipe.factors) - stage:]:
                block = model.apply_line(rule, factor, block)
        else:
            for factor in reversed(recipe.factors[:stage]):
                block = model.undo_line(rule, factor, block)
        return block

    return block_to_edge(rng, recipe.order, back)


def joint_block_to_edge(rng, rule, col, row, inverse):
    """The same in two dimensions."""
    a, b = model.pair_of(col, row)
    pairs = list(zip(a.factors, b.factors))
    stage = edge_stage(rng, len(pairs))

    def back(block):
        block = model.rows_of(block, a.order, b.order)
        if inverse:
            for fa, fb in pairs[len(pairs) - stage:]:
                block = model.apply_joint(rule, fa, fb, block)
        else:
            for fa, fb in reversed(pairs[:stage]):
                block = model.undo_joint(rule, fa, fb, block)
        return model.flat(block)

    return block_to_edge(rng, a.order * b.order, back)


def pass_block_to_edge(rng, rule, stages, n1, n2, inverse):
    """The same for one pass or two."""
    stage = edge_stage(rng, len(stages))

    def back(block):
        block = model.rows_of(block, n1, n2)
        steps, step = (stages[len(stages) - stage:], model.apply_line) if inverse else (
            stages[:stage][::-1], model.undo_line)
        for way, factor in steps:
            block = model.on_lines(way, lambda line: step(rule, factor, line), block)
        return model.flat(block)

    return block_to_edge(rng, n1 * n2, back)


# ---------------------------------------------------------------------------
# Crowds: runs with several numbers beyond the bound at one stage, so that it
# matters in which order they are looked at. Numbers at the bound pass quiet
# factors and meet a pushing one.

# How many of a block's numbers are tiny: these push the others by very little.
TINY_SHARES = [0.15, 0.3, 0.6]
BEYOND = [16777216, -16777216, 16777217, -16777217, I32_MAX, -I32_MAX, I32_MIN]

# Of a line only kinds 2 and 3 can push more than one number.
LINE_PUSHERS = [2, 2, 3, 3, 3, 4]
JOINT_PUSHERS = [2, 2, 3, 3, 4, 4, 4]

# Small, so that a row often is at the front, in the middle or at the end.
LINE_ORDERS = [3, 3, 4, 4, 5, 6, 7, 8]
JOINT_ORDERS = [1, 2, 2, 3, 3, 3, 4, 5]


def quiet_entry(rng):
    """0, or at times so little that it moves only what stands next to the bound."""
    return rng.choice([-1, 1]) if chance(rng, 0.02) else 0


def push_by_ones(rng):
    return rng.choice([-4096, 0, 4096, 4096])


PUSHING_ENTRIES = [push_by_ones, push_by_ones, odd_half_entry, sparse_entry, uniform_entry]


def crowd_plan(rng, back, pushers):
    """Quiet factors, the pushing one, any factors: in the order of the run."""
    quiet, more = rng.choice([0, 0, 1, 2, rng.randint(0, 5)]), rng.choice([0, 0, 1, 2])
    plan = [(kind, quiet_entry) for kind in some_kinds(rng, quiet)]
    plan.append((rng.choice(pushers), rng.choice(PUSHING_ENTRIES)))
    plan += [(kind, mixed_entry) for kind in some_kinds(rng, more)]
    return plan[::-1] if back else plan


def crowd_draft(rng, orders, plan):
    """A sheet of a crowded run, rarely of the largest order."""
    order = 16 if chance(rng, 0.03) else rng.choice(orders)
    return planned_draft(rng, order, plan, rng.choice(SIGN_MAKERS))


def crowd_line(rng, back):
    return crowd_draft(rng, LINE_ORDERS, crowd_plan(rng, back, LINE_PUSHERS))


def crowd_pair(rng, back):
    plan = crowd_plan(rng, back, JOINT_PUSHERS)
    column, row = [crowd_draft(rng, JOINT_ORDERS, plan) for _ in range(2)]
    return column, row


# A pass pushes along a line only, so kind 4 pushes one number of each line.
PASS_PUSHERS = [2, 2, 2, 3, 3, 3, 3, 4]
PASS_ORDERS = [2, 3, 3, 3, 4, 4, 5]


def quiet_plan(rng):
    return [(kind, quiet_entry) for kind in some_kinds(rng, rng.choice([1, 1, 2, 3]))]


def crowd_passes(rng, back):
    """Two passes, the first to run all quiet at times, and the pushing factor in the other then."""
    pushing = crowd_plan(rng, back, PASS_PUSHERS)
    in_first = chance(rng, 0.5)
    first, second = (pushing, [(kind, mixed_entry) for kind in some_kinds(rng, 1)]) if in_first else (
        quiet_plan(rng), pushing)
    column, row = [crowd_draft(rng, PASS_ORDERS, plan) for plan in ((second, first) if back else (first, second))]
    return column, row


def crowd_pass(rng, back):
    """A sheet for one pass, and how many lines it has."""
    return crowd_draft(rng, PASS_ORDERS, crowd_plan(rng, back, PASS_PUSHERS)), rng.choice([2, 2, 3, 3, 4, 5])


def at_bound(rng, sign):
    return sign(rng) * (16777215 - rng.choice([0, 0, 0, 0, 1, 2]))


def crowd_block(rng, length):
    """Numbers at the bound and tiny ones; at times several are beyond already."""
    share, sign = rng.choice(TINY_SHARES), rng.choice(SIGN_MAKERS)
    block = [tiny(rng) if chance(rng, share) else at_bound(rng, sign) for _ in range(length)]
    if chance(rng, 0.1):
        for element in rng.sample(range(length), min(length, rng.randint(2, 4))):
            block[element] = rng.choice(BEYOND)
    return block


# ---------------------------------------------------------------------------
# Allowances at their limit


def single_row(row, n, entries):
    """A single-row factor with signs 1; entries is one number for each column."""
    numbers = [model.SINGLE_ROW, row] + [1] * n
    return numbers + [entries[k] for k in range(n) if k != row]


def sheet_of(n, factors):
    return [n, len(factors)] + [number for factor in factors for number in factor]


def limit_sheet(rng, rule):
    """A sheet whose last factor brings an allowance to the limit or one past
    it. Rows 1 and 2 grow by turns; row 0 stays at one rounding's share for the
    last few units."""
    n = 4
    target = model.ALLOWANCE_LIMIT + rng.choice([0, 1])
    factors = [single_row(0, n, [0, 1, 1, 1])]
    while True:
        b = model.line_stages_allowance(rule, model.recipe_of(sheet_of(n, factors)))
        for row, other in ((1, 2), (2, 1)):
            # An entry is at most 4, so this is when one factor can fill the gap.
            if b[row] + 4 * b[other] > target:
                return sheet_of(n, factors + [last_factor(target, row, b, model.SHARES[rule])])
        factors.append(growing_factor(rng, n))


def growing_factor(rng, n):
    """Row 1 or 2 takes in the other; an entry below 15974 (3.9) can't overshoot."""
    row = rng.choice([1, 2])
    entries = [rng.randint(-16384, 16384), 0, 0, 0]
    entries[3 - row] = rng.choice([-1, 1]) * rng.randint(4000, 15900)
    return single_row(row, n, entries)


def last_factor(target, row, b, share):
    """Entries of a row whose sum fills the gap: the largest allowance first,
    what is left of the gap with the next. The rounding share counts as well."""
    n = len(b)
    gap = (target - b[row] - share) * model.SCALE
    entries = [0] * n
    for k in sorted(range(n), key=lambda k: -b[k]):
        if k != row and b[k] > 0:
            entries[k] = max(0, min(model.ENTRY_LIMIT, gap // b[k]))
            gap -= entries[k] * b[k]
    return single_row(row, n, entries)


# ---------------------------------------------------------------------------
# Bytes


def longer_form(rng, v):
    """A number in more groups than it needs: not shortest, or a fourth group."""
    groups = model.encode_number(v)
    padding = rng.choice([1, 1, 2, 3])
    return groups[:-1] + [groups[-1] + 128] + [128] * (padding - 1) + [0]


FOUR_GROUPS = [[128, 128, 128, 0], [128, 128, 128, 1], [255, 255, 255, 127], [255, 255, 255, 255]]


def damage_bytes(rng, numbers):
    """The bytes of some numbers with a fault of 14 at one of them, mostly."""
    way = rng.randrange(5)
    if not numbers or way == 0:
        return [rng.randrange(256) for _ in range(rng.randint(0, 40))]
    at = rng.randrange(len(numbers))
    before, after = model.encode(numbers[:at]), model.encode(numbers[at + 1:])
    if way == 1:
        return before + longer_form(rng, numbers[at]) + after
    if way == 2:
        return before + rng.choice(FOUR_GROUPS) + after
    if way == 3:
        return before + rng.choice([[128], [255, 128], [128, 128, 128]])
    data = model.encode(numbers)
    data[rng.randrange(len(data))] = rng.choice([0, 127, 128, 255, rng.randrange(256)])
    return data


def in_three_groups(numbers):
    """Mostly what the encoding can hold, so that a faulty sheet isn't just 14."""
    return [max(-1048576, min(1048575, number)) for number in numbers]
