// Which number a run that answers 11 names, in plain C: the run once more, number by number, as the rules are written. Only a
// refusal comes here, so its time does not count. A stage of a column pass is a joint stage with a row factor of 1, and one of a
// row pass the same with a column factor of 1, except for the order in which it is undone.
#include "twin.h"
#include <string.h>

enum { CELLS = ORDER * ORDER };

enum lines { JOINT, COLUMNS, ROWS };

// The column factor and the row factor of a stage.
struct pair {
	size_t n1, n2;
	struct step a, b;
	enum lines lines; // a pass goes line after line
};

// The number in row m and column k of a factor's matrix, 4096 for 1.
static int64_t weight(const struct step *t, size_t n, size_t m, size_t k)
{
	if (k == m)
		return 4096 * t->signs[m];
	switch (t->kind) {
	case 2: return k < m ? t->entries[m * (m - 1) / 2 + k] : 0;
	case 3: return k > m ? t->entries[m * (2 * n - 1 - m) / 2 + k - m - 1] : 0;
	default: return m == t->row ? t->entries[k - (k > m)] : 0;
	}
}

// The rounded sum of element e over all others. Those that are not yet recovered have weight 0.
static int64_t nudge(uint32_t rule, const struct pair *p, size_t e, const int32_t *x)
{
	int64_t sum = 0;
	for (size_t k = 0; k < p->n1 * p->n2; k++)
		if (k != e)
			sum += weight(&p->a, p->n1, e / p->n2, k / p->n2) * weight(&p->b, p->n2, e % p->n2, k % p->n2) * x[k];
	return R2(rule, sum);
}

// The order in which a factor is undone. Kind 4 goes by turns: what is in neither row r nor column q, row r, column q, both.
static void joint_recovery(const struct pair *p, uint8_t *order)
{
	size_t size = p->n1 * p->n2, k = 0;
	for (size_t e = 0; e < size; e++)
		order[e] = (uint8_t)(p->a.kind == 3 ? size - 1 - e : e);
	for (size_t turn = 0; turn < 4 && p->a.kind == 4; turn++)
		for (size_t e = 0; e < size; e++)
			if ((e / p->n2 == p->a.row) + 2u * (e % p->n2 == p->b.row) == turn)
				order[k++] = (uint8_t)e;
}

// Line after line by number. Kind 4: all others upward, then r.
static void pass_recovery(const struct pair *p, uint8_t *order)
{
	bool columns = p->lines == COLUMNS;
	const struct step *t = columns ? &p->a : &p->b;
	size_t n = columns ? p->n1 : p->n2, many = columns ? p->n2 : p->n1, e = 0;
	for (size_t l = 0; l < many; l++)
		for (size_t turn = 0; turn < 2; turn++)
			for (size_t k = 0; k < n; k++) {
				size_t m = t->kind == 3 ? n - 1 - k : k;
				if ((t->kind == 4 && m == t->row) == turn)
					order[e++] = (uint8_t)(columns ? m * p->n2 + l : l * p->n2 + m);
			}
}

// A stage from the numbers old: the first number beyond the bound, the size if there is none. Forward in reading order, every
// sum over old numbers.
static size_t apply(uint32_t rule, const struct pair *p, const int32_t *old, int32_t *x)
{
	size_t size = p->n1 * p->n2;
	for (size_t e = 0; e < size; e++)
		if (put(&x[e], (int64_t)p->a.signs[e / p->n2] * p->b.signs[e % p->n2] * old[e] + nudge(rule, p, e, old)))
			return e;
	return size;
}

// Back in recovery order, every sum over recovered numbers. It must end at the first that is beyond: sums over that one need not
// fit in 64 bits.
static size_t undo(uint32_t rule, const struct pair *p, int32_t *x)
{
	size_t size = p->n1 * p->n2;
	uint8_t order[CELLS];
	if (p->lines == JOINT)
		joint_recovery(p, order);
	else
		pass_recovery(p, order);
	for (size_t k = 0; k < size; k++) {
		size_t e = order[k];
		if (put(&x[e], p->a.signs[e / p->n2] * p->b.signs[e % p->n2] * (x[e] - nudge(rule, p, e, x))))
			return e;
	}
	return size;
}

// A permutation puts none beyond the bound.
static size_t move(const struct pair *p, bool back, const int32_t *old, int32_t *x)
{
	size_t size = p->n1 * p->n2;
	for (size_t e = 0; e < size; e++) {
		size_t from = (size_t)p->a.signs[e / p->n2] * p->n2 + (size_t)p->b.signs[e % p->n2];
		x[back ? from : e] = old[back ? e : from];
	}
	return size;
}

static size_t stage(uint32_t rule, const struct pair *p, bool back, int32_t *x)
{
	int32_t old[CELLS];
	memcpy(old, x, p->n1 * p->n2 * sizeof *x);
	if (p->a.kind == 1)
		return move(p, back, old, x);
	return back ? undo(rule, p, x) : apply(rule, p, old, x);
}

static size_t first_beyond(const int32_t *x, size_t size)
{
	size_t e = 0;
	while (e < size && !is_beyond(x[e]))
		e++;
	return e;
}

// The stages of a run so far.
struct walk {
	uint32_t rule;
	bool back;
	int32_t x[CELLS];
	size_t size, found; // the number that the run names, the size if it names none yet
};

static struct walk walk_from(uint32_t rule, bool back, const int32_t *x, size_t size)
{
	struct walk w = {.rule = rule, .back = back, .size = size, .found = first_beyond(x, size)};
	memcpy(w.x, x, size * sizeof *x);
	return w;
}

// A stage more, if none has named a number.
static void walk_on(struct walk *w, const struct pair *p)
{
	if (w->found == w->size)
		w->found = stage(w->rule, p, w->back, w->x);
}

uint64_t twin_element(uint32_t rule, const int32_t *col, size_t cn, const int32_t *row, size_t rn, const int32_t *x, bool back)
{
	struct step a[COUNT], b[COUNT];
	struct pair p = {.n1 = (size_t)col[0], .n2 = (size_t)row[0], .lines = JOINT};
	struct walk w = walk_from(rule, back, x, p.n1 * p.n2);
	size_t many = (size_t)col[1];
	decode(col, cn, p.n1, a);
	decode(row, rn, p.n2, b);
	for (size_t f = 0; f < many; f++) {
		size_t k = back ? many - 1 - f : f;
		p.a = a[k];
		p.b = b[k];
		walk_on(&w, &p);
	}
	return w.found;
}

// The other factor of a pass: 1, and of the factor's kind.
static struct step one(uint32_t kind)
{
	static const int32_t places[ORDER] = {0, 1, 2, 3, 4, 5, 6, 7, 8, 9, 10, 11, 12, 13, 14, 15},
			     signs[ORDER] = {1, 1, 1, 1, 1, 1, 1, 1, 1, 1, 1, 1, 1, 1, 1, 1},
			     entries[ORDER * (ORDER - 1) / 2] = {0};
	return (struct step){kind, 0, kind == 1 ? places : signs, entries};
}

static void walk_pass(struct walk *w, enum lines lines, const int32_t *s, size_t sn, size_t n1, size_t n2)
{
	if (!s)
		return;
	struct step t[COUNT];
	size_t many = (size_t)s[1];
	decode(s, sn, (size_t)s[0], t);
	for (size_t f = 0; f < many; f++) {
		struct step own = t[w->back ? many - 1 - f : f], other = one(own.kind);
		walk_on(w, &(struct pair){n1, n2, lines == COLUMNS ? own : other, lines == COLUMNS ? other : own, lines});
	}
}

uint64_t twin_pass_element(uint32_t rule, const int32_t *col, size_t cn, const int32_t *row, size_t rn, size_t n1, size_t n2,
			   const int32_t *x, bool back)
{
	struct walk w = walk_from(rule, back, x, n1 * n2);
	if (back)
		walk_pass(&w, ROWS, row, rn, n1, n2);
	walk_pass(&w, COLUMNS, col, cn, n1, n2);
	if (!back)
		walk_pass(&w, ROWS, row, rn, n1, n2);
	return w.found;
}
