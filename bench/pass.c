// Two passes over a rectangle, and a pass alone, in the best plain C for the same answers: what the library's times are held to.
// A sheet is checked and decoded in one go; stages work in place; each rule has code of its own, and in it 4 by 4, 8 by 8, 16 by
// 16 and 16 by 4. What it makes of a stage:
// - a row of sums for all lines at once, n products for an element at most; for the row pass the block is turned, so that its
//   lines lie side by side as well. Forward, 8 by 8 is faster if it stays: number m of every row, then the next;
// - triangles have half of these products, a single row has sums for itself alone, else only signs change.
// A pass alone is the same run with no steps in the other pass: its time is held to nothing.
#include "twin.h"
#include <string.h>

// ---- lines side by side: a stage answers whether a number is beyond the bound

// A row by its sums, which have its own terms in them.
INLINE uint32_t put_row(uint32_t rule, const int64_t *v, size_t n, int32_t *x)
{
	uint32_t bad = 0;
	for (size_t k = 0; k < n; k++)
		bad |= put(&x[k], R_with(rule, v[k], x[k]));
	return bad;
}

// A row back, by its sums over recovered rows.
INLINE uint32_t recover_row(uint32_t rule, int32_t sign, const int64_t *v, size_t n, int32_t *x)
{
	uint32_t bad = 0;
	for (size_t k = 0; k < n; k++)
		bad |= put(&x[k], flip(sign, x[k] - R(rule, v[k])));
	return bad;
}

// Row i over `many` rows from row `from` on.
INLINE uint32_t weigh_row(uint32_t rule, const struct step *t, const int32_t *a, size_t from, size_t many, size_t i, size_t n2,
			  bool back, int32_t *x)
{
	int64_t v[ORDER] = {0};
	if (!back)
		start_row(v, t->signs[i], x + i * n2, n2);
	add_rows(v, a, many, x + from * n2, n2);
	return back ? recover_row(rule, t->signs[i], v, n2, x + i * n2) : put_row(rule, v, n2, x + i * n2);
}

// Row i looks at the rows above it: forward from the bottom, while they are old; back from the top, once they are recovered.
INLINE uint32_t lower_down(uint32_t rule, const struct step *t, size_t n1, size_t n2, bool back, int32_t *x)
{
	uint32_t bad = 0;
	UNROLL for (size_t k = 0; k < n1; k++) {
		size_t i = back ? k : n1 - 1 - k;
		bad |= weigh_row(rule, t, t->entries + i * (i - 1) / 2, 0, i, i, n2, back, x);
	}
	return bad;
}

INLINE uint32_t upper_down(uint32_t rule, const struct step *t, size_t n1, size_t n2, bool back, int32_t *x)
{
	uint32_t bad = 0;
	UNROLL for (size_t k = 0; k < n1; k++) {
		size_t i = back ? n1 - 1 - k : k;
		bad |= weigh_row(rule, t, t->entries + i * (2 * n1 - 1 - i) / 2, i + 1, n1 - 1 - i, i, n2, back, x);
	}
	return bad;
}

// All rows but r change signs: forward after the sums of row r, back before them.
INLINE void sign_others(const struct step *t, size_t n1, size_t n2, int32_t *x)
{
	for (size_t i = 0; i < n1; i++) {
		if (i == t->row || t->signs[i] > 0)
			continue;
		for (size_t k = 0; k < n2; k++)
			x[i * n2 + k] = -x[i * n2 + k];
	}
}

INLINE uint32_t single_down(uint32_t rule, const struct step *t, size_t n1, size_t n2, bool back, int32_t *x)
{
	size_t r = t->row;
	int32_t *own = x + r * n2;
	int64_t v[ORDER] = {0};
	if (back)
		sign_others(t, n1, n2, x);
	else
		start_row(v, t->signs[r], own, n2);
	add_rows(v, t->entries, r, x, n2);
	add_rows(v, t->entries + r, n1 - 1 - r, own + n2, n2);
	if (back)
		return recover_row(rule, t->signs[r], v, n2, own);
	sign_others(t, n1, n2, x);
	return put_row(rule, v, n2, own);
}

INLINE uint32_t move_down(const int32_t *p, size_t n1, size_t n2, bool back, int32_t *x)
{
	int32_t aside[ORDER * ORDER];
	for (size_t i = 0; i < n1; i++)
		memcpy(aside + (back ? (size_t)p[i] : i) * n2, x + (back ? i : (size_t)p[i]) * n2, n2 * sizeof *x);
	memcpy(x, aside, n1 * n2 * sizeof *x);
	return 0;
}

INLINE uint32_t down(uint32_t rule, const struct step *t, size_t n1, size_t n2, bool back, int32_t *x)
{
	switch (t->kind) {
	case 1: return move_down(t->signs, n1, n2, back, x);
	case 2: return lower_down(rule, t, n1, n2, back, x);
	case 3: return upper_down(rule, t, n1, n2, back, x);
	default: return single_down(rule, t, n1, n2, back, x);
	}
}

// ---- forward along the rows

// Number m of every row over `many` numbers from `from` on. The rows do not wait for each other.
INLINE uint32_t weigh_at(uint32_t rule, int32_t sign, const int32_t *a, size_t from, size_t many, size_t m, size_t n1, size_t n2,
			 int32_t *x)
{
	uint32_t bad = 0;
	for (size_t i = 0; i < n1; i++, x += n2)
		bad |= put(&x[m], R_with(rule, (int64_t)(4096 * sign) * x[m] + sum_of(a, x + from, many), x[m]));
	return bad;
}

INLINE uint32_t lower_along(uint32_t rule, const struct step *t, size_t n1, size_t n2, int32_t *x)
{
	uint32_t bad = 0;
	UNROLL for (size_t m = n2; m-- > 0;)
		bad |= weigh_at(rule, t->signs[m], t->entries + m * (m - 1) / 2, 0, m, m, n1, n2, x);
	return bad;
}

INLINE uint32_t upper_along(uint32_t rule, const struct step *t, size_t n1, size_t n2, int32_t *x)
{
	uint32_t bad = 0;
	UNROLL for (size_t m = 0; m < n2; m++)
		bad |= weigh_at(rule, t->signs[m], t->entries + m * (2 * n2 - 1 - m) / 2, m + 1, n2 - 1 - m, m, n1, n2, x);
	return bad;
}

INLINE uint32_t single_along(uint32_t rule, const struct step *t, size_t n1, size_t n2, int32_t *x)
{
	size_t r = t->row;
	uint32_t bad = 0;
	int32_t w[ORDER], m[ORDER];
	fill_row(w, t->entries, r, 0, n2);
	read_signs(m, t->signs, n2);
	for (size_t i = 0; i < n1; i++, x += n2) {
		int64_t nudge = R(rule, sum_of(w, x, n2));
		sign_row(x, m, 1, n2);
		bad |= put(&x[r], x[r] + nudge);
	}
	return bad;
}

INLINE uint32_t move_along(const int32_t *p, size_t n1, size_t n2, int32_t *x)
{
	for (size_t i = 0; i < n1; i++, x += n2) {
		int32_t aside[ORDER];
		for (size_t m = 0; m < n2; m++)
			aside[m] = x[p[m]];
		memcpy(x, aside, n2 * sizeof *x);
	}
	return 0;
}

INLINE uint32_t along(uint32_t rule, const struct step *t, size_t n1, size_t n2, int32_t *x)
{
	switch (t->kind) {
	case 1: return move_along(t->signs, n1, n2, x);
	case 2: return lower_along(rule, t, n1, n2, x);
	case 3: return upper_along(rule, t, n1, n2, x);
	default: return single_along(rule, t, n1, n2, x);
	}
}

// ---- a run

// The steps of a sheet; none: no such pass.
struct pass {
	struct step t[COUNT];
	size_t many;
};

// What a call is given. A pass alone has one sheet, and the other order.
struct call {
	const int32_t *col;
	size_t cn;
	const int32_t *row;
	size_t rn;
	uint32_t other;
	const int32_t *x;
	size_t xn;
	int32_t *y;
	size_t yn;
};

// Rows and columns change places.
INLINE void turn(size_t n1, size_t n2, const int32_t *restrict x, int32_t *restrict y)
{
	for (size_t j = 0; j < n2; j++)
		for (size_t i = 0; i < n1; i++)
			y[j * n1 + i] = x[i * n2 + j];
}

// How many stages of a pass there were when one had a number beyond the bound; 0 if none had. The lines lie side by side.
INLINE size_t run_pass(uint32_t rule, const struct pass *p, size_t n, size_t lines, bool back, int32_t *v)
{
	for (size_t f = 0; f < p->many; f++)
		if (down(rule, &p->t[back ? p->many - 1 - f : f], n, lines, back, v))
			return f + 1;
	return 0;
}

INLINE size_t run_along(uint32_t rule, const struct pass *p, size_t n1, size_t n2, int32_t *v)
{
	for (size_t f = 0; f < p->many; f++)
		if (along(rule, &p->t[f], n1, n2, v))
			return f + 1;
	return 0;
}

// The answer of a block after so many stages before a pass, and where in the pass a number was beyond the bound.
INLINE struct answer stopped(size_t before, size_t at) { return at ? refused(11, 0, before + at) : refused(0, 0, 0); }

INLINE struct answer apply(const struct call *c, uint32_t rule, const struct pass p[2], size_t n1, size_t n2, bool stays)
{
	int32_t v[ORDER * ORDER], w[ORDER * ORDER];
	memcpy(v, c->x, n1 * n2 * sizeof *v);
	struct answer a = stopped(0, run_pass(rule, &p[0], n1, n2, false, v));
	if (a.number)
		return a;
	if (!stays)
		turn(n1, n2, v, w);
	a = stopped(p[0].many, stays ? run_along(rule, &p[1], n1, n2, v) : run_pass(rule, &p[1], n2, n1, false, w));
	if (a.number)
		return a;
	if (stays)
		memcpy(c->y, v, n1 * n2 * sizeof *v);
	else
		turn(n2, n1, w, c->y);
	return a;
}

INLINE struct answer undo(const struct call *c, uint32_t rule, const struct pass p[2], size_t n1, size_t n2)
{
	int32_t v[ORDER * ORDER], w[ORDER * ORDER];
	turn(n1, n2, c->x, w);
	struct answer a = stopped(0, run_pass(rule, &p[1], n2, n1, true, w));
	if (a.number)
		return a;
	turn(n2, n1, w, v);
	a = stopped(p[1].many, run_pass(rule, &p[0], n1, n2, true, v));
	if (!a.number)
		memcpy(c->y, v, n1 * n2 * sizeof *v);
	return a;
}

INLINE struct answer run_block(const struct call *c, uint32_t rule, const struct pass p[2], size_t n1, size_t n2, bool back,
			       bool stays)
{
	if (!are_within(c->x, n1 * n2, SAMPLE))
		return refused(11, 0, 0);
	return back ? undo(c, rule, p, n1, n2) : apply(c, rule, p, n1, n2, stays);
}

// 1 to 9 of a sheet; its steps.
static struct answer decode_pass(const int32_t *s, size_t sn, uint32_t side, struct pass *p)
{
	if (!decode_by_order(s, sn, p->t))
		return twin_check(s, sn, side);
	p->many = (size_t)s[1];
	return refused(0, 0, 0);
}

// 1 to 9 of the sheets that there are; of a pass alone, 2 for the other order. The two orders.
INLINE struct answer decode_call(const struct call *c, struct pass p[2], size_t n[2])
{
	const int32_t *s[2] = {c->col, c->row};
	size_t len[2] = {c->cn, c->rn};
	for (uint32_t k = 0; k < 2; k++) {
		p[k].many = 0;
		n[k] = c->other;
		if (!s[k])
			continue;
		struct answer a = decode_pass(s[k], len[k], c->col ? k : 0, &p[k]);
		if (a.number)
			return a;
		n[k] = (size_t)s[k][0];
	}
	return n[0] - 1 < ORDER && n[1] - 1 < ORDER ? refused(0, 0, 0) : refused(2, 0, 0);
}

INLINE struct answer run_by_order(const struct call *c, uint32_t rule, bool back, size_t n[2])
{
	struct pass p[2];
	struct answer a = decode_call(c, p, n);
	if (a.number)
		return a;
	a = lengths(n[0] * n[1], false, c->xn, c->yn, 0);
	if (a.number)
		return a;
	switch (n[0] * 100 + n[1]) {
	case 404: return run_block(c, rule, p, 4, 4, back, false);
	case 808: return run_block(c, rule, p, 8, 8, back, true);
	case 1616: return run_block(c, rule, p, 16, 16, back, false);
	case 1604: return run_block(c, rule, p, 16, 4, back, false);
	default: return run_block(c, rule, p, n[0], n[1], back, false);
	}
}

INLINE struct answer run_by_rule(uint32_t rule, const struct call *c, bool back, size_t n[2])
{
	switch (rule) {
	case 0: return run_by_order(c, 0, back, n);
	case 1: return run_by_order(c, 1, back, n);
	case 2: return run_by_order(c, 2, back, n);
	default: return refused(16, 0, 0);
	}
}

// If it is refused for range, which number was beyond the bound is looked for apart.
INLINE struct answer run(uint32_t rule, struct call c, bool back)
{
	size_t n[2];
	struct answer a = run_by_rule(rule, &c, back, n);
	if (a.number == 11)
		a.element = twin_pass_element(rule, c.col, c.cn, c.row, c.rn, n[0], n[1], c.x, back);
	return a;
}

static struct answer run_forward(uint32_t rule, struct call c) { return run(rule, c, false); }
static struct answer run_inverse(uint32_t rule, struct call c) { return run(rule, c, true); }

struct answer twin_two_pass_forward(uint32_t rule, const int32_t *col, size_t cn, const int32_t *row, size_t rn, const int32_t *x,
				    size_t xn, int32_t *y, size_t yn)
{
	return run_forward(rule, (struct call){col, cn, row, rn, 0, x, xn, y, yn});
}

struct answer twin_two_pass_inverse(uint32_t rule, const int32_t *col, size_t cn, const int32_t *row, size_t rn, const int32_t *x,
				    size_t xn, int32_t *y, size_t yn)
{
	return run_inverse(rule, (struct call){col, cn, row, rn, 0, x, xn, y, yn});
}

struct answer twin_column_forward(uint32_t rule, const int32_t *s, size_t sn, uint32_t other, const int32_t *x, size_t xn,
				  int32_t *y, size_t yn)
{
	return run_forward(rule, (struct call){s, sn, NULL, 0, other, x, xn, y, yn});
}

struct answer twin_column_inverse(uint32_t rule, const int32_t *s, size_t sn, uint32_t other, const int32_t *x, size_t xn,
				  int32_t *y, size_t yn)
{
	return run_inverse(rule, (struct call){s, sn, NULL, 0, other, x, xn, y, yn});
}

struct answer twin_row_forward(uint32_t rule, const int32_t *s, size_t sn, uint32_t other, const int32_t *x, size_t xn,
			       int32_t *y, size_t yn)
{
	return run_forward(rule, (struct call){NULL, 0, s, sn, other, x, xn, y, yn});
}

struct answer twin_row_inverse(uint32_t rule, const int32_t *s, size_t sn, uint32_t other, const int32_t *x, size_t xn,
			       int32_t *y, size_t yn)
{
	return run_inverse(rule, (struct call){NULL, 0, s, sn, other, x, xn, y, yn});
}
