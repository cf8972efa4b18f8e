// The rectangle in the best plain C for the same answers: what the library's times are held to. The sheets are checked and
// decoded in one pass, once for a call or a strip; stages work in place; each rule has code of its own, and in it 4 by 4, 8 by 8,
// 16 by 16 and 16 by 4. What it makes of a stage:
// - a stage is R2 of A X B^T with the own terms in it, first A, then B: n1 + n2 products for an element at most, and not n1 n2;
// - triangles have half of these;
// - single rows r and q: only row r and column q have sums, so there are two products for an element; else only signs change;
// - a permutation moves the block elsewhere, so one that is the first or the last is the copy in or out.
#include "twin.h"
#include <string.h>

struct stage {
	uint32_t kind;
	size_t r, q; // the single rows
	const int32_t *signs, *a, *across, *b; // signs (or places) and entries of the column factor, then of the row factor
};

// ---- lines of products

INLINE int64_t wide_sum(const int32_t *b, const int64_t *v, size_t n)
{
	int64_t sum = 0;
	for (size_t k = 0; k < n; k++)
		sum += b[k] * v[k];
	return sum;
}

// From the right, since the leftmost was recovered just before: it enters last.
INLINE int64_t wide_sum_down(const int32_t *b, const int64_t *v, size_t n)
{
	int64_t sum = 0;
	for (size_t k = n; k-- > 0;)
		sum += b[k] * v[k];
	return sum;
}

// ---- triangles, in place: a stage answers whether a number is beyond the bound

// Row i looks at the rows above it: forward from the bottom, while they are still old. The row itself is in its sums before it is
// written.
INLINE uint32_t lower(uint32_t rule, const struct stage *t, size_t n1, size_t n2, int32_t *x)
{
	const int32_t *a = t->a + n1 * (n1 - 1) / 2;
	uint32_t bad = 0;
	for (size_t i = n1; i-- > 0;) {
		int64_t v[ORDER];
		a -= i;
		start_row(v, t->signs[i], x + i * n2, n2);
		add_rows(v, a, i, x, n2);
		const int32_t *b = t->b;
		UNROLL for (size_t j = 0; j < n2; j++) {
			int32_t *own = &x[i * n2 + j];
			int64_t sum = wide_sum(b, v, j) + 4096 * flip(t->across[j], v[j]);
			bad |= put(own, R2_with(rule, sum, *own));
			b += j;
		}
	}
	return bad;
}

INLINE uint32_t upper(uint32_t rule, const struct stage *t, size_t n1, size_t n2, int32_t *x)
{
	const int32_t *a = t->a;
	uint32_t bad = 0;
	for (size_t i = 0; i < n1; i++) {
		int64_t v[ORDER];
		start_row(v, t->signs[i], x + i * n2, n2);
		add_rows(v, a, n1 - 1 - i, x + (i + 1) * n2, n2);
		a += n1 - 1 - i;
		const int32_t *b = t->b;
		UNROLL for (size_t j = 0; j < n2; j++) {
			int32_t *own = &x[i * n2 + j];
			int64_t sum = wide_sum(b, v + j + 1, n2 - 1 - j) + 4096 * flip(t->across[j], v[j]);
			bad |= put(own, R2_with(rule, sum, *own));
			b += n2 - 1 - j;
		}
	}
	return bad;
}

// Back: the sums are over recovered rows, and grow by each number that is recovered in the row itself. One beyond the bound ends
// the stage at once, since sums over it need not fit in 64 bits.
INLINE uint32_t recover(uint32_t rule, const struct stage *t, size_t i, size_t j, int64_t sum, int32_t *x, int64_t *v)
{
	int64_t own = flip(t->across[j], *x - R2(rule, sum + 4096 * flip(t->across[j], *v)));
	*v += 4096 * own;
	return put(x, flip(t->signs[i], own));
}

INLINE uint32_t lower_back(uint32_t rule, const struct stage *t, size_t n1, size_t n2, int32_t *x)
{
	const int32_t *a = t->a;
	for (size_t i = 0; i < n1; i++) {
		int64_t v[ORDER] = {0};
		add_rows(v, a, i, x, n2);
		a += i;
		const int32_t *b = t->b;
		UNROLL for (size_t j = 0; j < n2; j++) {
			if (recover(rule, t, i, j, wide_sum(b, v, j), &x[i * n2 + j], &v[j]))
				return 1;
			b += j;
		}
	}
	return 0;
}

INLINE uint32_t upper_back(uint32_t rule, const struct stage *t, size_t n1, size_t n2, int32_t *x)
{
	const int32_t *a = t->a + n1 * (n1 - 1) / 2;
	for (size_t i = n1; i-- > 0;) {
		int64_t v[ORDER] = {0};
		a -= n1 - 1 - i;
		add_rows(v, a, n1 - 1 - i, x + (i + 1) * n2, n2);
		const int32_t *b = t->b + n2 * (n2 - 1) / 2;
		UNROLL for (size_t j = n2; j-- > 0;) {
			b -= n2 - 1 - j;
			if (recover(rule, t, i, j, wide_sum_down(b, v + j + 1, n2 - 1 - j), &x[i * n2 + j], &v[j]))
				return 1;
		}
	}
	return 0;
}

// ---- single rows, in place

// Column q of a row that is not r has a sum over its row alone. The row's numbers enter the sums of row r as they were.
INLINE uint32_t single(uint32_t rule, const struct stage *t, size_t n1, size_t n2, int32_t *x)
{
	size_t r = t->r, q = t->q;
	uint32_t bad = 0;
	int32_t w[ORDER], m[ORDER], *own = x + r * n2;
	int64_t v[ORDER];
	fill_row(w, t->b, q, 4096 * t->across[q], n2);
	read_signs(m, t->across, n2);
	start_row(v, t->signs[r], own, n2);
	for (size_t i = 0; i < n1; i++) {
		if (i == r)
			continue;
		int32_t *u = x + i * n2;
		add_row(v, t->a[i - (i > r)], u, n2);
		int64_t z = R_with(rule, flip(t->signs[i], sum_of(w, u, n2)), u[q]);
		sign_row(u, m, t->signs[i], n2);
		bad |= put(&u[q], z);
	}
	int64_t corner = R2_with(rule, wide_sum(w, v, n2), own[q]);
	for (size_t j = 0; j < n2; j++) {
		int64_t z = R_with(rule, flip(m[j], v[j]), own[j]);
		bad |= j == q ? 0 : is_beyond(z);
		own[j] = (int32_t)z;
	}
	return bad | put(&own[q], corner);
}

// Back: the rows that are not r, then row r over them, and last the corner over all. Here w has 0 in place q, so that whatever
// stands there is not in the sums.
INLINE uint32_t single_back(uint32_t rule, const struct stage *t, size_t n1, size_t n2, int32_t *x)
{
	size_t r = t->r, q = t->q;
	uint32_t bad = 0;
	int32_t w[ORDER], m[ORDER], *own = x + r * n2, corner = own[q];
	int64_t v[ORDER] = {0};
	fill_row(w, t->b, q, 0, n2);
	read_signs(m, t->across, n2);
	for (size_t i = 0; i < n1; i++) {
		if (i == r)
			continue;
		int32_t *u = x + i * n2, y = u[q], d = t->signs[i];
		sign_row(u, m, d, n2);
		bad |= put(&u[q], flip(d ^ m[q], y - R(rule, flip(d, sum_of(w, u, n2)))));
		add_row(v, t->a[i - (i > r)], u, n2);
	}
	for (size_t j = 0; j < n2; j++) {
		int64_t z = flip(t->signs[r] ^ m[j], own[j] - R(rule, flip(m[j], v[j])));
		bad |= j == q ? 0 : is_beyond(z);
		own[j] = (int32_t)z;
	}
	if (bad)
		return bad;
	int64_t sum = 4096 * (flip(m[q], v[q]) + flip(t->signs[r], sum_of(w, own, n2))) + wide_sum(w, v, n2);
	return put(&own[q], flip(t->signs[r] ^ m[q], corner - R2(rule, sum)));
}

INLINE uint32_t weigh(uint32_t rule, const struct stage *t, size_t n1, size_t n2, bool back, int32_t *x)
{
	switch (t->kind) {
	case 2: return back ? lower_back(rule, t, n1, n2, x) : lower(rule, t, n1, n2, x);
	case 3: return back ? upper_back(rule, t, n1, n2, x) : upper(rule, t, n1, n2, x);
	default: return back ? single_back(rule, t, n1, n2, x) : single(rule, t, n1, n2, x);
	}
}

// ---- permutations, from one place to another

INLINE void move(const struct stage *t, size_t n1, size_t n2, bool back, const int32_t *restrict x, int32_t *restrict y)
{
	for (size_t i = 0; i < n1; i++) {
		size_t p = (size_t)t->signs[i];
		const int32_t *from = x + (back ? i : p) * n2;
		int32_t *to = y + (back ? p : i) * n2;
		for (size_t j = 0; j < n2; j++) {
			size_t q = (size_t)t->across[j];
			to[back ? q : j] = from[back ? j : q];
		}
	}
}

// ---- a run

// No number is beyond the bound after a permutation, so the last one may write to y.
INLINE struct answer run_block(uint32_t rule, const struct stage *t, size_t many, size_t n1, size_t n2, bool back,
			       const int32_t *x, int32_t *y)
{
	size_t size = n1 * n2;
	if (!are_within(x, size, SAMPLE))
		return refused(11, 0, 0);
	int32_t room[2][ORDER * ORDER], *v = NULL; // not yet copied
	for (size_t f = 0; f < many; f++) {
		const struct stage *s = &t[back ? many - 1 - f : f];
		int32_t *next = f == many - 1 ? y : v == room[0] ? room[1] : room[0];
		if (s->kind == 1) {
			move(s, n1, n2, back, v ? v : x, next);
			v = next;
			continue;
		}
		if (!v)
			v = memcpy(room[0], x, size * sizeof *x);
		if (weigh(rule, s, n1, n2, back, v))
			return refused(11, 0, f + 1);
	}
	if (v != y)
		memcpy(y, v, size * sizeof *y);
	return refused(0, 0, 0);
}

// 1 to 9 for both sheets, and 12; the stages.
static struct answer decode_pair(const int32_t *col, size_t cn, const int32_t *row, size_t rn, struct stage *t)
{
	struct step a[COUNT], b[COUNT];
	if (!decode_by_order(col, cn, a))
		return twin_check(col, cn, 0);
	if (!decode_by_order(row, rn, b))
		return twin_check(row, rn, 1);
	for (int32_t k = 0; k < col[1] || k < row[1]; k++) {
		if (k == col[1] || k == row[1] || a[k].kind != b[k].kind)
			return refused(12, 0, (uint64_t)k);
		t[k] = (struct stage){a[k].kind, a[k].row, b[k].row, a[k].signs, a[k].entries, b[k].signs, b[k].entries};
	}
	return refused(0, 0, 0);
}

// What a call is given. A single block has no bytes.
struct call {
	const int32_t *col;
	size_t cn;
	const int32_t *row;
	size_t rn;
	const int32_t *x;
	size_t xn;
	int32_t *y;
	size_t yn;
	uint8_t *bytes;
	size_t bn;
};

INLINE struct answer run_blocks(const struct call *c, uint32_t rule, const struct stage *t, size_t n1, size_t n2, bool back,
				bool strip)
{
	size_t many = (size_t)c->col[1], size = n1 * n2;
	if (!strip)
		return run_block(rule, t, many, n1, n2, back, c->x, c->y);
	for (size_t k = 0; k < c->bn; k++)
		c->bytes[k] = (uint8_t)run_block(rule, t, many, n1, n2, back, c->x + k * size, c->y + k * size).number;
	return refused(0, 0, 0);
}

INLINE struct answer run_by_order(const struct call *c, uint32_t rule, bool back, bool strip)
{
	struct stage t[COUNT];
	struct answer a = decode_pair(c->col, c->cn, c->row, c->rn, t);
	if (a.number)
		return a;
	size_t n1 = (size_t)c->col[0], n2 = (size_t)c->row[0];
	a = lengths(n1 * n2, strip, c->xn, c->yn, c->bn);
	if (a.number)
		return a;
	switch (n1 * 100 + n2) {
	case 404: return run_blocks(c, rule, t, 4, 4, back, strip);
	case 808: return run_blocks(c, rule, t, 8, 8, back, strip);
	case 1616: return run_blocks(c, rule, t, 16, 16, back, strip);
	case 1604: return run_blocks(c, rule, t, 16, 4, back, strip);
	default: return run_blocks(c, rule, t, n1, n2, back, strip);
	}
}

INLINE struct answer run_by_rule(uint32_t rule, struct call c, bool back, bool strip)
{
	switch (rule) {
	case 0: return run_by_order(&c, 0, back, strip);
	case 1: return run_by_order(&c, 1, back, strip);
	case 2: return run_by_order(&c, 2, back, strip);
	default: return refused(16, 0, 0);
	}
}

// A single block; if it is refused for range, which number was beyond the bound is looked for apart.
INLINE struct answer run_one(uint32_t rule, struct call c, bool back)
{
	struct answer a = run_by_rule(rule, c, back, false);
	if (a.number == 11)
		a.element = twin_element(rule, c.col, c.cn, c.row, c.rn, c.x, back);
	return a;
}

struct answer twin_rectangle_forward(uint32_t rule, const int32_t *col, size_t cn, const int32_t *row, size_t rn,
				     const int32_t *x, size_t xn, int32_t *y, size_t yn)
{
	return run_one(rule, (struct call){col, cn, row, rn, x, xn, y, yn, NULL, 0}, false);
}

struct answer twin_rectangle_inverse(uint32_t rule, const int32_t *col, size_t cn, const int32_t *row, size_t rn,
				     const int32_t *x, size_t xn, int32_t *y, size_t yn)
{
	return run_one(rule, (struct call){col, cn, row, rn, x, xn, y, yn, NULL, 0}, true);
}

struct answer twin_rectangle_strip_forward(uint32_t rule, const int32_t *col, size_t cn, const int32_t *row, size_t rn,
					   const int32_t *x, size_t xn, int32_t *y, size_t yn, uint8_t *bytes, size_t bn)
{
	return run_by_rule(rule, (struct call){col, cn, row, rn, x, xn, y, yn, bytes, bn}, false, true);
}

struct answer twin_rectangle_strip_inverse(uint32_t rule, const int32_t *col, size_t cn, const int32_t *row, size_t rn,
					   const int32_t *x, size_t xn, int32_t *y, size_t yn, uint8_t *bytes, size_t bn)
{
	return run_by_rule(rule, (struct call){col, cn, row, rn, x, xn, y, yn, bytes, bn}, true, true);
}
