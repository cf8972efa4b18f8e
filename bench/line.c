// The line in the best plain C for the same answers: what the library's times are held to. The sheet is checked and decoded in
// one pass, once for a call or a strip; stages work in place; each rule has code of its own, and in it orders 3, 4, 8 and 16.
#include "twin.h"

// ---- a stage, in place: it answers whether a number is beyond the bound

// Only the numbers aside are taken at places that the sheet gives: a short block itself stays in registers.
INLINE uint32_t move(const int32_t *p, size_t n, bool back, int32_t *v)
{
	int32_t aside[ORDER];
	for (size_t m = 0; m < n; m++)
		aside[back ? (size_t)p[m] : m] = v[m];
	for (size_t m = 0; m < n; m++)
		v[m] = aside[back ? m : (size_t)p[m]];
	return 0;
}

// The compiler does not unroll the loops over sixteen rows, and nothing here makes it: forced, as in rectangle.c, a line of 16
// takes 0.61 to 0.73 of the time (on Arm), for 12 KB more of code.

// Row m looks at the numbers above it: forward from the bottom, while they are old; back from the top, once they are recovered.
INLINE uint32_t lower(uint32_t rule, const int32_t *d, const int32_t *a, size_t n, int32_t *v)
{
	uint32_t bad = 0;
	a += n * (n - 1) / 2;
	for (size_t m = n; m-- > 0;) {
		a -= m;
		bad |= put(&v[m], (int64_t)d[m] * v[m] + R(rule, sum_of(a, v, m)));
	}
	return bad;
}

INLINE uint32_t lower_back(uint32_t rule, const int32_t *d, const int32_t *a, size_t n, int32_t *v)
{
	uint32_t bad = 0;
	for (size_t m = 0; m < n; m++) {
		bad |= put(&v[m], flip(d[m], v[m] - R(rule, sum_of(a, v, m))));
		a += m;
	}
	return bad;
}

// Row m looks at the numbers below it.
INLINE uint32_t upper(uint32_t rule, const int32_t *d, const int32_t *a, size_t n, int32_t *v)
{
	uint32_t bad = 0;
	for (size_t m = 0; m < n; m++) {
		bad |= put(&v[m], (int64_t)d[m] * v[m] + R(rule, sum_of(a, v + m + 1, n - 1 - m)));
		a += n - 1 - m;
	}
	return bad;
}

INLINE uint32_t upper_back(uint32_t rule, const int32_t *d, const int32_t *a, size_t n, int32_t *v)
{
	uint32_t bad = 0;
	a += n * (n - 1) / 2;
	for (size_t m = n; m-- > 0;) {
		a -= n - 1 - m;
		bad |= put(&v[m], flip(d[m], v[m] - R(rule, sum_of(a, v + m + 1, n - 1 - m))));
	}
	return bad;
}

// The sheet names the row. A short block stays in registers, so each of its places is held to r.
enum { IN_REGISTERS = 4 };

INLINE int32_t number_at(size_t n, size_t r, const int32_t *v)
{
	int32_t found = 0;
	for (size_t m = 0; m < n; m++)
		found = m == r ? v[m] : found;
	return n <= IN_REGISTERS ? found : v[r];
}

INLINE uint32_t put_at(size_t n, size_t r, int32_t *v, int64_t z)
{
	if (n > IN_REGISTERS)
		return put(&v[r], z);
	for (size_t m = 0; m < n; m++)
		v[m] = m == r ? (int32_t)z : v[m];
	return is_beyond(z);
}

// The sum of row r over all numbers but its own.
INLINE int64_t row_sum(const int32_t *a, size_t n, size_t r, const int32_t *v)
{
	if (n > IN_REGISTERS)
		return sum_of(a, v, r) + sum_of(a + r, v + r + 1, n - 1 - r);
	int64_t sum = 0;
	for (size_t m = 0, e = 0; m < n; m++) {
		sum += m == r ? 0 : (int64_t)a[e] * v[m];
		e += m != r && e + 2 < n; // not past the last entry
	}
	return sum;
}

INLINE void sign_all(const int32_t *d, size_t n, int32_t *v)
{
	for (size_t m = 0; m < n; m++)
		v[m] *= d[m];
}

INLINE uint32_t single(uint32_t rule, const int32_t *d, const int32_t *a, size_t n, size_t r, int32_t *v)
{
	int64_t nudge = R(rule, row_sum(a, n, r, v));
	sign_all(d, n, v);
	return put_at(n, r, v, number_at(n, r, v) + nudge);
}

INLINE uint32_t single_back(uint32_t rule, const int32_t *d, const int32_t *a, size_t n, size_t r, int32_t *v)
{
	sign_all(d, n, v);
	return put_at(n, r, v, number_at(n, r, v) - flip(d[r], R(rule, row_sum(a, n, r, v))));
}

INLINE uint32_t stage(uint32_t rule, const struct step *t, size_t n, bool back, int32_t *v)
{
	const int32_t *d = t->signs, *a = t->entries;
	switch (t->kind) {
	case 1: return move(d, n, back, v);
	case 2: return back ? lower_back(rule, d, a, n, v) : lower(rule, d, a, n, v);
	case 3: return back ? upper_back(rule, d, a, n, v) : upper(rule, d, a, n, v);
	default: return back ? single_back(rule, d, a, n, t->row, v) : single(rule, d, a, n, t->row, v);
	}
}

// ---- a run

INLINE struct answer run_block(uint32_t rule, const struct step *t, size_t many, size_t n, bool back, const int32_t *x,
			       int32_t *y)
{
	if (!are_within(x, n, SAMPLE))
		return refused(11, 0, 0);
	int32_t v[ORDER];
	for (size_t k = 0; k < n; k++)
		v[k] = x[k];
	for (size_t f = 0; f < many; f++)
		if (stage(rule, &t[back ? many - 1 - f : f], n, back, v))
			return refused(11, 0, f + 1);
	for (size_t k = 0; k < n; k++)
		y[k] = v[k];
	return refused(0, 0, 0);
}

// What a call is given. A single block has no bytes.
struct call {
	const int32_t *s;
	size_t sn;
	const int32_t *x;
	size_t xn;
	int32_t *y;
	size_t yn;
	uint8_t *bytes;
	size_t bn;
};

INLINE struct answer run(const struct call *c, uint32_t rule, size_t n, bool back, bool strip)
{
	struct step t[COUNT];
	if (!n || !decode(c->s, c->sn, n, t))
		return twin_check(c->s, c->sn, 0);
	size_t many = (size_t)c->s[1];
	struct answer a = lengths(n, strip, c->xn, c->yn, c->bn);
	if (a.number)
		return a;
	if (!strip)
		return run_block(rule, t, many, n, back, c->x, c->y);
	for (size_t k = 0; k < c->bn; k++)
		c->bytes[k] = (uint8_t)run_block(rule, t, many, n, back, c->x + k * n, c->y + k * n).number;
	return a;
}

INLINE struct answer run_by_order(const struct call *c, uint32_t rule, bool back, bool strip)
{
	size_t n = order_of(c->s, c->sn);
	switch (n) {
	case 3: return run(c, rule, 3, back, strip);
	case 4: return run(c, rule, 4, back, strip);
	case 8: return run(c, rule, 8, back, strip);
	case 16: return run(c, rule, 16, back, strip);
	default: return run(c, rule, n, back, strip);
	}
}

INLINE struct answer run_by_rule(uint32_t rule, struct call c, bool back, bool strip)
{
	switch (rule) {
	case 0: return run_by_order(&c, 0, back, strip);
	case 1: return run_by_order(&c, 1, back, strip);
	case 2: return run_by_order(&c, 2, back, strip);
	default: return refused(16, 0, 0);
	}
}

// A single block; if it is refused for range, which number was beyond the bound is looked for apart.
INLINE struct answer run_one(uint32_t rule, struct call c, bool back)
{
	struct answer a = run_by_rule(rule, c, back, false);
	if (a.number == 11)
		a.element = twin_pass_element(rule, c.s, c.sn, NULL, 0, c.xn, 1, c.x, back);
	return a;
}

struct answer twin_forward(uint32_t rule, const int32_t *s, size_t sn, const int32_t *x, size_t xn, int32_t *y, size_t yn)
{
	return run_one(rule, (struct call){s, sn, x, xn, y, yn, NULL, 0}, false);
}

struct answer twin_inverse(uint32_t rule, const int32_t *s, size_t sn, const int32_t *x, size_t xn, int32_t *y, size_t yn)
{
	return run_one(rule, (struct call){s, sn, x, xn, y, yn, NULL, 0}, true);
}

struct answer twin_strip_forward(uint32_t rule, const int32_t *s, size_t sn, const int32_t *x, size_t xn, int32_t *y, size_t yn,
				 uint8_t *bytes, size_t bn)
{
	return run_by_rule(rule, (struct call){s, sn, x, xn, y, yn, bytes, bn}, false, true);
}

struct answer twin_strip_inverse(uint32_t rule, const int32_t *s, size_t sn, const int32_t *x, size_t xn, int32_t *y, size_t yn,
				 uint8_t *bytes, size_t bn)
{
	return run_by_rule(rule, (struct call){s, sn, x, xn, y, yn, bytes, bn}, true, true);
}
