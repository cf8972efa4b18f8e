// What line.c, rectangle.c and pass.c share: a sheet checked and decoded in one pass into a table of steps; rounding; the bound;
// rows of sums. What takes an order or a rule is compiled into its caller: where that gives a literal, loops have fixed lengths,
// numbers fixed places, and a rounding is that rule's alone.
#ifndef TWIN_H
#define TWIN_H
#include "bench.h"

#define INLINE static inline __attribute__((always_inline))

// The compiler by itself does not unroll the loop over a row of sixteen, since its inner loops have different lengths.
#define UNROLL _Pragma("clang loop unroll(full)")

INLINE struct answer refused(uint32_t number, uint32_t side, uint64_t place) { return (struct answer){number, side, place, 0}; }

// ---- runs of numbers: a test that ends at the first fault is slower where there is none

INLINE bool are_within(const int32_t *a, size_t n, uint32_t most)
{
	uint32_t bad = 0;
	for (size_t k = 0; k < n; k++)
		bad |= (uint32_t)a[k] + most > 2 * most;
	return !bad;
}

INLINE bool are_signs(const int32_t *d, size_t n)
{
	uint32_t bad = 0;
	for (size_t k = 0; k < n; k++)
		bad |= ((uint32_t)d[k] + 1) & ~2u; // 0 of -1 and of 1
	return !bad;
}

INLINE bool are_places(const int32_t *p, size_t n)
{
	uint32_t bad = 0, used = 0;
	for (size_t k = 0; k < n; k++) {
		bad |= (uint32_t)p[k] >= n;
		used |= 1u << ((uint32_t)p[k] & 31);
	}
	return !bad && used == (1u << n) - 1;
}

// ---- the table of steps

struct step {
	uint32_t kind, row;
	const int32_t *signs, *entries; // where they stand in the sheet; for a permutation, its places
};

// The factor at s[i], if it has no fault: where the next one starts. 0 if it has one.
INLINE size_t decode_factor(const int32_t *s, size_t len, size_t i, size_t n, struct step *t)
{
	if (i >= len)
		return 0;
	uint32_t kind = (uint32_t)s[i++], row = 0;
	if (kind == 1) {
		*t = (struct step){kind, row, s + i, s + i};
		return len - i >= n && are_places(s + i, n) ? i + n : 0;
	}
	size_t entries = n * (n - 1) / 2;
	if (kind == 4) {
		if (i >= len)
			return 0;
		row = (uint32_t)s[i++];
		entries = n - 1;
	}
	if (kind - 2 > 2 || row >= n || len - i < n + entries)
		return 0;
	*t = (struct step){kind, row, s + i, s + i + n};
	return are_signs(t->signs, n) && are_within(t->entries, entries, ENTRY) ? i + n + entries : 0;
}

// The order, if the sheet begins with an order and a count. 0 if it does not.
INLINE size_t order_of(const int32_t *s, size_t len)
{
	bool ok = len >= 2 && (uint32_t)s[0] - 1 < ORDER && (uint32_t)s[1] - 1 < COUNT;
	return ok ? (size_t)s[0] : 0;
}

// Whether a sheet of order n is accepted; its steps. Which fault it has, if any, twin_check tells: that may take its time.
INLINE bool decode(const int32_t *s, size_t len, size_t n, struct step t[COUNT])
{
	size_t i = 2;
	for (int32_t f = 0; f < s[1]; f++) {
		i = decode_factor(s, len, i, n, &t[f]);
		if (!i)
			return false;
	}
	return i == len;
}

// The same, with code for the orders of a rectangle that has code of its own.
static inline bool decode_by_order(const int32_t *s, size_t len, struct step *t)
{
	size_t n = order_of(s, len);
	switch (n) {
	case 0: return false;
	case 4: return decode(s, len, 4, t);
	case 8: return decode(s, len, 8, t);
	case 16: return decode(s, len, 16, t);
	default: return decode(s, len, n, t);
	}
}

struct answer twin_check(const int32_t *s, size_t len, uint32_t side); // 1 to 9, from the left, the first fault

// Which number of x, n1 rows by n2, a run that answers 11 names: of a joint run; of a column pass and then a row pass, or back.
// No sheet, no pass. A line is a column pass of one column.
uint64_t twin_element(uint32_t rule, const int32_t *col, size_t cn, const int32_t *row, size_t rn, const int32_t *x, bool back);
uint64_t twin_pass_element(uint32_t rule, const int32_t *col, size_t cn, const int32_t *row, size_t rn, size_t n1, size_t n2,
			   const int32_t *x, bool back);

// 10, of a block of n numbers and of a strip of such blocks.
INLINE struct answer lengths(size_t n, bool strip, size_t xn, size_t yn, size_t bn)
{
	if (strip ? xn % n : xn != n)
		return refused(10, 0, 0);
	return yn != xn || (strip && bn != xn / n) ? refused(10, 1, 0) : refused(0, 0, 0);
}

// ---- a stage

// Rule 0 is nearest with halves upward, 1 floor, 2 nearest with halves to the even quotient. An own term, +-own times the scale,
// may as well stand inside the rounding: rules 0 and 1 cannot tell. It moves the quotient by +-own. So rule 2, which looks
// whether the quotient without it is even, takes own's last bit off again. Where it is, a half must stay below: 1 less is added.
INLINE int64_t rounded(uint32_t rule, int64_t s, uint32_t bits, int32_t own)
{
	int64_t half = (int64_t)1 << (bits - 1);
	switch (rule) {
	case 0: return (s + half) >> bits;
	case 1: return s >> bits;
	default: return (s + half - 1 + (((s >> bits) ^ own) & 1)) >> bits;
	}
}

// R of a line's sum, R2 of a rectangle's; and with the own term inside.
INLINE int64_t R(uint32_t rule, int64_t s) { return rounded(rule, s, 12, 0); }
INLINE int64_t R2(uint32_t rule, int64_t s) { return rounded(rule, s, 24, 0); }
INLINE int64_t R_with(uint32_t rule, int64_t s, int32_t own) { return rounded(rule, s, 12, own); }
INLINE int64_t R2_with(uint32_t rule, int64_t s, int32_t own) { return rounded(rule, s, 24, own); }

INLINE uint32_t is_beyond(int64_t z) { return (uint64_t)z + SAMPLE > 2 * SAMPLE; }

// Whether it is beyond the bound: a stage collects this and tests it once.
INLINE uint32_t put(int32_t *x, int64_t z)
{
	*x = (int32_t)z;
	return is_beyond(z);
}

// A number by a sign, and no product to wait for.
INLINE int64_t flip(int32_t sign, int64_t w)
{
	int64_t s = (int64_t)sign >> 63; // 0 or -1
	return (w ^ s) - s;
}

INLINE int64_t sum_of(const int32_t *a, const int32_t *x, size_t n)
{
	int64_t sum = 0;
	for (size_t k = 0; k < n; k++)
		sum += (int64_t)a[k] * x[k];
	return sum;
}

// ---- rows of sums

INLINE void add_row(int64_t *v, int32_t a, const int32_t *x, size_t n)
{
	for (size_t k = 0; k < n; k++)
		v[k] += (int64_t)a * x[k];
}

INLINE void add_rows(int64_t *v, const int32_t *a, size_t many, const int32_t *x, size_t n)
{
	for (size_t l = 0; l < many; l++)
		add_row(v, a[l], x + l * n, n);
}

// The own terms of a row of sums.
INLINE void start_row(int64_t *v, int32_t sign, const int32_t *x, size_t n)
{
	for (size_t k = 0; k < n; k++)
		v[k] = (int64_t)(4096 * sign) * x[k];
}

// ---- single rows

// The entries of row q with a number in the place that they leave out.
INLINE void fill_row(int32_t *w, const int32_t *b, size_t q, int32_t own, size_t n)
{
	for (size_t k = 0; k < q; k++)
		w[k] = b[k];
	w[q] = own;
	for (size_t k = q + 1; k < n; k++)
		w[k] = b[k - 1];
}

// A factor's signs as 0 and -1. They lie aside: for all that the compiler knows, a write to the block changes the sheet.
INLINE void read_signs(int32_t *m, const int32_t *signs, size_t n)
{
	for (size_t k = 0; k < n; k++)
		m[k] = signs[k] >> 31;
}

INLINE void sign_row(int32_t *x, const int32_t *m, int32_t sign, size_t n)
{
	for (size_t k = 0; k < n; k++) {
		int32_t s = m[k] ^ (sign >> 31);
		x[k] = (x[k] ^ s) - s;
	}
}

#endif
