// The checks of a call in plain C: the exact answer, number by number. The runs come here only with a sheet that has a fault.
#include "twin.h"

// 5 and 6: the numbers from s[i] are 0 to n - 1 in some order.
static struct answer check_places(const int32_t *s, size_t len, size_t i, size_t n, uint32_t side)
{
	for (size_t e = i; e < i + n; e++) {
		if (e >= len)
			return refused(1, side, len);
		if (s[e] < 0 || s[e] >= (int32_t)n)
			return refused(5, side, e);
		for (size_t k = i; k < e; k++)
			if (s[k] == s[e])
				return refused(6, side, e);
	}
	return refused(0, 0, 0);
}

// 7 and 8: n signs, then so many entries.
static struct answer check_weights(const int32_t *s, size_t len, size_t i, size_t n, size_t entries, uint32_t side)
{
	for (size_t e = i; e < i + n + entries; e++) {
		if (e >= len)
			return refused(1, side, len);
		if (e < i + n && s[e] != 1 && s[e] != -1)
			return refused(7, side, e);
		if (s[e] < -ENTRY || s[e] > ENTRY)
			return refused(8, side, e);
	}
	return refused(0, 0, 0);
}

// 4 to 8 of the factor at s[*i], which moves to the next one.
static struct answer check_factor(const int32_t *s, size_t len, size_t *i, size_t n, uint32_t side)
{
	if (*i >= len)
		return refused(1, side, len);
	int32_t kind = s[*i];
	if (kind < 1 || kind > 4)
		return refused(4, side, *i);
	size_t at = *i + 1, entries = kind == 4 ? n - 1 : n * (n - 1) / 2;
	if (kind == 1) {
		*i = at + n;
		return check_places(s, len, at, n, side);
	}
	if (kind == 4) {
		if (at >= len)
			return refused(1, side, len);
		if (s[at] < 0 || s[at] >= (int32_t)n)
			return refused(5, side, at);
		at++;
	}
	*i = at + n + entries;
	return check_weights(s, len, at, n, entries, side);
}

struct answer twin_check(const int32_t *s, size_t len, uint32_t side)
{
	if (len < 1)
		return refused(1, side, len);
	if (s[0] < 1 || s[0] > ORDER)
		return refused(2, side, 0);
	if (len < 2)
		return refused(1, side, len);
	if (s[1] < 1 || s[1] > COUNT)
		return refused(3, side, 1);
	size_t i = 2;
	for (int32_t f = 0; f < s[1]; f++) {
		struct answer a = check_factor(s, len, &i, (size_t)s[0], side);
		if (a.number)
			return a;
	}
	return i < len ? refused(9, side, i) : refused(0, 0, 0);
}
