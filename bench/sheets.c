// Sheets for main.c and stack.c: whoever gives the same seed gets the same ones.
#include "sheets.h"
#include <string.h>

static uint64_t state = 88172645463325253u;

void seed(uint64_t s)
{
	state = s | 1;
}

static uint64_t next(void) // xorshift64*
{
	state ^= state >> 12;
	state ^= state << 25;
	state ^= state >> 27;
	return state * 2685821657736338717u;
}

int32_t between(int32_t lo, int32_t hi)
{
	return lo + (int32_t)((next() >> 33) % (uint64_t)((int64_t)hi - lo + 1));
}

struct sheet built_in(void)
{
	return (struct sheet){45, {4, 5, 1, 3, 2, 0, 1, 2, 1, 1, 1, 1, 1612, 0, -4096, -815, 3281, 0, 3, -1, 1, 1, 1, 6238, 2048, -2676,
				   3101, -2484, 0, 2, 1, 1, 1, 1, -2106, 2106, -4096, -872, 3281, 0, 1, 3, 2, 1, 0}};
}

static void put(struct sheet *s, int32_t v)
{
	s->at[s->len++] = v;
}

// The kinds are given, all else comes from the seed.
struct sheet made(int32_t n, const char *kinds, int32_t size)
{
	struct sheet s = {0};
	put(&s, n);
	put(&s, (int32_t)strlen(kinds));
	for (; *kinds; kinds++) {
		put(&s, *kinds - '0');
		if (*kinds == '1') {
			int32_t *p = s.at + s.len;
			for (int32_t e = 0; e < n; e++) {
				put(&s, e);
				int32_t k = between(0, e), v = p[k];
				p[k] = p[e];
				p[e] = v;
			}
			continue;
		}
		int32_t many = n * (n - 1) / 2;
		if (*kinds == '4') {
			put(&s, between(0, n - 1));
			many = n - 1;
		}
		for (int32_t e = 0; e < n; e++)
			put(&s, between(0, 1) ? 1 : -1);
		for (int32_t e = 0; e < many; e++)
			put(&s, between(-size, size));
	}
	return s;
}
