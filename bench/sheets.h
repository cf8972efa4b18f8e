// Sheets for main.c and stack.c, all from one seed.
#ifndef SHEETS_H
#define SHEETS_H
#include "bench.h"

enum { LONGEST = 2 + COUNT * (1 + ORDER + ORDER * (ORDER - 1) / 2) }; // every factor of kind 2 or 3

struct sheet {
	size_t len;
	int32_t at[LONGEST + 1]; // a fault may be one number more
};

void seed(uint64_t s);
int32_t between(int32_t lo, int32_t hi);
struct sheet built_in(void);
struct sheet made(int32_t n, const char *kinds, int32_t size); // entries up to size

#endif
