// Holds the answers of the library and of its twin to each other: on recipes of all orders and kinds, by every rule and by
// numbers that are none, on blocks within the bound, at it and beyond it, on sheets with a fault, on pairs that do not match, on
// orders that are none, on wrong lengths; single calls and strips, joint stages and passes.
#include "calls.h"
#include <stdio.h>
#include <stdlib.h>
#include <string.h>

enum { MORE = 1, STRIP = 20, MOST = MOST_BLOCKS * ORDER * ORDER + MORE, PAINT = 0x5a, MOST_NUMBER = 16 };

static size_t answers[2][MOST_NUMBER + 1]; // of lines and joint stages, of passes

static bool is_of_passes(enum shape s) { return s >= TWO_PASS; }

static void print_answer(struct answer a)
{
	printf("%u %u %zu %zu", a.number, a.side, (size_t)a.place, (size_t)a.element);
}

static void agree(int way, struct recipe r, struct answer a, struct answer b, bool equal)
{
	if (a.number == b.number && a.side == b.side && a.place == b.place && a.element == b.element && equal) {
		answers[is_of_passes(r.shape)][a.number]++;
		return;
	}
	static const char *const shapes[SHAPES] = {"line", "joint", "two-pass", "column pass", "row pass"};
	printf("%s %s of order %d", shapes[r.shape], way == INVERSE ? "inverse" : "forward", r.col->at[0]);
	if (r.shape != LINE)
		printf(" and %u", r.row ? (uint32_t)r.row->at[0] : r.other);
	printf(", rule %u", r.rule);
	printf(": the library answers ");
	print_answer(a);
	printf(", the twin ");
	print_answer(b);
	printf("%s\n", equal ? "" : ", and what they write differs");
	exit(1);
}

// What is not written keeps its paint, so an output that a refusal must leave is compared as well.
struct answer agree_on_block(int way, struct recipe r, const int32_t *x, size_t xn, int32_t *y, size_t yn)
{
	static int32_t z[ORDER * ORDER + MORE];
	memset(y, PAINT, yn * sizeof *y);
	memset(z, PAINT, yn * sizeof *z);
	struct answer a = ask(LIBRARY, way, r, x, xn, y, yn), b = ask(TWIN, way, r, x, xn, z, yn);
	agree(way, r, a, b, !memcmp(y, z, yn * sizeof *y));
	return a;
}

struct answer agree_on_strip(int way, struct recipe r, const int32_t *x, size_t xn, int32_t *y, size_t yn, uint8_t *bytes,
			     size_t bn)
{
	static int32_t z[MOST];
	static uint8_t other[MOST_BLOCKS + MORE];
	memset(y, PAINT, yn * sizeof *y);
	memset(z, PAINT, yn * sizeof *z);
	memset(bytes, PAINT, bn);
	memset(other, PAINT, bn);
	struct answer a = ask_strip(LIBRARY, way, r, x, xn, y, yn, bytes, bn);
	struct answer b = ask_strip(TWIN, way, r, x, xn, z, yn, other, bn);
	agree(way, r, a, b, !memcmp(y, z, yn * sizeof *y) && !memcmp(bytes, other, bn));
	return a;
}

// ---- cases from the seed

static bool once_in(int32_t many) { return between(1, many) == 1; }

static uint32_t some_rule(void)
{
	static const uint32_t none[] = {RULES, 16, 256, 65536, INT32_MAX, UINT32_MAX};
	return once_in(20) ? none[between(0, 5)] : (uint32_t)between(0, RULES - 1);
}

static int32_t some_order(void)
{
	static const int32_t own_code[] = {3, 4, 8, 16};
	return once_in(2) ? own_code[between(0, 3)] : between(1, ORDER);
}

static uint32_t no_order(void)
{
	static const uint32_t none[] = {0, ORDER + 1, 256, 65536 + 4, INT32_MAX, UINT32_MAX};
	return none[between(0, 5)];
}

static void some_kinds(char kinds[COUNT + 1])
{
	int32_t many = once_in(10) ? COUNT : between(1, 8);
	for (int32_t k = 0; k < many; k++)
		kinds[k] = (char)('0' + between(1, 4));
	kinds[many] = 0;
}

// Of entries that are large or small; or where halves are frequent; or few and whole, so that numbers at the bound stay near it.
static struct sheet some_sheet(const char *kinds)
{
	struct sheet s = made(some_order(), kinds, ENTRY >> between(0, 8));
	int32_t sort = between(1, 4);
	for (size_t k = 2; k < s.len && sort > 2; k++)
		if (s.at[k] < -1 || s.at[k] > ORDER)
			s.at[k] = sort == 3 ? s.at[k] & ~2047 : once_in(10) ? 4096 * between(-1, 1) : 0;
	return s;
}

// A number changed, the sheet cut, or a number too many.
static void spoil(struct sheet *s)
{
	int32_t last = (int32_t)s->len - 1, at = between(0, last);
	switch (between(0, 6)) {
	case 0: s->at[at] += once_in(2) ? 1 : -1; break;
	case 1: s->at[at] = between(-20000, 20000); break;
	case 2: s->at[at] = s->at[between(0, last)]; break;
	case 3: s->at[at] = once_in(2) ? INT32_MAX : INT32_MIN; break;
	case 4: s->len = (size_t)at; break;
	case 5: s->at[s->len++] = 1; break;
	default: s->at[between(0, 1)] = between(-1, 40); break;
	}
}

static void some_block(int32_t *x, size_t n)
{
	static const int32_t edge[] = {SAMPLE, -SAMPLE, SAMPLE, -SAMPLE, 1, -1, 0, 0},
			     beyond[] = {SAMPLE + 1, -SAMPLE - 1, INT32_MAX, INT32_MIN};
	bool at_edge = once_in(4);
	int32_t most = SAMPLE >> between(0, 14);
	for (size_t k = 0; k < n; k++)
		x[k] = at_edge ? edge[between(0, 7)] : between(-most, most);
	if (once_in(20)) { // two, so that it matters which is named
		size_t at = (size_t)between(0, (int32_t)n - 1);
		x[at] = x[n - 1 - at] = beyond[between(0, 3)];
	}
}

// A length, or at times one more.
static size_t some_length(size_t n) { return n + (once_in(40) ? MORE : 0); }

static void agree_on_runs(struct recipe r, size_t size)
{
	static int32_t x[STRIP * ORDER * ORDER + MORE], y[STRIP * ORDER * ORDER + MORE];
	static uint8_t bytes[STRIP + MORE];
	size_t many = (size_t)between(0, STRIP);
	for (size_t k = 0; k < STRIP; k++)
		some_block(x + k * size, size);
	for (int way = FORWARD; way <= INVERSE; way++) {
		for (size_t k = 0; k < 4; k++)
			agree_on_block(way, r, x + k * size, some_length(size), y, some_length(size));
		if (has_strips(r.shape))
			agree_on_strip(way, r, x, some_length(many * size), y, some_length(many * size), bytes, some_length(many));
	}
}

// A recipe, then the same with a fault.
static void agree_on_recipe(enum shape shape, struct sheet *col, struct sheet *row)
{
	struct recipe r = {shape, some_rule(), col, has_two_sheets(shape) ? row : NULL, (uint32_t)some_order()};
	size_t size = size_of(r);
	agree_on_runs(r, size);
	if (shape >= COLUMN_PASS && once_in(4))
		r.other = no_order();
	if (!is_of_passes(shape) || once_in(2))
		spoil(r.row && once_in(2) ? row : col);
	r.rule = some_rule();
	agree_on_runs(r, size);
}

// The numbers by which a run may be refused. Sheets of passes need not match.
static bool is_of_runs(size_t number, bool passes) { return number <= 11 || number == 16 || (number == 12 && !passes); }

static void print_answers(bool passes)
{
	printf("%s: %zu accepted, and refused, by number,\n", passes ? "Passes" : "Lines and joint stages", answers[passes][0]);
	for (size_t k = 1; k <= MOST_NUMBER; k++) {
		if (!is_of_runs(k, passes))
			continue;
		printf("%s%zu: %zu", k > 1 ? ", " : "", k, answers[passes][k]);
		if (!answers[passes][k]) {
			printf(": the cases leave that number out\n");
			exit(1);
		}
	}
	printf("\n");
}

void agree_on_many(int cases)
{
	for (int k = 0; k < cases; k++) {
		static struct sheet col, row;
		enum shape shape = (enum shape)(k % SHAPES);
		char kinds[COUNT + 1];
		some_kinds(kinds);
		col = some_sheet(kinds);
		if (shape == TWO_PASS || once_in(20))
			some_kinds(kinds);
		row = some_sheet(kinds);
		agree_on_recipe(shape, &col, &row);
	}
	printf("Answers, outputs and bytes of both are equal.\n");
	print_answers(false);
	print_answers(true);
	printf("\n");
}
