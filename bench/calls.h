// The calls that agree.c compares and main.c times: of the library or its twin, forward or inverse, of each shape.
#ifndef CALLS_H
#define CALLS_H
#include "sheets.h"

enum { LIBRARY, TWIN };
enum { FORWARD, INVERSE };

// One sheet: a line, or a pass alone over a rectangle. Two: a rectangle by joint stages, or by a column pass and a row pass.
enum shape { LINE, JOINT, TWO_PASS, COLUMN_PASS, ROW_PASS, SHAPES };

struct recipe {
	enum shape shape;
	uint32_t rule;
	const struct sheet *col, *row; // where there is one sheet, it is col
	uint32_t other;		       // the other order of a pass alone
};

static inline bool has_two_sheets(enum shape s) { return s == JOINT || s == TWO_PASS; }

static inline bool has_strips(enum shape s) { return s == LINE || s == JOINT; }

static inline size_t size_of(struct recipe r)
{
	size_t n = (size_t)r.col->at[0];
	return r.shape == LINE ? n : n * (has_two_sheets(r.shape) ? (size_t)r.row->at[0] : r.other);
}

// A single block.
static inline struct answer ask(int who, int way, struct recipe r, const int32_t *x, size_t xn, int32_t *y, size_t yn)
{
	static line_call *const line[2][2] = {{bench_forward, bench_inverse}, {twin_forward, twin_inverse}};
	static block_call *const block[2][2][2] = {
		{{bench_rectangle_forward, bench_rectangle_inverse}, {twin_rectangle_forward, twin_rectangle_inverse}},
		{{bench_two_pass_forward, bench_two_pass_inverse}, {twin_two_pass_forward, twin_two_pass_inverse}}};
	static pass_call *const pass[2][2][2] = {
		{{bench_column_forward, bench_column_inverse}, {twin_column_forward, twin_column_inverse}},
		{{bench_row_forward, bench_row_inverse}, {twin_row_forward, twin_row_inverse}}};
	const int32_t *s = r.col->at;
	size_t sn = r.col->len;
	if (r.shape == LINE)
		return line[who][way](r.rule, s, sn, x, xn, y, yn);
	if (has_two_sheets(r.shape))
		return block[r.shape - JOINT][who][way](r.rule, s, sn, r.row->at, r.row->len, x, xn, y, yn);
	return pass[r.shape - COLUMN_PASS][who][way](r.rule, s, sn, r.other, x, xn, y, yn);
}

// A strip, of a line or by joint stages.
static inline struct answer ask_strip(int who, int way, struct recipe r, const int32_t *x, size_t xn, int32_t *y, size_t yn,
				      uint8_t *bytes, size_t bn)
{
	static line_strip *const line[2][2] = {{bench_strip_forward, bench_strip_inverse},
					       {twin_strip_forward, twin_strip_inverse}};
	static block_strip *const block[2][2] = {{bench_rectangle_strip_forward, bench_rectangle_strip_inverse},
						 {twin_rectangle_strip_forward, twin_rectangle_strip_inverse}};
	if (r.shape == LINE)
		return line[who][way](r.rule, r.col->at, r.col->len, x, xn, y, yn, bytes, bn);
	return block[who][way](r.rule, r.col->at, r.col->len, r.row->at, r.row->len, x, xn, y, yn, bytes, bn);
}

// agree.c: both give one answer and write the same, or the program ends. The answer, and what the library wrote.
enum { MOST_BLOCKS = 1000 };
struct answer agree_on_block(int way, struct recipe r, const int32_t *x, size_t xn, int32_t *y, size_t yn);
struct answer agree_on_strip(int way, struct recipe r, const int32_t *x, size_t xn, int32_t *y, size_t yn, uint8_t *bytes,
			     size_t bn);
void agree_on_many(int cases); // made from the seed; prints how many there were of each number

#endif
