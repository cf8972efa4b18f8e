// What main.c times and stack.c measures: the calls of the library (crates/bench), and their twins in the best plain C for the
// same answers (line.c, rectangle.c, pass.c, and for refusals check.c and element.c).
#ifndef BENCH_H
#define BENCH_H
#include <stddef.h>
#include <stdbool.h>
#include <stdint.h>

struct answer {
	uint32_t number, side;
	uint64_t place, element;
};

enum { ORDER = 16, COUNT = 32, ENTRY = 16384, SAMPLE = 16777215, RULES = 3 };

// Sheets, recipe bytes, the program's text. A slice of Rattle is a pointer and a length.
struct answer bench_check(const int32_t *s, size_t sn);
struct answer bench_check_pair(const int32_t *col, size_t cn, const int32_t *row, size_t rn);
size_t bench_rest(const int32_t *col, size_t cn, const int32_t *row, size_t rn); // how long the rest is
struct answer bench_read(const uint8_t *bytes, size_t bn, int32_t *out, size_t on);
struct answer bench_write(const int32_t *s, size_t sn, uint8_t *out, size_t on);
struct answer bench_built_in(int32_t *out, size_t on);
struct answer bench_first_printing(int32_t *out, size_t on);
size_t bench_text_of(const uint8_t *input, size_t in, uint8_t *out, size_t on); // how long the text is

// One dimension: a rounding rule, a sheet, a block, the room for the result.
typedef struct answer line_call(uint32_t rule, const int32_t *s, size_t sn, const int32_t *x, size_t xn, int32_t *y, size_t yn);
line_call bench_forward, bench_inverse, twin_forward, twin_inverse;
struct answer bench_allowance(uint32_t rule, const int32_t *s, size_t sn, int32_t *y, size_t yn);

// Two dimensions: a rule, a column sheet, a row sheet, a block row by row, the room for the result.
typedef struct answer block_call(uint32_t rule, const int32_t *col, size_t cn, const int32_t *row, size_t rn, const int32_t *x,
				 size_t xn, int32_t *y, size_t yn);
block_call bench_rectangle_forward, bench_rectangle_inverse, twin_rectangle_forward, twin_rectangle_inverse;
struct answer bench_rectangle_allowance(uint32_t rule, const int32_t *col, size_t cn, const int32_t *row, size_t rn, int32_t *y,
					size_t yn);

// Two passes: the column sheet down each column, the row sheet along each row. A pass alone: the other order in place of the
// other sheet.
block_call bench_two_pass_forward, bench_two_pass_inverse, twin_two_pass_forward, twin_two_pass_inverse;
struct answer bench_two_pass_allowance(uint32_t rule, const int32_t *col, size_t cn, const int32_t *row, size_t rn, int32_t *y,
				       size_t yn);
typedef struct answer pass_call(uint32_t rule, const int32_t *s, size_t sn, uint32_t other, const int32_t *x, size_t xn,
				int32_t *y, size_t yn);
pass_call bench_column_forward, bench_column_inverse, twin_column_forward, twin_column_inverse;
pass_call bench_row_forward, bench_row_inverse, twin_row_forward, twin_row_inverse;

// Strips: blocks end to end, and a byte for each.
typedef struct answer line_strip(uint32_t rule, const int32_t *s, size_t sn, const int32_t *x, size_t xn, int32_t *y, size_t yn,
				 uint8_t *bytes, size_t bn);
line_strip bench_strip_forward, bench_strip_inverse, twin_strip_forward, twin_strip_inverse;
typedef struct answer block_strip(uint32_t rule, const int32_t *col, size_t cn, const int32_t *row, size_t rn, const int32_t *x,
				  size_t xn, int32_t *y, size_t yn, uint8_t *bytes, size_t bn);
block_strip bench_rectangle_strip_forward, bench_rectangle_strip_inverse;
block_strip twin_rectangle_strip_forward, twin_rectangle_strip_inverse;

#endif
