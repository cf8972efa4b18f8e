// Prints how deep the stack of each call of the library gets, and of its twin in C: the most over the cases below. It fails
// if the cases leave out an answer that README.md names for a call. What is counted, and how, stands in docs/STACK.md.
#include "sheets.h"
#include <stdio.h>
#include <stdlib.h>
#include <string.h>

// ---- a call on a painted stack

// Two words, as Rattle passes it.
struct slice {
	const void *at;
	size_t len;
};

// What a call is given, word by word: where its answer goes, if it gives one; a rule, if it takes one; at most five slices; of a
// pass alone the other order, a word after the sheet.
enum { SLICES = 5, WORDS = 2 + 2 * SLICES };

typedef void code(void);

// What a call gives: an answer, or a length.
struct result {
	struct answer answer;
	uint64_t length;
};

// An answer has three words, so C and Rattle write it where the caller says. That is not on the stack that is measured.
static struct answer answered;

enum { DEEPEST = 1 << 20, PUSHED = 6 * 8 };
static _Alignas(16) uint8_t stack[DEEPEST];
static uint8_t *const top = stack + DEEPEST;

// Six words go in registers and six on the stack, as C passes them. A call with fewer does not look at the others. Nothing but
// these is pushed before the call, so all that is written below them is the call's.
static struct result call_at_top(code *f, const uint64_t words[WORDS])
{
	uint64_t length;
	__asm__ volatile("movq %%rsp, %%rbx\n\t"
			 "movq %[top], %%rsp\n\t"
			 "pushq 88(%%rax)\n\t"
			 "pushq 80(%%rax)\n\t"
			 "pushq 72(%%rax)\n\t"
			 "pushq 64(%%rax)\n\t"
			 "pushq 56(%%rax)\n\t"
			 "pushq 48(%%rax)\n\t"
			 "movq 40(%%rax), %%r9\n\t"
			 "movq 32(%%rax), %%r8\n\t"
			 "movq 24(%%rax), %%rcx\n\t"
			 "movq 16(%%rax), %%rdx\n\t"
			 "movq 8(%%rax), %%rsi\n\t"
			 "movq (%%rax), %%rdi\n\t"
			 "callq *%[f]\n\t"
			 "movq %%rbx, %%rsp"
			 : "=&a"(length)
			 : "0"(words), [f] "r"(f), [top] "r"(top)
			 : "rbx", "rcx", "rdx", "rsi", "rdi", "r8", "r9", "r10", "r11", "xmm0", "xmm1", "xmm2", "xmm3", "xmm4", "xmm5", "xmm6",
			   "xmm7", "xmm8", "xmm9", "xmm10", "xmm11", "xmm12", "xmm13", "xmm14", "xmm15", "cc", "memory");
	return (struct result){answered, length};
}

static void deepen(size_t *most, size_t depth)
{
	if (depth > *most)
		*most = depth;
}

// From the stack pointer at the call instruction down to the lowest byte that differs from the paint. A written byte that is
// equal to one paint differs from the other. Only the upper part is painted, `reach` bytes, of which a call may use half.
static size_t depth_of(code *f, const uint64_t words[WORDS], size_t reach, struct result *r)
{
	static const uint8_t paints[2] = {0xa5, 0x5a};
	size_t deepest = 0;
	for (int k = 0; k < 2; k++) {
		uint8_t *low = top - reach;
		memset(low, paints[k], reach);
		*r = call_at_top(f, words);
		while (*low == paints[k])
			low++;
		deepen(&deepest, (size_t)(top - PUSHED - low));
	}
	if (deepest > reach / 2) {
		printf("%zu bytes or more: paint more of the stack\n", deepest);
		exit(1);
	}
	return deepest;
}

// ---- the calls that README.md names, and what the program prints

// Numbers of answers as bits: 0 to 9, with 12 for a pair, and the others.
enum { SHEET = 0x3ff, PAIR = SHEET | 1 << 12, LENGTH = 1 << 10, BOUND = 1 << 11, ALLOW = 1 << 13, SPELT = 1 << 14,
	ROOM = 1 << 15, RULE = 1 << 16 };

struct call {
	const char *name;
	uint32_t answers; // those that the cases must bring about, and no others
	code *library, *twin;
};

enum {
	CHECK,
	CHECK_PAIR,
	REST,
	READ,
	WRITE,
	BUILT_IN,
	FIRST_PRINTING,
	LINE,		      // forward, inverse, allowance, strip forward, strip inverse
	BLOCK = LINE + 5,     // the same of a rectangle
	TWO_PASS = BLOCK + 5, // forward, inverse, allowance
	COLUMN = TWO_PASS + 3, // forward, inverse
	ROW = COLUMN + 2,
	BY_RULES = ROW + 2, // by rule 1: forward and inverse of each shape; then by rule 2
	TEXT = BY_RULES + 20,
	CALLS
};
enum { FORWARD, INVERSE, ALLOWANCE, STRIP_FORWARD, STRIP_INVERSE };

#define CODE(f) ((code *)(f))
static const struct call calls[CALLS] = {
	[CHECK] = {"sheet::check", SHEET, CODE(bench_check), NULL},
	[CHECK_PAIR] = {"sheet::check_pair", PAIR, CODE(bench_check_pair), NULL},
	[REST] = {"sheet::rest", 0, CODE(bench_rest), NULL},
	[READ] = {"recipe::read", SHEET | SPELT | ROOM, CODE(bench_read), NULL},
	[WRITE] = {"recipe::write", SHEET | ROOM, CODE(bench_write), NULL},
	[BUILT_IN] = {"recipe::built_in", 1 | ROOM, CODE(bench_built_in), NULL},
	[FIRST_PRINTING] = {"recipe::first_printing", 1 | ROOM, CODE(bench_first_printing), NULL},
	[LINE + FORWARD] = {"line::forward", SHEET | LENGTH | BOUND | RULE, CODE(bench_forward), CODE(twin_forward)},
	[LINE + INVERSE] = {"line::inverse", SHEET | LENGTH | BOUND | RULE, CODE(bench_inverse), CODE(twin_inverse)},
	[LINE + ALLOWANCE] = {"line::allowance", SHEET | LENGTH | ALLOW | RULE, CODE(bench_allowance), NULL},
	[LINE + STRIP_FORWARD] = {"strip::line_forward", SHEET | LENGTH | RULE, CODE(bench_strip_forward),
		CODE(twin_strip_forward)},
	[LINE + STRIP_INVERSE] = {"strip::line_inverse", SHEET | LENGTH | RULE, CODE(bench_strip_inverse),
		CODE(twin_strip_inverse)},
	[BLOCK + FORWARD] = {"rectangle::forward", PAIR | LENGTH | BOUND | RULE, CODE(bench_rectangle_forward),
		CODE(twin_rectangle_forward)},
	[BLOCK + INVERSE] = {"rectangle::inverse", PAIR | LENGTH | BOUND | RULE, CODE(bench_rectangle_inverse),
		CODE(twin_rectangle_inverse)},
	[BLOCK + ALLOWANCE] = {"rectangle::allowance", PAIR | LENGTH | ALLOW | RULE, CODE(bench_rectangle_allowance), NULL},
	[BLOCK + STRIP_FORWARD] = {"strip::joint_forward", PAIR | LENGTH | RULE, CODE(bench_rectangle_strip_forward),
		CODE(twin_rectangle_strip_forward)},
	[BLOCK + STRIP_INVERSE] = {"strip::joint_inverse", PAIR | LENGTH | RULE, CODE(bench_rectangle_strip_inverse),
		CODE(twin_rectangle_strip_inverse)},
	[TWO_PASS + FORWARD] = {"twopass::forward", SHEET | LENGTH | BOUND | RULE, CODE(bench_two_pass_forward),
		CODE(twin_two_pass_forward)},
	[TWO_PASS + INVERSE] = {"twopass::inverse", SHEET | LENGTH | BOUND | RULE, CODE(bench_two_pass_inverse),
		CODE(twin_two_pass_inverse)},
	[TWO_PASS + ALLOWANCE] = {"twopass::allowance", SHEET | LENGTH | ALLOW | RULE, CODE(bench_two_pass_allowance), NULL},
	[COLUMN + FORWARD] = {"twopass::column_forward", SHEET | LENGTH | BOUND | RULE, CODE(bench_column_forward),
		CODE(twin_column_forward)},
	[COLUMN + INVERSE] = {"twopass::column_inverse", SHEET | LENGTH | BOUND | RULE, CODE(bench_column_inverse),
		CODE(twin_column_inverse)},
	[ROW + FORWARD] = {"twopass::row_forward", SHEET | LENGTH | BOUND | RULE, CODE(bench_row_forward), CODE(twin_row_forward)},
	[ROW + INVERSE] = {"twopass::row_inverse", SHEET | LENGTH | BOUND | RULE, CODE(bench_row_inverse), CODE(twin_row_inverse)},
	[BY_RULES] = {"line::forward, rule 1", SHEET | BOUND, CODE(bench_forward), CODE(twin_forward)},
	[BY_RULES + 1] = {"line::inverse, rule 1", SHEET | BOUND, CODE(bench_inverse), CODE(twin_inverse)},
	[BY_RULES + 2] = {"rectangle::forward, rule 1", PAIR | BOUND, CODE(bench_rectangle_forward), CODE(twin_rectangle_forward)},
	[BY_RULES + 3] = {"rectangle::inverse, rule 1", PAIR | BOUND, CODE(bench_rectangle_inverse), CODE(twin_rectangle_inverse)},
	[BY_RULES + 4] = {"twopass::forward, rule 1", SHEET | BOUND, CODE(bench_two_pass_forward), CODE(twin_two_pass_forward)},
	[BY_RULES + 5] = {"twopass::inverse, rule 1", SHEET | BOUND, CODE(bench_two_pass_inverse), CODE(twin_two_pass_inverse)},
	[BY_RULES + 6] = {"twopass::column_forward, rule 1", SHEET | BOUND, CODE(bench_column_forward), CODE(twin_column_forward)},
	[BY_RULES + 7] = {"twopass::column_inverse, rule 1", SHEET | BOUND, CODE(bench_column_inverse), CODE(twin_column_inverse)},
	[BY_RULES + 8] = {"twopass::row_forward, rule 1", SHEET | BOUND, CODE(bench_row_forward), CODE(twin_row_forward)},
	[BY_RULES + 9] = {"twopass::row_inverse, rule 1", SHEET | BOUND, CODE(bench_row_inverse), CODE(twin_row_inverse)},
	[BY_RULES + 10] = {"line::forward, rule 2", SHEET | BOUND, CODE(bench_forward), CODE(twin_forward)},
	[BY_RULES + 11] = {"line::inverse, rule 2", SHEET | BOUND, CODE(bench_inverse), CODE(twin_inverse)},
	[BY_RULES + 12] = {"rectangle::forward, rule 2", PAIR | BOUND, CODE(bench_rectangle_forward), CODE(twin_rectangle_forward)},
	[BY_RULES + 13] = {"rectangle::inverse, rule 2", PAIR | BOUND, CODE(bench_rectangle_inverse), CODE(twin_rectangle_inverse)},
	[BY_RULES + 14] = {"twopass::forward, rule 2", SHEET | BOUND, CODE(bench_two_pass_forward), CODE(twin_two_pass_forward)},
	[BY_RULES + 15] = {"twopass::inverse, rule 2", SHEET | BOUND, CODE(bench_two_pass_inverse), CODE(twin_two_pass_inverse)},
	[BY_RULES + 16] = {"twopass::column_forward, rule 2", SHEET | BOUND, CODE(bench_column_forward), CODE(twin_column_forward)},
	[BY_RULES + 17] = {"twopass::column_inverse, rule 2", SHEET | BOUND, CODE(bench_column_inverse), CODE(twin_column_inverse)},
	[BY_RULES + 18] = {"twopass::row_forward, rule 2", SHEET | BOUND, CODE(bench_row_forward), CODE(twin_row_forward)},
	[BY_RULES + 19] = {"twopass::row_inverse, rule 2", SHEET | BOUND, CODE(bench_row_inverse), CODE(twin_row_inverse)},
	[TEXT] = {"session::text_of", SHEET | LENGTH | BOUND | ALLOW | SPELT | ROOM, CODE(bench_text_of), NULL},
};

static struct {
	size_t library, twin; // the deepest so far
	uint32_t answers;
	bool at_first, at_last; // whether a number was beyond the bound in what was given, at the last stage
} seen[CALLS];

static bool takes_rule(size_t which) { return which >= LINE && which < TEXT; }

// The other order of a pass alone is a word after the rule and the sheet.
static bool takes_order(size_t which)
{
	size_t shape = which < BY_RULES ? 0 : (which - BY_RULES) / 2 % 5;
	return (which >= COLUMN && which < BY_RULES) || (takes_rule(which) && shape > 2);
}

static bool gives_length(size_t which) { return which == REST || which == TEXT; }

static uint32_t other; // the other order, if a call takes one

static struct result ask(size_t which, uint32_t rule, const struct slice a[SLICES])
{
	uint64_t words[WORDS] = {0}, *w = words;
	if (!gives_length(which))
		*w++ = (uint64_t)&answered;
	if (takes_rule(which))
		*w++ = rule;
	if (takes_order(which)) {
		memcpy(w, a, sizeof *a);
		w[2] = other;
		memcpy(w + 3, a + 1, (SLICES - 2) * sizeof *a);
	} else
		memcpy(w, a, SLICES * sizeof *a);
	size_t reach = which == TEXT ? DEEPEST : DEEPEST / 16; // the program keeps three long arrays
	struct result r, s;
	deepen(&seen[which].library, depth_of(calls[which].library, words, reach, &r));
	if (calls[which].twin)
		deepen(&seen[which].twin, depth_of(calls[which].twin, words, reach, &s));
	return r;
}

static bool is_two_pass(size_t which)
{
	return (which >= TWO_PASS && which < COLUMN) || (which >= BY_RULES && which < TEXT && (which - BY_RULES) / 2 % 5 == 2);
}

static uint64_t last_stage(size_t which) { return is_two_pass(which) ? 2 * COUNT : COUNT; }

static void ask_answer(size_t which, uint32_t rule, const struct slice a[SLICES])
{
	struct answer r = ask(which, rule, a).answer;
	seen[which].answers |= 1u << r.number;
	if (r.number == 11) {
		seen[which].at_first |= r.place == 0;
		seen[which].at_last |= r.place == last_stage(which);
	}
}

#define ASK(which, ...) ask_answer(which, 0, (struct slice[SLICES]){__VA_ARGS__})

// ---- sheets

static struct sheet list[64];
static size_t many;

static void add(struct sheet s)
{
	list[many++] = s;
}

static struct sheet with_fault(int number)
{
	struct sheet s = made(ORDER, "1234", 16);
	switch (number) {
	case 1: s.len--; break;
	case 2: s.at[0] = ORDER + 1; break;
	case 3: s.at[1] = COUNT + 1; break;
	case 4: s.at[2] = 5; break;
	case 5: s.at[3] = ORDER; break;
	case 6: s.at[4] = s.at[3]; break;
	case 7: s.at[3 + ORDER + 1] = 0; break; // the first sign of the second factor
	case 8: s.at[s.len - 1] = ENTRY + 1; break;
	default: s.at[s.len++] = 1; break;
	}
	return s;
}

// Neighbours are asked as pairs: some have the kinds and not the order, some the order and not the kinds.
static void make_list(void)
{
	static const char all[] = "12341234123412341234123412341234", low[] = "22222222222222222222222222222222",
			  ends[] = "23412341234123412341234123412342";
	static const char *const kinds[] = {"1", "2", "3", "4", "1234", all, low};
	static const int32_t orders[] = {16, 8, 4, 1};
	for (size_t k = 0; k < sizeof kinds / sizeof *kinds; k++)
		for (size_t n = 0; n < sizeof orders / sizeof *orders; n++)
			add(made(orders[n], kinds[k], 16));
	add(built_in());
	add(made(ORDER, all, ENTRY)); // allowances pass the bound
	add(made(ORDER, ends, 0)); // as one of two passes, it leaves the last stage to the other
	for (size_t back = 0; back < 2; back++) { // numbers at the bound stay there until the last stage
		struct sheet s = made(ORDER, ends, 0);
		s.at[back ? 3 + ORDER : s.len - 1] = ENTRY;
		add(s);
	}
	add(made(ORDER, ends, 0));
	add((struct sheet){0});
	for (int number = 1; number <= 9; number++)
		add(with_fault(number));
	struct sheet s = made(ORDER, low, 16);
	s.at[s.len++] = 1; // more numbers than any sheet has
	add(s);
}

static struct slice of(const struct sheet *s)
{
	return (struct slice){s->at, s->len};
}

static size_t order_of(const struct sheet *s)
{
	return s->len && s->at[0] <= ORDER ? (size_t)s->at[0] : ORDER;
}

// ---- runs

enum { BLOCKS = 4 };
static int32_t x[BLOCKS * ORDER * ORDER + 1], y[BLOCKS * ORDER * ORDER + 1];
static uint8_t bytes[BLOCKS];

// Blocks of zeros, of small numbers, at the bound, and beyond it.
static void fill(size_t size)
{
	memset(x, 0, sizeof x);
	for (size_t k = 0; k < size; k++) {
		x[size + k] = between(-100, 100);
		x[2 * size + k] = x[3 * size + k] = SAMPLE;
	}
	x[4 * size - 1]++;
}

// The calls of a shape: the first `sheets` slices are given, and all else follows.

static void ask_blocks(size_t which, uint32_t rule, struct slice *a, size_t sheets, size_t size)
{
	a[sheets + 1] = (struct slice){y, size};
	for (size_t k = 0; k < BLOCKS; k++) {
		a[sheets] = (struct slice){x + k * size, size};
		ask_answer(which, rule, a);
	}
}

static void ask_ways(size_t shape, struct slice *a, size_t sheets, size_t size)
{
	struct slice *from = a + sheets, *to = from + 1;
	for (size_t way = FORWARD; way <= INVERSE; way++) {
		ask_blocks(shape + way, 0, a, sheets, size);
		from->len++;
		ask_answer(shape + way, 0, a);
		from->len--;
		to->len++;
		ask_answer(shape + way, 0, a);
	}
}

static void ask_allowance(size_t shape, struct slice *a, size_t sheets, size_t size)
{
	a[sheets] = (struct slice){y, size};
	ask_answer(shape + ALLOWANCE, 0, a);
	a[sheets].len++;
	ask_answer(shape + ALLOWANCE, 0, a);
}

static void ask_strips(size_t shape, struct slice *a, size_t sheets, size_t size)
{
	struct slice *from = a + sheets, *to = from + 1, *marks = from + 2;
	for (size_t way = STRIP_FORWARD; way <= STRIP_INVERSE; way++) {
		*marks = (struct slice){bytes, BLOCKS};
		*from = (struct slice){x, BLOCKS * size};
		*to = (struct slice){y, BLOCKS * size};
		ask_answer(shape + way, 0, a);
		to->len++;
		ask_answer(shape + way, 0, a);
		from->len++;
		ask_answer(shape + way, 0, a);
		from->len = to->len = marks->len = 0;
		ask_answer(shape + way, 0, a);
	}
}

// By rules 1 and 2; then by a number that is none. Which of the five shapes it is, and the last of its calls.
static void ask_by_rules(size_t shape, size_t number, size_t last, struct slice *a, size_t sheets, size_t size)
{
	for (uint32_t rule = 1; rule < RULES; rule++)
		for (size_t way = FORWARD; way <= INVERSE; way++)
			ask_blocks(BY_RULES + 10 * (rule - 1) + 2 * number + way, rule, a, sheets, size);
	for (size_t task = FORWARD; task <= last; task++)
		ask_answer(shape + task, RULES, a);
}

static void ask_runs(size_t shape, size_t number, struct slice *a, size_t sheets, size_t size)
{
	fill(size);
	ask_ways(shape, a, sheets, size);
	ask_allowance(shape, a, sheets, size);
	ask_strips(shape, a, sheets, size);
	ask_by_rules(shape, number, STRIP_INVERSE, a, sheets, size);
}

static void ask_two_pass(struct slice *a, size_t size)
{
	fill(size);
	ask_ways(TWO_PASS, a, 2, size);
	ask_allowance(TWO_PASS, a, 2, size);
	ask_by_rules(TWO_PASS, 2, ALLOWANCE, a, 2, size);
}

// Over 16 lines, over 4, over one; then over none, and over too many.
static void ask_passes(const struct sheet *s, size_t n)
{
	static const uint32_t orders[] = {ORDER, 4, 1, 0, ORDER + 1};
	for (size_t k = 0; k < sizeof orders / sizeof *orders; k++) {
		other = orders[k];
		size_t size = n * (other && other <= ORDER ? other : 1);
		for (size_t way = 0; way < 2; way++) {
			struct slice a[SLICES] = {of(s)};
			size_t shape = way ? ROW : COLUMN;
			fill(size);
			ask_ways(shape, a, 1, size);
			ask_by_rules(shape, 3 + way, INVERSE, a, 1, size);
		}
	}
}

static void ask_sheet(const struct sheet *s)
{
	ASK(CHECK, of(s));
	ask_runs(LINE, 0, (struct slice[SLICES]){of(s)}, 1, order_of(s));
	ask_passes(s, order_of(s));
}

static void ask_pair(const struct sheet *col, const struct sheet *row)
{
	ASK(CHECK_PAIR, of(col), of(row));
	ask(REST, 0, (struct slice[SLICES]){of(col), of(row)});
	size_t size = order_of(col) * order_of(row);
	ask_runs(BLOCK, 1, (struct slice[SLICES]){of(col), of(row)}, 2, size);
	ask_two_pass((struct slice[SLICES]){of(col), of(row)}, size);
}

// ---- recipe bytes, and what the program prints

enum { MOST_BYTES = 3 * (LONGEST + 1), LIMIT = 16384, MOST_SPELT = 1048575 };

struct spelling {
	size_t len;
	uint8_t at[LIMIT + 1];
};

static void spell(struct spelling *b, int32_t v)
{
	uint32_t u = v < 0 ? -2 * (uint32_t)v - 1 : 2 * (uint32_t)v;
	for (; u >= 128; u >>= 7)
		b->at[b->len++] = (uint8_t)(128 | u);
	b->at[b->len++] = (uint8_t)u;
}

static void spell_all(struct spelling *b, const int32_t *v, size_t n)
{
	for (size_t k = 0; k < n; k++)
		spell(b, v[k] < MOST_SPELT ? v[k] : MOST_SPELT);
}

static void ask_recipe(const struct sheet *s)
{
	static int32_t numbers[LONGEST + 1];
	static uint8_t out[MOST_BYTES];
	static struct spelling b;
	b.len = 0;
	spell_all(&b, s->at, s->len);
	ASK(READ, {b.at, b.len}, {numbers, LONGEST});
	ASK(READ, {b.at, b.len}, {numbers, 1});
	ASK(WRITE, of(s), {out, MOST_BYTES});
	ASK(WRITE, of(s), {out, 1});
}

// The room is longer than any text.
static void ask_text(const struct spelling *b)
{
	static char out[4096];
	struct result r = ask(TEXT, 0, (struct slice[SLICES]){{b->at, b->len}, {out, sizeof out - 1}});
	out[r.length] = 0;
	const char *refusal = strstr(out, "refused ");
	seen[TEXT].answers |= 1u << (refusal ? atoi(refusal + 8) : 0);
}

// A count, the sheet, each of the blocks; then a block with a number too many.
static void ask_program(const struct sheet *s)
{
	static struct spelling b;
	size_t n = order_of(s);
	fill(n);
	for (size_t k = 0; k <= BLOCKS; k++) {
		b.len = 0;
		spell(&b, (int32_t)s->len);
		spell_all(&b, s->at, s->len);
		spell_all(&b, x + k % BLOCKS * n, k < BLOCKS ? n : n + 1);
		ask_text(&b);
	}
}

// Cut, longer than need be, too long; then more bytes than the program takes.
static void ask_misspelt(void)
{
	static struct spelling b[] = {{1, {128}}, {2, {128, 0}}, {4, {128, 128, 128, 1}}, {LIMIT + 1, {0}}};
	static int32_t numbers[LONGEST];
	for (size_t k = 0; k < sizeof b / sizeof *b; k++) {
		ASK(READ, {b[k].at, b[k].len}, {numbers, LONGEST});
		ask_text(&b[k]);
	}
}

static void ask_tables(void)
{
	static int32_t out[45];
	for (size_t room = 44; room <= 45; room++) {
		ASK(BUILT_IN, {out, room});
		ASK(FIRST_PRINTING, {out, room});
	}
}

// ---- the table

static void print(size_t which)
{
	const struct call *c = &calls[which];
	bool first = seen[which].at_first, last = seen[which].at_last;
	bool ends = which == TEXT || (first == last && first == !!(c->answers & BOUND)); // a text's stages are not looked at
	if (seen[which].answers != c->answers || !ends) {
		printf("%s: the cases bring about answers %x, 11 at the first stage %d, at the last %d\n", c->name, seen[which].answers,
		       first, last);
		exit(1);
	}
	printf("%-32s %8zu", c->name, seen[which].library);
	if (c->twin)
		printf(" %8zu", seen[which].twin);
	printf("\n");
}

int main(void)
{
	make_list();
	for (size_t k = 0; k < many; k++) {
		ask_sheet(&list[k]);
		ask_pair(&list[k], &list[k]);
		ask_pair(&list[k], &list[(k + 1) % many]);
		ask_recipe(&list[k]);
		ask_program(&list[k]);
	}
	ask_misspelt();
	ask_tables();
	printf("%-32s %8s %8s\n", "deepest stack, bytes", "library", "C");
	for (size_t k = 0; k < CALLS; k++)
		print(k);
	return 0;
}
