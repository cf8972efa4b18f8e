// Times the library's calls and their twins in C by turns, in one process, and prints a table. Before that it holds their answers
// to each other. usage: main [ROUNDS [FILTER [SEED]]]; only rows with FILTER in their text are timed.
#include "calls.h"
#include <stdio.h>
#include <stdlib.h>
#include <string.h>
#include <time.h>

enum { BLOCKS = MOST_BLOCKS, CASES = 10000, SHORT = 8 };

static int rounds = 100;
static const char *filter = "";

// ---- times

static double seconds(void) // of this process alone
{
	struct timespec t;
	clock_gettime(CLOCK_PROCESS_CPUTIME_ID, &t);
	return (double)t.tv_sec + (double)t.tv_nsec * 1e-9;
}

static int by_size(const void *a, const void *b)
{
	double s = *(const double *)a, t = *(const double *)b;
	return (s > t) - (s < t);
}

// What disturbs a round makes it slower, and the fastest of all may be luck.
static double lower_quartile(double *ns, int many)
{
	qsort(ns, (size_t)many, sizeof *ns, by_size);
	return ns[many / 4];
}

// Blocks: what forward runs of a recipe are given, and what its inverse runs are given.
typedef int32_t blocks[2][BLOCKS * ORDER * ORDER];

struct task {
	const char *name;
	struct recipe recipe;
	int rounds;
	double aim; // the most that the library is to take of the twin's time; 0: no aim
	blocks *given;
};

static int32_t out[BLOCKS * ORDER * ORDER];
static uint8_t bytes[BLOCKS];

// One of the two that are timed by turns: a task by the library or by the twin.
struct side {
	const struct task *task;
	int who;
};

static double round_of(struct side s, bool strip, int way)
{
	struct recipe r = s.task->recipe;
	const int32_t *x = (*s.task->given)[way];
	size_t n = size_of(r);
	double start = seconds();
	if (strip)
		ask_strip(s.who, way, r, x, BLOCKS * n, out, BLOCKS * n, bytes, BLOCKS);
	else
		for (size_t k = 0; k < BLOCKS; k++)
			ask(s.who, way, r, x + k * n, n, out + k * n, n);
	return (seconds() - start) * 1e9 / BLOCKS;
}

// By turns, each as often the first of a round as the other.
static void time_both(const struct side sides[2], bool strip, int way, double ns[2])
{
	int many = sides[0].task->rounds;
	double *all[2];
	for (int s = 0; s < 2; s++)
		all[s] = malloc((size_t)many * sizeof **all);
	for (int k = 0; k < 2 * many; k++) {
		int s = (k / 2 + k) % 2;
		all[s][k / 2] = round_of(sides[s], strip, way);
	}
	for (int s = 0; s < 2; s++) {
		ns[s] = lower_quartile(all[s], many);
		free(all[s]);
	}
}

// ---- the table

static int aims, missed;

static void print_aim(double ratio, double aim)
{
	if (aim > 0) {
		printf(" %6.2f%s", aim, ratio > aim ? "  missed" : "");
		aims++;
		missed += ratio > aim;
	}
	printf("\n");
	fflush(stdout);
}

static bool is_asked_for(const struct task *t, bool strip, const char *way)
{
	char text[128];
	snprintf(text, sizeof text, "%s %s %s", t->name, strip ? "strip" : "single", way);
	return strstr(text, filter);
}

static const char *const ways[2] = {"forward", "inverse"};

static void print_row(const struct task *t, bool strip, int way, double ns[2])
{
	time_both((struct side[2]){{t, LIBRARY}, {t, TWIN}}, strip, way, ns);
	double ratio = ns[LIBRARY] / ns[TWIN];
	printf("%-28s %-6s  %-7s %10.1f %10.1f %7.2f", t->name, strip ? "strip" : "single", ways[way], ns[LIBRARY], ns[TWIN], ratio);
	print_aim(ratio, t->aim);
}

// Both ways; then, where there is an aim for it, what the inverse takes of the forward run's time.
static void print_rows(const struct task *t, bool strip, double back_aim)
{
	double forth[2] = {0}, back[2] = {0};
	if (is_asked_for(t, strip, "forward"))
		print_row(t, strip, FORWARD, forth);
	if (is_asked_for(t, strip, "inverse"))
		print_row(t, strip, INVERSE, back);
	if (back_aim <= 0 || forth[LIBRARY] <= 0 || back[LIBRARY] <= 0)
		return;
	double library = back[LIBRARY] / forth[LIBRARY];
	printf("%-28s %-6s  %-7s %10.2f %10.2f %7s", "  inverse / forward", strip ? "strip" : "single", "", library,
	       back[TWIN] / forth[TWIN], "");
	print_aim(library, back_aim);
}

// The library and the twin agree on each block, and on the strip of all of them. Whether none is refused.
static bool run_all(struct recipe r, int way, const int32_t *x, int32_t *y)
{
	size_t n = size_of(r), all = BLOCKS * n;
	if (has_strips(r.shape))
		agree_on_strip(way, r, x, all, y, all, bytes, BLOCKS);
	bool ok = true;
	for (size_t k = 0; k < all; k += n)
		ok &= agree_on_block(way, r, x + k, n, y + k, n).number == 0;
	return ok;
}

// Blocks that the recipe accepts, all different, and what it makes of them: that is given to the inverse.
static void make_blocks(const struct task *t)
{
	int32_t *forth = (*t->given)[FORWARD], *back = (*t->given)[INVERSE];
	size_t all = BLOCKS * size_of(t->recipe);
	for (size_t k = 0; k < all; k++)
		forth[k] = between(-4096, 4095);
	bool ok = run_all(t->recipe, FORWARD, forth, back) && run_all(t->recipe, INVERSE, back, out);
	if (!ok || memcmp(forth, out, all * sizeof *out)) {
		printf("%s: a block is refused, or does not come back\n", t->name);
		exit(1);
	}
}

static void time_task(struct task t, double back_aim)
{
	make_blocks(&t);
	print_rows(&t, false, back_aim);
	if (has_strips(t.recipe.shape))
		print_rows(&t, true, back_aim);
}

// The library's two passes and its joint run on the same sheets, by turns. Two passes are to be the faster: all their sums are
// over numbers, and half of a joint stage's are over sums.
static void time_against_joint(struct task t)
{
	static blocks joint_given;
	struct task joint = t;
	joint.recipe.shape = JOINT;
	joint.given = &joint_given;
	make_blocks(&joint);
	for (int way = FORWARD; way <= INVERSE; way++) {
		double ns[2];
		if (!is_asked_for(&t, false, ways[way]))
			continue;
		time_both((struct side[2]){{&t, LIBRARY}, {&joint, LIBRARY}}, false, way, ns);
		printf("%-28s %-6s  %-7s %10.1f %10.1f %7.2f", "  two-pass / joint, library", "single", ways[way], ns[0], ns[1],
		       ns[0] / ns[1]);
		print_aim(ns[0] / ns[1], 1);
	}
}

// ---- the rows

struct row {
	const char *name;
	int32_t n1, n2;    // n2 is 0 for a line
	const char *kinds; // NULL: the built-in recipe
	int32_t size;	   // of the entries
	double aim, back_aim;
	const char *by_rules; // a name for the rows by rules 1 and 2, which have no aim; NULL: there are none
	const char *across;   // the row sheet's kinds, of two passes; NULL: there are joint stages
};

static const struct row table[] = {
	{"line of 4, built-in", 4, 0, NULL, 0, 1.35, 0, "line of 4", NULL},
	{"line of 16, 8 factors", 16, 0, "23412341", 2048, 1.25, 0, "line of 16", NULL},
	{"line of 4, 32 factors", 4, 0, "12341234123412341234123412341234", 1024, 1.10, 1.40, NULL, NULL},
	{"line of 3, 4 single rows", 3, 0, "44441", 2048, 0, 0, NULL, NULL},
	{"4 by 4, built-in", 4, 4, NULL, 0, 1.30, 0, "4 by 4", NULL},
	{"8 by 8, 5 factors", 8, 8, "12342", 1024, 1.30, 0, "8 by 8", NULL},
	{"16 by 16, 5 factors", 16, 16, "12342", 1024, 1.30, 0, "16 by 16", NULL},
	{"16 by 4, 5 factors", 16, 4, "12342", 1024, 1.30, 0, NULL, NULL},
	{"16 by 16, 5 single rows", 16, 16, "44444", 1024, 1.30, 0, "16 by 16 single rows", NULL},
	{"16 by 16, 5 lowers", 16, 16, "22222", 256, 1.30, 0, NULL, NULL},
	{"two-pass 8 by 8, 5 factors", 8, 8, "12323", 1024, 1.50, 0, "two-pass 8 by 8", "12323"},
	{"two-pass 16 by 16, 5 factors", 16, 16, "12323", 1024, 1.30, 0, NULL, "12323"},
	{"two-pass 16 by 4, camera", 16, 4, "23", 1024, 1.50, 0, "two-pass 16 by 4", "4444"},
};
enum { ROWS = sizeof table / sizeof *table };

// The sheets of a row, the same for every rule.
static struct recipe recipe_of(const struct row *w)
{
	static struct sheet sheets[ROWS][2];
	struct sheet *s = sheets[w - table];
	for (int k = 0; k < (w->n2 ? 2 : 1) && !s[k].len; k++)
		s[k] = w->kinds ? made(k ? w->n2 : w->n1, k && w->across ? w->across : w->kinds, w->size) : built_in();
	return (struct recipe){!w->n2 ? LINE : w->across ? TWO_PASS : JOINT, 0, &s[0], w->n2 ? &s[1] : NULL, 0};
}

// A round of short lines is soon over, so there are more of them.
static int rounds_of(const struct row *w) { return w->n1 <= 4 && !w->n2 ? SHORT * rounds : rounds; }

static blocks given;

static void time_by_rule_0(const struct row *w)
{
	struct task t = {w->name, recipe_of(w), rounds_of(w), w->aim, &given};
	time_task(t, w->back_aim);
	if (w->across && !strcmp(w->kinds, w->across))
		time_against_joint(t);
}

static void time_by_others(const struct row *w)
{
	struct recipe r = recipe_of(w);
	for (r.rule = 1; r.rule < RULES; r.rule++) {
		char name[64];
		snprintf(name, sizeof name, "%s, rule %u", w->by_rules, r.rule);
		time_task((struct task){name, r, rounds_of(w), 0, &given}, 0);
	}
}

int main(int argc, char **argv)
{
	if (argc > 1 && atoi(argv[1]) > 0)
		rounds = atoi(argv[1]);
	if (argc > 2)
		filter = argv[2];
	if (argc > 3)
		seed(strtoull(argv[3], NULL, 10));
	agree_on_many(CASES);
	printf("The library and the best C for the same answers, in one run, by turns; to be read alone on the machine. ns for a\n"
	       "block: the lower quartile of %d rounds (lines of 3 and 4: %d), each of 1,000 calls or a strip of 1,000 blocks.\n"
	       "In a row two-pass / joint both are the library's: two passes first, then the joint run.\n\n",
	       rounds, SHORT * rounds);
	printf("%-28s %-6s  %-7s %10s %10s %7s %6s\n", "recipe", "call", "way", "library", "C", "ratio", "aim");
	for (size_t k = 0; k < ROWS; k++)
		time_by_rule_0(&table[k]);
	for (size_t k = 0; k < ROWS; k++)
		if (table[k].by_rules)
			time_by_others(&table[k]);
	if (aims)
		printf("\n%d of %d aims missed\n", missed, aims);
	return 0;
}
