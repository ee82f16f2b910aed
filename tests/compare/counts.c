/*
 * counts.c - reads a pack from standard input and prints how often each thing
 * of the rules occurs in it: one name and one count a line, as "name: count".
 *
 * It shows whether a pack of make.c reaches the places it is made for.
 */

#define SECOND_NO_MAIN
#include "../second/second.c"

#include <inttypes.h>

enum { NUMBERS = 17, RULES = 6 };

/* Why a file is malformed. */
enum {
	EMPTY, NOT_WHOLE, TOO_LONG, NO_SETTING_FIRST, OTHER_FIRST_BYTE,
	NOT_ZERO, OTHER_KIND, OTHER_REPORT, RESOURCE_WITHOUT_TAKE, OUT_OF_ORDER,
	REASONS, NO_REASON = REASONS
};

static const char *const reason_names[REASONS] = {
	"empty", "not whole records", "too long", "first record no setting",
	"a first byte other than 1 to 3", "a byte that should be zero",
	"kind of event other than 1 or 2", "report above 3",
	"resource without take", "order"
};

/* Task counts of number 2; a count kept in one byte is wrong in the last. */
enum { NO_TASKS, ONE_BYTE_OF_TASKS, MORE_TASKS, CROWDS };

static const char *const crowd_names[CROWDS] = {
	"none", "17 to 255", "256 and more"
};

/* Why a report is refused with 14. A fifth is so whatever its limit is. */
enum {
	OWN_AGAIN, OWN_AS_FIFTH, A_FIFTH, FIFTH_OF_LIMIT_0, FIFTH_ABOVE_7,
	GIVE_OF_NONE, IDLE_DONE, IDLE_TAKE, IDLE_GIVE, UNFITS
};

static const char *const unfit_names[UNFITS] = {
	"own resource again", "own resource again as a fifth", "a fifth",
	"a fifth with limit 0", "a fifth above 7", "give with none held",
	"done at an idle tick", "take at an idle tick", "give at an idle tick"
};

/* Which sections of a job cut it at their limits, and right after what. */
enum {
	ONLY_SECTION, INNERMOST_ALONE, OUTERMOST_ALONE, MIDDLE_ALONE,
	TWO_IN_ONE_TICK, AFTER_TAKE_INNERMOST, AFTER_TAKE_FURTHER_OUT,
	AFTER_GIVE_BELOW_LIMIT, AFTER_GIVE_AT_LIMIT, AFTER_GIVE_FURTHER_OUT,
	CUTS
};

static const char *const cut_names[CUTS] = {
	"carry on, the only section", "carry on, the innermost alone",
	"carry on, the outermost alone", "carry on, a middle one alone",
	"carry on, an inner and an outer in one tick",
	"after a take, the innermost before it",
	"after a take, one further out alone",
	"after a give of one below its limit",
	"after a give of one at its limit",
	"after a give, not the innermost that is left"
};

struct counts {
	uint64_t verdict[NUMBERS];
	uint64_t reason[REASONS];     /* malformed files */
	uint64_t crowd[CROWDS];       /* tables of number 2 */
	uint64_t release[NUMBERS];
	uint64_t tick[NUMBERS];       /* 0 closed, else refused */
	uint64_t rule[RULES];         /* 0 idle, else 1 to 5 */
	uint64_t mode[2];             /* i, s */
	uint64_t ending[3];
	uint64_t tasks[TASKS + 1];    /* closed ticks by the task count */
	uint64_t depth[SECTIONS + 1]; /* closed ticks by the runner's sections */
	uint64_t taken[SECTIONS];     /* takes done by the sections before them */
	uint64_t given[SECTIONS];     /* gives done by the sections left */
	uint64_t unfit[UNFITS];       /* ticks refused with 14 */
	uint64_t above_7[SECTIONS];   /* and with 13, by the sections held */
	uint64_t limit_0[SECTIONS];
	uint64_t section_cut;
	uint64_t cut[CUTS];           /* ticks of section_cut */
	uint64_t cut_exactly;         /* its steps are no more than the limit */
	uint64_t cut_past;            /* they would be more */
	uint64_t given_at_limit;      /* and nobody is cut: none is left */
	uint64_t given_inside;        /* and one that is left goes on */
	uint64_t given_lower;         /* one with a higher number is left */
	uint64_t given_higher;        /* one with a lower number is left */
	uint64_t done_at_limit;
	uint64_t done_nested;         /* ended with two sections or more */
	uint64_t budget_nested;
	uint64_t cut_nested;
	uint64_t limit_and_budget;    /* both are reached in one tick */
	uint64_t blocked_outer;       /* by no innermost section */
	uint64_t blocked_inner;       /* by no outermost section */
	uint64_t blocked_middle;      /* by neither */
	uint64_t not_blocked;         /* though a job holds two or more */
	uint64_t nested_runner;       /* rule 1: it holds two or more */
	uint64_t nested_behind[3];    /* rules 1, 2: the last holder does */
	uint64_t two_nested;          /* jobs that hold two or more */
	uint64_t inherited;           /* rule 1: speed above the runner's S */
	uint64_t runner_shorter;      /* rule 1: no job ahead has a shorter D */
	uint64_t holder_behind;       /* rule 1: and a holder behind the runner */
	uint64_t second_in_order_not; /* rule 1: runner not the second in order */
	uint64_t old_mark_kept;       /* rules 1, 2: the old mark is the last */
	uint64_t mark_of_no_job;      /* a mark stands whose job has ended */
	uint64_t equal_to_ceiling;    /* rule 1: top's D is the ceiling */
	uint64_t rolled_over;         /* closed ticks with a deadline past it */
	uint64_t full_files;          /* of 65,536 bytes, passed */
};

/* The old mark is behind what the rules would mark without it. */
static bool old_mark_kept(const struct table *t, const struct state *s,
	struct mark new_mark)
{
	struct state bare = *s;

	bare.mark = (struct mark){false, 0, 0};
	return s->mark.stands && !same_mark(choose(t, &bare).mark, new_mark);
}

/* Which of the five rules fits, seen apart from apply_rules. */
static uint32_t rule_of(const struct table *t, const struct state *s,
	struct chosen next)
{
	if (!next.runs)
		return 0;
	if (next.runner != first_job(t, s, false))
		return 1;
	if (last_holder_behind(t, s, next.runner) != NO_POSITION)
		return 2;
	if (at_mark_or_behind(s, next.runner))
		return 3;
	return s->mark.stands ? 4 : 5;
}

static bool second_in_order(const struct table *t, const struct state *s,
	uint32_t runner)
{
	uint32_t before = 0;

	for (uint32_t i = 0; i < t->count; i++)
		before += s->job[i].pending && job_order(s, i) < job_order(s, runner);
	return before == 1;
}

static bool none_ahead_shorter(const struct table *t, const struct state *s,
	uint32_t runner)
{
	for (uint32_t i = 0; i < t->count; i++)
		if (s->job[i].pending && job_order(s, i) < job_order(s, runner)
			&& t->task[i].D <= t->task[runner].D)
			return false;
	return true;
}

static bool ceiling_equals(const struct table *t, const struct state *s,
	ticks D)
{
	for (uint32_t i = 0; i < t->count; i++)
		for (uint32_t k = 0; k < s->job[i].depth; k++)
			if (ceiling(t, s->job[i].section[k].resource) == D)
				return true;
	return false;
}

/* Whether top would be blocked if only these places of a stack counted: the
 * innermost, the outermost, or both. */
static bool blocked_by(const struct table *t, const struct state *s,
	uint32_t top, bool innermost, bool outermost)
{
	struct state read = *s;

	for (uint32_t i = 0; i < t->count; i++) {
		struct job *job = &read.job[i];
		struct section inner = {0, 0};

		if (job->depth == 0)
			continue;
		inner = job->section[job->depth - 1];
		job->depth = outermost;
		if (innermost)
			job->section[job->depth++] = inner;
	}
	return blocked(t, &read, top);
}

static void count_blocked(struct counts *n, const struct table *t,
	const struct state *s, uint32_t top)
{
	n->blocked_outer += !blocked_by(t, s, top, true, false);
	n->blocked_inner += !blocked_by(t, s, top, false, true);
	n->blocked_middle += !blocked_by(t, s, top, true, true);
}

static bool nested(const struct state *s, uint32_t position)
{
	return position != NO_POSITION && s->job[position].depth >= 2;
}

static uint32_t nested_jobs(const struct table *t, const struct state *s)
{
	uint32_t jobs = 0;

	for (uint32_t i = 0; i < t->count; i++)
		jobs += nested(s, i);
	return jobs;
}

static void count_rule_1(struct counts *n, const struct table *t,
	const struct state *s, struct chosen next)
{
	uint32_t top = first_job(t, s, false);

	n->inherited += next.speed > t->task[next.runner].S;
	n->runner_shorter += none_ahead_shorter(t, s, next.runner);
	n->holder_behind += last_holder_behind(t, s, next.runner) != NO_POSITION;
	n->second_in_order_not += !second_in_order(t, s, next.runner);
	n->equal_to_ceiling += ceiling_equals(t, s, t->task[top].D);
	n->nested_runner += nested(s, next.runner);
	count_blocked(n, t, s, top);
}

/* A job's tick, seen apart from run_job: its stack, which of its sections come
 * to their limits, and which stay if it is not ended by its report. */
struct turn {
	const struct task *task;
	const struct job *job;        /* before the tick */
	steps speed;
	uint32_t said;
	uint32_t ending;
	uint32_t limits;              /* places at their limits, a bit each */
	uint32_t left;                /* places below this one stay */
};

static struct turn turn_of(const struct table *t, const struct state *s,
	struct answer answer, uint32_t said)
{
	struct turn turn = {&t->task[answer.runner], &s->job[answer.runner],
		answer.speed, said, answer.ending, 0, 0};

	for (uint32_t k = 0; k < turn.job->depth; k++) {
		struct section section = turn.job->section[k];
		bool comes = section.steps + turn.speed
			>= turn.task->limit[section.resource];

		turn.limits |= (uint32_t)comes << k;
	}
	turn.left = said == GIVE ? turn.job->depth - 1U : turn.job->depth;
	return turn;
}

static bool at_limit(const struct turn *turn, uint32_t place)
{
	return (turn->limits >> place & 1) != 0;
}

/* The sections that are left and at their limits; there is one. */
static uint32_t cut_by(const struct turn *turn)
{
	uint32_t innermost = turn->left - 1;
	uint32_t limits = turn->limits & ((UINT32_C(1) << turn->left) - 1);

	if (turn->said == TAKE)
		return at_limit(turn, innermost) ? AFTER_TAKE_INNERMOST
			: AFTER_TAKE_FURTHER_OUT;
	if (turn->said == GIVE && !at_limit(turn, innermost))
		return AFTER_GIVE_FURTHER_OUT;
	if (turn->said == GIVE)
		return at_limit(turn, turn->left) ? AFTER_GIVE_AT_LIMIT
			: AFTER_GIVE_BELOW_LIMIT;
	if (innermost == 0)
		return ONLY_SECTION;
	if ((limits & (limits - 1)) != 0)
		return TWO_IN_ONE_TICK;
	if (at_limit(turn, innermost))
		return INNERMOST_ALONE;
	return limits == 1 ? OUTERMOST_ALONE : MIDDLE_ALONE;
}

static void count_cut(struct counts *n, const struct turn *turn)
{
	n->section_cut++;
	n->cut[cut_by(turn)]++;
	n->cut_nested += turn->job->depth >= 2;
	for (uint32_t k = 0; k < turn->left; k++) {
		struct section section = turn->job->section[k];
		steps would_be = section.steps + turn->speed;
		steps limit = turn->task->limit[section.resource];

		n->cut_exactly += would_be == limit;
		n->cut_past += would_be > limit;
	}
}

static void count_give(struct counts *n, const struct turn *turn)
{
	const struct section *section = turn->job->section;

	n->given[turn->left]++;
	n->given_at_limit += turn->left == 0 && at_limit(turn, 0);
	n->given_inside += turn->left > 0 && at_limit(turn, turn->left);
	for (uint32_t k = 0; k < turn->left; k++) {
		uint16_t given = section[turn->left].resource;

		n->given_lower += given < section[k].resource;
		n->given_higher += given > section[k].resource;
	}
}

/* A closed tick of a job: what became of its sections. */
static void count_turn(struct counts *n, const struct turn *turn)
{
	bool two = turn->job->depth >= 2;
	bool budget = turn->job->used + turn->speed >= turn->task->C;

	n->depth[turn->job->depth]++;
	n->limit_and_budget += budget && turn->limits != 0;
	if (turn->ending == ENDED_DONE) {
		n->done_at_limit += turn->limits != 0;
		n->done_nested += two;
	} else if (budget) {
		n->budget_nested += two;
	} else if (turn->ending == ENDED_CUT) {
		count_cut(n, turn);
	} else if (turn->said == GIVE) {
		count_give(n, turn);
	} else if (turn->said == TAKE) {
		n->taken[turn->job->depth]++;
	}
}

/* Why 14 is answered in this state, in mid-tick. */
static uint32_t unfit_of(const struct table *t, const struct state *s,
	uint32_t said, uint32_t resource)
{
	const struct job *job = &s->job[s->runner];

	if (!s->runs)
		return said == DONE ? IDLE_DONE : said == TAKE ? IDLE_TAKE : IDLE_GIVE;
	if (said == GIVE)
		return GIVE_OF_NONE;
	if (job->depth < SECTIONS)
		return OWN_AGAIN;
	if (holds(job, resource))
		return OWN_AS_FIFTH;
	if (resource >= RESOURCES)
		return FIFTH_ABOVE_7;
	return t->task[s->runner].limit[resource] > 0 ? A_FIFTH
		: FIFTH_OF_LIMIT_0;
}

/* A refused tick, with the state before it. */
static void count_refused(struct counts *n, const struct table *t,
	const struct state *s, uint32_t number, const uint8_t *record)
{
	struct state mid = *s;

	choice(t, &mid);
	if (number == REPORT_DOES_NOT_FIT)
		n->unfit[unfit_of(t, &mid, record[2], record[3])]++;
	if (number == TAKE_NOT_ALLOWED && record[3] >= RESOURCES)
		n->above_7[mid.job[mid.runner].depth]++;
	if (number == TAKE_NOT_ALLOWED && record[3] < RESOURCES)
		n->limit_0[mid.job[mid.runner].depth]++;
}

static bool any_rolled_over(const struct table *t, const struct state *s)
{
	for (uint32_t i = 0; i < t->count; i++)
		if (s->job[i].pending && s->job[i].deadline < s->tick)
			return true;
	return false;
}

/* A closed tick, with the state before it. */
static void count_closed(struct counts *n, const struct table *t,
	const struct state *s, struct answer answer, uint32_t said)
{
	struct chosen next = choose(t, s);
	uint32_t rule = rule_of(t, s, next);

	n->rule[rule]++;
	n->mode[answer.synchronization]++;
	n->ending[answer.ending]++;
	n->tasks[t->count]++;
	n->rolled_over += any_rolled_over(t, s);
	n->mark_of_no_job += s->mark.stands
		&& (!s->job[s->mark.position].pending
			|| s->job[s->mark.position].deadline != s->mark.deadline);
	if (rule == 1)
		count_rule_1(n, t, s, next);
	if (rule == 1 || rule == 2) {
		n->old_mark_kept += old_mark_kept(t, s, next.mark);
		n->nested_behind[rule] += nested(s,
			last_holder_behind(t, s, next.runner));
	}
	n->two_nested += nested_jobs(t, s) >= 2;
	n->not_blocked += rule == 2 && !s->job[next.runner].started
		&& nested_jobs(t, s) > 0;
	if (next.runs) {
		struct turn turn = turn_of(t, s, answer, said);

		count_turn(n, &turn);
	}
}

static void count_event(struct counts *n, const struct table *t,
	struct state *s, const uint8_t *record)
{
	struct state before = *s;
	struct answer answer;

	if (record[1] == EVENT_RELEASE) {
		n->release[release(t, s, record[2])]++;
		return;
	}
	answer = whole_tick(t, s, record[2], record[3]);
	n->tick[answer.number]++;
	if (answer.number == SUCCESS)
		count_closed(n, t, &before, answer, record[2]);
	else
		count_refused(n, t, &before, answer.number, record);
}

static bool unnamed_zero(const uint8_t *record)
{
	if (record[0] == SETTING)
		return zero(record, 2, 4) && zero(record, 12, RECORD_BYTES);
	if (record[0] == TASK)
		return zero(record, 3, 4) && zero(record, 10, 16);
	return zero(record, 4, RECORD_BYTES);
}

/* Of one record, without its place in the file. */
static uint32_t reason_of_record(const uint8_t *record)
{
	bool tick = record[1] == EVENT_TICK;

	if (record[0] < SETTING || record[0] > EVENT)
		return OTHER_FIRST_BYTE;
	if (!unnamed_zero(record))
		return NOT_ZERO;
	if (record[0] != EVENT)
		return NO_REASON;
	if (!tick && record[1] != EVENT_RELEASE)
		return OTHER_KIND;
	if (tick && record[2] > GIVE)
		return OTHER_REPORT;
	if (record[3] != 0 && !(tick && record[2] == TAKE))
		return RESOURCE_WITHOUT_TAKE;
	return NO_REASON;
}

/* The first that fits, at the first record that any fits; seen apart from
 * well_formed. */
static uint32_t reason_of_file(const uint8_t *bytes, size_t length)
{
	if (length == 0)
		return EMPTY;
	if (length % RECORD_BYTES != 0)
		return NOT_WHOLE;
	if (length > FILE_BYTES_MOST)
		return TOO_LONG;
	if (bytes[0] != SETTING)
		return NO_SETTING_FIRST;
	for (size_t at = 0; at < length; at += RECORD_BYTES) {
		uint32_t reason = reason_of_record(bytes + at);

		if (reason != NO_REASON)
			return reason;
		if (at > 0 && (bytes[at] == SETTING
			|| bytes[at] < bytes[at - RECORD_BYTES]))
			return OUT_OF_ORDER;
	}
	return NO_REASON;
}

static uint32_t crowd_of(uint32_t tasks)
{
	if (tasks == 0)
		return NO_TASKS;
	return tasks < 256 ? ONE_BYTE_OF_TASKS : MORE_TASKS;
}

/* Counts a file that is not malformed. */
static void count_table(struct counts *n, const uint8_t *bytes, size_t length)
{
	struct table t;
	struct state s;
	ticks first_tick;
	size_t at = read_table(bytes, length, &t, &first_tick);
	uint32_t number = start(&t, first_tick, &s).number;

	n->verdict[number]++;
	if (number == COUNT_NOT_IN_RANGE)
		n->crowd[crowd_of(t.count)]++;
	if (number != SUCCESS)
		return;
	n->full_files += length == FILE_BYTES_MOST;
	for (; at < length; at += RECORD_BYTES)
		count_event(n, &t, &s, bytes + at);
}

/* False if it is malformed for no reason of ours, or the other way round. */
static bool count_file(struct counts *n, const uint8_t *bytes, size_t length)
{
	uint32_t reason = reason_of_file(bytes, length);

	if (well_formed(bytes, length) != (reason == NO_REASON))
		return false;
	if (reason == NO_REASON) {
		count_table(n, bytes, length);
		return true;
	}
	n->verdict[MALFORMED]++;
	n->reason[reason]++;
	return true;
}

static void print_count(const char *name, uint64_t count)
{
	printf("%s %" PRIu64 "\n", name, count);
}

static void print_row(const char *name, const uint64_t *row, uint32_t length)
{
	for (uint32_t i = 0; i < length; i++)
		printf("%s %" PRIu32 ": %" PRIu64 "\n", name, i, row[i]);
}

/* The same with a name for each place of the row. */
static void print_named(const char *name, const char *const *names,
	const uint64_t *row, uint32_t length)
{
	for (uint32_t i = 0; i < length; i++)
		printf("%s, %s: %" PRIu64 "\n", name, names[i], row[i]);
}

/* What became of sections inside sections. */
static void print_sections(const struct counts *n)
{
	print_row("closed ticks with so many sections held", n->depth,
		SECTIONS + 1);
	print_row("taken with so many sections held", n->taken, SECTIONS);
	print_row("given back with so many sections left", n->given, SECTIONS);
	print_named("14", unfit_names, n->unfit, UNFITS);
	print_row("13, above 7 with so many sections held", n->above_7, SECTIONS);
	print_row("13, limit 0 with so many sections held", n->limit_0, SECTIONS);
	print_count("cut at a section limit:", n->section_cut);
	print_named("cut", cut_names, n->cut, CUTS);
	print_count("cut, the limit met exactly:", n->cut_exactly);
	print_count("cut, the limit would be passed:", n->cut_past);
	print_count("given back at its limit, none left:", n->given_at_limit);
	print_count("given back at its limit, an outer goes on:", n->given_inside);
	print_count("given back, a higher resource left:", n->given_lower);
	print_count("given back, a lower resource left:", n->given_higher);
	print_count("done at a section limit:", n->done_at_limit);
	print_count("done with two sections or more:", n->done_nested);
	print_count("cut at the budget with two sections or more:",
		n->budget_nested);
	print_count("cut at a section limit with two or more:", n->cut_nested);
	print_count("budget and section limit in one tick:", n->limit_and_budget);
	print_count("blocked, by outer sections alone:", n->blocked_outer);
	print_count("blocked, by inner sections alone:", n->blocked_inner);
	print_count("blocked, by middle sections alone:", n->blocked_middle);
	print_count("not blocked by a holder of two or more:", n->not_blocked);
	print_count("rule 1, the runner holds two or more:", n->nested_runner);
	print_count("rule 1, a holder of two or more behind it:",
		n->nested_behind[1]);
	print_count("rule 2, a holder of two or more behind it:",
		n->nested_behind[2]);
	print_count("two jobs hold two or more each:", n->two_nested);
}

static void print_counts(const struct counts *n)
{
	print_row("table", n->verdict, NUMBERS);
	print_named("malformed", reason_names, n->reason, REASONS);
	print_named("tasks of number 2", crowd_names, n->crowd, CROWDS);
	print_row("release", n->release, NUMBERS);
	print_row("tick", n->tick, NUMBERS);
	print_row("rule", n->rule, RULES);
	print_row("mode (0 i, 1 s)", n->mode, 2);
	print_row("ending", n->ending, 3);
	print_row("closed ticks with so many tasks", n->tasks, TASKS + 1);
	print_sections(n);
	print_count("rule 1, speed above the runner's S:", n->inherited);
	print_count("rule 1, every D ahead longer:", n->runner_shorter);
	print_count("rule 1, a holder behind the runner:", n->holder_behind);
	print_count("rule 1, runner not second:", n->second_in_order_not);
	print_count("rule 1, top's D equals a ceiling:", n->equal_to_ceiling);
	print_count("rules 1 and 2, old mark kept:", n->old_mark_kept);
	print_count("mark of a job that has ended:", n->mark_of_no_job);
	print_count("a deadline past the roll-over:", n->rolled_over);
	print_count("passed files of 65,536 bytes:", n->full_files);
}

int main(void)
{
	struct counts counts = {0};
	uint8_t bytes[KEPT_BYTES_MOST];
	uint8_t head[4];
	size_t got;

	while ((got = fread(head, 1, sizeof head, stdin)) == sizeof head) {
		uint32_t length = word32(head);

		if (!read_packed(stdin, bytes, length))
			return trouble("pack", "ends in the middle");
		if (!count_file(&counts, bytes, length))
			return trouble("pack", "a file is malformed for no known reason");
	}
	if (got > 0 || ferror(stdin))
		return trouble("pack", "ends in the middle");
	print_counts(&counts);
	return EXIT_DONE;
}
