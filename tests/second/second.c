/*
 * second.c - reads record files and prints their listings.
 *
 * A second program that steps the rules of the paper ("Build description and
 * exact rules") independently: an admission test over a task table, and a
 * machine that dispatches jobs tick by tick under earliest deadline first with
 * the Stack Resource Policy, in two modes; with it, Ask 1 of the change
 * requests, sections inside sections. Phrases in quotation marks are the
 * papers'.
 *
 *   second FILE     lists that file
 *   second          lists standard input
 *   second --pack   lists a pack from standard input: files one after the
 *                   other, each a 4-byte little-endian length and its bytes;
 *                   an empty line follows each listing
 *
 * Exit 0: every listing was made. Exit 2: something could not be read or
 * written; a message is on standard error.
 */

#include <stdbool.h>
#include <stddef.h>
#include <stdint.h>
#include <stdio.h>
#include <string.h>

/* "Time is counted in ticks and work in steps. They are kept apart: a tick
 * count is never added to a step count." */
typedef uint32_t ticks;
typedef uint32_t steps;

enum {
	TASKS = 16,
	RESOURCES = 8,
	SECTIONS = 4, /* "A job shall hold up to four resources" */
	NO_POSITION = TASKS, /* stands for "none" where a position is looked for */
	FULL_SPEED_MOST = 64,
	ROUND_MOST = 1000000,
	NUMBER_MOST = 65535, /* of T, D, C and of a mark's distance */
	RECORD_BYTES = 32,
	FILE_BYTES_MOST = 65536
};

/* "Numbers returned" */
enum {
	SUCCESS = 0,
	MALFORMED = 1,
	COUNT_NOT_IN_RANGE = 2,
	F_OR_G_NOT_IN_RANGE = 3,
	TASK_NOT_IN_RANGE = 4,
	D_NOT_DIVIDING_G = 5,
	D_SMALLER_THAN_BEFORE = 6,
	INDEPENDENT_SUM_ABOVE_G = 7,
	SYNCHRONIZATION_SUM_ABOVE_G = 8,
	NOT_CONSISTENT = 9,
	NOT_IN_TABLE = 10,
	WRONG_HALF = 11,
	TOO_EARLY = 12,
	TAKE_NOT_ALLOWED = 13,
	REPORT_DOES_NOT_FIT = 14,
	HELD_BY_ANOTHER = 15,
	AT_ITS_DEADLINE = 16
};

/* Bytes of the records */
enum { SETTING = 1, TASK = 2, EVENT = 3 };
enum { EVENT_RELEASE = 1, EVENT_TICK = 2 };
enum { CARRY_ON = 0, DONE = 1, TAKE = 2, GIVE = 3 };

/* "ending (0 goes on or idle, 1 done, 2 cut)" */
enum { GOES_ON = 0, ENDED_DONE = 1, ENDED_CUT = 2 };

struct task {
	ticks T;                    /* period */
	ticks D;                    /* deadline length */
	steps C;                    /* budget */
	steps I;                    /* speed, independent */
	steps S;                    /* speed, synchronization */
	uint16_t limit[RESOURCES];  /* section limits, in steps */
};

struct table {
	uint32_t count;
	steps F;                    /* full speed */
	ticks G;                    /* round */
	struct task task[TASKS];    /* "Entries past the task count are not read." */
};

struct verdict {
	uint32_t number;
	uint32_t position;
};

/* A resource held, and the "steps in that section", which are at most a limit.
 * Both have 16 bits, so that a stack of them has no gaps. */
struct section {
	uint16_t resource;
	uint16_t steps;
};

/* "for each task: pending or not, started or not, deadline, steps used,
 * resource held or none, steps in that section, and the wait until the next
 * release". "A job's record holds a short stack, no resource twice". */
struct job {
	bool pending;
	bool started;
	uint8_t depth;              /* sections held */
	struct section section[SECTIONS]; /* outermost first; 0 from depth on */
	ticks deadline;
	steps used;
	ticks wait;
};

/* "the mark (none, or a deadline and a position)" */
struct mark {
	bool stands;
	uint32_t position;
	ticks deadline;
};

struct state {
	ticks tick;
	struct mark mark;
	bool midtick;               /* between the two halves of a tick */
	bool runs;                  /* a job is on the processor */
	uint32_t runner;            /* its position */
	struct job job[TASKS];
};

/* What the choice rules give. */
struct chosen {
	bool runs;
	bool synchronization;
	uint32_t runner;
	steps speed;
	struct mark mark;
};

/* What a call returns. */
struct answer {
	uint32_t number;
	bool runs;
	bool synchronization;
	uint32_t runner;
	steps speed;
	uint32_t ending;
};

/* ---- The task table ---------------------------------------------------- */

/* "Up(a, b) is a divided by b, rounded up to a whole number; Up(0, b) = 0." */
static ticks up(steps a, steps b)
{
	return a / b + (a % b != 0);
}

/* "The users of a resource are a set of positions, one bit each, and its
 * ceiling is the D of the lowest position in that set." A resource without
 * users has no ceiling; the answer is then above every D. */
static ticks ceiling(const struct table *t, uint32_t resource)
{
	for (uint32_t i = 0; i < t->count; i++)
		if (t->task[i].limit[resource] > 0)
			return t->task[i].D;
	return UINT32_MAX;
}

/* The table of ranges, "D not dividing G excepted". */
static bool task_in_range(const struct table *t, const struct task *task)
{
	bool limits = true;

	/* "section limit for each of 8 resources, in steps": "0 to C" */
	for (uint32_t r = 0; r < RESOURCES; r++)
		limits &= task->limit[r] <= task->C;
	return limits
		/* "1 <= D <= T <= 65,535" */
		&& 1 <= task->D && task->D <= task->T && task->T <= NUMBER_MOST
		/* "budget C, in steps": "1 to 65,535" */
		&& 1 <= task->C && task->C <= NUMBER_MOST
		/* "1 <= I <= S <= F" */
		&& 1 <= task->I && task->I <= task->S && task->S <= t->F;
}

/* "for the lowest faulty position 4, 5, 6": the number of one position. */
static uint32_t task_number(const struct table *t, uint32_t i)
{
	const struct task *task = &t->task[i];

	if (!task_in_range(t, task))
		return TASK_NOT_IN_RANGE;
	if (t->G % task->D != 0)
		return D_NOT_DIVIDING_G;
	if (i > 0 && task->D < t->task[i - 1].D)
		return D_SMALLER_THAN_BEFORE;
	return SUCCESS;
}

/* ---- The admission test ------------------------------------------------ */

/* "the sum over all positions of Up(C, I) x (G/D)" */
static uint64_t independent_sum(const struct table *t)
{
	uint64_t sum = 0;

	for (uint32_t i = 0; i < t->count; i++) {
		const struct task *task = &t->task[i];

		sum += (uint64_t)up(task->C, task->I) * (t->G / task->D);
	}
	return sum;
}

/* "B is the largest section limit of any task with D greater than that of i,
 * on a resource whose ceiling is at most D of i; 0 if there is none."
 * For every i at once, from the last position to the first. Positions stand in
 * order of D here, so the tasks with D greater than that of i are the last. */
static void blocking(const struct table *t, steps B[TASKS])
{
	ticks top[RESOURCES];
	uint16_t largest[RESOURCES] = {0}; /* limit among positions j and up */
	uint32_t j = t->count;

	for (uint32_t r = 0; r < RESOURCES; r++)
		top[r] = ceiling(t, r);
	for (uint32_t i = t->count; i-- > 0;) {
		ticks D = t->task[i].D;

		for (; t->task[j - 1].D > D; j--)
			for (uint32_t r = 0; r < RESOURCES; r++)
				if (t->task[j - 1].limit[r] > largest[r])
					largest[r] = t->task[j - 1].limit[r];
		B[i] = 0;
		for (uint32_t r = 0; r < RESOURCES; r++)
			if (top[r] <= D && largest[r] > B[i])
				B[i] = largest[r];
	}
}

/* "Synchronization, for each position i: Up(B, S of i) x (G/D of i), plus the
 * sum over positions 0 to i of Up(C, S) x (G/D), is at most G." The smallest
 * position whose sum is above G, or NO_POSITION. */
static uint32_t synchronization_fault(const struct table *t)
{
	steps B[TASKS];
	uint64_t sum = 0;

	blocking(t, B);
	for (uint32_t i = 0; i < t->count; i++) {
		const struct task *task = &t->task[i];
		uint64_t times = t->G / task->D;

		sum += up(task->C, task->S) * times;
		if (up(B[i], task->S) * times + sum > t->G)
			return i;
	}
	return NO_POSITION;
}

/* "Order for a table: 2, 3, then for the lowest faulty position 4, 5, 6, then
 * 7, 8. Where no position is concerned the position returned is 0." */
static struct verdict test_table(const struct table *t)
{
	uint32_t fault;

	if (t->count < 1 || t->count > TASKS)
		return (struct verdict){COUNT_NOT_IN_RANGE, 0};
	if (t->F < 1 || t->F > FULL_SPEED_MOST || t->G < 1 || t->G > ROUND_MOST)
		return (struct verdict){F_OR_G_NOT_IN_RANGE, 0};
	for (uint32_t i = 0; i < t->count; i++) {
		uint32_t number = task_number(t, i);

		if (number != SUCCESS)
			return (struct verdict){number, i};
	}
	if (independent_sum(t) > t->G)
		return (struct verdict){INDEPENDENT_SUM_ABOVE_G, 0};
	fault = synchronization_fault(t);
	if (fault != NO_POSITION)
		return (struct verdict){SYNCHRONIZATION_SUM_ABOVE_G, fault};
	return (struct verdict){SUCCESS, 0};
}

/* ---- Order, and what the choice looks at ------------------------------- */

/* "How far a deadline is from now is their difference modulo 4,294,967,296." */
static ticks ahead(ticks deadline, ticks now)
{
	return (ticks)(deadline - now);
}

/* "Order: nearer deadline first; equal deadlines by lower position." As one
 * number: a job or a mark stands behind another if its number is greater. */
static uint64_t order(const struct state *s, ticks deadline, uint32_t position)
{
	return (uint64_t)ahead(deadline, s->tick) * TASKS + position;
}

static uint64_t job_order(const struct state *s, uint32_t position)
{
	return order(s, s->job[position].deadline, position);
}

/* The first pending job in order, of the started ones only if so asked. */
static uint32_t first_job(const struct table *t, const struct state *s,
	bool started_only)
{
	uint32_t first = NO_POSITION;
	uint64_t least = UINT64_MAX;

	for (uint32_t i = 0; i < t->count; i++) {
		const struct job *job = &s->job[i];

		if (!job->pending || (started_only && !job->started))
			continue;
		if (job_order(s, i) < least) {
			least = job_order(s, i);
			first = i;
		}
	}
	return first;
}

/* "consistency, blocking and the mark read all of it", the stack. Whether it
 * has a resource whose ceiling is at most D. */
static bool stack_blocks(const struct table *t, const struct job *job, ticks D)
{
	for (uint32_t k = 0; k < job->depth; k++)
		if (ceiling(t, job->section[k].resource) <= D)
			return true;
	return false;
}

/* "It is blocked if it is not started and another pending job holds a resource
 * whose ceiling is at most top's D." */
static bool blocked(const struct table *t, const struct state *s, uint32_t top)
{
	if (s->job[top].started)
		return false;
	for (uint32_t i = 0; i < t->count; i++)
		if (i != top && s->job[i].pending
			&& stack_blocks(t, &s->job[i], t->task[top].D))
			return true;
	return false;
}

/* The last in order of the holders behind the runner, or NO_POSITION. */
static uint32_t last_holder_behind(const struct table *t,
	const struct state *s, uint32_t runner)
{
	uint32_t last = NO_POSITION;
	uint64_t most = job_order(s, runner);

	for (uint32_t i = 0; i < t->count; i++) {
		const struct job *job = &s->job[i];

		if (job->pending && job->depth > 0 && job_order(s, i) > most) {
			most = job_order(s, i);
			last = i;
		}
	}
	return last;
}

/* "the last in order among the old mark" and the job at this position; with no
 * old mark that is the job. */
static struct mark last_of(const struct state *s, struct mark old,
	uint32_t position)
{
	struct mark job = {true, position, s->job[position].deadline};

	if (old.stands
		&& order(s, old.deadline, old.position) > job_order(s, position))
		return old;
	return job;
}

/* "the largest S over tasks whose D lies between the runner's own D and the
 * shortest D of the jobs ahead of it, whichever of the two is the smaller end,
 * both ends counted" */
static steps inherited_speed(const struct table *t, const struct state *s,
	uint32_t runner)
{
	ticks low = UINT32_MAX;
	ticks high = t->task[runner].D;
	steps speed = 0;

	for (uint32_t i = 0; i < t->count; i++)
		if (s->job[i].pending && job_order(s, i) < job_order(s, runner)
			&& t->task[i].D < low)
			low = t->task[i].D;
	if (low > high) {
		ticks shortest = low;

		low = high;
		high = shortest;
	}
	for (uint32_t i = 0; i < t->count; i++)
		if (low <= t->task[i].D && t->task[i].D <= high
			&& t->task[i].S > speed)
			speed = t->task[i].S;
	return speed;
}

/* "A mark stands and the runner is the marked job or behind it" */
static bool at_mark_or_behind(const struct state *s, uint32_t runner)
{
	return s->mark.stands && job_order(s, runner)
		>= order(s, s->mark.deadline, s->mark.position);
}

/* ---- The choice rules -------------------------------------------------- */

/* "Then, first that fits": rules 1 to 5 for a runner. */
static struct chosen apply_rules(const struct table *t, const struct state *s,
	uint32_t top, uint32_t runner)
{
	const struct task *task = &t->task[runner];
	uint32_t holder = last_holder_behind(t, s, runner);
	struct chosen c = {true, true, runner, task->S, s->mark};

	if (runner != top) {
		/* 1. "Runner is not top: synchronization. The mark becomes the last
		 * in order among the old mark, the runner, and any holders behind
		 * the runner." */
		c.mark = last_of(s, c.mark, runner);
		if (holder != NO_POSITION)
			c.mark = last_of(s, c.mark, holder);
		c.speed = inherited_speed(t, s, runner);
	} else if (holder != NO_POSITION) {
		/* 2. "Some job behind the runner holds a resource: synchronization,
		 * the mark becomes the last in order among the old mark and those
		 * holders; speed S of the runner." */
		c.mark = last_of(s, c.mark, holder);
	} else if (at_mark_or_behind(s, runner)) {
		/* 3. "mark removed, independent, speed I" */
		c.mark = (struct mark){false, 0, 0};
		c.synchronization = false;
		c.speed = task->I;
	} else if (!s->mark.stands) {
		/* 5. "Independent, speed I." */
		c.synchronization = false;
		c.speed = task->I;
	} /* else 4. "A mark stands: synchronization, speed S." */
	return c;
}

/* "First half, the choice." What it gives in this state, which stays as it is.
 * The state is consistent but for the half of the tick. */
static struct chosen choose(const struct table *t, const struct state *s)
{
	/* "otherwise top is the first pending job in order" */
	uint32_t top = first_job(t, s, false);
	uint32_t runner = top;

	/* "With no pending job the processor idles: independent, speed 0, mark
	 * removed." */
	if (top == NO_POSITION)
		return (struct chosen){0};
	/* "The runner is top if not blocked, else the first started job in
	 * order." A holder is started, so there is one. */
	if (blocked(t, s, top))
		runner = first_job(t, s, true);
	return apply_rules(t, s, top, runner);
}

/* ---- Consistency ------------------------------------------------------- */

/* Nothing, and the places of the stack are 0: "what is not in use is 0". */
static bool holds_nothing(const struct job *job)
{
	static const struct section none[SECTIONS];

	return job->depth == 0 && memcmp(job->section, none, sizeof none) == 0;
}

/* The places of the stack that are not in use are 0. */
static bool zero_from_depth(const struct job *job)
{
	uint32_t seen = 0;

	for (uint32_t k = job->depth; k < SECTIONS; k++)
		seen |= (uint32_t)job->section[k].resource | job->section[k].steps;
	return seen == 0;
}

/* "a job that is not pending is not started, has used 0 and holds nothing",
 * and "what is not in use is 0". The wait is in use all the same. */
static bool empty_but_wait(const struct job *job)
{
	return !job->pending && !job->started && job->deadline == 0
		&& job->used == 0 && holds_nothing(job);
}

/* "a held resource has limit above 0, its section steps are below the limit,
 * and no other job holds it", nor the job itself twice. `held` has the
 * resources of the stacks before this one, a bit each; this one's are added. */
static bool stack_consistent(const struct task *task, const struct job *job,
	uint32_t *held)
{
	if (job->depth > SECTIONS)
		return false;
	for (uint32_t k = 0; k < job->depth; k++) {
		uint32_t resource = job->section[k].resource;

		/* A limit that something is below is above 0. */
		if (resource >= RESOURCES || (*held >> resource & 1) != 0
			|| job->section[k].steps >= task->limit[resource])
			return false;
		*held |= UINT32_C(1) << resource;
	}
	return zero_from_depth(job);
}

static bool job_consistent(const struct task *task, const struct job *job,
	ticks now, uint32_t *held)
{
	ticks distance = ahead(job->deadline, now);

	/* "a wait is at most T" */
	if (job->wait > task->T)
		return false;
	if (!job->pending)
		return empty_but_wait(job);
	/* "a job not started has used 0 and holds nothing" */
	if (!job->started && (job->used != 0 || job->depth != 0))
		return false;
	/* "a pending job has used less than C, its deadline is 1 to D ticks
	 * ahead, and its wait is that distance plus T - D" */
	return job->used < task->C && 1 <= distance && distance <= task->D
		&& job->wait == distance + (task->T - task->D)
		&& stack_consistent(task, job, held);
}

/* Every place of a task; "every place past the task count" is 0. */
static bool jobs_consistent(const struct table *t, const struct state *s)
{
	uint32_t held = 0; /* resources, one bit each */

	for (uint32_t i = 0; i < t->count; i++)
		if (!job_consistent(&t->task[i], &s->job[i], s->tick, &held))
			return false;
	for (uint32_t i = t->count; i < TASKS; i++)
		if (!empty_but_wait(&s->job[i]) || s->job[i].wait != 0)
			return false;
	return true;
}

/* "a marked position is in the table and its deadline is 0 to 65,535 ticks
 * ahead" */
static bool mark_consistent(const struct table *t, const struct state *s)
{
	if (!s->mark.stands)
		return s->mark.position == 0 && s->mark.deadline == 0;
	return s->mark.position < t->count
		&& ahead(s->mark.deadline, s->tick) <= NUMBER_MOST;
}

static bool same_mark(struct mark a, struct mark b)
{
	return a.stands == b.stands && a.position == b.position
		&& a.deadline == b.deadline;
}

/* "in mid-tick, making the choice again would change nothing, the job on the
 * processor or the idling included; between ticks there is no job on the
 * processor" */
static bool half_consistent(const struct table *t, const struct state *s)
{
	struct chosen c;

	if (!s->midtick)
		return !s->runs && s->runner == 0;
	c = choose(t, s);
	return c.runs == s->runs && c.runner == s->runner
		&& (!c.runs || s->job[c.runner].started)
		&& same_mark(c.mark, s->mark);
}

/* "A state is consistent when: the table passes; ..." */
static bool consistent(const struct table *t, const struct state *s)
{
	return test_table(t).number == SUCCESS && jobs_consistent(t, s)
		&& mark_consistent(t, s) && half_consistent(t, s);
}

/* ---- The calls --------------------------------------------------------- */

/* "A fresh state has no jobs, no waits, no mark, and any starting tick that is
 * asked for." "A fresh start gives the table's number and, where that is not
 * 0, a state of zeros." */
static struct verdict start(const struct table *t, ticks tick, struct state *s)
{
	struct verdict verdict = test_table(t);

	memset(s, 0, sizeof *s);
	if (verdict.number == SUCCESS)
		s->tick = tick;
	return verdict;
}

/* "Release: 9, 11, 10, 12." Its number. */
static uint32_t release(const struct table *t, struct state *s,
	uint32_t position)
{
	struct job *job;

	if (!consistent(t, s))
		return NOT_CONSISTENT;
	if (s->midtick)
		return WRONG_HALF;
	if (position >= t->count)
		return NOT_IN_TABLE;
	job = &s->job[position];
	if (job->wait > 0)
		return TOO_EARLY;
	/* "Release: deadline = tick + D, wait = T." */
	job->pending = true;
	job->deadline = s->tick + t->task[position].D;
	job->wait = t->task[position].T;
	return SUCCESS;
}

/* "Every refusal leaves the state unchanged and returns no job, independent,
 * speed 0, ending 0." */
static struct answer refusal(uint32_t number)
{
	return (struct answer){.number = number};
}

static struct answer goes_on(struct chosen c)
{
	return (struct answer){SUCCESS, c.runs, c.synchronization, c.runner,
		c.speed, GOES_ON};
}

/* "Choice: 9, 11." */
static struct answer choice(const struct table *t, struct state *s)
{
	struct chosen c;

	if (!consistent(t, s))
		return refusal(NOT_CONSISTENT);
	if (s->midtick)
		return refusal(WRONG_HALF);
	c = choose(t, s);
	s->midtick = true;
	s->runs = c.runs;
	s->runner = c.runner;
	s->mark = c.mark;
	/* "The runner becomes started." */
	if (c.runs)
		s->job[c.runner].started = true;
	return goes_on(c);
}

static bool holds(const struct job *job, uint32_t resource)
{
	for (uint32_t k = 0; k < job->depth; k++)
		if (job->section[k].resource == resource)
			return true;
	return false;
}

/* "14 now means taking one already held, taking a fifth, giving when none is
 * held, or, at an idle tick, anything but carry on". "one already held" is one
 * of this job: 15 is left for another's. */
static bool report_fits(const struct state *s, uint32_t said,
	uint32_t resource)
{
	const struct job *job = &s->job[s->runner];

	if (!s->runs)
		return said == CARRY_ON;
	if (said == TAKE)
		return job->depth < SECTIONS && !holds(job, resource);
	return said != GIVE || job->depth > 0;
}

/* Numbers 14, 13, 15 of a report, in this order; 0 if it may be done. */
static uint32_t report_number(const struct table *t, const struct state *s,
	uint32_t said, uint32_t resource)
{
	if (!report_fits(s, said, resource))
		return REPORT_DOES_NOT_FIT;
	if (said != TAKE)
		return SUCCESS;
	/* "take of a resource above 7 or with limit 0" */
	if (resource >= RESOURCES
		|| t->task[s->runner].limit[resource] == 0)
		return TAKE_NOT_ALLOWED;
	/* "take of a resource that another job holds" */
	for (uint32_t i = 0; i < t->count; i++)
		if (i != s->runner && holds(&s->job[i], resource))
			return HELD_BY_ANOTHER;
	return SUCCESS;
}

static steps rise_up_to(steps from, steps by, steps most)
{
	return by < most - from ? from + by : most;
}

/* "An ended job is not pending and holds nothing; all its entries but the wait
 * become 0." */
static uint32_t end_job(struct job *job, uint32_t ending)
{
	*job = (struct job){.wait = job->wait};
	return ending;
}

/* "The runner's steps used rise by the speed, up to C." "Each limit is still
 * counted from its own taking, and each section's steps rise with every tick of
 * its job." */
static void rise(const struct task *task, struct job *job, steps speed)
{
	job->used = rise_up_to(job->used, speed, task->C);
	for (uint32_t k = 0; k < job->depth; k++) {
		struct section *section = &job->section[k];

		section->steps = (uint16_t)rise_up_to(section->steps, speed,
			task->limit[section->resource]);
	}
}

static bool at_a_limit(const struct task *task, const struct job *job)
{
	for (uint32_t k = 0; k < job->depth; k++)
		if (job->section[k].steps
			== task->limit[job->section[k].resource])
			return true;
	return false;
}

/* The steps of the tick, and then what was reported; the ending. */
static uint32_t run_job(const struct task *task, struct job *job, steps speed,
	uint32_t said, uint32_t resource)
{
	rise(task, job, speed);
	/* "Then: done ends the job; else steps used = C ends it as cut; else take
	 * or give is done". "A section starts at 0 steps"; they are "given back in
	 * the reverse of their taking". */
	if (said == DONE)
		return end_job(job, ENDED_DONE);
	if (job->used == task->C)
		return end_job(job, ENDED_CUT);
	if (said == TAKE)
		job->section[job->depth++] = (struct section){(uint16_t)resource, 0};
	else if (said == GIVE)
		job->section[--job->depth] = (struct section){0, 0};
	/* "else a holder at its limit is ended as cut", and now "a job that still
	 * holds a section at its limit after a take or a give" too. */
	if (at_a_limit(task, job))
		return end_job(job, ENDED_CUT);
	return GOES_ON;
}

/* "The tick rises by one with roll-over and each wait above 0 falls by one." */
static void close_tick(const struct table *t, struct state *s)
{
	s->tick += 1;
	for (uint32_t i = 0; i < t->count; i++)
		s->job[i].wait -= s->job[i].wait > 0;
	s->midtick = false;
	s->runs = false;
	s->runner = 0;
}

/* "a job still pending after this half would stand at its deadline" */
static bool stands_at_deadline(const struct table *t, const struct state *s)
{
	for (uint32_t i = 0; i < t->count; i++)
		if (s->job[i].pending && s->job[i].deadline == s->tick)
			return true;
	return false;
}

/* "Report: 9, 11, 14, 13, 15, 16." */
static struct answer report(const struct table *t, struct state *s,
	uint32_t said, uint32_t resource)
{
	struct state next = *s;
	struct answer answer;
	uint32_t number;

	if (!consistent(t, s))
		return refusal(NOT_CONSISTENT);
	if (!s->midtick)
		return refusal(WRONG_HALF);
	number = report_number(t, s, said, resource);
	if (number != SUCCESS)
		return refusal(number);
	/* "Mode and speed are not kept; the choice rules give them again." */
	answer = goes_on(choose(t, s));
	if (answer.runs)
		answer.ending = run_job(&t->task[answer.runner],
			&next.job[answer.runner], answer.speed, said, resource);
	close_tick(t, &next);
	if (stands_at_deadline(t, &next))
		return refusal(AT_ITS_DEADLINE);
	*s = next;
	return answer;
}

/* A tick of the listing is the choice and then the report; where either is
 * refused "the state is as before its first half". */
static struct answer whole_tick(const struct table *t, struct state *s,
	uint32_t said, uint32_t resource)
{
	struct state before = *s;
	struct answer answer = choice(t, s);

	if (answer.number == SUCCESS)
		answer = report(t, s, said, resource);
	if (answer.number != SUCCESS)
		*s = before;
	return answer;
}

/* ---- Records ----------------------------------------------------------- */

static uint16_t word16(const uint8_t *at)
{
	return (uint16_t)(at[0] | at[1] << 8);
}

static uint32_t word32(const uint8_t *at)
{
	return (uint32_t)word16(at) | (uint32_t)word16(at + 2) << 16;
}

/* "every byte not named zero": bytes `from` up to but not `past`. */
static bool zero(const uint8_t *record, size_t from, size_t past)
{
	unsigned seen = 0;

	for (size_t i = from; i < past; i++)
		seen |= record[i];
	return seen == 0;
}

/* "3 event (1: 1 release, 2 tick; 2: position or report 0 carry on, 1 done,
 * 2 take, 3 give; 3: resource for take, else 0)" */
static bool event_well_formed(const uint8_t *record)
{
	bool tick = record[1] == EVENT_TICK;

	if (record[1] != EVENT_RELEASE && !tick)
		return false;
	if (tick && record[2] > GIVE)
		return false;
	if (!(tick && record[2] == TAKE) && record[3] != 0)
		return false;
	return zero(record, 4, RECORD_BYTES);
}

static bool record_well_formed(const uint8_t *record)
{
	switch (record[0]) {
	case SETTING: /* "byte 1 F; 4-7 G; 8-11 starting tick" */
		return zero(record, 2, 4) && zero(record, 12, RECORD_BYTES);
	case TASK: /* "1 I; 2 S; 4-5 T; 6-7 D; 8-9 C; 16-31 limits" */
		return zero(record, 3, 4) && zero(record, 10, 16);
	case EVENT:
		return event_well_formed(record);
	default: /* "any other first byte" */
		return false;
	}
}

/* "One setting first, then tasks, then events; at most 65,536 bytes. Any other
 * first byte, kind, report, order or length is malformed, as are a non-zero
 * byte that should be zero and an empty file". */
static bool well_formed(const uint8_t *bytes, size_t length)
{
	uint8_t before = SETTING;

	if (length == 0 || length > FILE_BYTES_MOST || length % RECORD_BYTES != 0)
		return false;
	for (size_t at = 0; at < length; at += RECORD_BYTES) {
		uint8_t first = bytes[at];

		if ((at == 0) != (first == SETTING) || first < before)
			return false;
		if (!record_well_formed(bytes + at))
			return false;
		before = first;
	}
	return true;
}

static void read_task(const uint8_t *record, struct task *task)
{
	task->I = record[1];
	task->S = record[2];
	task->T = word16(record + 4);
	task->D = word16(record + 6);
	task->C = word16(record + 8);
	for (size_t r = 0; r < RESOURCES; r++)
		task->limit[r] = word16(record + 16 + 2 * r);
}

/* Reads the setting and the tasks of a well-formed file; the place of its first
 * event. Tasks past the sixteenth are counted, and not kept. */
static size_t read_table(const uint8_t *bytes, size_t length, struct table *t,
	ticks *first_tick)
{
	size_t at = RECORD_BYTES;

	memset(t, 0, sizeof *t);
	t->F = bytes[1];
	t->G = word32(bytes + 4);
	*first_tick = word32(bytes + 8);
	for (; at < length && bytes[at] == TASK; at += RECORD_BYTES) {
		if (t->count < TASKS)
			read_task(bytes + at, &t->task[t->count]);
		t->count++;
	}
	return at;
}

/* ---- The listing ------------------------------------------------------- */

enum { TEXT_BYTES = 1 << 15, LINE_BYTES_MOST = 64 };

/* Lines on their way out. */
struct writer {
	FILE *to;
	bool failed;
	size_t length;
	char text[TEXT_BYTES];
};

static void send_text(struct writer *w)
{
	if (fwrite(w->text, 1, w->length, w->to) != w->length)
		w->failed = true;
	w->length = 0;
}

static void put_byte(struct writer *w, char byte)
{
	w->text[w->length++] = byte;
}

static void put_word(struct writer *w, const char *word)
{
	size_t length = strlen(word);

	memcpy(w->text + w->length, word, length);
	w->length += length;
}

static void put_number(struct writer *w, uint32_t number)
{
	char digits[10];
	size_t at = sizeof digits;

	do {
		digits[--at] = (char)('0' + number % 10);
		number /= 10;
	} while (number > 0);
	memcpy(w->text + w->length, digits + at, sizeof digits - at);
	w->length += sizeof digits - at;
}

/* "LF after each line"; leaves room for the next one. */
static void end_line(struct writer *w)
{
	put_byte(w, '\n');
	if (w->length > TEXT_BYTES - LINE_BYTES_MOST)
		send_text(w);
}

/* "prints "table" and the verdict number" */
static void print_verdict(struct writer *w, uint32_t number)
{
	put_word(w, "table ");
	put_number(w, number);
	end_line(w);
}

/* "Release line: tick, "release", position, number." */
static void print_release(struct writer *w, ticks tick, uint32_t position,
	uint32_t number)
{
	put_number(w, tick);
	put_word(w, " release ");
	put_number(w, position);
	put_byte(w, ' ');
	put_number(w, number);
	end_line(w);
}

/* "Tick line: tick, "run", position or "-", mode i or s, speed, ending". "A
 * refused tick prints tick, "refused", number". */
static void print_tick(struct writer *w, ticks tick, struct answer answer)
{
	put_number(w, tick);
	if (answer.number != SUCCESS) {
		put_word(w, " refused ");
		put_number(w, answer.number);
		end_line(w);
		return;
	}
	put_word(w, " run ");
	if (answer.runs)
		put_number(w, answer.runner);
	else
		put_byte(w, '-');
	put_word(w, answer.synchronization ? " s " : " i ");
	put_number(w, answer.speed);
	put_byte(w, ' ');
	put_number(w, answer.ending);
	end_line(w);
}

/* One event of a well-formed file: its step and its line. */
static void list_event(struct writer *w, const struct table *t,
	struct state *s, const uint8_t *record)
{
	ticks tick = s->tick;

	if (record[1] == EVENT_RELEASE)
		print_release(w, tick, record[2], release(t, s, record[2]));
	else
		print_tick(w, tick, whole_tick(t, s, record[2], record[3]));
}

/* "prints "table" and the verdict number, or 1 for a malformed file; it stops
 * there if that is not 0" */
static void list_file(struct writer *w, const uint8_t *bytes, size_t length)
{
	struct table table;
	struct state state;
	ticks first_tick;
	size_t at;
	uint32_t number;

	if (!well_formed(bytes, length)) {
		print_verdict(w, MALFORMED);
		return;
	}
	at = read_table(bytes, length, &table, &first_tick);
	number = start(&table, first_tick, &state).number;
	print_verdict(w, number);
	if (number != SUCCESS)
		return;
	for (; at < length; at += RECORD_BYTES)
		list_event(w, &table, &state, bytes + at);
}

/* ---- Files and packs --------------------------------------------------- */

/* A file longer than the most is malformed whatever it says, so one byte more
 * than the most is all that is ever kept of it. */
enum { KEPT_BYTES_MOST = FILE_BYTES_MOST + 1 };

enum { EXIT_DONE = 0, EXIT_TROUBLE = 2 };

static int trouble(const char *name, const char *what)
{
	fprintf(stderr, "second: %s: %s\n", name, what);
	return EXIT_TROUBLE;
}

/* Sends the last text. */
static int finish(struct writer *w)
{
	send_text(w);
	if (fflush(w->to) != 0 || w->failed)
		return trouble("standard output", "cannot be written");
	return EXIT_DONE;
}

static int list_stream(struct writer *w, FILE *from, const char *name)
{
	uint8_t bytes[KEPT_BYTES_MOST];
	size_t length = fread(bytes, 1, sizeof bytes, from);

	if (ferror(from))
		return trouble(name, "cannot be read");
	list_file(w, bytes, length);
	return finish(w);
}

static int list_named(struct writer *w, const char *name)
{
	FILE *from = fopen(name, "rb");
	int code;

	if (from == NULL)
		return trouble(name, "cannot be opened");
	code = list_stream(w, from, name);
	fclose(from);
	return code;
}

/* Reads past `count` bytes; false if there are fewer. */
static bool skip(FILE *from, size_t count)
{
	uint8_t bytes[4096];

	while (count > 0) {
		size_t part = count < sizeof bytes ? count : sizeof bytes;

		if (fread(bytes, 1, part, from) != part)
			return false;
		count -= part;
	}
	return true;
}

/* Reads one file of a pack, of which it keeps KEPT_BYTES_MOST bytes at most;
 * false if the pack ends before the file does. */
static bool read_packed(FILE *from, uint8_t *bytes, uint32_t length)
{
	size_t kept = length < KEPT_BYTES_MOST ? length : KEPT_BYTES_MOST;

	return fread(bytes, 1, kept, from) == kept && skip(from, length - kept);
}

/* A pack that cannot be read to its end; the listings made so far go out. */
static int pack_trouble(struct writer *w, FILE *from)
{
	finish(w);
	return trouble("pack", ferror(from) ? "cannot be read"
		: "ends in the middle");
}

/* Files one after the other, each a 4-byte little-endian length and its
 * bytes, until the input ends. */
static int list_pack(struct writer *w, FILE *from)
{
	uint8_t bytes[KEPT_BYTES_MOST];
	uint8_t head[4];
	size_t got;

	while ((got = fread(head, 1, sizeof head, from)) == sizeof head) {
		uint32_t length = word32(head);

		if (!read_packed(from, bytes, length))
			return pack_trouble(w, from);
		list_file(w, bytes, length);
		end_line(w);
	}
	if (got > 0 || ferror(from))
		return pack_trouble(w, from);
	return finish(w);
}

#ifndef SECOND_NO_MAIN
int main(int argc, char **argv)
{
	struct writer w = {.to = stdout};

	if (argc == 1)
		return list_stream(&w, stdin, "standard input");
	if (argc == 2 && strcmp(argv[1], "--pack") == 0)
		return list_pack(&w, stdin);
	if (argc == 2)
		return list_named(&w, argv[1]);
	return trouble("usage", "second [FILE | --pack]");
}
#endif
