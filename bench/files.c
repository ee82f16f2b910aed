/*
 * files.c - prints a record file for the bench: always the same one for the
 * same words.
 *
 *   files TASKS quiet TICKS    one job at a time, and half the ticks idle
 *   files TASKS busy TICKS     every job released as soon as it may be,
 *                              sections taken and given back
 *   files TASKS tick           the table of busy and one idle tick
 *   files TASKS releases       and a release of each position
 *
 * TASKS is 1, 4 or 16. A file of more ticks begins with the file of fewer. How
 * often things occur in it stands on standard error, as fields of a table's
 * line: ticks, releases, pending jobs, idle ticks, synchronization, changes of
 * mode, jobs that hold a resource.
 *
 * The second program is part of it, for the runner is to say only what it may:
 * so no call is refused, and if one were this program would fail.
 */

#define SECOND_NO_MAIN
#include "../tests/second/second.c"

#include <inttypes.h>
#include <stdlib.h>

struct counts {
	uint32_t ticks, releases, pending, idle, synchronization, changes, held;
};

struct pond {
	struct table t;
	struct state s;
	struct counts n;
	bool synchronization; /* the mode of the last tick */
};

/* A quarter of the tasks has each D. By the number of tasks, the ticks that a
 * job needs at speed I: so many that the independent sum is nearly G. */
static const struct { ticks D; ticks needs[TASKS + 1]; } levels[] = {
	{40, {[1] = 40, [4] = 10, [16] = 2}},
	{60, {[4] = 15, [16] = 4}},
	{80, {[4] = 20, [16] = 5}},
	{120, {[4] = 28, [16] = 7}},
};

static void put_record(const uint8_t *record)
{
	if (fwrite(record, 1, RECORD_BYTES, stdout) != RECORD_BYTES)
		exit(EXIT_TROUBLE);
}

static void put_word16(uint8_t *at, uint32_t number)
{
	at[0] = (uint8_t)(number & 0xff);
	at[1] = (uint8_t)(number >> 8 & 0xff);
}

/* Resource r is used by the positions r, r + 4, r + 8 and r + 12, which are of
 * different levels, and by each of them for up to 6 steps; with 4 tasks all use
 * resource 0. */
static void make_table(struct pond *p, uint32_t tasks)
{
	p->t = (struct table){.count = tasks, .F = 8, .G = 240};
	for (uint32_t i = 0; i < tasks; i++) {
		struct task *task = &p->t.task[i];
		uint32_t level = i * 4 / tasks;

		task->D = levels[level].D;
		task->T = task->D;
		task->I = 3;
		task->S = level < 2 ? 4 : 3;
		task->C = task->I * levels[level].needs[tasks];
		task->limit[tasks == TASKS ? i % 4 : 0] = 6;
	}
}

static void put_table(const struct table *t)
{
	uint8_t setting[RECORD_BYTES] = {SETTING, (uint8_t)t->F};

	put_word16(setting + 4, t->G);
	put_record(setting);
	for (uint32_t i = 0; i < t->count; i++) {
		const struct task *task = &t->task[i];
		uint8_t record[RECORD_BYTES] = {TASK, (uint8_t)task->I,
			(uint8_t)task->S};

		put_word16(record + 4, task->T);
		put_word16(record + 6, task->D);
		put_word16(record + 8, task->C);
		for (uint32_t r = 0; r < RESOURCES; r++)
			put_word16(record + 16 + 2 * r, task->limit[r]);
		put_record(record);
	}
}

static void must(bool taken)
{
	if (!taken) {
		fprintf(stderr, "files: a call is refused\n");
		exit(EXIT_TROUBLE);
	}
}

static void event_release(struct pond *p, uint32_t position)
{
	uint8_t record[RECORD_BYTES] = {EVENT, EVENT_RELEASE, (uint8_t)position};

	must(release(&p->t, &p->s, position) == SUCCESS);
	put_record(record);
	p->n.releases++;
}

static void event_tick(struct pond *p, uint32_t said, uint32_t resource)
{
	uint8_t record[RECORD_BYTES] = {EVENT, EVENT_TICK, (uint8_t)said,
		(uint8_t)resource};
	struct answer answer;

	for (uint32_t i = 0; i < p->t.count; i++) {
		p->n.pending += p->s.job[i].pending;
		p->n.held += p->s.job[i].depth > 0;
	}
	answer = whole_tick(&p->t, &p->s, said, resource);
	must(answer.number == SUCCESS);
	put_record(record);
	p->n.ticks++;
	p->n.idle += !answer.runs;
	p->n.synchronization += answer.synchronization;
	p->n.changes += answer.synchronization != p->synchronization;
	p->synchronization = answer.synchronization;
}

/* The resource that a position uses. */
static uint32_t resource_of(const struct task *task)
{
	uint32_t r = 0;

	while (task->limit[r] == 0)
		r++;
	return r;
}

/* What the runner says: it takes after its first tick, gives back before it is
 * cut at its limit, takes again, and is done with its whole budget. */
static void busy_tick(struct pond *p)
{
	struct chosen c = choose(&p->t, &p->s);
	const struct task *task = &p->t.task[c.runner];
	const struct job *job = &p->s.job[c.runner];
	const struct section *section = &job->section[0];

	if (!c.runs)
		event_tick(p, CARRY_ON, 0);
	else if (job->used + c.speed >= task->C)
		event_tick(p, DONE, 0);
	else if (job->depth == 0)
		event_tick(p, TAKE, resource_of(task));
	else if (section->steps + 2 * c.speed > task->limit[section->resource])
		event_tick(p, GIVE, 0);
	else
		event_tick(p, CARRY_ON, 0);
}

static void busy(struct pond *p, uint32_t count)
{
	while (p->n.ticks < count) {
		for (uint32_t i = 0; i < p->t.count; i++)
			if (p->s.job[i].wait == 0)
				event_release(p, i);
		busy_tick(p);
	}
}

/* The positions in turn, a job each 40 ticks, which runs for 20 of them. */
static void quiet(struct pond *p, uint32_t count)
{
	while (p->n.ticks < count) {
		uint32_t in_turn = p->n.ticks % 40;

		if (in_turn == 0)
			event_release(p, p->n.ticks / 40 % p->t.count);
		event_tick(p, in_turn == 19 ? DONE : CARRY_ON, 0);
	}
}

/* A job of 20 ticks each 40, and each position released once in T. */
static void make_quiet_table(struct pond *p, uint32_t tasks)
{
	make_table(p, tasks);
	p->t.G = 640;
	for (uint32_t i = 0; i < tasks; i++) {
		struct task *task = &p->t.task[i];

		task->T = task->D = 40 * tasks;
		task->I = 2;
		task->S = 4;
		task->C = 42;
	}
}

static void tell(const struct counts *n)
{
	fprintf(stderr, "%" PRIu32 " %" PRIu32 " %" PRIu32 " %" PRIu32 " %" PRIu32
		" %" PRIu32 " %" PRIu32 "\n", n->ticks, n->releases, n->pending,
		n->idle, n->synchronization, n->changes, n->held);
}

int main(int argc, char **argv)
{
	struct pond p = {0};
	uint32_t tasks = argc > 1 ? (uint32_t)strtoul(argv[1], NULL, 10) : 0;
	uint32_t count = argc > 3 ? (uint32_t)strtoul(argv[3], NULL, 10) : 0;

	if (argc < 3 || (tasks != 1 && tasks != 4 && tasks != 16))
		return trouble("usage", "files TASKS quiet|busy|tick|releases [TICKS]");
	if (strcmp(argv[2], "quiet") == 0)
		make_quiet_table(&p, tasks);
	else
		make_table(&p, tasks);
	must(start(&p.t, 0, &p.s).number == SUCCESS);
	put_table(&p.t);
	if (strcmp(argv[2], "quiet") == 0)
		quiet(&p, count);
	if (strcmp(argv[2], "busy") == 0)
		busy(&p, count);
	if (count == 0)
		event_tick(&p, CARRY_ON, 0);
	for (uint32_t i = 0; strcmp(argv[2], "releases") == 0 && i < tasks; i++)
		event_release(&p, i);
	tell(&p.n);
	return fflush(stdout) == 0 ? EXIT_DONE : EXIT_TROUBLE;
}
