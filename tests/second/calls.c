/*
 * calls.c - runs commands, one to a line, and prints what they answer.
 *
 *   calls <COMMANDS
 *
 * A listing shows only what a run from a fresh start reaches. Here a table and
 * a state are set by hand and each call is made alone, as the commands of
 * crates/runs/stdin ask; their first lines say what each command is and what it
 * answers. This program reads, sets, calls and prints: every rule is second.c's.
 *
 * Exit 0: the commands were read and answered. Exit 2: something could not be
 * read or written; a message is on standard error.
 */

#define SECOND_NO_MAIN
#include "second.c"

#include <inttypes.h>

/* A text that fills the buffer may go on past it, so none of it is run. */
enum { COMMAND_BYTES = 262144 };

/* Stands for '-', where a command may say that there is none. No number that
 * may stand in such a place is as large. */
#define NONE UINT64_MAX

/* The table and the state that the calls are given. */
struct desk {
	struct table table;
	struct state state;
};

/* What is not yet read of a command, and whether what was read is wrong. */
struct command {
	const char *at;
	const char *end;
	bool wrong;
};

/* ---- Reading ----------------------------------------------------------- */

static bool separates(char byte)
{
	return byte == ' ' || byte == '=' || byte == '@';
}

static void skip_separators(struct command *c)
{
	while (c->at < c->end && separates(*c->at))
		c->at++;
}

static bool next_is(const struct command *c, char byte)
{
	return c->at < c->end && *c->at == byte;
}

/* Reads past this word, if it is the next one. */
static bool read_word(struct command *c, const char *word)
{
	size_t length = strlen(word);

	skip_separators(c);
	if ((size_t)(c->end - c->at) < length
		|| memcmp(c->at, word, length) != 0)
		return false;
	if (c->at + length < c->end && !separates(c->at[length]))
		return false;
	c->at += length;
	return true;
}

/* A number up to the most that its place may have, else the command is wrong.
 * A '-' right behind it stands between this number and the next. */
static uint64_t read_number(struct command *c, uint64_t most)
{
	uint64_t number = 0;
	const char *first;

	skip_separators(c);
	first = c->at;
	for (; c->at < c->end && '0' <= *c->at && *c->at <= '9'; c->at++) {
		uint64_t digit = (uint64_t)(*c->at - '0');

		c->wrong |= number > (UINT64_MAX - digit) / 10;
		number = number * 10 + digit;
	}
	c->wrong |= c->at == first || number > most;
	c->at += next_is(c, '-');
	return c->wrong ? 0 : number;
}

static uint64_t read_number_or_none(struct command *c, uint64_t most)
{
	skip_separators(c);
	if (!next_is(c, '-'))
		return read_number(c, most);
	c->at++;
	return NONE;
}

static uint32_t read_number32(struct command *c, uint32_t most)
{
	return (uint32_t)read_number(c, most);
}

/* Whether the command was read to its end and is right. One that is not sets
 * nothing and calls nothing. */
static bool whole(struct command *c)
{
	skip_separators(c);
	if (!c->wrong && c->at == c->end)
		return true;
	puts("no command");
	return false;
}

/* A task count or a position has 64 bits in a command, and 32 in second.c. One
 * that does not fit becomes the largest that does, which is past every range
 * too; its low 32 bits could be a good one. */
static uint32_t fitted(uint64_t number)
{
	return number < UINT32_MAX ? (uint32_t)number : UINT32_MAX;
}

/* ---- What is set by hand ----------------------------------------------- */

static void set_table(struct desk *d, struct command *c)
{
	struct table table = {0};

	table.F = read_number32(c, UINT8_MAX);
	table.G = read_number32(c, UINT32_MAX);
	table.count = fitted(read_number(c, UINT64_MAX));
	if (whole(c))
		d->table = table;
}

/* A run of equal entries: behind the task's five numbers a resource and its
 * limit, for each resource that it takes. */
static void set_tasks(struct desk *d, struct command *c)
{
	struct task task = {0};
	uint32_t first = read_number32(c, TASKS - 1);
	uint32_t last = read_number32(c, TASKS - 1);

	task.T = read_number32(c, UINT16_MAX);
	task.D = read_number32(c, UINT16_MAX);
	task.C = read_number32(c, UINT16_MAX);
	task.I = read_number32(c, UINT8_MAX);
	task.S = read_number32(c, UINT8_MAX);
	skip_separators(c);
	for (uint32_t n = 0; n < RESOURCES && c->at < c->end; n++) {
		uint32_t resource = read_number32(c, RESOURCES - 1);

		task.limit[resource] = (uint16_t)read_number(c, UINT16_MAX);
		skip_separators(c);
	}
	if (!whole(c))
		return;
	for (uint32_t i = first; i <= last; i++)
		d->table.task[i] = task;
}

static struct mark read_mark(struct command *c)
{
	uint64_t deadline = read_number_or_none(c, UINT32_MAX);
	struct mark mark = {0};

	if (deadline != NONE) {
		mark.stands = true;
		mark.deadline = (ticks)deadline;
		mark.position = read_number32(c, UINT8_MAX);
	}
	return mark;
}

/* A state without jobs. */
static void set_state(struct desk *d, struct command *c)
{
	struct state state = {0};
	uint32_t half;
	uint64_t runner;

	state.tick = read_number32(c, UINT32_MAX);
	half = read_number32(c, 2);
	c->wrong |= half == 0;
	state.midtick = half == 2;
	runner = read_number_or_none(c, UINT8_MAX);
	if (runner != NONE) {
		state.runs = true;
		state.runner = (uint32_t)runner;
	}
	state.mark = read_mark(c);
	if (whole(c))
		d->state = state;
}

/* A stack of one section, or an empty one: the steps are not looked at then. */
static void read_stack(struct command *c, struct job *job)
{
	uint64_t resource = read_number_or_none(c, UINT8_MAX);
	uint16_t in_section = (uint16_t)read_number(c, UINT16_MAX);

	if (resource == NONE)
		return;
	job->depth = 1;
	job->section[0] = (struct section){(uint16_t)resource, in_section};
}

static void set_job(struct desk *d, struct command *c)
{
	struct job job = {0};
	uint32_t position = read_number32(c, TASKS - 1);

	job.pending = read_number(c, 1) == 1;
	job.started = read_number(c, 1) == 1;
	job.deadline = read_number32(c, UINT32_MAX);
	job.used = read_number32(c, UINT16_MAX);
	read_stack(c, &job);
	job.wait = read_number32(c, UINT16_MAX);
	if (whole(c))
		d->state.job[position] = job;
}

/* Stacks that no run has are set by these two: one changes how many places are
 * in use and not what stands in them, the other what stands in one of them. */
static void set_depth(struct desk *d, struct command *c)
{
	uint32_t position = read_number32(c, TASKS - 1);
	uint8_t depth = (uint8_t)read_number(c, UINT8_MAX);

	if (whole(c))
		d->state.job[position].depth = depth;
}

static void set_section(struct desk *d, struct command *c)
{
	uint32_t position = read_number32(c, TASKS - 1);
	uint32_t place = read_number32(c, SECTIONS - 1);
	uint16_t resource = (uint16_t)read_number(c, UINT8_MAX);
	uint16_t in_section = (uint16_t)read_number(c, UINT16_MAX);

	if (whole(c))
		d->state.job[position].section[place]
			= (struct section){resource, in_section};
}

/* ---- The whole state in text ------------------------------------------- */

static void print_position_or_none(bool is_one, uint32_t position)
{
	if (is_one)
		printf(" %" PRIu32, position);
	else
		printf(" -");
}

/* The command that sets a job, which says a stack of at most one section. */
static void print_job(uint32_t position, const struct job *job)
{
	printf(", job %" PRIu32 " %d %d %" PRIu32 " %" PRIu32, position,
		job->pending, job->started, job->deadline, job->used);
	print_position_or_none(job->depth > 0, job->section[0].resource);
	printf(" %d %" PRIu32, job->depth > 0 ? job->section[0].steps : 0,
		job->wait);
}

/* What that command does not say of the stack. What stands in a place is
 * printed where the place is not in use too, so that what is left behind there
 * is seen. */
static void print_stack(uint32_t position, const struct job *job)
{
	if (job->depth > 1)
		printf(", depth %" PRIu32 " %d", position, job->depth);
	for (uint32_t k = job->depth > 0; k < SECTIONS; k++) {
		struct section section = job->section[k];

		if (section.resource != 0 || section.steps != 0)
			printf(", section %" PRIu32 " %" PRIu32 " %d %d",
				position, k, section.resource, section.steps);
	}
}

static void show(struct desk *d, struct command *c)
{
	const struct state *s = &d->state;

	if (!whole(c))
		return;
	printf("state %" PRIu32 " %d", s->tick, s->midtick ? 2 : 1);
	print_position_or_none(s->runs, s->runner);
	if (s->mark.stands)
		printf(" %" PRIu32 "@%" PRIu32, s->mark.deadline,
			s->mark.position);
	else
		printf(" -");
	for (uint32_t i = 0; i < TASKS; i++)
		if (!empty_but_wait(&s->job[i]) || s->job[i].wait != 0) {
			print_job(i, &s->job[i]);
			print_stack(i, &s->job[i]);
		}
	printf("\n");
}

/* ---- The calls in text ------------------------------------------------- */

static void call_start(struct desk *d, struct command *c)
{
	ticks tick = read_number32(c, UINT32_MAX);
	struct verdict verdict;

	if (!whole(c))
		return;
	verdict = start(&d->table, tick, &d->state);
	printf("fresh %" PRIu32 " %" PRIu32 "\n", verdict.number,
		verdict.position);
}

static void call_release(struct desk *d, struct command *c)
{
	uint64_t position = read_number(c, UINT64_MAX);
	ticks tick = d->state.tick;

	if (!whole(c))
		return;
	printf("%" PRIu32 " release %" PRIu64 " %" PRIu32 "\n", tick, position,
		release(&d->table, &d->state, fitted(position)));
}

/* The job on the processor, the mode and the speed. */
static void print_chosen(struct answer answer)
{
	print_position_or_none(answer.runs, answer.runner);
	printf(" %c %" PRIu32, answer.synchronization ? 's' : 'i',
		answer.speed);
}

static void call_choice(struct desk *d, struct command *c)
{
	ticks tick = d->state.tick;
	struct answer answer;

	if (!whole(c))
		return;
	answer = choice(&d->table, &d->state);
	printf("%" PRIu32 " choose %" PRIu32, tick, answer.number);
	print_chosen(answer);
	printf("\n");
}

static uint32_t read_report(struct command *c, uint32_t *resource)
{
	*resource = 0;
	if (read_word(c, "carry"))
		return CARRY_ON;
	if (read_word(c, "done"))
		return DONE;
	if (read_word(c, "give"))
		return GIVE;
	c->wrong |= !read_word(c, "take");
	*resource = read_number32(c, UINT8_MAX);
	return TAKE;
}

static void call_report(struct desk *d, struct command *c)
{
	uint32_t resource;
	uint32_t said = read_report(c, &resource);
	ticks tick = d->state.tick;
	struct answer answer;

	if (!whole(c))
		return;
	answer = report(&d->table, &d->state, said, resource);
	printf("%" PRIu32 " report %" PRIu32, tick, answer.number);
	print_chosen(answer);
	printf(" %" PRIu32 "\n", answer.ending);
}

static void call_whole_tick(struct desk *d, struct command *c)
{
	uint32_t resource;
	uint32_t said = read_report(c, &resource);
	ticks tick = d->state.tick;
	struct answer answer;

	if (!whole(c))
		return;
	answer = whole_tick(&d->table, &d->state, said, resource);
	if (answer.number != SUCCESS) {
		printf("%" PRIu32 " refused %" PRIu32 "\n", tick, answer.number);
		return;
	}
	printf("%" PRIu32 " run", tick);
	print_chosen(answer);
	printf(" %" PRIu32 "\n", answer.ending);
}

/* ---- Lines ------------------------------------------------------------- */

static const struct {
	const char *word;
	void (*run)(struct desk *d, struct command *c);
} commands[] = {
	{"table", set_table}, {"state", set_state}, {"job", set_job},
	{"depth", set_depth}, {"section", set_section},
	{"fresh", call_start}, {"release", call_release},
	{"choose", call_choice}, {"report", call_report},
	{"tick", call_whole_tick}, {"show", show}
};

static void run_command(struct desk *d, struct command c)
{
	skip_separators(&c);
	if (c.at == c.end)
		return;
	for (size_t n = 0; n < sizeof commands / sizeof commands[0]; n++)
		if (read_word(&c, commands[n].word)) {
			commands[n].run(d, &c);
			return;
		}
	c.wrong = true;
	whole(&c);
}

/* The first such byte, or the end. */
static const char *find(const char *at, const char *end, char byte)
{
	const char *found = memchr(at, byte, (size_t)(end - at));

	return found != NULL ? found : end;
}

/* A line that starts with '#' is a note and is printed as it stands. In every
 * other a bar begins a run of equal entries of the table. */
static void run_line(struct desk *d, const char *at, const char *end)
{
	struct command line = {at, end, false};
	const char *bar = find(at, end, '|');

	skip_separators(&line);
	if (next_is(&line, '#')) {
		fwrite(at, 1, (size_t)(end - at), stdout);
		putchar('\n');
		return;
	}
	run_command(d, (struct command){at, bar, false});
	while (bar < end) {
		at = bar + 1;
		bar = find(at, end, '|');
		set_tasks(d, &(struct command){at, bar, false});
	}
}

/* The last line may lack its line end. */
static void run_text(struct desk *d, const char *at, const char *end)
{
	while (at < end) {
		const char *line_end = find(at, end, '\n');

		run_line(d, at, line_end);
		at = line_end + (line_end < end);
	}
}

static int calls_trouble(const char *what)
{
	fprintf(stderr, "calls: %s\n", what);
	return EXIT_TROUBLE;
}

int main(void)
{
	static char text[COMMAND_BYTES];
	struct desk desk = {0};
	size_t length = fread(text, 1, sizeof text, stdin);

	/* Where a sanitizer stops the program, the answers before that are out. */
	setvbuf(stdout, NULL, _IOLBF, BUFSIZ);
	if (ferror(stdin))
		return calls_trouble("standard input cannot be read");
	if (length < sizeof text)
		run_text(&desk, text, text + length);
	else
		puts("the text is too long");
	if (fflush(stdout) != 0 || ferror(stdout))
		return calls_trouble("standard output cannot be written");
	return EXIT_DONE;
}
