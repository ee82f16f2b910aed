/* Events, chosen with the state in sight. */

/* How releases and reports are chosen. */
enum {
	EARLIEST, ONE_LATE, AT_RANDOM, RARELY, IN_AMBUSH, IN_LAYERS,
	ONE_TOO_EARLY, RELEASE_HABITS
};
enum {
	WHOLE_BUDGET, NEVER_GIVE, LONGEST_SECTIONS, AT_LIMITS, OFTEN, AT_ONCE,
	AT_CUT, BEFORE_CUT, WILD, REPORT_HABITS
};

struct play {
	struct chance *c;
	struct file *f;
	size_t most;                /* bytes */
	const struct table *t;
	struct state s;
	uint32_t releases;          /* habit */
	uint32_t reports;           /* habit */
	uint32_t nest;              /* habit: sections inside each other, most */
	uint32_t refusals;          /* one event in so many; 0 none */
	uint32_t ready[TASKS];      /* ticks closed with the wait at 0 */
};

static void draw_habits(struct play *p)
{
	static const uint32_t refusals[] = {0, 0, 100, 40, 8};
	static const uint32_t nests[] = {1, 2, 3, SECTIONS, SECTIONS, SECTIONS};

	p->releases = below(p->c, RELEASE_HABITS);
	if (p->releases == RARELY && !one_in(p->c, 4))
		p->releases = IN_AMBUSH;
	if (one_in(p->c, 4))
		p->releases = EARLIEST;
	p->reports = below(p->c, REPORT_HABITS);
	if (one_in(p->c, 3))
		p->reports = one_in(p->c, 2) ? LONGEST_SECTIONS : AT_LIMITS;
	p->nest = nests[below(p->c, 6)];
	p->refusals = refusals[below(p->c, 5)];
}

static bool has_room(const struct play *p)
{
	return p->f->length + RECORD_BYTES <= p->most;
}

static void play_release(struct play *p, uint32_t position)
{
	if (!has_room(p))
		return;
	put_event(p->f, EVENT_RELEASE, position, 0);
	release(p->t, &p->s, position);
}

static void play_tick(struct play *p, uint32_t said, uint32_t resource)
{
	struct state before = p->s;

	if (!has_room(p))
		return;
	put_event(p->f, EVENT_TICK, said, resource);
	if (whole_tick(p->t, &p->s, said, resource).number != SUCCESS)
		return;
	for (uint32_t i = 0; i < p->t->count; i++)
		p->ready[i] = before.job[i].wait == 0 ? p->ready[i] + 1 : 0;
}

static bool any_holds(const struct play *p)
{
	for (uint32_t i = 0; i < p->t->count; i++)
		if (p->s.job[i].depth > 0)
			return true;
	return false;
}

/* Releases over a holder above all; else now and then one of the longer Ds. */
static bool ambush(struct play *p, uint32_t i)
{
	if (any_holds(p))
		return one_in(p->c, 2);
	return one_in(p->c, i >= p->t->count / 2 ? 4 : 64);
}

static bool wants_release(struct play *p, uint32_t i)
{
	ticks wait = p->s.job[i].wait;

	if (p->releases == ONE_TOO_EARLY)
		return wait <= 1;
	if (wait > 0)
		return false;
	switch (p->releases) {
	case ONE_LATE:
		return p->ready[i] >= 1;
	case AT_RANDOM:
		return one_in(p->c, 4);
	case RARELY:
		return one_in(p->c, 40);
	case IN_AMBUSH:
		return ambush(p, i);
	default:
		return true;
	}
}

/* Over a runner that holds, the last position before it that may be released,
 * so that holders come to stand behind holders; over nobody the last of all. */
static void play_layer(struct play *p)
{
	struct chosen next = choose(p->t, &p->s);
	uint32_t i = next.runs ? next.runner : p->t->count;
	uint32_t wanted = between(p->c, 1, 2);

	if (next.runs && p->s.job[i].depth < wanted)
		return;
	while (i-- > 0)
		if (p->s.job[i].wait == 0) {
			play_release(p, i);
			return;
		}
}

static void play_releases(struct play *p)
{
	uint32_t n = p->t->count;
	uint32_t first = below(p->c, n);

	if (p->releases == IN_LAYERS) {
		play_layer(p);
		return;
	}
	for (uint32_t k = 0; k < n; k++) {
		uint32_t i = (first + k) % n;

		if (wants_release(p, i))
			play_release(p, i);
	}
}

/* A release that is refused, if chance finds one. */
static void play_refused_release(struct play *p)
{
	uint32_t n = p->t->count;
	uint32_t i = below(p->c, n);

	switch (below(p->c, 4)) {
	case 0:
		play_release(p, n);
		break;
	case 1:
		play_release(p, between(p->c, n, 255));
		break;
	default:
		if (p->s.job[i].wait > 0)
			play_release(p, i);
	}
}

/* A report that is refused, if chance finds one. */
static void play_refused_tick(struct play *p)
{
	struct state mid = p->s;

	choice(p->t, &mid);
	for (uint32_t i = 0; i < 6; i++) {
		uint32_t said = between(p->c, DONE, GIVE);
		uint32_t resource = below(p->c, RESOURCES);

		if (one_in(p->c, 3))
			resource = between(p->c, RESOURCES, 255);
		if (said != TAKE)
			resource = 0;
		if (report_number(p->t, &mid, said, resource) != SUCCESS) {
			play_tick(p, said, resource);
			return;
		}
	}
}

/* Now and then something that is refused. Before the releases of a tick as well
 * as after them: what a refused tick leaves behind shows if the next tick has
 * another runner. */
static void play_refused(struct play *p)
{
	if (p->refusals > 0 && one_in(p->c, p->refusals))
		play_refused_release(p);
	if (p->refusals > 0 && one_in(p->c, p->refusals))
		play_refused_tick(p);
}

/* Takes some resource that the runner may take, or carries on. In layers half
 * of the time the last, which is the one that fewest tasks are blocked by. */
static void play_take(struct play *p, uint32_t runner)
{
	const struct job *job = &p->s.job[runner];
	uint32_t first = below(p->c, RESOURCES);
	bool last = p->releases == IN_LAYERS && one_in(p->c, 2);

	for (uint32_t k = 0; job->depth < p->nest && k < RESOURCES; k++) {
		uint32_t r = last ? RESOURCES - 1 - k : (first + k) % RESOURCES;

		if (p->t->task[runner].limit[r] > 0 && !holds(job, r)) {
			play_tick(p, TAKE, r);
			return;
		}
	}
	play_tick(p, CARRY_ON, 0);
}

/* Whether some section is at its limit before its turn to be given back comes,
 * after those inside it, if giving back begins `late` ticks from now. */
static bool comes_late(const struct play *p, struct chosen next, uint32_t late)
{
	const struct job *job = &p->s.job[next.runner];
	const struct task *task = &p->t->task[next.runner];

	for (uint32_t k = 0; k < job->depth; k++) {
		struct section section = job->section[k];
		uint32_t inside = job->depth - 1 - k;

		if (section.steps + next.speed * (inside + late)
			>= task->limit[section.resource])
			return true;
	}
	return false;
}

/* Takes at once, and more inside it, and gives back in the last tick in which
 * no section is cut. One taken now is to be given back first, so a take is two
 * ticks for those around it. */
static void play_longest_section(struct play *p, struct chosen next)
{
	uint32_t depth = p->s.job[next.runner].depth;

	if (depth == 0)
		play_take(p, next.runner);
	else if (comes_late(p, next, 1))
		play_tick(p, GIVE, 0);
	else if (!comes_late(p, next, 2) && one_in(p->c, 2))
		play_take(p, next.runner);
	else
		play_tick(p, CARRY_ON, 0);
}

/* Whether some section comes to its limit in this tick. */
static bool comes_to_limit(const struct play *p, struct chosen next)
{
	const struct job *job = &p->s.job[next.runner];
	const struct task *task = &p->t->task[next.runner];

	for (uint32_t k = 0; k < job->depth; k++)
		if (job->section[k].steps + next.speed
			>= task->limit[job->section[k].resource])
			return true;
	return false;
}

/* Takes and carries on, and where a section comes to its limit gives or takes
 * or carries on. */
static void play_at_limits(struct play *p, struct chosen next)
{
	if (comes_to_limit(p, next) && one_in(p->c, 2))
		play_tick(p, GIVE, 0);
	else if (one_in(p->c, 3))
		play_tick(p, CARRY_ON, 0);
	else
		play_take(p, next.runner);
}

/* Gives if it holds as many as it may, takes if it holds none, else one of the
 * two. */
static void play_take_or_give(struct play *p, uint32_t runner)
{
	uint32_t depth = p->s.job[runner].depth;

	if (depth > 0 && (depth >= p->nest || one_in(p->c, 3)))
		play_tick(p, GIVE, 0);
	else
		play_take(p, runner);
}

static void play_wild(struct play *p, struct chosen next)
{
	switch (below(p->c, 8)) {
	case 0:
		play_tick(p, DONE, 0);
		break;
	case 1:
	case 2:
	case 3:
		play_take_or_give(p, next.runner);
		break;
	default:
		play_tick(p, CARRY_ON, 0);
	}
}

/* Takes and gives, half of the time. */
static void play_often(struct play *p, struct chosen next)
{
	if (one_in(p->c, 2))
		play_tick(p, CARRY_ON, 0);
	else
		play_take_or_give(p, next.runner);
}

/* The report on the runner that the choice rules will give. */
static void play_report(struct play *p, struct chosen next)
{
	const struct job *job = &p->s.job[next.runner];
	steps left = p->t->task[next.runner].C - job->used;

	switch (p->reports) {
	case WHOLE_BUDGET:
		play_tick(p, CARRY_ON, 0);
		break;
	case NEVER_GIVE:
		play_take(p, next.runner);
		break;
	case AT_LIMITS:
		play_at_limits(p, next);
		break;
	case OFTEN:
		play_often(p, next);
		break;
	case AT_ONCE:
		play_tick(p, DONE, 0);
		break;
	case WILD:
		play_wild(p, next);
		break;
	default:
		if (p->reports == AT_CUT && left <= next.speed)
			play_tick(p, DONE, 0);
		else if (p->reports == BEFORE_CUT && left <= 2 * next.speed)
			play_tick(p, DONE, 0);
		else
			play_longest_section(p, next);
	}
}

/* Events up to `most` bytes, each chosen in the state that the rules give. */
static void play_file(struct chance *c, struct file *f, const struct draft *d,
	size_t most)
{
	struct play p = {.c = c, .f = f, .most = most, .t = &d->t};

	start(&d->t, d->first_tick, &p.s);
	draw_habits(&p);
	while (has_room(&p)) {
		struct chosen next;

		if (one_in(c, 400))
			draw_habits(&p);
		play_refused(&p);
		play_releases(&p);
		play_refused(&p);
		next = choose(&d->t, &p.s);
		if (next.runs)
			play_report(&p, next);
		else
			play_tick(&p, CARRY_ON, 0);
	}
}

/* Events that nothing will come of: the table does not pass. */
static void put_blind_events(struct chance *c, struct file *f, uint32_t count)
{
	for (uint32_t i = 0; i < count; i++) {
		uint32_t what = below(c, 4);

		if (one_in(c, 2))
			put_event(f, EVENT_RELEASE, what, 0);
		else
			put_event(f, EVENT_TICK, what, 0);
	}
}

/* The draft, and then events up to `most` bytes if it passes. */
static void put_whole(struct chance *c, struct file *f, const struct draft *d,
	size_t most)
{
	put_draft(f, d);
	if (d->extra == 0 && passes(&d->t))
		play_file(c, f, d, most);
	else
		put_blind_events(c, f, below(c, 4));
}
