/* Tables that are brought to the edge of passing. */

static bool passes(const struct table *t)
{
	return test_table(t).number == SUCCESS;
}

static void remove_task(struct table *t, uint32_t i)
{
	t->count--;
	for (; i < t->count; i++)
		t->task[i] = t->task[i + 1];
	memset(&t->task[t->count], 0, sizeof t->task[0]);
}

static uint32_t at_most(uint32_t value, uint32_t most)
{
	return value < most ? value : most;
}

/* Some number of the table becomes harder by `by`, within its range. */
static void make_harder(struct chance *c, struct table *t, uint32_t by)
{
	struct task *task = &t->task[below(c, t->count)];
	uint32_t r = below(c, RESOURCES);

	switch (below(c, 8)) {
	case 0:
		if (task->I > 1)
			task->I--;
		break;
	case 1:
		if (task->S > task->I)
			task->S--;
		break;
	case 2:
	case 3:
	case 4:
		if (task->limit[r] > 0)
			task->limit[r] = (uint16_t)at_most(task->limit[r] + by,
				task->C);
		break;
	default:
		task->C = at_most(task->C + by, NUMBER_MOST);
	}
}

static void grow(struct chance *c, struct table *t)
{
	for (uint32_t by = 4096; by > 0; by /= 4) {
		for (uint32_t i = 0; i < 40; i++) {
			struct table tried = *t;

			make_harder(c, &tried, by);
			if (passes(&tried))
				*t = tried;
		}
	}
}

/* As far up as the table still passes. */
static void budget_to_edge(struct table *t, uint32_t i)
{
	for (uint32_t by = 32768; by > 0; by /= 2) {
		struct table tried = *t;

		tried.task[i].C += by;
		if (passes(&tried))
			*t = tried;
	}
}

static void limit_to_edge(struct table *t, uint32_t i, uint32_t r)
{
	for (uint32_t by = 32768; by > 0; by /= 2) {
		struct table tried = *t;

		if (by > t->task[i].C - t->task[i].limit[r])
			continue;
		tried.task[i].limit[r] = (uint16_t)(tried.task[i].limit[r] + by);
		if (passes(&tried))
			*t = tried;
	}
}

/* The synchronization speeds, as low as they may be. */
static void speeds_to_edge(struct table *t)
{
	for (uint32_t i = 0; i < t->count; i++)
		while (t->task[i].S > t->task[i].I) {
			struct table tried = *t;

			tried.task[i].S--;
			if (!passes(&tried))
				break;
			*t = tried;
		}
}

/* Until no budget and no limit in use can rise by one. */
static void to_edge(struct chance *c, struct table *t)
{
	uint32_t first = below(c, t->count);
	bool budgets_first = one_in(c, 2);
	bool slow = one_in(c, 2);

	for (uint32_t pass = 0; pass < 2; pass++)
		for (uint32_t k = 0; k < t->count; k++) {
			uint32_t i = (first + k) % t->count;

			if (budgets_first || pass > 0)
				budget_to_edge(t, i);
			for (uint32_t r = 0; r < RESOURCES; r++)
				if (t->task[i].limit[r] > 0)
					limit_to_edge(t, i, r);
		}
	if (slow)
		speeds_to_edge(t);
}

/* One raise further: 7 or 8, or the one asked for, if a few raises find it. */
static void past_edge(struct chance *c, struct table *t)
{
	bool want_8 = one_in(c, 2);
	struct table past = *t;

	for (uint32_t i = 0; i < 200; i++) {
		struct table tried = *t;
		uint32_t number;

		make_harder(c, &tried, between(c, 1, 2));
		number = test_table(&tried).number;
		if (number == SUCCESS)
			continue;
		past = tried;
		if (!want_8 || number == SYNCHRONIZATION_SUM_ABOVE_G)
			break;
	}
	*t = past;
}

static ticks draw_first_tick(struct chance *c)
{
	switch (below(c, 8)) {
	case 0:
	case 1:
		return 0;
	case 2:
		return draw(c);
	case 3:
		return (ticks)(UINT32_C(0x80000000) - below(c, 2000));
	case 4:
		return (ticks)(0 - between(c, 1, 20));
	default:
		return (ticks)(0 - between(c, 1, 1900));
	}
}

static uint32_t draw_count(struct chance *c)
{
	switch (below(c, 10)) {
	case 0:
		return 1;
	case 1:
	case 2:
		return TASKS;
	case 3:
	case 4:
		return between(c, 8, TASKS);
	default:
		return between(c, 2, 7);
	}
}

/* A table of so many tasks, or of fewer, that passes, mostly at the edge. */
static void draw_tasks(struct chance *c, struct draft *d, uint32_t count,
	uint32_t D_style, uint32_t style)
{
	struct table *t = &d->t;
	uint32_t rarity = between(c, 1, 4);

	memset(d, 0, sizeof *d);
	d->first_tick = draw_first_tick(c);
	t->count = count;
	t->F = draw_F(c);
	t->G = draw_round(c);
	draw_Ds(c, t, D_style);
	for (uint32_t i = 0; i < t->count; i++)
		draw_least_task(c, t, i, style, rarity);
	while (!passes(t))
		remove_task(t, one_in(c, 2) ? 0 : below(c, t->count));
	if (!one_in(c, 16))
		grow(c, t);
	if (!one_in(c, 4))
		to_edge(c, t);
}

static void draw_passing(struct chance *c, struct draft *d, uint32_t D_style)
{
	uint32_t count = draw_count(c);
	uint32_t style = below(c, 32);

	draw_tasks(c, d, count, D_style, style);
}

/* A few tasks in layers with time for many sections, so that several jobs hold
 * several each. */
static void draw_layers(struct chance *c, struct draft *d)
{
	uint32_t count = between(c, 3, 6);
	uint32_t style = between(c, 16, 31);

	draw_tasks(c, d, count, LONG_D, style);
}

/* Limits anywhere below where they are, so that sections come to their ends
 * before the budget does, and inner and outer ones in any order. */
static void shorten_sections(struct chance *c, struct table *t)
{
	for (uint32_t i = 0; i < t->count; i++)
		for (uint32_t r = 0; r < RESOURCES; r++)
			if (t->task[i].limit[r] > 1)
				t->task[i].limit[r] = (uint16_t)between(c, 1,
					t->task[i].limit[r]);
}
