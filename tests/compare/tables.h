/* Tables: the numbers of one. */

static uint32_t draw_round(struct chance *c)
{
	static const uint32_t rounds[] = {
		1, 2, 12, 60, 240, 360, 720, 840, 1260, 2520, 5040, 10080, 27720,
		55440, 65521, 65535, 65536, 131070, 166320, 332640, 360360, 498960,
		720720, 983025, 997920, 999999, 1000000
	};
	uint32_t product = 1;

	switch (below(c, 8)) {
	case 0:
		return between(c, 1, ROUND_MOST);
	case 1:
	case 2:
		while (product <= ROUND_MOST / 7 && !one_in(c, 10))
			product *= between(c, 2, 7);
		return product;
	default:
		return rounds[below(c, sizeof rounds / sizeof rounds[0])];
	}
}

/* The divisors of G from `low` to `high`; how many. */
static uint32_t divisors(uint32_t G, uint32_t low, uint32_t high,
	uint32_t list[DIVISORS_MOST])
{
	uint32_t count = 0;

	for (uint32_t d = 1; (uint64_t)d * d <= G; d++) {
		if (G % d != 0)
			continue;
		if (low <= d && d <= high)
			list[count++] = d;
		if (G / d != d && low <= G / d && G / d <= high)
			list[count++] = G / d;
	}
	return count;
}

/* A divisor of G from `low` to `high` if there is one, else any. */
static uint32_t draw_divisor(struct chance *c, uint32_t G, uint32_t low,
	uint32_t high)
{
	uint32_t list[DIVISORS_MOST];
	uint32_t count = divisors(G, low, high, list);

	if (count == 0)
		count = divisors(G, 1, NUMBER_MOST, list);
	return list[below(c, count)];
}

enum { ANY_D, CLOSE_D, FEW_D, SHORT_AND_LONG_D, D_STYLES, LONG_D = D_STYLES };

static ticks draw_D(struct chance *c, const struct table *t, uint32_t style,
	const ticks few[3])
{
	uint32_t n = t->count;

	switch (style) {
	case CLOSE_D:
		return draw_divisor(c, t->G, n, 16 * n + 8);
	case FEW_D:
		return few[below(c, 3)];
	case SHORT_AND_LONG_D:
		if (one_in(c, 2))
			return draw_divisor(c, t->G, n, 4 * n + 4);
		return draw_divisor(c, t->G, 8 * n, 40 * n + 100);
	case LONG_D:
		return draw_divisor(c, t->G, 12 * n, 80 * n + 100);
	default:
		return draw_divisor(c, t->G, 1, NUMBER_MOST);
	}
}

/* Ds of every task, in order, never falling. */
static void draw_Ds(struct chance *c, struct table *t, uint32_t style)
{
	ticks few[3];

	for (uint32_t i = 0; i < 3; i++)
		few[i] = draw_divisor(c, t->G, t->count, 20 * t->count + 10);
	for (uint32_t i = 0; i < t->count; i++) {
		ticks D = draw_D(c, t, style, few);
		uint32_t at = i;

		for (; at > 0 && t->task[at - 1].D > D; at--)
			t->task[at].D = t->task[at - 1].D;
		t->task[at].D = D;
	}
}

static ticks draw_T(struct chance *c, ticks D)
{
	ticks most = D <= NUMBER_MOST / 3 ? 3 * D : NUMBER_MOST;

	switch (below(c, 12)) {
	case 0:
		return D < NUMBER_MOST ? D + 1 : D;
	case 1:
	case 2:
		return between(c, D, most);
	case 3:
		return one_in(c, 4) ? NUMBER_MOST : D;
	default:
		return D;
	}
}

static steps draw_F(struct chance *c)
{
	switch (below(c, 6)) {
	case 0:
		return 1;
	case 1:
		return FULL_SPEED_MOST;
	case 2:
		return between(c, 1, FULL_SPEED_MOST);
	default:
		return between(c, 2, 10);
	}
}

static void draw_speeds(struct chance *c, steps F, struct task *task,
	uint32_t style)
{
	switch (style) {
	case 0:
		task->I = F;
		task->S = F;
		break;
	case 1:
		task->I = between(c, 1, F);
		task->S = F;
		break;
	default:
		task->I = between(c, 1, F);
		task->S = between(c, task->I, F);
	}
}

/* The least a task can be: a budget of 1, and sections of 1 on some of the
 * resources. In layers, the ceiling of resource r is the longer the larger r,
 * so that sections are preempted and not only waited for. */
static void draw_least_task(struct chance *c, struct table *t, uint32_t i,
	uint32_t style, uint32_t rarity)
{
	struct task *task = &t->task[i];
	bool layers = style >= 16;
	uint32_t resources = layers ? RESOURCES : 1 + style % RESOURCES;

	task->T = draw_T(c, task->D);
	task->C = 1;
	draw_speeds(c, t->F, task, style % 4);
	for (uint32_t r = 0; r < resources; r++)
		if (!layers || i >= r * t->count / RESOURCES)
			task->limit[r] = one_in(c, rarity) ? 1 : 0;
}
