/* Tables with faults, and numbers at their bounds. */

/* Fills the table to 16 tasks with copies of the last, and `extra` more. */
static void crowd(struct draft *d, uint32_t extra)
{
	for (; d->t.count < TASKS; d->t.count++)
		d->t.task[d->t.count] = d->t.task[d->t.count - 1];
	d->extra = extra;
}

static void change_setting(struct chance *c, struct draft *d)
{
	static const uint32_t speeds[] = {0, 1, 63, 64, 65, 255};
	static const uint32_t rounds[] = {
		0, 1, 999999, 1000000, 1000001, 2000000, UINT32_MAX
	};
	/* 241 more make 257, which is a good count of 1 in one byte alone. */
	static const uint32_t extras[] = {0, 1, 24, 241, 241, 2000};

	switch (below(c, 7)) {
	case 0:
	case 1:
		d->t.F = speeds[below(c, 6)];
		break;
	case 2:
	case 3:
		d->t.G = rounds[below(c, 7)];
		break;
	case 4:
		d->t.count = 0;
		break;
	default:
		if (d->t.count > 0)
			crowd(d, extras[below(c, 6)]);
	}
}

/* A bound of the range of T, D or their order is hit or passed by one. */
static void change_times(struct chance *c, struct table *t, struct task *task)
{
	struct task *other = &t->task[below(c, t->count)];
	struct task kept = *task;

	switch (below(c, 10)) {
	case 0:
		task->D = 0;
		break;
	case 1:
		task->D = task->T + 1;
		break;
	case 2:
		task->T = task->D - 1;
		break;
	case 3:
		task->T = one_in(c, 2) ? NUMBER_MOST : 0;
		break;
	case 4:
		task->T = NUMBER_MOST;
		task->D = NUMBER_MOST;
		break;
	case 5:
		task->T = 1;
		task->D = 1;
		break;
	case 6:
		task->D++;
		task->T = task->T < task->D ? task->D : task->T;
		break;
	case 7: /* out of order and mostly no divisor */
		if (other->D > 1)
			task->D = at_most(other->D - 1, task->T);
		break;
	default: /* out of order */
		*task = *other;
		*other = kept;
	}
}

/* A bound of the range of C, I, S or a limit is hit or passed by one. */
static void change_steps(struct chance *c, const struct table *t,
	struct task *task)
{
	uint16_t *limit = &task->limit[below(c, RESOURCES)];

	switch (below(c, 9)) {
	case 0:
		task->C = 0;
		break;
	case 1:
		task->C = NUMBER_MOST;
		break;
	case 2:
		task->I = 0;
		break;
	case 3:
		task->I = task->S + 1;
		break;
	case 4:
		task->S = t->F + 1;
		break;
	case 5:
		task->S = t->F;
		break;
	case 6:
		*limit = (uint16_t)(task->C + 1);
		break;
	case 7:
		*limit = (uint16_t)task->C;
		break;
	default:
		*limit = NUMBER_MOST;
	}
}

/* One to four changes, so that the order of numbers matters. */
static void change_table(struct chance *c, struct draft *d)
{
	uint32_t changes = one_in(c, 2) ? 1 : between(c, 2, 4);

	for (uint32_t i = 0; i < changes; i++) {
		uint32_t kind = below(c, 5);

		if (d->t.count == 0 || kind == 0)
			change_setting(c, d);
		else if (kind < 3)
			change_times(c, &d->t, &d->t.task[below(c, d->t.count)]);
		else
			change_steps(c, &d->t, &d->t.task[below(c, d->t.count)]);
	}
}

/* An independent sum that passes only if it is cut to 32 bits: k x 2^32 and a
 * little more. */
static void draw_wide_independent(struct chance *c, struct draft *d)
{
	uint32_t D = between(c, 1, 2);
	uint64_t times = ROUND_MOST / D;
	uint64_t turns = between(c, 1, D == 1 ? 15 : 7);

	memset(d, 0, sizeof *d);
	d->t.count = 1;
	d->t.F = between(c, 1, FULL_SPEED_MOST);
	d->t.G = ROUND_MOST;
	d->t.task[0].T = D;
	d->t.task[0].D = D;
	d->t.task[0].C = (steps)(((turns << 32) + times - 1) / times);
	d->t.task[0].I = 1;
	d->t.task[0].S = between(c, 1, d->t.F);
}

/* The same for a synchronization sum: the block of position 0 is as wide. */
static void draw_wide_synchronization(struct chance *c, struct draft *d)
{
	uint32_t r = below(c, RESOURCES);

	memset(d, 0, sizeof *d);
	d->t.count = 2;
	d->t.F = between(c, 1, FULL_SPEED_MOST);
	d->t.G = ROUND_MOST;
	d->t.task[0] = (struct task){.T = 2, .D = 2, .C = 1, .I = 1, .S = 1};
	d->t.task[1] = (struct task){.T = 50000, .D = 50000, .I = 1, .S = 1};
	d->t.task[1].C = between(c, 17180, 25000);
	d->t.task[0].limit[r] = 1;
	d->t.task[1].limit[r] = one_in(c, 2) ? 8590 : 17180;
}
