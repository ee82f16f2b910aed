/* Record files on their way out. */

struct file {
	uint8_t *bytes; /* room for BYTES_ROOM */
	size_t length;
};

/* A table on its way into a file. */
struct draft {
	struct table t;
	uint32_t extra; /* task records more than the table holds */
	ticks first_tick;
};

static void put16(uint8_t *at, uint32_t value)
{
	at[0] = (uint8_t)(value & 255);
	at[1] = (uint8_t)(value >> 8 & 255);
}

static void put32(uint8_t *at, uint32_t value)
{
	put16(at, value);
	put16(at + 2, value >> 16);
}

/* A new record of zeros at the end of the file. */
static uint8_t *new_record(struct file *f, uint8_t first)
{
	uint8_t *record = f->bytes + f->length;

	memset(record, 0, RECORD_BYTES);
	record[0] = first;
	f->length += RECORD_BYTES;
	return record;
}

static void put_setting(struct file *f, const struct draft *d)
{
	uint8_t *record = new_record(f, SETTING);

	record[1] = (uint8_t)(d->t.F & 255);
	put32(record + 4, d->t.G);
	put32(record + 8, d->first_tick);
}

static void put_task(struct file *f, const struct task *task)
{
	uint8_t *record = new_record(f, TASK);

	record[1] = (uint8_t)(task->I & 255);
	record[2] = (uint8_t)(task->S & 255);
	put16(record + 4, task->T);
	put16(record + 6, task->D);
	put16(record + 8, task->C);
	for (size_t r = 0; r < RESOURCES; r++)
		put16(record + 16 + 2 * r, task->limit[r]);
}

static void put_event(struct file *f, uint32_t kind, uint32_t what,
	uint32_t resource)
{
	uint8_t *record = new_record(f, EVENT);

	record[1] = (uint8_t)kind;
	record[2] = (uint8_t)what;
	record[3] = (uint8_t)resource;
}

/* The setting and the tasks; a new file. */
static void put_draft(struct file *f, const struct draft *d)
{
	f->length = 0;
	put_setting(f, d);
	for (uint32_t i = 0; i < d->t.count; i++)
		put_task(f, &d->t.task[i]);
	for (uint32_t i = 0; i < d->extra; i++)
		put_task(f, &d->t.task[TASKS - 1]);
}
