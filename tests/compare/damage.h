/* Files that are damaged. */

/* Some record of the file, the setting excepted if there is another. */
static uint8_t *some_record(struct chance *c, struct file *f)
{
	uint32_t records = (uint32_t)(f->length / RECORD_BYTES);
	uint32_t k = records > 1 ? between(c, 1, records - 1) : 0;

	return f->bytes + (size_t)k * RECORD_BYTES;
}

/* Mostly one of the listed lengths: of the others, few are at a bound. The last
 * two make a pack long, so they are rare. */
static void damage_length(struct chance *c, struct file *f)
{
	static const uint32_t lengths[] = {
		0, 0, 0, 1, 31, 32, 33, 63, 64, 65, 95, 65504, 65535, 65536, 65537,
		65568, 131040, BYTES_ROOM
	};
	size_t length;

	switch (below(c, 6)) {
	case 0:
		length = between(c, 1, 95);
		break;
	case 1:
		length = f->length + between(c, 1, RECORD_BYTES - 1);
		break;
	case 2:
		length = f->length - between(c, 1, RECORD_BYTES - 1);
		break;
	default:
		length = lengths[below(c, one_in(c, 20) ? 18 : 16)];
	}
	/* What is added are ticks, carried on, in whole or in part. */
	while (f->length < length && f->length <= BYTES_ROOM - RECORD_BYTES)
		put_event(f, EVENT_TICK, CARRY_ON, 0);
	f->length = length;
}

/* One byte or one bit becomes another, anywhere. */
static void damage_anywhere(struct chance *c, struct file *f)
{
	uint8_t *at = f->bytes + below(c, (uint32_t)f->length);

	if (one_in(c, 2))
		*at = (uint8_t)(*at ^ 1U << below(c, 8));
	else
		*at = (uint8_t)(*at ^ between(c, 1, 255));
}

/* A byte that should be zero is not, in the setting, a task or an event; the
 * first and the last of each stretch above all. */
static void damage_zero(struct chance *c, struct file *f)
{
	static const uint8_t setting[] = {2, 3, 12, 31};
	static const uint8_t task[] = {3, 10, 15};
	static const uint8_t event[] = {3, 4, 31};
	uint32_t records = (uint32_t)(f->length / RECORD_BYTES);
	uint32_t k = one_in(c, 2) ? below(c, at_most(records, 3))
		: below(c, records);
	uint8_t *record = f->bytes + (size_t)k * RECORD_BYTES;
	uint32_t at = between(c, 10, 15);

	if (record[0] == SETTING)
		at = one_in(c, 3) ? between(c, 12, 31) : setting[below(c, 4)];
	else if (record[0] == EVENT)
		at = one_in(c, 3) ? between(c, 4, 31) : event[below(c, 3)];
	else if (one_in(c, 2))
		at = task[below(c, 3)];
	record[at] = (uint8_t)between(c, 1, 255);
}

/* First bytes: others than 1 to 3, and records out of order. */
static void damage_first_byte(struct chance *c, struct file *f)
{
	static const uint8_t firsts[] = {0, 4, 255, 1, 2, 3};
	uint8_t *record = one_in(c, 4) ? f->bytes : some_record(c, f);

	if (one_in(c, 2))
		memset(record, 0, RECORD_BYTES);
	record[0] = firsts[below(c, 6)];
}

/* A whole record is copied over another, or exchanged with it: a second
 * setting, a task after an event, an event before a task. */
static void damage_order(struct chance *c, struct file *f)
{
	uint8_t *from = one_in(c, 3) ? f->bytes : some_record(c, f);
	uint8_t *to = some_record(c, f);
	uint8_t kept[RECORD_BYTES];

	memcpy(kept, to, RECORD_BYTES);
	memmove(to, from, RECORD_BYTES);
	if (one_in(c, 2))
		memmove(from, kept, RECORD_BYTES);
}

/* The setting stands twice at the start, or is left out, or stands alone. */
static void damage_setting(struct chance *c, struct file *f)
{
	switch (below(c, 3)) {
	case 0:
		memmove(f->bytes + RECORD_BYTES, f->bytes, f->length);
		f->length += RECORD_BYTES;
		break;
	case 1:
		f->length -= RECORD_BYTES;
		memmove(f->bytes, f->bytes + RECORD_BYTES, f->length);
		break;
	default:
		f->length = RECORD_BYTES;
	}
}

/* A last event whose kind, report or resource should not be. */
static void damage_event(struct chance *c, struct file *f)
{
	static const uint8_t kinds[] = {0, 3, 255};
	static const uint8_t reports[] = {4, 5, 255};
	static const uint8_t fitting[] = {CARRY_ON, DONE, GIVE};

	switch (below(c, 5)) {
	case 0:
		put_event(f, kinds[below(c, 3)], 0, 0);
		break;
	case 1:
		put_event(f, EVENT_TICK, reports[below(c, 3)], 0);
		break;
	case 2:
		put_event(f, EVENT_RELEASE, TAKE, between(c, 1, 255));
		break;
	case 3: /* not malformed: any resource may be taken */
		put_event(f, EVENT_TICK, TAKE, below(c, 256));
		break;
	default:
		put_event(f, EVENT_TICK, fitting[below(c, 3)], 1);
	}
}

static void damage(struct chance *c, struct file *f)
{
	switch (below(c, 12)) {
	case 0:
	case 1:
	case 2:
		damage_length(c, f);
		break;
	case 3:
	case 4:
	case 5:
		damage_zero(c, f);
		break;
	case 6:
		damage_anywhere(c, f);
		break;
	case 7:
		damage_first_byte(c, f);
		break;
	case 8:
		damage_order(c, f);
		break;
	case 9:
		damage_setting(c, f);
		break;
	default:
		damage_event(c, f);
	}
}
