/*
 * make.c - makes many record files, most of them hostile, as one pack.
 *
 *   make SEED COUNT            writes a pack of COUNT record files
 *   make SEED COUNT --only K   writes record file K of them, bare; K from 0
 *
 * A pack is files one after the other, each a 4-byte little-endian length and
 * its bytes. The same SEED gives the same files on every machine, and file K
 * hangs on SEED and K alone. At the end one line of sums on standard error.
 *
 * It steps the rules with the second program's own functions, so that events
 * can be chosen with the state in sight. Every draw stands in an expression of
 * its own: the order in which C evaluates operands is not fixed.
 */

#define SECOND_NO_MAIN
#include "../second/second.c"

#include <errno.h>
#include <inttypes.h>
#include <stdlib.h>

enum { BYTES_ROOM = 2 * FILE_BYTES_MOST, DIVISORS_MOST = 256, LONG_RUN = FILE_BYTES_MOST };

#include "chance.h"
#include "files.h"
#include "tables.h"
#include "edge.h"
#include "faults.h"
#include "events.h"
#include "damage.h"

/* ---- The mix ----------------------------------------------------------- */

static size_t draw_length(struct chance *c)
{
	return (size_t)RECORD_BYTES * between(c, 20, 400);
}

/* A table under which much happens in a few thousand ticks, mostly. */
static void draw_busy(struct chance *c, struct draft *d)
{
	uint32_t tries = 0;
	bool layers = one_in(c, 6);

	do {
		if (layers)
			draw_layers(c, d);
		else
			draw_passing(c, d, one_in(c, 8) ? ANY_D
				: between(c, CLOSE_D, SHORT_AND_LONG_D));
	} while (d->t.count < 3 && ++tries < 4);
	if (one_in(c, 3))
		shorten_sections(c, &d->t);
}

static void make_wide(struct chance *c, struct file *f)
{
	struct draft d;

	if (one_in(c, 2))
		draw_wide_independent(c, &d);
	else
		draw_wide_synchronization(c, &d);
	put_whole(c, f, &d, RECORD_BYTES * 20);
}

static void make_damaged(struct chance *c, struct file *f)
{
	struct draft d;

	draw_passing(c, &d, below(c, D_STYLES));
	if (one_in(c, 4))
		change_table(c, &d);
	put_whole(c, f, &d, one_in(c, 10) ? LONG_RUN
		: (size_t)RECORD_BYTES * between(c, 20, 60));
	damage(c, f);
}

/* File k of the seed. */
static void make_file(uint64_t seed, uint64_t k, struct file *f)
{
	struct chance chance = chance_of_file(seed, k);
	struct chance *c = &chance;
	uint32_t kind = below(c, 100);
	struct draft d;

	if (kind < 3) {
		make_wide(c, f);
		return;
	}
	if (kind < 25) {
		make_damaged(c, f);
		return;
	}
	if (kind < 50)
		draw_passing(c, &d, below(c, D_STYLES));
	else
		draw_busy(c, &d);
	if (kind < 41)
		change_table(c, &d);
	else if (kind < 50)
		past_edge(c, &d.t);
	put_whole(c, f, &d, kind < 75 ? draw_length(c) : LONG_RUN);
}

/* ---- The pack ---------------------------------------------------------- */

struct sums {
	uint64_t files;
	uint64_t ticks;     /* closed, not refused */
	uint64_t refused;   /* ticks */
	uint64_t releases;  /* taken, not refused */
	uint64_t malformed; /* files */
	uint64_t passed;    /* files */
};

static void count_event(struct sums *sums, const struct table *t,
	struct state *s, const uint8_t *record)
{
	if (record[1] == EVENT_RELEASE)
		sums->releases += release(t, s, record[2]) == SUCCESS;
	else if (whole_tick(t, s, record[2], record[3]).number == SUCCESS)
		sums->ticks++;
	else
		sums->refused++;
}

/* Counts what the finished file gives, whatever it was meant to be. */
static void count_file(struct sums *sums, const struct file *f)
{
	struct table t;
	struct state s;
	ticks first_tick;
	size_t at;

	sums->files++;
	if (!well_formed(f->bytes, f->length)) {
		sums->malformed++;
		return;
	}
	at = read_table(f->bytes, f->length, &t, &first_tick);
	if (start(&t, first_tick, &s).number != SUCCESS)
		return;
	sums->passed++;
	for (; at < f->length; at += RECORD_BYTES)
		count_event(sums, &t, &s, f->bytes + at);
}

static bool write_file(const struct file *f, bool with_length)
{
	uint8_t head[4];

	put32(head, (uint32_t)f->length);
	if (with_length && fwrite(head, 1, sizeof head, stdout) != sizeof head)
		return false;
	return fwrite(f->bytes, 1, f->length, stdout) == f->length;
}

/* Files `from` up to but not `past`. */
static bool write_files(uint64_t seed, uint64_t from, uint64_t past,
	bool with_length, struct file *f)
{
	struct sums sums = {0};

	for (uint64_t k = from; k < past; k++) {
		f->length = 0;
		make_file(seed, k, f);
		count_file(&sums, f);
		if (!write_file(f, with_length))
			return false;
	}
	fprintf(stderr, "%" PRIu64 " files, %" PRIu64 " ticks, %" PRIu64
		" refused, %" PRIu64 " releases, %" PRIu64 " malformed, %" PRIu64
		" passed\n", sums.files, sums.ticks, sums.refused, sums.releases,
		sums.malformed, sums.passed);
	return fflush(stdout) == 0;
}

static bool read_number(const char *text, uint64_t *number)
{
	char *end;

	errno = 0;
	*number = strtoull(text, &end, 10);
	return text[0] >= '0' && text[0] <= '9' && *end == '\0' && errno == 0;
}

static int complain(const char *what)
{
	fprintf(stderr, "make: %s\n", what);
	return EXIT_TROUBLE;
}

int main(int argc, char **argv)
{
	bool only = argc == 5 && strcmp(argv[3], "--only") == 0;
	uint64_t seed, count, k = 0;
	struct file f = {NULL, 0};
	bool written;

	if ((argc != 3 && !only) || !read_number(argv[1], &seed)
		|| !read_number(argv[2], &count)
		|| (only && (!read_number(argv[4], &k) || k >= count)))
		return complain("usage: make SEED COUNT [--only K], K from 0");
	f.bytes = malloc(BYTES_ROOM + RECORD_BYTES);
	if (f.bytes == NULL)
		return complain("no memory");
	written = only ? write_files(seed, k, k + 1, false, &f)
		: write_files(seed, 0, count, true, &f);
	free(f.bytes);
	return written ? EXIT_DONE : complain("standard output cannot be written");
}
