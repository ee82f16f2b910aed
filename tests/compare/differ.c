/*
 * differ.c - compares two outputs of the same pack.
 *
 *   differ FIRST SECOND SEED COUNT
 *
 * FIRST and SECOND hold COUNT listings each, an empty line after each listing;
 * SEED and COUNT are those the pack was made with. Prints nothing and exits 0
 * if they are equal and whole. Else exits 1 and prints the number of the first
 * file whose listings differ, the command that makes that file alone (given
 * at the repository's top), and the first line that differs, "<" from FIRST
 * and ">" from SECOND. Exit 2: one of them could not be read.
 */

#include <stdbool.h>
#include <stdint.h>
#include <stdio.h>
#include <stdlib.h>
#include <string.h>

enum { ENDED = -1, BUFFER_BYTES = 1 << 16, LINE_BYTES = 200 };
enum { EQUAL = 0, DIFFERENT = 1, TROUBLE = 2 };

struct output {
	FILE *from;
	size_t at;
	size_t length;
	unsigned char bytes[BUFFER_BYTES];
};

/* The line being read, as far as it fits. */
struct line {
	size_t length;
	char text[LINE_BYTES];
};

/* Where the comparison stands. */
struct place {
	uint64_t file;  /* empty lines before this line */
	uint64_t line;  /* of the whole output, from 1 */
};

static int next_byte(struct output *o)
{
	if (o->at == o->length) {
		o->at = 0;
		o->length = fread(o->bytes, 1, sizeof o->bytes, o->from);
		if (o->length == 0)
			return ENDED;
	}
	return o->bytes[o->at++];
}

static void add(struct line *line, int byte)
{
	if (line->length < sizeof line->text)
		line->text[line->length++] = (char)byte;
}

/* The rest of the line, from `byte` on; printed after `sign`. */
static void print_line(char sign, struct line line, struct output *o, int byte)
{
	bool ended = byte == ENDED && line.length == 0;

	for (; byte != ENDED && byte != '\n'; byte = next_byte(o))
		add(&line, byte);
	printf("%c %.*s%s\n", sign, (int)line.length, line.text,
		ended ? "(the output ends here)"
		: byte == ENDED ? " (the output ends in this line)" : "");
}

static void print_place(struct place place, const char *seed,
	const char *count)
{
	printf("file %llu of seed %s, line %llu of the outputs\n",
		(unsigned long long)place.file, seed,
		(unsigned long long)place.line);
	if (place.file < strtoull(count, NULL, 10))
		printf("to have it: tests/compare/run %s %s --only %llu"
			" > file.records\n", seed, count,
			(unsigned long long)place.file);
	else
		printf("past the last of %s files\n", count);
}

/* Both outputs are equal to their ends: are they whole? */
static int judge_end(struct place place, const struct line *line,
	const char *seed, const char *count)
{
	if (place.file == strtoull(count, NULL, 10) && line->length == 0)
		return EQUAL;
	print_place(place, seed, count);
	printf("both outputs end here, after %llu whole listings of %s\n",
		(unsigned long long)place.file, count);
	return DIFFERENT;
}

static int compare(struct output *first, struct output *second,
	const char *seed, const char *count)
{
	struct place place = {0, 1};
	struct line line = {0};

	for (;;) {
		int a = next_byte(first);
		int b = next_byte(second);

		if (ferror(first->from) || ferror(second->from))
			return TROUBLE;
		if (a != b) {
			print_place(place, seed, count);
			print_line('<', line, first, a);
			print_line('>', line, second, b);
			return DIFFERENT;
		}
		if (a == ENDED)
			return judge_end(place, &line, seed, count);
		if (a != '\n') {
			add(&line, a);
			continue;
		}
		place.file += line.length == 0;
		place.line++;
		line.length = 0;
	}
}

static bool open_output(struct output *o, const char *name)
{
	o->at = 0;
	o->length = 0;
	o->from = fopen(name, "rb");
	if (o->from == NULL)
		fprintf(stderr, "differ: %s: cannot be opened\n", name);
	return o->from != NULL;
}

int main(int argc, char **argv)
{
	struct output first, second;
	int code;

	if (argc != 5) {
		fprintf(stderr, "differ: usage: differ FIRST SECOND SEED COUNT\n");
		return TROUBLE;
	}
	if (!open_output(&first, argv[1]) || !open_output(&second, argv[2]))
		return TROUBLE;
	code = compare(&first, &second, argv[3], argv[4]);
	if (code == TROUBLE)
		fprintf(stderr, "differ: an output cannot be read\n");
	return code;
}
