/*
 * maker.c - makes a record file from a readable text.
 *
 *   maker FILE.pond > FILE.records
 *   maker < FILE.pond > FILE.records
 *
 * One thing a line, words and numbers apart by spaces, '#' starts a comment:
 *
 *   setting full F round G start TICK
 *   task period T deadline D budget C independent I synchronization S
 *        limit RESOURCE STEPS       (on the same line, once for each resource)
 *   release POSITION
 *   tick                            the job carries on
 *   ticks N                         the job carries on, N ticks
 *   tick done
 *   tick take RESOURCE
 *   tick give
 *
 * Only what hinders the making of a record is refused here. Ranges of the
 * table and the order of the records are left to the listing program, so that
 * a keeper can make a bad file and see which number it gets. But number 1 says
 * nothing of the place: so records out of order, or too many, are made and
 * warned of.
 *
 * Exit 0: the records are on standard output, and warnings, if any, on standard
 * error. Exit 1: a message is on standard error, and nothing was written to
 * standard output unless the writing itself failed.
 */

#include <errno.h>
#include <inttypes.h>
#include <stdarg.h>
#include <stdbool.h>
#include <stddef.h>
#include <stdint.h>
#include <stdio.h>
#include <stdlib.h>
#include <string.h>

enum {
	RECORD_BYTES = 32,
	LISTED_MOST = 2048,    /* records: 65,536 bytes */
	RECORDS_MOST = 100000, /* well past what a listing takes: no rule, a bound */
	RESOURCES = 8,
	LIMITS_START = 16,     /* the byte at which a task's limits start */
	LIMIT_BYTES = 2,
	FIELDS_MOST = 5,
	LINE_MOST = 1000
};

/* First bytes, kinds of event and reports, as the records have them */
enum { SETTING = 1, TASK = 2, EVENT = 3 };
enum { RELEASE = 1, TICK = 2 };
enum { CARRY_ON = 0, DONE = 1, TAKE = 2, GIVE = 3 };

/* A carriage return counts as a space, for texts written on other systems. */
static const char between_words[] = " \t\r";

/* What some editors put before a text's first line, unseen by the keeper */
static const char byte_order_mark[] = "\xEF\xBB\xBF";

struct text {
	FILE *file;
	const char *name;
	unsigned long line_number;
	char line[LINE_MOST + 1];
	char *rest; /* what is still to be read of the line */
};

/* A named number of a line and the bytes it fills in the record */
struct field {
	const char *name;
	size_t start;
	size_t bytes;
};

/* A line made of named numbers */
struct form {
	const char *name;
	uint8_t first_byte;
	bool has_limits;
	size_t field_count;
	struct field field[FIELDS_MOST];
};

static const struct form setting_form = {
	"setting", SETTING, false, 3,
	{ { "full", 1, 1 }, { "round", 4, 4 }, { "start", 8, 4 } }
};

static const struct form task_form = {
	"task", TASK, true, 5,
	{ { "period", 4, 2 }, { "deadline", 6, 2 }, { "budget", 8, 2 },
	  { "independent", 1, 1 }, { "synchronization", 2, 1 } }
};

/* Kept whole until the text has been read, so that a wrong line leaves
 * standard output empty. All bytes start as zero, as unnamed ones must be. */
static uint8_t records[RECORDS_MOST][RECORD_BYTES];
static unsigned long line_of_record[RECORDS_MOST];
static size_t record_count;

/* Says what is wrong with the line being read, and ends. */
_Noreturn static void wrong(const struct text *text, const char *format, ...)
{
	va_list values;

	fprintf(stderr, "%s:%lu: ", text->name, text->line_number);
	va_start(values, format);
	vfprintf(stderr, format, values);
	va_end(values);
	fputc('\n', stderr);
	exit(1);
}

/* Says what is wrong with the file as a whole, and ends. */
_Noreturn static void failed(const char *name, const char *what)
{
	fprintf(stderr, "%s: %s\n", name, what);
	exit(1);
}

/* The same where the system has just said why. */
_Noreturn static void failed_because(const char *name, const char *what)
{
	fprintf(stderr, "%s: %s: %s\n", name, what, strerror(errno));
	exit(1);
}

static void skip_byte_order_mark(struct text *text)
{
	size_t length = strlen(byte_order_mark);

	if (strncmp(text->rest, byte_order_mark, length) == 0)
		text->rest += length;
}

/* Reads the next line without its comment; false at the end of the text. */
static bool read_line(struct text *text)
{
	size_t length = 0;
	int character = getc(text->file);

	if (character != EOF)
		text->line_number++;
	while (character != EOF && character != '\n') {
		/* A zero byte would end the line early, unseen by the keeper. */
		if (character == '\0')
			wrong(text, "this line has a zero byte in it: this is not a text");
		if (length == LINE_MOST)
			wrong(text, "this line is longer than %d characters", LINE_MOST);
		text->line[length++] = (char)character;
		character = getc(text->file);
	}
	if (ferror(text->file))
		failed_because(text->name, "cannot be read");
	text->line[length] = '\0';
	text->line[strcspn(text->line, "#")] = '\0';
	text->rest = text->line;
	if (text->line_number == 1)
		skip_byte_order_mark(text);
	return length > 0 || character == '\n';
}

/* The next word of the line, or NULL where there is none left */
static const char *next_word(struct text *text)
{
	char *word = text->rest + strspn(text->rest, between_words);
	char *end = word + strcspn(word, between_words);

	if (word == end)
		return NULL;
	/* Step past the space that becomes the word's end, but never past the
	 * end of the line. */
	text->rest = *end == '\0' ? end : end + 1;
	*end = '\0';
	return word;
}

/* The number that must follow the word "after", at most "most" */
static uint32_t next_number(struct text *text, const char *after, uint32_t most)
{
	const char *word = next_word(text);
	uint64_t number = 0;

	if (word == NULL)
		wrong(text, "a number is missing after '%s'", after);
	if (word[strspn(word, "0123456789")] != '\0')
		wrong(text, "after '%s' there must be a whole number, digits only, "
		            "not '%s'", after, word);
	for (const char *digit = word; *digit != '\0'; digit++) {
		number = number * 10 + (uint64_t)(*digit - '0');
		/* Checked at each digit, so that the number never overflows */
		if (number > most)
			wrong(text, "the number after '%s' can be at most %" PRIu32
			            ", not %s", after, most, word);
	}
	return (uint32_t)number;
}

static void expect_end(struct text *text)
{
	const char *word = next_word(text);

	if (word != NULL)
		wrong(text, "the line should end before '%s'", word);
}

/* A record of zeros but for its first byte */
static uint8_t *new_record(const struct text *text, uint8_t first_byte)
{
	uint8_t *record;

	if (record_count == RECORDS_MOST)
		wrong(text, "this makes more than %d records", RECORDS_MOST);
	line_of_record[record_count] = text->line_number;
	record = records[record_count++];
	record[0] = first_byte;
	return record;
}

/* Reads a number and puts it in its bytes, the lowest first. */
static void read_bytes(struct text *text, const char *after, uint8_t *place,
                       size_t bytes)
{
	uint32_t most = UINT32_MAX >> (32 - 8 * bytes);
	uint32_t number = next_number(text, after, most);

	for (size_t index = 0; index < bytes; index++)
		place[index] = (uint8_t)(number >> (8 * index) & 0xff);
}

static void read_limit(struct text *text, uint8_t *record, bool *said)
{
	uint32_t resource = next_number(text, "limit", RESOURCES - 1);

	/* Of two limits one would silently win. */
	if (said[resource])
		wrong(text, "the limit of resource %" PRIu32 " is there twice", resource);
	said[resource] = true;
	read_bytes(text, "limit RESOURCE",
	           record + LIMITS_START + LIMIT_BYTES * resource, LIMIT_BYTES);
}

static void read_field(struct text *text, const struct form *form,
                       const char *word, uint8_t *record, bool *said)
{
	size_t index = 0;

	while (index < form->field_count &&
	       strcmp(word, form->field[index].name) != 0)
		index++;
	if (index == form->field_count)
		wrong(text, "a %s has no '%s'", form->name, word);
	if (said[index])
		wrong(text, "'%s' is there twice", word);
	said[index] = true;
	read_bytes(text, word, record + form->field[index].start,
	           form->field[index].bytes);
}

/* The rest of a setting or task line: its named numbers in any order */
static void read_form(struct text *text, const struct form *form)
{
	uint8_t *record = new_record(text, form->first_byte);
	bool said[FIELDS_MOST] = { false };
	bool limit_said[RESOURCES] = { false };
	const char *word;

	while ((word = next_word(text)) != NULL) {
		if (form->has_limits && strcmp(word, "limit") == 0)
			read_limit(text, record, limit_said);
		else
			read_field(text, form, word, record, said);
	}
	/* A number left out would be a zero that nobody wrote. */
	for (size_t index = 0; index < form->field_count; index++)
		if (!said[index])
			wrong(text, "this %s needs '%s' and a number", form->name,
			      form->field[index].name);
}

static void read_release(struct text *text)
{
	uint8_t *record = new_record(text, EVENT);

	record[1] = RELEASE;
	read_bytes(text, "release", record + 2, 1);
	expect_end(text);
}

static void read_tick(struct text *text)
{
	uint8_t *record = new_record(text, EVENT);
	const char *word = next_word(text);

	record[1] = TICK;
	if (word == NULL) {
		record[2] = CARRY_ON;
	} else if (strcmp(word, "done") == 0) {
		record[2] = DONE;
	} else if (strcmp(word, "take") == 0) {
		record[2] = TAKE;
		read_bytes(text, "take", record + 3, 1);
	} else if (strcmp(word, "give") == 0) {
		record[2] = GIVE;
	} else {
		wrong(text, "after 'tick' there can be done, take, give or nothing, "
		            "not '%s' (for more than one tick: ticks 5)", word);
	}
	expect_end(text);
}

static void read_ticks(struct text *text)
{
	uint32_t count = next_number(text, "ticks", RECORDS_MOST);

	expect_end(text);
	for (; count > 0; count--) {
		uint8_t *record = new_record(text, EVENT);

		record[1] = TICK;
		record[2] = CARRY_ON;
	}
}

static void read_thing(struct text *text, const char *word)
{
	if (strcmp(word, "setting") == 0)
		read_form(text, &setting_form);
	else if (strcmp(word, "task") == 0)
		read_form(text, &task_form);
	else if (strcmp(word, "release") == 0)
		read_release(text);
	else if (strcmp(word, "tick") == 0)
		read_tick(text);
	else if (strcmp(word, "ticks") == 0)
		read_ticks(text);
	else
		wrong(text, "a line starts with setting, task, release, tick or "
		            "ticks, not with '%s'", word);
}

static void warn(const struct text *text, unsigned long line, const char *what)
{
	fprintf(stderr, "%s:%lu: %s: the listing will be 'table 1'\n", text->name,
	        line, what);
}

/* Warns of what makes the file malformed as a whole, each kind at its first
 * place. Done after the text has been read, because a text that is refused has
 * no listing to warn of. */
static void warn_of_order(const struct text *text)
{
	size_t settings = 0;
	size_t events = 0;
	size_t late_tasks = 0;

	/* A text of no lines has no line to name: its first is as good as any. */
	if (record_count == 0)
		warn(text, text->line_number > 0 ? text->line_number : 1, "no setting");
	for (size_t index = 0; index < record_count; index++) {
		uint8_t first_byte = records[index][0];
		unsigned long line = line_of_record[index];

		if (index == 0 && first_byte != SETTING)
			warn(text, line, "no setting before this");
		if (first_byte == SETTING && settings++ == 1)
			warn(text, line, "a second setting");
		if (first_byte == TASK && events > 0 && late_tasks++ == 0)
			warn(text, line, "a task after an event");
		if (first_byte == EVENT)
			events++;
		if (index == LISTED_MOST)
			warn(text, line, "more than 2,048 records");
	}
}

int main(int argument_count, char **arguments)
{
	struct text text = { .file = stdin, .name = "standard input" };

	if (argument_count > 2)
		failed("maker", "one file at a time: maker FILE.pond > FILE.records");
	if (argument_count == 2) {
		text.name = arguments[1];
		text.file = fopen(text.name, "r");
		if (text.file == NULL)
			failed_because(text.name, "cannot be opened");
	}
	while (read_line(&text)) {
		const char *word = next_word(&text);

		if (word != NULL)
			read_thing(&text, word);
	}
	if (text.file != stdin)
		fclose(text.file);
	warn_of_order(&text);
	if (fwrite(records, RECORD_BYTES, record_count, stdout) != record_count ||
	    fflush(stdout) != 0)
		failed_because("standard output", "cannot be written");
	return 0;
}
