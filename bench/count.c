/*
 * count.c - counts the instructions in an emulator's log on standard input,
 * which has a line for each.
 *
 *   count BASE NAMES    NAMES has lines of nm -S: address size kind name
 *
 * It prints the total, and for each function of NAMES that was entered: the
 * instructions of its own, those with its calls, the most stack that a call
 * took with its calls, in bytes, and its name. BASE, in base 16, is added to the
 * addresses of NAMES. What is inlined is part of the function it stands in. The
 * stack is 0 where the log does not show RSP.
 */

#include <inttypes.h>
#include <stdbool.h>
#include <stdio.h>
#include <stdlib.h>
#include <string.h>

enum { FUNCTIONS_MOST = 1000, DEPTH_MOST = 1000 };

/* A call of a function of the same program is one byte and four of distance;
 * what it leaves on the stack has eight. */
enum { CALL_BYTES = 5, RETURN_BYTES = 8 };

struct function {
	uint64_t start, end;
	uint64_t own, whole, stack;
	char name[200];
};

struct call {
	size_t function;
	uint64_t back;         /* where it returns to */
	uint64_t since;        /* the total on entry */
	uint64_t entry, least; /* RSP */
};

static struct function function[FUNCTIONS_MOST];
static size_t function_count;
static struct call call[DEPTH_MOST];
static size_t depth;
static uint64_t total;

static void fail(const char *what)
{
	fprintf(stderr, "count: %s\n", what);
	exit(2);
}

static void read_names(const char *path, uint64_t base)
{
	FILE *file = fopen(path, "r");
	struct function f = {0};
	uint64_t size;
	char line[400];

	if (file == NULL)
		fail("the names cannot be read");
	while (fgets(line, sizeof line, file) != NULL) {
		if (sscanf(line, "%" SCNx64 " %" SCNx64 " %*[tT] %199[^\n]", &f.start,
				&size, f.name) != 3)
			continue;
		if (function_count == FUNCTIONS_MOST)
			fail("too many names");
		f.start += base;
		f.end = f.start + size;
		function[function_count++] = f;
	}
	fclose(file);
}

/* The function that an address is in, or function_count. Most often it is that
 * of the instruction before. */
static size_t find(uint64_t address)
{
	static size_t last;

	if (last < function_count && address >= function[last].start
		&& address < function[last].end)
		return last;
	for (size_t k = 0; k < function_count; k++)
		if (address >= function[k].start && address < function[k].end)
			return last = k;
	return function_count;
}

static bool in_call(size_t k)
{
	for (size_t d = 0; d < depth; d++)
		if (call[d].function == k)
			return true;
	return false;
}

static void end_last(void)
{
	struct call c = call[--depth];
	struct function *f = &function[c.function];
	uint64_t stack = c.entry > 0 ? c.entry - c.least + RETURN_BYTES : 0;

	f->whole += total - c.since;
	if (stack > f->stack)
		f->stack = stack;
}

/* Ends the call that returns here, and the functions that it jumped to. */
static void leave(uint64_t address)
{
	for (size_t d = depth; d-- > 0;)
		if (call[d].back == address) {
			while (depth > d)
				end_last();
			return;
		}
}

/* A function that is called within itself is in its first call. */
static void instruction(uint64_t address)
{
	static uint64_t before;
	size_t k;

	leave(address);
	k = find(address);
	if (k < function_count) {
		function[k].own++;
		if (address == function[k].start && !in_call(k)) {
			if (depth == DEPTH_MOST)
				fail("too many calls in calls");
			call[depth++] = (struct call){k, before + CALL_BYTES, total, 0, 0};
		}
	}
	before = address;
	total++;
}

/* RSP as it is before the last instruction. */
static void stack_at(uint64_t rsp)
{
	for (size_t d = 0; d < depth; d++) {
		if (call[d].entry == 0)
			call[d].entry = call[d].least = rsp;
		if (rsp < call[d].least)
			call[d].least = rsp;
	}
}

int main(int argc, char **argv)
{
	char line[400];

	if (argc != 3)
		fail("usage: count BASE NAMES");
	read_names(argv[2], strtoull(argv[1], NULL, 16));
	while (fgets(line, sizeof line, stdin) != NULL) {
		const char *at;

		/* Trace 0: 0x.. [cs_base/address/flags/cflags] */
		if (strncmp(line, "Trace", 5) == 0 && (at = strchr(line, '/')) != NULL)
			instruction(strtoull(at + 1, NULL, 16));
		else if ((at = strstr(line, "RSP=")) != NULL)
			stack_at(strtoull(at + 4, NULL, 16));
	}
	while (depth > 0)
		end_last();
	printf("%" PRIu64 " %" PRIu64 " 0 total\n", total, total);
	for (size_t k = 0; k < function_count; k++)
		if (function[k].whole > 0)
			printf("%" PRIu64 " %" PRIu64 " %" PRIu64 " %s\n", function[k].own,
				function[k].whole, function[k].stack, function[k].name);
	return 0;
}
