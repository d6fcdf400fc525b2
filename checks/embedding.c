/* Runs texts through the archive for C, for checks/embedding.py.

   Standard input holds records: a line `solve N N` or `judge N N N` with the lengths of the texts, and the texts. The words say
   what to do with them:
   answers      prints a line `ENDING LENGTH` and the text of each
   rooms MOST   gives each call every room that is too short, up to MOST, one that fits and one more
   budgets      gives each pair a budget of 0, 1, 2, .. until it is answered, and prints that budget; below it nothing is written,
                and with it, one more and the most the answer is that without a budget
   refused      refuses each malloc and realloc of each call in turn: ending 5, or the same answer where the call can do without
   again CALLS  makes so many calls, one record after the other
   threads N    answers all records in N threads at once
   times CALLS  prints the seconds of so many calls of the first record
   It ends with status 1 where something isn't as bindings/c/resolve.h says. Build it with -Wl,--wrap=malloc,--wrap=realloc,--wrap=free. */
#define _GNU_SOURCE
#include <pthread.h>
#include <stdio.h>
#include <stdlib.h>
#include <string.h>
#include <time.h>

#include "resolve.h"

#define MARK 0xa5

struct record {
	int texts;
	uint8_t *text[3];
	size_t length[3];
	resolve_result result;
	uint8_t *answer;
};

static struct record *records;
static size_t record_count;

/* ---- memory that can be refused: only while `counting` */

void *__real_malloc(size_t size);
void *__real_realloc(void *at, size_t size);
void __real_free(void *at);

static __thread int counting;
static __thread long asked, refuse_at, held;

static int is_refused(void)
{
	asked += 1;
	return asked == refuse_at;
}

void *__wrap_malloc(size_t size)
{
	if (counting && is_refused())
		return NULL;
	held += counting;
	return __real_malloc(size);
}

void *__wrap_realloc(void *at, size_t size)
{
	if (counting && is_refused())
		return NULL;
	held += counting && at == NULL;
	return __real_realloc(at, size);
}

void __wrap_free(void *at)
{
	held -= counting && at != NULL;
	__real_free(at);
}

/* ---- records */

static void fail(const char *what, size_t record)
{
	fprintf(stderr, "record %zu: %s\n", record, what);
	exit(1);
}

static void *room_for(size_t size)
{
	void *at = malloc(size + 1);
	if (at == NULL)
		abort();
	return at;
}

static void read_records(void)
{
	char word[8];
	size_t room = 0;
	while (scanf("%7s", word) == 1) {
		struct record record = {.texts = strcmp(word, "solve") == 0 ? 2 : 3};
		for (int i = 0; i < record.texts; i++)
			if (scanf("%zu", &record.length[i]) != 1)
				fail("no length", record_count);
		getchar();
		for (int i = 0; i < record.texts; i++) {
			/* a text of no bytes is NULL, which the header allows */
			record.text[i] = record.length[i] == 0 ? NULL : room_for(record.length[i]);
			if (record.length[i] > 0 && fread(record.text[i], 1, record.length[i], stdin) != record.length[i])
				fail("cut off", record_count);
		}
		if (record_count == room) {
			room = room == 0 ? 64 : 2 * room;
			records = realloc(records, room * sizeof *records);
			if (records == NULL)
				abort();
		}
		records[record_count++] = record;
	}
}

static resolve_result call(const struct record *r, uint8_t *out, size_t room)
{
#ifdef JUDGE_ALONE
	if (r->texts == 2)
		fail("the judge's archive doesn't solve", (size_t)(r - records));
#else
	if (r->texts == 2)
		return resolve_solve(r->text[0], r->length[0], r->text[1], r->length[1], out, room);
#endif
	return resolve_judge(r->text[0], r->length[0], r->text[1], r->length[1], r->text[2], r->length[2], out, room);
}

/* The answer that is there after a first call without room. */
static void answer(struct record *r)
{
	r->result = call(r, NULL, 0);
	r->answer = room_for(r->result.length);
	resolve_result again = call(r, r->answer, r->result.length);
	if (again.ending != r->result.ending || again.length != r->result.length)
		fail("two calls differ", (size_t)(r - records));
}

static void compare(const struct record *r, resolve_result result, const uint8_t *out, size_t room)
{
	size_t shown = result.length < room ? result.length : room;
	if (result.ending != r->result.ending || result.length != r->result.length)
		fail("another ending or length", (size_t)(r - records));
	if (memcmp(out, r->answer, shown) != 0)
		fail("other bytes", (size_t)(r - records));
	for (size_t i = shown; i < room; i++)
		if (out[i] != MARK)
			fail("a byte behind the text was changed", (size_t)(r - records));
}

static void call_with_room(const struct record *r, size_t room)
{
	uint8_t *out = room_for(room);
	memset(out, MARK, room);
	compare(r, call(r, out, room), out, room);
	free(out);
}

static void rooms(size_t most)
{
	for (struct record *r = records; r < records + record_count; r++) {
		for (size_t room = 0; room < r->result.length && room <= most; room++)
			call_with_room(r, room);
		call_with_room(r, r->result.length);
		call_with_room(r, r->result.length + 9);
	}
}

static void is_unwritten(const struct record *r, const uint8_t *out, size_t room)
{
	for (size_t i = 0; i < room; i++)
		if (out[i] != MARK)
			fail("a byte was written without an answer", (size_t)(r - records));
}

static void refused(void)
{
	size_t room = 65536, refusals = 0;
	uint8_t *out = room_for(room);
	for (struct record *r = records; r < records + record_count; r++) {
		for (long number = 1;; number++) {
			memset(out, MARK, room);
			asked = 0, held = 0, refuse_at = number, counting = 1;
			resolve_result result = call(r, out, room);
			counting = 0;
			if (held != 0)
				fail("memory was lost", (size_t)(r - records));
			if (asked < number)
				break;
			refusals += 1;
			if (result.ending == RESOLVE_NO_MEMORY && result.length == 0)
				is_unwritten(r, out, room);
			else
				/* a growth that the call can do without changes nothing */
				compare(r, result, out, room);
		}
		memset(out, MARK, room);
		compare(r, call(r, out, room), out, room);
	}
	free(out);
	printf("%zu allocations refused\n", refusals);
}

#ifndef JUDGE_ALONE
static resolve_result call_within(const struct record *r, uint64_t budget, uint8_t *out, size_t room)
{
	memset(out, MARK, room);
	return resolve_solve_within(r->text[0], r->length[0], r->text[1], r->length[1], budget, out, room);
}

static void budgets(void)
{
	for (struct record *r = records; r < records + record_count; r++) {
		size_t room = r->result.length + 9;
		uint8_t *out = room_for(room);
		uint64_t budget = 0;
		for (;; budget++) {
			resolve_result result = call_within(r, budget, out, room);
			if (result.ending != RESOLVE_GIVEN_UP)
				break;
			if (result.length != 0)
				fail("given up with a length", (size_t)(r - records));
			is_unwritten(r, out, room);
		}
		uint64_t enough[] = {budget, budget + 1, UINT64_MAX};
		for (int i = 0; i < 3; i++)
			compare(r, call_within(r, enough[i], out, room), out, room);
		free(out);
		printf("%llu\n", (unsigned long long)budget);
	}
}
#endif

static void *answer_all(void *unused)
{
	for (struct record *r = records; r < records + record_count; r++)
		call_with_room(r, r->result.length + 1);
	return unused;
}

static void threads(int count)
{
	pthread_t thread[64];
	for (int i = 0; i < count; i++)
		if (pthread_create(&thread[i], NULL, answer_all, NULL) != 0)
			abort();
	for (int i = 0; i < count; i++)
		pthread_join(thread[i], NULL);
}

static void times(long calls)
{
	struct timespec from, to;
	struct record *r = records;
	uint8_t *out = room_for(r->result.length);
	clock_gettime(CLOCK_PROCESS_CPUTIME_ID, &from);
	for (long i = 0; i < calls; i++)
		call(r, out, r->result.length);
	clock_gettime(CLOCK_PROCESS_CPUTIME_ID, &to);
	free(out);
	printf("%.9f\n", (double)(to.tv_sec - from.tv_sec) + 1e-9 * (double)(to.tv_nsec - from.tv_nsec));
}

int main(int count, char **words)
{
	long number = count > 2 ? atol(words[2]) : 0;
	if (count < 2)
		return 2;
	read_records();
	for (struct record *r = records; r < records + record_count; r++)
		answer(r);
	if (strcmp(words[1], "answers") == 0)
		for (struct record *r = records; r < records + record_count; r++) {
			printf("%u %zu\n", r->result.ending, (size_t)r->result.length);
			fwrite(r->answer, 1, r->result.length, stdout);
		}
	else if (strcmp(words[1], "rooms") == 0)
		rooms((size_t)number);
#ifndef JUDGE_ALONE
	else if (strcmp(words[1], "budgets") == 0)
		budgets();
#endif
	else if (strcmp(words[1], "refused") == 0)
		refused();
	else if (strcmp(words[1], "again") == 0)
		for (long i = 0; i < number; i++)
			call_with_room(records + (size_t)i % record_count, records[(size_t)i % record_count].result.length);
	else if (strcmp(words[1], "threads") == 0)
		threads((int)number);
	else if (strcmp(words[1], "times") == 0)
		times(number);
	else
		return 2;
	for (struct record *r = records; r < records + record_count; r++) {
		for (int i = 0; i < r->texts; i++)
			free(r->text[i]);
		free(r->answer);
	}
	free(records);
	return 0;
}
