/* Prints what to install for a catalogue and a request, and asks the judge about it. Status 0 is install, 1 refused,
   and 2 that there is no answer which the judge accepts.

   cc example.c -I. -L../../out/embedding -l:libresolve.a -o example
   ./example ../../examples/app.catalogue ../../examples/app.request */
#include <stdio.h>
#include <stdlib.h>

#include "resolve.h"

struct text {
	uint8_t *bytes;
	size_t length;
};

static struct text read_file(const char *path)
{
	struct text text = {NULL, 0};
	size_t room = 0, came;
	FILE *file = fopen(path, "rb");
	if (file == NULL) {
		perror(path);
		exit(2);
	}
	do {
		if (text.length == room) {
			room = room == 0 ? 4096 : 2 * room;
			text.bytes = realloc(text.bytes, room);
			if (text.bytes == NULL)
				abort();
		}
		came = fread(text.bytes + text.length, 1, room - text.length, file);
		text.length += came;
	} while (came > 0);
	if (ferror(file)) {
		perror(path);
		exit(2);
	}
	fclose(file);
	return text;
}

int main(int count, char **words)
{
	if (count != 3) {
		fprintf(stderr, "usage: example CATALOGUE REQUEST\n");
		return 2;
	}
	struct text catalogue = read_file(words[1]), request = read_file(words[2]), report = {NULL, 0};
	size_t room = 0;
	resolve_result result = resolve_solve(catalogue.bytes, catalogue.length, request.bytes, request.length, NULL, 0);
	while (result.length > room) {
		room = result.length;
		report.bytes = realloc(report.bytes, room);
		if (report.bytes == NULL)
			abort();
		result = resolve_solve(catalogue.bytes, catalogue.length, request.bytes, request.length, report.bytes, room);
	}
	report.length = result.length;
	if (result.ending > RESOLVE_FAULTY) {
		fprintf(stderr, "resolve ended with %u\n", result.ending);
		return 2;
	}
	if (fwrite(report.bytes, 1, report.length, stdout) != report.length || fflush(stdout) != 0) {
		perror("standard output");
		return 2;
	}
	if (result.ending == RESOLVE_FAULTY)
		return 2;
	uint8_t verdict[64];
	resolve_result judged = resolve_judge(catalogue.bytes, catalogue.length, request.bytes, request.length,
					    report.bytes, report.length, verdict, sizeof verdict);
	free(catalogue.bytes);
	free(request.bytes);
	free(report.bytes);
	if (judged.ending > RESOLVE_NO) {
		fprintf(stderr, "the judge ended with %u\n", judged.ending);
		return 2;
	}
	fprintf(stderr, "the judge says %.*s", (int)judged.length, (const char *)verdict);
	return judged.ending == RESOLVE_YES ? (int)result.ending : 2;
}
