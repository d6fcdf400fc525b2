/* resolve: a package resolver whose answers come with proofs. docs/EMBEDDING.md says what each call promises, and
   docs/FORMATS.md has the texts.

   No call keeps anything. The caller owns all memory that it passes, and a call writes to `out` alone. Calls may run in
   several threads at once, as long as no two write to the same room. None may be made in a signal handler, or in the
   forked child of a process with threads. Link with libresolve.a or libresolve.so; the archive libresolve_judge.a has
   `resolve_judge` alone, without the solver. */
#ifndef RESOLVE_H
#define RESOLVE_H

#include <stddef.h>
#include <stdint.h>

#ifdef __cplusplus
extern "C" {
#endif

/* How a call ended. The first three have a text. */
enum resolve_ending {
	RESOLVE_INSTALL = 0,   /* a report `install` */
	RESOLVE_REFUSED = 1,   /* a report `refused` */
	RESOLVE_YES = 0,       /* the report holds: `yes` */
	RESOLVE_NO = 1,        /* it doesn't, from a line on: `no line N` */
	RESOLVE_FAULTY = 2,    /* a line outside the grammar: `fault at catalogue line N`, or of the request */
	RESOLVE_TOO_LONG = 4,  /* a catalogue or a request has more than 2^24 bytes, or a report 2^30 */
	RESOLVE_NO_MEMORY = 5, /* malloc or realloc answered NULL */
	RESOLVE_NO_IDS = 6,    /* more than 2^32 numbers of a kind would be needed */
	RESOLVE_GIVEN_UP = 8   /* the budget of `resolve_solve_within` was used up */
};

/* The first min(length, room) bytes of the text are in `out`; the bytes of the room behind them are as they were.
   Where `length` is more than `room`, take more room and call again. Without a text `length` is 0. */
typedef struct resolve_result {
	uint32_t ending;
	uint64_t length;
} resolve_result;

/* What `resolve solve` prints for the texts of a catalogue and a request. A text of no bytes may be NULL, and so may `out`
   where `room` is 0. `out` may not overlap a text. */
resolve_result resolve_solve(const uint8_t *catalogue, size_t catalogue_length,
			     const uint8_t *request, size_t request_length,
			     uint8_t *out, size_t room);

/* The same with a budget, or it gives up: `length` is then 0, and `out` as it was. The solver asks whether to stop before each
   step of its search, and before each new query for a package's versions or a version's needs. It goes on that many times, and
   gives up at the next one. The same texts need the same budget on every machine. */
resolve_result resolve_solve_within(const uint8_t *catalogue, size_t catalogue_length,
				    const uint8_t *request, size_t request_length,
				    uint64_t budget, uint8_t *out, size_t room);

/* What `resolve judge` prints for these texts and a report, whoever wrote it. 64 bytes are room enough. */
resolve_result resolve_judge(const uint8_t *catalogue, size_t catalogue_length,
			     const uint8_t *request, size_t request_length,
			     const uint8_t *report, size_t report_length,
			     uint8_t *out, size_t room);

#ifdef __cplusplus
}
#endif

#endif
