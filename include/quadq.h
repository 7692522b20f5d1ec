/* quadq for programs in C: one call, from bytes in memory to bytes in memory. README.md says under "From C" what to
 * link with. The call keeps nothing from one to the next, and frees what it allocates, so there is nothing to free.
 *
 * Over libquadq.a its contract is proved to be that of the program, with memory in place of its streams. It then needs
 * nothing but the `malloc`, `realloc` and `free` of the program that it is linked into, all three of one allocator,
 * which align as those of the C library do.
 *
 * Threads may be in it at the same time, each with buffers of its own. It must not be called from a signal handler, nor
 * in the child of a `fork` of a process that had threads.
 */
#ifndef QUADQ_H
#define QUADQ_H

#include <stddef.h>
#include <stdint.h>

#ifdef __cplusplus
extern "C" {
#endif

/* An `err` of so many bytes has room for every line. */
#define QUADQ_LINE 384

/* What came of a call. */
typedef struct quadq_ran {
    uint8_t status; /* the exit status that the program would have: 0 is done */
    size_t written; /* how many bytes the output has */
    size_t said;    /* how many bytes the line for standard error has; none where the status is 0 */
} quadq_ran;

/* Runs a command over an input.
 *
 * `words`: the words behind the program's name, each ended by a line feed, in UTF-8: "refine\n--by\n3\n".
 * `input`: what the program would read from standard input.
 * `out`, `err`: where its output and its line for standard error go. Of a text that is longer than the room, the front
 * is there, and the rest is lost: `written` and `said` tell its whole length, so call again with that much room. Bytes
 * behind a shorter text stay as they were. No text has a zero byte at its end.
 *
 * No pointer is null, not even one with a length or a room of 0. `out` and `err` overlap with nothing, and their bytes
 * have been written to before (`calloc`). Statuses are those of the README; with 13, a failed write, `out` may have the
 * front of an output. Over libquadq.a 13 says, as 14 does, that memory was wanting, and 12, a failed read, never comes.
 */
quadq_ran quadq_run(const char *words, size_t words_length, const void *input, size_t input_length, void *out,
                    size_t out_room, char *err, size_t err_room);

#ifdef __cplusplus
}
#endif

#endif
