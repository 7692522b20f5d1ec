/* Runs quadq over standard input: the words of a command, or by default a remesh to half the scale.
 * cc -Iinclude examples/remesh.c libquadq.a -o remesh && ./remesh <in.obj >out.obj */
#include "quadq.h"
#include <stdio.h>
#include <stdlib.h>
#include <string.h>

static const char HALF[] = "remesh\n--scale\n1/2\n--floor\nauto\n--weight\nplain\n";

/* The words of the command line, one a line. */
static char *words_of(int count, char **given) {
    size_t length = 0;
    for (int i = 1; i < count; i++) length += strlen(given[i]) + 1;
    char *words = calloc(length + 1, 1);
    for (int i = 1; words && i < count; i++) strcat(strcat(words, given[i]), "\n");
    return words;
}

/* All of a stream, and its length; null where memory is wanting or a read fails. */
static char *read_all(FILE *stream, size_t *length) {
    size_t room = 1 << 16;
    char *bytes = malloc(room);
    *length = 0;
    while (bytes && (*length += fread(bytes + *length, 1, room - *length, stream)) == room) {
        char *more = realloc(bytes, room *= 2);
        if (!more) free(bytes);
        bytes = more;
    }
    if (bytes && ferror(stream)) free(bytes), bytes = NULL;
    return bytes;
}

int main(int count, char **given) {
    size_t length, room = 1 << 16;
    char err[QUADQ_LINE] = {0}, *words = count > 1 ? words_of(count, given) : strdup(HALF);
    char *input = read_all(stdin, &length), *out = calloc(room, 1);
    if (!words || !input || !out) return fputs("remesh: no input, or no memory\n", stderr), 1;
    quadq_ran ran = quadq_run(words, strlen(words), input, length, out, room, err, sizeof err);
    if (ran.written > room) {
        /* What did not fit is told by its length alone: the same run once more, with that much room. */
        room = ran.written;
        free(out);
        if (!(out = calloc(room, 1))) return fputs("remesh: no memory\n", stderr), 1;
        ran = quadq_run(words, strlen(words), input, length, out, room, err, sizeof err);
    }
    fwrite(out, 1, ran.written < room ? ran.written : room, stdout);
    fwrite(err, 1, ran.said, stderr);
    free(out), free(input), free(words);
    return fflush(stdout) ? 1 : ran.status;
}
