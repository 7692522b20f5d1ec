/* The call of quadq.h by the program itself, for who has no libquadq.a: link this file in its place. It runs the
 * program that the environment variable QUADQ names, or else `quadq` on the PATH, over files without names. The status
 * is 127 where the program cannot be run or such a file cannot be written, and 128 and the number of a signal that ends
 * it. */
#define _POSIX_C_SOURCE 200809L
#include "quadq.h"
#include <spawn.h>
#include <stdio.h>
#include <stdlib.h>
#include <string.h>
#include <sys/wait.h>

extern char **environ;

enum { NOT_RUN = 127, ENDED = 128 };

/* The arguments of a command line: the program's name and its words, in one block. Null where memory is wanting. */
static char **arguments_of(const char *words, size_t length) {
    size_t count = 3;
    for (size_t i = 0; i < length; i++) count += words[i] == '\n';
    char **arguments = calloc(1, count * sizeof *arguments + length + 1);
    if (!arguments) return NULL;
    char *text = memcpy(arguments + count, words, length), *end = text + length;
    size_t last = 0;
    for (arguments[last++] = "quadq"; text < end; text += strlen(text) + 1) {
        text[strcspn(text, "\n")] = 0;
        arguments[last++] = text;
    }
    return arguments;
}

/* Runs the program over three files, and returns its status. */
static int run(char **arguments, FILE *files[3]) {
    const char *named = getenv("QUADQ");
    posix_spawn_file_actions_t moves;
    pid_t child;
    int state, failed = posix_spawn_file_actions_init(&moves);
    if (failed) return NOT_RUN;
    for (int i = 0; i < 3; i++) failed |= posix_spawn_file_actions_adddup2(&moves, fileno(files[i]), i);
    failed |= posix_spawnp(&child, named ? named : "quadq", &moves, NULL, arguments, environ);
    posix_spawn_file_actions_destroy(&moves);
    if (failed || waitpid(child, &state, 0) != child) return NOT_RUN;
    return WIFEXITED(state) ? WEXITSTATUS(state) : ENDED + WTERMSIG(state);
}

/* Puts the front of a file into a buffer, and returns how long the file is. */
static size_t hand_over(FILE *file, void *buffer, size_t room) {
    long length = fseek(file, 0, SEEK_END) ? 0 : ftell(file);
    rewind(file);
    return fread(buffer, 1, room, file) <= room && length > 0 ? (size_t)length : 0;
}

quadq_ran quadq_run(const char *words, size_t words_length, const void *input, size_t input_length, void *out,
                    size_t out_room, char *err, size_t err_room) {
    quadq_ran ran = {NOT_RUN, 0, 0};
    char **arguments = arguments_of(words, words_length);
    FILE *files[3] = {tmpfile(), tmpfile(), tmpfile()};
    if (arguments && files[0] && files[1] && files[2] && fwrite(input, 1, input_length, files[0]) == input_length &&
        !fseek(files[0], 0, SEEK_SET)) {
        ran.status = (uint8_t)run(arguments, files);
        ran.written = hand_over(files[1], out, out_room);
        ran.said = hand_over(files[2], err, err_room);
    }
    for (int i = 0; i < 3; i++)
        if (files[i]) fclose(files[i]);
    free(arguments);
    return ran;
}
