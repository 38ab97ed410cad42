/* Another program, run on bytes. */
#include <errno.h>
#include <stdio.h>
#include <stdlib.h>
#include <string.h>
#include <sys/wait.h>
#include <unistd.h>

#include "command.h"

/* All that comes through a pipe, closed by a 0; NULL where it cannot be read or there is no room. */
static char *read_all(int pipe) {
    size_t length = 0, room = 1 << 16;
    char *text = malloc(room), *more = text;
    ssize_t got = 1;
    while (more != NULL && got != 0) {
        got = read(pipe, text + length, room - length - 1);
        if (got < 0 && errno != EINTR) more = NULL;
        if (got > 0) length += (size_t)got;
        if (more != NULL && length + 1 == room) more = realloc(text, room *= 2);
        if (more != NULL) text = more;
    }
    if (more == NULL) {
        free(text);
        return NULL;
    }
    text[length] = '\0';
    return text;
}

static void become(char *const words[], int input, int output) {
    if (dup2(input, STDIN_FILENO) != -1 && dup2(output, STDOUT_FILENO) != -1) execvp(words[0], words);
    say("cannot run %s: %s", words[0], strerror(errno));
    _exit(127);
}

/* The bytes in a file without a name, to be read from the start; NULL where there is no room. */
static FILE *file_of(const void *bytes, size_t length) {
    FILE *file = tmpfile();
    if (file == NULL) return NULL;
    if (fwrite(bytes, 1, length, file) == length && fflush(file) == 0 && fseek(file, 0, SEEK_SET) == 0) return file;
    fclose(file);
    return NULL;
}

/* Starts the program, and answers where its output comes from; -1 where it cannot be started. */
static int start(char *const words[], int input, pid_t *child) {
    int ends[2];
    if (pipe(ends) != 0) return -1;
    *child = fork();
    if (*child == 0) {
        close(ends[0]);
        become(words, input, ends[1]);
    }
    close(ends[1]);
    if (*child != -1) return ends[0];
    close(ends[0]);
    return -1;
}

int run_program(char *const words[], const void *input, size_t length, char **output) {
    pid_t child, ended;
    int status;
    FILE *file = file_of(input, length);
    if (file == NULL) return failed("no room for what %s reads: %s", words[0], strerror(errno));
    int from = start(words, fileno(file), &child);
    fclose(file);
    if (from == -1) return failed("cannot run %s: %s", words[0], strerror(errno));
    *output = read_all(from);
    close(from);
    do ended = waitpid(child, &status, 0);
    while (ended == -1 && errno == EINTR);
    if (*output == NULL) return failed("cannot read what %s writes, or there is no room for it", words[0]);
    if (ended == child && WIFEXITED(status) && WEXITSTATUS(status) == 0 && **output != '\0') return DONE;
    free(*output);
    return failed("%s did not end well", words[0]);
}
