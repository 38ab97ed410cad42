/* One program for the commands of ./fir, which calls it as: fir COMMAND OPTION.. -- WORD.. */
#include <errno.h>
#include <fcntl.h>
#include <signal.h>
#include <stdarg.h>
#include <stdio.h>
#include <string.h>
#include <unistd.h>

#include "command.h"

static const struct {
    const char *name;
    int (*run)(const struct arguments *arguments);
} commands[] = {
    {"draw", run_draw},   {"forms", run_forms}, {"planes", run_planes},   {"round", run_round},
    {"sheet", run_sheet}, {"taps", run_taps},   {"verilog", run_verilog},
};

static const char *command = "";

static void say_list(const char *format, va_list list) {
    fflush(stdout);
    fprintf(stderr, "fir %s: ", command);
    vfprintf(stderr, format, list);
    fputc('\n', stderr);
}

void say(const char *format, ...) {
    va_list list;
    va_start(list, format);
    say_list(format, list);
    va_end(list);
}

int failed(const char *format, ...) {
    va_list list;
    va_start(list, format);
    say_list(format, list);
    va_end(list);
    return FAILED;
}

int has_option(const struct arguments *arguments, const char *option) {
    for (int i = 0; i < arguments->option_count; i++) {
        if (strcmp(arguments->options[i], option) == 0) return 1;
    }
    return 0;
}

/* What is done is done only where all of it was written. */
static int ended(int status) {
    if (fflush(stdout) != 0 || ferror(stdout) || fclose(stdout) != 0) {
        return failed("cannot write the output: %s", strerror(errno));
    }
    return status;
}

/* No file that is opened later may stand where a closed stream was. */
static int streams_open(void) {
    if (fcntl(STDOUT_FILENO, F_GETFD) == -1) return 0;
    while (fcntl(STDERR_FILENO, F_GETFD) == -1) {
        if (open("/dev/null", O_RDWR) == -1) return 0;
    }
    return 1;
}

/* What a caller has left ignored or set would turn failures into something else. */
static void reset_signals(void) {
    signal(SIGCHLD, SIG_DFL);
    signal(SIGXFSZ, SIG_IGN);
}

static int run_command(const struct arguments *arguments) {
    for (size_t i = 0; i < sizeof commands / sizeof *commands; i++) {
        if (strcmp(command, commands[i].name) == 0) return commands[i].run(arguments);
    }
    return failed("there is no such command");
}

int main(int argc, char **argv) {
    int next = 2;
    if (argc < 3) return FAILED;
    command = argv[1];
    if (!streams_open()) return failed("standard output is closed");
    reset_signals();
    while (next < argc - 1 && strcmp(argv[next], "--") != 0) next++;
    struct arguments arguments = {next - 2, argc - next - 1, argv + 2, argv + next + 1};
    return ended(run_command(&arguments));
}
