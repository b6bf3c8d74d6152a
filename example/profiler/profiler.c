/*
 * Samples the stacks of a process, and prints them folded: a line for each stack, from the outermost function on, and the
 * number of its samples.
 *
 *   profiler [-F HZ] [-d SECONDS] PID
 *   profiler [-F HZ] [-d SECONDS] COMMAND [WORD ..]
 *   profiler [-F HZ] [-d SECONDS] -T
 *
 * By default it takes 99 samples a second of each thread that runs, until the process ends or SIGINT comes. A command that still
 * runs when the time is over gets SIGTERM. It makes the tables of the files that the process has mapped by kiblawen_linkplt. With
 * -T, or where perf events aren't allowed, it samples itself by a timer. A command's output goes to standard error.
 */
#define _GNU_SOURCE
#include <errno.h>
#include <signal.h>
#include <stdio.h>
#include <stdlib.h>
#include <string.h>
#include <unistd.h>

#include "profiler.h"

static int fail(void)
{
    fputs("usage: profiler [-F HZ] [-d SECONDS] PID | COMMAND [WORD ..] | -T\n", stderr);
    return 2;
}

/* Starts a command, which waits until the other end of a pipe is closed. Returns its process, or -1. */
static pid_t start(char **words, int *begin)
{
    int ends[2];
    char byte;
    if (pipe(ends))
        return -1;
    pid_t pid = fork();
    if (pid == 0) {
        close(ends[1]);
        if (read(ends[0], &byte, 1) == 0 && dup2(STDERR_FILENO, STDOUT_FILENO) >= 0) {
            close(ends[0]);
            execvp(words[0], words);
        }
        fprintf(stderr, "profiler: %s: %s\n", words[0], strerror(errno));
        _exit(127);
    }
    close(ends[0]);
    *begin = ends[1];
    return pid;
}

static bool is_number(const char *word)
{
    return *word && word[strspn(word, "0123456789")] == 0;
}

int main(int argc, char **argv)
{
    static struct process process;
    struct options options = {99, 0};
    bool by_timer = false;
    int option, begin = -1;
    while ((option = getopt(argc, argv, "+F:d:T")) != -1) {
        if (option == 'F')
            options.hertz = (unsigned)atoi(optarg);
        else if (option == 'd')
            options.seconds = atof(optarg);
        else if (option == 'T')
            by_timer = true;
        else
            return fail();
    }
    char **words = argv + optind;
    if (options.hertz == 0 || options.hertz > 10000 || (!by_timer && !*words))
        return fail();
    process.is_changed = true;
    if (by_timer)
        return sample_by_timer(&process, &options);
    bool is_pid = is_number(words[0]) && !words[1];
    process.pid = is_pid ? atoi(words[0]) : start(words, &begin);
    bool is_sampled = process.pid > 0 && sample_by_perf(&process, &options, begin);
    if (!is_pid && process.pid > 0 && !process.has_ended)
        kill(process.pid, is_sampled ? SIGTERM : SIGKILL);
    if (is_sampled) {
        print_folded(&process);
        return 0;
    }
    fputs("profiler: it samples itself instead\n", stderr);
    return sample_by_timer(&process, &options);
}
