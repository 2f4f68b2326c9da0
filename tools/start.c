/* The shortest time from the start of a command to the first byte that it writes, or to its end where it writes none, in
 * microseconds, of RUNS runs of each command. The commands run in turn, so the machine's other work meets them alike.
 * usage: start RUNS INPUT COMMAND WORD.. -- COMMAND WORD.. -- ..
 * It prints a line for each command. */
#define _GNU_SOURCE
#include <fcntl.h>
#include <spawn.h>
#include <stdio.h>
#include <stdlib.h>
#include <string.h>
#include <sys/wait.h>
#include <time.h>
#include <unistd.h>

enum { MOST = 16 };

extern char **environ;

static double now(void)
{
    struct timespec time;
    clock_gettime(CLOCK_MONOTONIC, &time);
    return time.tv_sec * 1e6 + time.tv_nsec / 1e3;
}

/* Runs a command once. Returns the time, or -1 where it failed. */
static double run(const char *input, char **words)
{
    int ends[2];
    posix_spawn_file_actions_t actions;
    pid_t child;
    char bytes[4096];
    int status;

    if (pipe2(ends, O_CLOEXEC) < 0)
        return -1;
    posix_spawn_file_actions_init(&actions);
    posix_spawn_file_actions_addopen(&actions, 0, input, O_RDONLY, 0);
    posix_spawn_file_actions_adddup2(&actions, ends[1], 1);
    double began = now();
    int failed = posix_spawn(&child, words[0], &actions, NULL, words, environ);
    close(ends[1]);
    ssize_t count = failed ? -1 : read(ends[0], bytes, sizeof bytes);
    double took = now() - began;
    while (count > 0)
        count = read(ends[0], bytes, sizeof bytes);
    close(ends[0]);
    posix_spawn_file_actions_destroy(&actions);
    if (failed || waitpid(child, &status, 0) < 0 || !WIFEXITED(status) || WEXITSTATUS(status) != 0)
        return -1;
    return took;
}

int main(int count, char **words)
{
    char **commands[MOST];
    double best[MOST];
    int number = 0;

    if (count < 4)
        return 2;
    for (int i = 3; i < count && number < MOST; i++) {
        commands[number++] = words + i;
        while (i < count && strcmp(words[i], "--") != 0)
            i++;
        words[i] = NULL;
    }
    for (int turn = 0; turn < atoi(words[1]); turn++)
        for (int i = 0; i < number; i++) {
            double took = run(words[2], commands[i]);
            if (took < 0) {
                fprintf(stderr, "start: %s failed\n", commands[i][0]);
                return 1;
            }
            if (turn == 0 || took < best[i])
                best[i] = took;
        }
    for (int i = 0; i < number; i++)
        printf("%.1f %s\n", best[i], commands[i][0]);
    return 0;
}
