/* Runs a command and adds a line to a file: elapsed time and processor time in seconds, and peak memory in megabytes (10^6 bytes).
 * usage: measure FILE COMMAND WORD.. */
#include <stdio.h>
#include <sys/resource.h>
#include <sys/time.h>
#include <sys/wait.h>
#include <unistd.h>

static double seconds(struct timeval time)
{
    return time.tv_sec + time.tv_usec / 1e6;
}

static double now(void)
{
    struct timeval time;
    gettimeofday(&time, NULL);
    return seconds(time);
}

int main(int count, char **words)
{
    if (count < 3)
        return 2;
    double start = now();
    pid_t child = fork();
    if (child == 0) {
        execvp(words[2], words + 2);
        _exit(127);
    }
    int status;
    struct rusage used;
    if (child < 0 || wait4(child, &status, 0, &used) < 0 || !WIFEXITED(status) || WEXITSTATUS(status) != 0)
        return 1;
    double took = now() - start;
    FILE *file = fopen(words[1], "a");
    if (!file)
        return 1;
    fprintf(file, "%.4f %.4f %.1f\n", took, seconds(used.ru_utime) + seconds(used.ru_stime), used.ru_maxrss * 1024 / 1e6);
    return fclose(file) == 0 ? 0 : 1;
}
