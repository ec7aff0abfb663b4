/* Runs a command and says what it cost.
 *
 *   spawn OUT COMMAND WORD..
 *
 * The command's standard output goes to the file OUT. Prints the time that went by and the processor time, both in
 * nanoseconds, the peak of the command's memory in KiB, and its exit status. A process's peak begins at that of the process
 * that started it, so the one that starts it has to be small. */
#define _GNU_SOURCE
#include <fcntl.h>
#include <stdio.h>
#include <sys/resource.h>
#include <sys/wait.h>
#include <time.h>
#include <unistd.h>

static double nanoseconds(struct timeval t) { return t.tv_sec * 1e9 + t.tv_usec * 1e3; }

int main(int count, char **words) {
    struct timespec a, b;
    struct rusage used;
    int status;
    if (count < 3) return 2;
    clock_gettime(CLOCK_MONOTONIC, &a);
    pid_t child = fork();
    if (child == 0) {
        int out = open(words[1], O_WRONLY | O_CREAT | O_TRUNC, 0600);
        if (out < 0 || dup2(out, 1) < 0) _exit(126);
        execvp(words[2], words + 2);
        _exit(127);
    }
    if (child < 0 || wait4(child, &status, 0, &used) < 0) return 4;
    clock_gettime(CLOCK_MONOTONIC, &b);
    printf("%.0f %.0f %ld %d\n", (b.tv_sec - a.tv_sec) * 1e9 + (b.tv_nsec - a.tv_nsec),
           nanoseconds(used.ru_utime) + nanoseconds(used.ru_stime), used.ru_maxrss,
           WIFEXITED(status) ? WEXITSTATUS(status) : 128 + WTERMSIG(status));
    return 0;
}
