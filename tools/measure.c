/* Runs a command for tools/hostile and tools/soak, and prints what it took in one line:
 *
 *   measure SECONDS CONSOLE COMMAND ARG..      its standard output goes to the file CONSOLE; it is stopped when it has used the
 *                                              processor for SECONDS, and after twenty times as many by the clock
 *
 * The line: microseconds by the clock, microseconds of the processor by the program and by the system for it, kilobytes of its
 * greatest resident memory, its exit code (or -1), and the signal that ended it (or 0). It is a program of its own, and small,
 * since Linux gives a child the greatest resident memory of its parent at the least. */
#define _GNU_SOURCE
#include <errno.h>
#include <fcntl.h>
#include <signal.h>
#include <stdio.h>
#include <stdlib.h>
#include <sys/prctl.h>
#include <sys/resource.h>
#include <sys/wait.h>
#include <time.h>
#include <unistd.h>

static pid_t child;

static void stop_child(int signal) {
    (void)signal;
    kill(child, SIGKILL);
}

static long long micros(struct timeval t) { return t.tv_sec * 1000000LL + t.tv_usec; }

int main(int count, char **words) {
    if (count < 4) return 125;
    struct timespec from, to;
    clock_gettime(CLOCK_MONOTONIC, &from);
    child = fork();
    if (child < 0) return 125;
    if (child == 0) {
        prctl(PR_SET_PDEATHSIG, SIGKILL);
        int in = open("/dev/null", O_RDONLY), out = open(words[2], O_WRONLY | O_CREAT | O_TRUNC, 0644);
        if (in < 0 || out < 0 || dup2(in, 0) < 0 || dup2(out, 1) < 0) _exit(126);
        if (in > 2) close(in);
        if (out > 2) close(out);
        struct rlimit most = {(rlim_t)atoi(words[1]), (rlim_t)atoi(words[1])};
        if (setrlimit(RLIMIT_CPU, &most) < 0) _exit(126);
        execv(words[3], words + 3);
        _exit(127);
    }
    signal(SIGALRM, stop_child);
    alarm(20 * (unsigned)atoi(words[1]));
    int status;
    struct rusage used;
    while (wait4(child, &status, 0, &used) < 0)
        if (errno != EINTR) return 125;
    clock_gettime(CLOCK_MONOTONIC, &to);
    long long wall = (to.tv_sec - from.tv_sec) * 1000000LL + (to.tv_nsec - from.tv_nsec) / 1000;
    printf("%lld %lld %lld %ld %d %d\n", wall, micros(used.ru_utime), micros(used.ru_stime), used.ru_maxrss,
           WIFEXITED(status) ? WEXITSTATUS(status) : -1, WIFSIGNALED(status) ? WTERMSIG(status) : 0);
    return 0;
}
