/*
 * Runs a command within limits and prints what it took, for `growth.py`:
 *
 *     measured SECONDS MB WORD ..
 *
 * It prints the status as `wait` gives it, the processor seconds and the peak memory in KB. The peak of a process
 * counts that of the one from which it was forked, so that is this small program and not Python.
 */
#include <stdio.h>
#include <stdlib.h>
#include <sys/resource.h>
#include <sys/wait.h>
#include <unistd.h>

static void limit(int which, rlim_t most)
{
    struct rlimit both = {most, most};
    setrlimit(which, &both);
}

static double seconds(struct timeval time) { return (double)time.tv_sec + (double)time.tv_usec / 1e6; }

int main(int count, char **words)
{
    struct rusage usage;
    int status;
    if (count < 4)
        return 2;
    pid_t child = fork();
    if (child == 0) {
        limit(RLIMIT_CPU, strtoull(words[1], NULL, 10));
        limit(RLIMIT_AS, strtoull(words[2], NULL, 10) << 20);
        if (!freopen("/dev/null", "w", stdout) || !freopen("/dev/null", "w", stderr))
            _exit(127);
        execv(words[3], words + 3);
        _exit(127);
    }
    if (child < 0 || wait4(child, &status, 0, &usage) < 0)
        return 1;
    printf("%d %f %ld\n", status, seconds(usage.ru_utime) + seconds(usage.ru_stime), usage.ru_maxrss);
    return 0;
}
