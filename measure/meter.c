/*
 * Starts the program that its words name, and prints its exit status (a signal's number, negative),
 * the peak of its memory in KiB and its processor times in microseconds.
 */

#include <stdio.h>
#include <sys/resource.h>
#include <sys/types.h>
#include <sys/wait.h>
#include <unistd.h>

/* A shell's status for what it can't start. */
enum { NOT_STARTED = 127 };

static long long microseconds(struct timeval time)
{
    return time.tv_sec * 1000000LL + time.tv_usec;
}

/* What the child prints goes to standard error, for standard output has the numbers alone. */
static void execute(char **words)
{
    dup2(STDERR_FILENO, STDOUT_FILENO);
    execv(words[0], words);
    _exit(NOT_STARTED);
}

int main(int count, char **words)
{
    int ended;
    struct rusage usage;
    pid_t child = count > 1 ? fork() : -1;
    if (child == 0)
        execute(words + 1);
    if (child < 0 || wait4(child, &ended, 0, &usage) < 0)
        return NOT_STARTED;
    int status = WIFEXITED(ended) ? WEXITSTATUS(ended) : -WTERMSIG(ended);
    if (status == NOT_STARTED)
        return NOT_STARTED;
    printf("%d %ld %lld %lld\n", status, usage.ru_maxrss,
           microseconds(usage.ru_utime), microseconds(usage.ru_stime));
    return 0;
}
