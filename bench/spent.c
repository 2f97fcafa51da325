/* Runs a command several times over a file, and prints of each run: microseconds of processor time, user and system; the most memory
 * that it held, in KB; the microseconds that passed; and its exit status, -1 if it was ended after so many seconds.
 * Words: how many runs, how many seconds, the file, the command. What the command writes to standard output is dropped.
 * This is a program of its own since a run is never shown with less memory than the process holds that starts it: here 1 MB. */
#define _DEFAULT_SOURCE
#include <fcntl.h>
#include <signal.h>
#include <stdio.h>
#include <stdlib.h>
#include <sys/resource.h>
#include <sys/time.h>
#include <sys/wait.h>
#include <time.h>
#include <unistd.h>

static volatile sig_atomic_t child;

static void end(int signal)
{
    (void)signal;
    kill(child, SIGKILL);
}

static long long in_us(struct timeval it)
{
    return (long long)it.tv_sec * 1000000 + it.tv_usec;
}

static long long now(void)
{
    struct timespec it;
    clock_gettime(CLOCK_MONOTONIC, &it);
    return (long long)it.tv_sec * 1000000 + it.tv_nsec / 1000;
}

int main(int count, char **words)
{
    if (count < 5) return 2;
    struct sigaction action = {.sa_handler = end, .sa_flags = SA_RESTART};
    sigaction(SIGALRM, &action, NULL);
    for (int runs = atoi(words[1]); runs > 0; runs--) {
        long long begin = now();
        child = fork();
        if (child == 0) {
            int in = open(words[3], O_RDONLY), out = open("/dev/null", O_WRONLY);
            if (in < 0 || out < 0 || dup2(in, 0) < 0 || dup2(out, 1) < 0) _exit(126);
            execvp(words[4], words + 4);
            _exit(127);
        }
        if (child < 0) return 1;
        alarm((unsigned)atoi(words[2]));
        int status;
        struct rusage use;
        if (wait4(child, &status, 0, &use) < 0) return 1;
        alarm(0);
        printf("%lld %ld %lld %d\n", in_us(use.ru_utime) + in_us(use.ru_stime), use.ru_maxrss, now() - begin,
            WIFEXITED(status) ? WEXITSTATUS(status) : -1);
    }
    return 0;
}
