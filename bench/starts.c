/*
 * starts RUNS NAME=VALUE.. PROGRAM WORDS..: runs the program so many times, with these in its environment and its output
 * thrown away. It writes the milliseconds of processor time that a run takes from its start to its end, the mean of all,
 * and the kilobytes of memory that one had at most.
 */
#include <fcntl.h>
#include <stdio.h>
#include <stdlib.h>
#include <string.h>
#include <sys/resource.h>
#include <sys/wait.h>
#include <unistd.h>

static double milliseconds(struct timeval time)
{
    return (double)time.tv_sec * 1e3 + (double)time.tv_usec / 1e3;
}

static int run(char **words, struct rusage *usage)
{
    int status;
    pid_t child = fork();
    if (child == 0) {
        int nowhere = open("/dev/null", O_WRONLY);
        dup2(nowhere, STDOUT_FILENO);
        for (; *words && strchr(*words, '='); words++)
            putenv(*words);
        if (*words)
            execv(words[0], words);
        _exit(127);
    }
    return child > 0 && wait4(child, &status, 0, usage) == child && status == 0;
}

int main(int count, char **words)
{
    int runs = count > 2 ? atoi(words[1]) : 0;
    double took = 0;
    long most = 0;
    if (runs < 1)
        return 2;
    for (int i = 0; i < runs; i++) {
        struct rusage usage;
        if (!run(words + 2, &usage))
            return 1;
        took += milliseconds(usage.ru_utime) + milliseconds(usage.ru_stime);
        if (usage.ru_maxrss > most)
            most = usage.ru_maxrss;
    }
    printf("%.2f ms %ld kB\n", took / runs, most);
    return 0;
}
