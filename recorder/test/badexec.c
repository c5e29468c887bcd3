/* Hands words to the exec functions that can't be read, or aren't right, and prints what each answers. */
#define _GNU_SOURCE
#include <errno.h>
#include <fcntl.h>
#include <stdio.h>
#include <string.h>
#include <sys/mman.h>
#include <sys/wait.h>
#include <unistd.h>

static char *volatile nowhere, *volatile unreadable = (char *)8;
static char *const words[] = {"x", NULL}, *const environment[] = {NULL};
static char *end; /* of memory that can be read: no name ends there */

static int call(int number)
{
    switch (number) {
    case 0: return execve(nowhere, words, environment);
    case 1: return execve(unreadable, words, environment);
    case 2: return execve(end - 3, words, environment);
    case 3: return execv(nowhere, words);
    case 4: return execv(unreadable, words);
    case 5: return execveat(AT_FDCWD, nowhere, words, environment, 0);
    case 6: return execveat(AT_FDCWD, unreadable, words, environment, 0);
    case 7: return execveat(AT_FDCWD, "", words, environment, 0);
    case 8: return fexecve(0, (char *const *)nowhere, environment);
    case 9: return fexecve(-1, words, environment);
    case 10: return execvp("", words);
    case 11: return execve("/no/such/folder/", words, environment);
    case 12: return execl("/no/such/file", "x", (char *)NULL);
    default: return execve("/bin/true", (char *const *)unreadable, environment);
    }
}

int main(void)
{
    char *memory = mmap(NULL, 8192, PROT_READ | PROT_WRITE, MAP_PRIVATE | MAP_ANONYMOUS, -1, 0);
    end = memory + 4096;
    memset(memory, 'a', 4096);
    if (memory == MAP_FAILED || mprotect(end, 4096, PROT_NONE) != 0)
        return 2;
    for (int number = 0; number < 14; number++) {
        int status;
        pid_t child = fork();
        if (child == 0) {
            errno = 0;
            int answer = call(number);
            printf("%d: %d %s\n", number, answer, strerror(errno));
            fflush(stdout);
            _exit(0);
        }
        if (waitpid(child, &status, 0) != child || status != 0)
            printf("%d: ended by %#x\n", number, status);
        fflush(stdout);
    }
    return 0;
}
