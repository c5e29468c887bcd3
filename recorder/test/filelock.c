/*
 * filelock FILE PLUGIN: a program that has a lock of fcntl on a file and maps it, as databases do, and then runs code of a
 * library that it opens. The status is 0 where the lock is still there afterwards: another process doesn't get it.
 */
#define _GNU_SOURCE
#include <dlfcn.h>
#include <fcntl.h>
#include <stdio.h>
#include <sys/mman.h>
#include <sys/wait.h>
#include <unistd.h>

static int others_get_it(const char *path)
{
    int status = 0;
    pid_t child = fork();
    if (child == 0) {
        struct flock lock = {.l_type = F_WRLCK, .l_whence = SEEK_SET};
        _exit(fcntl(open(path, O_RDWR), F_SETLK, &lock) == 0);
    }
    waitpid(child, &status, 0);
    return WEXITSTATUS(status);
}

int main(int count, char **word)
{
    struct flock lock = {.l_type = F_WRLCK, .l_whence = SEEK_SET};
    int file = count > 2 ? open(word[1], O_RDWR | O_CREAT, 0600) : -1;
    if (file < 0 || ftruncate(file, 65536) != 0 || fcntl(file, F_SETLK, &lock) != 0
        || mmap(0, 65536, PROT_READ | PROT_WRITE, MAP_SHARED, file, 0) == MAP_FAILED || others_get_it(word[1]))
        return 2;
    void *library = dlopen(word[2], RTLD_NOW);
    void (*work)(void) = library ? (void (*)(void))dlsym(library, "work") : NULL;
    if (!work)
        return 3;
    work();
    return others_get_it(word[1]);
}
