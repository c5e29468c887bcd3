/*
 * flat OBJECT PLUGIN: a library's file is mapped as data, as linkers and debuggers do, and memory after it has two locks
 * that are made at two lines. These aren't the library's, nor of one type.
 */
#include <dlfcn.h>
#include <fcntl.h>
#include <pthread.h>
#include <stddef.h>
#include <sys/mman.h>
#include <sys/stat.h>

int main(int count, char **word)
{
    struct stat found;
    int file = count > 2 ? open(word[1], O_RDONLY) : -1;
    if (file < 0 || fstat(file, &found) != 0)
        return 2;
    char *room = mmap(NULL, 1 << 21, PROT_NONE, MAP_PRIVATE | MAP_ANONYMOUS, -1, 0);
    mmap(room, (size_t)found.st_size, PROT_READ, MAP_PRIVATE | MAP_FIXED, file, 0);
    char *after = mmap(room + (1 << 16), 1 << 20, PROT_READ | PROT_WRITE, MAP_PRIVATE | MAP_ANONYMOUS | MAP_FIXED, -1, 0);
    void *library = dlopen(word[2], RTLD_NOW);
    if (room == MAP_FAILED || after == MAP_FAILED || !library)
        return 3;
    ((void (*)(void))dlsym(library, "work"))();
    pthread_mutex_t *reader = (void *)after, *writer = (void *)(after + 256);
    pthread_mutex_init(reader, NULL);
    pthread_mutex_init(writer, NULL);
    pthread_mutex_lock(reader);
    pthread_mutex_lock(writer);
    pthread_mutex_unlock(writer);
    pthread_mutex_unlock(reader);
    return 0;
}
