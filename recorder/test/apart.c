/* apart plain|deepbind|dlmopen PLUGIN: opens a library so, and has it take its locks both ways; before that the program takes two of its own. */
#define _GNU_SOURCE
#include <dlfcn.h>
#include <pthread.h>
#include <stdio.h>
#include <string.h>

static pthread_mutex_t first = PTHREAD_MUTEX_INITIALIZER, second = PTHREAD_MUTEX_INITIALIZER;

int main(int count, char **word)
{
    int how = count > 1 && strcmp(word[1], "deepbind") == 0 ? RTLD_NOW | RTLD_DEEPBIND : RTLD_NOW;
    if (count < 3)
        return 2;
    pthread_mutex_lock(&first);
    pthread_mutex_lock(&second);
    pthread_mutex_unlock(&second);
    pthread_mutex_unlock(&first);
    void *library = strcmp(word[1], "dlmopen") == 0 ? dlmopen(LM_ID_NEWLM, word[2], how) : dlopen(word[2], how);
    if (!library)
        return strcmp(word[1], "none") == 0 ? 0 : 3;
    ((void (*)(void))dlsym(library, "work"))();
    ((void (*)(void))dlsym(library, "back"))();
    return 0;
}
