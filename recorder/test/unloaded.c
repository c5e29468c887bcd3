/*
 * unloaded PLUGIN..: opens libraries one after the other and runs their `work`. Each is closed by the C library's own
 * function before the next one comes to its address: nothing that stands before that function sees it.
 */
#define _GNU_SOURCE
#include <dlfcn.h>
#include <link.h>
#include <stdio.h>

int main(int count, char **word)
{
    void *c = dlopen("libc.so.6", RTLD_LAZY);
    int (*close_library)(void *) = (int (*)(void *))dlsym(c, "dlclose");
    ElfW(Addr) at = 0;
    for (int i = 1; i < count; i++) {
        struct link_map *map;
        void *library = dlopen(word[i], RTLD_NOW);
        if (!library || dlinfo(library, RTLD_DI_LINKMAP, &map) != 0)
            return 2;
        if (at && at != map->l_addr)
            return 3;
        at = map->l_addr;
        ((void (*)(void))dlsym(library, "work"))();
        close_library(library);
    }
    return 0;
}
