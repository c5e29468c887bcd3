/* opens LIBRARY..: opens libraries, one after the other, by the names that are given. Those without a folder stand where the
 * program says that it looks for them (RUNPATH). */
#include <dlfcn.h>
#include <stdio.h>

int main(int count, char **word)
{
    for (int i = 1; i < count; i++) {
        if (!dlopen(word[i], RTLD_NOW)) {
            puts(dlerror());
            return 1;
        }
    }
    return 0;
}
