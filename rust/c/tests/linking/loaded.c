// A library that is loaded and unloaded many times. Its function FUNCTION, without arguments, returns a number
// that isn't 0.
//
// usage: loaded LIBRARY FUNCTION
#include <dlfcn.h>
#include <stdio.h>

int main(int words, char **word) {
    for (int turn = 0; turn < 200; turn++) {
        void *library = words == 3 ? dlopen(word[1], RTLD_NOW) : NULL;
        void *found = library != NULL ? dlsym(library, word[2]) : NULL;
        if (found == NULL) {
            printf("%s\n", dlerror());
            return 1;
        }
        union {
            void *pointer;
            int (*function)(void);
        } it = {found};
        if (it.function() == 0 || dlclose(library) != 0)
            return 2;
    }
    printf("loaded 200 times\n");
    return 0;
}
