/* Functions of a peer's library, by name. */
#include "open.h"

#include "libc.h"

int open_functions(const char *library, const struct function *list)
{
    void *opened = dlopen(library, RTLD_NOW);
    int found = opened != 0;
    for (; found && list->name != 0; list++) {
        void *f = dlsym(opened, list->name);
        memcpy(list->to, &f, sizeof f);
        found = f != 0;
    }
    return found;
}
