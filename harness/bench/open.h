/* Functions of a peer's library, by name. */
#ifndef OPEN_H
#define OPEN_H

struct function {
    void *to;
    const char *name;
};

/* Sets pointers to functions, up to the first that the library doesn't have. A list ends with one that has no name. */
int open_functions(const char *library, const struct function *list);

#endif
