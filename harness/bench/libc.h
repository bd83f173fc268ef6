/* What the benchmark uses of the C library, for which the kit has no headers. */
#ifndef LIBC_H
#define LIBC_H

#include <stddef.h>

int printf(const char *, ...);
int dprintf(int, const char *, ...);
int snprintf(char *, size_t, const char *, ...);
long write(int, const void *, size_t);
int strcmp(const char *, const char *);
int memcmp(const void *, const void *, size_t);
void *memcpy(void *, const void *, size_t);
void *memset(void *, int, size_t);
void *calloc(size_t, size_t);
void *aligned_alloc(size_t, size_t);
void free(void *);
_Noreturn void exit(int);
unsigned long strtoul(const char *, char **, int);

struct timespec { long tv_sec, tv_nsec; };
enum { CLOCK_MONOTONIC = 1 };
int clock_gettime(int, struct timespec *);

enum { RTLD_NOW = 2 };
void *dlopen(const char *, int);
void *dlsym(void *, const char *);

#endif
