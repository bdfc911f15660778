/* Refuses one allocation of a program: the one whose number stands in REFUSED, counted from 1. With COUNTED set, how many
 * were asked for is written to that file as the program ends. It is loaded before the C library, by LD_PRELOAD. */
#define _GNU_SOURCE
#include <dlfcn.h>
#include <errno.h>
#include <stdio.h>
#include <stdlib.h>

static long asked;

static int is_refused(void)
{
    static long refused = -1;
    if (refused < 0) {
        const char *number = getenv("REFUSED");
        refused = number ? atol(number) : 0;
    }
    asked++;
    if (asked != refused)
        return 0;
    errno = ENOMEM;
    return 1;
}

void *malloc(size_t size)
{
    static void *(*of_library)(size_t);
    if (!of_library)
        of_library = dlsym(RTLD_NEXT, "malloc");
    return is_refused() ? NULL : of_library(size);
}

void *realloc(void *place, size_t size)
{
    static void *(*of_library)(void *, size_t);
    if (!of_library)
        of_library = dlsym(RTLD_NEXT, "realloc");
    return is_refused() ? NULL : of_library(place, size);
}

__attribute__((destructor)) static void count(void)
{
    const char *name = getenv("COUNTED");
    long number = asked;
    FILE *file = name ? fopen(name, "w") : NULL;
    if (file) {
        fprintf(file, "%ld\n", number);
        fclose(file);
    }
}
