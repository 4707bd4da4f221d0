/* Refuses one growth of a program's memory, for bench/memory. It is loaded in front of the C library:
 *
 *   LD_PRELOAD=./memory.so GROWTH=N GROWTHS=FILE PROGRAM WORDS
 *
 * The N-th growth is refused, the first being number 1; with N 0 none is. A growth is an allocation, or one that is made
 * longer. How many there were is written to FILE when the program ends.
 */
#define _GNU_SOURCE
#include <dlfcn.h>
#include <errno.h>
#include <stdio.h>
#include <stdlib.h>

static void *(*plain_malloc)(size_t);
static void *(*plain_realloc)(void *, size_t);
static unsigned long refused, growths;
static int counts;

static void look_up(void)
{
    plain_malloc = dlsym(RTLD_NEXT, "malloc");
    plain_realloc = dlsym(RTLD_NEXT, "realloc");
}

/* Only what the program itself takes is counted, and not what is taken before it begins. */
__attribute__((constructor)) static void begin(void)
{
    const char *number = getenv("GROWTH");
    if (plain_malloc == NULL)
        look_up();
    refused = number == NULL ? 0 : strtoul(number, NULL, 10);
    counts = 1;
}

__attribute__((destructor)) static void end(void)
{
    const char *path = getenv("GROWTHS");
    FILE *file;
    counts = 0;
    file = path == NULL ? NULL : fopen(path, "w");
    if (file != NULL) {
        fprintf(file, "%lu\n", growths);
        fclose(file);
    }
}

static int is_refused(void)
{
    return counts && ++growths == refused;
}

void *malloc(size_t size)
{
    if (plain_malloc == NULL)
        look_up();
    if (is_refused()) {
        errno = ENOMEM;
        return NULL;
    }
    return plain_malloc(size);
}

void *realloc(void *memory, size_t size)
{
    if (plain_realloc == NULL)
        look_up();
    if (is_refused()) {
        errno = ENOMEM;
        return NULL;
    }
    return plain_realloc(memory, size);
}
