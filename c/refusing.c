/* Refuses one allocation of the objects that are linked with -Wl,--wrap=malloc,--wrap=realloc, for tests: the one whose number the
 * environment variable REFUSED_ALLOCATION has, counted from 1. A line on standard error says that it was refused. */
#include <stdio.h>
#include <stdlib.h>

void *__real_malloc(size_t size);
void *__real_realloc(void *block, size_t size);
void *__wrap_malloc(size_t size);
void *__wrap_realloc(void *block, size_t size);

static int is_refused(void) {
    static unsigned long made;
    const char *named = getenv("REFUSED_ALLOCATION");
    if (!named || ++made != strtoul(named, NULL, 10))
        return 0;
    fprintf(stderr, "refused\n");
    return 1;
}

void *__wrap_malloc(size_t size) {
    return is_refused() ? NULL : __real_malloc(size);
}

void *__wrap_realloc(void *block, size_t size) {
    return is_refused() ? NULL : __real_realloc(block, size);
}
