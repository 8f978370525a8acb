/*
 * Requests for memory that are refused. Linked with -Wl,--wrap=malloc,--wrap=realloc,--wrap=free, so that the library's
 * requests come here.
 */
#ifndef REFUSING_H
#define REFUSING_H

#include <stddef.h>

void *__real_malloc(size_t);
void *__real_realloc(void *, size_t);
void __real_free(void *);
void *__wrap_malloc(size_t);
void *__wrap_realloc(void *, size_t);
void __wrap_free(void *);

/* How many requests are granted before one is refused (none is if negative), how many were refused, and how many blocks
 * are taken. */
static long granted = -1, refusals, taken;

/* Whether all requests after a refused one are refused too. */
static int lasts;

static int refuses(void)
{
    if (granted < 0 || granted-- > 0) {
        return 0;
    }
    granted = lasts ? 0 : -1;
    refusals++;
    return 1;
}

void *__wrap_malloc(size_t size)
{
    void *block = refuses() ? NULL : __real_malloc(size);
    taken += block != NULL;
    return block;
}

void *__wrap_realloc(void *block, size_t size)
{
    void *larger = refuses() ? NULL : __real_realloc(block, size);
    taken += block == NULL && larger != NULL;
    return larger;
}

void __wrap_free(void *block)
{
    taken -= block != NULL;
    __real_free(block);
}

#endif
