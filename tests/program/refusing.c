/*
 * Memory that is refused on purpose, for a program that runs with this as LD_PRELOAD: its requests by malloc, calloc and
 * realloc come here, from whichever thread, and are counted from 1.
 *
 *   REFUSED=N       in the environment: the Nth request is refused. REFUSED=N.. has each later one refused too.
 *   ARMING + N      bytes asked for: refused, as no memory has so many; and so is the Nth request from here on.
 *   LASTING + N     the same, with each later one.
 *   ASKING          bytes asked for: granted where a request was refused since the last arming, else refused. It disarms.
 *   TOLD=FILE       gets a byte for each request that was refused in its turn, but for the later ones.
 *
 * A program without this library is refused those sizes too, so that it goes on as one to which nothing happens.
 */
#include <errno.h>
#include <fcntl.h>
#include <stdatomic.h>
#include <stddef.h>
#include <stdlib.h>
#include <string.h>
#include <unistd.h>

#define ARMING ((size_t)1 << 62)
#define LASTING (ARMING + ((size_t)1 << 60))
#define ASKING (ARMING + ((size_t)1 << 61))
#define NEVER ((size_t)-1)

void *__libc_malloc(size_t);
void *__libc_calloc(size_t, size_t);
void *__libc_realloc(void *, size_t);

/* How many requests are granted before one is refused, and whether all are refused from then on. */
static atomic_size_t granted = NEVER;
static atomic_int lasts, was_refused;
static int told = -1;

static void arm(size_t number, int is_lasting)
{
    atomic_store(&was_refused, 0);
    atomic_store(&lasts, is_lasting);
    atomic_store(&granted, number - 1);
}

__attribute__((constructor)) static void begins(void)
{
    const char *number = getenv("REFUSED"), *file = getenv("TOLD");
    if (file != NULL) {
        told = open(file, O_WRONLY | O_APPEND | O_CREAT | O_CLOEXEC, 0600);
    }
    if (number != NULL) {
        arm((size_t)strtoul(number, NULL, 10), strstr(number, "..") != NULL);
    }
}

static int is_refused(void)
{
    size_t left = atomic_load(&granted);
    do {
        if (left == NEVER) {
            return 0;
        }
    } while (!atomic_compare_exchange_weak(&granted, &left, left > 0 || !atomic_load(&lasts) ? left - 1 : 0));
    if (left > 0) {
        return 0;
    }
    if (!atomic_exchange(&was_refused, 1) && told >= 0) {
        (void)!write(told, ".", 1);
    }
    errno = ENOMEM;
    return 1;
}

void *malloc(size_t size)
{
    if (size == ASKING) {
        atomic_store(&granted, NEVER);
        return atomic_load(&was_refused) ? __libc_malloc(1) : NULL;
    }
    if (size > ARMING && size < ASKING) {
        arm((size & (LASTING - ARMING)) != 0 ? size - LASTING : size - ARMING, size > LASTING);
        return NULL;
    }
    return is_refused() ? NULL : __libc_malloc(size);
}

void *calloc(size_t count, size_t size)
{
    return is_refused() ? NULL : __libc_calloc(count, size);
}

void *realloc(void *block, size_t size)
{
    return is_refused() ? NULL : __libc_realloc(block, size);
}
