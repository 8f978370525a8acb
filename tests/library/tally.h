/* What the tests of this folder share: a count of what holds, and room that ends where a page that nobody may touch begins. */
#ifndef TALLY_H
#define TALLY_H

#define _DEFAULT_SOURCE
#include <hudarin.h>

#include <inttypes.h>
#include <stdio.h>
#include <stdlib.h>
#include <string.h>
#include <sys/mman.h>
#include <unistd.h>

static unsigned long passed, failed;

/* Counts a test; one that fails is told by its line. */
#define HOLDS(test)                                                      \
    do {                                                                 \
        if (test) {                                                      \
            passed++;                                                    \
        } else if (failed++ < 20) {                                      \
            printf("%s:%d: not so: %s\n", __FILE__, __LINE__, #test);    \
        }                                                                \
    } while (0)

static inline int close_tally(void)
{
    printf("%lu passed, %lu failed\n", passed, failed);
    return failed > 0 || passed == 0;
}

/* The end of room for so many bytes: the byte there, and those behind it, can't be read or written. */
static inline unsigned char *room_end(size_t bytes)
{
    size_t page = (size_t)sysconf(_SC_PAGESIZE);
    size_t whole = (bytes + page - 1) / page * page;
    unsigned char *room = mmap(NULL, whole + page, PROT_READ | PROT_WRITE, MAP_PRIVATE | MAP_ANONYMOUS, -1, 0);
    if (room == MAP_FAILED || mprotect(room + whole, page, PROT_NONE) != 0) {
        perror("room");
        exit(1);
    }
    return room + whole;
}

#endif
