/* What a call is given and the room that it writes, each put where nothing can be read or written behind it. */
#ifndef ROOMS_H
#define ROOMS_H

#include "tally.h"
#include <string.h>

#define ROOM 400

static unsigned char *in_end, *out_end;

/* The bytes, put where nothing can be read behind them. */
static unsigned char *lent(const void *bytes, size_t length)
{
    return length == 0 ? in_end : memcpy(in_end - length, bytes, length);
}

static void open_rooms(void)
{
    in_end = room_end(ROOM);
    out_end = room_end(ROOM);
}

/* The room has just what was wanted at its front, and is else as it was. */
static inline int room_is(const unsigned char *room, size_t length, const void *wanted, size_t wanted_length)
{
    size_t at;
    if (wanted_length > length || memcmp(room, wanted, wanted_length) != 0) {
        return 0;
    }
    for (at = wanted_length; at < length; at++) {
        if (room[at] != 0x5A) {
            return 0;
        }
    }
    return 1;
}

static inline unsigned char *fresh_room(size_t length)
{
    return memset(out_end - length, 0x5A, length);
}

#endif
