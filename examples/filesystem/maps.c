/* SIDs of users and groups: as Samba writes them, S-1-22-1-UID and S-1-22-2-GID, or as a file of maps says. */
#include "hudarinfs.h"

#include <errno.h>
#include <inttypes.h>
#include <stdio.h>
#include <stdlib.h>
#include <string.h>

struct map {
    bool is_user;
    uint32_t id;
    struct sid sid;
};

static struct map *maps;
static size_t map_count;

bool sid_equal(const struct sid *a, const struct sid *b)
{
    return a->length == b->length && memcmp(a->bytes, b->bytes, a->length) == 0;
}

int sid_read(const char *text, struct sid *sid)
{
    hudarin_written answer = hudarin_sid_text_to_bytes(text, strlen(text), sid->bytes, sizeof sid->bytes);
    sid->length = (size_t)answer.length;
    return answer.status == HUDARIN_OK ? 0 : error_of(answer.status, answer.fault);
}

int sid_text(const struct sid *sid, char room[HUDARIN_SID_TEXT_BYTES + 1])
{
    hudarin_written answer = hudarin_sid_bytes_to_text(sid->bytes, sid->length, room, HUDARIN_SID_TEXT_BYTES);
    if (answer.status != HUDARIN_OK) {
        return error_of(answer.status, answer.fault);
    }
    room[answer.length] = '\0';
    return 0;
}

/* S-1-22-KIND-ID: revision, two sub-authorities, the authority in six bytes, and the two from their least byte up. */
static struct sid unix_sid(unsigned char kind, uint32_t id)
{
    struct sid sid = { 16, { 1, 2, 0, 0, 0, 0, 0, 22, kind } };
    for (int byte = 0; byte < 4; byte++) {
        sid.bytes[12 + byte] = (unsigned char)(id >> (8 * byte));
    }
    return sid;
}

static struct sid sid_of(bool is_user, uint32_t id)
{
    for (size_t place = 0; place < map_count; place++) {
        if (maps[place].is_user == is_user && maps[place].id == id) {
            return maps[place].sid;
        }
    }
    return unix_sid(is_user ? 1 : 2, id);
}

struct sid sid_of_uid(uid_t uid)
{
    return sid_of(true, uid);
}

struct sid sid_of_gid(gid_t gid)
{
    return sid_of(false, gid);
}

static uint32_t id_of_sid(bool is_user, const struct sid *sid, uint32_t nobody)
{
    for (size_t place = 0; place < map_count; place++) {
        if (maps[place].is_user == is_user && sid_equal(&maps[place].sid, sid)) {
            return maps[place].id;
        }
    }
    uint32_t id = 0;
    for (int byte = 0; byte < 4 && sid->length == 16; byte++) {
        id |= (uint32_t)sid->bytes[12 + byte] << (8 * byte);
    }
    struct sid same = unix_sid(is_user ? 1 : 2, id);
    return sid_equal(&same, sid) ? id : nobody;
}

uid_t uid_of_sid(const struct sid *sid, uid_t nobody)
{
    return id_of_sid(true, sid, nobody);
}

gid_t gid_of_sid(const struct sid *sid, gid_t nobody)
{
    return id_of_sid(false, sid, nobody);
}

static int map_line(const char *line)
{
    char kind[4], text[HUDARIN_SID_TEXT_BYTES + 1], end[2];
    struct map map;
    if (sscanf(line, "%3s %" SCNu32 " %183s %1s", kind, &map.id, text, end) != 3) {
        return -EINVAL;
    }
    map.is_user = strcmp(kind, "uid") == 0;
    if ((!map.is_user && strcmp(kind, "gid") != 0) || sid_read(text, &map.sid) < 0) {
        return -EINVAL;
    }
    struct map *more = realloc(maps, (map_count + 1) * sizeof *maps);
    if (more == NULL) {
        return -ENOMEM;
    }
    maps = more;
    maps[map_count++] = map;
    return 0;
}

int maps_read(const char *path)
{
    char line[512];
    int result = 0;
    unsigned long number = 0;
    FILE *file = fopen(path, "re");
    if (file == NULL) {
        return -errno;
    }
    while (result == 0 && fgets(line, sizeof line, file) != NULL) {
        number++;
        if (line[0] != '#' && line[0] != '\n') {
            result = map_line(line);
        }
    }
    if (result == 0 && ferror(file)) {
        result = -EIO;
    }
    if (result < 0) {
        say("%s, line %lu: no map", path, number);
    }
    (void)fclose(file);
    return result;
}
