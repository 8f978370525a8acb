/* Checks. An operation takes the caller's token and a share of the newest view, and asks all of that one. */
#include "hudarinfs.h"

#include <errno.h>
#include <string.h>

#ifdef UNCHECKED
/* The same file system without checks, for what they cost alone. */
#define IS_CHECKED false
#else
#define IS_CHECKED true
#endif

static _Thread_local char made[PATH_ROOM];

int made_by(const char *path, int result)
{
    if (result >= 0 && strlen(path) < sizeof made) {
        memcpy(made, path, strlen(path) + 1);
    }
    return result;
}

bool made_is(const char *path)
{
    bool is_made = strcmp(made, path) == 0;
    made[0] = '\0';
    return is_made;
}

int asking_begin(struct asking *asking)
{
    *asking = (struct asking){ HUDARIN_NOTHING, NULL };
    if (!IS_CHECKED) {
        return 0;
    }
    int called = who_calls(&asking->who);
    return called < 0 ? called : view_share(&asking->view);
}

void asking_end(struct asking *asking)
{
    hudarin_free(&asking->view.kept);
}

static hudarin_view_verdict verdict(struct asking *asking, const char *path, uint32_t mask)
{
    return hudarin_view_check(&asking->view, path, strlen(path), who_token(asking->who), mask);
}

/* asks, and no line. */
static int asks_quietly(struct asking *asking, const char *path, uint32_t mask)
{
    if (!IS_CHECKED) {
        return 0;
    }
    hudarin_view_verdict answer = verdict(asking, path, mask);
    if (hudarin_is_granted(answer.answer)) {
        return 0;
    }
    if (answer.answer.status == HUDARIN_OK) {
        return -EACCES;
    }
    return error_of(answer.answer.status, answer.answer.fault);
}

int asks_node(struct asking *asking, const char *path)
{
    if (!IS_CHECKED) {
        return 0;
    }
    hudarin_view_verdict answer = verdict(asking, path, HUDARIN_FILE_READ_ATTRIBUTES);
    return answer.answer.status == HUDARIN_OK ? 0 : error_of(answer.answer.status, answer.answer.fault);
}

static int said(int asked, const char *path, uint32_t mask)
{
    if (asked == -EACCES) {
        say("denied 0x%x of %s", (unsigned int)mask, path);
    }
    return asked;
}

int asks(struct asking *asking, const char *path, uint32_t mask)
{
    return said(asks_quietly(asking, path, mask), path, mask);
}

bool asks_all(struct asking *asking, const char *path, uint32_t mask)
{
    static _Thread_local char below[PATH_ROOM];
    int asked = asks_quietly(asking, path, mask);
    if (!IS_CHECKED) {
        return true;
    }
    if (hudarin_view_own(&asking->view, path, strlen(path), NULL, 0).kind != HUDARIN_CONTAINER) {
        return asked == 0;
    }
    for (uint64_t place = 0; asked == 0; place++) {
        hudarin_node node = hudarin_view_node(&asking->view, place, below, sizeof below - 1);
        if (node.written.status == HUDARIN_NO_NODE) {
            return true;
        }
        if (node.written.status != HUDARIN_OK) {
            return false;
        }
        below[node.written.length] = '\0';
        asked = is_below(below, path) ? asks_quietly(asking, below, mask) : 0;
    }
    return false;
}

/* Where the node denies the mask its parent is asked: of one view, so that no change comes between. */
static int asks_either(struct asking *asking, const char *path, uint32_t mask, uint32_t parents)
{
    char parent[PATH_ROOM];
    int asked = asks_quietly(asking, path, mask);
    if (asked == -EACCES && path[1] != '\0') {
        (void)path_split(path, parent);
        asked = asks_quietly(asking, parent, parents);
    }
    return asked;
}

int asks_seen(struct asking *asking, const char *path, bool is_folder)
{
    int asked = asks_either(asking, path, HUDARIN_FILE_READ_ATTRIBUTES, HUDARIN_FILE_READ_DATA);
    asked = asked == -EACCES && is_folder ? asks_quietly(asking, path, HUDARIN_FILE_EXECUTE) : asked;
    return said(asked, path, HUDARIN_FILE_READ_ATTRIBUTES);
}

int asks_delete(struct asking *asking, const char *path)
{
    return said(asks_either(asking, path, HUDARIN_DELETE, HUDARIN_FILE_DELETE_CHILD), path, HUDARIN_DELETE);
}

int asks_once(const char *path, uint32_t mask)
{
    struct asking asking;
    int asked = asking_begin(&asking);
    asked = asked < 0 ? asked : asks(&asking, path, mask);
    asking_end(&asking);
    return asked;
}

int descriptor_of(struct asking *asking, const char *path, const unsigned char **bytes)
{
    static _Thread_local unsigned char room[HUDARIN_DESCRIPTOR_BYTES];
    hudarin_written answer = hudarin_view_descriptor(&asking->view, path, strlen(path), room, sizeof room);
    *bytes = room;
    return answer.status == HUDARIN_OK ? (int)answer.length : error_of(answer.status, answer.fault);
}

struct sid sid_at(const unsigned char *bytes, size_t length, size_t place)
{
    struct sid sid = { 0, { 0 } };
    size_t begin = (size_t)bytes[place] | (size_t)bytes[place + 1] << 8 | (size_t)bytes[place + 2] << 16;
    if (begin + 8 <= length) {
        size_t wanted = 8 + 4 * (size_t)bytes[begin + 1];
        if (wanted <= sizeof sid.bytes && begin + wanted <= length) {
            sid.length = wanted;
            memcpy(sid.bytes, bytes + begin, wanted);
        }
    }
    return sid;
}

int owners_of(struct asking *asking, const char *path, struct stat *found)
{
    const unsigned char *bytes;
    if (!IS_CHECKED) {
        return 0;
    }
    int length = descriptor_of(asking, path, &bytes);
    if (length < 20) {
        return length < 0 ? length : -EIO;
    }
    struct sid owner = sid_at(bytes, (size_t)length, 4), group = sid_at(bytes, (size_t)length, 8);
    found->st_uid = uid_of_sid(&owner, 65534);
    found->st_gid = gid_of_sid(&group, 65534);
    return 0;
}
