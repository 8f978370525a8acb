/*
 * What changes the tree. One writer at a time checks and makes the edit in the store; then the keeper keeps it, changes
 * FOLDER, and shows the new view. Whatever goes wrong before that, all is as it was.
 */
#include "hudarinfs.h"

#include <errno.h>
#include <pthread.h>
#include <stdio.h>
#include <stdlib.h>
#include <string.h>
#include <unistd.h>

#define RENAME_KEEPS_TARGET 1u /* RENAME_NOREPLACE of renameat2(2) */

/*
 * What an edit of a user other than root may make of a descriptor, with what it inherits. A DACL may have 65,535 bytes,
 * so an administrator's entry above has at least 16,000 left at each node.
 */
#define MOST_DESCRIPTOR_BYTES 49152

static pthread_mutex_t writer = PTHREAD_MUTEX_INITIALIZER;
static uint64_t longest_journal;
static const struct keeper *keeper;

/* Each node that is shown counts for its owner. */
static int count_all(void)
{
    struct told told;
    int result = 0;
    for (uint64_t place = 0; result == 0; place++) {
        result = node_told(store_shown(), place, &told);
        if (result == 0) {
            struct sid owner = sid_at(told.own, told.length, 4);
            result = nodes_count(&owner, 1);
        }
    }
    return result == -ENOENT ? 0 : result; /* (there is no node after the last) */
}

int edits_open(uint64_t journal_limit, const struct keeper *kept_by)
{
    longest_journal = journal_limit;
    keeper = kept_by;
    return count_all();
}

/* edit_end follows, whatever the answer. A journal that has grown long begins anew. */
static int edit_begin(struct asking *asking)
{
    (void)pthread_mutex_lock(&writer);
    step();
    if (store_length() >= longest_journal) {
        store_renew();
    }
    return asking_begin(asking);
}

static void edit_end(struct asking *asking)
{
    step();
    asking_end(asking);
    (void)pthread_mutex_unlock(&writer);
}

/* store_ready, and whether the descriptors of the node and of those below leave room, where the caller isn't root. */
static int make_ready(const struct asking *asking, const char *path, bool is_new)
{
    char longest[PATH_ROOM];
    int result = store_ready();
    if (result < 0 || who_is_root(asking->who)) {
        return result;
    }
    int length = store_longest(store_next(), path, is_new, longest);
    if (length > MOST_DESCRIPTOR_BYTES) {
        say("the descriptor of %s would have %d bytes, with what it inherits; %d is the most for a user", longest,
            length, MOST_DESCRIPTOR_BYTES);
        return -E2BIG;
    }
    return length < 0 ? length : 0;
}

/* ---- A new node */

/* The edit that adds a node of the caller's, with no entries of its own. */
static int add_new(struct asking *asking, const char *path, bool is_folder)
{
    char owner[HUDARIN_SID_TEXT_BYTES + 1], group[HUDARIN_SID_TEXT_BYTES + 1], dacl[] = "D:";
    struct parts parts = { owner, group, dacl };
    struct sid user = asking->who == NULL ? sid_of_uid(0) : *who_user(asking->who);
    struct sid users_group = asking->who == NULL ? sid_of_gid(0) : who_group(asking->who);
    int result = sid_text(&user, owner);
    result = result < 0 ? result : sid_text(&users_group, group);
    return result < 0 ? result : store_add(path, is_folder, &parts);
}

static int create_below(struct asking *asking, const char *path, bool is_folder, int flags)
{
    char above[PATH_ROOM];
    struct stat found;
    struct sid user = asking->who == NULL ? sid_of_uid(0) : *who_user(asking->who);
    (void)path_split(path, above);
    int result = asks(asking, above, mask_of_adding(is_folder));
    result = result < 0 ? result : nodes_may(&user, who_is_root(asking->who), true);
    if (result < 0) {
        return result;
    }
    int there = folder_stat(path, &found);
    if (there != -ENOENT) {
        return there == 0 ? -EEXIST : there;
    }
    result = add_new(asking, path, is_folder);
    result = result < 0 ? result : make_ready(asking, path, true);
    result = result < 0 ? result : keeper->make(path, is_folder, flags);
    if (result < 0) {
        store_undo();
    } else {
        (void)nodes_count(&user, 1);
    }
    return result;
}

int edit_create(const char *path, bool is_folder, int flags)
{
    struct asking asking;
    int result = edit_begin(&asking);
    result = result < 0 ? result : create_below(&asking, path, is_folder, flags);
    if (result >= 0) {
        int synced = folder_sync(path);
        if (synced < 0 && !is_folder) {
            (void)close(result);
        }
        result = synced < 0 ? synced : result;
    }
    edit_end(&asking);
    return result;
}

/* ---- A node goes */

static int remove_node(const char *path, bool is_folder)
{
    struct sid owner;
    int result = store_owner(path, &owner);
    result = result < 0 ? result : store_edit(HUDARIN_EDIT_REMOVE, path, NULL, 0);
    result = result < 0 ? result : store_ready();
    result = result < 0 ? result : keeper->drop(path, is_folder);
    if (result < 0) {
        store_undo();
        return result;
    }
    (void)nodes_count(&owner, -1);
    return folder_sync(path);
}

int edit_remove(const char *path, bool is_folder)
{
    struct asking asking;
    int result = edit_begin(&asking);
    result = result < 0 ? result : asks_delete(&asking, path);
    if (result == 0) {
        int found = store_is_folder(path);
        if (found < 0) {
            result = found;
        } else if (found != is_folder) {
            result = is_folder ? -ENOTDIR : -EISDIR;
        } else {
            result = remove_node(path, is_folder);
        }
    }
    edit_end(&asking);
    return result;
}

/* ---- A node moves */

/* Whether the node stays in its folder, and so inherits what it did. */
static bool is_within(const char *from, const char *to)
{
    char above[PATH_ROOM], new_above[PATH_ROOM];
    (void)path_split(from, above);
    (void)path_split(to, new_above);
    return strcmp(above, new_above) == 0;
}

/*
 * The edits: what is at the target goes, and the node moves there. What inherits at another place has another DACL
 * there. Only who may write each of these DACLs changes them so; for anybody else the node first keeps, as its own
 * entries, what it has inherited. If one of these edits is refused none is made.
 */
static int rename_nodes(struct asking *asking, const char *from, const char *to, bool is_there)
{
    struct sid owner;
    bool keeps = !is_within(from, to) && !asks_all(asking, from, HUDARIN_WRITE_DAC);
    int result = is_there ? store_owner(to, &owner) : 0;
    result = result < 0 || !keeps ? result : store_edit(HUDARIN_EDIT_PROTECT_KEEPING, from, NULL, 0);
    result = result < 0 || !is_there ? result : store_edit(HUDARIN_EDIT_REMOVE, to, NULL, 0);
    result = result < 0 ? result : store_edit(HUDARIN_EDIT_MOVE, from, to, strlen(to));
    result = result < 0 ? result : make_ready(asking, to, false);
    result = result < 0 ? result : keeper->move(from, to, keeps);
    if (result < 0) {
        store_undo();
    } else if (is_there) {
        (void)nodes_count(&owner, -1);
    }
    return result;
}

/* Whether a node may take the place of another. */
static int fits(bool is_folder, bool replaces_folder, unsigned int flags)
{
    if ((flags & RENAME_KEEPS_TARGET) != 0) {
        return -EEXIST;
    }
    if (is_folder != replaces_folder) {
        return is_folder ? -ENOTDIR : -EISDIR;
    }
    return 0;
}

/* Nothing stands at the target, neither in the store nor in FOLDER. */
static int is_free(const char *to)
{
    struct stat found;
    int there = folder_stat(to, &found);
    return there == -ENOENT ? 0 : there == 0 ? -EEXIST : there;
}

static int rename_checked(struct asking *asking, const char *from, const char *to, unsigned int flags)
{
    char above[PATH_ROOM];
    (void)path_split(to, above);
    int moved = store_is_folder(from), replaced = store_is_folder(to);
    int result = moved < 0 ? moved : asks_delete(asking, from);
    result = result < 0 ? result : asks(asking, above, mask_of_adding(moved));
    result = result < 0 || replaced < 0 ? result : asks_delete(asking, to);
    if (result == 0) {
        result = replaced < 0 ? is_free(to) : fits(moved, replaced, flags);
    }
    return result < 0 ? result : rename_nodes(asking, from, to, replaced >= 0);
}

int edit_rename(const char *from, const char *to, unsigned int flags)
{
    struct asking asking;
    if ((flags & ~RENAME_KEEPS_TARGET) != 0) {
        return -EINVAL;
    }
    int result = edit_begin(&asking);
    result = result < 0 ? result : rename_checked(&asking, from, to, flags);
    result = result < 0 ? result : folder_sync(to);
    result = result < 0 ? result : folder_sync(from);
    edit_end(&asking);
    return result;
}

/* ---- A node's owner, group and own entries */

/* Edits of the store, for the parts that are given. */
static int set_parts(const char *path, const struct parts *parts)
{
    int result = parts->dacl == NULL ? 0 : store_set(HUDARIN_EDIT_SET_DACL, path, parts->dacl);
    result = result < 0 || parts->owner == NULL ? result : store_set(HUDARIN_EDIT_SET_OWNER, path, parts->owner);
    return result < 0 || parts->group == NULL ? result : store_set(HUDARIN_EDIT_SET_GROUP, path, parts->group);
}

/* The parts that are given become the node's. */
static int give_parts(const struct asking *asking, const char *path, const struct parts *parts)
{
    int result = set_parts(path, parts);
    result = result < 0 ? result : make_ready(asking, path, false);
    result = result < 0 ? result : keeper->give(path);
    if (result < 0) {
        store_undo();
    }
    return result;
}

/* An owner that is given has to be the caller, or a group of it: nobody gives away what it has. It needs room for one
 * more node. */
static int may_own(struct asking *asking, const char *owner, const struct sid *old, struct sid *sid)
{
    int read = sid_read(owner, sid);
    if (read < 0) {
        return read;
    }
    if (asking->who != NULL && !who_has(asking->who, sid)) {
        return -EPERM;
    }
    return sid_equal(old, sid) ? 0 : nodes_may(sid, who_is_root(asking->who), false);
}

/* The same, where an owner is given: then the node counts for that one. */
static int give_owned(struct asking *asking, const char *path, const struct parts *parts)
{
    struct sid old, owner;
    if (parts->owner == NULL) {
        return give_parts(asking, path, parts);
    }
    int result = store_owner(path, &old);
    result = result < 0 ? result : may_own(asking, parts->owner, &old, &owner);
    result = result < 0 ? result : give_parts(asking, path, parts);
    if (result >= 0) {
        (void)nodes_count(&old, -1);
        (void)nodes_count(&owner, 1);
    }
    return result;
}

/* The parts that are given, which are freed. */
static int edit_parts(const char *path, struct parts *parts)
{
    struct asking asking;
    uint32_t mask = parts->dacl == NULL ? 0 : HUDARIN_WRITE_DAC;
    mask |= parts->owner == NULL && parts->group == NULL ? 0 : HUDARIN_WRITE_OWNER;
    int result = edit_begin(&asking);
    result = result < 0 ? result : asks(&asking, path, mask);
    result = result < 0 ? result : give_owned(&asking, path, parts);
    edit_end(&asking);
    parts_free(parts);
    return result;
}

int edit_descriptor(const char *path, const char *text)
{
    struct parts parts = { NULL, NULL, NULL };
    if (!parts_split(text, &parts) || (parts.owner == NULL && parts.group == NULL && parts.dacl == NULL)) {
        say("%s: a descriptor without an owner, a group and a DACL", path);
        parts_free(&parts);
        return -EINVAL;
    }
    return edit_parts(path, &parts);
}

static char *text_of_sid(struct sid sid)
{
    char text[HUDARIN_SID_TEXT_BYTES + 1];
    return sid_text(&sid, text) < 0 ? NULL : strdup(text);
}

int edit_owners(const char *path, uid_t uid, gid_t gid)
{
    struct parts parts = { NULL, NULL, NULL };
    parts.owner = uid == (uid_t)-1 ? NULL : text_of_sid(sid_of_uid(uid));
    parts.group = gid == (gid_t)-1 ? NULL : text_of_sid(sid_of_gid(gid));
    if ((uid != (uid_t)-1 && parts.owner == NULL) || (gid != (gid_t)-1 && parts.group == NULL)) {
        parts_free(&parts);
        return -ENOMEM;
    }
    return parts.owner == NULL && parts.group == NULL ? 0 : edit_parts(path, &parts);
}
