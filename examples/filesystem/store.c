/* The library's store, and the view of it that checks ask. All but view_share is for the one writer. */
#include "hudarinfs.h"

#include <errno.h>
#include <pthread.h>
#include <stdio.h>
#include <stdlib.h>
#include <string.h>

static const hudarin_mapping files = HUDARIN_FILE_MAPPING;

static hudarin_store store = HUDARIN_NOTHING;
/* The view that is published next and the one that was last, each with a share that is offered to the checks. */
static hudarin_view next = HUDARIN_NOTHING;
static hudarin_view next_offered = HUDARIN_NOTHING;
static hudarin_view shown = HUDARIN_NOTHING;
static hudarin_view shown_offered = HUDARIN_NOTHING; /* under the lock */
static pthread_mutex_t view_lock = PTHREAD_MUTEX_INITIALIZER;
/* Whether an edit could neither be made nor undone: then no more are. */
static bool is_closed;

const char *status_name(uint32_t status)
{
    static const char *const names[] = {
        "no fault", "memory ran out", "the room is too small", "not UTF-8", "text fault", "wire fault", "SID fault",
        "bytes behind the groups", "state", "privileges", "mapping", "handle", "edit", "path fault",
        "an owner or a group is missing", "refusal", "no node", "domain",
    };
    return status < sizeof names / sizeof names[0] ? names[status] : "unknown status";
}

static int error_of_refusal(uint32_t refusal)
{
    static const int errors[] = {
        EIO, ENOENT, ENOTDIR, EEXIST, ENOENT, ENOTEMPTY, EBUSY, EINVAL, EINVAL, E2BIG, ENAMETOOLONG, ENOSPC, EDQUOT,
        EINVAL,
    };
    return refusal < sizeof errors / sizeof errors[0] ? -errors[refusal] : -EIO;
}

int error_of(uint32_t status, uint32_t fault)
{
    switch (status) {
    case HUDARIN_MEMORY:
        return -ENOMEM;
    case HUDARIN_UTF8:
        return -EILSEQ;
    case HUDARIN_TEXT:
    case HUDARIN_WIRE:
    case HUDARIN_SID:
    case HUDARIN_PARTS:
        return -EINVAL;
    case HUDARIN_PATH:
        return fault == HUDARIN_PATH_SYNTAX ? -EINVAL : -ENAMETOOLONG;
    case HUDARIN_REFUSED:
        return error_of_refusal(fault);
    case HUDARIN_NO_NODE:
        return -ENOENT;
    default:
        return -EIO;
    }
}

/* The text that a call writes, where the call is first asked for its length, which may be 0. */
static int text_of(hudarin_written (*write)(const void *, size_t, char *, size_t), const void *given, size_t length,
                   char **text)
{
    hudarin_written answer = write(given, length, NULL, 0);
    *text = NULL;
    if (answer.status == HUDARIN_ROOM || answer.status == HUDARIN_OK) {
        *text = malloc((size_t)answer.length + 1);
        if (*text == NULL) {
            return -ENOMEM;
        }
        answer = write(given, length, *text, (size_t)answer.length);
    }
    if (answer.status != HUDARIN_OK) {
        say("a descriptor isn't read: %s %u at byte %llu", status_name(answer.status), answer.fault,
            (unsigned long long)answer.place);
        free(*text);
        *text = NULL;
        return error_of(answer.status, answer.fault);
    }
    (*text)[answer.length] = '\0';
    return 0;
}

int text_of_bytes(const void *bytes, size_t length, char **text)
{
    return text_of(hudarin_bytes_to_sddl, bytes, length, text);
}

static hudarin_written canonical(const void *given, size_t length, char *room, size_t room_length)
{
    return hudarin_sddl_canonical(given, length, room, room_length);
}

int text_of_text(const char *given, size_t length, char **text)
{
    return text_of(canonical, given, length, text);
}

static unsigned char bytes[HUDARIN_DESCRIPTOR_BYTES]; /* the writer's */

static int bytes_of(const char *text, size_t *length)
{
    hudarin_written answer = hudarin_sddl_to_bytes(text, strlen(text), bytes, sizeof bytes);
    *length = (size_t)answer.length;
    return answer.status == HUDARIN_OK ? 0 : error_of(answer.status, answer.fault);
}

int store_edit(uint32_t edit, const char *path, const void *value, size_t length)
{
    if (is_closed) {
        return -EIO;
    }
    hudarin_verdict answer = hudarin_store_edit(&store, edit, path, strlen(path), value, length);
    if (answer.status != HUDARIN_OK) {
        say("edit %u of %s isn't made: %s %u", edit, path, status_name(answer.status), answer.fault);
        if (answer.status == HUDARIN_REFUSED && answer.fault == HUDARIN_REFUSED_ACL_TOO_LARGE) {
            store_name_longest(&shown, path);
        }
        return error_of(answer.status, answer.fault);
    }
    return 0;
}

int store_set(uint32_t edit, const char *path, const char *text)
{
    size_t length = 0;
    struct sid sid;
    if (edit == HUDARIN_EDIT_SET_DACL) {
        int read = bytes_of(text, &length);
        return read < 0 ? read : store_edit(edit, path, bytes, length);
    }
    int read = sid_read(text, &sid);
    return read < 0 ? read : store_edit(edit, path, sid.bytes, sid.length);
}

/* The bytes of the descriptor of these parts. */
static int bytes_of_parts(const struct parts *parts, size_t *length)
{
    char *text = parts_text(parts);
    if (text == NULL) {
        return -ENOMEM;
    }
    int read = bytes_of(text, length);
    free(text);
    return read;
}

static uint32_t adding(bool is_folder)
{
    return is_folder ? HUDARIN_EDIT_ADD_CONTAINER : HUDARIN_EDIT_ADD_OBJECT;
}

int store_add(const char *path, bool is_folder, const struct parts *parts)
{
    size_t length = 0;
    int read = bytes_of_parts(parts, &length);
    return read < 0 ? read : store_edit(adding(is_folder), path, bytes, length);
}

/* A view of a store, and its share for the checks: those of the last call that nobody was shown are freed. */
static int publish(hudarin_store *published)
{
    hudarin_free(&next.kept);
    hudarin_free(&next_offered.kept);
    hudarin_written answer = hudarin_store_publish(published, &next);
    if (answer.status == HUDARIN_OK) {
        answer = hudarin_view_share(&next, &next_offered);
    }
    return answer.status == HUDARIN_OK ? 0 : error_of(answer.status, answer.fault);
}

int store_ready(void)
{
    return publish(&store);
}

void store_show(void)
{
    (void)pthread_mutex_lock(&view_lock);
    hudarin_view old = shown_offered;
    shown_offered = next_offered;
    (void)pthread_mutex_unlock(&view_lock);
    hudarin_free(&old.kept);
    hudarin_free(&shown.kept);
    shown = next;
    next = (hudarin_view)HUDARIN_NOTHING;
    next_offered = (hudarin_view)HUDARIN_NOTHING;
}

int view_share(hudarin_view *view)
{
    if (pthread_mutex_lock(&view_lock) != 0) {
        return -EIO;
    }
    hudarin_written answer = hudarin_view_share(&shown_offered, view);
    (void)pthread_mutex_unlock(&view_lock);
    return answer.status == HUDARIN_OK ? 0 : error_of(answer.status, answer.fault);
}

uint64_t store_length(void)
{
    return hudarin_journal_length(&store.kept).length;
}

/* ---- Its nodes */

hudarin_view *store_next(void)
{
    return &next;
}

hudarin_view *store_shown(void)
{
    return &shown;
}

int store_is_folder(const char *path)
{
    hudarin_node node = hudarin_view_own(&shown, path, strlen(path), NULL, 0);
    return node.kind != 0 ? node.kind == HUDARIN_CONTAINER : error_of(node.written.status, node.written.fault);
}

int own_told(hudarin_view *view, struct told *told)
{
    hudarin_node node = hudarin_view_own(view, told->path, strlen(told->path), bytes, sizeof bytes);
    told->is_folder = node.kind == HUDARIN_CONTAINER;
    told->own = bytes;
    told->length = (size_t)node.written.length;
    return node.written.status == HUDARIN_OK ? 0 : error_of(node.written.status, node.written.fault);
}

int node_told(hudarin_view *view, uint64_t place, struct told *told)
{
    hudarin_node node = hudarin_view_node(view, place, told->path, sizeof told->path - 1);
    if (node.written.status != HUDARIN_OK) {
        return error_of(node.written.status, node.written.fault);
    }
    told->path[node.written.length] = '\0';
    return own_told(view, told);
}

int store_owner(const char *path, struct sid *owner)
{
    struct told told;
    size_t length = strlen(path);
    if (length >= sizeof told.path) {
        return -ENAMETOOLONG;
    }
    memcpy(told.path, path, length + 1);
    int result = own_told(&shown, &told);
    *owner = result < 0 ? (struct sid){ 0, { 0 } } : sid_at(told.own, told.length, 4);
    return result;
}

bool is_below(const char *path, const char *top)
{
    size_t length = top[1] == '\0' ? 0 : strlen(top);
    return strncmp(path, top, length) == 0 && (path[length] == '\0' || path[length] == '/');
}

/* How many bytes the node's descriptor has, with what it inherits. */
static int length_of(hudarin_view *view, const char *path)
{
    hudarin_written answer = hudarin_view_descriptor(view, path, strlen(path), NULL, 0);
    return answer.status == HUDARIN_ROOM ? (int)answer.length : error_of(answer.status, answer.fault);
}

int store_longest(hudarin_view *view, const char *top, bool is_new, char longest[PATH_ROOM])
{
    char path[PATH_ROOM];
    int most = length_of(view, top);
    (void)snprintf(longest, PATH_ROOM, "%s", top);
    if (is_new || hudarin_view_own(view, top, strlen(top), NULL, 0).kind != HUDARIN_CONTAINER) {
        return most;
    }
    for (uint64_t place = 0; most >= 0; place++) {
        hudarin_node node = hudarin_view_node(view, place, path, sizeof path - 1);
        if (node.written.status != HUDARIN_OK) {
            return node.written.status == HUDARIN_NO_NODE ? most : error_of(node.written.status, node.written.fault);
        }
        path[node.written.length] = '\0';
        int length = is_below(path, top) ? length_of(view, path) : 0;
        if (length > most) {
            memcpy(longest, path, node.written.length + 1);
        }
        most = length < 0 || length > most ? length : most;
    }
    return most;
}

void store_name_longest(hudarin_view *view, const char *top)
{
    char longest[PATH_ROOM];
    int length = store_longest(view, top, false, longest);
    if (length >= 0) {
        say("the longest descriptor at %s and below is that of %s: %d bytes, with what it inherits", top, longest,
            length);
    }
}

/* ---- At the start, and anew */

static int open_root(hudarin_store *opened, const void *root, size_t length)
{
    hudarin_verdict answer = hudarin_store_open(root, length, files, opened);
    if (answer.status != HUDARIN_OK) {
        say("the root's descriptor isn't taken: %s %u", status_name(answer.status), answer.fault);
        return error_of(answer.status, answer.fault);
    }
    return 0;
}

/* Adds what stands below the node, each folder before what it holds: no deeper than the tree's paths are. */
static int add_below(struct node *parent, char path[PATH_ROOM], size_t length)
{
    for (size_t place = 0; place < parent->count;) {
        struct node *child = parent->children[place];
        size_t end = length + 1 + strlen(child->name);
        if (end >= PATH_ROOM) {
            return -ENAMETOOLONG;
        }
        path[length] = '/';
        memcpy(path + length + 1, child->name, end - length);
        int added = store_add(path, child->is_folder, &child->given);
        if (added == -EILSEQ || added == -ENAMETOOLONG) {
            say("%s is left out", path);
            node_leave(child);
            node_free(child);
            continue;
        }
        added = added == 0 ? add_below(child, path, end) : added;
        if (added < 0) {
            return added;
        }
        place++;
    }
    return 0;
}

int store_build(struct node *root)
{
    size_t length = 0;
    char *path = malloc(PATH_ROOM);
    if (path == NULL) {
        return -ENOMEM;
    }
    path[0] = '\0';
    int built = bytes_of_parts(&root->given, &length);
    built = built < 0 ? built : open_root(&store, bytes, length);
    built = built < 0 ? built : add_below(root, path, 0);
    free(path);
    built = built < 0 ? built : store_ready();
    if (built == 0) {
        store_show();
    }
    return built;
}

/* The node behind those that the store has already. */
static int add_told(hudarin_store *anew, const struct told *told)
{
    if (anew->kept.is_there == 0) {
        return open_root(anew, told->own, told->length);
    }
    hudarin_verdict answer =
        hudarin_store_edit(anew, adding(told->is_folder), told->path, strlen(told->path), told->own, told->length);
    return answer.status == HUDARIN_OK ? 0 : error_of(answer.status, answer.fault);
}

void store_renew(void)
{
    hudarin_store anew = HUDARIN_NOTHING;
    struct told told;
    int result = 0;
    for (uint64_t place = 0; result == 0; place++) {
        result = node_told(&shown, place, &told);
        result = result < 0 ? result : add_told(&anew, &told);
    }
    /* (behind the last node none is told) */
    if (result == -ENOENT && publish(&anew) == 0) {
        hudarin_store old = store;
        store = anew;
        anew = old;
        store_show();
    }
    hudarin_free(&anew.kept);
}

void store_close(const char *why)
{
    say("%s: nothing is changed any more until the next start", why);
    is_closed = true;
}

void store_undo(void)
{
    if (store_length() == hudarin_journal_length(&shown.kept).length) {
        return;
    }
    if (hudarin_store_revert(&store, &shown).status != HUDARIN_OK) {
        store_close("the edits can't be undone");
    }
}
