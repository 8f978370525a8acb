/* Edits as rows of texts, and whether two views show the same. */
#ifndef EDITS_H
#define EDITS_H

#include "tally.h"

static const hudarin_mapping files = HUDARIN_FILE_MAPPING;

#define USER "S-1-5-21-1-2-3-1001"
#define ROOT "O:SYG:SYD:(A;OICI;FR;;;" USER ")"
#define NODE "O:BAG:SYD:"

/* An edit, what it brings as an SDDL text, a SID's or a path's by its number, and the answer. */
typedef struct row {
    uint32_t edit;
    const char *path;
    const char *value;
    uint32_t status, argument, fault;
    uint64_t place;
} row;

#define DONE HUDARIN_OK, 0, 0, 0

/* A value's bytes, by the edit that it is for. */
static size_t value_of(const row *row, unsigned char *bytes, size_t room)
{
    size_t length = strlen(row->value);
    if (length > 0 && (row->edit <= HUDARIN_EDIT_ADD_OBJECT || row->edit == HUDARIN_EDIT_SET_DACL) && row->edit != 0) {
        return (size_t)hudarin_sddl_to_bytes(row->value, length, bytes, room).length;
    }
    if (length > 0 && (row->edit == HUDARIN_EDIT_SET_OWNER || row->edit == HUDARIN_EDIT_SET_GROUP)) {
        return (size_t)hudarin_sid_text_to_bytes(row->value, length, bytes, room).length;
    }
    memcpy(bytes, row->value, length);
    return length;
}

static hudarin_verdict made(hudarin_store *store, const row *row)
{
    unsigned char value[300];
    size_t length = value_of(row, value, sizeof value);
    return hudarin_store_edit(store, row->edit, row->path, strlen(row->path), value, length);
}

/* A node that keeps what it had inherited elsewhere, each descriptor in SDDL, and the answer. */
typedef struct kept_row {
    uint32_t kind;
    const char *path, *own, *kept, *offer;
    uint32_t status, argument, fault;
    uint64_t place;
} kept_row;

/* The bytes of its descriptors. */
typedef struct kept_bytes {
    unsigned char bytes[3][200];
    size_t lengths[3];
} kept_bytes;

static inline kept_bytes bytes_of(const kept_row *row)
{
    const char *const texts[3] = { row->own, row->kept, row->offer };
    kept_bytes all;
    size_t at;
    for (at = 0; at < 3; at++) {
        all.lengths[at] = (size_t)hudarin_sddl_to_bytes(texts[at], strlen(texts[at]), all.bytes[at], sizeof all.bytes[at]).length;
    }
    return all;
}

/* Adds the node of these bytes, or judges it. */
static inline hudarin_verdict stored_of(hudarin_store *store, const kept_row *row, const kept_bytes *all, int is_judged)
{
    return (is_judged ? hudarin_store_judge_stored : hudarin_store_add_stored)(
        store, row->kind, row->path, strlen(row->path), all->bytes[0], all->lengths[0], all->bytes[1], all->lengths[1],
        all->bytes[2], all->lengths[2]);
}

static inline hudarin_verdict stored(hudarin_store *store, const kept_row *row, int is_judged)
{
    kept_bytes all = bytes_of(row);
    return stored_of(store, row, &all, is_judged);
}

/* The texts of what the node at a place keeps, with a newline between them; nothing if it keeps nothing. */
static inline size_t kept_text(hudarin_view *view, uint64_t place, char *text, size_t room)
{
    uint32_t part;
    size_t length = 0;
    for (part = HUDARIN_STORED_KEPT; part <= HUDARIN_STORED_OFFER; part++) {
        unsigned char bytes[200];
        hudarin_written form = hudarin_view_stored(view, place, part, bytes, sizeof bytes);
        if (form.status != HUDARIN_OK) {
            HOLDS(form.status == HUDARIN_NO_PART && form.length == 0 && form.fault == 0 && length == 0);
            return 0;
        }
        if (length > 0) {
            text[length++] = '\n';
        }
        length += (size_t)hudarin_bytes_to_sddl(bytes, (size_t)form.length, text + length, room - length).length;
    }
    return length;
}

static inline hudarin_verdict opened(hudarin_store *store, const char *sddl)
{
    unsigned char root[200];
    size_t length = (size_t)hudarin_sddl_to_bytes(sddl, strlen(sddl), root, sizeof root).length;
    return hudarin_store_open(root, length, files, store);
}

static int is_made(hudarin_verdict answer)
{
    return answer.status == HUDARIN_OK && answer.argument == 0 && answer.fault == 0 && answer.kind == 0 && answer.mask == 0;
}

/* Whether both views show the same text at each of these paths, and are of the same length. */
static inline int alike(hudarin_view *one, hudarin_view *other)
{
    static const char *const paths[] = { "/", "/a", "/a/o", "/b", "/b/c", "/b/c/o", "/b/o", "/b/q" };
    size_t at;
    int is_so = hudarin_journal_length(&one->kept).length == hudarin_journal_length(&other->kept).length;
    for (at = 0; at < sizeof paths / sizeof paths[0]; at++) {
        unsigned char first[300] = { 0 }, second[300] = { 0 };
        hudarin_written a = hudarin_view_descriptor(one, paths[at], strlen(paths[at]), first, sizeof first);
        hudarin_written b = hudarin_view_descriptor(other, paths[at], strlen(paths[at]), second, sizeof second);
        is_so = is_so && a.status == b.status && a.length == b.length && memcmp(first, second, sizeof first) == 0;
    }
    return is_so;
}

#endif
