/*
 * Stores and views: each refusal by its number, each of which leaves all as it was; handles of other kinds; and each request for
 * memory refused in turn.
 */
#include "edits.h"
#include "refusing.h"

static const unsigned char user[] = { 1, 5, 0, 0, 0, 0, 0, 5, 21, 0, 0, 0, 1, 0, 0, 0, 2, 0, 0, 0, 3, 0, 0, 0, 0xe9, 3, 0, 0 };

/* 256 bytes, of which a name has one too many; a part of 64 and of 129 names. */
#define SIXTEEN(TEXT) TEXT TEXT TEXT TEXT TEXT TEXT TEXT TEXT TEXT TEXT TEXT TEXT TEXT TEXT TEXT TEXT
#define LONG_NAME SIXTEEN(SIXTEEN("n"))

#define REFUSED(WHY) HUDARIN_REFUSED, 0, HUDARIN_REFUSED_##WHY, 0

static const row rows[] = {
    { HUDARIN_EDIT_ADD_CONTAINER, "/a", NODE, DONE },
    { HUDARIN_EDIT_ADD_OBJECT, "/a/o", NODE "(D;;0x2;;;WD)", DONE },
    { HUDARIN_EDIT_ADD_CONTAINER, "/b", NODE, DONE },
    { HUDARIN_EDIT_SET_OWNER, "/a/o", "BA", DONE },
    { HUDARIN_EDIT_SET_GROUP, "/a/o", "BU", DONE },
    { HUDARIN_EDIT_SET_DACL, "/a", "D:(A;OICI;FA;;;SY)", DONE },
    { HUDARIN_EDIT_PROTECT_KEEPING, "/a/o", "", DONE },
    { HUDARIN_EDIT_MOVE, "/a", "/b/c", DONE },
    { HUDARIN_EDIT_REMOVE, "/b/c/o", "", DONE },
    { HUDARIN_EDIT_ADD_OBJECT, "/b/o", NODE, DONE },
    { HUDARIN_EDIT_ADD_OBJECT, "/x/y", NODE, REFUSED(NO_PARENT) },
    { HUDARIN_EDIT_ADD_OBJECT, "/b/o/p", NODE, REFUSED(PARENT_IS_OBJECT) },
    { HUDARIN_EDIT_ADD_CONTAINER, "/b", NODE, REFUSED(EXISTS) },
    { HUDARIN_EDIT_SET_OWNER, "/a", "SY", REFUSED(NO_NODE) },
    { HUDARIN_EDIT_REMOVE, "/b", "", REFUSED(NOT_EMPTY) },
    { HUDARIN_EDIT_MOVE, "/", "/r", REFUSED(IS_ROOT) },
    { HUDARIN_EDIT_MOVE, "/b", "/b/d", REFUSED(INTO_ITSELF) },
    { HUDARIN_EDIT_SET_DACL, "/b", "D:(A;ID;FA;;;SY)", REFUSED(INHERITED_ENTRY) },
    { HUDARIN_EDIT_SET_DACL, "/b", "D:(A;;FA;;;SY)(D;;FA;;;WD)", REFUSED(NOT_CANONICAL) },
    { 0, "/b", "", HUDARIN_EDIT, HUDARIN_ARGUMENT_EDIT, 0, 0 },
    { 9, "/b", "", HUDARIN_EDIT, HUDARIN_ARGUMENT_EDIT, 0, 0 },
    { UINT32_MAX, "/b", "", HUDARIN_EDIT, HUDARIN_ARGUMENT_EDIT, 0, 0 },
    { HUDARIN_EDIT_REMOVE, "/b/o", "x", HUDARIN_EDIT, HUDARIN_ARGUMENT_EDIT, 0, 0 },
    { HUDARIN_EDIT_PROTECT_KEEPING, "/b/o", "x", HUDARIN_EDIT, HUDARIN_ARGUMENT_EDIT, 0, 0 },
    { HUDARIN_EDIT_REMOVE, "", "", HUDARIN_PATH, HUDARIN_ARGUMENT_PATH, HUDARIN_PATH_SYNTAX, 0 },
    { HUDARIN_EDIT_REMOVE, "b", "", HUDARIN_PATH, HUDARIN_ARGUMENT_PATH, HUDARIN_PATH_SYNTAX, 0 },
    { 9, "b", "x", HUDARIN_PATH, HUDARIN_ARGUMENT_PATH, HUDARIN_PATH_SYNTAX, 0 },
    { HUDARIN_EDIT_ADD_OBJECT, "b", "", HUDARIN_PATH, HUDARIN_ARGUMENT_PATH, HUDARIN_PATH_SYNTAX, 0 },
    { HUDARIN_EDIT_REMOVE, "/b/", "", HUDARIN_PATH, HUDARIN_ARGUMENT_PATH, HUDARIN_PATH_SYNTAX, 0 },
    { HUDARIN_EDIT_REMOVE, "/" LONG_NAME, "", HUDARIN_PATH, HUDARIN_ARGUMENT_PATH, HUDARIN_PATH_NAME_TOO_LONG, 0 },
    { HUDARIN_EDIT_REMOVE, SIXTEEN("/n/n/n/n/n/n/n/n") "/n", "", HUDARIN_PATH, HUDARIN_ARGUMENT_PATH, HUDARIN_PATH_TOO_MANY_NAMES, 0 },
    { HUDARIN_EDIT_REMOVE, "/b\xff", "", HUDARIN_UTF8, HUDARIN_ARGUMENT_PATH, 0, 2 },
    { HUDARIN_EDIT_MOVE, "/b", "c", HUDARIN_PATH, HUDARIN_ARGUMENT_VALUE, HUDARIN_PATH_SYNTAX, 0 },
    { HUDARIN_EDIT_MOVE, "/b", "\xff", HUDARIN_UTF8, HUDARIN_ARGUMENT_VALUE, 0, 0 },
    { HUDARIN_EDIT_ADD_OBJECT, "/b/q", "", HUDARIN_WIRE, HUDARIN_ARGUMENT_VALUE, HUDARIN_WIRE_SHORT, 0 },
    { HUDARIN_EDIT_ADD_OBJECT, "/b/q", "O:SYD:", HUDARIN_PARTS, HUDARIN_ARGUMENT_VALUE, 0, 0 },
    { HUDARIN_EDIT_ADD_OBJECT, "/b/q", "G:SYD:", HUDARIN_PARTS, HUDARIN_ARGUMENT_VALUE, 0, 0 },
    { HUDARIN_EDIT_SET_DACL, "/b", NODE, HUDARIN_PARTS, HUDARIN_ARGUMENT_VALUE, 0, 0 },
    { HUDARIN_EDIT_SET_OWNER, "/b", "", HUDARIN_SID, HUDARIN_ARGUMENT_VALUE, HUDARIN_SID_SHORT, 0 },
    { HUDARIN_EDIT_SET_OWNER, "b", "", HUDARIN_PATH, HUDARIN_ARGUMENT_PATH, HUDARIN_PATH_SYNTAX, 0 },
    { HUDARIN_EDIT_SET_GROUP, "/b\xff", "", HUDARIN_UTF8, HUDARIN_ARGUMENT_PATH, 0, 2 },
    { HUDARIN_EDIT_SET_DACL, "b", NODE, HUDARIN_PATH, HUDARIN_ARGUMENT_PATH, HUDARIN_PATH_SYNTAX, 0 },
    { HUDARIN_EDIT_MOVE, "b", "c", HUDARIN_PATH, HUDARIN_ARGUMENT_PATH, HUDARIN_PATH_SYNTAX, 0 },
    { HUDARIN_EDIT_SET_OWNER, "/x", "", HUDARIN_SID, HUDARIN_ARGUMENT_VALUE, HUDARIN_SID_SHORT, 0 },
};

/* An edit is judged as it is made, with each request for memory refused before, and changes nothing. */
static void judged(hudarin_store *store, const row *row, size_t edits)
{
    unsigned char value[300];
    size_t length = value_of(row, value, sizeof value);
    hudarin_verdict answer;
    long at = 0, seen, blocks = taken;
    do {
        seen = refusals;
        granted = at++;
        answer = hudarin_store_judge(store, row->edit, row->path, strlen(row->path), value, length);
        granted = -1;
        HOLDS(taken == blocks && hudarin_journal_length(&store->kept).length == edits);
    } while (refusals > seen && answer.status == HUDARIN_MEMORY && at < 1000);
    HOLDS(answer.status == row->status && answer.argument == row->argument && answer.fault == row->fault);
    HOLDS(answer.place == row->place && answer.kind == 0 && answer.mask == 0);
}

/* Each row with all memory, and then with each request refused: what isn't made changes nothing. */
static void each_row(hudarin_store *store)
{
    size_t at, edits = 0;
    for (at = 0; at < sizeof rows / sizeof rows[0]; at++) {
        hudarin_view before = HUDARIN_NOTHING, after = HUDARIN_NOTHING;
        hudarin_verdict answer;
        long refused = 0;
        HOLDS(hudarin_store_publish(store, &before).status == HUDARIN_OK);
        judged(store, &rows[at], edits);
        for (;;) {
            long blocks = taken, seen = refusals;
            unsigned char value[300];
            size_t length = value_of(&rows[at], value, sizeof value);
            granted = refused;
            answer = hudarin_store_edit(store, rows[at].edit, rows[at].path, strlen(rows[at].path), value, length);
            granted = -1;
            if (refusals == seen || answer.status != HUDARIN_MEMORY) {
                break;
            }
            refused++;
            HOLDS(taken - blocks <= 3 && hudarin_journal_length(&store->kept).length == edits);
            HOLDS(hudarin_store_publish(store, &after).length == edits && alike(&before, &after));
            hudarin_free(&after.kept);
        }
        HOLDS(answer.status == rows[at].status && answer.argument == rows[at].argument);
        HOLDS(answer.fault == rows[at].fault && answer.place == rows[at].place && answer.kind == 0 && answer.mask == 0);
        edits += answer.status == HUDARIN_OK;
        HOLDS(hudarin_journal_length(&store->kept).length == edits && hudarin_journal_length(&before.kept).length == edits - (answer.status == HUDARIN_OK));
        HOLDS(hudarin_store_publish(store, &after).length == edits);
        HOLDS(alike(&before, &after) == (answer.status != HUDARIN_OK));
        hudarin_free(&before.kept);
        hudarin_free(&after.kept);
    }
}

/* The same of a node that keeps what it had inherited elsewhere, and of what is told of that. */
static void each_request_of_kept(void)
{
    static const kept_row file = { HUDARIN_OBJECT, "/f", NODE, "D:(A;ID;FA;;;WD)", "D:(A;ID;FR;;;" USER ")", DONE };
    hudarin_store store = HUDARIN_NOTHING;
    hudarin_view view = HUDARIN_NOTHING;
    hudarin_written told;
    unsigned char room[100];
    long at, is_judged, refused = 0;
    /* (before any request is refused) */
    const kept_bytes bytes = bytes_of(&file);
    HOLDS(is_made(opened(&store, ROOT)));
    for (is_judged = 1; is_judged >= 0; is_judged--) {
        hudarin_verdict answer = { HUDARIN_MEMORY, 0, 0, 0, 0, 0 };
        for (at = 0; answer.status == HUDARIN_MEMORY && at < 1000; at++) {
            HOLDS(hudarin_journal_length(&store.kept).length == 0);
            granted = at;
            answer = stored_of(&store, &file, &bytes, (int)is_judged);
            granted = -1;
            refused += answer.status == HUDARIN_MEMORY;
        }
        HOLDS(is_made(answer) && hudarin_journal_length(&store.kept).length == (is_judged ? 0u : 1u));
    }
    HOLDS(hudarin_store_publish(&store, &view).status == HUDARIN_OK);
    told.status = HUDARIN_MEMORY;
    for (at = 0; told.status == HUDARIN_MEMORY && at < 100; at++) {
        memset(room, 0x5A, sizeof room);
        granted = at;
        told = hudarin_view_stored(&view, 1, HUDARIN_STORED_KEPT, room, sizeof room);
        granted = -1;
        refused += told.status == HUDARIN_MEMORY;
        HOLDS(told.status == HUDARIN_OK || (told.status == HUDARIN_MEMORY && told.length == 0 && room[0] == 0x5A));
    }
    HOLDS(told.status == HUDARIN_OK && told.length == 48 && refused > 4);
    hudarin_free(&view.kept);
    hudarin_free(&store.kept);
}

/* A pending edit is in no view, and a view never changes. */
static void pending(hudarin_store *store, hudarin_token *token)
{
    static const row removed = { HUDARIN_EDIT_REMOVE, "/b/o", "", DONE };
    hudarin_view view = HUDARIN_NOTHING, later = HUDARIN_NOTHING;
    hudarin_view_verdict answer;
    uint64_t length = hudarin_store_publish(store, &view).length;
    HOLDS(is_made(made(store, &removed)));
    answer = hudarin_view_check(&view, "/b/o", 4, token, 0x1);
    HOLDS(hudarin_is_granted(answer.answer) && answer.length == length);
    HOLDS(hudarin_store_publish(store, &later).length == length + 1);
    answer = hudarin_view_check(&later, "/b/o", 4, token, 0x1);
    HOLDS(answer.answer.status == HUDARIN_NO_NODE && answer.answer.argument == HUDARIN_ARGUMENT_PATH && answer.length == length + 1);
    answer = hudarin_view_check(&view, "/b/o", 4, token, 0x2);
    HOLDS(answer.answer.kind == HUDARIN_DENIED && answer.answer.mask == 0x2 && answer.length == length);
    hudarin_free(&view.kept);
    hudarin_free(&later.kept);
}

/* A handle of another kind is told, and stays as it was. Types keep a caller from this; a cast here passes by them. */
static void kinds(hudarin_store *store, hudarin_token *token)
{
    static const row removed = { HUDARIN_EDIT_REMOVE, "/b", "", DONE };
    hudarin_view view = HUDARIN_NOTHING, nothing = HUDARIN_NOTHING, empty = HUDARIN_NOTHING;
    hudarin_descriptor descriptor = HUDARIN_NOTHING;
    hudarin_kept *others[4], *wrong;
    size_t at;
    unsigned char room[8];
    HOLDS(hudarin_store_publish(store, &view).status == HUDARIN_OK);
    HOLDS(hudarin_keep_sddl("D:", 2, &descriptor).status == HUDARIN_OK);
    others[0] = &token->kept, others[1] = &descriptor.kept, others[2] = &nothing.kept, others[3] = &view.kept;
    for (at = 0; at < 4; at++) {
        hudarin_store *other = (hudarin_store *)others[at];
        hudarin_verdict answer = made(other, &removed);
        HOLDS(answer.status == HUDARIN_HANDLE && answer.argument == HUDARIN_ARGUMENT_STORE);
        answer = hudarin_store_judge(other, HUDARIN_EDIT_REMOVE, "/b", 2, NULL, 0);
        HOLDS(answer.status == HUDARIN_HANDLE && answer.argument == HUDARIN_ARGUMENT_STORE);
        HOLDS(hudarin_store_publish(other, &empty).status == HUDARIN_HANDLE && !empty.kept.is_there);
        HOLDS(at == 3 || hudarin_store_revert(other, &view).status == HUDARIN_HANDLE);
        HOLDS(!nothing.kept.is_there && others[at]->is_there == (at != 2));
    }
    others[3] = &store->kept;
    for (at = 0; at < 4; at++) {
        hudarin_view *other = (hudarin_view *)others[at];
        hudarin_view_verdict answer = hudarin_view_check(other, "/", 1, at == 0 ? (hudarin_token *)&view : token, 0x1);
        hudarin_node node = hudarin_view_own(other, "/", 1, room, sizeof room);
        HOLDS(answer.answer.status == HUDARIN_HANDLE && answer.answer.argument == HUDARIN_ARGUMENT_VIEW && answer.length == 0);
        HOLDS(hudarin_view_descriptor(other, "/", 1, room, sizeof room).status == HUDARIN_HANDLE);
        HOLDS(node.written.status == HUDARIN_HANDLE && node.kind == 0);
        node = hudarin_view_node(other, 0, (char *)room, sizeof room);
        HOLDS(node.written.status == HUDARIN_HANDLE && node.kind == 0);
        HOLDS(at == 3 || hudarin_store_revert(store, other).status == HUDARIN_HANDLE);
        HOLDS(at == 3 || hudarin_journal_length(others[at]).status == HUDARIN_HANDLE);
        wrong = at == 0 ? &store->kept : others[at];
        answer = hudarin_view_check(&view, "/", 1, (hudarin_token *)wrong, 0x1);
        HOLDS(answer.answer.status == HUDARIN_HANDLE && answer.answer.argument == HUDARIN_ARGUMENT_TOKEN && answer.length == 0);
    }
    HOLDS(hudarin_check_kept((hudarin_descriptor *)&view, token, files, 0x1).status == HUDARIN_HANDLE);
    HOLDS(hudarin_check_kept(&descriptor, (hudarin_token *)store, files, 0x1).argument == HUDARIN_ARGUMENT_TOKEN);
    HOLDS(hudarin_share(&store->kept, &nothing.kept).status == HUDARIN_HANDLE && !nothing.kept.is_there && store->kept.is_there);
    HOLDS(opened(store, ROOT).status == HUDARIN_HANDLE && opened((hudarin_store *)token, ROOT).argument == HUDARIN_ARGUMENT_STORE);
    HOLDS(hudarin_store_publish(store, (hudarin_view *)&descriptor).status == HUDARIN_HANDLE);
    HOLDS(hudarin_view_descriptor(&view, "/", 1, room, sizeof room).status == HUDARIN_ROOM);
    hudarin_free(&view.kept);
    hudarin_free(&descriptor.kept);
}

/* A call that is tested asks for no memory. */
#define HOLDS_WITHOUT_MEMORY(test)                  \
    do {                                            \
        granted = 0;                                \
        HOLDS((test) && granted == 0);              \
        granted = -1;                               \
    } while (0)

/* Without memory a handle is refused as before, and so is an edit whose refusal is found without memory. */
static void without_memory(hudarin_store *store, hudarin_token *token)
{
    hudarin_view view = HUDARIN_NOTHING, nothing = HUDARIN_NOTHING;
    hudarin_store empty = HUDARIN_NOTHING;
    uint64_t length = hudarin_store_publish(store, &view).length;
    HOLDS_WITHOUT_MEMORY(hudarin_store_publish(&empty, &nothing).status == HUDARIN_HANDLE && !nothing.kept.is_there);
    HOLDS_WITHOUT_MEMORY(hudarin_store_publish((hudarin_store *)token, &nothing).status == HUDARIN_HANDLE && !nothing.kept.is_there);
    HOLDS_WITHOUT_MEMORY(hudarin_store_publish(store, &view).status == HUDARIN_HANDLE && view.kept.is_there);
    HOLDS_WITHOUT_MEMORY(hudarin_store_revert(&empty, &view).status == HUDARIN_HANDLE && !empty.kept.is_there);
    HOLDS_WITHOUT_MEMORY(hudarin_store_revert(store, &nothing).status == HUDARIN_HANDLE);
    HOLDS_WITHOUT_MEMORY(hudarin_store_revert(store, (hudarin_view *)token).status == HUDARIN_HANDLE);
    HOLDS_WITHOUT_MEMORY(hudarin_view_share(&nothing, (hudarin_view *)&empty).status == HUDARIN_HANDLE && !empty.kept.is_there);
    HOLDS_WITHOUT_MEMORY(hudarin_view_share(&nothing, &view).status == HUDARIN_HANDLE && view.kept.is_there);
    HOLDS_WITHOUT_MEMORY(hudarin_share(&store->kept, &nothing.kept).status == HUDARIN_HANDLE && !nothing.kept.is_there);
    /* (the first edit after a publish makes a tree, and is refused for its own reason where that fails) */
    granted = 0;
    HOLDS(hudarin_store_edit(store, HUDARIN_EDIT_REMOVE, "/", 1, NULL, 0).fault == HUDARIN_REFUSED_NOT_EMPTY);
    granted = -1;
    HOLDS_WITHOUT_MEMORY(hudarin_store_judge(store, HUDARIN_EDIT_REMOVE, "/", 1, NULL, 0).fault == HUDARIN_REFUSED_NOT_EMPTY);
    HOLDS_WITHOUT_MEMORY(hudarin_store_edit(store, HUDARIN_EDIT_REMOVE, "b", 1, NULL, 0).status == HUDARIN_PATH);
    HOLDS_WITHOUT_MEMORY(hudarin_store_edit(store, HUDARIN_EDIT_SET_OWNER, "/", 1, NULL, 0).status == HUDARIN_SID);
    HOLDS(hudarin_journal_length(&store->kept).length == length);
    hudarin_free(&view.kept);
}

/* The root is judged as an edit is. */
static void roots(void)
{
    static const hudarin_mapping beyond = { 0x200000, 0, 0, 0 };
    unsigned char root[100];
    size_t length = (size_t)hudarin_sddl_to_bytes(NODE, sizeof NODE - 1, root, sizeof root).length;
    hudarin_store store = HUDARIN_NOTHING;
    long at;
    hudarin_verdict answer = opened(&store, "O:SYG:SYD:(A;ID;FA;;;SY)");
    HOLDS(answer.status == HUDARIN_REFUSED && answer.fault == HUDARIN_REFUSED_INHERITED_ENTRY && !store.kept.is_there);
    HOLDS(opened(&store, "O:SYD:").status == HUDARIN_PARTS && !store.kept.is_there);
    answer = hudarin_store_open(root, length - 1, files, &store);
    HOLDS(answer.status == HUDARIN_WIRE && answer.argument == HUDARIN_ARGUMENT_VALUE && !store.kept.is_there);
    answer = hudarin_store_open(root, length, beyond, &store);
    HOLDS(answer.status == HUDARIN_MAPPING && answer.argument == HUDARIN_ARGUMENT_MAPPING && !store.kept.is_there);
    for (at = 0; at < 100 && !store.kept.is_there; at++) {
        granted = at;
        answer = hudarin_store_open(root, length, files, &store);
        HOLDS(answer.status == (store.kept.is_there ? HUDARIN_OK : HUDARIN_MEMORY));
    }
    granted = -1;
    HOLDS(store.kept.is_there);
    hudarin_free(&store.kept);
}

/* With no memory nothing is told of a node; and whichever request is refused, nothing is written. */
static void nodes_without_memory(hudarin_view *view)
{
    unsigned char room[100];
    long at, refused = 0;
    for (at = 0; at < 100; at++) {
        hudarin_node node;
        memset(room, 0x5A, sizeof room);
        granted = at;
        node = hudarin_view_own(view, "/b", 2, room, sizeof room);
        refused += node.written.status == HUDARIN_MEMORY;
        HOLDS(node.written.status == HUDARIN_OK || (node.written.status == HUDARIN_MEMORY && node.kind == 0 && room[0] == 0x5A));
        memset(room, 0x5A, sizeof room);
        granted = at;
        node = hudarin_view_node(view, 1, (char *)room, sizeof room);
        refused += node.written.status == HUDARIN_MEMORY;
        HOLDS(node.written.status == HUDARIN_OK || (node.written.status == HUDARIN_MEMORY && node.kind == 0 && room[0] == 0x5A));
        granted = -1;
    }
    HOLDS(refused > 2 && refused < 100);
}

/* Two edits of which the second is refused: after the revert, which asks for no memory, neither was made. */
static void reverts(hudarin_store *store)
{
    static const row removed = { HUDARIN_EDIT_REMOVE, "/b/o", "", DONE }, refused = { HUDARIN_EDIT_REMOVE, "/b/o", "", DONE };
    hudarin_view view = HUDARIN_NOTHING, after = HUDARIN_NOTHING;
    hudarin_store other = HUDARIN_NOTHING;
    uint64_t length = hudarin_store_publish(store, &view).length;
    hudarin_written answer;
    HOLDS(is_made(made(store, &removed)) && made(store, &refused).status == HUDARIN_REFUSED);
    HOLDS(hudarin_journal_length(&store->kept).length == length + 1);
    HOLDS_WITHOUT_MEMORY((answer = hudarin_store_revert(store, &view)).status == HUDARIN_OK);
    HOLDS(answer.length == length && hudarin_journal_length(&store->kept).length == length);
    HOLDS(hudarin_store_publish(store, &after).length == length && alike(&view, &after));
    hudarin_free(&after.kept);
    HOLDS(is_made(made(store, &removed)) && hudarin_store_publish(store, &after).length == length + 1 && !alike(&view, &after));
    HOLDS(hudarin_store_revert(store, &view).length == length && hudarin_store_revert(store, &after).length == length + 1);
    HOLDS(is_made(opened(&other, NODE)) && hudarin_store_revert(&other, &view).length == length);
    hudarin_free(&after.kept);
    HOLDS(hudarin_store_publish(&other, &after).length == length && alike(&view, &after));
    HOLDS(hudarin_store_revert(store, &view).length == length);
    hudarin_free(&after.kept);
    hudarin_free(&view.kept);
    hudarin_free(&other.kept);
}

/* A view of another store brings that store's root and mapping too: generic rights mean there what they do here. */
static void other_mappings(hudarin_token *token)
{
    static const hudarin_mapping keys = HUDARIN_KEY_MAPPING;
    static const row added = { HUDARIN_EDIT_ADD_CONTAINER, "/b", NODE, DONE };
    unsigned char root[200];
    size_t length = (size_t)hudarin_sddl_to_bytes(ROOT, sizeof ROOT - 1, root, sizeof root).length;
    hudarin_store one = HUDARIN_NOTHING, other = HUDARIN_NOTHING;
    hudarin_view view = HUDARIN_NOTHING, after = HUDARIN_NOTHING;
    hudarin_verdict answer;
    HOLDS(is_made(hudarin_store_open(root, length, keys, &one)) && is_made(opened(&other, ROOT)));
    HOLDS(is_made(made(&one, &added)) && hudarin_store_publish(&other, &view).length == 0);
    HOLDS(hudarin_store_publish(&one, &after).length == 1);
    answer = hudarin_view_check(&after, "/", 1, token, 0x80000000u).answer;
    HOLDS(answer.status == HUDARIN_OK && answer.kind == HUDARIN_DENIED && answer.mask == (keys.read & ~files.read));
    hudarin_free(&after.kept);
    HOLDS(hudarin_store_revert(&one, &view).status == HUDARIN_OK && hudarin_journal_length(&one.kept).length == 0);
    HOLDS(hudarin_store_publish(&one, &after).length == 0 && alike(&view, &after));
    answer = hudarin_view_check(&after, "/", 1, token, 0x80000000u).answer;
    HOLDS(answer.status == HUDARIN_OK && answer.kind == HUDARIN_GRANTED && answer.mask == files.read);
    hudarin_free(&after.kept);
    hudarin_free(&view.kept);
    hudarin_free(&one.kept);
    hudarin_free(&other.kept);
}

/* With no memory a publish keeps nothing, and the next one shows what that would have. */
static void publishes(hudarin_store *store, hudarin_token *token)
{
    hudarin_view view = HUDARIN_NOTHING;
    long at = 0;
    while (!view.kept.is_there && at < 1000) {
        uint32_t status;
        granted = at++;
        status = hudarin_store_publish(store, &view).status;
        granted = -1;
        HOLDS(status == (view.kept.is_there ? HUDARIN_OK : HUDARIN_MEMORY));
    }
    HOLDS(view.kept.is_there && at > 1);
    granted = 0;
    HOLDS(hudarin_view_check(&view, "/b", 2, token, 0x1).answer.status == HUDARIN_MEMORY);
    granted = -1;
    HOLDS(hudarin_view_check(&view, "/b", 2, token, 0x1).answer.status == HUDARIN_OK);
    nodes_without_memory(&view);
    hudarin_free(&view.kept);
}

int main(void)
{
    hudarin_store store = HUDARIN_NOTHING;
    hudarin_token token = HUDARIN_NOTHING;
    roots();
    HOLDS(taken == 0);
    HOLDS(is_made(opened(&store, ROOT)));
    HOLDS(hudarin_keep_token(user, sizeof user, NULL, 0, NULL, 0, NULL, 0, 0, &token).status == HUDARIN_OK);
    each_row(&store);
    each_request_of_kept();
    publishes(&store, &token);
    reverts(&store);
    other_mappings(&token);
    pending(&store, &token);
    kinds(&store, &token);
    without_memory(&store, &token);
    hudarin_free(&store.kept);
    hudarin_free(&token.kept);
    HOLDS(taken == 0 && refusals > 0);
    printf("%ld requests for memory were refused\n", refusals);
    return close_tally();
}
