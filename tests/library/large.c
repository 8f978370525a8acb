/*
 * A tree of a million nodes, full to its limits: of edits in it, requests for memory are refused in turn, and each refusal leaves
 * all as it was.
 */
#include "edits.h"
#include "refusing.h"

#define FOLDERS 3922
#define OBJECTS 255
#define NODES (1 + FOLDERS * (1 + OBJECTS))

/* How many edits the journal has. */
static uint64_t edits;

/* So many nodes more and so many edits more than the tree begins with are within its limits. */
#define MORE_NODES 2
#define MORE_EDITS 7

static const row rows[MORE_EDITS] = {
    { HUDARIN_EDIT_ADD_OBJECT, "/folder1961/zz", NODE, DONE },
    { HUDARIN_EDIT_ADD_OBJECT, "/folder3921/zz", NODE "(A;;0x2;;;" USER ")", DONE },
    { HUDARIN_EDIT_SET_OWNER, "/folder0000/000", "BA", DONE },
    { HUDARIN_EDIT_SET_DACL, "/folder1961/100", "D:(A;;0x4;;;" USER ")", DONE },
    { HUDARIN_EDIT_MOVE, "/folder1961/zz", "/folder1961/a", DONE },
    { HUDARIN_EDIT_SET_DACL, "/folder0007", "D:(A;OI;0x8;;;" USER ")", DONE },
    { HUDARIN_EDIT_SET_DACL, "/", "D:(A;OICI;0x10;;;" USER ")", DONE },
};

static void grow(hudarin_store *store)
{
    unsigned char value[300];
    row added = { HUDARIN_EDIT_ADD_CONTAINER, "", NODE, DONE };
    size_t length = value_of(&added, value, sizeof value);
    char path[32];
    int folder, object, all = 1;
    for (folder = 0; folder < FOLDERS; folder++) {
        int size = snprintf(path, sizeof path, "/folder%04d", folder);
        all &= is_made(hudarin_store_edit(store, HUDARIN_EDIT_ADD_CONTAINER, path, (size_t)size, value, length));
        for (object = 0; object < OBJECTS; object++) {
            size = snprintf(path, sizeof path, "/folder%04d/%03d", folder, object);
            all &= is_made(hudarin_store_edit(store, HUDARIN_EDIT_ADD_OBJECT, path, (size_t)size, value, length));
        }
    }
    HOLDS(all);
    edits = NODES - 1;
}

/* Makes the edit once it isn't refused memory: before, each STEPth request is refused in turn, and nothing changes. */
static void in_turn(hudarin_store *store, const row *row, long step)
{
    unsigned char value[300];
    size_t length = value_of(row, value, sizeof value);
    hudarin_verdict answer;
    long at = 0;
    for (;;) {
        granted = at;
        answer = hudarin_store_edit(store, row->edit, row->path, strlen(row->path), value, length);
        granted = -1;
        if (answer.status != HUDARIN_MEMORY) {
            break;
        }
        at += step;
        HOLDS(hudarin_journal_length(&store->kept).length == edits);
    }
    HOLDS(at > 0 && is_made(answer));
    edits++;
    HOLDS(hudarin_journal_length(&store->kept).length == edits);
}

/* What the user is granted of 0x1 to 0x10 at the path. */
static uint32_t granted_at(hudarin_view *view, hudarin_token *token, const char *path)
{
    uint32_t mask, all = 0;
    for (mask = 1; mask <= 0x10; mask *= 2) {
        all |= hudarin_is_granted(hudarin_view_check(view, path, strlen(path), token, mask).answer) ? mask : 0;
    }
    return all;
}

/* What each path's node grants before and after the edits: the root's list hands on 0x1, and then 0x10. */
static void shown(hudarin_view *view, hudarin_token *token, int is_after)
{
    static const struct {
        const char *path;
        uint32_t before, after;
    } grants[] = {
        { "/", 0x1, 0x10 },
        { "/folder1961/a", 0, 0x10 },
        { "/folder1961/zz", 0, 0 },
        { "/folder3921/zz", 0, 0x12 },
        { "/folder0000/000", 0x1, 0x10 },
        { "/folder1961/100", 0x1, 0x14 },
        { "/folder0007/254", 0x1, 0x18 },
        { "/folder0008/254", 0x1, 0x10 },
    };
    size_t at;
    for (at = 0; at < sizeof grants / sizeof grants[0]; at++) {
        HOLDS(granted_at(view, token, grants[at].path) == (is_after ? grants[at].after : grants[at].before));
    }
}

int main(void)
{
    static const char root_text[] = "O:SYG:SYD:(A;OICI;0x1;;;" USER ")";
    static const row one_more = { HUDARIN_EDIT_ADD_OBJECT, "/zz", NODE, HUDARIN_REFUSED, 0, HUDARIN_REFUSED_NODES_FULL, 0 };
    static const row last = { HUDARIN_EDIT_SET_OWNER, "/", "BA", HUDARIN_REFUSED, 0, HUDARIN_REFUSED_JOURNAL_FULL, 0 };
    hudarin_store store = HUDARIN_NOTHING;
    hudarin_view before = HUDARIN_NOTHING, after = HUDARIN_NOTHING;
    hudarin_token token = HUDARIN_NOTHING;
    unsigned char root[200], user[HUDARIN_SID_BYTES];
    size_t length = (size_t)hudarin_sddl_to_bytes(root_text, sizeof root_text - 1, root, sizeof root).length, at;
    size_t user_length = (size_t)hudarin_sid_text_to_bytes(USER, sizeof USER - 1, user, sizeof user).length;
    HOLDS(is_made(hudarin_store_open_within(root, length, files, NODES + MORE_NODES, NODES - 1 + MORE_EDITS, &store)));
    HOLDS(hudarin_keep_token(user, user_length, NULL, 0, NULL, 0, NULL, 0, 0, &token).status == HUDARIN_OK);
    grow(&store);
    HOLDS(hudarin_store_publish(&store, &before).length == edits);
    for (at = 0; at < MORE_EDITS; at++) {
        if (at == MORE_NODES) {
            HOLDS(made(&store, &one_more).fault == one_more.fault);
        }
        in_turn(&store, &rows[at], at + 1 < MORE_EDITS ? 1 : 2003);
    }
    HOLDS(made(&store, &last).fault == last.fault);
    HOLDS(hudarin_store_publish(&store, &after).length == NODES - 1 + MORE_EDITS);
    shown(&before, &token, 0);
    shown(&after, &token, 1);
    hudarin_free(&store.kept);
    hudarin_free(&before.kept);
    hudarin_free(&after.kept);
    hudarin_free(&token.kept);
    HOLDS(taken == 0);
    return close_tally();
}
