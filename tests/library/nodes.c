/* The nodes of a view, one after the other: what is told of them makes the same tree anew. */
#include "edits.h"
#include "rooms.h"

/* What was given to a node, and its path, each in a room that just fits and in one that is a byte short. */
typedef struct told {
    char path[16];
    unsigned char own[100];
    size_t path_length, own_length;
    uint32_t kind;
} told;

static int tells(hudarin_view *view, uint64_t place, told *it)
{
    hudarin_node node = hudarin_view_node(view, place, NULL, 0);
    memset(it, 0, sizeof *it);
    if (node.written.status != HUDARIN_ROOM) {
        HOLDS(node.written.status == HUDARIN_NO_NODE && node.written.length == 0 && node.kind == 0);
        return 0;
    }
    it->path_length = (size_t)node.written.length;
    HOLDS(hudarin_view_node(view, place, it->path, it->path_length - 1).written.status == HUDARIN_ROOM && it->path[0] == 0);
    node = hudarin_view_node(view, place, it->path, it->path_length);
    it->kind = node.kind;
    HOLDS(node.written.status == HUDARIN_OK && node.written.length == it->path_length);
    node = hudarin_view_own(view, it->path, it->path_length, NULL, 0);
    it->own_length = (size_t)node.written.length;
    HOLDS(node.written.status == HUDARIN_ROOM && node.kind == it->kind);
    HOLDS(hudarin_view_own(view, it->path, it->path_length, it->own, it->own_length - 1).kind == it->kind && it->own[0] == 0);
    node = hudarin_view_own(view, it->path, it->path_length, it->own, it->own_length);
    HOLDS(node.written.status == HUDARIN_OK && node.written.length == it->own_length && node.kind == it->kind);
    return 1;
}

/* The nodes of a tree that is worked by hand, and another tree that is made of what is told of them. */
static void nodes(void)
{
    static const row edits[] = {
        { HUDARIN_EDIT_ADD_CONTAINER, "/b", NODE "PNO_ACCESS_CONTROL", DONE },
        { HUDARIN_EDIT_ADD_CONTAINER, "/a", NODE "(A;OICI;FA;;;CO)", DONE },
        { HUDARIN_EDIT_ADD_OBJECT, "/a/o", NODE "P(D;;0x2;;;WD)", DONE },
        { HUDARIN_EDIT_ADD_OBJECT, "/a!", NODE, DONE },
    };
    static const char *const wanted[] = {
        "/ " ROOT, "/a " NODE "(A;OICI;FA;;;CO)", "/a/o " NODE "P(D;;0x2;;;WD)", "/a! " NODE, "/b " NODE "NO_ACCESS_CONTROL",
    };
    static const uint32_t kinds_wanted[] = { HUDARIN_CONTAINER, HUDARIN_CONTAINER, HUDARIN_OBJECT, HUDARIN_OBJECT, HUDARIN_CONTAINER };
    hudarin_store store = HUDARIN_NOTHING, again = HUDARIN_NOTHING;
    hudarin_view view = HUDARIN_NOTHING, other = HUDARIN_NOTHING;
    size_t place;
    told it;
    HOLDS(is_made(opened(&store, ROOT)));
    for (place = 0; place < 4; place++) {
        HOLDS(is_made(made(&store, &edits[place])));
    }
    HOLDS(hudarin_store_publish(&store, &view).length == 4);
    for (place = 0; tells(&view, place, &it) && place < 5; place++) {
        char line[150];
        int length = snprintf(line, sizeof line, "%.*s ", (int)it.path_length, it.path);
        length += (int)hudarin_bytes_to_sddl(it.own, it.own_length, line + length, sizeof line - (size_t)length).length;
        HOLDS(it.kind == kinds_wanted[place] && (size_t)length == strlen(wanted[place]) && memcmp(line, wanted[place], (size_t)length) == 0);
        if (place == 0) {
            HOLDS(is_made(hudarin_store_open(it.own, it.own_length, files, &again)));
        } else {
            uint32_t adds = it.kind == HUDARIN_CONTAINER ? HUDARIN_EDIT_ADD_CONTAINER : HUDARIN_EDIT_ADD_OBJECT;
            HOLDS(is_made(hudarin_store_edit(&again, adds, it.path, it.path_length, it.own, it.own_length)));
        }
    }
    HOLDS(place == 5 && !tells(&view, UINT64_MAX, &it) && hudarin_view_own(&view, "/c", 2, NULL, 0).written.status == HUDARIN_NO_NODE);
    HOLDS(hudarin_view_own(&view, "c", 1, NULL, 0).written.fault == HUDARIN_PATH_SYNTAX);
    HOLDS(hudarin_view_own(&view, "/\xff", 2, NULL, 0).written.place == 1);
    HOLDS(hudarin_store_publish(&again, &other).length == 4 && alike(&view, &other));
    hudarin_free(&view.kept);
    hudarin_free(&other.kept);
    hudarin_free(&store.kept);
    hudarin_free(&again.kept);
}

/* What is told of a node, in rooms of all lengths about the one that is wanted. */
static void told_in_rooms(hudarin_view *view, int is_path, const void *wanted, size_t wanted_length)
{
    size_t room_length;
    char *path = (char *)lent("/", 1);
    for (room_length = 0; room_length <= wanted_length + 3; room_length++) {
        int fits = room_length >= wanted_length;
        unsigned char *room = fresh_room(room_length), *given = room_length == 0 ? NULL : room;
        hudarin_node node = is_path ? hudarin_view_node(view, 0, (char *)given, room_length)
                                    : hudarin_view_own(view, path, 1, given, room_length);
        HOLDS(node.written.status == (fits ? HUDARIN_OK : HUDARIN_ROOM) && node.kind == HUDARIN_CONTAINER);
        HOLDS(node.written.length == wanted_length && node.written.fault == 0 && node.written.place == 0);
        HOLDS(room_is(room, room_length, wanted, fits ? wanted_length : 0));
    }
}

/* The root is the node at the first place; behind it there is none, however far. */
static void limits(void)
{
    hudarin_store store = HUDARIN_NOTHING;
    hudarin_view view = HUDARIN_NOTHING;
    uint64_t place;
    unsigned char root[100];
    size_t length = (size_t)hudarin_sddl_to_bytes(NODE, sizeof NODE - 1, root, sizeof root).length;
    HOLDS(hudarin_store_open(root, length, files, &store).status == HUDARIN_OK);
    HOLDS(hudarin_store_publish(&store, &view).status == HUDARIN_OK);
    told_in_rooms(&view, 1, "/", 1);
    told_in_rooms(&view, 0, root, length);
    for (place = 1; place != 0; place <<= 1) {
        HOLDS(hudarin_view_node(&view, place, NULL, 0).written.status == HUDARIN_NO_NODE);
        HOLDS(hudarin_view_node(&view, UINT64_MAX - place, NULL, 0).kind == 0);
    }
    hudarin_free(&view.kept);
    hudarin_free(&store.kept);
}

#define OFFER "D:(A;ID;FR;;;BU)"
#define AT_HOME "O:BAG:SYD:AI(A;;FA;;;BA)"

/* The text of a node's descriptor. */
static int shows(hudarin_view *view, const char *path, const char *wanted)
{
    unsigned char bytes[200];
    char text[200];
    hudarin_written form = hudarin_view_descriptor(view, path, strlen(path), bytes, sizeof bytes);
    size_t length = (size_t)hudarin_bytes_to_sddl(bytes, (size_t)form.length, text, sizeof text).length;
    return form.status == HUDARIN_OK && length == strlen(wanted) && memcmp(text, wanted, length) == 0;
}

static int keeps(hudarin_view *view, uint64_t place, const char *wanted)
{
    char text[200];
    size_t length = kept_text(view, place, text, sizeof text);
    return length == strlen(wanted) && memcmp(text, wanted, length) == 0;
}

/* The example of docs/TREE.md: a file keeps what it had inherited, until its folder passes down something else, and again once
 * that passes down the same. A tree that is made anew of what is told of it does so too. */
static void kept(void)
{
    static const kept_row file = { HUDARIN_OBJECT, "/f", "O:BAG:SYD:(A;;FA;;;BA)", "D:(A;ID;FA;;;WD)", OFFER, DONE };
    static const row changes[] = {
        { HUDARIN_EDIT_SET_DACL, "/", "D:(A;OICI;FX;;;BU)", DONE },
        { HUDARIN_EDIT_SET_DACL, "/", "D:(A;OICI;FR;;;BU)", DONE },
        { HUDARIN_EDIT_SET_DACL, "/f", "D:", DONE },
    };
    static const char *const shown[] = {
        AT_HOME "(A;ID;FA;;;WD)", AT_HOME "(A;ID;FX;;;BU)", AT_HOME "(A;ID;FA;;;WD)", "O:BAG:SYD:AI(A;ID;FR;;;BU)",
    };
    hudarin_store store = HUDARIN_NOTHING, again = HUDARIN_NOTHING;
    size_t at;
    HOLDS(is_made(opened(&store, "O:BAG:SYD:(A;OICI;FR;;;BU)")) && is_made(opened(&again, "O:BAG:SYD:(A;OICI;FR;;;BU)")));
    HOLDS(is_made(stored(&store, &file, 1)) && hudarin_journal_length(&store.kept).length == 0);
    HOLDS(is_made(stored(&store, &file, 0)) && hudarin_journal_length(&store.kept).length == 1);
    for (at = 0; at < 4; at++) {
        hudarin_view view = HUDARIN_NOTHING;
        HOLDS(hudarin_store_publish(&store, &view).status == HUDARIN_OK && shows(&view, "/f", shown[at]));
        HOLDS(keeps(&view, 0, "") && keeps(&view, 1, at < 3 ? "D:(A;ID;FA;;;WD)\n" OFFER : ""));
        if (at == 0) {
            unsigned char bytes[3][200];
            size_t own = (size_t)hudarin_view_own(&view, "/f", 2, bytes[0], 200).written.length;
            size_t had = (size_t)hudarin_view_stored(&view, 1, HUDARIN_STORED_KEPT, bytes[1], 200).length;
            size_t offer = (size_t)hudarin_view_stored(&view, 1, HUDARIN_STORED_OFFER, bytes[2], 200).length;
            HOLDS(is_made(hudarin_store_add_stored(&again, HUDARIN_OBJECT, "/f", 2, bytes[0], own, bytes[1], had, bytes[2], offer)));
        }
        if (at < 3) {
            HOLDS(is_made(made(&store, &changes[at])) && is_made(made(&again, &changes[at])));
        }
        hudarin_free(&view.kept);
        HOLDS(hudarin_store_publish(&again, &view).status == HUDARIN_OK && shows(&view, "/f", shown[at < 3 ? at + 1 : 3]));
        hudarin_free(&view.kept);
    }
    hudarin_free(&store.kept);
    hudarin_free(&again.kept);
}

/* Each argument that is invalid, the first of several, and what keeps nothing. */
static void kept_refused(void)
{
    static const kept_row wrong[] = {
        { HUDARIN_OBJECT, "f", "", "", "", HUDARIN_PATH, HUDARIN_ARGUMENT_PATH, HUDARIN_PATH_SYNTAX, 0 },
        { 3, "/f", "", "", "", HUDARIN_EDIT, HUDARIN_ARGUMENT_EDIT, 0, 0 },
        { 0, "/f", NODE, OFFER, OFFER, HUDARIN_EDIT, HUDARIN_ARGUMENT_EDIT, 0, 0 },
        { HUDARIN_OBJECT, "/f", "D:", "O:BAD:", "", HUDARIN_PARTS, HUDARIN_ARGUMENT_VALUE, 0, 0 },
        { HUDARIN_OBJECT, "/f", NODE, "O:BAD:", "O:BAD:", HUDARIN_PARTS, HUDARIN_ARGUMENT_KEPT, 0, 0 },
        { HUDARIN_OBJECT, "/f", NODE, "G:BAD:", OFFER, HUDARIN_PARTS, HUDARIN_ARGUMENT_KEPT, 0, 0 },
        { HUDARIN_OBJECT, "/f", NODE, "D:NO_ACCESS_CONTROL", OFFER, HUDARIN_PARTS, HUDARIN_ARGUMENT_KEPT, 0, 0 },
        { HUDARIN_OBJECT, "/f", NODE, "D:P", OFFER, HUDARIN_PARTS, HUDARIN_ARGUMENT_KEPT, 0, 0 },
        { HUDARIN_OBJECT, "/f", NODE, "", OFFER, HUDARIN_PARTS, HUDARIN_ARGUMENT_KEPT, 0, 0 },
        { HUDARIN_OBJECT, "/f", NODE, OFFER, "O:BAD:", HUDARIN_PARTS, HUDARIN_ARGUMENT_OFFER, 0, 0 },
        { HUDARIN_OBJECT, "/f", NODE, OFFER, "D:NO_ACCESS_CONTROL", HUDARIN_PARTS, HUDARIN_ARGUMENT_OFFER, 0, 0 },
        { HUDARIN_OBJECT, "/f", NODE, OFFER, "D:P", HUDARIN_PARTS, HUDARIN_ARGUMENT_OFFER, 0, 0 },
        { HUDARIN_OBJECT, "/x/f", NODE, OFFER, OFFER, HUDARIN_REFUSED, 0, HUDARIN_REFUSED_NO_PARENT, 0 },
        { HUDARIN_OBJECT, "/f", NODE "(A;ID;FR;;;BU)", OFFER, OFFER, HUDARIN_REFUSED, 0, HUDARIN_REFUSED_INHERITED_ENTRY, 0 },
    };
    static const kept_row nothing[] = {
        { HUDARIN_CONTAINER, "/a", NODE "P", OFFER, OFFER, DONE },
        { HUDARIN_CONTAINER, "/b", NODE "NO_ACCESS_CONTROL", OFFER, OFFER, DONE },
    };
    static const kept_row last = { HUDARIN_CONTAINER, "/c", NODE, "D:", "D:", DONE };
    hudarin_store store = HUDARIN_NOTHING;
    hudarin_view view = HUDARIN_NOTHING;
    hudarin_verdict answer;
    size_t at;
    int is_judged;
    HOLDS(stored(&store, &last, 0).argument == HUDARIN_ARGUMENT_STORE && stored(&store, &wrong[0], 1).status == HUDARIN_HANDLE);
    HOLDS(is_made(opened(&store, ROOT)));
    for (at = 0; at < sizeof wrong / sizeof wrong[0]; at++) {
        for (is_judged = 0; is_judged < 2; is_judged++) {
            answer = stored(&store, &wrong[at], is_judged);
            HOLDS(answer.status == wrong[at].status && answer.argument == wrong[at].argument);
            HOLDS(answer.fault == wrong[at].fault && answer.place == wrong[at].place && answer.kind == 0 && answer.mask == 0);
            HOLDS(hudarin_journal_length(&store.kept).length == 0);
        }
    }
    answer = hudarin_store_add_stored(&store, HUDARIN_OBJECT, "/f", 2, NULL, 0, NULL, 0, NULL, 0);
    HOLDS(answer.status == HUDARIN_WIRE && answer.argument == HUDARIN_ARGUMENT_VALUE && answer.fault == HUDARIN_WIRE_SHORT);
    HOLDS(is_made(stored(&store, &nothing[0], 0)) && is_made(stored(&store, &nothing[1], 0)) && is_made(stored(&store, &last, 0)));
    HOLDS(hudarin_store_publish(&store, &view).length == 3);
    HOLDS(keeps(&view, 0, "") && keeps(&view, 1, "") && keeps(&view, 2, "") && keeps(&view, 3, "D:\nD:"));
    HOLDS(hudarin_view_stored(&view, 3, 0, NULL, 0).status == HUDARIN_NO_PART && hudarin_view_stored(&view, 3, 3, NULL, 0).length == 0);
    HOLDS(hudarin_view_stored(&view, 3, 1, NULL, 0).status == HUDARIN_ROOM && hudarin_view_stored(&view, 3, 1, NULL, 0).length == 28);
    HOLDS(hudarin_view_stored(&view, 4, 1, NULL, 0).status == HUDARIN_NO_NODE);
    HOLDS(hudarin_view_stored((hudarin_view *)&store, 0, 1, NULL, 0).status == HUDARIN_HANDLE);
    hudarin_free(&view.kept);
    hudarin_free(&store.kept);
}

int main(void)
{
    open_rooms();
    limits();
    nodes();
    kept();
    kept_refused();
    return close_tally();
}
