/*
 * What a publish would change, a node at a time, beside the lines of `sdstore script` for the same edits, which
 * tests/scripts/reviews.rows has; each buffer too small, a handle that keeps nothing, one for lines that is in use, and
 * each request for memory refused. `reviews FORMS`, where that is docs/JSON.md.
 */
#include "edits.h"
#include "forms.h"
#include "refusing.h"

/* A line of a script: an edit, a publish (0), or the lines of a review up to its last one. */
typedef struct step {
    uint32_t edit;
    const char *path, *value, *lines;
} step;

#define PUBLISH { 0, NULL, NULL, NULL }
#define REVIEW(LINES) { 0, NULL, NULL, LINES }
#define END { HUDARIN_EDIT_MOVE + 1, NULL, NULL, NULL }

static const char first_root[] = "O:BAG:SYD:(A;OICI;FR;;;BU)", empty_root[] = "O:BAG:SYD:";

static const step inherited[] = {
    REVIEW(""),
    { HUDARIN_EDIT_ADD_CONTAINER, "/a", NODE, NULL },
    { HUDARIN_EDIT_ADD_OBJECT, "/a/x", NODE, NULL },
    { HUDARIN_EDIT_ADD_OBJECT, "/a/y", NODE "P(A;;FR;;;BU)", NULL },
    REVIEW("new /a\nnew /a/x\nnew /a/y\n"),
    PUBLISH,
    REVIEW(""),
    { HUDARIN_EDIT_SET_DACL, "/", "D:(A;OICI;FA;;;BU)", NULL },
    REVIEW("/ gained 0xd0176 by S-1-5-32-545\n/ new objects: gained 0xd0176 by S-1-5-32-545\n"
           "/ new containers: gained 0xd0176 by S-1-5-32-545\n/a gained 0xd0176 by S-1-5-32-545\n"
           "/a new objects: gained 0xd0176 by S-1-5-32-545\n/a new containers: gained 0xd0176 by S-1-5-32-545\n"
           "/a/x gained 0xd0176 by S-1-5-32-545\n"),
    PUBLISH,
    REVIEW(""),
    END,
};

/* Entries for children alone, and protection: the nodes themselves grant the same. */
static const step below[] = {
    { HUDARIN_EDIT_ADD_CONTAINER, "/a", NODE "P(A;;FR;;;BU)", NULL },
    { HUDARIN_EDIT_ADD_OBJECT, "/b", NODE "P(A;;FR;;;BU)", NULL },
    PUBLISH,
    { HUDARIN_EDIT_SET_DACL, "/a", "D:P(A;;FR;;;BU)(A;OICIIO;FA;;;WD)", NULL },
    { HUDARIN_EDIT_SET_DACL, "/b", "D:P(A;;FR;;;BU)(A;OICIIO;FA;;;WD)", NULL },
    REVIEW("/a new objects: gained 0x1f01ff by S-1-1-0\n/a new containers: gained 0x1f01ff by S-1-1-0\n"),
    PUBLISH,
    { HUDARIN_EDIT_SET_DACL, "/b", "D:(A;;FR;;;BU)", NULL },
    REVIEW("/b inheritance: was protected, is not\n"),
    END,
};

static const step moved[] = {
    { HUDARIN_EDIT_ADD_CONTAINER, "/a", NODE "(A;OICI;FW;;;BG)", NULL },
    { HUDARIN_EDIT_ADD_CONTAINER, "/a/b", NODE, NULL },
    { HUDARIN_EDIT_ADD_OBJECT, "/a/b/x", NODE, NULL },
    { HUDARIN_EDIT_ADD_CONTAINER, "/c", NODE, NULL },
    PUBLISH,
    { HUDARIN_EDIT_MOVE, "/a/b", "/c/d", NULL },
    REVIEW("moved /a/b /c/d\n/c/d lost 0x120116 by S-1-5-32-546\n/c/d new objects: lost 0x120116 by S-1-5-32-546\n"
           "/c/d new containers: lost 0x120116 by S-1-5-32-546\nmoved /a/b/x /c/d/x\n"
           "/c/d/x lost 0x120116 by S-1-5-32-546\ngone /a/b\ngone /a/b/x\n"),
    { HUDARIN_EDIT_MOVE, "/c", "/e", NULL },
    { HUDARIN_EDIT_ADD_OBJECT, "/e/d/y", NODE, NULL },
    { HUDARIN_EDIT_MOVE, "/e/d", "/a/b", NULL },
    REVIEW("new /a/b/y\nmoved /c /e\ngone /c\n"),
    END,
};

static const step exchanged[] = {
    { HUDARIN_EDIT_ADD_OBJECT, "/a", NODE "P(A;;0x1;;;BU)", NULL },
    { HUDARIN_EDIT_ADD_OBJECT, "/b", NODE "P(A;;0x2;;;BU)", NULL },
    PUBLISH,
    { HUDARIN_EDIT_MOVE, "/a", "/c", NULL },
    { HUDARIN_EDIT_MOVE, "/b", "/a", NULL },
    { HUDARIN_EDIT_MOVE, "/c", "/b", NULL },
    REVIEW("/a gained 0x2 by S-1-5-32-545\n/a lost 0x1 by S-1-5-32-545\n/b gained 0x1 by S-1-5-32-545\n"
           "/b lost 0x2 by S-1-5-32-545\n"),
    { HUDARIN_EDIT_REMOVE, "/b", "", NULL },
    { HUDARIN_EDIT_ADD_OBJECT, "/b", NODE "P(A;;0x2;;;BU)", NULL },
    { HUDARIN_EDIT_MOVE, "/b", "/d", NULL },
    REVIEW("/a gained 0x2 by S-1-5-32-545\n/a lost 0x1 by S-1-5-32-545\nnew /d\ngone /b\n"),
    END,
};

/* What a place is answered: the paths, the lines, and their text. */
struct told {
    hudarin_review review;
    char room[400], text[1000];
    hudarin_lines lines;
};

/* Adds the lines of a node to a text, as a script has them, and looks at the values of each; how long it is then. */
static size_t add_lines(char *text, struct told *told)
{
    const char *room = told->room, *before = room + told->review.path;
    int path = (int)told->review.path;
    uint64_t index, count = hudarin_lines_count(&told->lines).length;
    size_t length = 0, end = 0;
    told->text[0] = 0;
    if (told->review.what == HUDARIN_REVIEW_NEW || told->review.what == HUDARIN_REVIEW_GONE) {
        const char *word = told->review.what == HUDARIN_REVIEW_NEW ? "new" : "gone";
        length += (size_t)sprintf(text, "%s %.*s\n", word, path, room);
    } else if (told->review.what == HUDARIN_REVIEW_MOVED) {
        length += (size_t)sprintf(text, "moved %.*s %.*s\n", (int)told->review.before, before, path, room);
    }
    for (index = 0; index < count; index++) {
        char line[ROOM];
        size_t size = (size_t)hudarin_line_print(&told->lines, index, 0, line, sizeof line).length;
        HOLDS(size > 0 && size < sizeof line && line[size - 1] == '\n');
        line[size - 1] = 0;
        line_is(&told->lines, index, line);
        end += (size_t)sprintf(told->text + end, "%s\n", line);
        length += (size_t)sprintf(text + length, "%.*s %s\n", path, room, line);
    }
    no_line(&told->lines, count, HUDARIN_NO_PART);
    return length;
}

/* One place, once more for each request for memory, of which that one is refused; what is answered in the end. */
static void told_at(hudarin_store *store, uint64_t place, struct told *told)
{
    static const hudarin_lines nothing = HUDARIN_NOTHING;
    long at = 0, blocks = taken;
    do {
        memset(told->room, 0x5A, sizeof told->room);
        told->lines = nothing;
        granted = at++;
        told->review = hudarin_store_review(store, place, told->room, sizeof told->room, &told->lines);
        granted = -1;
        HOLDS(told->lines.kept.is_there == (told->review.written.status == HUDARIN_OK ? 1u : 0u));
        HOLDS(told->lines.kept.is_there || (taken == blocks && told->room[0] == 0x5A && told->review.what == 0));
    } while (told->review.written.status == HUDARIN_MEMORY && at < 1000);
}

static int is_same(const hudarin_review *one, const hudarin_review *other)
{
    return one->what == other->what && one->gained == other->gained && one->lost == other->lost &&
           one->path == other->path && one->before == other->before && one->written.length == other->written.length;
}

/* A buffer that is too small by some bytes, up to all, gets nothing, and no line is kept; one that is just large enough
 * is. */
static void rooms_of(hudarin_store *store, uint64_t place, const struct told *told)
{
    size_t length, size = (size_t)told->review.written.length;
    for (length = 0; length <= size; length++) {
        hudarin_lines lines = HUDARIN_NOTHING;
        unsigned char *room = fresh_room(length);
        int has_room = length == size;
        hudarin_review review = hudarin_store_review(store, place, length == 0 ? NULL : (char *)room, length, &lines);
        HOLDS(review.written.status == (has_room ? HUDARIN_OK : HUDARIN_ROOM) && is_same(&review, &told->review));
        HOLDS(room_is(room, length, told->room, has_room ? size : 0) && lines.kept.is_there == (has_room ? 1u : 0u));
        hudarin_free(&lines.kept);
    }
}

/* A handle that keeps lines is refused before the store, and unchanged. */
static void in_use(hudarin_store *store, uint64_t place, hudarin_lines *lines)
{
    hudarin_store nothing = HUDARIN_NOTHING;
    hudarin_kept before = lines->kept;
    unsigned char *room = fresh_room(ROOM);
    HOLDS(hudarin_store_review(store, place, (char *)room, ROOM, lines).written.status == HUDARIN_HANDLE);
    HOLDS(hudarin_store_review(&nothing, place, (char *)room, ROOM, lines).written.status == HUDARIN_HANDLE);
    HOLDS(room_is(room, ROOM, "", 0) && lines->kept.at == before.at && lines->kept.is_there == 1);
}

/* The text of all places, whose numbers are those of the nodes of both trees. */
static void reviews(hudarin_store *store, const char *wanted)
{
    static struct told told;
    char text[1000] = "";
    size_t length = 0;
    uint64_t place;
    for (place = 0;; place++) {
        const hudarin_review *review = &told.review;
        size_t first = length;
        told_at(store, place, &told);
        if (review->written.status != HUDARIN_OK) {
            break;
        }
        HOLDS(review->written.length == review->path + review->before && told.room[review->written.length] == 0x5A);
        HOLDS((review->what == HUDARIN_REVIEW_MOVED) == (review->before > 0));
        length += add_lines(text + length, &told);
        HOLDS(review->gained == bits_of(told.text, "gained ") && review->lost == bits_of(told.text, "lost "));
        HOLDS((review->what == HUDARIN_REVIEW_SAME || review->what == HUDARIN_REVIEW_STANDS) == (length == first));
        HOLDS(review->what != HUDARIN_REVIEW_CHANGED || told.text[0] != 0);
        rooms_of(store, place, &told);
        in_use(store, place, &told.lines);
        hudarin_free(&told.lines.kept);
    }
    HOLDS(told.review.written.status == HUDARIN_NO_NODE && told.review.written.length == 0 && told.review.path == 0);
    HOLDS(told.review.what == 0 && told.review.gained == 0 && told.review.lost == 0 && strcmp(text, wanted) == 0);
    HOLDS(hudarin_store_review(store, UINT64_MAX, NULL, 0, &told.lines).written.status == HUDARIN_NO_NODE);
    HOLDS(told.lines.kept.is_there == 0);
}

static void script(const char *root, const step *steps)
{
    hudarin_store store = HUDARIN_NOTHING;
    HOLDS(is_made(opened(&store, root)));
    for (; steps->edit <= HUDARIN_EDIT_MOVE; steps++) {
        row row = { steps->edit, steps->path, steps->value, DONE };
        hudarin_view view = HUDARIN_NOTHING;
        if (steps->edit != 0) {
            HOLDS(is_made(made(&store, &row)));
        } else if (steps->lines != NULL) {
            reviews(&store, steps->lines);
        } else {
            HOLDS(hudarin_store_publish(&store, &view).status == HUDARIN_OK);
            hudarin_free(&view.kept);
        }
    }
    hudarin_free(&store.kept);
}

/* After a revert nothing is pending; and what a refused publish left pending still is. */
static void reverts(void)
{
    static const row added = { HUDARIN_EDIT_ADD_OBJECT, "/a", NODE, DONE };
    hudarin_store store = HUDARIN_NOTHING;
    hudarin_view view = HUDARIN_NOTHING, later = HUDARIN_NOTHING;
    long at = 0;
    HOLDS(is_made(opened(&store, empty_root)) && hudarin_store_publish(&store, &view).status == HUDARIN_OK);
    HOLDS(is_made(made(&store, &added)));
    while (!later.kept.is_there && at < 1000) {
        reviews(&store, "new /a\n");
        granted = at++;
        HOLDS(hudarin_store_publish(&store, &later).status == (later.kept.is_there ? HUDARIN_OK : HUDARIN_MEMORY));
        granted = -1;
    }
    reviews(&store, "");
    HOLDS(!alike(&view, &later) && hudarin_store_revert(&store, &view).length == 0);
    reviews(&store, "");
    HOLDS(is_made(made(&store, &added)));
    reviews(&store, "new /a\n");
    hudarin_free(&view.kept);
    hudarin_free(&later.kept);
    hudarin_free(&store.kept);
}

/* A handle that keeps no store is refused, and nothing is written or kept. */
static void kinds(void)
{
    hudarin_descriptor descriptor = HUDARIN_NOTHING;
    hudarin_store nothing = HUDARIN_NOTHING;
    hudarin_lines lines = HUDARIN_NOTHING;
    char room[8] = { 0x5A };
    hudarin_review review = hudarin_store_review(&nothing, 0, room, sizeof room, &lines);
    HOLDS(review.written.status == HUDARIN_HANDLE && review.what == 0 && room[0] == 0x5A && lines.kept.is_there == 0);
    HOLDS(hudarin_keep_sddl("D:", 2, &descriptor).status == HUDARIN_OK);
    review = hudarin_store_review((hudarin_store *)&descriptor, 0, room, sizeof room, &lines);
    HOLDS(review.written.status == HUDARIN_HANDLE && review.what == 0 && room[0] == 0x5A && lines.kept.is_there == 0);
    HOLDS(descriptor.kept.is_there == 1);
    hudarin_free(&descriptor.kept);
}

int main(int count, char **arguments)
{
    HOLDS(count == 2);
    open_rooms();
    read_forms(arguments[1]);
    script(first_root, inherited);
    script(first_root, moved);
    script(empty_root, exchanged);
    script(empty_root, below);
    reverts();
    kinds();
    HOLDS(taken == 0 && refusals > 0);
    return close_tally();
}
