/*
 * What calls over a store of many nodes cost, in nanoseconds: large NODES has so many, in folders of 255 objects, whose lists come
 * from the root alone. Of edits the first after a publish is made in a copy of the published tree, the next is not.
 */
#define _DEFAULT_SOURCE
#include <hudarin.h>

#include <stdio.h>
#include <stdlib.h>
#include <string.h>
#include <time.h>

#define TURNS 101
#define ROOT_TURNS 5
#define PATHS 1024
#define IN_FOLDER 256

static const hudarin_mapping files = HUDARIN_FILE_MAPPING;
static hudarin_store store = HUDARIN_NOTHING;
static hudarin_view view = HUDARIN_NOTHING;
static long nodes;

static double now(void)
{
    struct timespec at;
    clock_gettime(CLOCK_MONOTONIC, &at);
    return 1e9 * (double)at.tv_sec + (double)at.tv_nsec;
}

static void done(uint32_t status, const char *what)
{
    if (status != HUDARIN_OK) {
        fprintf(stderr, "large: %s: status %u\n", what, (unsigned)status);
        exit(1);
    }
}

/* The bytes that the process has in memory. */
static double in_use(void)
{
    char line[200];
    double kibibytes = 0;
    FILE *status = fopen("/proc/self/status", "r");
    while (status != NULL && fgets(line, sizeof line, status) != NULL) {
        if (sscanf(line, "VmRSS: %lf", &kibibytes) == 1) {
            break;
        }
    }
    if (status != NULL) {
        fclose(status);
    }
    return 1024 * kibibytes;
}

/* An edit, with an SDDL text or a path as its value, and how long it takes. */
static double edit(uint32_t kind, const char *path, const char *value)
{
    unsigned char bytes[400];
    size_t length = strlen(value);
    double from;
    if (length > 0 && kind != HUDARIN_EDIT_MOVE) {
        length = (size_t)hudarin_sddl_to_bytes(value, length, bytes, sizeof bytes).length;
    } else {
        memcpy(bytes, value, length);
    }
    from = now();
    done(hudarin_store_edit(&store, kind, path, strlen(path), bytes, length).status, path);
    return now() - from;
}

/* How long a publish takes; the view before it is freed then. */
static double publish(void)
{
    hudarin_view next = HUDARIN_NOTHING;
    double from = now(), took;
    done(hudarin_store_publish(&store, &next).status, "publish");
    took = now() - from;
    hudarin_free(&view.kept);
    view = next;
    return took;
}

static void object_path(char *path, size_t room, long folder, long object)
{
    snprintf(path, room, "/folder%05ld/object%03ld", folder, object);
}

static void build(void)
{
    static const char root_text[] = "O:SYG:SYD:(A;OICI;FA;;;SY)(A;OICI;FR;;;BU)", plain[] = "O:BAG:SYD:";
    unsigned char root[200];
    size_t length = (size_t)hudarin_sddl_to_bytes(root_text, sizeof root_text - 1, root, sizeof root).length;
    double before = in_use(), from = now();
    char path[64];
    long at;
    done(hudarin_store_open_within(root, length, files, HUDARIN_NODES_MAX, HUDARIN_EDITS_MAX, &store).status, "open");
    for (at = 0; at < nodes - 1; at++) {
        if (at % IN_FOLDER == 0) {
            snprintf(path, sizeof path, "/folder%05ld", at / IN_FOLDER);
            edit(HUDARIN_EDIT_ADD_CONTAINER, path, plain);
        } else {
            object_path(path, sizeof path, at / IN_FOLDER, at % IN_FOLDER - 1);
            edit(HUDARIN_EDIT_ADD_OBJECT, path, plain);
        }
    }
    publish();
    printf("%ld nodes: a node takes %.0f ns to add, and %.0f bytes with its edit\n", nodes, (now() - from) / (double)nodes,
           (in_use() - before) / (double)nodes);
}

static int by_size(const void *one, const void *other)
{
    double a = *(const double *)one, b = *(const double *)other;
    return (a > b) - (a < b);
}

/* The median of the times. */
static double median(double *times, int turns)
{
    qsort(times, (size_t)turns, sizeof *times, by_size);
    return times[turns / 2];
}

/* What two edits that undo each other take: the one in a copy, again, and the publish behind them. */
static void turns(const char *what, int many, const char *path, uint32_t kind, const char *value, const char *back_path,
                  uint32_t back, const char *back_value)
{
    double first[TURNS], next[TURNS], published[TURNS];
    int at;
    for (at = 0; at < many; at++) {
        first[at] = edit(kind, path, value);
        edit(back, back_path, back_value);
        next[at] = edit(kind, path, value);
        edit(back, back_path, back_value);
        published[at] = publish();
    }
    printf("%s: %.0f the first after a publish, %.0f the next, %.0f the publish\n", what, median(first, many),
           median(next, many), median(published, many));
}

static void checks(void)
{
    static const char user_text[] = "S-1-5-21-1-2-3-1001";
    static char paths[PATHS][64];
    unsigned char user[HUDARIN_SID_BYTES];
    size_t length = (size_t)hudarin_sid_text_to_bytes(user_text, sizeof user_text - 1, user, sizeof user).length;
    hudarin_token token = HUDARIN_NOTHING;
    double least = 1e18;
    int turn, at;
    done(hudarin_keep_token(user, length, NULL, 0, NULL, 0, NULL, 0, 0, &token).status, "token");
    for (at = 0; at < PATHS; at++) {
        object_path(paths[at], sizeof paths[at], at * ((nodes - 1) / IN_FOLDER) / PATHS, at % 200);
    }
    for (turn = 0; turn < 12; turn++) {
        double from = now();
        for (at = 0; at < PATHS; at++) {
            done(hudarin_view_check(&view, paths[at], strlen(paths[at]), &token, 1).answer.status, paths[at]);
        }
        least = now() - from < least ? now() - from : least;
    }
    printf("a check by path, of %d all over the tree in turn: %.0f\n", PATHS, least / PATHS);
    hudarin_free(&token.kept);
}

int main(int count, char **words)
{
    static const char listed[] = "D:(A;OICI;FA;;;S-1-5-21-1-2-3-1300)", other[] = "D:(A;OICI;FA;;;S-1-5-21-1-2-3-1301)";
    char object[64], first[64];
    nodes = count == 2 ? atol(words[1]) : 0;
    if (nodes < 2 * IN_FOLDER || nodes > (long)HUDARIN_NODES_MAX - 1) {
        fprintf(stderr, "large: for %d to %ld nodes\n", 2 * IN_FOLDER, (long)HUDARIN_NODES_MAX - 1);
        return 2;
    }
    build();
    object_path(object, sizeof object, nodes / IN_FOLDER / 2, 999);
    snprintf(first, sizeof first, "/folder%05ld/first", nodes / IN_FOLDER / 2);
    turns("AddObject in the middle", TURNS, object, HUDARIN_EDIT_ADD_OBJECT, "O:BAG:SYD:", object, HUDARIN_EDIT_REMOVE, "");
    edit(HUDARIN_EDIT_ADD_OBJECT, object, "O:BAG:SYD:");
    turns("Move in its folder", TURNS, object, HUDARIN_EDIT_MOVE, first, first, HUDARIN_EDIT_MOVE, object);
    turns("SetDacl at an object", TURNS, object, HUDARIN_EDIT_SET_DACL, listed, object, HUDARIN_EDIT_SET_DACL, other);
    turns("SetDacl at the root", ROOT_TURNS, "/", HUDARIN_EDIT_SET_DACL, listed, "/", HUDARIN_EDIT_SET_DACL, other);
    checks();
    hudarin_free(&view.kept);
    hudarin_free(&store.kept);
    return 0;
}
