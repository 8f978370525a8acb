/*
 * What the calls over stores and views cost, in nanoseconds, by the clock: costs NODES EDITS has a tree of so many nodes and a journal
 * of at least so many edits. The figures of bench/NOTES.md are its output; the gate runs it on a small tree to see that it runs.
 */
#include "tally.h"
#include <time.h>

#define TURNS 200
#define CHECKS 1000000

static const hudarin_mapping files = HUDARIN_FILE_MAPPING;
static unsigned char sid[HUDARIN_SID_BYTES];
static size_t sid_length;
static hudarin_store store = HUDARIN_NOTHING;
static hudarin_token token = HUDARIN_NOTHING;
static hudarin_view view = HUDARIN_NOTHING;

static double now(void)
{
    struct timespec at;
    clock_gettime(CLOCK_MONOTONIC, &at);
    return 1e9 * (double)at.tv_sec + (double)at.tv_nsec;
}

static void edit(uint32_t kind, long node, const void *value, size_t length)
{
    char path[32];
    int size = snprintf(path, sizeof path, "/node%06ld", node);
    HOLDS(hudarin_store_edit(&store, kind, path, (size_t)size, value, length).status == HUDARIN_OK);
}

/* How long a publish takes; the view before it is freed then, or kept. */
static double publish(hudarin_view *kept)
{
    hudarin_view next = HUDARIN_NOTHING;
    double from = now(), took;
    HOLDS(hudarin_store_publish(&store, &next).status == HUDARIN_OK);
    took = now() - from;
    if (kept != NULL) {
        *kept = view;
    } else {
        hudarin_free(&view.kept);
    }
    view = next;
    return took;
}

static void build(long nodes, long edits)
{
    static const char root[] = "O:SYG:SYD:(A;OICI;FA;;;SY)(A;OICI;FR;;;BU)", node[] = "O:BAG:SYD:";
    unsigned char bytes[200];
    size_t length = (size_t)hudarin_sddl_to_bytes(root, sizeof root - 1, bytes, sizeof bytes).length;
    double from;
    long at;
    HOLDS(hudarin_store_open(bytes, length, files, &store).status == HUDARIN_OK);
    length = (size_t)hudarin_sddl_to_bytes(node, sizeof node - 1, bytes, sizeof bytes).length;
    from = now();
    for (at = 1; at < nodes; at++) {
        edit(HUDARIN_EDIT_ADD_OBJECT, at, bytes, length);
    }
    printf("an object is added: %.0f\n", (now() - from) / (double)nodes);
    for (; at < edits; at++) {
        edit(HUDARIN_EDIT_SET_OWNER, 1 + at % (nodes - 1), sid, sid_length);
    }
}

/* How long so many edits and their publish take; the view before it is freed then, or kept. */
static double edits_and_publish(long nodes, long first, int edits, hudarin_view *kept)
{
    double from = now();
    long at;
    for (at = 0; at < edits; at++) {
        edit(HUDARIN_EDIT_SET_OWNER, 1 + (first + at) % (nodes - 1), sid, sid_length);
    }
    publish(kept);
    return now() - from;
}

static void publishes(long nodes, int edits)
{
    double took = 0;
    long turn;
    for (turn = -4; turn < TURNS; turn++) {
        double one = edits_and_publish(nodes, turn + 4, edits, NULL);
        took += turn < 0 ? 0 : one;
    }
    printf("%d edits and their publish, old views freed: %.0f\n", edits, took / TURNS);
}

static void publishes_alone(long nodes)
{
    double took = 0;
    long turn;
    for (turn = 0; turn < TURNS; turn++) {
        edit(HUDARIN_EDIT_SET_OWNER, 1 + turn % (nodes - 1), sid, sid_length);
        took += publish(NULL);
    }
    printf("a publish: %.0f\n", took / TURNS);
}

/* A walk of the view, each node's path and then what was given to it; and a store that goes back. */
static void looks(long nodes)
{
    static unsigned char own[HUDARIN_DESCRIPTOR_BYTES];
    char path[32];
    double from = now();
    long at;
    for (at = 0; at < nodes; at++) {
        hudarin_node node = hudarin_view_node(&view, (uint64_t)at, path, sizeof path);
        HOLDS(hudarin_view_own(&view, path, (size_t)node.written.length, own, sizeof own).written.status == HUDARIN_OK);
    }
    printf("a node of a walk, its path and what was given to it: %.0f\n", (now() - from) / (double)nodes);
    edit(HUDARIN_EDIT_SET_OWNER, 1, sid, sid_length);
    from = now();
    HOLDS(hudarin_store_revert(&store, &view).status == HUDARIN_OK);
    printf("a store that goes back to a view: %.0f\n", now() - from);
}

static void checks(void)
{
    double from = now();
    long at;
    for (at = 0; at < CHECKS; at++) {
        if (!hudarin_is_granted(hudarin_view_check(&view, "/node000005", 11, &token, 0x1).answer)) {
            failed++;
        }
    }
    printf("a check by a path: %.0f\n", (now() - from) / CHECKS);
    from = now();
    for (at = 0; at < CHECKS; at++) {
        hudarin_view other = HUDARIN_NOTHING;
        HOLDS(hudarin_view_share(&view, &other).status == HUDARIN_OK);
        hudarin_free(&other.kept);
    }
    printf("a share of a view, and its end: %.0f\n", (now() - from) / CHECKS);
}

int main(int count, char **words)
{
    long nodes = count > 1 ? atol(words[1]) : 1000, edits = count > 2 ? atol(words[2]) : 10000;
    hudarin_view old[3] = { HUDARIN_NOTHING, HUDARIN_NOTHING, HUDARIN_NOTHING };
    double took = 0;
    int at;
    sid_length = (size_t)hudarin_sid_text_to_bytes("SY", 2, sid, sizeof sid).length;
    HOLDS(hudarin_keep_token(sid, sid_length, NULL, 0, NULL, 0, NULL, 0, 0, &token).status == HUDARIN_OK);
    build(nodes, edits);
    publish(NULL);
    for (at = 0; at < 3; at++) {
        took += edits_and_publish(nodes, at, 1, &old[at]);
    }
    printf("an edit and its publish, old views kept: %.0f\n", took / 3);
    for (at = 0; at < 3; at++) {
        hudarin_free(&old[at].kept);
    }
    publishes_alone(nodes);
    publishes(nodes, 1);
    publishes(nodes, 64);
    checks();
    looks(nodes);
    hudarin_free(&view.kept);
    hudarin_free(&token.kept);
    hudarin_free(&store.kept);
    return close_tally();
}
