/*
 * Four threads that check by views of a store, beside a writer that edits it and publishes. Each edit gives a node another list,
 * which grants a mask made of the edit's number in the journal, so each answer is compared with what its own length says.
 *
 * An edit changes in place what no view holds any more: that a thread's last read of it comes before is ensured by counts in the
 * library, which valgrind's helgrind and drd don't take for an order. For them LOCKED_ENDS is 1: a view ends, and edits and publishes are
 * made, while the lock is held, whose order they know. Checks and shares are made as ever.
 */
#include "tally.h"
#include <pthread.h>

#define THREADS 4
#ifndef PUBLISHES
#define PUBLISHES 2000
#define CHECKS 2500000
#endif
#ifndef LOCKED_ENDS
#define LOCKED_ENDS 0
#endif

static const hudarin_mapping files = HUDARIN_FILE_MAPPING;
static const unsigned char user[] = { 1, 5, 0, 0, 0, 0, 0, 5, 21, 0, 0, 0, 1, 0, 0, 0, 2, 0, 0, 0, 3, 0, 0, 0, 0xe9, 3, 0, 0 };
static const unsigned char everyone[] = { 1, 1, 0, 0, 0, 0, 0, 1, 0, 0, 0, 0 };
static const uint32_t enabled = HUDARIN_GROUP_ENABLED;

/* The view that is published, which each thread takes its own share of. */
static pthread_mutex_t lock = PTHREAD_MUTEX_INITIALIZER;
static hudarin_view published = HUDARIN_NOTHING;

/* What the node's list grants after so many edits: never nothing. */
static uint32_t mask_after(uint64_t edits)
{
    return (uint32_t)(1 + edits % 0x1ff);
}

static hudarin_view held(void)
{
    hudarin_view own = HUDARIN_NOTHING;
    pthread_mutex_lock(&lock);
    if (hudarin_view_share(&published, &own).status != HUDARIN_OK) {
        abort();
    }
    pthread_mutex_unlock(&lock);
    return own;
}

/* The lock, where an order is wanted that helgrind and drd know. */
static void ordered(int (*take_or_give)(pthread_mutex_t *))
{
    if (LOCKED_ENDS) {
        take_or_give(&lock);
    }
}

static void end(hudarin_view *view)
{
    ordered(pthread_mutex_lock);
    hudarin_free(&view->kept);
    ordered(pthread_mutex_unlock);
}

/* What a thread found: answers that were wrong, a length that went back, and how many lengths it met. */
struct part {
    pthread_t thread;
    hudarin_token token;
    unsigned long wrong, lengths;
};

static void *work(void *given)
{
    struct part *part = given;
    uint64_t last = 0;
    long made = 0;
    while (made < CHECKS) {
        hudarin_view view = held();
        int turn;
        for (turn = 0; turn < 500; turn++, made++) {
            hudarin_view_verdict it = hudarin_view_check(&view, "/a", 2, &part->token, 0x02000000u);
            part->wrong += !hudarin_is_granted(it.answer) || it.answer.mask != mask_after(it.length) || it.length < last;
            part->lengths += it.length != last;
            last = it.length;
        }
        end(&view);
    }
    return NULL;
}

static int edited(hudarin_store *store, uint32_t kind, const char *owners, uint64_t edits)
{
    unsigned char bytes[100];
    char sddl[80];
    int length = snprintf(sddl, sizeof sddl, "%sD:P(A;;0x%x;;;WD)", owners, (unsigned)mask_after(edits));
    size_t size = (size_t)hudarin_sddl_to_bytes(sddl, (size_t)length, bytes, sizeof bytes).length;
    int is_made;
    ordered(pthread_mutex_lock);
    is_made = hudarin_store_edit(store, kind, "/a", 2, bytes, size).status == HUDARIN_OK;
    ordered(pthread_mutex_unlock);
    return is_made;
}

static void publish(hudarin_store *store, uint64_t edits)
{
    hudarin_view next = HUDARIN_NOTHING, before;
    ordered(pthread_mutex_lock);
    HOLDS(hudarin_store_publish(store, &next).length == edits && next.kept.is_there);
    if (!LOCKED_ENDS) {
        pthread_mutex_lock(&lock);
    }
    before = published;
    published = next;
    pthread_mutex_unlock(&lock);
    end(&before);
}

int main(void)
{
    static struct part parts[THREADS];
    unsigned char root[100];
    hudarin_store store = HUDARIN_NOTHING;
    hudarin_token token = HUDARIN_NOTHING;
    size_t length = (size_t)hudarin_sddl_to_bytes("O:SYG:SYD:", 10, root, sizeof root).length;
    uint64_t edits = 1;
    int at, publishes;
    HOLDS(hudarin_store_open(root, length, files, &store).status == HUDARIN_OK);
    HOLDS(hudarin_keep_token(user, sizeof user, everyone, sizeof everyone, &enabled, 1, NULL, 0, 0, &token).status == HUDARIN_OK);
    HOLDS(edited(&store, HUDARIN_EDIT_ADD_OBJECT, "O:SYG:SY", edits));
    publish(&store, edits);
    for (at = 0; at < THREADS; at++) {
        HOLDS(hudarin_token_share(&token, &parts[at].token).status == HUDARIN_OK);
        HOLDS(pthread_create(&parts[at].thread, NULL, work, &parts[at]) == 0);
    }
    for (publishes = 1; publishes < PUBLISHES; publishes++) {
        int left;
        for (left = publishes % 5; left >= 0; left--) {
            HOLDS(edited(&store, HUDARIN_EDIT_SET_DACL, "", ++edits));
        }
        publish(&store, edits);
        usleep(200);
    }
    for (at = 0; at < THREADS; at++) {
        HOLDS(pthread_join(parts[at].thread, NULL) == 0);
        HOLDS(parts[at].wrong == 0 && parts[at].lengths > 0);
        printf("%d checks met %lu views\n", CHECKS, parts[at].lengths);
        hudarin_free(&parts[at].token.kept);
    }
    hudarin_free(&published.kept);
    hudarin_free(&store.kept);
    hudarin_free(&token.kept);
    return close_tally();
}
