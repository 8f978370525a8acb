/* Handles that are shared: each thread has its own of one descriptor and one token, checks by them, makes others of them and frees
 * them, in whatever order. What the first handles kept is freed by whoever is last. */
#include "tally.h"
#include <pthread.h>

#define THREADS 4
#define ROUNDS 2000

static const hudarin_mapping files = HUDARIN_FILE_MAPPING;
static const char sddl[] = "O:BAG:SYD:(D;;0x2;;;WD)(A;;FA;;;S-1-5-21-1-2-3-1001)";
static const unsigned char user[] = { 1, 5, 0, 0, 0, 0, 0, 5, 21, 0, 0, 0, 1, 0, 0, 0, 2, 0, 0, 0, 3, 0, 0, 0, 0xe9, 3, 0, 0 };
static const unsigned char everyone[] = { 1, 1, 0, 0, 0, 0, 0, 1, 0, 0, 0, 0 };

/* What a thread is handed, and how many of its answers were wrong. */
struct part {
    pthread_t thread;
    hudarin_descriptor descriptor;
    hudarin_token token;
    unsigned long wrong;
};

static int is_so(hudarin_descriptor *descriptor, hudarin_token *token)
{
    hudarin_verdict one = hudarin_check_kept(descriptor, token, files, 0x1);
    hudarin_verdict two = hudarin_check_kept(descriptor, token, files, 0x3);
    return one.status == HUDARIN_OK && one.kind == HUDARIN_GRANTED && one.mask == 0x1 && two.status == HUDARIN_OK &&
           two.kind == HUDARIN_DENIED && two.mask == 0x2;
}

static void *work(void *given)
{
    struct part *part = given;
    int round;
    for (round = 0; round < ROUNDS; round++) {
        hudarin_descriptor descriptor = HUDARIN_NOTHING;
        hudarin_token token = HUDARIN_NOTHING;
        part->wrong += hudarin_descriptor_share(&part->descriptor, &descriptor).status != HUDARIN_OK;
        part->wrong += hudarin_token_share(&part->token, &token).status != HUDARIN_OK;
        part->wrong += !is_so(&descriptor, &part->token);
        hudarin_free(&descriptor.kept);
        part->wrong += !is_so(&part->descriptor, &token);
        hudarin_free(&token.kept);
    }
    hudarin_free(&part->descriptor.kept);
    hudarin_free(&part->token.kept);
    return NULL;
}

/* The first handles are freed while the threads work. */
static void shared(void)
{
    static struct part parts[THREADS];
    static const uint32_t enabled = HUDARIN_GROUP_ENABLED;
    hudarin_descriptor descriptor = HUDARIN_NOTHING;
    hudarin_token token = HUDARIN_NOTHING;
    int at;
    HOLDS(hudarin_keep_sddl(sddl, sizeof sddl - 1, &descriptor).status == HUDARIN_OK);
    HOLDS(hudarin_keep_token(user, sizeof user, everyone, sizeof everyone, &enabled, 1, NULL, 0, 0, &token).status == HUDARIN_OK);
    for (at = 0; at < THREADS; at++) {
        hudarin_written answer = hudarin_descriptor_share(&descriptor, &parts[at].descriptor);
        HOLDS(answer.status == HUDARIN_OK && answer.length == 0 && answer.fault == 0 && answer.place == 0);
        HOLDS(hudarin_token_share(&token, &parts[at].token).status == HUDARIN_OK);
        HOLDS(pthread_create(&parts[at].thread, NULL, work, &parts[at]) == 0);
    }
    HOLDS(is_so(&descriptor, &token));
    hudarin_free(&descriptor.kept);
    hudarin_free(&token.kept);
    for (at = 0; at < THREADS; at++) {
        HOLDS(pthread_join(parts[at].thread, NULL) == 0 && parts[at].wrong == 0);
        HOLDS(parts[at].descriptor.kept.is_there == 0 && parts[at].token.kept.is_there == 0);
    }
}

/* What can't be shared, or has no place: both handles stay as they were. */
static void refused(void)
{
    hudarin_descriptor nothing = HUDARIN_NOTHING, descriptor = HUDARIN_NOTHING, other = HUDARIN_NOTHING;
    HOLDS(hudarin_descriptor_share(&nothing, &other).status == HUDARIN_HANDLE && nothing.kept.is_there == 0 && other.kept.is_there == 0);
    HOLDS(hudarin_keep_sddl(sddl, sizeof sddl - 1, &descriptor).status == HUDARIN_OK);
    HOLDS(hudarin_descriptor_share(&nothing, &descriptor).status == HUDARIN_HANDLE && nothing.kept.is_there == 0 && descriptor.kept.is_there == 1);
    HOLDS(hudarin_descriptor_share(&descriptor, &other).status == HUDARIN_OK && other.kept.is_there == 1 && other.kept.at != descriptor.kept.at);
    HOLDS(hudarin_descriptor_share(&descriptor, &other).status == HUDARIN_HANDLE && descriptor.kept.is_there == 1 && other.kept.is_there == 1);
    hudarin_free(&descriptor.kept);
    HOLDS(hudarin_descriptor_share(&descriptor, &nothing).status == HUDARIN_HANDLE && descriptor.kept.is_there == 0 && nothing.kept.is_there == 0);
    hudarin_free(&other.kept);
}

int main(void)
{
    shared();
    refused();
    return close_tally();
}
