/*
 * What a user may take of what all users share: open files, each of which is a descriptor of this process, and nodes of
 * the tree, counted for their owner. Root has no quota, and a part of both is reserved for it.
 */
#include "hudarinfs.h"

#include <errno.h>
#include <pthread.h>
#include <stdlib.h>
#include <string.h>
#include <sys/resource.h>

/* ---- Open files */

/* How many descriptors the process should have, if root may raise its limit so far. */
#define WANTED_DESCRIPTORS 65536
/* Descriptors that no open file takes: an operation has three at most at once, and 16 operations run at once. */
#define RESERVED_DESCRIPTORS 128
/* Open files that only root may have. */
#define RESERVED_OPENS 128
#define BUCKETS 1024

struct user {
    uid_t uid;
    uint64_t opens;
    struct user *next;
};

static struct user *users[BUCKETS]; /* under the lock, as are the rest */
static pthread_mutex_t lock = PTHREAD_MUTEX_INITIALIZER;
static uid_t *openers; /* of each descriptor */
static uint64_t descriptors, opens, most_opens;

/* Raises the limit as far as it goes. */
static uint64_t raise_limit(void)
{
    struct rlimit limit, wanted = { WANTED_DESCRIPTORS, WANTED_DESCRIPTORS };
    if (setrlimit(RLIMIT_NOFILE, &wanted) != 0 && getrlimit(RLIMIT_NOFILE, &limit) == 0) {
        limit.rlim_cur = limit.rlim_max < WANTED_DESCRIPTORS ? limit.rlim_max : WANTED_DESCRIPTORS;
        (void)setrlimit(RLIMIT_NOFILE, &limit);
    }
    return getrlimit(RLIMIT_NOFILE, &limit) == 0 ? (uint64_t)limit.rlim_cur : 0;
}

int opens_begin(uint64_t most)
{
    descriptors = raise_limit();
    if (descriptors < RESERVED_DESCRIPTORS + RESERVED_OPENS + 2) {
        say("%llu descriptors are too few: raise the limit (ulimit -n)", (unsigned long long)descriptors);
        return -EMFILE;
    }
    /* (two users at least, whatever the limit is) */
    uint64_t half = (descriptors - RESERVED_DESCRIPTORS - RESERVED_OPENS) / 2;
    most_opens = most < half ? most : half;
    openers = calloc(descriptors, sizeof *openers);
    return openers == NULL ? -ENOMEM : 0;
}

static struct user **user_at(uid_t uid)
{
    struct user **at = &users[uid % BUCKETS];
    while (*at != NULL && (*at)->uid != uid) {
        at = &(*at)->next;
    }
    return at;
}

static int take_open(uid_t uid)
{
    struct user **at = user_at(uid);
    uint64_t room = descriptors - RESERVED_DESCRIPTORS - (uid == 0 ? 0 : RESERVED_OPENS);
    if (opens >= room || (uid != 0 && *at != NULL && (*at)->opens >= most_opens)) {
        return -EMFILE;
    }
    if (*at == NULL) {
        *at = calloc(1, sizeof **at);
        if (*at == NULL) {
            return -ENOMEM;
        }
        (*at)->uid = uid;
    }
    (*at)->opens++;
    opens++;
    return 0;
}

int open_take(uid_t uid)
{
    (void)pthread_mutex_lock(&lock);
    int result = take_open(uid);
    (void)pthread_mutex_unlock(&lock);
    if (result < 0) {
        say("no open is left: %s", strerror(-result));
    }
    return result;
}

void open_give_back(uid_t uid)
{
    (void)pthread_mutex_lock(&lock);
    struct user **at = user_at(uid), *user = *at;
    if (user != NULL && --user->opens == 0) {
        *at = user->next;
        free(user);
    }
    opens--;
    (void)pthread_mutex_unlock(&lock);
}

void open_is(int fd, uid_t uid)
{
    openers[fd] = uid;
}

uid_t opener_of(int fd)
{
    return openers[fd];
}

/* ---- Nodes, all by the one writer */

/* Nodes that only root may add. */
#define RESERVED_NODES 1024
#define TREE_NODES 65536

struct owner {
    struct sid sid;
    uint64_t nodes;
    struct owner *next;
};

static struct owner *owners[BUCKETS];
static uint64_t nodes, most_nodes;

void nodes_begin(uint64_t most)
{
    most_nodes = most;
}

/* The owner's count, which is made where there is none: NULL if memory runs out. */
static struct owner *owner_at(const struct sid *sid)
{
    size_t bucket = 0;
    for (size_t place = 0; place < sid->length; place++) {
        bucket = (bucket * 31 + sid->bytes[place]) % BUCKETS;
    }
    struct owner *owner = owners[bucket];
    while (owner != NULL && !sid_equal(&owner->sid, sid)) {
        owner = owner->next;
    }
    if (owner == NULL) {
        owner = calloc(1, sizeof *owner);
        if (owner != NULL) {
            owner->sid = *sid;
            owner->next = owners[bucket];
            owners[bucket] = owner;
        }
    }
    return owner;
}

int nodes_may(const struct sid *owner, bool is_root, bool is_new)
{
    struct owner *count = owner_at(owner);
    if (count == NULL) {
        return -ENOMEM;
    }
    if (is_root) {
        return 0;
    }
    if (count->nodes >= most_nodes) {
        say("the owner has its quota of %llu nodes", (unsigned long long)most_nodes);
        return -EDQUOT;
    }
    if (is_new && nodes >= TREE_NODES - RESERVED_NODES) {
        say("the last %d nodes of the tree are root's", RESERVED_NODES);
        return -ENOSPC;
    }
    return 0;
}

int nodes_count(const struct sid *owner, int by)
{
    struct owner *count = owner_at(owner);
    if (count == NULL) {
        return -ENOMEM;
    }
    count->nodes += (uint64_t)(int64_t)by;
    nodes += (uint64_t)(int64_t)by;
    return 0;
}
