/* Who calls: the process's user, its group and further groups, with Everyone and Authenticated Users, as a token. */
#include "hudarinfs.h"

#include <errno.h>
#include <fuse.h>
#include <pthread.h>
#include <stdlib.h>
#include <string.h>

/* A process in more groups is refused: to leave some out could leave out a deny. */
#define MOST_GROUPS 1024

struct who {
    uid_t uid;
    size_t count;
    gid_t groups[MOST_GROUPS + 1]; /* the first is the process's own */
    struct sid user;
    hudarin_token token;
};

static pthread_key_t key;
static pthread_once_t once = PTHREAD_ONCE_INIT;
static int key_error;

static void who_free(void *at)
{
    struct who *who = at;
    hudarin_free(&who->token.kept);
    free(who);
}

static void make_key(void)
{
    key_error = pthread_key_create(&key, who_free);
}

/* The thread's own, made at its first call. */
static struct who *who_mine(void)
{
    if (pthread_once(&once, make_key) != 0 || key_error != 0) {
        return NULL;
    }
    struct who *who = pthread_getspecific(key);
    if (who == NULL) {
        who = calloc(1, sizeof *who);
        if (who != NULL && pthread_setspecific(key, who) != 0) {
            free(who);
            who = NULL;
        }
    }
    return who;
}

static size_t append(unsigned char *room, size_t length, const struct sid *sid)
{
    memcpy(room + length, sid->bytes, sid->length);
    return length + sid->length;
}

/* Everyone and Authenticated Users stand behind the groups of the process. */
static int make_token(struct who *who)
{
    static const struct sid everyone = { 12, { 1, 1, 0, 0, 0, 0, 0, 1, 0, 0, 0, 0 } };
    static const struct sid authenticated = { 12, { 1, 1, 0, 0, 0, 0, 0, 5, 11, 0, 0, 0 } };
    size_t count = who->count + 2, length = 0;
    unsigned char *room = malloc(count * HUDARIN_SID_BYTES);
    uint32_t *states = malloc(count * sizeof *states);
    int result = -ENOMEM;
    if (room != NULL && states != NULL) {
        for (size_t place = 0; place < count; place++) {
            states[place] = HUDARIN_GROUP_ENABLED;
        }
        for (size_t place = 0; place < who->count; place++) {
            struct sid sid = sid_of_gid(who->groups[place]);
            length = append(room, length, &sid);
        }
        length = append(room, length, &everyone);
        length = append(room, length, &authenticated);
        uint32_t privileges = who->uid == 0 ? HUDARIN_PRIVILEGE_SECURITY | HUDARIN_PRIVILEGE_TAKE_OWNERSHIP : 0;
        hudarin_verdict made = hudarin_keep_token(who->user.bytes, who->user.length, room, length, states, count, NULL,
                                                  0, privileges, &who->token);
        result = made.status == HUDARIN_OK ? 0 : error_of(made.status, made.fault);
    }
    free(states);
    free(room);
    return result;
}

/* The groups are read at each call, since a process may change them; the token is made anew where they did. */
int who_calls(struct who **answer)
{
    gid_t groups[MOST_GROUPS + 1];
    struct fuse_context *context = fuse_get_context();
    struct who *who = who_mine();
    if (context == NULL || who == NULL) {
        return -EIO;
    }
    int further = fuse_getgroups(MOST_GROUPS, groups + 1);
    if (further < 0 || further > MOST_GROUPS) {
        say("the groups of the process aren't known: %s", further < 0 ? strerror(-further) : "they are too many");
        bool lacks = further == -EMFILE || further == -ENFILE || further == -ENOMEM;
        return lacks ? further : -EACCES;
    }
    groups[0] = context->gid;
    size_t count = (size_t)further + 1;
    bool is_same = who->token.kept.is_there == 1 && who->uid == context->uid && who->count == count &&
                   memcmp(who->groups, groups, count * sizeof *groups) == 0;
    if (!is_same) {
        hudarin_free(&who->token.kept);
        who->uid = context->uid;
        who->count = count;
        memcpy(who->groups, groups, count * sizeof *groups);
        who->user = sid_of_uid(context->uid);
        int made = make_token(who);
        if (made < 0) {
            return made;
        }
    }
    *answer = who;
    return 0;
}

hudarin_token *who_token(struct who *who)
{
    return &who->token;
}

const struct sid *who_user(const struct who *who)
{
    return &who->user;
}

bool who_is_root(const struct who *who)
{
    return who == NULL || who->uid == 0;
}

struct sid who_group(const struct who *who)
{
    return sid_of_gid(who->groups[0]);
}

bool who_has(const struct who *who, const struct sid *sid)
{
    bool has = sid_equal(&who->user, sid);
    for (size_t place = 0; place < who->count && !has; place++) {
        struct sid group = sid_of_gid(who->groups[place]);
        has = sid_equal(&group, sid);
    }
    return has;
}
