/*
 * The peer of the benchmark: Samba's check, its SDDL and its binary form, of the shapes that src/shapes.rt makes.
 *
 * A line for each call, as the benchmark's own: what was measured, a tab and its nanoseconds. The libraries are
 * opened at run time, by the symbols that Debian's packages export, so that nothing of Samba is needed to build
 * this. Where they aren't there the status is 1 and nothing is written.
 */
#include <dlfcn.h>
#include <stdint.h>
#include <stdio.h>
#include <stdlib.h>
#include <string.h>
#include <time.h>

/* [MS-DTYP] 2.4.2.2, as Samba keeps it. */
struct dom_sid {
    uint8_t revision;
    int8_t count;
    uint8_t authority[6];
    uint32_t subs[15];
};

/*
 * What Samba's checks read of a token: its SIDs stand first in every version, and what comes behind them is zeros
 * here: no privileges, no rights, no claims.
 */
struct token {
    uint32_t sid_count;
    struct dom_sid *sids;
    uint8_t rest[4096];
};

enum { RUNS = 12, RUN_NANOS = 4000000 };

static void *(*new_context)(const void *, size_t, const char *);
static int (*free_context)(void *, const char *);
static void *(*sddl_decode)(void *, const char *, const struct dom_sid *);
static char *(*sddl_encode)(void *, const void *, const struct dom_sid *);
static uint32_t (*marshall)(void *, const void *, uint8_t **, size_t *);
static uint32_t (*unmarshall)(void *, uint8_t *, size_t, void **);
static uint32_t (*access_check)(const void *, const struct token *, uint32_t, uint32_t *);

/* What a piece of work is done on. */
struct subject {
    void *descriptor;
    struct token *token;
    const char *text;
    uint8_t *bytes;
    size_t size;
};

static uint64_t now(void)
{
    struct timespec t;

    clock_gettime(CLOCK_MONOTONIC, &t);
    return (uint64_t)t.tv_sec * 1000000000u + (uint64_t)t.tv_nsec;
}

static void checks(const struct subject *s)
{
    uint32_t granted = 0;

    if (access_check(s->descriptor, s->token, 1, &granted) != 0 || granted != 1) {
        fputs("bench: the peer refused an access that its list grants\n", stderr);
        exit(2);
    }
}

static void reads_text(const struct subject *s)
{
    void *context = new_context(NULL, 0, "bench");

    if (sddl_decode(context, s->text, NULL) == NULL)
        exit(2);
    free_context(context, "bench");
}

static void prints_text(const struct subject *s)
{
    void *context = new_context(NULL, 0, "bench");

    if (sddl_encode(context, s->descriptor, NULL) == NULL)
        exit(2);
    free_context(context, "bench");
}

static void reads_bytes(const struct subject *s)
{
    void *context = new_context(NULL, 0, "bench");
    void *descriptor = NULL;

    if (unmarshall(context, s->bytes, s->size, &descriptor) != 0)
        exit(2);
    free_context(context, "bench");
}

static void checks_bytes(const struct subject *s)
{
    void *context = new_context(NULL, 0, "bench");
    void *descriptor = NULL;
    uint32_t granted = 0;

    if (unmarshall(context, s->bytes, s->size, &descriptor) != 0 || access_check(descriptor, s->token, 1, &granted) != 0)
        exit(2);
    free_context(context, "bench");
}

static void writes_bytes(const struct subject *s)
{
    void *context = new_context(NULL, 0, "bench");
    uint8_t *bytes = NULL;
    size_t size = 0;

    if (marshall(context, s->descriptor, &bytes, &size) != 0)
        exit(2);
    free_context(context, "bench");
}

static uint64_t run_nanos(void (*work)(const struct subject *), const struct subject *s, uint64_t turns)
{
    uint64_t start = now();

    for (uint64_t turn = 0; turn < turns; turn++)
        work(s);
    return now() - start;
}

/* The least time of one call, in nanoseconds. */
static double nanos_of(void (*work)(const struct subject *), const struct subject *s)
{
    uint64_t turns = 1, least = UINT64_MAX;

    while (run_nanos(work, s, turns) < RUN_NANOS)
        turns *= 2;
    for (int run = 0; run < RUNS; run++) {
        uint64_t nanos = run_nanos(work, s, turns);

        if (nanos < least)
            least = nanos;
    }
    return (double)least / (double)turns;
}

static struct dom_sid domain_sid(uint32_t rid)
{
    struct dom_sid sid = { 1, 5, { 0, 0, 0, 0, 0, 5 }, { 21, 1111, 2222, 3333, rid } };

    return sid;
}

/* The text of src/shapes.rt's descriptor of so many entries. */
static char *text_of(int count)
{
    static const char domain[] = "S-1-5-21-1111-2222-3333";
    char *text = malloc(128 + 64 * (size_t)count);
    char *end;

    if (text == NULL)
        exit(2);
    end = text + sprintf(text, "O:%s-500G:%s-513D:", domain, domain);
    for (int place = 0; place < count; place++) {
        int rid = place == count - 1 ? 5005 : 20000 + 7 * place;

        end += sprintf(end, "(A;;FA;;;%s-%d)", domain, rid);
    }
    return text;
}

static struct token *token_of(int count)
{
    struct token *token = calloc(1, sizeof *token);

    if (token == NULL || (token->sids = calloc((size_t)count + 1, sizeof *token->sids)) == NULL)
        exit(2);
    token->sid_count = (uint32_t)count + 1;
    token->sids[0] = domain_sid(1001);
    for (int place = 0; place < count; place++)
        token->sids[place + 1] = domain_sid(place == count - 1 ? 5005 : 3000 + 3 * (uint32_t)place);
    return token;
}

static void *library_of(const char *const *names)
{
    for (; *names != NULL; names++) {
        void *library = dlopen(*names, RTLD_NOW | RTLD_GLOBAL);

        if (library != NULL)
            return library;
    }
    return NULL;
}

static int open_libraries(void)
{
    static const char *const security_names[] = {
        "libsamba-security-samba4.so.0",
        "libsamba-security-private-samba.so.0",
        "libsamba-security-samba4.so",
        "libsamba-security-private-samba.so",
        NULL,
    };
    static const char *const talloc_names[] = { "libtalloc.so.2", NULL };
    void *talloc = library_of(talloc_names);
    void *security = library_of(security_names);

    if (talloc == NULL || security == NULL)
        return 0;
    *(void **)&new_context = dlsym(talloc, "talloc_named_const");
    *(void **)&free_context = dlsym(talloc, "_talloc_free");
    *(void **)&sddl_decode = dlsym(security, "sddl_decode");
    *(void **)&sddl_encode = dlsym(security, "sddl_encode");
    *(void **)&marshall = dlsym(security, "marshall_sec_desc");
    *(void **)&unmarshall = dlsym(security, "unmarshall_sec_desc");
    *(void **)&access_check = dlsym(security, "se_access_check");
    return new_context && free_context && sddl_decode && sddl_encode && marshall && unmarshall && access_check;
}

int main(void)
{
    static const int entries[] = { 1, 4, 16, 64, 256, 850, 1000 };
    static const int groups[] = { 5, 20, 100 };
    static const int lengths[] = { 1, 16, 256 };
    static const int over_bytes[][2] = { { 1, 5 }, { 1, 100 }, { 4, 20 }, { 16, 20 }, { 64, 100 } };

    if (!open_libraries())
        return 1;
    for (size_t i = 0; i < sizeof entries / sizeof *entries; i++) {
        struct subject s = { .text = text_of(entries[i]) };

        s.descriptor = sddl_decode(new_context(NULL, 0, "bench"), s.text, NULL);
        if (s.descriptor == NULL)
            return 2;
        for (size_t j = 0; j < sizeof groups / sizeof *groups; j++) {
            s.token = token_of(groups[j]);
            printf("check, %d entries, %d groups\t%.1f\n", entries[i], groups[j], nanos_of(checks, &s));
        }
    }
    for (size_t i = 0; i < sizeof over_bytes / sizeof *over_bytes; i++) {
        void *context = new_context(NULL, 0, "bench");
        struct subject s = { .text = text_of(over_bytes[i][0]), .token = token_of(over_bytes[i][1]) };

        s.descriptor = sddl_decode(context, s.text, NULL);
        if (s.descriptor == NULL || marshall(context, s.descriptor, &s.bytes, &s.size) != 0)
            return 2;
        printf("check over bytes, %d entries, %d groups\t%.1f\n", over_bytes[i][0], over_bytes[i][1], nanos_of(checks_bytes, &s));
    }
    for (size_t i = 0; i < sizeof lengths / sizeof *lengths; i++) {
        void *context = new_context(NULL, 0, "bench");
        struct subject s = { .text = text_of(lengths[i]) };

        s.descriptor = sddl_decode(context, s.text, NULL);
        if (s.descriptor == NULL || marshall(context, s.descriptor, &s.bytes, &s.size) != 0)
            return 2;
        printf("read SDDL, %d entries\t%.1f\n", lengths[i], nanos_of(reads_text, &s));
        printf("print SDDL, %d entries\t%.1f\n", lengths[i], nanos_of(prints_text, &s));
        printf("read binary, %d entries\t%.1f\n", lengths[i], nanos_of(reads_bytes, &s));
        printf("write binary, %d entries\t%.1f\n", lengths[i], nanos_of(writes_bytes, &s));
    }
    return 0;
}
