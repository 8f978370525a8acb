/*
 * What each call costs that needs no store, in nanoseconds, by the clock: `calls TURNS` prints a row for each, by a list of 1 entry and a
 * token of 5 groups, of 16 and 20, and of 64 and 100. The entries are for groups that the token lacks, but for the last, which is
 * for the user's last group and settles the request. Each figure is the least of five rounds of so many turns. The figures of
 * docs/C.md and bench/NOTES.md are its output; the gate runs it with few turns to see that it runs.
 */
#include "tally.h"
#include <time.h>

#define ROUNDS 5
#define MOST_GROUPS 100

static const hudarin_mapping files = HUDARIN_FILE_MAPPING;
static const unsigned char user[] = { 1, 5, 0, 0, 0, 0, 0, 5, 21, 0, 0, 0, 1, 0, 0, 0, 2, 0, 0, 0, 3, 0, 0, 0, 0xe9, 3, 0, 0 };

/* What the calls of a column are given. */
static char text[8000], canonical_room[8000];
static unsigned char bytes[8000], room[8000], groups[MOST_GROUPS * sizeof user];
static uint32_t states[MOST_GROUPS];
static size_t text_length, length, group_count;
static hudarin_descriptor descriptor = HUDARIN_NOTHING;
static hudarin_token token = HUDARIN_NOTHING;
/* The descriptor with entries that containers and objects inherit, and a token's defaults. */
static unsigned char parent[8000], defaults[200];
static size_t defaults_length;

static int check(void)
{
    return hudarin_is_granted(hudarin_check(bytes, length, user, sizeof user, groups, group_count * sizeof user, states, group_count, NULL,
                                            0, 0, files, 0x1));
}

static int check_bytes(void)
{
    return hudarin_is_granted(hudarin_check_bytes(bytes, length, &token, files, 0x1));
}

static int check_kept(void)
{
    return hudarin_is_granted(hudarin_check_kept(&descriptor, &token, files, 0x1));
}

static int explain(void)
{
    return hudarin_is_granted(hudarin_explain(&descriptor, &token, files, 0x1).answer);
}

static int sddl_to_bytes(void)
{
    return hudarin_sddl_to_bytes(text, text_length, room, sizeof room).status == HUDARIN_OK;
}

static int bytes_to_sddl(void)
{
    return hudarin_bytes_to_sddl(bytes, length, canonical_room, sizeof canonical_room).status == HUDARIN_OK;
}

static int sddl_canonical(void)
{
    return hudarin_sddl_canonical(text, text_length, canonical_room, sizeof canonical_room).status == HUDARIN_OK;
}

static int descriptor_length(void)
{
    return hudarin_descriptor_length(bytes, length).status == HUDARIN_OK;
}

static int whole_at(void)
{
    return hudarin_whole_at(bytes, length, 0, room, sizeof room).status == HUDARIN_OK;
}

static int whole_plain(void)
{
    return hudarin_whole_plain(bytes, length, room, sizeof room).written.status == HUDARIN_OK;
}

static int whole_from_sddl(void)
{
    return hudarin_whole_from_sddl(NULL, 0, text, text_length, room, sizeof room).status == HUDARIN_OK;
}

static int whole_to_sddl(void)
{
    return hudarin_whole_to_sddl(bytes, length, 0, canonical_room, sizeof canonical_room).written.status == HUDARIN_OK;
}

static int create(void)
{
    return hudarin_create(parent, length, NULL, 0, defaults, defaults_length, NULL, 0, NULL, 0, 0, HUDARIN_DACL_AUTO_INHERIT, 0, files,
                          room, sizeof room)
               .written.status == HUDARIN_OK;
}

static int keep_sddl(void)
{
    hudarin_descriptor kept = HUDARIN_NOTHING;
    int is_kept = hudarin_keep_sddl(text, text_length, &kept).status == HUDARIN_OK;
    hudarin_free(&kept.kept);
    return is_kept;
}

static int keep_bytes(void)
{
    hudarin_descriptor kept = HUDARIN_NOTHING;
    int is_kept = hudarin_keep_bytes(bytes, length, &kept).status == HUDARIN_OK;
    hudarin_free(&kept.kept);
    return is_kept;
}

static int keep_token(void)
{
    hudarin_token kept = HUDARIN_NOTHING;
    int is_kept = hudarin_keep_token(user, sizeof user, groups, group_count * sizeof user, states, group_count, NULL, 0, 0, &kept).status ==
                  HUDARIN_OK;
    hudarin_free(&kept.kept);
    return is_kept;
}

static int token_share(void)
{
    hudarin_token other = HUDARIN_NOTHING;
    int is_shared = hudarin_token_share(&token, &other).status == HUDARIN_OK;
    hudarin_free(&other.kept);
    return is_shared;
}

static int sid_text_to_bytes(void)
{
    return hudarin_sid_text_to_bytes("S-1-5-21-1-2-3-1001", 19, room, sizeof room).status == HUDARIN_OK;
}

static int sid_bytes_to_text(void)
{
    return hudarin_sid_bytes_to_text(user, sizeof user, canonical_room, sizeof canonical_room).status == HUDARIN_OK;
}

static int mask_from_text(void)
{
    return hudarin_mask_from_text("FRFX", 4, HUDARIN_KIND_ANY).status == HUDARIN_OK;
}

static const struct call {
    const char *name;
    int (*make)(void);
} calls[] = {
    { "`hudarin_check`", check },
    { "`hudarin_check_bytes`", check_bytes },
    { "`hudarin_check_kept`", check_kept },
    { "`hudarin_explain`", explain },
    { "`hudarin_sddl_to_bytes`", sddl_to_bytes },
    { "`hudarin_bytes_to_sddl`", bytes_to_sddl },
    { "`hudarin_sddl_canonical`", sddl_canonical },
    { "`hudarin_descriptor_length`", descriptor_length },
    { "`hudarin_whole_at`", whole_at },
    { "`hudarin_whole_plain`", whole_plain },
    { "`hudarin_whole_from_sddl`", whole_from_sddl },
    { "`hudarin_whole_to_sddl`", whole_to_sddl },
    { "`hudarin_create`", create },
    { "`hudarin_keep_sddl`, and its end", keep_sddl },
    { "`hudarin_keep_bytes`, and its end", keep_bytes },
    { "`hudarin_keep_token`, and its end", keep_token },
    { "`hudarin_token_share`, and its end", token_share },
    { "`hudarin_sid_text_to_bytes`", sid_text_to_bytes },
    { "`hudarin_sid_bytes_to_text`", sid_bytes_to_text },
    { "`hudarin_mask_from_text`", mask_from_text },
};

#define CALLS (sizeof calls / sizeof calls[0])
#define COLUMNS 3

/* The flags OI and CI of each entry of the parent, which is the descriptor but for these: the first stands after the header, the
 * SIDs of BA and SY, and the list's header. */
static void pass_on(size_t entries)
{
    static const char text_of_defaults[] = "O:BAG:SYD:(A;;GA;;;BA)(A;;GA;;;SY)";
    size_t at, size = 8 + sizeof user;
    memcpy(parent, bytes, length);
    for (at = 0; at < entries; at++) {
        parent[20 + 16 + 12 + 8 + at * size + 1] = 3;
    }
    defaults_length = (size_t)hudarin_sddl_to_bytes(text_of_defaults, sizeof text_of_defaults - 1, defaults, sizeof defaults).length;
}

static void prepare(size_t entries, size_t held)
{
    size_t at;
    text_length = (size_t)snprintf(text, sizeof text, "O:BAG:SYD:");
    for (at = 0; at < entries; at++) {
        size_t number = at + 1 < entries ? 5000 + at : 2000 + held - 1;
        text_length += (size_t)snprintf(text + text_length, sizeof text - text_length, "(A;;FR;;;S-1-5-21-1-2-3-%zu)", number);
    }
    group_count = held;
    for (at = 0; at < held; at++) {
        uint32_t number = 2000 + (uint32_t)at;
        memcpy(groups + at * sizeof user, user, sizeof user - 4);
        memcpy(groups + at * sizeof user + sizeof user - 4, &number, 4);
        states[at] = HUDARIN_GROUP_ENABLED;
    }
    length = (size_t)hudarin_sddl_to_bytes(text, text_length, bytes, sizeof bytes).length;
    pass_on(entries);
    hudarin_free(&descriptor.kept);
    hudarin_free(&token.kept);
    HOLDS(hudarin_keep_bytes(bytes, length, &descriptor).status == HUDARIN_OK);
    HOLDS(hudarin_keep_token(user, sizeof user, groups, held * sizeof user, states, held, NULL, 0, 0, &token).status == HUDARIN_OK);
}

static double now(void)
{
    struct timespec at;
    clock_gettime(CLOCK_MONOTONIC, &at);
    return 1e9 * (double)at.tv_sec + (double)at.tv_nsec;
}

static double least(const struct call *call, long turns)
{
    double found = 0;
    int round;
    for (round = 0; round < ROUNDS; round++) {
        long turn, made = 0;
        double from = now(), took;
        for (turn = 0; turn < turns; turn++) {
            made += call->make();
        }
        took = (now() - from) / (double)turns;
        HOLDS(made == turns);
        found = round == 0 || took < found ? took : found;
    }
    return found;
}

int main(int count, char **words)
{
    static const size_t sizes[COLUMNS][2] = { { 1, 5 }, { 16, 20 }, { 64, 100 } };
    static double found[CALLS][COLUMNS];
    long turns = count > 1 ? atol(words[1]) : 100000;
    size_t call, column;
    for (column = 0; column < COLUMNS; column++) {
        prepare(sizes[column][0], sizes[column][1]);
        for (call = 0; call < CALLS; call++) {
            found[call][column] = least(&calls[call], turns);
        }
    }
    for (call = 0; call < CALLS; call++) {
        printf("| %s | %.0f | %.0f | %.0f |\n", calls[call].name, found[call][0], found[call][1], found[call][2]);
    }
    hudarin_free(&descriptor.kept);
    hudarin_free(&token.kept);
    return close_tally();
}
