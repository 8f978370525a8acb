/* Arguments at their limits: nothing at all, rooms that just fit, each bit of a state, a privilege and a mapping; and the limits of a
 * store. */
#include "rooms.h"

static const hudarin_mapping files = HUDARIN_FILE_MAPPING;

typedef hudarin_written by_text(const char *, size_t, char *, size_t);

/* One call, over a room of so many bytes that can't be passed, each of them 0x5A before. */
struct call {
    const char *name;
    hudarin_written (*bytes_to_text)(const void *, size_t, char *, size_t);
    hudarin_written (*text_to_bytes)(const char *, size_t, void *, size_t);
    by_text *text_to_text;
};

static const struct call calls[] = {
    { "sddl_to_bytes", NULL, hudarin_sddl_to_bytes, NULL },
    { "bytes_to_sddl", hudarin_bytes_to_sddl, NULL, NULL },
    { "sddl_canonical", NULL, NULL, hudarin_sddl_canonical },
    { "sid_text_to_bytes", NULL, hudarin_sid_text_to_bytes, NULL },
    { "sid_bytes_to_text", hudarin_sid_bytes_to_text, NULL, NULL },
    { "sid_bytes_to_full_text", hudarin_sid_bytes_to_full_text, NULL, NULL },
};

static hudarin_written made(const struct call *call, const void *given, size_t length, unsigned char *room, size_t room_length)
{
    if (call->bytes_to_text) {
        return call->bytes_to_text(given, length, (char *)room, room_length);
    }
    if (call->text_to_bytes) {
        return call->text_to_bytes(given, length, room, room_length);
    }
    return call->text_to_text(given, length, (char *)room, room_length);
}

/* Rooms of all lengths about the one that is wanted. */
static void rooms(const struct call *call, const void *given, size_t length, const void *wanted, size_t wanted_length)
{
    size_t room_length;
    unsigned char *bytes = lent(given, length);
    for (room_length = 0; room_length <= wanted_length + 3; room_length++) {
        int fits = room_length >= wanted_length;
        unsigned char *room = fresh_room(room_length);
        hudarin_written answer = made(call, bytes, length, room_length == 0 ? NULL : room, room_length);
        HOLDS(answer.status == (fits ? HUDARIN_OK : HUDARIN_ROOM));
        HOLDS(answer.length == wanted_length && answer.fault == 0 && answer.place == 0);
        HOLDS(room_is(room, room_length, wanted, fits ? wanted_length : 0));
    }
}

/* A room of the greatest length is written no further than what is wanted: behind that nothing can be. */
static void greatest(const struct call *call, const void *given, size_t length, size_t wanted_length)
{
    hudarin_written answer = made(call, lent(given, length), length, out_end - wanted_length, PTRDIFF_MAX);
    HOLDS(answer.status == HUDARIN_OK && answer.length == wanted_length);
}

/* A refusal, whatever the room. */
static void refused(const struct call *call, const void *given, size_t length, uint32_t status, uint32_t fault, uint64_t place)
{
    size_t room_length;
    unsigned char *bytes = length == 0 ? NULL : lent(given, length);
    for (room_length = 0; room_length < ROOM; room_length += 133) {
        unsigned char *room = fresh_room(room_length);
        hudarin_written answer = made(call, bytes, length, room_length == 0 ? NULL : room, room_length);
        HOLDS(answer.status == status && answer.fault == fault && answer.place == place && answer.length == 0);
        HOLDS(room_is(room, room_length, "", 0));
    }
}

/* O:BAG:SYD:(A;;FA;;;WD), the worked example of docs/FORMATS.md. */
static const unsigned char worked[76] = {
    1, 0, 4, 0x80, 0x14, 0, 0, 0, 0x24, 0, 0, 0, 0, 0, 0, 0, 0x30, 0, 0, 0,
    1, 2, 0, 0, 0, 0, 0, 5, 32, 0, 0, 0, 32, 2, 0, 0,
    1, 1, 0, 0, 0, 0, 0, 5, 18, 0, 0, 0,
    2, 0, 0x1c, 0, 1, 0, 0, 0, 0, 0, 0x14, 0, 0xff, 1, 0x1f, 0, 1, 1, 0, 0, 0, 0, 0, 1, 0, 0, 0, 0,
};
static const char worked_text[] = "O:BAG:SYD:(A;;FA;;;WD)";
static const unsigned char user[] = { 1, 5, 0, 0, 0, 0, 0, 5, 21, 0, 0, 0, 1, 0, 0, 0, 2, 0, 0, 0, 3, 0, 0, 0, 0xe9, 3, 0, 0 };
static const unsigned char everyone[] = { 1, 1, 0, 0, 0, 0, 0, 1, 0, 0, 0, 0 };

static void writing(void)
{
    static const char empty[20] = { 1, 0, 0, (char)0x80 };
    rooms(&calls[0], worked_text, sizeof worked_text - 1, worked, sizeof worked);
    rooms(&calls[0], "", 0, empty, sizeof empty);
    rooms(&calls[1], worked, sizeof worked, worked_text, sizeof worked_text - 1);
    rooms(&calls[2], "o:bag:syd:(a;;fa;;;wd)", 22, worked_text, 22);
    rooms(&calls[2], "", 0, "", 0);
    rooms(&calls[3], "s-1-5-21-1-2-3-1001", 19, user, sizeof user);
    rooms(&calls[4], user, sizeof user, "S-1-5-21-1-2-3-1001", 19);
    rooms(&calls[4], everyone, sizeof everyone, "WD", 2);
    rooms(&calls[5], everyone, sizeof everyone, "S-1-1-0", 7);
    greatest(&calls[0], worked_text, sizeof worked_text - 1, sizeof worked);
    greatest(&calls[1], worked, sizeof worked, sizeof worked_text - 1);
    greatest(&calls[2], worked_text, sizeof worked_text - 1, sizeof worked_text - 1);
    greatest(&calls[3], "S-1-5-21-1-2-3-1001", 19, sizeof user);
    greatest(&calls[4], user, sizeof user, 19);
    greatest(&calls[5], everyone, sizeof everyone, 7);
}

static void refusals(void)
{
    refused(&calls[0], "O:DA", 4, HUDARIN_TEXT, HUDARIN_TEXT_DOMAIN_ALIAS, 2);
    refused(&calls[0], "O:XX", 4, HUDARIN_TEXT, HUDARIN_TEXT_UNKNOWN_ALIAS, 2);
    refused(&calls[0], "O:SYS:", 6, HUDARIN_TEXT, HUDARIN_TEXT_HAS_SACL, 4);
    refused(&calls[0], "D:(A;;FA;;;WD)S:AI", 18, HUDARIN_TEXT, HUDARIN_TEXT_HAS_SACL, 14);
    refused(&calls[2], "D:(A;;FA;;;WD)(D;;FR;;;BU)S:(", 29, HUDARIN_TEXT, HUDARIN_TEXT_HAS_SACL, 26);
    refused(&calls[0], "D:(AA;;FA;;;WD)", 15, HUDARIN_TEXT, HUDARIN_TEXT_ENTRY_KIND, 3);
    refused(&calls[0], "D:(A;;FA;x;;WD)", 15, HUDARIN_TEXT, HUDARIN_TEXT_OBJECT_GUID, 9);
    refused(&calls[2], "D:(A;;0x100000000;;;WD)", 23, HUDARIN_TEXT, HUDARIN_TEXT_RANGE, 6);
    refused(&calls[2], "O:BA\0", 5, HUDARIN_TEXT, HUDARIN_TEXT_SYNTAX, 4);
    refused(&calls[0], "D:\xc3", 3, HUDARIN_UTF8, 0, 2);
    refused(&calls[2], "\xed\xa0\x80", 3, HUDARIN_UTF8, 0, 0);
    refused(&calls[3], "WD\xc0\xaf", 4, HUDARIN_UTF8, 0, 2);
    refused(&calls[3], "", 0, HUDARIN_TEXT, HUDARIN_TEXT_SYNTAX, 0);
    refused(&calls[4], "", 0, HUDARIN_SID, HUDARIN_SID_SHORT, 0);
    refused(&calls[5], "", 0, HUDARIN_SID, HUDARIN_SID_SHORT, 0);
    refused(&calls[4], "\2\1\0\0\0\0\0\5\1\0\0\0", 12, HUDARIN_SID, HUDARIN_SID_REVISION, 0);
    refused(&calls[4], "\1\0\0\0\0\0\0\5", 8, HUDARIN_SID, HUDARIN_SID_COUNT, 0);
    refused(&calls[1], "", 0, HUDARIN_WIRE, HUDARIN_WIRE_SHORT, 0);
    refused(&calls[1], worked, 75, HUDARIN_WIRE, HUDARIN_WIRE_ACL_SIZE, 0);
}

/* Lists at their limit: 3,276 entries fit, and one more doesn't. */
static void largest(void)
{
    static const char entry[] = "(A;;FA;;;WD)";
    size_t at, length = 2 + 3277 * 12;
    char *text = malloc(length);
    unsigned char *room = malloc(HUDARIN_DESCRIPTOR_BYTES);
    hudarin_written answer;
    if (!text || !room) {
        exit(1);
    }
    memcpy(text, "D:", 2);
    for (at = 2; at < length; at += 12) {
        memcpy(text + at, entry, 12);
    }
    answer = hudarin_sddl_to_bytes(text, length - 12, room, HUDARIN_DESCRIPTOR_BYTES);
    HOLDS(answer.status == HUDARIN_OK && answer.length == 20 + 65528);
    answer = hudarin_descriptor_length(room, (size_t)answer.length);
    HOLDS(answer.status == HUDARIN_OK && answer.length == 20 + 65528);
    answer = hudarin_sddl_to_bytes(text, length, room, HUDARIN_DESCRIPTOR_BYTES);
    HOLDS(answer.status == HUDARIN_TEXT && answer.fault == HUDARIN_TEXT_ACL_TOO_LARGE && answer.place == 39325);
    free(text);
    free(room);
}

static void lengths(void)
{
    size_t behind, cut;
    unsigned char longer[sizeof worked + 40];
    memset(longer, 0xff, sizeof longer);
    memcpy(longer, worked, sizeof worked);
    for (behind = 0; behind <= 40; behind++) {
        hudarin_written answer = hudarin_descriptor_length(lent(longer, sizeof worked + behind), sizeof worked + behind);
        HOLDS(answer.status == HUDARIN_OK && answer.length == sizeof worked);
    }
    for (cut = 0; cut < sizeof worked; cut++) {
        hudarin_written answer = hudarin_descriptor_length(lent(worked, cut), cut);
        HOLDS(answer.status == HUDARIN_WIRE && answer.fault != 0 && answer.length == 0);
    }
}

static void masks(void)
{
    hudarin_mask answer = hudarin_mask_from_text(NULL, 0, HUDARIN_KIND_ANY);
    HOLDS(answer.status == HUDARIN_OK && answer.mask == 0);
    answer = hudarin_mask_from_text((char *)lent("0xFfFfFfFf", 10), 10, HUDARIN_KIND_ANY);
    HOLDS(answer.status == HUDARIN_OK && answer.mask == 0xffffffffu);
    answer = hudarin_mask_from_text((char *)lent("0x100000000", 11), 11, HUDARIN_KIND_ANY);
    HOLDS(answer.status == HUDARIN_TEXT && answer.fault == HUDARIN_TEXT_RANGE && answer.place == 0 && answer.mask == 0);
    answer = hudarin_mask_from_text((char *)lent("FA\xff", 3), 3, HUDARIN_KIND_ANY);
    HOLDS(answer.status == HUDARIN_UTF8 && answer.fault == 0 && answer.place == 2 && answer.mask == 0);
}

static int is_unread(hudarin_verdict answer, uint32_t status, uint32_t argument, uint32_t fault, uint64_t place)
{
    return answer.status == status && answer.argument == argument && answer.fault == fault && answer.place == place &&
           answer.kind == 0 && answer.mask == 0;
}

static hudarin_verdict asked_as(const uint32_t *states, size_t count, uint32_t privileges, hudarin_mapping mapping)
{
    return hudarin_check(worked, sizeof worked, user, sizeof user, lent(everyone, sizeof everyone), sizeof everyone, states,
                         count, NULL, 0, privileges, mapping, 0x1);
}

/* Each place of a state, of the privileges and of the mapping's masks. */
static void bits(void)
{
    static const uint32_t enabled = HUDARIN_GROUP_ENABLED;
    uint32_t place;
    for (place = 0; place < 32; place++) {
        uint32_t bit = (uint32_t)1 << place, both = HUDARIN_GROUP_ENABLED | bit;
        hudarin_mapping mapping = files;
        hudarin_verdict answer = asked_as(&bit, 1, 0, files);
        if (bit == HUDARIN_GROUP_ENABLED || bit == HUDARIN_GROUP_DENY_ONLY) {
            HOLDS(answer.status == HUDARIN_OK && answer.mask == 1);
            HOLDS(answer.kind == (bit == HUDARIN_GROUP_ENABLED ? HUDARIN_GRANTED : HUDARIN_DENIED));
        } else {
            HOLDS(is_unread(answer, HUDARIN_STATE, HUDARIN_ARGUMENT_STATES, 0, 0));
        }
        if (bit != HUDARIN_GROUP_ENABLED) {
            HOLDS(is_unread(asked_as(&both, 1, 0, files), HUDARIN_STATE, HUDARIN_ARGUMENT_STATES, 0, 0));
        }
        answer = asked_as(&enabled, 1, bit, files);
        if (place < 3) {
            HOLDS(answer.status == HUDARIN_OK && answer.kind == HUDARIN_GRANTED);
        } else {
            HOLDS(is_unread(answer, HUDARIN_PRIVILEGES, HUDARIN_ARGUMENT_PRIVILEGES, 0, 0));
        }
        switch (place % 4) {
        case 0: mapping.read = bit; break;
        case 1: mapping.write = bit; break;
        case 2: mapping.execute = bit; break;
        default: mapping.all = bit; break;
        }
        answer = asked_as(&enabled, 1, 0, mapping);
        if (place < 21) {
            HOLDS(answer.status == HUDARIN_OK && answer.kind == HUDARIN_GRANTED);
        } else {
            HOLDS(is_unread(answer, HUDARIN_MAPPING, HUDARIN_ARGUMENT_MAPPING, 0, 0));
        }
    }
}

/* A user for denies alone, by the rules: an allow entry for it grants nothing, a deny one denies, and an owner has nothing without an
 * entry; an enabled group with the same SID counts for both. Privileges are what they are. */
static void deny_only_users(void)
{
#define SELF "S-1-5-21-1-2-3-1001"
    static const struct {
        const char *sddl;
        /* The token's group, or none. */
        const unsigned char *group;
        uint32_t privileges, asked, kind, mask;
    } rows[] = {
        { "D:(A;;FA;;;" SELF ")", NULL, 0, 0x3, HUDARIN_DENIED, 0x3 },
        { "D:(A;;FA;;;" SELF ")", user, 0, 0x3, HUDARIN_GRANTED, 0x3 },
        { "D:(A;;0x1;;;" SELF ")(A;;0x2;;;WD)", everyone, 0, 0x3, HUDARIN_DENIED, 0x1 },
        { "D:(D;;0x1;;;" SELF ")(A;;FA;;;WD)", everyone, 0, 0x3, HUDARIN_DENIED, 0x1 },
        { "D:(D;;0x1;;;" SELF ")(A;;FA;;;" SELF ")", user, 0, 0x3, HUDARIN_DENIED, 0x1 },
        { "O:" SELF "G:SYD:", NULL, 0, 0x60000, HUDARIN_DENIED, 0x60000 },
        { "O:" SELF "G:SYD:", user, 0, 0x60000, HUDARIN_GRANTED, 0x60000 },
        { "O:" SELF "G:SYD:(A;;FA;;;OW)", NULL, 0, 0x1, HUDARIN_DENIED, 0x1 },
        { "O:" SELF "G:SYD:(D;;0x1;;;OW)(A;;FA;;;WD)", everyone, 0, 0x3, HUDARIN_DENIED, 0x1 },
        { "D:NO_ACCESS_CONTROL", NULL, 0, 0x1, HUDARIN_GRANTED, 0x1 },
        { "D:(D;;WO;;;" SELF ")", NULL, HUDARIN_PRIVILEGE_TAKE_OWNERSHIP, 0x80000, HUDARIN_GRANTED, 0x80000 },
        { "D:", NULL, HUDARIN_PRIVILEGE_SECURITY, 0x1000000, HUDARIN_GRANTED, 0x1000000 },
        { "D:", NULL, 0, 0x1000000, HUDARIN_DENIED, 0x1000000 },
    };
#undef SELF
    static const uint32_t enabled = HUDARIN_GROUP_ENABLED;
    unsigned char bytes[200];
    size_t at;
    for (at = 0; at < sizeof rows / sizeof rows[0]; at++) {
        hudarin_written form = hudarin_sddl_to_bytes(rows[at].sddl, strlen(rows[at].sddl), bytes, sizeof bytes);
        size_t length = rows[at].group == NULL ? 0 : rows[at].group == user ? sizeof user : sizeof everyone;
        uint32_t bits = rows[at].privileges | HUDARIN_DENY_ONLY_USER;
        hudarin_token token = HUDARIN_NOTHING;
        hudarin_verdict answer = hudarin_check(bytes, (size_t)form.length, user, sizeof user, rows[at].group, length, &enabled,
                                               length != 0, NULL, 0, bits, files, rows[at].asked);
        HOLDS(form.status == HUDARIN_OK && answer.status == HUDARIN_OK && answer.kind == rows[at].kind && answer.mask == rows[at].mask);
        answer = hudarin_keep_token(user, sizeof user, rows[at].group, length, &enabled, length != 0, NULL, 0, bits, &token);
        HOLDS(is_unread(answer, HUDARIN_OK, 0, 0, 0));
        answer = hudarin_check_bytes(bytes, (size_t)form.length, &token, files, rows[at].asked);
        HOLDS(answer.status == HUDARIN_OK && answer.kind == rows[at].kind && answer.mask == rows[at].mask);
        hudarin_free(&token.kept);
    }
}

/* Every argument, cut short at each byte or left out; the first from the left answers. */
static void unread(void)
{
    static const uint32_t states[] = { HUDARIN_GROUP_ENABLED, HUDARIN_GROUP_ENABLED };
    size_t cut;
    hudarin_verdict answer = hudarin_check(NULL, 0, NULL, 0, NULL, 0, NULL, 0, NULL, 0, ~0u,
                                           (hudarin_mapping){ ~0u, 0, 0, 0 }, 1);
    HOLDS(is_unread(answer, HUDARIN_WIRE, HUDARIN_ARGUMENT_DESCRIPTOR, HUDARIN_WIRE_SHORT, 0));
    for (cut = 0; cut < sizeof worked; cut++) {
        answer = hudarin_check(lent(worked, cut), cut, user, sizeof user, NULL, 0, NULL, 0, NULL, 0, 0, files, 1);
        HOLDS(answer.status == HUDARIN_WIRE && answer.argument == HUDARIN_ARGUMENT_DESCRIPTOR && answer.kind == 0);
    }
    for (cut = 0; cut < sizeof user; cut++) {
        answer = hudarin_check(worked, sizeof worked, lent(user, cut), cut, NULL, 0, NULL, 0, NULL, 0, 0, files, 1);
        HOLDS(is_unread(answer, HUDARIN_SID, HUDARIN_ARGUMENT_USER, HUDARIN_SID_SHORT, 0));
    }
    for (cut = 0; cut < sizeof everyone; cut++) {
        answer = hudarin_check(worked, sizeof worked, user, sizeof user, lent(everyone, cut), cut, states, 1, NULL, 0, 0, files,
                               1);
        HOLDS(is_unread(answer, HUDARIN_SID, HUDARIN_ARGUMENT_GROUPS, HUDARIN_SID_SHORT, 0));
    }
    HOLDS(is_unread(asked_as(NULL, 0, 0, files), HUDARIN_BEHIND_GROUPS, HUDARIN_ARGUMENT_GROUPS, 0, 0));
    HOLDS(is_unread(asked_as(states, 2, 0, files), HUDARIN_SID, HUDARIN_ARGUMENT_GROUPS, HUDARIN_SID_SHORT, 1));
    answer = hudarin_check(worked, sizeof worked, user, sizeof user, NULL, 0, NULL, 0, NULL, 0, 0, files, 0);
    HOLDS(answer.status == HUDARIN_OK && answer.kind == HUDARIN_EMPTY_REQUEST && answer.mask == 0);
    answer = hudarin_check(worked, sizeof worked, user, sizeof user, NULL, 0, NULL, 0, NULL, 0, 0, files, 0xffffffffu);
    HOLDS(answer.status == HUDARIN_OK && answer.kind == HUDARIN_RESERVED && answer.mask == 0x0ce00000u);
}

/* Restricting SIDs, cut short at each byte, one behind another, and what they take away. */
static void restricting(void)
{
    static const uint32_t enabled = HUDARIN_GROUP_ENABLED;
    unsigned char two[sizeof everyone + sizeof user];
    hudarin_token token = HUDARIN_NOTHING;
    hudarin_verdict answer;
    size_t cut;
    memcpy(two, everyone, sizeof everyone);
    memcpy(two + sizeof everyone, user, sizeof user);
    for (cut = 0; cut <= sizeof two; cut++) {
        answer = hudarin_check(worked, sizeof worked, user, sizeof user, everyone, sizeof everyone, &enabled, 1, lent(two, cut), cut,
                               0, files, 1);
        if (cut == 0 || cut == sizeof everyone || cut == sizeof two) {
            HOLDS(answer.status == HUDARIN_OK && answer.kind == HUDARIN_GRANTED && answer.mask == 1);
        } else {
            HOLDS(is_unread(answer, HUDARIN_SID, HUDARIN_ARGUMENT_RESTRICTING, HUDARIN_SID_SHORT, cut > sizeof everyone));
        }
    }
    answer = hudarin_check(worked, sizeof worked, user, sizeof user, everyone, sizeof everyone, &enabled, 1, user, sizeof user, 0, files,
                           1);
    HOLDS(answer.status == HUDARIN_OK && answer.kind == HUDARIN_DENIED && answer.mask == 1);
    answer = hudarin_keep_token(user, sizeof user, everyone, sizeof everyone, &enabled, 1, user, sizeof user - 1, 0, &token);
    HOLDS(is_unread(answer, HUDARIN_SID, HUDARIN_ARGUMENT_RESTRICTING, HUDARIN_SID_SHORT, 0) && token.kept.is_there == 0);
}

static int keeps(const hudarin_kept *handle, int wanted)
{
    return handle->is_there == (uint32_t)wanted && (handle->at != NULL) == wanted;
}

/* Handles that are empty, taken, of the other kind, and freed twice. */
static void handles(void)
{
    static const uint32_t enabled = HUDARIN_GROUP_ENABLED, bad = 3;
    hudarin_descriptor descriptor = HUDARIN_NOTHING;
    hudarin_token token = HUDARIN_NOTHING;
    hudarin_written answer;
    hudarin_verdict verdict = hudarin_check_kept(&descriptor, &token, files, 1);
    HOLDS(is_unread(verdict, HUDARIN_HANDLE, HUDARIN_ARGUMENT_DESCRIPTOR, 0, 0));
    answer = hudarin_keep_bytes(lent(worked, 75), 75, &descriptor);
    HOLDS(answer.status == HUDARIN_WIRE && answer.fault == HUDARIN_WIRE_ACL_SIZE && keeps(&descriptor.kept, 0));
    answer = hudarin_keep_sddl((char *)lent("O:DA", 4), 4, &descriptor);
    HOLDS(answer.status == HUDARIN_TEXT && answer.place == 2 && keeps(&descriptor.kept, 0));
    answer = hudarin_keep_sddl((char *)lent("\xff", 1), 1, &descriptor);
    HOLDS(answer.status == HUDARIN_UTF8 && answer.place == 0 && keeps(&descriptor.kept, 0));
    answer = hudarin_keep_bytes(lent(worked, sizeof worked), sizeof worked, &descriptor);
    HOLDS(answer.status == HUDARIN_OK && answer.length == 0 && keeps(&descriptor.kept, 1));
    answer = hudarin_keep_sddl(NULL, 0, &descriptor);
    HOLDS(answer.status == HUDARIN_HANDLE && keeps(&descriptor.kept, 1));
    answer = hudarin_keep_bytes(NULL, 0, &descriptor);
    HOLDS(answer.status == HUDARIN_HANDLE && keeps(&descriptor.kept, 1));
    answer = hudarin_keep_bytes(lent(worked, sizeof worked), sizeof worked, &descriptor);
    HOLDS(answer.status == HUDARIN_HANDLE && answer.fault == 0 && answer.length == 0 && keeps(&descriptor.kept, 1));
    verdict = hudarin_check_kept(&descriptor, &token, files, 1);
    HOLDS(is_unread(verdict, HUDARIN_HANDLE, HUDARIN_ARGUMENT_TOKEN, 0, 0));
    verdict = hudarin_keep_token(user, sizeof user, everyone, sizeof everyone, &bad, 1, NULL, 0, 0, &token);
    HOLDS(is_unread(verdict, HUDARIN_STATE, HUDARIN_ARGUMENT_STATES, 0, 0) && keeps(&token.kept, 0));
    verdict = hudarin_keep_token(user, sizeof user, everyone, sizeof everyone, &enabled, 1, NULL, 0, 0, &token);
    HOLDS(is_unread(verdict, HUDARIN_OK, 0, 0, 0) && keeps(&token.kept, 1));
    verdict = hudarin_keep_token(user, sizeof user, NULL, 0, NULL, 0, NULL, 0, 0, &token);
    HOLDS(is_unread(verdict, HUDARIN_HANDLE, HUDARIN_ARGUMENT_TOKEN, 0, 0) && keeps(&token.kept, 1));
    verdict = hudarin_check_kept((hudarin_descriptor *)&token, (hudarin_token *)&descriptor, files, 1);
    HOLDS(is_unread(verdict, HUDARIN_HANDLE, HUDARIN_ARGUMENT_DESCRIPTOR, 0, 0));
    verdict = hudarin_check_kept(&descriptor, &token, (hudarin_mapping){ 0, 0, 0, 0x200000 }, 1);
    HOLDS(is_unread(verdict, HUDARIN_MAPPING, HUDARIN_ARGUMENT_MAPPING, 0, 0));
    verdict = hudarin_check_kept(&descriptor, &token, files, 0x80000000u);
    HOLDS(verdict.status == HUDARIN_OK && verdict.kind == HUDARIN_GRANTED && verdict.mask == 0x00120089u);
    HOLDS(keeps(&descriptor.kept, 1) && keeps(&token.kept, 1));
    hudarin_free(&descriptor.kept);
    hudarin_free(&descriptor.kept);
    hudarin_free(&token.kept);
    HOLDS(keeps(&descriptor.kept, 0) && keeps(&token.kept, 0));
    answer = hudarin_keep_sddl("", 0, &descriptor);
    HOLDS(answer.status == HUDARIN_OK && keeps(&descriptor.kept, 1));
    hudarin_free(&descriptor.kept);
}

/* A token that is kept and bytes: the faults of each cut are those of keeping the bytes, and the handles' and the mapping's come
 * before them. */
static void over_bytes(void)
{
    static const uint32_t enabled = HUDARIN_GROUP_ENABLED;
    hudarin_mapping wide = { 0, 0, 0, 0x200000 };
    hudarin_descriptor descriptor = HUDARIN_NOTHING;
    hudarin_token token = HUDARIN_NOTHING;
    hudarin_verdict verdict = hudarin_check_bytes(NULL, 0, &token, wide, 1);
    size_t cut;
    HOLDS(is_unread(verdict, HUDARIN_HANDLE, HUDARIN_ARGUMENT_TOKEN, 0, 0));
    verdict = hudarin_keep_token(user, sizeof user, everyone, sizeof everyone, &enabled, 1, NULL, 0, 0, &token);
    HOLDS(is_unread(verdict, HUDARIN_OK, 0, 0, 0));
    HOLDS(is_unread(hudarin_check_bytes(NULL, 0, &token, wide, 1), HUDARIN_MAPPING, HUDARIN_ARGUMENT_MAPPING, 0, 0));
    for (cut = 0; cut < sizeof worked; cut++) {
        hudarin_written kept = hudarin_keep_bytes(lent(worked, cut), cut, &descriptor);
        verdict = hudarin_check_bytes(lent(worked, cut), cut, &token, files, 0x1);
        HOLDS(kept.status == HUDARIN_WIRE && is_unread(verdict, HUDARIN_WIRE, HUDARIN_ARGUMENT_DESCRIPTOR, kept.fault, 0));
        verdict = hudarin_check_bytes(lent(worked, cut), cut, &token, files, 0);
        HOLDS(is_unread(verdict, HUDARIN_WIRE, HUDARIN_ARGUMENT_DESCRIPTOR, kept.fault, 0));
    }
    verdict = hudarin_check_bytes(lent(worked, sizeof worked), sizeof worked, &token, files, 0x80000000u);
    HOLDS(verdict.status == HUDARIN_OK && verdict.kind == HUDARIN_GRANTED && verdict.mask == 0x00120089u);
    verdict = hudarin_check_bytes(worked, sizeof worked, &token, files, 0);
    HOLDS(verdict.status == HUDARIN_OK && verdict.kind == HUDARIN_EMPTY_REQUEST && verdict.mask == 0);
    verdict = hudarin_check_bytes(worked, sizeof worked, &token, files, 0xffffffffu);
    HOLDS(verdict.status == HUDARIN_OK && verdict.kind == HUDARIN_RESERVED && verdict.mask == 0x0ce00000u);
    HOLDS(hudarin_keep_bytes(worked, sizeof worked, &descriptor).status == HUDARIN_OK);
    verdict = hudarin_check_bytes(worked, sizeof worked, (hudarin_token *)&descriptor, files, 1);
    HOLDS(is_unread(verdict, HUDARIN_HANDLE, HUDARIN_ARGUMENT_TOKEN, 0, 0) && keeps(&descriptor.kept, 1) && keeps(&token.kept, 1));
    hudarin_free(&descriptor.kept);
    hudarin_free(&token.kept);
}

/* The limits that aren't accepted; of several the first from the left, behind the handle, the root and the mapping. */
static void limits_refused(void)
{
    static const struct {
        uint64_t nodes, edits;
        uint32_t argument, fault;
    } rows[] = {
        { 0, HUDARIN_EDITS, HUDARIN_ARGUMENT_NODES, HUDARIN_LIMITS_NO_NODES },
        { 0, UINT64_MAX, HUDARIN_ARGUMENT_NODES, HUDARIN_LIMITS_NO_NODES },
        { HUDARIN_NODES_MAX + 1, HUDARIN_EDITS, HUDARIN_ARGUMENT_NODES, HUDARIN_LIMITS_TOO_MANY_NODES },
        { UINT64_MAX, UINT64_MAX, HUDARIN_ARGUMENT_NODES, HUDARIN_LIMITS_TOO_MANY_NODES },
        { HUDARIN_NODES, HUDARIN_EDITS_MAX + 1, HUDARIN_ARGUMENT_EDITS, HUDARIN_LIMITS_TOO_MANY_EDITS },
        { 1, UINT64_MAX, HUDARIN_ARGUMENT_EDITS, HUDARIN_LIMITS_TOO_MANY_EDITS },
    };
    const hudarin_mapping wide = { 0, 0, 0, 0x200000 };
    hudarin_store store = HUDARIN_NOTHING;
    hudarin_verdict answer;
    size_t at;
    for (at = 0; at < sizeof rows / sizeof rows[0]; at++) {
        answer = hudarin_store_open_within(worked, sizeof worked, files, rows[at].nodes, rows[at].edits, &store);
        HOLDS(is_unread(answer, HUDARIN_LIMITS, rows[at].argument, rows[at].fault, 0) && keeps(&store.kept, 0));
        answer = hudarin_store_open_within(worked, sizeof worked, wide, rows[at].nodes, rows[at].edits, &store);
        HOLDS(is_unread(answer, HUDARIN_MAPPING, HUDARIN_ARGUMENT_MAPPING, 0, 0));
        answer = hudarin_store_open_within(NULL, 0, wide, rows[at].nodes, rows[at].edits, &store);
        HOLDS(is_unread(answer, HUDARIN_WIRE, HUDARIN_ARGUMENT_VALUE, HUDARIN_WIRE_SHORT, 0));
    }
    answer = hudarin_store_open_within(worked, sizeof worked, files, HUDARIN_NODES_MAX, HUDARIN_EDITS_MAX, &store);
    HOLDS(is_unread(answer, HUDARIN_OK, 0, 0, 0) && keeps(&store.kept, 1));
    answer = hudarin_store_open_within(NULL, 0, wide, 0, UINT64_MAX, &store);
    HOLDS(is_unread(answer, HUDARIN_HANDLE, HUDARIN_ARGUMENT_STORE, 0, 0) && keeps(&store.kept, 1));
    hudarin_free(&store.kept);
}

static hudarin_verdict added(hudarin_store *store, const char *path)
{
    return hudarin_store_edit(store, HUDARIN_EDIT_ADD_OBJECT, path, strlen(path), worked, sizeof worked);
}

static hudarin_verdict removed(hudarin_store *store, const char *path)
{
    return hudarin_store_edit(store, HUDARIN_EDIT_REMOVE, path, strlen(path), NULL, 0);
}

/* Two nodes and three edits; and limits that leave no room beside the root. */
static void within_limits(void)
{
    hudarin_store store = HUDARIN_NOTHING, alone = HUDARIN_NOTHING, unedited = HUDARIN_NOTHING, other = HUDARIN_NOTHING;
    hudarin_view view = HUDARIN_NOTHING;
    HOLDS(hudarin_store_open_within(worked, sizeof worked, files, 2, 3, &store).status == HUDARIN_OK);
    HOLDS(hudarin_store_publish(&store, &view).status == HUDARIN_OK);
    HOLDS(is_unread(added(&store, "/a"), HUDARIN_OK, 0, 0, 0));
    HOLDS(is_unread(added(&store, "/b"), HUDARIN_REFUSED, 0, HUDARIN_REFUSED_NODES_FULL, 0));
    HOLDS(is_unread(removed(&store, "/a"), HUDARIN_OK, 0, 0, 0) && is_unread(added(&store, "/b"), HUDARIN_OK, 0, 0, 0));
    HOLDS(is_unread(added(&store, "/c"), HUDARIN_REFUSED, 0, HUDARIN_REFUSED_NODES_FULL, 0));
    HOLDS(is_unread(removed(&store, "/b"), HUDARIN_REFUSED, 0, HUDARIN_REFUSED_JOURNAL_FULL, 0));
    HOLDS(hudarin_journal_length(&store.kept).length == 3);
    HOLDS(hudarin_store_open_within(worked, sizeof worked, files, 1, 1, &alone).status == HUDARIN_OK);
    HOLDS(added(&alone, "/a").fault == HUDARIN_REFUSED_NODES_FULL);
    HOLDS(hudarin_store_open_within(worked, sizeof worked, files, 2, 0, &unedited).status == HUDARIN_OK);
    HOLDS(added(&unedited, "/a").fault == HUDARIN_REFUSED_JOURNAL_FULL);
    /* The limits of a view of another store come with it. */
    HOLDS(hudarin_store_open(worked, sizeof worked, files, &other).status == HUDARIN_OK);
    HOLDS(added(&other, "/a").status == HUDARIN_OK && added(&other, "/b").status == HUDARIN_OK);
    HOLDS(hudarin_store_revert(&other, &view).status == HUDARIN_OK && added(&other, "/a").status == HUDARIN_OK);
    HOLDS(added(&other, "/b").fault == HUDARIN_REFUSED_NODES_FULL);
    hudarin_free(&store.kept);
    hudarin_free(&alone.kept);
    hudarin_free(&unedited.kept);
    hudarin_free(&other.kept);
    hudarin_free(&view.kept);
}

/* The standard limits, and a node more: the last node of each is added, and one more isn't. */
static void standard_limits(void)
{
    hudarin_store store = HUDARIN_NOTHING, larger = HUDARIN_NOTHING;
    char path[16];
    int at, are_added = 1;
    HOLDS(hudarin_store_open(worked, sizeof worked, files, &store).status == HUDARIN_OK);
    HOLDS(hudarin_store_open_within(worked, sizeof worked, files, HUDARIN_NODES + 1, HUDARIN_EDITS, &larger).status == HUDARIN_OK);
    for (at = 1; at < (int)HUDARIN_NODES; at++) {
        snprintf(path, sizeof path, "/%05d", at);
        are_added = are_added && added(&store, path).status == HUDARIN_OK && added(&larger, path).status == HUDARIN_OK;
    }
    HOLDS(are_added && added(&store, "/x").fault == HUDARIN_REFUSED_NODES_FULL && added(&larger, "/x").status == HUDARIN_OK);
    HOLDS(added(&larger, "/y").fault == HUDARIN_REFUSED_NODES_FULL);
    hudarin_free(&store.kept);
    hudarin_free(&larger.kept);
}

int main(void)
{
    open_rooms();
    writing();
    refusals();
    largest();
    lengths();
    masks();
    bits();
    deny_only_users();
    unread();
    restricting();
    handles();
    over_bytes();
    limits_refused();
    within_limits();
    standard_limits();
    return close_tally();
}
