/* Reasons: the parts of requests that were worked by hand from the rules of docs/CHECK.md, and refusals, which have none. */
#include "tally.h"

static const hudarin_mapping files = HUDARIN_FILE_MAPPING;
static const unsigned char user[] = { 1, 5, 0, 0, 0, 0, 0, 5, 21, 0, 0, 0, 1, 0, 0, 0, 2, 0, 0, 0, 3, 0, 0, 0, 0xe9, 3, 0, 0 };
static const unsigned char users[] = { 1, 2, 0, 0, 0, 0, 0, 5, 32, 0, 0, 0, 33, 2, 0, 0 };

/* A part as it is wanted, at the place of its least bit; entries count from 0. */
struct wanted {
    unsigned place;
    uint32_t mask, cause, granted;
    uint64_t first;
    uint32_t first_kind;
    uint64_t second;
    uint32_t second_kind;
};

/* For a descriptor and a token of the user, in the group Users, restricted to it or not. */
struct row {
    const char *sddl;
    uint32_t restricted, privileges, asked, kind, mask;
    struct wanted parts[4];
};

static const struct row rows[] = {
    { "O:BAG:SYD:(D;;FW;;;BU)(A;;FR;;;BU)", 0, 0, 0x12019F, HUDARIN_DENIED, 0x120116,
      { { 0, 0x89, HUDARIN_CAUSE_LIST, 1, 1, HUDARIN_FINDING_ALLOWED, 0, 0 },
        { 1, 0x120116, HUDARIN_CAUSE_LIST, 0, 0, HUDARIN_FINDING_DENIED, 0, 0 } } },
    { "O:BAG:SYD:(A;;FR;;;BU)", 0, 0, 0x1F01FF, HUDARIN_DENIED, 0xD0176,
      { { 0, 0x120089, HUDARIN_CAUSE_LIST, 1, 0, HUDARIN_FINDING_ALLOWED, 0, 0 },
        { 1, 0xD0176, HUDARIN_CAUSE_LIST, 0, 0, HUDARIN_FINDING_NO_ENTRY, 0, 0 } } },
    { "O:BAG:SYD:(A;;0x3;;;S-1-5-21-1-2-3-1001)(A;;0x1;;;BU)", 1, 0, 0x3, HUDARIN_DENIED, 0x2,
      { { 0, 0x1, HUDARIN_CAUSE_LIST, 1, 0, HUDARIN_FINDING_ALLOWED, 1, HUDARIN_FINDING_ALLOWED },
        { 1, 0x2, HUDARIN_CAUSE_LIST, 0, 0, HUDARIN_FINDING_ALLOWED, 0, HUDARIN_FINDING_NO_ENTRY } } },
    { "O:S-1-5-21-1-2-3-1001G:SYD:(D;;FA;;;BU)", 0, 0, 0x70000, HUDARIN_DENIED, 0x10000,
      { { 16, 0x10000, HUDARIN_CAUSE_LIST, 0, 0, HUDARIN_FINDING_DENIED, 0, 0 },
        { 17, 0x60000, HUDARIN_CAUSE_OWNER, 1, 0, 0, 0, 0 } } },
    { "O:BAG:SYD:NO_ACCESS_CONTROL", 0, 0, 0x01000001, HUDARIN_DENIED, 0x1000000,
      { { 0, 0x1, HUDARIN_CAUSE_NO_LIST, 1, 0, 0, 0, 0 }, { 24, 0x1000000, HUDARIN_CAUSE_NO_SECURITY, 0, 0, 0, 0, 0 } } },
    { "O:BAG:SYD:NO_ACCESS_CONTROL", 0, HUDARIN_PRIVILEGE_SECURITY, 0x03000000, HUDARIN_GRANTED, 0x11F01FF,
      { { 0, 0x1F01FF, HUDARIN_CAUSE_NO_LIST, 1, 0, 0, 0, 0 },
        { 9, 0xFE00, HUDARIN_CAUSE_BEYOND_ALL, 0, 0, 0, 0, 0 },
        { 24, 0x1000000, HUDARIN_CAUSE_SECURITY, 1, 0, 0, 0, 0 } } },
    { "O:BAG:SYD:(D;;WO;;;BU)", 0, HUDARIN_PRIVILEGE_TAKE_OWNERSHIP, 0x80000, HUDARIN_GRANTED, 0x80000,
      { { 19, 0x80000, HUDARIN_CAUSE_TAKE_OWNERSHIP, 1, 0, 0, 0, 0 } } },
    { "O:S-1-5-21-1-2-3-1001G:SYD:(A;;0x1;;;BU)(A;;FA;;;S-1-5-21-1-2-3-1001)", 0, HUDARIN_DENY_ONLY_USER, 0x60001, HUDARIN_DENIED, 0x60000,
      { { 0, 0x1, HUDARIN_CAUSE_LIST, 1, 0, HUDARIN_FINDING_ALLOWED, 0, 0 },
        { 17, 0x60000, HUDARIN_CAUSE_LIST, 0, 0, HUDARIN_FINDING_NO_ENTRY, 0, 0 } } },
    { "O:BAG:SYD:(D;;0x1;;;S-1-5-21-1-2-3-1001)(A;;0x3;;;BU)", 0, HUDARIN_DENY_ONLY_USER, 0x3, HUDARIN_DENIED, 0x1,
      { { 0, 0x1, HUDARIN_CAUSE_LIST, 0, 0, HUDARIN_FINDING_DENIED, 0, 0 },
        { 1, 0x2, HUDARIN_CAUSE_LIST, 1, 1, HUDARIN_FINDING_ALLOWED, 0, 0 } } },
    { "O:BAG:SYD:", 0, 0, 0x200001, HUDARIN_RESERVED, 0x200000, { { 21, 0x200000, HUDARIN_CAUSE_RESERVED, 0, 0, 0, 0, 0 } } },
    { "O:BAG:SYD:", 0, 0, 0, HUDARIN_EMPTY_REQUEST, 0, { { 0, 0, 0, 0, 0, 0, 0, 0 } } },
};

static int is_part(const hudarin_part *part, const struct wanted *wanted)
{
    return part->mask == wanted->mask && part->cause == wanted->cause && part->granted == wanted->granted &&
           part->first.entry == wanted->first && part->first.kind == wanted->first_kind &&
           part->second.entry == wanted->second && part->second.kind == wanted->second_kind;
}

/* What is wanted at the place: one of the parts, or none. */
static struct wanted at_place(const struct wanted *parts, unsigned place)
{
    static const struct wanted nothing;
    unsigned at;
    for (at = 0; at < 4; at++) {
        if (parts[at].mask != 0 && parts[at].place == place) {
            return parts[at];
        }
    }
    return nothing;
}

static void has_parts(const hudarin_explanation *explained, const struct wanted *parts)
{
    unsigned place;
    for (place = 0; place < 32; place++) {
        struct wanted wanted = at_place(parts, place);
        HOLDS(is_part(&explained->parts[place], &wanted));
    }
}

static void worked(const struct row *row)
{
    static const uint32_t enabled = HUDARIN_GROUP_ENABLED;
    hudarin_descriptor descriptor = HUDARIN_NOTHING;
    hudarin_token token = HUDARIN_NOTHING;
    hudarin_explanation explained;
    HOLDS(hudarin_keep_sddl(row->sddl, strlen(row->sddl), &descriptor).status == HUDARIN_OK);
    HOLDS(hudarin_keep_token(user, sizeof user, users, sizeof users, &enabled, 1, users, row->restricted ? sizeof users : 0,
                             row->privileges, &token)
              .status == HUDARIN_OK);
    explained = hudarin_explain(&descriptor, &token, files, row->asked);
    HOLDS(explained.answer.status == HUDARIN_OK && explained.answer.kind == row->kind && explained.answer.mask == row->mask);
    has_parts(&explained, row->parts);
    HOLDS(descriptor.kept.is_there == 1 && token.kept.is_there == 1);
    hudarin_free(&descriptor.kept);
    hudarin_free(&token.kept);
}

/* A call that is refused tells of no part. */
static void refused(hudarin_descriptor *descriptor, hudarin_token *token, hudarin_mapping mapping, uint32_t status, uint32_t argument)
{
    static const struct wanted none[4];
    hudarin_explanation explained = hudarin_explain(descriptor, token, mapping, 1);
    HOLDS(explained.answer.status == status && explained.answer.argument == argument);
    HOLDS(explained.answer.kind == 0 && explained.answer.mask == 0 && explained.answer.fault == 0 && explained.answer.place == 0);
    has_parts(&explained, none);
}

static void refusals(void)
{
    static const hudarin_mapping wide = { 0, 0, 0, 0x200000 };
    hudarin_descriptor descriptor = HUDARIN_NOTHING;
    hudarin_token token = HUDARIN_NOTHING;
    refused(&descriptor, &token, wide, HUDARIN_HANDLE, HUDARIN_ARGUMENT_DESCRIPTOR);
    HOLDS(hudarin_keep_sddl("D:", 2, &descriptor).status == HUDARIN_OK);
    refused(&descriptor, &token, wide, HUDARIN_HANDLE, HUDARIN_ARGUMENT_TOKEN);
    HOLDS(hudarin_keep_token(user, sizeof user, NULL, 0, NULL, 0, NULL, 0, 0, &token).status == HUDARIN_OK);
    refused((hudarin_descriptor *)&token, (hudarin_token *)&descriptor, wide, HUDARIN_HANDLE, HUDARIN_ARGUMENT_DESCRIPTOR);
    refused(&descriptor, &token, wide, HUDARIN_MAPPING, HUDARIN_ARGUMENT_MAPPING);
    hudarin_free(&descriptor.kept);
    hudarin_free(&token.kept);
}

int main(void)
{
    size_t at;
    for (at = 0; at < sizeof rows / sizeof rows[0]; at++) {
        worked(&rows[at]);
    }
    refusals();
    return close_tally();
}
