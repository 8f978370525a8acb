/* Opens of existing files, by the descriptors of a file and of its parent: rows by [MS-FSA] 2.1.5.1.2.1, and each refusal. */
#include "rooms.h"

static const hudarin_mapping files = HUDARIN_FILE_MAPPING, wide = { 0, 0, 0, 0x200000 };
static const unsigned char user[] = { 1, 5, 0, 0, 0, 0, 0, 5, 21, 0, 0, 0, 1, 0, 0, 0, 2, 0, 0, 0, 3, 0, 0, 0, 0xe9, 3, 0, 0 };
static const unsigned char everyone[] = { 1, 1, 0, 0, 0, 0, 0, 1, 0, 0, 0, 0 };

/* "D:(A;;0x1;;;WD)": a header, and an allow entry for Everyone. */
static const unsigned char readers[48] = {
    1, 0, 4, 0x80, 0, 0, 0, 0, 0, 0, 0, 0, 0, 0, 0, 0, 20, 0, 0, 0, /* the list is at 20 */
    2, 0, 28, 0, 1, 0, 0, 0, 0, 0, 20, 0, 1, 0, 0, 0, 1, 1, 0, 0, 0, 0, 0, 1, 0, 0, 0, 0,
};

/* DELETE is 0x10000, FILE_DELETE_CHILD 0x40, FILE_READ_ATTRIBUTES 0x80, FILE_LIST_DIRECTORY 0x1. */
static const struct {
    const char *file, *parent;
    uint32_t asked, kind, mask;
} rows[] = {
    { "D:(D;;SD;;;WD)(A;;FA;;;WD)", "D:(A;;0x40;;;WD)", 0x10000, HUDARIN_GRANTED, 0x10000 },
    { "D:(D;;SD;;;WD)(A;;FA;;;WD)", "D:(A;;0x1701bf;;;WD)", 0x10000, HUDARIN_DENIED, 0x10000 },
    { "D:(D;;SD;;;WD)(A;;FA;;;WD)", NULL, 0x10000, HUDARIN_DENIED, 0x10000 },
    { "D:(A;;SD;;;WD)", "D:(D;;0x40;;;WD)", 0x10000, HUDARIN_GRANTED, 0x10000 },
    { "D:(A;;0x40;;;WD)", "D:(A;;SD;;;WD)", 0x10000, HUDARIN_DENIED, 0x10000 },
    { "D:(D;;FA;;;WD)", "D:(A;;0x1;;;WD)", 0x80, HUDARIN_GRANTED, 0x80 },
    { "D:(D;;FA;;;WD)", "D:(A;;0x1;;;WD)", 0x1f01ff, HUDARIN_DENIED, 0x1f017f },
    { "D:(D;;FA;;;WD)", "D:(A;;0x1f01fe;;;WD)", 0x80, HUDARIN_DENIED, 0x80 },
    { "D:(A;;0x120009;;;WD)", "D:(A;;0x1;;;WD)", 0x80000000, HUDARIN_GRANTED, 0x120089 },
    { "D:(A;;0x1;;;WD)", "D:(A;;FA;;;WD)", 0x10083, HUDARIN_DENIED, 0x2 },
    { "D:(A;;0x1;;;WD)", NULL, 0x1, HUDARIN_GRANTED, 0x1 },
    { "D:(A;;0x2;;;WD)", "D:(A;;0x41;;;WD)", 0x02000000, HUDARIN_GRANTED, 0x10082 },
    { "D:(A;;0x2;;;WD)", NULL, 0x02000000, HUDARIN_GRANTED, 0x2 },
    { "D:", "D:NO_ACCESS_CONTROL", 0x02000000, HUDARIN_GRANTED, 0x10080 },
    { "D:", "D:(A;;0x1;;;WD)", 0x02000001, HUDARIN_DENIED, 0x1 },
    { "D:", "D:(A;;0x1;;;WD)", 0x02000080, HUDARIN_GRANTED, 0x80 },
    { "D:", "D:(A;;0x1f01be;;;WD)", 0x02000000, HUDARIN_DENIED, 0x02000000 },
    { "D:", "D:(A;;FA;;;WD)", 0, HUDARIN_EMPTY_REQUEST, 0 },
    { "D:", "D:(A;;FA;;;WD)", 0xffffffff, HUDARIN_RESERVED, 0x0ce00000 },
};

static hudarin_token token = HUDARIN_NOTHING;

static int is_unread(hudarin_verdict answer, uint32_t status, uint32_t argument, uint32_t fault)
{
    return answer.status == status && answer.argument == argument && answer.fault == fault && answer.place == 0 && answer.kind == 0 &&
           answer.mask == 0;
}

/* The bytes of the text; how many there are, of no text none. */
static size_t parsed(const char *text, unsigned char *bytes, size_t room)
{
    hudarin_written answer;
    if (text == NULL) {
        return 0;
    }
    answer = hudarin_sddl_to_bytes(text, strlen(text), bytes, room);
    HOLDS(answer.status == HUDARIN_OK);
    return (size_t)answer.length;
}

/* Each row, with the parent's bytes where nothing can be read behind them. */
static void verdicts(void)
{
    static unsigned char file[200], parent[200];
    size_t at;
    for (at = 0; at < sizeof rows / sizeof rows[0]; at++) {
        size_t length = parsed(rows[at].file, file, sizeof file), above = parsed(rows[at].parent, parent, sizeof parent);
        hudarin_verdict answer = hudarin_check_open(file, length, lent(parent, above), above, &token, files, rows[at].asked);
        HOLDS(answer.status == HUDARIN_OK && answer.argument == 0 && answer.kind == rows[at].kind && answer.mask == rows[at].mask);
    }
}

/* The first that is refused answers: the token's handle, the mapping, the file's bytes, the parent's. Each cut of these has the fault
 * of keeping it; nothing at all is no parent. */
static void refusals(void)
{
    hudarin_descriptor descriptor = HUDARIN_NOTHING;
    hudarin_token empty = HUDARIN_NOTHING;
    hudarin_verdict answer = hudarin_check_open(NULL, 0, readers, 4, &empty, wide, 1);
    size_t cut;
    HOLDS(is_unread(answer, HUDARIN_HANDLE, HUDARIN_ARGUMENT_TOKEN, 0));
    answer = hudarin_check_open(NULL, 0, readers, 4, &token, wide, 1);
    HOLDS(is_unread(answer, HUDARIN_MAPPING, HUDARIN_ARGUMENT_MAPPING, 0));
    for (cut = 0; cut < sizeof readers; cut++) {
        hudarin_written kept = hudarin_keep_bytes(lent(readers, cut), cut, &descriptor);
        answer = hudarin_check_open(lent(readers, cut), cut, readers, 4, &token, files, 1);
        HOLDS(kept.status == HUDARIN_WIRE && is_unread(answer, HUDARIN_WIRE, HUDARIN_ARGUMENT_DESCRIPTOR, kept.fault));
        answer = hudarin_check_open(readers, sizeof readers, lent(readers, cut), cut, &token, files, 1);
        if (cut == 0) {
            HOLDS(answer.status == HUDARIN_OK && answer.kind == HUDARIN_GRANTED && answer.mask == 1);
        } else {
            HOLDS(is_unread(answer, HUDARIN_WIRE, HUDARIN_ARGUMENT_PARENT, kept.fault));
        }
    }
    HOLDS(hudarin_keep_bytes(readers, sizeof readers, &descriptor).status == HUDARIN_OK);
    answer = hudarin_check_open(readers, sizeof readers, NULL, 0, (hudarin_token *)&descriptor, files, 1);
    HOLDS(is_unread(answer, HUDARIN_HANDLE, HUDARIN_ARGUMENT_TOKEN, 0) && descriptor.kept.is_there == 1 && token.kept.is_there == 1);
    hudarin_free(&descriptor.kept);
}

int main(void)
{
    static const uint32_t enabled = HUDARIN_GROUP_ENABLED;
    hudarin_verdict made = hudarin_keep_token(user, sizeof user, everyone, sizeof everyone, &enabled, 1, NULL, 0, 0, &token);
    HOLDS(made.status == HUDARIN_OK);
    open_rooms();
    verdicts();
    refusals();
    hudarin_free(&token.kept);
    return close_tally();
}
