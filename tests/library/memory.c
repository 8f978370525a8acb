/*
 * Memory that runs out at each request of each call in turn, once alone and once with all that come after it, and memory that
 * comes back.
 */
#include "tally.h"
#include "refusing.h"

/* The three before CHECK keep lines; it and those after it check, or keep something by which a check is made. */
enum call {
    TO_BYTES, TO_SDDL, CANONICAL, LENGTH, WHOLE_BYTES, WHOLE_TEXT, WHOLE_AT, PLAIN, JOINED, LISTED, CREATE, TRUSTEE, ACE, SID_BYTES,
    SID_TEXT, FULL_TEXT, MASK_TEXT, OWNER, ENTRY, SUBJECT, LINE, OBJECT, VALUE, KEEP_ACCOUNTS, ACCOUNT_SIDS, ACCOUNT_USERS, WHO, LINT, COMPARE, CHECK,
    CHECK_OPEN, CHECK_WHOLE, CHECK_TYPES, KEEP_SDDL, KEEP_BYTES, KEEP_TOKEN, KEEP_CLIENT, SHARE
};

/* A call, what it is given, and what it answers: what it writes, NULL where that isn't looked at, and how much; a fault of a
 * text and its place. Bytes are told in hexadecimal digits, given and written. */
typedef struct row {
    enum call call;
    const char *text;
    const char *wanted;
    uint64_t length;
    uint32_t fault;
    uint64_t place;
} row;

#define ROW_1 "O:BAG:SYD:(A;;FA;;;WD)"
#define FIFTEEN(SUB) SUB SUB SUB SUB SUB SUB SUB SUB SUB SUB SUB SUB SUB SUB SUB
#define LONGEST_SID "S-1-0xffffffffffff" FIFTEEN("-4294967295")
#define TOO_LONG_SID "S-1-5" FIFTEEN("-1") "-1"
#define CHECKED "O:BAG:SYD:(D;;0x1;;;BU)(A;;FR;;;WD)(A;;FA;;;S-1-5-21-1-2-3-1001)"
/* The same without one right of the user. */
#define CHANGED "O:BAG:SYD:(D;;0x1;;;BU)(A;;FR;;;WD)(A;;0x1f01fd;;;S-1-5-21-1-2-3-1001)"

/* Its second entry does nothing. */
#define DOUBLED "D:(A;;FR;;;BU)(A;;FR;;;BU)"

/* alice is in BUILTIN\Users. */
#define ACCOUNTS "user S-1-5-21-1-2-3-1001 A\\alice\nmember S-1-5-32-545 S-1-5-21-1-2-3-1001\n"
#define ALICE "010500000000000515000000010000000200000003000000e9030000"
#define USERS                                                                                                      \
    "S-1-5-21-1-2-3-1001 A\\alice\nS-1-5-7 NT AUTHORITY\\ANONYMOUS LOGON\nS-1-5-18 NT AUTHORITY\\SYSTEM\n"     \
    "S-1-5-19 NT AUTHORITY\\LOCAL SERVICE\nS-1-5-20 NT AUTHORITY\\NETWORK SERVICE\n"

static const char row_1[] = "010004801400000024000000000000003000000001020000000000052000000020020000010100000000000512000000"
                            "02001c000100000000001400ff011f00010100000000000100000000";
static const char lenient[] = "010004800000000000000000000000001400000004002400010000000020180"
                              "0ff011f00010100000000000100000000deadbeef00000000";
static const char null_list[] = "0100048000000000000000000000000000000000";

static const row rows[] = {
    { TO_BYTES, ROW_1, row_1, 76, 0, 0 },
    { TO_BYTES, "O:DA", NULL, 0, HUDARIN_TEXT_DOMAIN_ALIAS, 2 },
    { TO_BYTES, "D:(A;;FA;;;WD", NULL, 0, HUDARIN_TEXT_SYNTAX, 13 },
    { CANONICAL, "o:s-1-0x000000000005-018d:pai(a;idoi;0x0;;;wd)", "O:SYD:PAI(A;OIID;0x0;;;WD)", 26, 0, 0 },
    { CANONICAL, "D:NO_ACCESS_CONTROLP", "D:PNO_ACCESS_CONTROL", 20, 0, 0 },
    { CANONICAL, "", "", 0, 0, 0 },
    { CANONICAL, "D:(OA;;FR;;;WD)", NULL, 0, HUDARIN_TEXT_ENTRY_KIND, 3 },
    { CANONICAL, "D:S:AI", NULL, 0, HUDARIN_TEXT_HAS_SACL, 2 },
    { CANONICAL, "D:(A;;FA;;;WD)S:AI", NULL, 0, HUDARIN_TEXT_HAS_SACL, 14 },
    { CANONICAL, "D:(A;;0x100000000;;;WD)", NULL, 0, HUDARIN_TEXT_RANGE, 6 },
    { CANONICAL, "D:(A;;FA;;;QQ)", NULL, 0, HUDARIN_TEXT_UNKNOWN_ALIAS, 11 },
    { CANONICAL, "D:(A;;FA;x;;WD)", NULL, 0, HUDARIN_TEXT_OBJECT_GUID, 9 },
    { CANONICAL, "D:(A;;FA;;;WD)(A;;FA;;;QQ)", NULL, 0, HUDARIN_TEXT_UNKNOWN_ALIAS, 23 },
    { CANONICAL, "G:SYO:BA", NULL, 0, HUDARIN_TEXT_SYNTAX, 4 },
    { TO_SDDL, row_1, ROW_1, 22, 0, 0 },
    { TO_SDDL, lenient, "D:(A;;FA;;;WD)", 14, 0, 0 },
    { TO_SDDL, null_list, "D:NO_ACCESS_CONTROL", 19, 0, 0 },
    { LENGTH, row_1, NULL, 76, 0, 0 },
    { SID_BYTES, LONGEST_SID, "010fffffffffffff" FIFTEEN("ffffffff"), 68, 0, 0 },
    { SID_BYTES, TOO_LONG_SID, NULL, 0, HUDARIN_TEXT_RANGE, 36 },
    { SID_TEXT, LONGEST_SID, LONGEST_SID, sizeof LONGEST_SID - 1, 0, 0 },
    { FULL_TEXT, "BU", "S-1-5-32-545", 12, 0, 0 },
    { MASK_TEXT, "BU", "FR+WD", 5, 0, 0 },
    { WHOLE_BYTES, ROW_1, row_1, 76, 0, 0 },
    { WHOLE_BYTES, "S:(AU;;FA;;;QQ)", NULL, 0, HUDARIN_TEXT_UNKNOWN_ALIAS, 12 },
    { WHOLE_TEXT, row_1, ROW_1, 22, 0, 0 },
    { WHOLE_AT, row_1, row_1, 76, 0, 0 },
    { PLAIN, row_1, row_1, 76, 0, 0 },
    { JOINED, row_1, row_1, 76, 0, 0 },
    { LISTED, row_1, row_1, 76, 0, 0 },
    { CREATE, row_1, row_1, 76, 0, 0 },
    { TRUSTEE, row_1, "01020000000000052000000020020000", 16, 0, 0 },
    { ACE, row_1, "010100000000000100000000", 12, 0, 0 },
    { OWNER, CHECKED, "01020000000000052000000020020000", 16, 0, 0 },
    { ENTRY, CHECKED, "010100000000000100000000", 12, 0, 0 },
    { SUBJECT, CHECKED, "010100000000000100000000", 12, 0, 0 },
    { LINE, CHECKED, "0x2 to S-1-5-21-1-2-3-1001\n", 27, 0, 0 },
    { OBJECT, CHECKED, "{\"answer\":\"who\",\"mask\":\"0x2\",\"to\":\"S-1-5-21-1-2-3-1001\"}\n", 57, 0, 0 },
    { VALUE, "to", "0105000000000005150000000100000002000000" "03000000e9030000", 28, 0, 0 },
    { VALUE, "answer", "77686f", 3, 0, 0 },
    { KEEP_ACCOUNTS, ACCOUNTS, NULL, 0, 0, 0 },
    { ACCOUNT_SIDS, "alice", ALICE "010100000000000100000000" "01010000000000050b000000" "01020000000000052000000021020000", 68, 0, 0 },
    { ACCOUNT_USERS, ACCOUNTS, USERS, sizeof USERS - 1, 0, 0 },
    { WHO, CHECKED, "0x1 to nobody\n0x2 to S-1-5-21-1-2-3-1001\n", 41, 0, 0 },
    { LINT, DOUBLED, "entry 2 (A;;FR;;;BU) repeats entry 1\nentry 2 (A;;FR;;;BU) has no effect\n", 72, 0, 0 },
    { COMPARE, CHECKED, "lost 0x2 by S-1-5-21-1-2-3-1001\n", 32, 0, 0 },
    { CHECK, CHECKED, NULL, 0, 0, 0 },
    { CHECK_OPEN, CHECKED, NULL, 0, 0, 0 },
    { CHECK_WHOLE, CHECKED, NULL, 0, 0, 0 },
    { CHECK_TYPES, CHECKED, NULL, 0, 0, 0 },
    { KEEP_SDDL, CHECKED, NULL, 0, 0, 0 },
    { KEEP_SDDL, "O:DA", NULL, 0, HUDARIN_TEXT_DOMAIN_ALIAS, 2 },
    { KEEP_BYTES, CHECKED, NULL, 0, 0, 0 },
    { KEEP_TOKEN, CHECKED, NULL, 0, 0, 0 },
    { KEEP_CLIENT, CHECKED, NULL, 0, 0, 0 },
    { SHARE, CHECKED, NULL, 0, 0, 0 },
};

static const hudarin_mapping files = HUDARIN_FILE_MAPPING;
static const uint32_t states[] = { HUDARIN_GROUP_ENABLED, HUDARIN_GROUP_ENABLED };

/* What a call is lent: bytes, and the SIDs of a token. They are the same behind each call. */
typedef struct loan {
    unsigned char bytes[400], user[HUDARIN_SID_BYTES], groups[2 * HUDARIN_SID_BYTES];
    size_t length, user_length, groups_length;
} loan;

static loan lent;
static hudarin_descriptor descriptor, changed, doubled;
static hudarin_token token;
static hudarin_client client;
static hudarin_accounts accounts;
static hudarin_lines lines;
/* What the call keeps, of one kind or another. */
static union {
    hudarin_kept kept;
    hudarin_descriptor descriptor;
    hudarin_token token;
    hudarin_client client;
    hudarin_accounts accounts;
    hudarin_lines lines;
} held;

/* What a call answered, wrote and keeps, and the verdict on what it keeps. */
typedef struct outcome {
    uint32_t status, fault, kind, mask;
    uint64_t place, length;
    unsigned char room[400];
} outcome;

static void written(outcome *it, hudarin_written answer)
{
    it->status = answer.status;
    it->fault = answer.fault;
    it->place = answer.place;
    it->length = answer.length;
}

static void judged(outcome *it, hudarin_verdict answer)
{
    it->status = answer.status;
    it->kind = answer.kind;
    it->mask = answer.mask;
}

static hudarin_verdict keep_token(hudarin_token *handle)
{
    return hudarin_keep_token(lent.user, lent.user_length, lent.groups, lent.groups_length, states, 2, NULL, 0, 0, handle);
}

static hudarin_verdict keep_client(hudarin_client *handle)
{
    static const char words[] = "BU\0WD\0@User.Level={3, 4}";
    return hudarin_keep_client(NULL, 0, lent.user, lent.user_length, words, sizeof words, handle);
}

static hudarin_verdict check_whole(hudarin_client *handle)
{
    static const unsigned char types[16] = { 1 };
    return hudarin_check_whole(lent.bytes, lent.length, handle, types, sizeof types, NULL, 0, files, 0x80000000u);
}

/* The verdict on the class of a tree of two types, of which an entry has none. */
static void check_types(outcome *it)
{
    static const hudarin_type_node nodes[] = { { 0, { 1 } }, { 1, { 2 } } };
    hudarin_type_verdict verdicts[2];
    memset(verdicts, 0x5A, sizeof verdicts);
    judged(it, hudarin_check_types(lent.bytes, lent.length, &client, nodes, 2, NULL, 0, files, 0x80000000u, verdicts, 2));
    memcpy(it->room, verdicts, sizeof verdicts);
    if (it->status == HUDARIN_OK) {
        it->kind = verdicts[0].kind;
        it->mask = verdicts[0].mask;
    }
}

static hudarin_verdict who(hudarin_lines *handle)
{
    return hudarin_who(&descriptor, lent.groups, lent.groups_length, states, 2, files, 0x3, handle);
}

static hudarin_verdict lint(hudarin_lines *handle)
{
    return hudarin_lint(&doubled, lent.groups, lent.groups_length, states, 2, files, handle);
}

static hudarin_verdict compare(hudarin_lines *handle)
{
    return hudarin_compare(&descriptor, &changed, lent.groups, lent.groups_length, states, 2, files, handle).answer;
}

/* Writes the text of all lines that are kept, or checks by what else is. */
static void used(const row *row, outcome *it)
{
    uint64_t index, count = row->call >= WHO && row->call <= COMPARE ? hudarin_lines_count(&held.lines).length : 0;
    for (index = 0; index < count; index++) {
        char *room = (char *)it->room + it->length;
        it->length += hudarin_line_print(&held.lines, index, 0, room, sizeof it->room - (size_t)it->length).length;
    }
    if (row->call == KEEP_TOKEN) {
        judged(it, hudarin_check_kept(&descriptor, &held.token, files, 0x80000000u));
    } else if (row->call == KEEP_CLIENT) {
        judged(it, check_whole(&held.client));
    } else if (row->call > CHECK) {
        judged(it, hudarin_check_kept(&held.descriptor, &token, files, 0x80000000u));
    }
}

static void made(const row *row, outcome *it)
{
    size_t text = strlen(row->text), room = sizeof it->room;
    char *chars = (char *)it->room;
    memset(it, 0, sizeof *it);
    memset(it->room, 0x5A, room);
    switch (row->call) {
    case TO_BYTES: written(it, hudarin_sddl_to_bytes(row->text, text, it->room, room)); break;
    case TO_SDDL: written(it, hudarin_bytes_to_sddl(lent.bytes, lent.length, chars, room)); break;
    case CANONICAL: written(it, hudarin_sddl_canonical(row->text, text, chars, room)); break;
    case LENGTH: written(it, hudarin_descriptor_length(lent.bytes, lent.length)); break;
    case SID_BYTES: written(it, hudarin_sid_text_to_bytes(row->text, text, it->room, room)); break;
    case SID_TEXT: written(it, hudarin_sid_bytes_to_text(lent.bytes, lent.length, chars, room)); break;
    case FULL_TEXT: written(it, hudarin_sid_bytes_to_full_text(lent.bytes, lent.length, chars, room)); break;
    case MASK_TEXT: written(it, hudarin_mask_to_text(0x160089u, HUDARIN_KIND_FILE, chars, room)); break;
    case WHOLE_BYTES: written(it, hudarin_whole_from_sddl(NULL, 0, row->text, text, it->room, room)); break;
    case WHOLE_TEXT: written(it, hudarin_whole_to_sddl(lent.bytes, lent.length, 0, chars, room).written); break;
    case WHOLE_AT: written(it, hudarin_whole_at(lent.bytes, lent.length, 0, it->room, room)); break;
    case PLAIN: written(it, hudarin_whole_plain(lent.bytes, lent.length, it->room, room).written); break;
    case JOINED:
        written(it, hudarin_whole_with_parts(lent.bytes, lent.length, lent.bytes, lent.length, HUDARIN_PART_DACL, it->room, room));
        break;
    case LISTED:
        /* The entry of the list, after the header, the owner, the group and the list's header. */
        written(it, hudarin_whole_with_entries(lent.bytes, lent.length, HUDARIN_LIST_DACL, 2, lent.bytes + 56, 20, it->room,
                                               room));
        break;
    case CREATE:
        /* Its owner as one of whom the token may make the owner, and a class. */
        written(it, hudarin_create(lent.bytes, lent.length, lent.bytes, lent.length, lent.bytes, lent.length, lent.bytes + 20, 16,
                                   lent.bytes, 16, 0, HUDARIN_DACL_AUTO_INHERIT, 0, files, it->room, room)
                        .written);
        break;
    case TRUSTEE: written(it, hudarin_whole_trustee(lent.bytes, lent.length, HUDARIN_PART_OWNER, it->room, room)); break;
    case ACE:
        written(it, hudarin_whole_entry(lent.bytes, lent.length, HUDARIN_LIST_DACL, 0, it->room, room).written);
        break;
    case OWNER: written(it, hudarin_descriptor_owner(&descriptor, it->room, room)); break;
    case ENTRY: written(it, hudarin_descriptor_entry(&descriptor, 1, it->room, room).written); break;
    case SUBJECT: written(it, hudarin_descriptor_subject(&descriptor, 1, it->room, room)); break;
    case LINE: written(it, hudarin_line_print(&lines, 1, 0, chars, room)); break;
    case OBJECT: written(it, hudarin_line_print(&lines, 1, 1, chars, room)); break;
    case VALUE: written(it, hudarin_line_value(&lines, 1, row->text, text, 0, it->room, room).written); break;
    case KEEP_ACCOUNTS: written(it, hudarin_keep_accounts(row->text, text, &held.accounts)); break;
    case ACCOUNT_SIDS: written(it, hudarin_account_sids(&accounts, NULL, 0, row->text, text, it->room, room)); break;
    case ACCOUNT_USERS: written(it, hudarin_account_users(&accounts, chars, room)); break;
    case WHO: judged(it, who(&held.lines)); break;
    case LINT: judged(it, lint(&held.lines)); break;
    case COMPARE: judged(it, compare(&held.lines)); break;
    case CHECK:
        judged(it, hudarin_check(lent.bytes, lent.length, lent.user, lent.user_length, lent.groups, lent.groups_length, states, 2,
                                 NULL, 0, 0, files, 0x80000000u));
        break;
    case CHECK_OPEN:
        judged(it, hudarin_check_open(lent.bytes, lent.length, lent.bytes, lent.length, &token, files, 0x80000000u));
        break;
    case CHECK_WHOLE: judged(it, check_whole(&client)); break;
    case CHECK_TYPES: check_types(it); break;
    case KEEP_SDDL: written(it, hudarin_keep_sddl(row->text, text, &held.descriptor)); break;
    case KEEP_BYTES: written(it, hudarin_keep_bytes(lent.bytes, lent.length, &held.descriptor)); break;
    case KEEP_TOKEN: judged(it, keep_token(&held.token)); break;
    case KEEP_CLIENT: judged(it, keep_client(&held.client)); break;
    case SHARE: written(it, hudarin_descriptor_share(&descriptor, &held.descriptor)); break;
    }
    granted = -1;
    if (held.kept.is_there) {
        used(row, it);
    }
}

static int same(const void *one, const void *other, size_t size)
{
    return memcmp(one, other, size) == 0;
}

/* Whether nothing was written or kept. */
static int left_alone(const outcome *it)
{
    size_t at = 0;
    while (at < sizeof it->room && it->room[at] == 0x5A) {
        at++;
    }
    return at == sizeof it->room && it->length == 0 && it->kind == 0 && it->mask == 0 && !held.kept.is_there &&
           held.kept.at == NULL;
}

/* The bytes that the digits tell; how many there are. */
static size_t bytes_of(const char *digits, unsigned char *bytes)
{
    size_t at, length = strlen(digits) / 2;
    for (at = 0; at < length; at++) {
        unsigned byte = 0;
        HOLDS(sscanf(digits + 2 * at, "%2x", &byte) == 1);
        bytes[at] = (unsigned char)byte;
    }
    return length;
}

static int writes_text(enum call call)
{
    return call == TO_SDDL || call == WHOLE_TEXT || call == CANONICAL || call == SID_TEXT || call == FULL_TEXT || call == MASK_TEXT ||
           call == LINE || call == OBJECT || call == ACCOUNT_USERS || (call >= WHO && call <= COMPARE);
}

/* Whether the row's text or bytes were written. */
static int is_wanted(const row *row, const outcome *it)
{
    unsigned char bytes[400];
    if (row->wanted == NULL) {
        return 1;
    }
    if (!writes_text(row->call)) {
        return bytes_of(row->wanted, bytes) == it->length && same(it->room, bytes, (size_t)it->length);
    }
    return strlen(row->wanted) == it->length && same(it->room, row->wanted, (size_t)it->length);
}

/* The answer with memory there is that of the row. */
static void answers(const row *row, const outcome *it)
{
    int judges = row->call >= CHECK && row->fault == 0;
    HOLDS(it->status == (row->fault ? HUDARIN_TEXT : HUDARIN_OK));
    HOLDS(it->fault == row->fault && it->place == row->place && it->length == row->length);
    HOLDS(is_wanted(row, it));
    HOLDS(it->kind == (judges ? HUDARIN_DENIED : 0) && it->mask == (judges ? 1u : 0u));
}

/* Each request of the row's call is refused in turn, until the call makes no more of them. */
static void runs_out(const row *row, int is_lasting, const outcome *due)
{
    static outcome got, again;
    const loan before = lent;
    long at, seen, wanting = 0, blocks = taken;
    int done = 0;
    for (at = 0; !done && at < 1000; at++) {
        granted = at;
        lasts = is_lasting;
        seen = refusals;
        made(row, &got);
        done = refusals == seen;
        if (!done && got.status == HUDARIN_MEMORY) {
            wanting++;
            HOLDS(left_alone(&got) && taken == blocks);
        } else {
            /* (a vector that may not grow to twice its room asks for what it needs, and one that gives room back does without) */
            HOLDS(same(&got, due, sizeof got));
        }
        hudarin_free(&held.kept);
        HOLDS(taken == blocks && same(&lent, &before, sizeof lent));
        made(row, &again);
        HOLDS(same(&again, due, sizeof again));
        hudarin_free(&held.kept);
    }
    HOLDS(done && (wanting > 0 || row->fault != 0 || row->text[0] == 0));
}

static void lend(const row *row)
{
    size_t digits = strlen(row->text);
    if (row->call == TO_SDDL || row->call == LENGTH || (row->call >= WHOLE_TEXT && row->call <= ACE)) {
        lent.length = bytes_of(row->text, lent.bytes);
    } else if (row->call == SID_TEXT || row->call == FULL_TEXT) {
        lent.length = (size_t)hudarin_sid_text_to_bytes(row->text, digits, lent.bytes, sizeof lent.bytes).length;
    } else {
        lent.length = (size_t)hudarin_sddl_to_bytes(CHECKED, sizeof CHECKED - 1, lent.bytes, sizeof lent.bytes).length;
    }
}

/* With no memory at all these answer as ever, time and again. */
static void takes_none(void)
{
    static unsigned char bytes[HUDARIN_DESCRIPTOR_BYTES];
    size_t length = (size_t)hudarin_sddl_to_bytes(CHECKED, sizeof CHECKED - 1, bytes, sizeof bytes).length;
    long seen = refusals;
    int turn;
    granted = 0;
    lasts = 1;
    for (turn = 0; turn < 100; turn++) {
        hudarin_verdict verdict = hudarin_check_kept(&descriptor, &token, files, 0x80000000u);
        HOLDS(verdict.status == HUDARIN_OK && verdict.kind == HUDARIN_DENIED && verdict.mask == 1);
        verdict = hudarin_check_bytes(bytes, length, &token, files, 0x80000000u);
        HOLDS(verdict.status == HUDARIN_OK && verdict.kind == HUDARIN_DENIED && verdict.mask == 1);
        verdict = hudarin_explain(&descriptor, &token, files, 0x80000000u).answer;
        HOLDS(verdict.status == HUDARIN_OK && verdict.kind == HUDARIN_DENIED && verdict.mask == 1);
        HOLDS(hudarin_mask_from_text("RCSD", 4, HUDARIN_KIND_ANY).mask == 0x30000u);
        HOLDS(hudarin_descriptor_dacl(&descriptor).entries == 3);
        HOLDS(hudarin_lines_count(&lines).length == 2);
        HOLDS(hudarin_status_text(HUDARIN_MEMORY, (char *)bytes + length, 13).length == 13);
        HOLDS(hudarin_fault_name(HUDARIN_SID, HUDARIN_SID_SHORT, (char *)bytes + length, 5).length == 5);
    }
    HOLDS(refusals == seen);
    granted = -1;
}

int main(void)
{
    size_t at;
    lent.user_length = (size_t)hudarin_sid_text_to_bytes("S-1-5-21-1-2-3-1001", 19, lent.user, sizeof lent.user).length;
    lent.groups_length = (size_t)hudarin_sid_text_to_bytes("BU", 2, lent.groups, sizeof lent.groups).length;
    lent.groups_length +=
        (size_t)hudarin_sid_text_to_bytes("WD", 2, lent.groups + lent.groups_length, HUDARIN_SID_BYTES).length;
    HOLDS(lent.user_length == 28 && lent.groups_length == 28 && taken == 0);
    HOLDS(hudarin_keep_sddl(CHECKED, sizeof CHECKED - 1, &descriptor).status == HUDARIN_OK);
    HOLDS(hudarin_keep_sddl(CHANGED, sizeof CHANGED - 1, &changed).status == HUDARIN_OK);
    HOLDS(hudarin_keep_sddl(DOUBLED, sizeof DOUBLED - 1, &doubled).status == HUDARIN_OK);
    HOLDS(keep_token(&token).status == HUDARIN_OK && keep_client(&client).status == HUDARIN_OK && who(&lines).status == HUDARIN_OK);
    HOLDS(descriptor.kept.is_there && token.kept.is_there);
    HOLDS(hudarin_keep_accounts(ACCOUNTS, sizeof ACCOUNTS - 1, &accounts).status == HUDARIN_OK);
    for (at = 0; at < sizeof rows / sizeof rows[0]; at++) {
        static outcome due;
        lend(&rows[at]);
        made(&rows[at], &due);
        answers(&rows[at], &due);
        hudarin_free(&held.kept);
        runs_out(&rows[at], 0, &due);
        runs_out(&rows[at], 1, &due);
    }
    takes_none();
    hudarin_free(&descriptor.kept);
    hudarin_free(&changed.kept);
    hudarin_free(&doubled.kept);
    hudarin_free(&token.kept);
    hudarin_free(&client.kept);
    hudarin_free(&accounts.kept);
    hudarin_free(&lines.kept);
    HOLDS(taken == 0 && refusals > 0);
    printf("%ld requests for memory were refused\n", refusals);
    return close_tally();
}
