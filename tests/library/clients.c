/* Checks of whole descriptors by clients that are kept: rows of tests/descriptors/whole.rows, and each refusal. */
#include "tally.h"

static const hudarin_mapping files = HUDARIN_FILE_MAPPING, wide = { 0, 0, 0, 0x200000 };
static const unsigned char user[] = { 1, 5, 0, 0, 0, 0, 0, 5, 21, 0, 0, 0, 1, 0, 0, 0, 2, 0, 0, 0, 3, 0, 0, 0, 0xe9, 3, 0, 0 };
/* The user's SID without its last sub-authority. */
static const unsigned char domain[] = { 1, 4, 0, 0, 0, 0, 0, 5, 21, 0, 0, 0, 1, 0, 0, 0, 2, 0, 0, 0, 3, 0, 0, 0 };

/* bf967a49-0de6-11d0-a285-00aa003049e2 and bf967950-0de6-11d0-a285-00aa003049e2 as [MS-DTYP] 2.3.4.2 has them. */
#define PROPERTY "\x49\x7a\x96\xbf\xe6\x0d\xd0\x11\xa2\x85\x00\xaa\x00\x30\x49\xe2"
#define ANOTHER "\x50\x79\x96\xbf\xe6\x0d\xd0\x11\xa2\x85\x00\xaa\x00\x30\x49\xe2"
#define OF_PROPERTY ";bf967a49-0de6-11d0-a285-00aa003049e2;;"
#define NO_TYPES "", 0

static unsigned char bytes[HUDARIN_WHOLE_BYTES];

/* The bytes of the text; how many there are. */
static size_t parsed(const char *text)
{
    hudarin_written answer = hudarin_whole_from_sddl(NULL, 0, text, strlen(text), bytes, sizeof bytes);
    HOLDS(answer.status == HUDARIN_OK);
    return answer.status == HUDARIN_OK ? (size_t)answer.length : 0;
}

/* The words, each of which a newline ends here. */
static hudarin_verdict kept(const char *words, hudarin_client *client)
{
    char ended[200];
    size_t at, length = strlen(words);
    for (at = 0; at < length; at++) {
        ended[at] = words[at] == '\n' ? 0 : words[at];
    }
    return hudarin_keep_client(NULL, 0, user, sizeof user, ended, length, client);
}

static int is_unread(hudarin_verdict answer, uint32_t status, uint32_t argument, uint32_t fault, uint64_t place)
{
    return answer.status == status && answer.argument == argument && answer.fault == fault && answer.place == place &&
           answer.kind == 0 && answer.mask == 0;
}

static const struct {
    const char *sddl, *words, *types;
    size_t types_length;
    /* Whether PRINCIPAL SELF is the user. */
    int is_self;
    uint32_t asked, kind, mask;
} rows[] = {
    { "D:(D;;FW;;;BU)(A;;FA;;;BU)", "BU\n", NO_TYPES, 0, 0x3, HUDARIN_DENIED, 0x2 },
    { "D:(OA;;RP" OF_PROPERTY "BU)", "BU\n", PROPERTY, 16, 0, 0x10, HUDARIN_GRANTED, 0x10 },
    { "D:(OA;;RP" OF_PROPERTY "BU)", "BU\n", ANOTHER, 16, 0, 0x10, HUDARIN_DENIED, 0x10 },
    { "D:(OA;;RP" OF_PROPERTY "BU)", "BU\n", ANOTHER PROPERTY, 32, 0, 0x10, HUDARIN_GRANTED, 0x10 },
    { "D:(OA;;RP" OF_PROPERTY "BU)", "BU\n", NO_TYPES, 0, 0x10, HUDARIN_DENIED, 0x10 },
    { "D:(OD;;WP" OF_PROPERTY "BU)(A;;RPWP;;;BU)", "BU\n", NO_TYPES, 0, 0x30, HUDARIN_DENIED, 0x20 },
    { "D:(A;;RP;;;PS)", "", NO_TYPES, 1, 0x10, HUDARIN_GRANTED, 0x10 },
    { "D:(A;;RP;;;PS)", "", NO_TYPES, 0, 0x10, HUDARIN_DENIED, 0x10 },
    { "D:(XA;;FR;;;WD;(@User.Level >= 3))", "WD\n@User.Level=3\n", NO_TYPES, 0, 0x120089, HUDARIN_GRANTED, 0x120089 },
    { "D:(XA;;FR;;;WD;(@User.Level >= 3))", "WD\n@User.Level=2\n", NO_TYPES, 0, 0x120089, HUDARIN_DENIED, 0x120089 },
    { "D:(XD;;FW;;;WD;(@User.Level == 3))(A;;FA;;;WD)", "WD\n", NO_TYPES, 0, 0x3, HUDARIN_DENIED, 0x2 },
    { "D:(XA;;FR;;;WD;(@User.Level >= @Resource.Secrecy))S:(RA;;;;;WD;(\"Secrecy\",TU,0x0,3))", "WD\n@User.Level=3\n", NO_TYPES, 0,
      0x120089, HUDARIN_GRANTED, 0x120089 },
    { "D:(A;;FA;;;WD)", "WD\n", NO_TYPES, 0, 0x2000000, HUDARIN_GRANTED, 0x1f01ff },
    { "D:(A;;FA;;;WD)", "WD\nlevel=low\n", NO_TYPES, 0, 0x2000000, HUDARIN_GRANTED, 0x1200a9 },
    { "D:(A;;FA;;;S-1-5-21-1-2-3-1001)", "user=deny\n", NO_TYPES, 0, 0x1, HUDARIN_DENIED, 0x1 },
    { "D:(D;;0x1;;;S-1-5-21-1-2-3-1001)(A;;FA;;;WD)", "WD\nuser=deny\n", NO_TYPES, 0, 0x3, HUDARIN_DENIED, 0x1 },
    { "D:(A;;FA;;;WD)S:(ML;;NW;;;HI)", "WD\n", NO_TYPES, 0, 0x3, HUDARIN_DENIED, 0x2 },
    { "D:(A;;FA;;;WD)S:(ML;;NW;;;HI)", "WD\nlevel=high\n", NO_TYPES, 0, 0x3, HUDARIN_GRANTED, 0x3 },
    { "D:(A;;FA;;;WD)S:(ML;;NWNRNX;;;SI)", "WD\n", NO_TYPES, 0, 0x200001, HUDARIN_RESERVED, 0x200000 },
    { "D:(A;;FA;;;WD)S:(ML;;NWNRNX;;;SI)", "WD\n", NO_TYPES, 0, 0, HUDARIN_EMPTY_REQUEST, 0 },
};

/* The verdicts: the client stays, and its share answers the same. */
static void verdicts(void)
{
    size_t at;
    for (at = 0; at < sizeof rows / sizeof rows[0]; at++) {
        hudarin_client client = HUDARIN_NOTHING, other = HUDARIN_NOTHING;
        size_t turn, length = parsed(rows[at].sddl), self_length = rows[at].is_self ? sizeof user : 0;
        HOLDS(is_unread(kept(rows[at].words, &client), HUDARIN_OK, 0, 0, 0));
        HOLDS(hudarin_client_share(&client, &other).status == HUDARIN_OK);
        for (turn = 0; turn < 2; turn++) {
            hudarin_verdict answer = hudarin_check_whole(bytes, length, turn ? &other : &client, rows[at].types, rows[at].types_length,
                                                         user, self_length, files, rows[at].asked);
            HOLDS(answer.status == HUDARIN_OK && answer.kind == rows[at].kind && answer.mask == rows[at].mask);
            HOLDS(hudarin_is_granted(answer) == (rows[at].kind == HUDARIN_GRANTED));
            answer = hudarin_explain_whole(bytes, length, turn ? &other : &client, rows[at].types, rows[at].types_length, user,
                                           self_length, files, rows[at].asked)
                         .answer;
            HOLDS(answer.status == HUDARIN_OK && answer.kind == rows[at].kind && answer.mask == rows[at].mask);
        }
        hudarin_free(&client.kept);
        HOLDS(other.kept.is_there == 1);
        hudarin_free(&other.kept);
    }
}

/* A part of an explanation: its mask, and why. */
static int is_part(hudarin_part part, uint32_t mask, uint32_t cause, uint32_t granted, uint32_t kind, uint64_t entry)
{
    return part.mask == mask && part.cause == cause && part.granted == granted && part.first.kind == kind && part.first.entry == entry &&
           part.second.kind == 0 && part.second.entry == 0;
}

/* Reasons: what the label takes, and of entries with conditions those that decide. */
static void reasons(void)
{
    hudarin_client client = HUDARIN_NOTHING;
    hudarin_explanation why = hudarin_explain_whole(NULL, 0, &client, NULL, 0, NULL, 0, files, 1);
    size_t length = parsed("D:(A;;FA;;;WD)");
    int at;
    HOLDS(is_unread(why.answer, HUDARIN_HANDLE, HUDARIN_ARGUMENT_CLIENT, 0, 0) && is_part(why.parts[0], 0, 0, 0, 0, 0));
    HOLDS(kept("WD\nlevel=low\n", &client).status == HUDARIN_OK);
    why = hudarin_explain_whole(bytes, length, &client, NULL, 0, NULL, 0, files, 0x3);
    HOLDS(why.answer.status == HUDARIN_OK && why.answer.kind == HUDARIN_DENIED && why.answer.mask == 0x2);
    HOLDS(is_part(why.parts[0], 0x1, HUDARIN_CAUSE_LIST, 1, HUDARIN_FINDING_ALLOWED, 0));
    HOLDS(is_part(why.parts[1], 0x2, HUDARIN_CAUSE_LABEL, 0, 0, 0));
    for (at = 2; at < 32; at++) {
        HOLDS(is_part(why.parts[at], 0, 0, 0, 0, 0));
    }
    length = parsed("D:(A;;FA;;;WD)(AU;SA;FA;;;WD)");
    why = hudarin_explain_whole(bytes, length, &client, NULL, 0, NULL, 0, files, 0x1);
    HOLDS(is_unread(why.answer, HUDARIN_UNDECIDED, HUDARIN_ARGUMENT_DESCRIPTOR, HUDARIN_UNDECIDED_SYSTEM_ACE, 1));
    HOLDS(is_part(why.parts[0], 0, 0, 0, 0, 0) && client.kept.is_there == 1);
    hudarin_free(&client.kept);
    HOLDS(kept("WD\n", &client).status == HUDARIN_OK);
    length = parsed("D:(XD;;FW;;;WD;(@User.Level < 3))(XA;;FA;;;WD;(@User.Level >= 3))");
    why = hudarin_explain_whole(bytes, length, &client, NULL, 0, NULL, 0, files, 0x3);
    HOLDS(why.answer.kind == HUDARIN_DENIED && why.answer.mask == 0x3);
    HOLDS(is_part(why.parts[0], 0x1, HUDARIN_CAUSE_LIST, 0, HUDARIN_FINDING_NO_ENTRY, 0));
    HOLDS(is_part(why.parts[1], 0x2, HUDARIN_CAUSE_LIST, 0, HUDARIN_FINDING_DENIED, 0));
    hudarin_free(&client.kept);
    HOLDS(kept("WD\n@User.Level=3\n", &client).status == HUDARIN_OK);
    why = hudarin_explain_whole(bytes, length, &client, NULL, 0, NULL, 0, files, 0x3);
    HOLDS(hudarin_is_granted(why.answer) && is_part(why.parts[0], 0x3, HUDARIN_CAUSE_LIST, 1, HUDARIN_FINDING_ALLOWED, 1));
    hudarin_free(&client.kept);
}

/* That the words in these bytes are refused so, and nothing is kept. */
static void refuses(const char *words, size_t length, uint32_t status, uint64_t place)
{
    hudarin_client client = HUDARIN_NOTHING;
    hudarin_verdict answer = hudarin_keep_client(NULL, 0, user, sizeof user, words, length, &client);
    HOLDS(is_unread(answer, status, HUDARIN_ARGUMENT_WORDS, 0, place) && client.kept.is_there == 0 && client.kept.at == NULL);
}

/* Clients that aren't kept: of several mistakes that of the first argument. */
static void refusals(void)
{
    hudarin_client client = HUDARIN_NOTHING, other = HUDARIN_NOTHING;
    hudarin_verdict answer;
    refuses("BU", 2, HUDARIN_UNENDED, 0);
    refuses("BU\0WD", 5, HUDARIN_UNENDED, 0);
    refuses("QQ\0WD", 5, HUDARIN_UNENDED, 0);
    refuses("BU\0\xff", 4, HUDARIN_UTF8, 3);
    refuses("", 1, HUDARIN_WORD, 0);
    refuses("WD\0level=middle", 16, HUDARIN_WORD, 1);
    refuses("WD\0BU\0@User.Level==3", 21, HUDARIN_WORD, 2);
    refuses("DA", 3, HUDARIN_WORD, 0);
    answer = hudarin_keep_client(domain, sizeof domain, user, 27, "\xff", 1, &client);
    HOLDS(is_unread(answer, HUDARIN_SID, HUDARIN_ARGUMENT_USER, HUDARIN_SID_SHORT, 0) && client.kept.is_there == 0);
    answer = hudarin_keep_client(domain, 23, user, 27, "\xff", 1, &client);
    HOLDS(is_unread(answer, HUDARIN_SID, HUDARIN_ARGUMENT_DOMAIN, HUDARIN_SID_SHORT, 0) && client.kept.is_there == 0);
    answer = hudarin_keep_client(user, sizeof user, user, 27, "\xff", 1, &client);
    HOLDS(is_unread(answer, HUDARIN_DOMAIN, HUDARIN_ARGUMENT_DOMAIN, 0, 0) && client.kept.is_there == 0);
    answer = hudarin_keep_client(domain, sizeof domain, user, sizeof user, "DA", 3, &client);
    HOLDS(is_unread(answer, HUDARIN_OK, 0, 0, 0) && client.kept.is_there == 1);
    answer = hudarin_check_whole(bytes, parsed("D:(A;;FR;;;S-1-5-21-1-2-3-512)"), &client, NULL, 0, NULL, 0, files, 0x1);
    HOLDS(hudarin_is_granted(answer));
    answer = hudarin_keep_client(user, sizeof user, NULL, 0, "\xff", 1, &client);
    HOLDS(is_unread(answer, HUDARIN_HANDLE, HUDARIN_ARGUMENT_CLIENT, 0, 0) && client.kept.is_there == 1);
    HOLDS(hudarin_client_share(&client, &other).status == HUDARIN_OK && hudarin_client_share(&client, &other).status == HUDARIN_HANDLE);
    hudarin_free(&client.kept);
    hudarin_free(&client.kept);
    HOLDS(hudarin_client_share(&client, &other).status == HUDARIN_HANDLE && client.kept.is_there == 0 && other.kept.is_there == 1);
    hudarin_free(&other.kept);
}

/* That a restricted user, or one with no more than a group, gets no verdict by the list, for this entry. */
static void undecided(const char *sddl, const char *words, uint32_t fault, uint64_t place)
{
    hudarin_client client = HUDARIN_NOTHING;
    hudarin_verdict answer;
    HOLDS(kept(words, &client).status == HUDARIN_OK);
    answer = hudarin_check_whole(bytes, parsed(sddl), &client, NULL, 0, NULL, 0, files, 0x1);
    HOLDS(is_unread(answer, HUDARIN_UNDECIDED, HUDARIN_ARGUMENT_DESCRIPTOR, fault, place) && !hudarin_is_granted(answer));
    hudarin_free(&client.kept);
}

/* Questions that aren't answered: of several mistakes that of the first, in the order of the header. */
static void unanswered(void)
{
    static unsigned char types[96];
    hudarin_client client = HUDARIN_NOTHING;
    hudarin_token token = HUDARIN_NOTHING;
    hudarin_verdict answer = hudarin_check_whole(NULL, 0, &client, types, 1, user, 1, wide, 1);
    size_t length;
    HOLDS(is_unread(answer, HUDARIN_HANDLE, HUDARIN_ARGUMENT_CLIENT, 0, 0));
    HOLDS(hudarin_keep_token(user, sizeof user, NULL, 0, NULL, 0, NULL, 0, 0, &token).status == HUDARIN_OK);
    answer = hudarin_check_whole(NULL, 0, (hudarin_client *)&token, types, 1, user, 1, wide, 1);
    HOLDS(is_unread(answer, HUDARIN_HANDLE, HUDARIN_ARGUMENT_CLIENT, 0, 0) && token.kept.is_there == 1);
    hudarin_free(&token.kept);
    HOLDS(kept("WD\n", &client).status == HUDARIN_OK);
    for (length = 0; length <= sizeof types; length++) {
        answer = hudarin_check_whole(NULL, 0, &client, types, length, user, 1, wide, 1);
        if (length % 16 == 0 && length <= 80) {
            HOLDS(is_unread(answer, HUDARIN_SID, HUDARIN_ARGUMENT_PRINCIPAL_SELF, HUDARIN_SID_SHORT, 0));
        } else {
            HOLDS(is_unread(answer, HUDARIN_TYPES, HUDARIN_ARGUMENT_TYPES, 0, 0));
        }
    }
    answer = hudarin_check_whole(NULL, 0, &client, NULL, 0, NULL, 0, wide, 1);
    HOLDS(is_unread(answer, HUDARIN_MAPPING, HUDARIN_ARGUMENT_MAPPING, 0, 0));
    answer = hudarin_check_whole(bytes, 19, &client, NULL, 0, NULL, 0, files, 1);
    HOLDS(is_unread(answer, HUDARIN_WIRE, HUDARIN_ARGUMENT_DESCRIPTOR, HUDARIN_WIRE_SHORT, 0) && client.kept.is_there == 1);
    hudarin_free(&client.kept);
    undecided("D:(A;;FA;;;WD)(AU;SA;FA;;;WD)", "WD\n", HUDARIN_UNDECIDED_SYSTEM_ACE, 1);
    undecided("D:(A;;FA;;;WD)(A;;FA;;;BU)(ML;;NW;;;ME)(AU;SA;FA;;;WD)", "WD\n", HUDARIN_UNDECIDED_SYSTEM_ACE, 2);
    undecided("D:(A;;FR;;;WD)S:(ML;;NW;;;LW)(SP;;;;;S-1-17-1)", "WD\n", HUDARIN_UNDECIDED_MAY_BE_DENIED, 0);
    undecided("D:(XA;;FR;;;WD;(Member_of {SID(BU)}))", "WD\nBU\nWD=restrict\n", HUDARIN_UNDECIDED_PASSES_DIFFER, 0);
    undecided("D:(A;;FR;;;WD)(XD;;FW;;;WD;(Member_of {SID(RC)}))", "WD\nWD=restrict\nRC=restrict\n", HUDARIN_UNDECIDED_PASSES_DIFFER, 1);
}

int main(void)
{
    verdicts();
    reasons();
    refusals();
    unanswered();
    return close_tally();
}
