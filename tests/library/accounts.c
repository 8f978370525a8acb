/* Accounts that are kept: the SIDs of a user's token, worked by hand; the users that may log on; and each refusal. */
#include "rooms.h"

#define D "S-1-5-21-1-2-3-"

/* alice is an intern, interns (1201) are editors (1202), editors are staff (1200), and staff are editors; 513 is her primary group,
 * and in a group of the machine. All authenticated users are in 1205. */
static const char example[] = "# accounts\r\n"
                              "user " D "1104 EXAMPLE\\alice\r\n"
                              "user " D "1104 alice@example.test\n"
                              "user " D "1105 EXAMPLE\\bob\n"
                              "user " D "1106 EXAMPLE\\carol\n"
                              "user " D "501 EXAMPLE\\Guest\n"
                              "user S-1-5-21-9-9-9-1001 OTHER\\bob\n"
                              "\n"
                              "group " D "1200 EXAMPLE\\staff\n"
                              "primary " D "1104 " D "513\n"
                              "primary " D "1105 " D "513\n"
                              "member " D "1201 " D "1104\n"
                              "member " D "1202 " D "1201\n"
                              "member " D "1200 " D "1202\n"
                              "member " D "1202 " D "1200\n"
                              "member S-1-5-32-545 " D "513\n"
                              "member " D "1205 S-1-5-11\n"
                              "member " D "1206 " D "1106\n"
                              "member S-1-5-32-546 " D "501\n"
                              "disabled " D "1106";

/* S-1-5-21-1-2-3, and with 1104, 0x450, for alice. */
static const unsigned char domain[] = { 1, 4, 0, 0, 0, 0, 0, 5, 21, 0, 0, 0, 1, 0, 0, 0, 2, 0, 0, 0, 3, 0, 0, 0 };
static const unsigned char alice[] = { 1, 5, 0, 0, 0, 0, 0, 5, 21, 0, 0, 0, 1, 0, 0, 0, 2, 0, 0, 0, 3, 0, 0, 0, 0x50, 4, 0, 0 };
/* Everyone, S-1-1-0, and Authenticated Users, S-1-5-11. */
static const unsigned char everyone[] = { 1, 1, 0, 0, 0, 0, 0, 1, 0, 0, 0, 0 };
static const unsigned char authenticated[] = { 1, 1, 0, 0, 0, 0, 0, 5, 11, 0, 0, 0 };

static hudarin_accounts accounts = HUDARIN_NOTHING;

static int is_unwritten(hudarin_written answer, uint32_t status, uint32_t fault, uint64_t place)
{
    return answer.status == status && answer.fault == fault && answer.place == place && answer.length == 0;
}

/* That the accounts of the text are kept. */
static void kept(const char *text, size_t length)
{
    HOLDS(is_unwritten(hudarin_keep_accounts(text, length, &accounts), HUDARIN_OK, 0, 0) && accounts.kept.is_there == 1);
}

/* How many of the SIDs that are concatenated in the bytes have this text; of all of them if there is none. */
static int count(const unsigned char *bytes, size_t length, const char *text)
{
    size_t at = 0;
    int found = 0;
    while (at < length) {
        char said[HUDARIN_SID_TEXT_BYTES];
        hudarin_written answer = hudarin_sid_bytes_to_full_text(bytes + at, length - at, said, sizeof said);
        HOLDS(answer.status == HUDARIN_OK);
        found += text == NULL || (answer.length == strlen(text) && memcmp(said, text, strlen(text)) == 0);
        at += 8 + 4 * (size_t)bytes[at + 1];
    }
    HOLDS(at == length);
    return found;
}

/* The tokens of users: the user's own SID is the first one, the others are in any order. */
static const struct {
    const char *user, *sids[12];
} tokens[] = {
    { "EXAMPLE\\alice",
      { D "1104", "S-1-1-0", "S-1-5-11", D "513", D "1201", D "1202", D "1200", "S-1-5-32-545", D "1205" } },
    { "alice", { D "1104", "S-1-1-0", "S-1-5-11", D "513", D "1201", D "1202", D "1200", "S-1-5-32-545", D "1205" } },
    { "ALICE@example.TEST",
      { D "1104", "S-1-1-0", "S-1-5-11", D "513", D "1201", D "1202", D "1200", "S-1-5-32-545", D "1205" } },
    { "S-1-5-21-1-2-3-1104",
      { D "1104", "S-1-1-0", "S-1-5-11", D "513", D "1201", D "1202", D "1200", "S-1-5-32-545", D "1205" } },
    { "example\\BOB", { D "1105", "S-1-1-0", "S-1-5-11", D "513", "S-1-5-32-545", D "1205" } },
    { "OTHER\\bob", { "S-1-5-21-9-9-9-1001", "S-1-1-0", "S-1-5-11", D "1205" } },
    /* A guest isn't authenticated, and who is anonymous isn't in Everyone either. */
    { "Guest", { D "501", "S-1-1-0", "S-1-5-32-546" } },
    { "ANONYMOUS LOGON", { "S-1-5-7" } },
    { "SYSTEM", { "S-1-5-18", "S-1-1-0", "S-1-5-11", "S-1-5-32-544", D "1205" } },
    { "SY", { "S-1-5-18", "S-1-1-0", "S-1-5-11", "S-1-5-32-544", D "1205" } },
};

static void has_token(const char *user, const char *const *sids)
{
    unsigned char bytes[400];
    hudarin_written answer = hudarin_account_sids(&accounts, NULL, 0, user, strlen(user), bytes, sizeof bytes);
    int at, wanted = 0;
    HOLDS(answer.status == HUDARIN_OK && answer.fault == 0 && answer.place == 0 && accounts.kept.is_there == 1);
    while (sids[wanted]) {
        wanted++;
    }
    HOLDS(count(bytes, (size_t)answer.length, NULL) == wanted);
    for (at = 0; at < wanted; at++) {
        HOLDS(count(bytes, (size_t)answer.length, sids[at]) == 1);
    }
    HOLDS(count(bytes, 8 + 4 * (size_t)bytes[1], sids[0]) == 1);
}

/* The bytes of a token, whose first three SIDs are in order, and a room of each length. */
static void rooms(void)
{
    size_t length, wanted = sizeof alice + sizeof everyone + sizeof authenticated + 4 * 28 + 16 + 28;
    unsigned char bytes[400];
    hudarin_written answer = hudarin_account_sids(&accounts, NULL, 0, "alice", 5, bytes, sizeof bytes);
    HOLDS(answer.length == wanted && memcmp(bytes, alice, sizeof alice) == 0);
    HOLDS(memcmp(bytes + sizeof alice, everyone, sizeof everyone) == 0);
    HOLDS(memcmp(bytes + sizeof alice + sizeof everyone, authenticated, sizeof authenticated) == 0);
    for (length = 0; length <= wanted + 3; length++) {
        int fits = length >= wanted;
        unsigned char *room = fresh_room(length);
        answer = hudarin_account_sids(&accounts, NULL, 0, (const char *)lent("alice", 5), 5, length == 0 ? NULL : room, length);
        HOLDS(answer.status == (fits ? HUDARIN_OK : HUDARIN_ROOM) && answer.length == wanted);
        HOLDS(room_is(room, length, bytes, fits ? wanted : 0));
    }
}

/* The answer to a text that means no user that may log on, whatever the room. */
static void no_user(const char *user, size_t length, uint32_t status, uint32_t fault, uint64_t place)
{
    unsigned char *room = fresh_room(ROOM);
    hudarin_written answer = hudarin_account_sids(&accounts, NULL, 0, user, length, room, ROOM);
    HOLDS(is_unwritten(answer, status, fault, place) && room_is(room, ROOM, "", 0) && accounts.kept.is_there == 1);
    answer = hudarin_account_sids(&accounts, NULL, 0, user, length, NULL, 0);
    HOLDS(is_unwritten(answer, status, fault, place));
}

static void no_users(void)
{
    no_user("dave", 4, HUDARIN_ACCOUNT, HUDARIN_ACCOUNT_UNKNOWN, 0);
    no_user("", 0, HUDARIN_ACCOUNT, HUDARIN_ACCOUNT_UNKNOWN, 0);
    no_user("alice\0", 6, HUDARIN_ACCOUNT, HUDARIN_ACCOUNT_UNKNOWN, 0);
    no_user("OTHER\\alice", 11, HUDARIN_ACCOUNT, HUDARIN_ACCOUNT_UNKNOWN, 0);
    no_user("LG", 2, HUDARIN_ACCOUNT, HUDARIN_ACCOUNT_UNKNOWN, 0);
    no_user("bob", 3, HUDARIN_ACCOUNT, HUDARIN_ACCOUNT_AMBIGUOUS, 0);
    no_user("EXAMPLE\\staff", 13, HUDARIN_ACCOUNT, HUDARIN_ACCOUNT_NO_USER, 0);
    no_user("Everyone", 8, HUDARIN_ACCOUNT, HUDARIN_ACCOUNT_NO_USER, 0);
    no_user("S-1-5-21-1-2-3-9999", 19, HUDARIN_ACCOUNT, HUDARIN_ACCOUNT_NO_USER, 0);
    no_user("carol", 5, HUDARIN_ACCOUNT, HUDARIN_ACCOUNT_DISABLED, 0);
    no_user("S-1-5-21-1-2-3-1106", 19, HUDARIN_ACCOUNT, HUDARIN_ACCOUNT_DISABLED, 0);
    no_user("al\xff" "ce", 5, HUDARIN_UTF8, 0, 2);
}

/* LG is a domain's guest, with the relative identifier 501 ([MS-DTYP] 2.4.2.4). Of several mistakes the first counts. */
static void domains(void)
{
    unsigned char bytes[400];
    hudarin_written answer = hudarin_account_sids(&accounts, domain, sizeof domain, "LG", 2, bytes, sizeof bytes);
    HOLDS(answer.status == HUDARIN_OK && count(bytes, (size_t)answer.length, NULL) == 3);
    HOLDS(count(bytes, 28, D "501") == 1);
    answer = hudarin_account_sids(&accounts, domain, sizeof domain, "alice", 5, bytes, sizeof bytes);
    HOLDS(answer.status == HUDARIN_OK && count(bytes, (size_t)answer.length, NULL) == 9);
    answer = hudarin_account_sids(&accounts, domain, sizeof domain, "LA", 2, bytes, sizeof bytes);
    HOLDS(is_unwritten(answer, HUDARIN_ACCOUNT, HUDARIN_ACCOUNT_NO_USER, 0));
    answer = hudarin_account_sids(&accounts, domain, sizeof domain, "\xff", 1, bytes, sizeof bytes);
    HOLDS(is_unwritten(answer, HUDARIN_UTF8, 0, 0));
    answer = hudarin_account_sids(&accounts, alice, sizeof alice, "\xff", 1, bytes, sizeof bytes);
    HOLDS(is_unwritten(answer, HUDARIN_DOMAIN, 0, 0));
    answer = hudarin_account_sids(&accounts, domain, sizeof domain - 1, "\xff", 1, bytes, sizeof bytes);
    HOLDS(is_unwritten(answer, HUDARIN_SID, HUDARIN_SID_SHORT, 0));
}

#define SYSTEMS                                                                                                    \
    "S-1-5-7 NT AUTHORITY\\ANONYMOUS LOGON\nS-1-5-18 NT AUTHORITY\\SYSTEM\nS-1-5-19 NT AUTHORITY\\LOCAL SERVICE\n" \
    "S-1-5-20 NT AUTHORITY\\NETWORK SERVICE\n"

/* The lines of the users that may log on. */
static void has_users(const char *wanted)
{
    char text[800];
    hudarin_written answer = hudarin_account_users(&accounts, text, sizeof text);
    HOLDS(answer.status == HUDARIN_OK && answer.length == strlen(wanted) && memcmp(text, wanted, strlen(wanted)) == 0);
    memset(text, 0x5A, sizeof text);
    answer = hudarin_account_users(&accounts, text, strlen(wanted) - 1);
    HOLDS(answer.status == HUDARIN_ROOM && answer.length == strlen(wanted) && text[0] == 0x5A);
    answer = hudarin_account_users(&accounts, NULL, 0);
    HOLDS(answer.status == HUDARIN_ROOM && answer.length == strlen(wanted) && accounts.kept.is_there == 1);
}

/* Texts that aren't kept. */
static const struct {
    const char *text;
    uint32_t status, fault;
    uint64_t place;
} faults[] = {
    { "users S-1-1-0 x", HUDARIN_ROW, HUDARIN_ROW_KEYWORD, 1 },
    { "User S-1-1-0 x", HUDARIN_ROW, HUDARIN_ROW_KEYWORD, 1 },
    { " user S-1-1-0 x", HUDARIN_ROW, HUDARIN_ROW_KEYWORD, 1 },
    { "user S-1-1-0 x\r\n\r\n# c\nbad\r\nuser", HUDARIN_ROW, HUDARIN_ROW_KEYWORD, 4 },
    { "user S-1-5-7 a\nuser", HUDARIN_ROW, HUDARIN_ROW_SID, 2 },
    { "user alice S-1-5-7", HUDARIN_ROW, HUDARIN_ROW_SID, 1 },
    { "user DA admins", HUDARIN_ROW, HUDARIN_ROW_SID, 1 },
    { "\n\nmember S-1-1-0\n", HUDARIN_ROW, HUDARIN_ROW_SID, 3 },
    { "user S-1-1-0", HUDARIN_ROW, HUDARIN_ROW_NAME, 1 },
    { "group S-1-1-0 ", HUDARIN_ROW, HUDARIN_ROW_NAME, 1 },
    { "group S-1-1-0 a\tb", HUDARIN_ROW, HUDARIN_ROW_NAME, 1 },
    { "member S-1-1-0 S-1-1-0 x", HUDARIN_ROW, HUDARIN_ROW_SURPLUS, 1 },
    { "disabled S-1-1-0 S-1-1-0", HUDARIN_ROW, HUDARIN_ROW_SURPLUS, 1 },
    { "disabled S-1-1-0\nincomplete 3 rows", HUDARIN_ROW, HUDARIN_ROW_INCOMPLETE, 2 },
    { "incomplete", HUDARIN_ROW, HUDARIN_ROW_INCOMPLETE, 1 },
    { "# \xff", HUDARIN_UTF8, 0, 2 },
    { "bad\nuser S-1-1-0 \xc3", HUDARIN_UTF8, 0, 17 },
};

static void no_accounts(void)
{
    hudarin_accounts none = HUDARIN_NOTHING;
    size_t at;
    for (at = 0; at < sizeof faults / sizeof faults[0]; at++) {
        size_t length = strlen(faults[at].text);
        hudarin_written answer = hudarin_keep_accounts((const char *)lent(faults[at].text, length), length, &none);
        HOLDS(is_unwritten(answer, faults[at].status, faults[at].fault, faults[at].place));
        HOLDS(none.kept.is_there == 0 && none.kept.at == NULL);
    }
}

/* Handles that are empty, in use, shared, or of another kind. */
static void handles(void)
{
    hudarin_accounts other = HUDARIN_NOTHING;
    hudarin_token token = HUDARIN_NOTHING;
    unsigned char *room = fresh_room(ROOM);
    HOLDS(is_unwritten(hudarin_account_sids(&accounts, alice, 1, "\xff", 1, room, ROOM), HUDARIN_HANDLE, 0, 0));
    HOLDS(is_unwritten(hudarin_account_users(&accounts, (char *)room, ROOM), HUDARIN_HANDLE, 0, 0));
    HOLDS(hudarin_accounts_share(&accounts, &other).status == HUDARIN_HANDLE && other.kept.is_there == 0);
    HOLDS(hudarin_keep_token(alice, sizeof alice, NULL, 0, NULL, 0, NULL, 0, 0, &token).status == HUDARIN_OK);
    HOLDS(is_unwritten(hudarin_account_sids((hudarin_accounts *)&token, NULL, 0, "SY", 2, room, ROOM), HUDARIN_HANDLE, 0, 0));
    HOLDS(is_unwritten(hudarin_account_users((hudarin_accounts *)&token, (char *)room, ROOM), HUDARIN_HANDLE, 0, 0));
    HOLDS(is_unwritten(hudarin_keep_accounts("", 0, (hudarin_accounts *)&token), HUDARIN_HANDLE, 0, 0));
    HOLDS(token.kept.is_there == 1 && room_is(room, ROOM, "", 0));
    hudarin_free(&token.kept);
    kept(example, sizeof example - 1);
    HOLDS(is_unwritten(hudarin_keep_accounts("bad", 3, &accounts), HUDARIN_HANDLE, 0, 0));
    HOLDS(hudarin_accounts_share(&accounts, &other).status == HUDARIN_OK);
    HOLDS(hudarin_accounts_share(&accounts, &other).status == HUDARIN_HANDLE);
    hudarin_free(&accounts.kept);
    hudarin_free(&accounts.kept);
    HOLDS(accounts.kept.is_there == 0 && other.kept.is_there == 1);
    HOLDS(hudarin_account_sids(&other, NULL, 0, "alice", 5, room, ROOM).status == HUDARIN_OK);
    hudarin_free(&other.kept);
}

/* A check by what was written: alice reads what editors may read, and bob doesn't. */
static void checks(void)
{
    static const hudarin_mapping files = HUDARIN_FILE_MAPPING;
    static const char text[] = "O:BAG:SYD:(A;;FR;;;" D "1202)";
    static const char *const users[] = { "alice", "EXAMPLE\\bob" };
    static const uint32_t states[] = { 4, 4, 4, 4, 4, 4, 4, 4, 4, 4, 4 };
    unsigned char bytes[400], descriptor[200];
    size_t at, length = (size_t)hudarin_sddl_to_bytes(text, sizeof text - 1, descriptor, sizeof descriptor).length;
    for (at = 0; at < 2; at++) {
        hudarin_written answer = hudarin_account_sids(&accounts, NULL, 0, users[at], strlen(users[at]), bytes, sizeof bytes);
        int groups = count(bytes, (size_t)answer.length, NULL) - 1;
        hudarin_verdict verdict = hudarin_check(descriptor, length, bytes, 28, bytes + 28, (size_t)answer.length - 28, states,
                                                (size_t)groups, NULL, 0, 0, files, HUDARIN_FILE_READ_DATA);
        HOLDS(verdict.status == HUDARIN_OK && hudarin_is_granted(verdict) == (at == 0));
    }
}

int main(void)
{
    size_t at;
    open_rooms();
    handles();
    kept(example, sizeof example - 1);
    for (at = 0; at < sizeof tokens / sizeof tokens[0]; at++) {
        has_token(tokens[at].user, tokens[at].sids);
    }
    rooms();
    no_users();
    domains();
    checks();
    has_users(D "1104 EXAMPLE\\alice\n" D "1105 EXAMPLE\\bob\n" D "501 EXAMPLE\\Guest\nS-1-5-21-9-9-9-1001 OTHER\\bob\n" SYSTEMS);
    hudarin_free(&accounts.kept);
    kept(NULL, 0);
    has_token("nt authority\\system", (const char *const[]){ "S-1-5-18", "S-1-1-0", "S-1-5-11", "S-1-5-32-544", NULL });
    no_user("alice", 5, HUDARIN_ACCOUNT, HUDARIN_ACCOUNT_UNKNOWN, 0);
    no_user("Users", 5, HUDARIN_ACCOUNT, HUDARIN_ACCOUNT_NO_USER, 0);
    has_users(SYSTEMS);
    hudarin_free(&accounts.kept);
    no_accounts();
    return close_tally();
}
