/* The verdict on each node of a tree of object types: rows of tests/program/types.rows, and each refusal. */
#include "rooms.h"

static const hudarin_mapping files = HUDARIN_FILE_MAPPING, wide = { 0, 0, 0, 0x200000 };
static const unsigned char user[] = { 1, 5, 0, 0, 0, 0, 0, 5, 21, 0, 0, 0, 1, 0, 0, 0, 2, 0, 0, 0, 3, 0, 0, 0, 0xe9, 3, 0, 0 };

/* Types as [MS-DTYP] 2.3.4.2 has them, and as a text does: a class, two sets, and two properties of the first. */
#define CLASS { 0xba, 0x7a, 0x96, 0xbf, 0xe6, 0x0d, 0xd0, 0x11, 0xa2, 0x85, 0, 0xaa, 0, 0x30, 0x49, 0xe2 }
#define SET { 0x54, 0x01, 0x8d, 0xe4, 0xf8, 0xbc, 0xd1, 0x11, 0x87, 0x02, 0, 0xc0, 0x4f, 0xb9, 0x60, 0x50 }
#define ONE { 0x50, 0x79, 0x96, 0xbf, 0xe6, 0x0d, 0xd0, 0x11, 0xa2, 0x85, 0, 0xaa, 0, 0x30, 0x49, 0xe2 }
#define TWO { 0x68, 0x7a, 0x96, 0xbf, 0xe6, 0x0d, 0xd0, 0x11, 0xa2, 0x85, 0, 0xaa, 0, 0x30, 0x49, 0xe2 }
#define OTHER { 0x86, 0xb8, 0xb5, 0x77, 0x4a, 0x94, 0xd1, 0x11, 0xae, 0xbd, 0, 0, 0xf8, 0x03, 0x67, 0xc1 }
#define OF_CLASS ";bf967aba-0de6-11d0-a285-00aa003049e2;;"
#define OF_SET ";e48d0154-bcf8-11d1-8702-00c04fb96050;;"
#define OF_ONE ";bf967950-0de6-11d0-a285-00aa003049e2;;"
#define OF_TWO ";bf967a68-0de6-11d0-a285-00aa003049e2;;"
#define OF_OTHER ";77b5b886-944a-11d1-aebd-0000f80367c1;;"

enum { NODES = 5 };

static const hudarin_type_node nodes[NODES] = { { 0, CLASS }, { 1, SET }, { 2, ONE }, { 2, TWO }, { 1, OTHER } };

static unsigned char bytes[HUDARIN_WHOLE_BYTES];

/* The bytes of the text; how many there are. */
static size_t parsed(const char *text)
{
    hudarin_written answer = hudarin_whole_from_sddl(NULL, 0, text, strlen(text), bytes, sizeof bytes);
    HOLDS(answer.status == HUDARIN_OK);
    return answer.status == HUDARIN_OK ? (size_t)answer.length : 0;
}

/* The client with the word and the zero byte after it, or with no word. */
static void keep(const char *word, hudarin_client *client)
{
    hudarin_verdict answer = hudarin_keep_client(NULL, 0, user, sizeof user, word, word[0] == 0 ? 0 : strlen(word) + 1, client);
    HOLDS(answer.status == HUDARIN_OK && client->kept.is_there == 1);
}

static int is_unread(hudarin_verdict answer, uint32_t status, uint32_t argument, uint32_t fault, uint64_t place)
{
    return answer.status == status && answer.argument == argument && answer.fault == fault && answer.place == place &&
           answer.kind == 0 && answer.mask == 0;
}

/* What is missing on each node of what is asked, 0 where all of it is granted. */
static const struct {
    const char *sddl, *word;
    uint32_t asked, missing[NODES];
} rows[] = {
    { "D:(OA;;RP" OF_ONE "WD)", "WD", 0x10, { 0x10, 0x10, 0, 0x10, 0x10 } },
    { "D:(OA;;RP" OF_SET "WD)", "WD", 0x10, { 0x10, 0, 0, 0, 0x10 } },
    { "D:(OA;;RP" OF_CLASS "WD)", "WD", 0x10, { 0, 0, 0, 0, 0 } },
    { "D:(A;;RP;;;WD)", "WD", 0x10, { 0, 0, 0, 0, 0 } },
    { "D:(OA;;RP" OF_ONE "WD)(OA;;RP" OF_TWO "WD)", "WD", 0x10, { 0x10, 0, 0, 0, 0x10 } },
    { "D:(OA;;RP" OF_ONE "WD)(OA;;RP" OF_TWO "WD)(OA;;RP" OF_OTHER "WD)", "WD", 0x10, { 0, 0, 0, 0, 0 } },
    { "D:(OD;;RP" OF_SET "WD)(A;;RP;;;WD)", "WD", 0x10, { 0x10, 0x10, 0x10, 0x10, 0 } },
    { "D:(OD;;RP" OF_ONE "WD)(OA;;RP" OF_CLASS "WD)", "WD", 0x10, { 0x10, 0x10, 0x10, 0, 0 } },
    { "D:(A;;RP;;;WD)(OD;;RP" OF_SET "WD)", "WD", 0x10, { 0, 0, 0, 0, 0 } },
    { "D:(OD;;RP" OF_CLASS "WD)(OA;;RP" OF_ONE "WD)", "WD", 0x10, { 0x10, 0x10, 0x10, 0x10, 0x10 } },
    { "D:(OA;;RP" OF_SET "WD)(OA;;WP" OF_ONE "WD)", "WD", 0x30, { 0x30, 0x20, 0, 0x20, 0x30 } },
    { "D:(OA;;RP" OF_ONE "WD)(OA;;WP" OF_TWO "WD)(A;;LO;;;WD)", "WD", 0xB0, { 0x30, 0x30, 0x20, 0x10, 0x30 } },
    { "D:(A;;RP;;;PS)", "", 0x10, { 0, 0, 0, 0, 0 } },
};

/* Arrays of each length about the one that fits: in one that is shorter nothing is written, in a longer one no more. */
static void arrays(const uint32_t *missing, uint32_t asked, hudarin_client *client, size_t length)
{
    hudarin_type_verdict wanted[NODES];
    size_t at, count;
    for (at = 0; at < NODES; at++) {
        wanted[at].kind = missing[at] ? HUDARIN_DENIED : HUDARIN_GRANTED;
        wanted[at].mask = missing[at] ? missing[at] : asked;
    }
    for (count = 0; count <= NODES + 2; count++) {
        unsigned char *room = fresh_room(count * sizeof wanted[0]);
        const hudarin_type_node *given = (const hudarin_type_node *)lent(nodes, sizeof nodes);
        hudarin_verdict answer = hudarin_check_types(bytes, length, client, given, NODES, user, sizeof user, files, asked,
                                                     count == 0 ? NULL : (hudarin_type_verdict *)room, count);
        if (count < NODES) {
            HOLDS(is_unread(answer, HUDARIN_ROOM, HUDARIN_ARGUMENT_VERDICTS, 0, NODES));
        } else {
            HOLDS(is_unread(answer, HUDARIN_OK, 0, 0, 0));
        }
        HOLDS(!hudarin_is_granted(answer) && client->kept.is_there == 1);
        HOLDS(room_is(room, count * sizeof wanted[0], wanted, count < NODES ? 0 : sizeof wanted));
    }
}

/* The verdict on a leaf is that on its chain. */
static void leaves(uint32_t asked, hudarin_client *client, size_t length)
{
    static const struct {
        size_t leaf, count, chain[3];
    } rows_of[] = { { 2, 3, { 0, 1, 2 } }, { 3, 3, { 0, 1, 3 } }, { 4, 2, { 0, 4, 0 } } };
    hudarin_type_verdict verdicts[NODES];
    size_t at, place;
    hudarin_verdict all = hudarin_check_types(bytes, length, client, nodes, NODES, user, sizeof user, files, asked, verdicts, NODES);
    HOLDS(all.status == HUDARIN_OK);
    for (at = 0; at < 3; at++) {
        unsigned char chain[3 * 16];
        hudarin_verdict answer;
        for (place = 0; place < rows_of[at].count; place++) {
            memcpy(chain + 16 * place, nodes[rows_of[at].chain[place]].guid, 16);
        }
        answer = hudarin_check_whole(bytes, length, client, chain, 16 * rows_of[at].count, user, sizeof user, files, asked);
        HOLDS(answer.kind == verdicts[rows_of[at].leaf].kind && answer.mask == verdicts[rows_of[at].leaf].mask);
    }
}

static void verdicts(void)
{
    size_t at;
    for (at = 0; at < sizeof rows / sizeof rows[0]; at++) {
        hudarin_client client = HUDARIN_NOTHING;
        size_t length = parsed(rows[at].sddl);
        keep(rows[at].word, &client);
        arrays(rows[at].missing, rows[at].asked, &client, length);
        leaves(rows[at].asked, &client, length);
        leaves(HUDARIN_MAXIMUM_ALLOWED, &client, length);
        hudarin_free(&client.kept);
    }
}

/* The call with these nodes is refused so, and the array is as it was. */
static void refused(const hudarin_type_node *given, size_t count, hudarin_client *client, size_t length, size_t self_length,
                    hudarin_mapping mapping, const uint32_t *wanted)
{
    unsigned char *room = fresh_room(NODES * sizeof(hudarin_type_verdict));
    hudarin_verdict answer = hudarin_check_types(bytes, length, client, given, count, user, self_length, mapping, 0x10,
                                                 (hudarin_type_verdict *)room, NODES);
    HOLDS(is_unread(answer, wanted[0], wanted[1], wanted[2], wanted[3]));
    HOLDS(room_is(room, NODES * sizeof(hudarin_type_verdict), "", 0));
}

/* Lists that are no tree: the first node that can't stand where it does. */
static void no_trees(hudarin_client *client)
{
    static const struct {
        size_t count;
        hudarin_type_node nodes[6];
        uint32_t fault, place;
    } lists[] = {
        { 0, { { 0, CLASS } }, HUDARIN_TREE_NO_CLASS, 0 },
        { 1, { { 1, CLASS } }, HUDARIN_TREE_LEVEL_LEFT_OUT, 0 },
        { 1, { { UINT32_MAX, CLASS } }, HUDARIN_TREE_LEVEL_LEFT_OUT, 0 },
        { 3, { { 0, CLASS }, { 1, SET }, { 3, ONE } }, HUDARIN_TREE_LEVEL_LEFT_OUT, 2 },
        { 3, { { 0, CLASS }, { 1, SET }, { 0, ONE } }, HUDARIN_TREE_SECOND_CLASS, 2 },
        { 3, { { 0, CLASS }, { 1, SET }, { 1, CLASS } }, HUDARIN_TREE_REPEATED, 2 },
        { 4, { { 0, CLASS }, { 1, SET }, { 0, ONE }, { 9, TWO } }, HUDARIN_TREE_SECOND_CLASS, 2 },
        { 6, { { 0, CLASS }, { 1, SET }, { 2, ONE }, { 3, TWO }, { 4, OTHER }, { 5, { 0 } } }, HUDARIN_TREE_TOO_DEEP, 5 },
    };
    size_t at;
    for (at = 0; at < sizeof lists / sizeof lists[0]; at++) {
        const uint32_t wanted[] = { HUDARIN_TREE, HUDARIN_ARGUMENT_TREE, lists[at].fault, lists[at].place };
        refused(lists[at].count == 0 ? NULL : lists[at].nodes, lists[at].count, client, 0, 1, wide, wanted);
    }
}

/* Questions that aren't answered: of several mistakes that of the first, in the order of the header. */
static void unanswered(void)
{
    static const uint32_t no_client[] = { HUDARIN_HANDLE, HUDARIN_ARGUMENT_CLIENT, 0, 0 };
    static const uint32_t no_self[] = { HUDARIN_SID, HUDARIN_ARGUMENT_PRINCIPAL_SELF, HUDARIN_SID_SHORT, 0 };
    static const uint32_t no_mapping[] = { HUDARIN_MAPPING, HUDARIN_ARGUMENT_MAPPING, 0, 0 };
    static const uint32_t no_bytes[] = { HUDARIN_WIRE, HUDARIN_ARGUMENT_DESCRIPTOR, HUDARIN_WIRE_SHORT, 0 };
    static const uint32_t of_entry[] = { HUDARIN_UNDECIDED, HUDARIN_ARGUMENT_DESCRIPTOR, HUDARIN_UNDECIDED_SYSTEM_ACE, 1 };
    static const uint32_t of_sacl[] = { HUDARIN_UNDECIDED, HUDARIN_ARGUMENT_DESCRIPTOR, HUDARIN_UNDECIDED_MAY_BE_DENIED, 0 };
    hudarin_client client = HUDARIN_NOTHING;
    hudarin_token token = HUDARIN_NOTHING;
    hudarin_type_verdict none = { 0, 0 };
    refused(NULL, 0, &client, 0, 1, wide, no_client);
    HOLDS(hudarin_keep_token(user, sizeof user, NULL, 0, NULL, 0, NULL, 0, 0, &token).status == HUDARIN_OK);
    refused(NULL, 0, (hudarin_client *)&token, 0, 1, wide, no_client);
    HOLDS(token.kept.is_there == 1);
    hudarin_free(&token.kept);
    keep("WD", &client);
    no_trees(&client);
    refused(nodes, NODES, &client, 0, 1, wide, no_self);
    refused(nodes, NODES, &client, 0, 0, wide, no_mapping);
    refused(nodes, NODES, &client, 19, 0, files, no_bytes);
    refused(nodes, NODES, &client, parsed("D:(A;;FA;;;WD)(AU;SA;FA;;;WD)"), 0, files, of_entry);
    /* One property alone is granted, and that may be denied. */
    refused(nodes, NODES, &client, parsed("D:(OA;;RP" OF_TWO "WD)S:(SP;;;;;S-1-17-1)"), 0, files, of_sacl);
    HOLDS(hudarin_check_types(bytes, parsed("D:(OA;;WP" OF_TWO "WD)S:(SP;;;;;S-1-17-1)"), &client, nodes, 1, NULL, 0, files, 0x10, &none,
                              1)
              .status == HUDARIN_OK);
    HOLDS(none.kind == HUDARIN_DENIED && none.mask == 0x10 && client.kept.is_there == 1);
    hudarin_free(&client.kept);
}

int main(void)
{
    open_rooms();
    verdicts();
    unanswered();
    return close_tally();
}
