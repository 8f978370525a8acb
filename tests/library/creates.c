/* What new objects get: rows by [MS-DTYP] 2.5.3.4, each refusal, and the buffer. */
#include "rooms.h"

#define USER "S-1-5-21-1-2-3-1001"
#define GROUP "S-1-5-21-1-2-3-513"
#define CLASS "bf967aba-0de6-11d0-a285-00aa003049e2"
/* What the token of each row has by default, and what an object has that is given neither owner nor group. */
#define DEFAULTS "O:" USER "G:" GROUP "D:(A;;GA;;;" USER ")(A;;GR;;;" GROUP ")"
#define OURS "O:" USER "G:" GROUP
/* OD and GD; DD too. */
#define DEFAULTED 0x3
#define OF_TOKEN 0xb
#define AUTO HUDARIN_DACL_AUTO_INHERIT
#define AUDIT HUDARIN_SACL_AUTO_INHERIT
#define ENTRIES 1200
#define LARGE (20 + 8 + 20 * ENTRIES)

static const hudarin_mapping files = HUDARIN_FILE_MAPPING, wide = { 0, 0, 0, 0x200000 };
static const unsigned char class[] = { 0xba, 0x7a, 0x96, 0xbf, 0xe6, 0x0d, 0xd0, 0x11, 0xa2, 0x85, 0, 0xaa, 0, 0x30, 0x49, 0xe2 };
/* Of whom the token may make an owner: the user, and Administrators. */
static const unsigned char owners[] = { 1, 5, 0, 0, 0, 0, 0, 5, 21, 0, 0, 0, 1, 0, 0, 0, 2, 0, 0, 0, 3, 0, 0, 0, 0xe9, 3, 0, 0,
                                        1, 2, 0, 0, 0, 0, 0, 5, 32, 0, 0, 0, 0x20, 2, 0, 0 };

static const struct {
    const char *parent, *creator;
    uint32_t container, flags, restores;
    const char *made;
    uint32_t bits; /* control bits without a keyword */
} rows[] = {
    { NULL, "O:BAG:SYD:(A;;FR;;;WD)", 0, 0, 0, "O:BAG:SYD:(A;;FR;;;WD)", 0 },
    { "O:BAG:SYD:", "D:(A;;FR;;;WD)", 0, 0, 0, OURS "D:(A;;FR;;;WD)", DEFAULTED },
    { "O:BAG:SYD:", "D:(A;;FR;;;WD)", 0, HUDARIN_DEFAULT_OWNER_FROM_PARENT, 0, "O:BAG:" GROUP "D:(A;;FR;;;WD)", DEFAULTED },
    { "O:BAG:SYD:", "D:(A;;FR;;;WD)", 0, HUDARIN_DEFAULT_GROUP_FROM_PARENT, 0, "O:" USER "G:SYD:(A;;FR;;;WD)", DEFAULTED },
    { NULL, "O:SYG:SYD:", 0, HUDARIN_AVOID_OWNER_CHECK, 0, "O:SYG:SYD:", 0 },
    { NULL, "O:SYG:SYD:", 0, 0, 1, "O:SYG:SYD:", 0 },
    { NULL, NULL, 0, 0, 0, OURS "D:(A;;FA;;;" USER ")(A;;FR;;;" GROUP ")", OF_TOKEN },
    { "D:(A;OI;FR;;;WD)(A;;FA;;;BA)", NULL, 0, AUTO, 0, OURS "D:AI(A;ID;FR;;;WD)", DEFAULTED },
    { "D:(A;OICI;FR;;;WD)", NULL, 0, 0, 0, OURS "D:(A;ID;FR;;;WD)", DEFAULTED },
    { "D:(A;OICI;FR;;;WD)", NULL, 1, AUTO, 0, OURS "D:AI(A;OICIID;FR;;;WD)", DEFAULTED },
    { "D:(A;OICIIO;GA;;;CO)", NULL, ~0u, AUTO, 0, OURS "D:AI(A;ID;FA;;;" USER ")(A;OICIIOID;GA;;;CO)", DEFAULTED },
    { "D:(A;CI;FR;;;WD)", NULL, 0, AUTO, 0, OURS "D:AI", DEFAULTED },
    { "D:(A;OI;FR;;;WD)", "D:(A;;FR;;;BG)(A;ID;FR;;;BU)", 0, AUTO, 0, OURS "D:AI(A;;FR;;;BG)(A;ID;FR;;;WD)", DEFAULTED },
    { "D:(A;OI;FR;;;WD)", "D:P(A;;FR;;;BG)(A;ID;FR;;;BU)", 0, AUTO, 0, OURS "D:P(A;;FR;;;BG)", DEFAULTED },
    { "D:(A;OI;FR;;;WD)", "D:NO_ACCESS_CONTROL", 0, AUTO, 0, OURS "D:NO_ACCESS_CONTROL", DEFAULTED },
    { "D:(A;OI;FR;;;WD)", "D:P(A;;FR;;;BG)", 0, AUTO | HUDARIN_DEFAULT_DESCRIPTOR_FOR_OBJECT, 0, OURS "D:AI(A;ID;FR;;;WD)", DEFAULTED },
    { NULL, "D:(A;CI;GR;;;CO)", 1, 0, 0, OURS "D:(A;;FR;;;" USER ")(A;CIIO;GR;;;CO)", DEFAULTED },
    { "D:(OA;CI;FR;;" CLASS ";WD)", NULL, 1, AUTO, 0, OURS "D:AI(OA;CIID;FR;;" CLASS ";WD)", DEFAULTED },
    { "D:(OA;OI;FR;;bf967a9c-0de6-11d0-a285-00aa003049e2;WD)", NULL, 0, AUTO, 0, OURS "D:AI", DEFAULTED },
    { "D:(XA;OI;GR;;;CO;(a == 1))", NULL, 0, AUTO, 0, OURS "D:AI(XA;ID;FR;;;" USER ";(a == 1))", DEFAULTED },
    { "S:(AU;OICISA;FW;;;WD)(ML;CI;NW;;;HI)", "D:", 1, AUDIT, 0, OURS "D:S:AI(AU;OICIIDSA;FW;;;WD)(ML;CIID;NW;;;HI)", DEFAULTED },
};

/* The bytes of a descriptor; of no text none. */
typedef struct form {
    unsigned char at[ROOM];
    size_t length;
} form;

static form form_of(const char *text)
{
    form made;
    hudarin_written answer;
    made.length = 0;
    if (text != NULL) {
        answer = hudarin_whole_from_sddl(NULL, 0, text, strlen(text), made.at, sizeof made.at);
        HOLDS(answer.status == HUDARIN_OK);
        made.length = (size_t)answer.length;
    }
    return made;
}

static form defaults;

/* What an object without parent is made of. */
static hudarin_creation given(void)
{
    hudarin_creation made = { 0 };
    made.defaults = defaults.at;
    made.defaults_length = defaults.length;
    made.owners = owners;
    made.owners_length = sizeof owners;
    made.types = class;
    made.types_length = sizeof class;
    made.mapping = files;
    return made;
}

/* Each row, in a buffer that just fits, and in one that is a byte too small. */
static void objects(void)
{
    size_t at;
    for (at = 0; at < sizeof rows / sizeof rows[0]; at++) {
        form parent = form_of(rows[at].parent), creator = form_of(rows[at].creator), wanted = form_of(rows[at].made);
        hudarin_creation of = given();
        unsigned char *room = fresh_room(wanted.length);
        hudarin_created answer;
        of.parent = parent.at;
        of.parent_length = parent.length;
        of.creator = lent(creator.at, creator.length);
        of.creator_length = creator.length;
        of.container = rows[at].container;
        of.flags = rows[at].flags;
        of.restores = rows[at].restores;
        wanted.at[2] |= (unsigned char)rows[at].bits;
        answer = hudarin_create_of(&of, room, wanted.length);
        HOLDS(answer.written.status == HUDARIN_OK && answer.written.length == wanted.length && answer.argument == 0);
        HOLDS(answer.written.fault == 0 && answer.written.place == 0 && room_is(room, wanted.length, wanted.at, wanted.length));
        room = fresh_room(wanted.length - 1);
        answer = hudarin_create_of(&of, room, wanted.length - 1);
        HOLDS(answer.written.status == HUDARIN_ROOM && answer.written.length == wanted.length && answer.argument == 0);
        HOLDS(room_is(room, wanted.length - 1, room, 0));
    }
}

/* The call refuses, and writes nothing. */
static void refuses(const hudarin_creation *of, uint32_t status, uint32_t argument, uint32_t fault, uint64_t place)
{
    unsigned char *room = fresh_room(ROOM);
    hudarin_created answer = hudarin_create_of(of, room, ROOM);
    HOLDS(answer.written.status == status && answer.argument == argument && answer.written.fault == fault);
    HOLDS(answer.written.place == place && answer.written.length == 0 && room_is(room, ROOM, room, 0));
}

/* Each cut of a descriptor, of those that may be missing none at all too; its fault is that of reading it. */
static void cut_short(const void **bytes, size_t *length, const hudarin_creation *of, uint32_t argument, size_t first)
{
    unsigned char room[ROOM];
    const void *whole = *bytes;
    size_t cut, end = *length;
    for (cut = first; cut < end; cut++) {
        hudarin_written read = hudarin_whole_at(whole, cut, 0, room, sizeof room);
        *bytes = lent(whole, cut);
        *length = cut;
        refuses(of, HUDARIN_WIRE, argument, read.fault, 0);
    }
    *bytes = whole;
    *length = end;
}

/* The first argument that is invalid answers, whatever follows. */
static void arguments(void)
{
    form descriptor = form_of("O:BAG:SYD:(A;OICI;FR;;;WD)"), owned = form_of("O:BAD:"), grouped = form_of("G:BAD:");
    hudarin_creation of = given();
    size_t cut;
    of.mapping = wide;
    refuses(&of, HUDARIN_MAPPING, HUDARIN_ARGUMENT_MAPPING, 0, 0);
    of.types_length = sizeof class - 1;
    refuses(&of, HUDARIN_TYPES, HUDARIN_ARGUMENT_TYPES, 0, 0);
    for (cut = 1; cut < sizeof owners; cut++) {
        of.owners = lent(owners, cut);
        of.owners_length = cut;
        if (cut != 28) {
            refuses(&of, HUDARIN_SID, HUDARIN_ARGUMENT_OWNERS, HUDARIN_SID_SHORT, cut > 28);
        }
    }
    of.defaults = owned.at;
    of.defaults_length = owned.length;
    refuses(&of, HUDARIN_PARTS, HUDARIN_ARGUMENT_DEFAULTS, 0, 0);
    of.defaults = grouped.at;
    of.defaults_length = grouped.length;
    refuses(&of, HUDARIN_PARTS, HUDARIN_ARGUMENT_DEFAULTS, 0, 0);
    of.defaults = descriptor.at;
    of.defaults_length = descriptor.length;
    cut_short(&of.defaults, &of.defaults_length, &of, HUDARIN_ARGUMENT_DEFAULTS, 0);
    of.defaults_length = 0;
    of.creator = descriptor.at;
    of.creator_length = descriptor.length;
    cut_short(&of.creator, &of.creator_length, &of, HUDARIN_ARGUMENT_CREATOR, 1);
    of.creator_length = 1;
    of.parent = descriptor.at;
    of.parent_length = descriptor.length;
    cut_short(&of.parent, &of.parent_length, &of, HUDARIN_ARGUMENT_PARENT, 1);
}

/* A descriptor of as many entries "(A;OICI;GR;;;CO)" as the constant says: a container inherits each as two. */
static void large(unsigned char *at)
{
    static const unsigned char head[] = { 1, 0, 4, 0x80, 0, 0, 0, 0, 0, 0, 0, 0, 0, 0, 0, 0, 20, 0, 0, 0, 2, 0,
                                          (8 + 20 * ENTRIES) & 0xff, (8 + 20 * ENTRIES) >> 8, ENTRIES & 0xff, ENTRIES >> 8, 0, 0 };
    static const unsigned char entry[] = { 0, 3, 20, 0, 0, 0, 0, 0x80, 1, 1, 0, 0, 0, 0, 0, 3, 0, 0, 0, 0 };
    size_t index;
    memcpy(at, head, sizeof head);
    for (index = 0; index < ENTRIES; index++) {
        memcpy(at + sizeof head + index * sizeof entry, entry, sizeof entry);
    }
}

/* Each refusal of the object. */
static void faults(void)
{
    static unsigned char parent[LARGE], room[36 * ENTRIES + ROOM];
    form creator = form_of("O:SYD:");
    hudarin_creation of = given();
    of.flags = HUDARIN_DEFAULT_OWNER_FROM_PARENT | HUDARIN_DEFAULT_GROUP_FROM_PARENT;
    refuses(&of, HUDARIN_NOT_CREATED, 0, HUDARIN_CREATE_NO_OWNER, 0);
    of.flags = HUDARIN_DEFAULT_GROUP_FROM_PARENT;
    refuses(&of, HUDARIN_NOT_CREATED, 0, HUDARIN_CREATE_NO_GROUP, 0);
    of.creator = creator.at;
    of.creator_length = creator.length;
    refuses(&of, HUDARIN_NOT_CREATED, 0, HUDARIN_CREATE_OWNER, 0);
    of.owners_length = 0;
    of.creator_length = 0;
    large(parent);
    of.parent = parent;
    of.parent_length = sizeof parent;
    of.flags = AUTO;
    of.container = 1;
    refuses(&of, HUDARIN_NOT_CREATED, 0, HUDARIN_CREATE_TOO_LARGE, 0);
    of.container = 0;
    HOLDS(hudarin_create_of(&of, room, sizeof room).written.status == HUDARIN_OK);
}

int main(void)
{
    open_rooms();
    defaults = form_of(DEFAULTS);
    objects();
    arguments();
    faults();
    return close_tally();
}
