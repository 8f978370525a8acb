/* Whole descriptors: their texts and bytes, their plain parts, parts of two put together, their entries, and lists of entries.
 * The bytes are worked by hand from [MS-DTYP] 2.4.4 to 2.4.6; those of the two conditions are Samba's, but for the list's
 * revision. */
#include "tally.h"

#define OWNED "O:SYG:BA"
#define AUDITED "S:(AU;SAFA;FA;;;WD)"

/* Room for what is tested here. */
typedef struct bytes {
    unsigned char at[600];
    size_t length;
} bytes;

static bytes parsed_in(const void *domain, size_t domain_length, const char *text)
{
    bytes made;
    hudarin_written answer = hudarin_whole_from_sddl(domain, domain_length, text, strlen(text), made.at, sizeof made.at);
    HOLDS(answer.status == HUDARIN_OK && answer.fault == 0 && answer.place == 0);
    made.length = answer.status == HUDARIN_OK ? (size_t)answer.length : 0;
    return made;
}

static bytes parsed(const char *text)
{
    return parsed_in(NULL, 0, text);
}

static int same(const bytes *one, const bytes *other)
{
    return one->length == other->length && memcmp(one->at, other->at, one->length) == 0;
}

/* That the bytes are printed so, and this is left out. */
static void prints(const bytes *given, uint32_t leaves, const char *text, uint32_t left_out)
{
    char room[600];
    hudarin_trimmed answer = hudarin_whole_to_sddl(given->at, given->length, leaves, room, sizeof room);
    HOLDS(answer.written.status == HUDARIN_OK && answer.left_out == left_out && answer.list == 0);
    HOLDS(answer.written.length == strlen(text) && memcmp(room, text, strlen(text)) == 0);
    answer = hudarin_whole_to_sddl(given->at, given->length, leaves, room, answer.written.length - 1);
    HOLDS(answer.written.status == HUDARIN_ROOM && answer.written.length == strlen(text));
    HOLDS(answer.left_out == left_out && memcmp(room, text, strlen(text)) == 0);
}

/* That what a part writes nothing says why. */
static void refuses(hudarin_trimmed answer, uint32_t status, uint32_t fault, uint32_t list, uint64_t place)
{
    HOLDS(answer.written.status == status && answer.written.fault == fault && answer.written.place == place);
    HOLDS(answer.written.length == 0 && answer.left_out == 0 && answer.list == list);
}

static void has_no_text(const bytes *given, uint32_t fault, uint32_t list, uint64_t place)
{
    char room[600];
    refuses(hudarin_whole_to_sddl(given->at, given->length, 0, room, sizeof room), HUDARIN_NO_TEXT, fault, list, place);
}

static void is_not_plain(const bytes *given, uint32_t fault, uint64_t place)
{
    char room[600];
    refuses(hudarin_whole_plain(given->at, given->length, room, sizeof room), HUDARIN_NOT_PLAIN, fault, HUDARIN_LIST_DACL,
            place);
}

/* That the plain part has this text, and this is left out of it. */
static void has_plain(const bytes *given, const char *text, uint32_t left_out)
{
    unsigned char one[600], other[600];
    hudarin_trimmed answer = hudarin_whole_plain(given->at, given->length, one, sizeof one);
    hudarin_written wanted = hudarin_sddl_to_bytes(text, strlen(text), other, sizeof other);
    HOLDS(answer.written.status == HUDARIN_OK && wanted.status == HUDARIN_OK);
    HOLDS(answer.left_out == left_out && answer.list == 0 && answer.written.length == wanted.length);
    HOLDS(memcmp(one, other, (size_t)wanted.length) == 0);
    answer = hudarin_whole_plain(given->at, given->length, NULL, 0);
    HOLDS(answer.written.status == HUDARIN_ROOM && answer.written.length == wanted.length && answer.left_out == left_out);
}

/* An allow of a class' property, on a condition; as D:(ZA;;RP;bf967a86-0de6-11d0-a285-00aa003049e2;;AU;(a)). */
static const unsigned char conditional[] = {
    1, 0, 4, 0x80, 0, 0, 0, 0, 0, 0, 0, 0, 0, 0, 0, 0, 20, 0, 0, 0,
    4, 0, 0x3c, 0, 1, 0, 0, 0, 0x0b, 0, 0x34, 0, 0x10, 0, 0, 0, 1, 0, 0, 0,
    0x86, 0x7a, 0x96, 0xbf, 0xe6, 0x0d, 0xd0, 0x11, 0xa2, 0x85, 0, 0xaa, 0, 0x30, 0x49, 0xe2,
    1, 1, 0, 0, 0, 0, 0, 5, 11, 0, 0, 0, 'a', 'r', 't', 'x', 0xf8, 2, 0, 0, 0, 'a', 0, 0,
};
static const char conditional_text[] = "D:(ZA;;RP;bf967a86-0de6-11d0-a285-00aa003049e2;;AU;(a))";

static void texts(void)
{
    static const char *const given[] = {
        "", OWNED, "D:NO_ACCESS_CONTROL", "S:NO_ACCESS_CONTROL", "D:PARAI(A;;FA;;;WD)S:PARAI", OWNED "D:(A;;FA;;;WD)" AUDITED,
        "D:(OA;CI;0x10;bf967a86-0de6-11d0-a285-00aa003049e2;bf967aba-0de6-11d0-a285-00aa003049e2;AU)",
        "D:(XA;;FX;;;WD;(@USER.Project Any_of @RESOURCE.Project))(XD;;FX;;;WD;(Member_of {SID(BA)}))",
        "S:(ML;;NW;;;HI)(RA;;;;;WD;(\"Project\",TS,0x0,\"Windows\",\"SQL\"))(SP;;;;;S-1-17-1)(OU;SA;FA;;"
        "bf967aba-0de6-11d0-a285-00aa003049e2;WD)",
    };
    size_t at;
    bytes made;
    for (at = 0; at < sizeof given / sizeof given[0]; at++) {
        made = parsed(given[at]);
        if (at > 0) {
            prints(&made, 0, given[at], 0);
            prints(&made, 1, given[at], 0);
        }
    }
    made = parsed(conditional_text);
    HOLDS(made.length == sizeof conditional && memcmp(made.at, conditional, sizeof conditional) == 0);
    HOLDS(hudarin_whole_from_sddl(NULL, 0, conditional_text, sizeof conditional_text - 1, made.at, made.length - 1).status ==
          HUDARIN_ROOM);
}

static void is_unparsed(size_t domain_length, const char *text, uint32_t status, uint32_t fault, uint64_t place)
{
    static const unsigned char user[] = { 1, 5, 0, 0, 0, 0, 0, 5, 21, 0, 0, 0, 1, 0, 0, 0, 2, 0, 0, 0, 3, 0, 0, 0, 7, 0, 0, 0 };
    unsigned char room[200];
    hudarin_written answer = hudarin_whole_from_sddl(user, domain_length, text, strlen(text), room, sizeof room);
    HOLDS(answer.status == status && answer.fault == fault && answer.place == place && answer.length == 0);
}

static void domains(void)
{
    static const unsigned char domain[] = { 1, 4, 0, 0, 0, 0, 0, 5, 21, 0, 0, 0, 1, 0, 0, 0, 2, 0, 0, 0, 3, 0, 0, 0 };
    bytes one = parsed_in(domain, sizeof domain, "O:DAS:(AU;SA;FA;;;DU)");
    bytes other = parsed("O:S-1-5-21-1-2-3-512S:(AU;SA;FA;;;S-1-5-21-1-2-3-513)");
    HOLDS(same(&one, &other));
    is_unparsed(0, "O:DA", HUDARIN_TEXT, HUDARIN_TEXT_DOMAIN_ALIAS, 2);
    is_unparsed(0, "S:(A;;FA;;;QQ)", HUDARIN_TEXT, HUDARIN_TEXT_UNKNOWN_ALIAS, 11);
    is_unparsed(0, "S:\xff", HUDARIN_UTF8, 0, 2);
    is_unparsed(28, "\xff", HUDARIN_DOMAIN, 0, 0);
    is_unparsed(1, "", HUDARIN_SID, HUDARIN_SID_SHORT, 0);
}

/* Of a descriptor with one plain entry the bytes at these places: of its header, its list and its entry. */
enum { MANAGER = 1, LOW_CONTROL = 2, HIGH_CONTROL = 3, TYPE = 28, FLAGS = 29 };

static bytes with(const char *text, size_t place, unsigned char value)
{
    bytes made = parsed(text);
    made.at[place] = value;
    return made;
}

static void without_text(void)
{
    static const char plain[] = "D:(A;;FA;;;WD)", system[] = "S:(AU;;FA;;;WD)";
    bytes made = with(plain, MANAGER, 7);
    has_no_text(&made, HUDARIN_NO_TEXT_RESOURCE_MANAGER, 0, 0);
    prints(&made, 1, plain, HUDARIN_LEFT_OUT_MANAGER);
    made.at[HIGH_CONTROL] |= 0x40;
    prints(&made, 1, plain, HUDARIN_LEFT_OUT_MANAGER | HUDARIN_LEFT_OUT_CONTROL);
    made = with(plain, LOW_CONTROL, 4 | 1);
    has_no_text(&made, HUDARIN_NO_TEXT_CONTROL, 0, 0);
    prints(&made, UINT32_MAX, plain, HUDARIN_LEFT_OUT_CONTROL);
    made = with(plain, HIGH_CONTROL, 0x80 | 0x20);
    has_no_text(&made, HUDARIN_NO_TEXT_KEYWORDS, HUDARIN_LIST_SACL, 0);
    made = with(OWNED, HIGH_CONTROL, 0x80 | 0x10);
    has_no_text(&made, HUDARIN_NO_TEXT_KEYWORDS, HUDARIN_LIST_DACL, 0);
    made = with(plain, TYPE, 4);
    has_no_text(&made, HUDARIN_NO_TEXT_OPAQUE, HUDARIN_LIST_DACL, 0);
    made = with(system, TYPE, 0x10);
    has_no_text(&made, HUDARIN_NO_TEXT_OPAQUE, HUDARIN_LIST_SACL, 0);
    made = parsed(conditional_text);
    made.at[TYPE] = 0x0c;
    has_no_text(&made, HUDARIN_NO_TEXT_KIND, HUDARIN_LIST_DACL, 0);
    made = parsed("D:(A;;FA;;;WD)(XA;;FA;;;WD;(a))");
    made.at[made.length - 12] = 'A';
    has_no_text(&made, HUDARIN_NO_TEXT_DATA, HUDARIN_LIST_DACL, 1);
}

static void plain_parts(void)
{
    bytes made = parsed(OWNED "D:PAI(A;;FA;;;WD)(D;OI;FR;;;BU)");
    has_plain(&made, OWNED "D:PAI(A;;FA;;;WD)(D;OI;FR;;;BU)", 0);
    made = parsed(OWNED "D:AI(A;;FA;;;WD)" AUDITED "(ML;;NW;;;LW)");
    has_plain(&made, OWNED "D:AI(A;;FA;;;WD)", HUDARIN_LEFT_OUT_SACL);
    made = parsed("S:NO_ACCESS_CONTROL");
    has_plain(&made, "", HUDARIN_LEFT_OUT_SACL);
    made = parsed("D:NO_ACCESS_CONTROLS:AI");
    has_plain(&made, "D:NO_ACCESS_CONTROL", HUDARIN_LEFT_OUT_SACL | HUDARIN_LEFT_OUT_CONTROL);
    made = with(OWNED, MANAGER, 1);
    has_plain(&made, OWNED, HUDARIN_LEFT_OUT_MANAGER);
    made = with("D:P(A;;FA;;;WD)", LOW_CONTROL, 4 | 8);
    has_plain(&made, "D:P(A;;FA;;;WD)", HUDARIN_LEFT_OUT_CONTROL);
    made = with(OWNED, HIGH_CONTROL, 0x80 | 0x10);
    has_plain(&made, OWNED, HUDARIN_LEFT_OUT_CONTROL);
    /* The flag bit 0x20 has no name. */
    made = with("D:(A;;FA;;;WD)", FLAGS, 0x20);
    has_plain(&made, "D:(A;;FA;;;WD)", 0);
    made = parsed("D:(A;;FA;;;WD)(OA;;RP;bf967a86-0de6-11d0-a285-00aa003049e2;;AU)(XA;;FA;;;WD;(a))");
    is_not_plain(&made, HUDARIN_NOT_PLAIN_OBJECT_ACE, 1);
    made = parsed("D:(XD;;FA;;;WD;(a))");
    is_not_plain(&made, HUDARIN_NOT_PLAIN_CONDITIONAL_ACE, 0);
    made = parsed(conditional_text);
    is_not_plain(&made, HUDARIN_NOT_PLAIN_CONDITIONAL_ACE, 0);
    made = with("D:(A;;FA;;;WD)", TYPE, 2);
    is_not_plain(&made, HUDARIN_NOT_PLAIN_SYSTEM_ACE, 0);
    made = with("D:(A;;FA;;;WD)", TYPE, 4);
    is_not_plain(&made, HUDARIN_NOT_PLAIN_OPAQUE_ACE, 0);
}

/* Of bytes that hold no descriptor each call says so. */
static void wires(void)
{
    unsigned char room[200], given[20] = { 1, 0, 0, 0x80 };
    hudarin_whole_acl list;
    hudarin_whole_ace entry;
    refuses(hudarin_whole_to_sddl(given, 19, 0, (char *)room, sizeof room), HUDARIN_WIRE, HUDARIN_WIRE_SHORT, 0, 0);
    refuses(hudarin_whole_plain(given, 19, room, sizeof room), HUDARIN_WIRE, HUDARIN_WIRE_SHORT, 0, 0);
    HOLDS(hudarin_whole_at(given, 20, 1, room, sizeof room).fault == HUDARIN_WIRE_SHORT);
    HOLDS(hudarin_whole_at(given, 20, UINT64_MAX, room, sizeof room).fault == HUDARIN_WIRE_SHORT);
    HOLDS(hudarin_whole_at(NULL, 0, 0, room, sizeof room).fault == HUDARIN_WIRE_SHORT);
    HOLDS(hudarin_whole_with_parts(given, 20, given, 19, 0, room, sizeof room).fault == HUDARIN_WIRE_SHORT);
    HOLDS(hudarin_whole_with_parts(given, 19, given, 20, 0, room, sizeof room).fault == HUDARIN_WIRE_SHORT);
    HOLDS(hudarin_whole_with_entries(given, 19, HUDARIN_LIST_DACL, 2, NULL, 0, room, sizeof room).fault == HUDARIN_WIRE_SHORT);
    HOLDS(hudarin_whole_trustee(given, 19, HUDARIN_PART_OWNER, room, sizeof room).fault == HUDARIN_WIRE_SHORT);
    given[0] = 2;
    list = hudarin_whole_list(given, 20, HUDARIN_LIST_DACL);
    HOLDS(list.status == HUDARIN_WIRE && list.fault == HUDARIN_WIRE_REVISION && list.kind == 0 && list.entries == 0);
    entry = hudarin_whole_entry(given, 20, HUDARIN_LIST_DACL, 0, room, sizeof room);
    HOLDS(entry.written.status == HUDARIN_WIRE && entry.written.fault == HUDARIN_WIRE_REVISION && entry.type == 0);
}

/* A descriptor in a blob, after other bytes, where its offsets count from the blob's front. */
static void blobs(void)
{
    bytes made = parsed(OWNED "D:(A;;FA;;;WD)" AUDITED), blob = { { 0 }, 0 }, found;
    size_t place, at;
    hudarin_written answer;
    for (place = 0; place <= 80; place += 8) {
        memset(blob.at, 0xEE, sizeof blob.at);
        memcpy(blob.at + place, made.at, made.length);
        for (at = 4; at < 20; at += 4) {
            blob.at[place + at] = (unsigned char)(made.at[at] == 0 ? 0 : made.at[at] + place);
        }
        blob.length = place + made.length + 3;
        answer = hudarin_whole_at(blob.at, blob.length, place, found.at, sizeof found.at);
        found.length = (size_t)answer.length;
        HOLDS(answer.status == HUDARIN_OK && same(&found, &made));
        answer = hudarin_whole_at(blob.at, blob.length, place, NULL, 0);
        HOLDS(answer.status == HUDARIN_ROOM && answer.length == made.length);
    }
}

/* That these parts of one in the place of another's make this text. */
static void joins(const bytes *one, const bytes *other, uint32_t parts, const char *text)
{
    bytes made;
    hudarin_written answer =
        hudarin_whole_with_parts(one->at, one->length, other->at, other->length, parts, made.at, sizeof made.at);
    HOLDS(answer.status == HUDARIN_OK);
    made.length = (size_t)answer.length;
    prints(&made, 0, text, 0);
    answer = hudarin_whole_with_parts(one->at, one->length, other->at, other->length, parts, NULL, 0);
    HOLDS(answer.status == HUDARIN_ROOM && answer.length == made.length);
}

static void parts(void)
{
    bytes one = parsed("O:SYG:BAD:PAI(A;;FA;;;WD)S:AI(AU;SA;FA;;;WD)"), other = parsed("O:BUG:BGD:AR(D;;FR;;;BU)S:P"), made;
    hudarin_written answer;
    joins(&one, &other, 0, "O:SYG:BAD:PAI(A;;FA;;;WD)S:AI(AU;SA;FA;;;WD)");
    joins(&one, &other, HUDARIN_PART_OWNER, "O:BUG:BAD:PAI(A;;FA;;;WD)S:AI(AU;SA;FA;;;WD)");
    joins(&one, &other, HUDARIN_PART_GROUP, "O:SYG:BGD:PAI(A;;FA;;;WD)S:AI(AU;SA;FA;;;WD)");
    joins(&one, &other, HUDARIN_PART_DACL, "O:SYG:BAD:AR(D;;FR;;;BU)S:AI(AU;SA;FA;;;WD)");
    joins(&one, &other, HUDARIN_PART_SACL, "O:SYG:BAD:PAI(A;;FA;;;WD)S:P");
    joins(&one, &other, UINT32_MAX, "O:BUG:BGD:AR(D;;FR;;;BU)S:P");
    other = parsed("");
    joins(&one, &other, HUDARIN_PART_OWNER | HUDARIN_PART_DACL, "G:BAS:AI(AU;SA;FA;;;WD)");
    /* What says nothing of a part that is taken stays: the resource manager's byte and RM. */
    one.at[MANAGER] = 9;
    one.at[HIGH_CONTROL] |= 0x40;
    one.at[LOW_CONTROL] |= 1 | 2 | 8;
    answer = hudarin_whole_with_parts(one.at, one.length, other.at, other.length, 7, made.at, sizeof made.at);
    HOLDS(answer.status == HUDARIN_OK && made.at[MANAGER] == 9);
    HOLDS(made.at[HIGH_CONTROL] == (0x80 | 0x40 | 0x08) && made.at[LOW_CONTROL] == 0x10);
}

static void entries(void)
{
    static const unsigned char everyone[] = { 1, 1, 0, 0, 0, 0, 0, 1, 0, 0, 0, 0 };
    bytes made = parsed(OWNED "D:P(A;OI;FA;;;WD)(ZA;;RP;bf967a86-0de6-11d0-a285-00aa003049e2;;AU;(a))S:NO_ACCESS_CONTROL");
    unsigned char room[100];
    hudarin_whole_acl list = hudarin_whole_list(made.at, made.length, HUDARIN_LIST_DACL);
    hudarin_whole_ace entry = hudarin_whole_entry(made.at, made.length, HUDARIN_LIST_DACL, 0, room, sizeof room);
    HOLDS(list.status == HUDARIN_OK && list.kind == HUDARIN_DACL_LIST && list.revision == 4 && list.entries == 2);
    HOLDS(list.control == HUDARIN_DACL_PROTECTED);
    HOLDS(entry.written.status == HUDARIN_OK && entry.written.length == sizeof everyone && entry.sid_length == sizeof everyone);
    HOLDS(memcmp(room, everyone, sizeof everyone) == 0 && entry.type == 0 && entry.flags == 1 && entry.mask == 0x1F01FF);
    HOLDS(entry.object_types == 0 && entry.object_type[0] == 0);
    entry = hudarin_whole_entry(made.at, made.length, HUDARIN_LIST_DACL, 1, room, sizeof room);
    HOLDS(entry.written.status == HUDARIN_OK && entry.written.length == 24 && entry.sid_length == 12);
    HOLDS(memcmp(room, conditional + sizeof conditional - 24, 24) == 0 && entry.type == 0x0b && entry.mask == 0x10);
    HOLDS(entry.object_types == 1 && memcmp(entry.object_type, conditional + 40, 16) == 0);
    entry = hudarin_whole_entry(made.at, made.length, HUDARIN_LIST_DACL, 1, room, 23);
    HOLDS(entry.written.status == HUDARIN_ROOM && entry.written.length == 24 && entry.type == 0x0b);
    entry = hudarin_whole_entry(made.at, made.length, HUDARIN_LIST_DACL, 2, room, sizeof room);
    HOLDS(entry.written.status == HUDARIN_NO_PART && entry.written.length == 0 && entry.type == 0);
    entry = hudarin_whole_entry(made.at, made.length, HUDARIN_LIST_SACL, 0, room, sizeof room);
    HOLDS(entry.written.status == HUDARIN_NO_PART);
    list = hudarin_whole_list(made.at, made.length, HUDARIN_LIST_SACL);
    HOLDS(list.status == HUDARIN_OK && list.kind == HUDARIN_DACL_NULL && list.revision == 0 && list.entries == 0);
    HOLDS(hudarin_whole_list(made.at, made.length, 3).status == HUDARIN_NO_PART);
    HOLDS(hudarin_whole_list(made.at, made.length, 0).status == HUDARIN_NO_PART);
    HOLDS(hudarin_whole_trustee(made.at, made.length, HUDARIN_PART_OWNER, room, sizeof room).length == 12 && room[8] == 18);
    HOLDS(hudarin_whole_trustee(made.at, made.length, HUDARIN_PART_GROUP, room, sizeof room).length == 16);
    HOLDS(hudarin_whole_trustee(made.at, made.length, HUDARIN_PART_GROUP, room, 15).status == HUDARIN_ROOM);
    HOLDS(hudarin_whole_trustee(made.at, made.length, HUDARIN_PART_DACL, room, sizeof room).status == HUDARIN_NO_PART);
    made = with("D:(A;;FA;;;WD)", TYPE, 4);
    entry = hudarin_whole_entry(made.at, made.length, HUDARIN_LIST_DACL, 0, room, sizeof room);
    HOLDS(entry.written.length == 16 && entry.sid_length == 0 && entry.mask == 0 && entry.type == 4);
    HOLDS(memcmp(room, made.at + 32, 16) == 0);
    HOLDS(hudarin_whole_trustee(made.at, made.length, HUDARIN_PART_OWNER, room, sizeof room).status == HUDARIN_NO_PART);
}

/* An allow; one on the condition (a); one of a class of objects; one of a type that the standard doesn't have; an audit. */
#define EVERYONE 1, 1, 0, 0, 0, 0, 0, 1, 0, 0, 0, 0
#define ALLOW 0, 0, 20, 0, 0xff, 1, 0x1f, 0, EVERYONE
#define ON_CONDITION 9, 2, 32, 0, 0x20, 0, 0, 0, EVERYONE, 'a', 'r', 't', 'x', 0xf8, 2, 0, 0, 0, 'a', 0, 0
#define OF_CLASS                                                                                                             \
    5, 0, 40, 0, 0x10, 0, 0, 0, 1, 0, 0, 0, 0x86, 0x7a, 0x96, 0xbf, 0xe6, 0x0d, 0xd0, 0x11, 0xa2, 0x85, 0, 0xaa, 0, 0x30, 0x49, \
        0xe2, EVERYONE
#define UNKNOWN 0x42, 0x30, 12, 0, 1, 2, 3, 4, 5, 6, 7, 8
#define AUDIT 2, 0x40, 20, 0, 0xff, 1, 0x1f, 0, EVERYONE
#define SYSTEM 1, 1, 0, 0, 0, 0, 0, 5, 18, 0, 0, 0

/* A descriptor that has nothing, and those with a DACL. */
static const unsigned char bare[] = { 1, 0, 0, 0x80, 0, 0, 0, 0, 0, 0, 0, 0, 0, 0, 0, 0, 0, 0, 0, 0 };
#define LISTED 1, 0, 4, 0x80, 0, 0, 0, 0, 0, 0, 0, 0, 0, 0, 0, 0, 20, 0, 0, 0
static const unsigned char empty[] = { LISTED, 2, 0, 8, 0, 0, 0, 0, 0 };
static const unsigned char of_one[] = { LISTED, 2, 0, 28, 0, 1, 0, 0, 0, ALLOW };
static const unsigned char of_four[] = { LISTED, 4, 0, 112, 0, 4, 0, 0, 0, ALLOW, ON_CONDITION, OF_CLASS, UNKNOWN };
static const unsigned char four[] = { ALLOW, ON_CONDITION, OF_CLASS, UNKNOWN };

/* With an owner, a resource manager's byte, and RM, PD, SI and OD set: no SACL, a null one, and one of an audit. */
static const unsigned char unaudited[] = {
    1, 7, 5, 0xd8, 20, 0, 0, 0, 0, 0, 0, 0, 0, 0, 0, 0, 32, 0, 0, 0, SYSTEM, 4, 0, 8, 0, 0, 0, 0, 0,
};
static const unsigned char null_sacl[] = {
    1, 7, 21, 0xd8, 20, 0, 0, 0, 0, 0, 0, 0, 0, 0, 0, 0, 32, 0, 0, 0, SYSTEM, 4, 0, 8, 0, 0, 0, 0, 0,
};
static const unsigned char audited[] = {
    1, 7, 21, 0xd8, 20, 0, 0, 0, 0, 0, 0, 0, 32, 0, 0, 0, 60, 0, 0, 0, SYSTEM, 2, 0, 28, 0, 1, 0, 0, 0, AUDIT, 4, 0, 8, 0, 0, 0, 0, 0,
};
static const unsigned char silent[] = {
    1, 7, 21, 0xd8, 20, 0, 0, 0, 0, 0, 0, 0, 32, 0, 0, 0, 40, 0, 0, 0, SYSTEM, 4, 0, 8, 0, 0, 0, 0, 0, 4, 0, 8, 0, 0, 0, 0, 0,
};
static const unsigned char an_audit[] = { AUDIT };

#define GIVEN(BYTES) BYTES, sizeof BYTES

/* That the list of these entries in this descriptor makes this one, in a room that just suffices, and in none that doesn't. */
static void lists(const void *given, size_t length, uint32_t list, uint32_t revision, const void *entries, size_t entries_length,
                  const void *wanted, size_t wanted_length)
{
    unsigned char room[200];
    hudarin_written answer;
    memset(room, 0x5A, sizeof room);
    answer = hudarin_whole_with_entries(given, length, list, revision, entries, entries_length, room, wanted_length - 1);
    HOLDS(answer.status == HUDARIN_ROOM && answer.fault == 0 && answer.place == 0 && answer.length == wanted_length);
    HOLDS(room[0] == 0x5A && memcmp(room, room + 1, sizeof room - 1) == 0);
    answer = hudarin_whole_with_entries(given, length, list, revision, entries, entries_length, room, wanted_length);
    HOLDS(answer.status == HUDARIN_OK && answer.fault == 0 && answer.place == 0 && answer.length == wanted_length);
    HOLDS(memcmp(room, wanted, wanted_length) == 0 && room[wanted_length] == 0x5A);
}

/* That no list of these entries is made in a descriptor that has nothing. */
static void unlisted(uint32_t list, uint32_t revision, const void *entries, size_t length, uint32_t status, uint32_t fault)
{
    unsigned char room[200];
    hudarin_written answer;
    memset(room, 0x5A, sizeof room);
    answer = hudarin_whole_with_entries(GIVEN(bare), list, revision, entries, length, room, sizeof room);
    HOLDS(answer.status == status && answer.fault == fault && answer.place == 0 && answer.length == 0);
    HOLDS(room[0] == 0x5A && memcmp(room, room + 1, sizeof room - 1) == 0);
}

static void lists_of_entries(void)
{
    static const unsigned char no_sid[] = { 0, 0, 20, 0, 0, 0, 0, 0, 2, 1, 0, 0, 0, 0, 0, 1, 0, 0, 0, 0 };
    static const unsigned char odd[] = { 0x42, 0, 6, 0, 0, 0, 0, 0 };
    static const uint32_t others[] = { 0, 1, 3, 5, 0x102, 0x204, UINT32_MAX };
    size_t at;
    lists(GIVEN(bare), HUDARIN_LIST_DACL, 2, NULL, 0, GIVEN(empty));
    lists(GIVEN(of_one), HUDARIN_LIST_DACL, 2, NULL, 0, GIVEN(empty));
    lists(GIVEN(of_four), HUDARIN_LIST_DACL, 2, four, 20, GIVEN(of_one));
    lists(GIVEN(bare), HUDARIN_LIST_DACL, 4, GIVEN(four), GIVEN(of_four));
    lists(GIVEN(of_one), HUDARIN_LIST_DACL, 4, GIVEN(four), GIVEN(of_four));
    lists(GIVEN(unaudited), HUDARIN_LIST_SACL, 2, GIVEN(an_audit), GIVEN(audited));
    lists(GIVEN(null_sacl), HUDARIN_LIST_SACL, 2, GIVEN(an_audit), GIVEN(audited));
    lists(GIVEN(audited), HUDARIN_LIST_SACL, 4, NULL, 0, GIVEN(silent));
    for (at = 1; at < sizeof four; at++) {
        if (at != 20 && at != 52 && at != 92) {
            unlisted(HUDARIN_LIST_DACL, 2, four, at, HUDARIN_WIRE, HUDARIN_WIRE_ENTRY_SIZE);
        }
    }
    unlisted(HUDARIN_LIST_DACL, 2, GIVEN(odd), HUDARIN_WIRE, HUDARIN_WIRE_ENTRY_SIZE);
    unlisted(HUDARIN_LIST_DACL, 2, GIVEN(no_sid), HUDARIN_WIRE, HUDARIN_WIRE_BAD_SID);
    for (at = 0; at < sizeof others / sizeof others[0]; at++) {
        unlisted(HUDARIN_LIST_SACL, others[at], GIVEN(four), HUDARIN_WIRE, HUDARIN_WIRE_ACL_REVISION);
        if (others[at] != HUDARIN_LIST_DACL) {
            unlisted(others[at], 2, GIVEN(four), HUDARIN_NO_PART, 0);
        }
    }
}

/* As many entries as a list has at most, each a header alone, and one more. */
static void longest_list(void)
{
    static unsigned char entries[16382 * 4], room[HUDARIN_WHOLE_BYTES];
    const size_t most = 16381 * 4;
    size_t at;
    hudarin_written answer;
    for (at = 0; at < sizeof entries; at += 4) {
        entries[at] = 0x42;
        entries[at + 2] = 4;
    }
    answer = hudarin_whole_with_entries(GIVEN(bare), HUDARIN_LIST_DACL, 2, entries, most, room, sizeof room);
    HOLDS(answer.status == HUDARIN_OK && answer.length == 28 + most && memcmp(room + 28, entries, most) == 0);
    HOLDS(room[22] == 0xfc && room[23] == 0xff && room[24] == 0xfd && room[25] == 0x3f);
    unlisted(HUDARIN_LIST_DACL, 2, GIVEN(entries), HUDARIN_WIRE, HUDARIN_WIRE_ACL_SIZE);
}

#define FIVE "-4294967295-4294967295-4294967295-4294967295-4294967295"
#define LONGEST_SID "S-1-5" FIVE FIVE FIVE

/* Appends as many entries as a list has at most. */
static size_t with_entries(char *text, size_t length, const char *head, const char *entry)
{
    size_t at;
    length += (size_t)sprintf(text + length, "%s", head);
    for (at = 0; at < 3276; at++) {
        length += (size_t)sprintf(text + length, "%s", entry);
    }
    return length;
}

/* Both lists at their limit, and the longest SIDs: a room of HUDARIN_WHOLE_BYTES suffices. */
static void largest(void)
{
    static char text[3276 * 32 + 400], again[3276 * 32 + 400];
    static unsigned char room[HUDARIN_WHOLE_BYTES], plain[HUDARIN_DESCRIPTOR_BYTES];
    size_t length = (size_t)sprintf(text, "O:%sG:%s", LONGEST_SID, LONGEST_SID);
    hudarin_written answer;
    hudarin_trimmed trimmed;
    length = with_entries(text, length, "D:", "(A;;FA;;;WD)");
    length = with_entries(text, length, "S:", "(AU;SA;FA;;;WD)");
    answer = hudarin_whole_from_sddl(NULL, 0, text, length, room, sizeof room);
    HOLDS(answer.status == HUDARIN_OK && answer.length == 20 + 2 * 68 + 2 * 65528);
    trimmed = hudarin_whole_to_sddl(room, (size_t)answer.length, 0, again, sizeof again);
    HOLDS(trimmed.written.status == HUDARIN_OK && trimmed.written.length == length && memcmp(text, again, length) == 0);
    HOLDS(hudarin_whole_list(room, (size_t)answer.length, HUDARIN_LIST_SACL).entries == 3276);
    trimmed = hudarin_whole_plain(room, (size_t)answer.length, plain, sizeof plain);
    HOLDS(trimmed.written.status == HUDARIN_OK && trimmed.written.length == 20 + 2 * 68 + 65528);
    length += (size_t)sprintf(text + length, "(AU;SA;FA;;;WD)");
    answer = hudarin_whole_from_sddl(NULL, 0, text, length, room, sizeof room);
    HOLDS(answer.status == HUDARIN_TEXT && answer.fault == HUDARIN_TEXT_ACL_TOO_LARGE);
}

int main(void)
{
    texts();
    largest();
    domains();
    without_text();
    plain_parts();
    wires();
    blobs();
    parts();
    entries();
    lists_of_entries();
    longest_list();
    return close_tally();
}
