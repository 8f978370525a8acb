/* The parts of kept descriptors, whose bytes and flags are worked by hand from [MS-DTYP] 2.4; SIDs in full; and the names
 * of statuses and faults, by docs/FORMATS.md and docs/TREE.md. */
#include "tally.h"

#define USER 1, 5, 0, 0, 0, 0, 0, 5, 21, 0, 0, 0, 1, 0, 0, 0, 2, 0, 0, 0, 3, 0, 0, 0, 0xe9, 3, 0, 0

static const unsigned char user[] = { USER };
static const unsigned char users[] = { 1, 2, 0, 0, 0, 0, 0, 5, 32, 0, 0, 0, 33, 2, 0, 0 };
static const unsigned char everyone[] = { 1, 1, 0, 0, 0, 0, 0, 1, 0, 0, 0, 0 };
static const unsigned char wide[] = { 1, 1, 0, 1, 0, 0, 0, 0, 7, 0, 0, 0 };
static const unsigned char owner_rights[] = { 1, 1, 0, 0, 0, 0, 0, 3, 4, 0, 0, 0 };

/* That a call writes these bytes into a buffer that just fits, and nothing into a smaller one. CALL is an expression
 * with `room` and `length`, whose value is a hudarin_written. */
#define WRITES(CALL, WANTED, WANTED_LENGTH)                                                            \
    do {                                                                                               \
        size_t length = (WANTED_LENGTH);                                                               \
        void *room = room_end(length) - length;                                                        \
        hudarin_written answer = (CALL);                                                               \
        HOLDS(answer.status == HUDARIN_OK && answer.length == length && answer.fault == 0);            \
        HOLDS(memcmp(room, (WANTED), length) == 0);                                                    \
        if (length-- > 0) {                                                                            \
            memset(room, 0x5A, length);                                                                \
            answer = (CALL);                                                                           \
            HOLDS(answer.status == HUDARIN_ROOM && answer.length == length + 1);                       \
            HOLDS(*(unsigned char *)room == 0x5A);                                                     \
        }                                                                                              \
    } while (0)

/* An entry as it must be: its fields, its SID, and the SID by which it applies. */
struct entry {
    uint32_t kind, flags, mask;
    const unsigned char *sid;
    size_t sid_length;
    const unsigned char *subject;
    size_t subject_length;
};

static const struct entry entries[] = {
    { HUDARIN_ENTRY_DENY, 0xDF, 0x30000, everyone, sizeof everyone, everyone, sizeof everyone },
    { HUDARIN_ENTRY_ALLOW, HUDARIN_OBJECT_INHERIT | HUDARIN_INHERITED, 0x1F01FF, wide, sizeof wide, wide, sizeof wide },
    { HUDARIN_ENTRY_ALLOW, 0, 0xFFFFFFFFu, users, sizeof users, users, sizeof users },
    { HUDARIN_ENTRY_ALLOW, 0, 0, owner_rights, sizeof owner_rights, user, sizeof user },
};

static const char text[] = "O:S-1-5-21-1-2-3-1001G:BUD:PARAI(D;OICINPIOIDSAFA;0x30000;;;WD)"
                           "(A;OIID;FA;;;S-1-0x000100000000-7)(A;;0xFFFFFFFF;;;BU)(A;;0x0;;;OW)";

static void keep(const char *sddl, hudarin_descriptor *descriptor)
{
    HOLDS(hudarin_keep_sddl(sddl, strlen(sddl), descriptor).status == HUDARIN_OK);
}

static void has_entry(hudarin_descriptor *descriptor, uint64_t index)
{
    const struct entry *wanted = &entries[index];
    hudarin_entry entry = hudarin_descriptor_entry(descriptor, index, NULL, 0);
    HOLDS(entry.written.status == HUDARIN_ROOM && entry.written.length == wanted->sid_length);
    HOLDS(entry.kind == wanted->kind && entry.flags == wanted->flags && entry.mask == wanted->mask);
    WRITES(hudarin_descriptor_entry(descriptor, index, room, length).written, wanted->sid, wanted->sid_length);
    WRITES(hudarin_descriptor_subject(descriptor, index, room, length), wanted->subject, wanted->subject_length);
}

static int is_unwritten(hudarin_written answer, uint32_t status)
{
    return answer.status == status && answer.fault == 0 && answer.place == 0 && answer.length == 0;
}

/* That there is no entry at the index. */
static void ends(hudarin_descriptor *descriptor, uint64_t index, uint32_t status)
{
    unsigned char room[HUDARIN_SID_BYTES];
    hudarin_entry entry = hudarin_descriptor_entry(descriptor, index, room, sizeof room);
    HOLDS(is_unwritten(entry.written, status) && entry.kind == 0 && entry.flags == 0 && entry.mask == 0);
    HOLDS(is_unwritten(hudarin_descriptor_subject(descriptor, index, room, sizeof room), status));
}

static void all_parts(void)
{
    hudarin_descriptor descriptor = HUDARIN_NOTHING;
    hudarin_dacl dacl;
    uint64_t index;
    keep(text, &descriptor);
    WRITES(hudarin_descriptor_owner(&descriptor, room, length), user, sizeof user);
    WRITES(hudarin_descriptor_group(&descriptor, room, length), users, sizeof users);
    dacl = hudarin_descriptor_dacl(&descriptor);
    HOLDS(dacl.status == HUDARIN_OK && dacl.kind == HUDARIN_DACL_LIST && dacl.entries == 4);
    HOLDS(dacl.control == (HUDARIN_DACL_PROTECTED | HUDARIN_DACL_AUTO_INHERIT_REQ | HUDARIN_DACL_AUTO_INHERITED));
    for (index = 0; index < dacl.entries; index++) {
        has_entry(&descriptor, index);
    }
    ends(&descriptor, 4, HUDARIN_NO_PART);
    ends(&descriptor, UINT64_MAX, HUDARIN_NO_PART);
    HOLDS(descriptor.kept.is_there == 1);
    hudarin_free(&descriptor.kept);
}

/* A descriptor without an owner and a group, whose DACL is of this kind. */
static void has_dacl(const char *sddl, uint32_t kind, uint32_t control)
{
    hudarin_descriptor descriptor = HUDARIN_NOTHING;
    unsigned char room[HUDARIN_SID_BYTES];
    hudarin_dacl dacl;
    keep(sddl, &descriptor);
    dacl = hudarin_descriptor_dacl(&descriptor);
    HOLDS(dacl.status == HUDARIN_OK && dacl.kind == kind && dacl.control == control && dacl.entries == 0);
    HOLDS(is_unwritten(hudarin_descriptor_owner(&descriptor, room, sizeof room), HUDARIN_NO_PART));
    HOLDS(is_unwritten(hudarin_descriptor_group(&descriptor, room, sizeof room), HUDARIN_NO_PART));
    ends(&descriptor, 0, HUDARIN_NO_PART);
    hudarin_free(&descriptor.kept);
}

/* An entry for OWNER RIGHTS of a descriptor without an owner applies to nobody. */
static void without_owner(void)
{
    hudarin_descriptor descriptor = HUDARIN_NOTHING;
    unsigned char room[HUDARIN_SID_BYTES];
    keep("D:(A;;RC;;;OW)", &descriptor);
    HOLDS(hudarin_descriptor_entry(&descriptor, 0, room, sizeof room).written.status == HUDARIN_OK);
    HOLDS(is_unwritten(hudarin_descriptor_subject(&descriptor, 0, room, sizeof room), HUDARIN_NO_PART));
    hudarin_free(&descriptor.kept);
}

static void is_no_descriptor(hudarin_descriptor *descriptor)
{
    unsigned char room[HUDARIN_SID_BYTES];
    hudarin_dacl dacl = hudarin_descriptor_dacl(descriptor);
    HOLDS(dacl.status == HUDARIN_HANDLE && dacl.kind == 0 && dacl.control == 0 && dacl.entries == 0);
    HOLDS(is_unwritten(hudarin_descriptor_owner(descriptor, room, sizeof room), HUDARIN_HANDLE));
    HOLDS(is_unwritten(hudarin_descriptor_group(descriptor, room, sizeof room), HUDARIN_HANDLE));
    ends(descriptor, 0, HUDARIN_HANDLE);
}

/* A handle that is empty, and one of another kind, by a token in its parts. */
static void handles(void)
{
    static const uint32_t enabled = HUDARIN_GROUP_ENABLED;
    static const hudarin_mapping files = HUDARIN_FILE_MAPPING;
    hudarin_token_parts parts = { .user = user, .user_length = sizeof user };
    hudarin_descriptor descriptor = HUDARIN_NOTHING;
    hudarin_token token = HUDARIN_NOTHING;
    unsigned char bytes[100];
    hudarin_written made = hudarin_sddl_to_bytes("D:(A;;FR;;;BU)", 14, bytes, sizeof bytes);
    is_no_descriptor(&descriptor);
    HOLDS(made.status == HUDARIN_OK);
    HOLDS(hudarin_check_parts(bytes, (size_t)made.length, &parts, files, 1).kind == HUDARIN_DENIED);
    parts.groups = users;
    parts.groups_length = sizeof users;
    HOLDS(hudarin_check_parts(bytes, (size_t)made.length, &parts, files, 1).status == HUDARIN_BEHIND_GROUPS);
    parts.states = &enabled;
    parts.state_count = 1;
    HOLDS(hudarin_is_granted(hudarin_check_parts(bytes, (size_t)made.length, &parts, files, 1)));
    HOLDS(hudarin_keep_parts(&parts, &token).status == HUDARIN_OK);
    HOLDS(hudarin_is_granted(hudarin_check_bytes(bytes, (size_t)made.length, &token, files, 1)));
    parts.restricting = user;
    parts.restricting_length = sizeof user;
    HOLDS(hudarin_check_parts(bytes, (size_t)made.length, &parts, files, 1).kind == HUDARIN_DENIED);
    parts.privileges = 8;
    HOLDS(hudarin_check_parts(bytes, (size_t)made.length, &parts, files, 1).status == HUDARIN_PRIVILEGES);
    is_no_descriptor((hudarin_descriptor *)&token);
    HOLDS(token.kept.is_there == 1);
    hudarin_free(&token.kept);
}

static void full_texts(void)
{
    unsigned char room[HUDARIN_SID_BYTES];
    WRITES(hudarin_sid_bytes_to_full_text(users, sizeof users, room, length), "S-1-5-32-545", 12);
    WRITES(hudarin_sid_bytes_to_full_text(user, sizeof user, room, length), "S-1-5-21-1-2-3-1001", 19);
    WRITES(hudarin_sid_bytes_to_full_text(wide, sizeof wide, room, length), "S-1-0x000100000000-7", 20);
    HOLDS(hudarin_sid_bytes_to_full_text(users, 15, (char *)room, sizeof room).fault == HUDARIN_SID_SHORT);
}

/* The names of a kind's rights (winnt.h, winsvc.h; [MS-DTYP] 2.4.3, 2.5.1.1), those with the most bits first. */
static void mask_texts(void)
{
    char room[64];
    hudarin_mapping files = { 0x120089, 0x120116, 0x1200a0, 0x1f01ff };
    WRITES(hudarin_mask_to_text(0x120089, HUDARIN_KIND_FILE, room, length), "FR", 2);
    WRITES(hudarin_mask_to_text(0x160089, HUDARIN_KIND_FILE, room, length), "FR+WD", 5);
    WRITES(hudarin_mask_to_text(0x120289, HUDARIN_KIND_FILE, room, length), "FR+0x200", 8);
    WRITES(hudarin_mask_to_text(3, HUDARIN_KIND_FILE, room, length), "FILE_READ_DATA+FILE_WRITE_DATA", 30);
    WRITES(hudarin_mask_to_text(3, HUDARIN_KIND_KEY, room, length), "KEY_QUERY_VALUE+KEY_SET_VALUE", 29);
    WRITES(hudarin_mask_to_text(3, HUDARIN_KIND_SERVICE, room, length), "SERVICE_QUERY_CONFIG+SERVICE_CHANGE_CONFIG", 42);
    WRITES(hudarin_mask_to_text(3, HUDARIN_KIND_PROCESS, room, length), "PROCESS_TERMINATE+PROCESS_CREATE_THREAD", 39);
    WRITES(hudarin_mask_to_text(0x21, HUDARIN_KIND_FOLDER, room, length), "FILE_LIST_DIRECTORY+FILE_TRAVERSE", 33);
    WRITES(hudarin_mask_to_text(0x120089, HUDARIN_KIND_FOLDER, room, length), "FR", 2);
    WRITES(hudarin_mask_to_text(0x20134, HUDARIN_KIND_DIRECTORY, room, length), "RC+CR+WP+RP+LC", 14);
    WRITES(hudarin_mask_to_text(8, HUDARIN_KIND_PRINTER, room, length), "PRINTER_ACCESS_USE", 18);
    WRITES(hudarin_mask_to_text(4, HUDARIN_KIND_SECTION, room, length), "SECTION_MAP_READ", 16);
    WRITES(hudarin_mask_to_text(8, HUDARIN_KIND_TOKEN, room, length), "TOKEN_QUERY", 11);
    WRITES(hudarin_mask_to_text(1, HUDARIN_KIND_MANAGER, room, length), "SC_MANAGER_CONNECT", 18);
    WRITES(hudarin_mask_to_text(0x80000001, HUDARIN_KIND_ANY, room, length), "GR+0x1", 6);
    WRITES(hudarin_mask_to_text(0xF0100000, HUDARIN_KIND_ANY, room, length), "GR+GW+GX+GA+SYNCHRONIZE", 23);
    WRITES(hudarin_mask_to_text(0, HUDARIN_KIND_ANY, room, length), "0x0", 3);
    HOLDS(hudarin_mask_to_text(3, 11, room, sizeof room).status == HUDARIN_KIND);
    HOLDS(hudarin_mask_from_text("FR", 2, 11).status == HUDARIN_KIND);
    HOLDS(hudarin_mask_from_text("modify+0x40000", 14, HUDARIN_KIND_FILE).mask == 0x1701bf);
    HOLDS(hudarin_mask_from_text("modify", 6, HUDARIN_KIND_KEY).status == HUDARIN_TEXT);
    HOLDS(hudarin_map_mask(0x80000040u, files).mask == 0x1200c9u && hudarin_map_mask(0x10000000u, files).mask == 0x1f01ffu);
    files.all = 0x200000;
    HOLDS(hudarin_map_mask(1, files).status == HUDARIN_MAPPING && hudarin_map_mask(1, files).mask == 0);
}

/* The names of the faults of each status, in the order of their numbers. */
static const struct {
    uint32_t status;
    const char *names[14];
} faults[] = {
    { HUDARIN_TEXT,
      { "Syntax", "HasSacl", "EntryKind", "ObjectGuid", "UnknownAlias", "DomainAlias", "Range", "AclTooLarge" } },
    { HUDARIN_WIRE,
      { "Short", "Revision", "NotSelfRelative", "HasSacl", "BadOffset", "BadSid", "AclRevision", "AclSize", "EntrySize",
        "EntryKind" } },
    { HUDARIN_SID, { "Revision", "Count", "Short" } },
    { HUDARIN_PATH, { "Syntax", "NameTooLong", "TooManyNames" } },
    { HUDARIN_REFUSED,
      { "NoParent", "ParentIsObject", "Exists", "NoNode", "NotEmpty", "IsRoot", "InheritedEntry", "NotCanonical",
        "AclTooLarge", "TooDeep", "NodesFull", "JournalFull", "IntoItself" } },
    { HUDARIN_LIMITS, { "NoNodes", "TooManyNodes", "TooManyEdits" } },
    { HUDARIN_NO_TEXT, { "ResourceManager", "Control", "Keywords", "Opaque", "Kind", "Data" } },
    { HUDARIN_NOT_PLAIN, { "ObjectAce", "ConditionalAce", "SystemAce", "OpaqueAce" } },
    { HUDARIN_UNDECIDED, { "ObjectAce", "ConditionalAce", "SystemAce", "OpaqueAce", "PassesDiffer", "TooLarge",
                           "MayBeDenied" } },
    { HUDARIN_ROW, { "Keyword", "Sid", "Name", "Surplus", "Incomplete" } },
    { HUDARIN_ACCOUNT, { "Unknown", "Ambiguous", "NoUser", "Disabled" } },
    { HUDARIN_TREE, { "NoClass", "LevelLeftOut", "SecondClass", "TooDeep", "Repeated" } },
    { HUDARIN_NOT_CREATED, { "Owner", "NoOwner", "NoGroup", "TooLarge" } },
};

static void names(void)
{
    char one[HUDARIN_MEANING_BYTES], other[HUDARIN_MEANING_BYTES];
    uint32_t status, fault, before;
    size_t at;
    for (at = 0; at < sizeof faults / sizeof faults[0]; at++) {
        for (fault = 1; faults[at].names[fault - 1]; fault++) {
            const char *name = faults[at].names[fault - 1];
            WRITES(hudarin_fault_name(faults[at].status, fault, room, length), name, strlen(name));
        }
        HOLDS(is_unwritten(hudarin_fault_name(faults[at].status, fault, one, sizeof one), HUDARIN_OK));
        HOLDS(is_unwritten(hudarin_fault_name(faults[at].status, 0, one, sizeof one), HUDARIN_OK));
        HOLDS(is_unwritten(hudarin_fault_name(faults[at].status, UINT32_MAX, one, sizeof one), HUDARIN_OK));
    }
    HOLDS(is_unwritten(hudarin_fault_name(HUDARIN_MEMORY, 1, one, sizeof one), HUDARIN_OK));
    WRITES(hudarin_status_text(HUDARIN_MEMORY, room, length), "out of memory", 13);
    WRITES(hudarin_status_text(HUDARIN_REFUSED, room, length), "the tree refuses the edit", 25);
    /* Each status has a text of its own, and no other number has one. */
    for (status = 0; status <= HUDARIN_NOT_CREATED; status++) {
        hudarin_written answer = hudarin_status_text(status, one, sizeof one);
        HOLDS(answer.status == HUDARIN_OK && answer.length > 0);
        for (before = 0; before < status; before++) {
            hudarin_written earlier = hudarin_status_text(before, other, sizeof other);
            HOLDS(earlier.length != answer.length || memcmp(one, other, (size_t)answer.length) != 0);
        }
    }
    HOLDS(is_unwritten(hudarin_status_text(HUDARIN_NOT_CREATED + 1, one, sizeof one), HUDARIN_OK));
    HOLDS(is_unwritten(hudarin_status_text(UINT32_MAX, one, sizeof one), HUDARIN_OK));
}

int main(void)
{
    all_parts();
    has_dacl("", HUDARIN_DACL_ABSENT, 0);
    has_dacl("D:", HUDARIN_DACL_LIST, 0);
    has_dacl("D:P", HUDARIN_DACL_LIST, HUDARIN_DACL_PROTECTED);
    has_dacl("D:ARAI", HUDARIN_DACL_LIST, HUDARIN_DACL_AUTO_INHERIT_REQ | HUDARIN_DACL_AUTO_INHERITED);
    has_dacl("D:NO_ACCESS_CONTROL", HUDARIN_DACL_NULL, 0);
    has_dacl("D:PNO_ACCESS_CONTROL", HUDARIN_DACL_NULL, HUDARIN_DACL_PROTECTED);
    without_owner();
    handles();
    full_texts();
    mask_texts();
    names();
    return close_tally();
}
