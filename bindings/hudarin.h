/*
 * Hudarin: Windows security descriptors, and access checks on them by [MS-DTYP].
 *
 * Threads: any number of threads may make any of these calls at once, but each handle is used by one thread at a
 * time: a call that takes one also changes it, and may be given no handle twice. It goes to another thread as other
 * memory does, by a lock, a queue or the start of a thread. hudarin_token_share and its siblings make another handle
 * of the same object.
 *
 * Buffers: an output buffer (`room`) overlaps nothing else that its call is given. Until the call returns nobody else
 * reads or writes it, or writes what the call reads.
 *
 * Pointers: each points to as many elements as its length says, and may be NULL if that is 0. NULL with another
 * length, or for a handle, is undefined behavior, as any other bad pointer is. A length is at most PTRDIFF_MAX bytes.
 * Pointers to uint32_t, and to structs, are aligned. The library is proved for callers that keep these three rules;
 * nothing proves that they do.
 *
 * Memory comes from the program's malloc, realloc and free. After a call only what handles keep stays allocated. No
 * call is made from a signal handler, or in the child of a fork of a program with threads before it runs another
 * program.
 *
 * For any bytes, texts and numbers each call returns, with one of the statuses below. Where the status isn't
 * HUDARIN_OK nothing was written or kept. docs/C.md describes each call, docs/FORMATS.md the texts, the bytes and
 * their faults, docs/CHECK.md the rules of the check.
 */
#ifndef HUDARIN_H
#define HUDARIN_H

#include <stddef.h>
#include <stdint.h>

#ifdef __cplusplus
extern "C" {
#endif

/* ---- The header's version; hudarin_version returns the library's */

#define HUDARIN_VERSION_MAJOR 0u
#define HUDARIN_VERSION_MINOR 3u
#define HUDARIN_VERSION_PATCH 0u

/* What a program of 0.2 changes: hudarin_mask_from_text and hudarin_mask_to_text take a hudarin_kind. With
 * HUDARIN_KIND_ANY the first takes what it took; the second has the names of a file with HUDARIN_KIND_FILE.
 *
 * What a program of 0.1 changes beside: hudarin_who, hudarin_compare and hudarin_store_review take a hudarin_lines as their
 * last argument; hudarin_line_print writes the lines, which hudarin_who and hudarin_compare put into a buffer, and
 * hudarin_store_review after the paths. hudarin_who returns a hudarin_verdict, and hudarin_accesses is gone; the status
 * of a hudarin_comparison is in `answer`, which was `written`. Instead of "same" there is no line. hudarin_whole_at and,
 * of what it writes, hudarin_whole_plain do what hudarin_descriptor_trim did, which left a SACL out. */

/* Ignoring an answer is a mistake, of which GCC and Clang warn. */
#if defined(__GNUC__)
#define HUDARIN_ANSWERS __attribute__((warn_unused_result))
/* The arguments, counted from 1, that point to handles and are never NULL. */
#define HUDARIN_NONNULL(...) __attribute__((nonnull(__VA_ARGS__)))
#else
#define HUDARIN_ANSWERS
#define HUDARIN_NONNULL(...)
#endif

/* ---- Statuses. For this enum and those below an answer has a number of 32 bits; with a cast, as in
 * switch ((hudarin_status)answer.status), GCC and Clang warn of a missing case. */

typedef enum hudarin_status {
    HUDARIN_OK = 0,
    /* Out of memory. The same call may succeed later. */
    HUDARIN_MEMORY = 1,
    /* The buffer is too small. The answer's `length` is the number of bytes required; of hudarin_check_types `place` is
     * the number of elements. */
    HUDARIN_ROOM = 2,
    /* A text isn't UTF-8: `place` is the number of valid bytes at its front. */
    HUDARIN_UTF8 = 3,
    /* A text is invalid: the fault is HUDARIN_TEXT_.., at the byte offset `place`. */
    HUDARIN_TEXT = 4,
    /* Bytes hold no descriptor, or no entries: the fault is HUDARIN_WIRE_... */
    HUDARIN_WIRE = 5,
    /* Bytes don't start with a SID: the fault is HUDARIN_SID_... Of groups, restricting SIDs and owners `place` is the
     * index. */
    HUDARIN_SID = 6,
    /* More bytes follow the groups than there are states for. `place` is the number of states. */
    HUDARIN_BEHIND_GROUPS = 7,
    /* The state of the group with the index `place` is none of HUDARIN_GROUP_... */
    HUDARIN_STATE = 8,
    /* A bit of the privileges is none of HUDARIN_PRIVILEGE_.. and HUDARIN_DENY_ONLY_USER. */
    HUDARIN_PRIVILEGES = 9,
    /* A mask of the mapping has a bit beyond 0x001FFFFF. */
    HUDARIN_MAPPING = 10,
    /* A handle keeps nothing, or an object of another kind; or one that must be empty is in use. */
    HUDARIN_HANDLE = 11,
    /* The number is none of HUDARIN_EDIT_.., or the edit takes no value and has one. */
    HUDARIN_EDIT = 12,
    /* A text is no path: the fault is HUDARIN_PATH_... */
    HUDARIN_PATH = 13,
    /* A descriptor lacks an owner or a group where both are required, or has one where only a DACL may be; or it has no
     * list, or a protected one, where just a list that isn't protected may be. */
    HUDARIN_PARTS = 14,
    /* The tree refuses the edit, or its root: the fault is HUDARIN_REFUSED_... */
    HUDARIN_REFUSED = 15,
    /* There is no node at the path. */
    HUDARIN_NO_NODE = 16,
    /* A SID is no domain's, which is S-1-5-21 and three more sub-authorities. */
    HUDARIN_DOMAIN = 17,
    /* The descriptor has no owner, no group, no such list, or no entry at the index; or there is no such line, or value of
     * a line; or the node keeps nothing that it had inherited elsewhere. */
    HUDARIN_NO_PART = 18,
    /* A limit of the store is out of range: the fault is HUDARIN_LIMITS_... */
    HUDARIN_LIMITS = 19,
    /* A part of a whole descriptor has no text: the fault is HUDARIN_NO_TEXT_... Of an entry `place` is the index, and
     * `list` its list. */
    HUDARIN_NO_TEXT = 20,
    /* An entry of a whole descriptor's DACL is no allow and no deny of a plain list: the fault is HUDARIN_NOT_PLAIN_..,
     * of the first such entry, whose index is `place`. */
    HUDARIN_NOT_PLAIN = 21,
    /* A word says nothing of a client. `place` is its index. */
    HUDARIN_WORD = 22,
    /* The last word has no zero byte after it. */
    HUDARIN_UNENDED = 23,
    /* Object types are more than five, or not of 16 bytes each; an object's classes aren't of 16 bytes each. */
    HUDARIN_TYPES = 24,
    /* A whole descriptor can't be decided for the question: the fault is HUDARIN_UNDECIDED_.. Of an entry of the DACL it
     * is of the first such one, whose index is `place`. */
    HUDARIN_UNDECIDED = 25,
    /* A line of an accounts file is no row: the fault is HUDARIN_ROW_.., of the first such line, whose number, from 1, is
     * `place`. */
    HUDARIN_ROW = 26,
    /* A text means no user that may log on: the fault is HUDARIN_ACCOUNT_... */
    HUDARIN_ACCOUNT = 27,
    /* No kind of object has the number. */
    HUDARIN_KIND = 28,
    /* The nodes are no tree of object types: the fault is HUDARIN_TREE_.., of the first one that can't stand where it
     * does, whose index is `place`. */
    HUDARIN_TREE = 29,
    /* A new object gets no descriptor: the fault is HUDARIN_CREATE_... */
    HUDARIN_NOT_CREATED = 30
} hudarin_status;

/* ---- Faults of a text (HUDARIN_TEXT) */

typedef enum hudarin_text_fault {
    HUDARIN_TEXT_SYNTAX = 1,
    HUDARIN_TEXT_HAS_SACL = 2,
    HUDARIN_TEXT_ENTRY_KIND = 3,
    HUDARIN_TEXT_OBJECT_GUID = 4,
    HUDARIN_TEXT_UNKNOWN_ALIAS = 5,
    HUDARIN_TEXT_DOMAIN_ALIAS = 6,
    HUDARIN_TEXT_RANGE = 7,
    HUDARIN_TEXT_ACL_TOO_LARGE = 8
} hudarin_text_fault;

/* ---- Faults of a descriptor's bytes (HUDARIN_WIRE) */

typedef enum hudarin_wire_fault {
    HUDARIN_WIRE_SHORT = 1,
    HUDARIN_WIRE_REVISION = 2,
    HUDARIN_WIRE_NOT_SELF_RELATIVE = 3,
    HUDARIN_WIRE_HAS_SACL = 4,
    HUDARIN_WIRE_BAD_OFFSET = 5,
    HUDARIN_WIRE_BAD_SID = 6,
    HUDARIN_WIRE_ACL_REVISION = 7,
    HUDARIN_WIRE_ACL_SIZE = 8,
    HUDARIN_WIRE_ENTRY_SIZE = 9,
    HUDARIN_WIRE_ENTRY_KIND = 10
} hudarin_wire_fault;

/* ---- Faults of a SID's bytes (HUDARIN_SID) */

typedef enum hudarin_sid_fault {
    HUDARIN_SID_REVISION = 1,
    HUDARIN_SID_COUNT = 2,
    HUDARIN_SID_SHORT = 3
} hudarin_sid_fault;

/* ---- Faults of a path (HUDARIN_PATH) */

typedef enum hudarin_path_fault {
    /* There is no leading '/', or a name is empty or has a zero byte. */
    HUDARIN_PATH_SYNTAX = 1,
    HUDARIN_PATH_NAME_TOO_LONG = 2,
    HUDARIN_PATH_TOO_MANY_NAMES = 3
} hudarin_path_fault;

/* ---- Why a tree refuses an edit, or its root (HUDARIN_REFUSED) */

typedef enum hudarin_refusal {
    HUDARIN_REFUSED_NO_PARENT = 1,
    HUDARIN_REFUSED_PARENT_IS_OBJECT = 2,
    HUDARIN_REFUSED_EXISTS = 3,
    HUDARIN_REFUSED_NO_NODE = 4,
    HUDARIN_REFUSED_NOT_EMPTY = 5,
    HUDARIN_REFUSED_IS_ROOT = 6,
    HUDARIN_REFUSED_INHERITED_ENTRY = 7,
    HUDARIN_REFUSED_NOT_CANONICAL = 8,
    HUDARIN_REFUSED_ACL_TOO_LARGE = 9,
    HUDARIN_REFUSED_TOO_DEEP = 10,
    HUDARIN_REFUSED_NODES_FULL = 11,
    HUDARIN_REFUSED_JOURNAL_FULL = 12,
    HUDARIN_REFUSED_INTO_ITSELF = 13
} hudarin_refusal;

/* ---- Faults of a store's limits (HUDARIN_LIMITS) */

typedef enum hudarin_limits_fault {
    /* The root is a node too. */
    HUDARIN_LIMITS_NO_NODES = 1,
    HUDARIN_LIMITS_TOO_MANY_NODES = 2,
    HUDARIN_LIMITS_TOO_MANY_EDITS = 3
} hudarin_limits_fault;

/* ---- What of a whole descriptor has no text (HUDARIN_NO_TEXT) */

typedef enum hudarin_no_text_fault {
    /* The resource manager's byte isn't 0. */
    HUDARIN_NO_TEXT_RESOURCE_MANAGER = 1,
    /* A control bit has no keyword: OD, GD, DD, SD, SS, DT or RM. */
    HUDARIN_NO_TEXT_CONTROL = 2,
    /* A keyword is set of a list that isn't there. */
    HUDARIN_NO_TEXT_KEYWORDS = 3,
    /* An entry's type has no layout, or its body doesn't have the layout of its type. */
    HUDARIN_NO_TEXT_OPAQUE = 4,
    /* An entry's type has no letters. */
    HUDARIN_NO_TEXT_KIND = 5,
    /* The bytes after an entry's SID have no text. */
    HUDARIN_NO_TEXT_DATA = 6
} hudarin_no_text_fault;

/* ---- What an entry is that isn't plain (HUDARIN_NOT_PLAIN) */

typedef enum hudarin_not_plain_fault {
    /* It says for which types of objects it is. */
    HUDARIN_NOT_PLAIN_OBJECT_ACE = 1,
    /* A condition says whether it applies. */
    HUDARIN_NOT_PLAIN_CONDITIONAL_ACE = 2,
    /* Its type is of SACLs. */
    HUDARIN_NOT_PLAIN_SYSTEM_ACE = 3,
    /* Its type has no layout, or its body doesn't have the layout of its type. */
    HUDARIN_NOT_PLAIN_OPAQUE_ACE = 4
} hudarin_not_plain_fault;

/* ---- Why a descriptor can't be decided for a question (HUDARIN_UNDECIDED). Of entries that aren't plain the numbers are
 * those above; the first two of them are decided, and no fault. */

typedef enum hudarin_undecided_fault {
    /* The entry's type is of SACLs. */
    HUDARIN_UNDECIDED_SYSTEM_ACE = 3,
    /* The entry's type has no layout, or its body doesn't have the layout of its type. */
    HUDARIN_UNDECIDED_OPAQUE_ACE = 4,
    /* The token is restricted, and the entry's condition lets it apply in one of the two passes alone. */
    HUDARIN_UNDECIDED_PASSES_DIFFER = 5,
    /* With longer SIDs in place of PRINCIPAL SELF the list takes more than 65,535 bytes. */
    HUDARIN_UNDECIDED_TOO_LARGE = 6,
    /* The DACL grants, and an entry of the SACL may deny: a central policy, a trust label, an access filter, an entry of
     * an unknown type, or a label that can't be read. */
    HUDARIN_UNDECIDED_MAY_BE_DENIED = 7
} hudarin_undecided_fault;

/* ---- Why a line of an accounts file is no row (HUDARIN_ROW) */

typedef enum hudarin_row_fault {
    /* It begins with none of user, group, member, primary, disabled and #. */
    HUDARIN_ROW_KEYWORD = 1,
    /* A SID is missing, or a word is none. */
    HUDARIN_ROW_SID = 2,
    /* The name is missing, or has a control character. */
    HUDARIN_ROW_NAME = 3,
    /* Something follows the last SID. */
    HUDARIN_ROW_SURPLUS = 4,
    /* It says that rows are missing. */
    HUDARIN_ROW_INCOMPLETE = 5
} hudarin_row_fault;

/* ---- Why a text means no user that may log on (HUDARIN_ACCOUNT) */

typedef enum hudarin_account_fault {
    /* It is no SID, and the name of no account. */
    HUDARIN_ACCOUNT_UNKNOWN = 1,
    /* It may mean two accounts. */
    HUDARIN_ACCOUNT_AMBIGUOUS = 2,
    /* The SID that it means is no user's. */
    HUDARIN_ACCOUNT_NO_USER = 3,
    /* The user's account is disabled. */
    HUDARIN_ACCOUNT_DISABLED = 4
} hudarin_account_fault;

/* ---- Why a node can't stand in a tree of object types where it does (HUDARIN_TREE) */

typedef enum hudarin_tree_fault {
    /* There is no node. A tree has at least its class. */
    HUDARIN_TREE_NO_CLASS = 1,
    /* Its level is more than one below that of the node before it; of the first node, not 0. */
    HUDARIN_TREE_LEVEL_LEFT_OUT = 2,
    /* Its level is 0, which the first node alone has. */
    HUDARIN_TREE_SECOND_CLASS = 3,
    /* Its level is beyond 4. */
    HUDARIN_TREE_TOO_DEEP = 4,
    /* Its type is that of a node before it. */
    HUDARIN_TREE_REPEATED = 5
} hudarin_tree_fault;

/* ---- Why a new object gets no descriptor (HUDARIN_NOT_CREATED): the first of these */

typedef enum hudarin_create_fault {
    /* The creator gave an owner that its token may not set. */
    HUDARIN_CREATE_OWNER = 1,
    /* The owner is to be the parent's, and there is none. */
    HUDARIN_CREATE_NO_OWNER = 2,
    /* The group is to be the parent's, and there is none. */
    HUDARIN_CREATE_NO_GROUP = 3,
    /* A list takes more than 65,535 bytes. */
    HUDARIN_CREATE_TOO_LARGE = 4
} hudarin_create_fault;

/* ---- Kinds of objects, whose names masks have in words */

typedef enum hudarin_kind {
    /* The names that every object has alone. */
    HUDARIN_KIND_ANY = 0,
    HUDARIN_KIND_FILE = 1,
    HUDARIN_KIND_KEY = 2,
    HUDARIN_KIND_SERVICE = 3,
    HUDARIN_KIND_PROCESS = 4,
    /* Those of files, and FILE_LIST_DIRECTORY, FILE_ADD_FILE, FILE_ADD_SUBDIRECTORY and FILE_TRAVERSE. */
    HUDARIN_KIND_FOLDER = 5,
    /* An object of Active Directory. */
    HUDARIN_KIND_DIRECTORY = 6,
    HUDARIN_KIND_PRINTER = 7,
    HUDARIN_KIND_SECTION = 8,
    HUDARIN_KIND_TOKEN = 9,
    /* The service control manager. */
    HUDARIN_KIND_MANAGER = 10
} hudarin_kind;

/* ---- Arguments of a check: the number of the invalid one, in an answer's `argument` */

typedef enum hudarin_argument {
    HUDARIN_ARGUMENT_DESCRIPTOR = 1,
    HUDARIN_ARGUMENT_USER = 2,
    HUDARIN_ARGUMENT_GROUPS = 3,
    HUDARIN_ARGUMENT_STATES = 4,
    HUDARIN_ARGUMENT_RESTRICTING = 5,
    HUDARIN_ARGUMENT_PRIVILEGES = 6,
    HUDARIN_ARGUMENT_MAPPING = 7,
    /* The handle of a token; that of a descriptor is HUDARIN_ARGUMENT_DESCRIPTOR. */
    HUDARIN_ARGUMENT_TOKEN = 8,
    /* Those of the calls over stores and views: handles, an edit's number, its path, and its value. */
    HUDARIN_ARGUMENT_STORE = 9,
    HUDARIN_ARGUMENT_VIEW = 10,
    HUDARIN_ARGUMENT_EDIT = 11,
    HUDARIN_ARGUMENT_PATH = 12,
    HUDARIN_ARGUMENT_VALUE = 13,
    /* The handle of hudarin_compare's new descriptor. */
    HUDARIN_ARGUMENT_NEW_DESCRIPTOR = 14,
    /* The limits of hudarin_store_open_within. */
    HUDARIN_ARGUMENT_NODES = 15,
    HUDARIN_ARGUMENT_EDITS = 16,
    /* The handle for lines. */
    HUDARIN_ARGUMENT_LINES = 17,
    /* Those of hudarin_keep_client and hudarin_check_whole; a client is their handle. */
    HUDARIN_ARGUMENT_DOMAIN = 18,
    HUDARIN_ARGUMENT_WORDS = 19,
    HUDARIN_ARGUMENT_TYPES = 20,
    HUDARIN_ARGUMENT_PRINCIPAL_SELF = 21,
    HUDARIN_ARGUMENT_CLIENT = 22,
    /* Those of hudarin_store_add_stored; the node's own descriptor is HUDARIN_ARGUMENT_VALUE. */
    HUDARIN_ARGUMENT_KEPT = 23,
    HUDARIN_ARGUMENT_OFFER = 24,
    /* Those of hudarin_check_types. */
    HUDARIN_ARGUMENT_TREE = 25,
    HUDARIN_ARGUMENT_VERDICTS = 26,
    /* That of hudarin_check_open, whose file is HUDARIN_ARGUMENT_DESCRIPTOR, and of hudarin_create. */
    HUDARIN_ARGUMENT_PARENT = 27,
    /* Those of hudarin_create; the classes are HUDARIN_ARGUMENT_TYPES. */
    HUDARIN_ARGUMENT_CREATOR = 28,
    HUDARIN_ARGUMENT_DEFAULTS = 29,
    HUDARIN_ARGUMENT_OWNERS = 30
} hudarin_argument;

/* ---- Verdicts */

typedef enum hudarin_verdict_kind {
    /* All that was requested is granted: `mask`, with its generic rights mapped. With MAXIMUM_ALLOWED: all that can
     * be. */
    HUDARIN_GRANTED = 1,
    /* Exactly the bits of `mask` aren't granted. */
    HUDARIN_DENIED = 2,
    /* Exactly the bits of `mask` are reserved, and no check grants them. */
    HUDARIN_RESERVED = 3,
    /* Nothing was requested. */
    HUDARIN_EMPTY_REQUEST = 4
} hudarin_verdict_kind;

/* ---- Causes: why bits are granted or denied */

typedef enum hudarin_cause {
    /* The DACL is absent or null: it grants the object's own rights and the standard ones. */
    HUDARIN_CAUSE_NO_LIST = 1,
    /* The list: `first` is the finding for the user and the groups, `second` that for the restricting SIDs. */
    HUDARIN_CAUSE_LIST = 2,
    /* READ_CONTROL or WRITE_DAC, granted to the owner. */
    HUDARIN_CAUSE_OWNER = 3,
    /* WRITE_OWNER, granted by SeTakeOwnershipPrivilege. */
    HUDARIN_CAUSE_TAKE_OWNERSHIP = 4,
    /* ACCESS_SYSTEM_SECURITY, granted by SeSecurityPrivilege, or denied without it. */
    HUDARIN_CAUSE_SECURITY = 5,
    HUDARIN_CAUSE_NO_SECURITY = 6,
    /* Without a list MAXIMUM_ALLOWED includes no more than GENERIC_ALL, and this is beyond it. */
    HUDARIN_CAUSE_BEYOND_ALL = 7,
    /* The bits are reserved. */
    HUDARIN_CAUSE_RESERVED = 8,
    /* Taken by the object's integrity label: of hudarin_explain_whole alone. */
    HUDARIN_CAUSE_LABEL = 9
} hudarin_cause;

/* ---- What a pass over the list found: 0 without such a pass */

typedef enum hudarin_finding_kind {
    /* An allow entry decides the bits. */
    HUDARIN_FINDING_ALLOWED = 1,
    /* A deny entry decides the bits. */
    HUDARIN_FINDING_DENIED = 2,
    /* No entry does. */
    HUDARIN_FINDING_NO_ENTRY = 3
} hudarin_finding_kind;

/* ---- Rights in a mask ([MS-DTYP] 2.4.3), joined by |. Of a right with two names the second is a folder's. */

/* All that can be granted. */
#define HUDARIN_MAXIMUM_ALLOWED 0x02000000u
#define HUDARIN_GENERIC_READ 0x80000000u
#define HUDARIN_GENERIC_WRITE 0x40000000u
#define HUDARIN_GENERIC_EXECUTE 0x20000000u
#define HUDARIN_GENERIC_ALL 0x10000000u
#define HUDARIN_ACCESS_SYSTEM_SECURITY 0x01000000u
#define HUDARIN_DELETE 0x00010000u
#define HUDARIN_READ_CONTROL 0x00020000u
#define HUDARIN_WRITE_DAC 0x00040000u
#define HUDARIN_WRITE_OWNER 0x00080000u
#define HUDARIN_SYNCHRONIZE 0x00100000u
/* FILE_READ_DATA, FILE_LIST_DIRECTORY */
#define HUDARIN_FILE_READ_DATA 0x001u
/* FILE_WRITE_DATA, FILE_ADD_FILE */
#define HUDARIN_FILE_WRITE_DATA 0x002u
/* FILE_APPEND_DATA, FILE_ADD_SUBDIRECTORY */
#define HUDARIN_FILE_APPEND_DATA 0x004u
#define HUDARIN_FILE_READ_EA 0x008u
#define HUDARIN_FILE_WRITE_EA 0x010u
/* FILE_EXECUTE, FILE_TRAVERSE */
#define HUDARIN_FILE_EXECUTE 0x020u
#define HUDARIN_FILE_DELETE_CHILD 0x040u
#define HUDARIN_FILE_READ_ATTRIBUTES 0x080u
#define HUDARIN_FILE_WRITE_ATTRIBUTES 0x100u
#define HUDARIN_KEY_QUERY_VALUE 0x01u
#define HUDARIN_KEY_SET_VALUE 0x02u
#define HUDARIN_KEY_CREATE_SUB_KEY 0x04u
#define HUDARIN_KEY_ENUMERATE_SUB_KEYS 0x08u
#define HUDARIN_KEY_NOTIFY 0x10u
#define HUDARIN_KEY_CREATE_LINK 0x20u

/* ---- A kept descriptor's DACL and its entries */

typedef enum hudarin_dacl_kind {
    /* There is no DACL. It grants the object's own rights and the standard ones to everyone, as a null one does. */
    HUDARIN_DACL_ABSENT = 1,
    HUDARIN_DACL_NULL = 2,
    /* A list of entries; without any it grants nothing by itself. */
    HUDARIN_DACL_LIST = 3
} hudarin_dacl_kind;

typedef enum hudarin_entry_kind {
    HUDARIN_ENTRY_ALLOW = 1,
    HUDARIN_ENTRY_DENY = 2
} hudarin_entry_kind;

/* Control bits that speak of the DACL ([MS-DTYP] 2.4.6), joined by |: it inherits nothing; it is to be inherited
 * automatically; it was. */
#define HUDARIN_DACL_PROTECTED 0x1000u
#define HUDARIN_DACL_AUTO_INHERIT_REQ 0x0100u
#define HUDARIN_DACL_AUTO_INHERITED 0x0400u

/* Flags of an entry ([MS-DTYP] 2.4.4.1), joined by |. */
#define HUDARIN_OBJECT_INHERIT 0x01u
#define HUDARIN_CONTAINER_INHERIT 0x02u
#define HUDARIN_NO_PROPAGATE_INHERIT 0x04u
/* The entry has no part in a check of the object itself. */
#define HUDARIN_INHERIT_ONLY 0x08u
/* The entry was inherited. */
#define HUDARIN_INHERITED 0x10u
#define HUDARIN_SUCCESSFUL_ACCESS 0x40u
#define HUDARIN_FAILED_ACCESS 0x80u

/* ---- Values of a line: the kind of each */

typedef enum hudarin_value_kind {
    HUDARIN_VALUE_MASK = 1,
    HUDARIN_VALUE_NUMBER = 2,
    HUDARIN_VALUE_SID = 3,
    HUDARIN_VALUE_TEXT = 4
} hudarin_value_kind;

/* ---- What a SID is in the token of a gain or a loss, beside its user */

typedef enum hudarin_mark {
    /* A group for denies alone. */
    HUDARIN_MARK_DENY = 1,
    /* A restricting SID. */
    HUDARIN_MARK_RESTRICT = 2
} hudarin_mark;

/* ---- States of a group. They are two bits of the attributes of Windows; both at once are rejected. */

#define HUDARIN_GROUP_DISABLED 0x0u
/* SE_GROUP_ENABLED */
#define HUDARIN_GROUP_ENABLED 0x4u
/* SE_GROUP_USE_FOR_DENY_ONLY */
#define HUDARIN_GROUP_DENY_ONLY 0x10u

/* ---- Privileges, joined by | */

/* SeSecurityPrivilege: grants ACCESS_SYSTEM_SECURITY. */
#define HUDARIN_PRIVILEGE_SECURITY 0x1u
/* SeTakeOwnershipPrivilege: grants WRITE_OWNER. */
#define HUDARIN_PRIVILEGE_TAKE_OWNERSHIP 0x2u
/* No privilege: the user counts for denies alone, as one whose SID CreateRestrictedToken's SidsToDisable names. Deny
 * entries for it apply; allow entries, and what an owner has without an entry, don't, unless a group has its SID. */
#define HUDARIN_DENY_ONLY_USER 0x4u

/* ---- Buffer sizes that always suffice, in bytes */

/* Of a SID, and of its text. */
#define HUDARIN_SID_BYTES 68u
#define HUDARIN_SID_TEXT_BYTES 183u
/* Of a descriptor. */
#define HUDARIN_DESCRIPTOR_BYTES 65688u
/* Of the self-relative form of a whole descriptor. */
#define HUDARIN_WHOLE_BYTES 131226u
/* Of a path's text: 128 names of 255 bytes, each after a slash. */
#define HUDARIN_PATH_BYTES 32768u
/* Of what hudarin_status_text and hudarin_fault_name write. */
#define HUDARIN_MEANING_BYTES 64u

/* ---- Arguments and answers */

/* What the four generic rights stand for. */
typedef struct hudarin_mapping {
    uint32_t read;
    uint32_t write;
    uint32_t execute;
    uint32_t all;
} hudarin_mapping;

/* The mappings of files and folders, of registry keys, of services, of processes, of objects of Active Directory, of
 * printers, of sections, of tokens and of the service control manager, for an initializer, as Windows has them:
 * FILE_GENERIC_READ .. FILE_ALL_ACCESS, KEY_READ .. KEY_ALL_ACCESS, and so on to SC_MANAGER_ALL_ACCESS. */
#define HUDARIN_FILE_MAPPING { 0x00120089u, 0x00120116u, 0x001200a0u, 0x001f01ffu }
#define HUDARIN_KEY_MAPPING { 0x00020019u, 0x00020006u, 0x00020019u, 0x000f003fu }
#define HUDARIN_SERVICE_MAPPING { 0x0002008du, 0x00020002u, 0x00020170u, 0x000f01ffu }
#define HUDARIN_PROCESS_MAPPING { 0x00020410u, 0x00020beau, 0x00121001u, 0x001fffffu }
#define HUDARIN_DIRECTORY_MAPPING { 0x00020094u, 0x00020028u, 0x00020004u, 0x000f01ffu }
#define HUDARIN_PRINTER_MAPPING { 0x00020008u, 0x00020008u, 0x00020008u, 0x000f000cu }
#define HUDARIN_SECTION_MAPPING { 0x00020005u, 0x00020002u, 0x00020008u, 0x000f001fu }
#define HUDARIN_TOKEN_MAPPING { 0x00020008u, 0x000200e0u, 0x00020000u, 0x000f01ffu }
#define HUDARIN_MANAGER_MAPPING { 0x00020014u, 0x00020022u, 0x00020009u, 0x000f003fu }

/* The answer of a check, an edit, hudarin_keep_token, hudarin_keep_client, hudarin_who, hudarin_lint and a call that
 * opens a store. `place` is, of HUDARIN_SID and HUDARIN_STATE, the index of the group or restricting SID, from 0; of
 * HUDARIN_WORD, HUDARIN_UNDECIDED and HUDARIN_TREE that of the word, entry or node; of HUDARIN_BEHIND_GROUPS the
 * number of states; of HUDARIN_UTF8 the number of valid bytes at the front of the path or the words; of HUDARIN_ROOM
 * the number of nodes. */
typedef struct hudarin_verdict {
    uint32_t status;   /* HUDARIN_OK, or why there is no verdict, or the edit isn't made */
    uint32_t argument; /* the invalid argument: HUDARIN_ARGUMENT_.., else 0 */
    uint32_t fault;    /* HUDARIN_WIRE_.., _SID_.., _PATH_.., _REFUSED_.., _LIMITS_.., _UNDECIDED_.., _TREE_.., else 0 */
    uint32_t kind;     /* with HUDARIN_OK the verdict: HUDARIN_GRANTED .., else 0 */
    uint64_t place;    /* as above, else 0 */
    uint32_t mask;     /* of the verdict */
} hudarin_verdict;

/* A node of a tree of object types, for hudarin_check_types. */
typedef struct hudarin_type_node {
    uint32_t level;         /* how many nodes are above it: 0 of the first one, the class, and at most 4 */
    unsigned char guid[16]; /* its type, as in an entry */
} hudarin_type_node;

/* The verdict on a node. */
typedef struct hudarin_type_verdict {
    uint32_t kind; /* HUDARIN_GRANTED .. */
    uint32_t mask;
} hudarin_type_verdict;

/* The answer of a check by a view. */
typedef struct hudarin_view_verdict {
    hudarin_verdict answer; /* that of hudarin_check_kept, or HUDARIN_PATH, _UTF8, _NO_NODE or _MEMORY */
    uint64_t length;        /* with HUDARIN_OK and HUDARIN_NO_NODE the number of edits of the view's tree, else 0 */
} hudarin_view_verdict;

/* What a pass over the list found for the bits of a part. */
typedef struct hudarin_finding {
    uint64_t entry; /* the index of the first entry that decides them, from 0; 0 where there is none */
    uint32_t kind;  /* HUDARIN_FINDING_.., else 0 */
} hudarin_finding;

/* Bits with one cause. Where `mask` is 0 there is no part, and all else is 0. */
typedef struct hudarin_part {
    uint32_t mask;
    uint32_t cause;   /* HUDARIN_CAUSE_.. */
    uint32_t granted; /* 1 where the bits are granted, else 0 */
    hudarin_finding first;
    hudarin_finding second; /* of a restricted token */
} hudarin_part;

/* The answer of an explanation. */
typedef struct hudarin_explanation {
    hudarin_verdict answer;  /* that of hudarin_check_kept or hudarin_check_whole */
    hudarin_part parts[32];  /* at the index of each bit the part whose lowest bit it is */
} hudarin_explanation;

/* A token in its parts, as hudarin_check takes them; what isn't set is none. */
typedef struct hudarin_token_parts {
    const void *user;
    size_t user_length;
    const void *groups;
    size_t groups_length;
    const uint32_t *states;
    size_t state_count;
    const void *restricting;
    size_t restricting_length;
    uint32_t privileges; /* and HUDARIN_DENY_ONLY_USER */
} hudarin_token_parts;

/* The answer of a call that writes, keeps or shares, or returns a length. */
typedef struct hudarin_written {
    uint32_t status;
    uint32_t fault;  /* HUDARIN_TEXT_.., HUDARIN_WIRE_.. or another of the status, else 0 */
    uint64_t place;  /* of HUDARIN_TEXT the fault's byte offset, of HUDARIN_UTF8 the number of valid bytes, of
                        HUDARIN_NO_TEXT and HUDARIN_NOT_PLAIN an entry's index, of HUDARIN_ROW the line, else 0 */
    uint64_t length; /* with HUDARIN_OK as the call says, with HUDARIN_ROOM the bytes required, else 0 */
} hudarin_written;

/* What the descriptor of a new object is made of; what isn't set is none. */
typedef struct hudarin_creation {
    const void *parent; /* the descriptor of the container that the object is made in */
    size_t parent_length;
    const void *creator; /* what the creator gave: a descriptor whose owner, group and lists may be missing */
    size_t creator_length;
    const void *defaults; /* a descriptor with the owner, the group and the DACL that its token has by default */
    size_t defaults_length;
    const void *owners; /* the SIDs that the token may make the owner: the user's, unless that counts for denies alone,
                           and those of enabled groups with SE_GROUP_OWNER */
    size_t owners_length;
    const void *types; /* the object's classes, of 16 bytes each as in an entry */
    size_t types_length;
    uint32_t container; /* 0 for an object that contains none */
    uint32_t flags;     /* HUDARIN_DACL_AUTO_INHERIT .., joined by | */
    uint32_t restores;  /* 0 without SeRestorePrivilege, with which any SID may be the owner */
    hudarin_mapping mapping;
} hudarin_creation;

/* The answer of hudarin_create. */
typedef struct hudarin_created {
    hudarin_written written;
    uint32_t argument; /* HUDARIN_ARGUMENT_.. of the invalid one, else 0 */
} hudarin_created;

/* The answer of hudarin_whole_to_sddl and hudarin_whole_plain. */
typedef struct hudarin_trimmed {
    hudarin_written written;
    uint32_t left_out; /* HUDARIN_LEFT_OUT_.., joined by |; 0 unless the status is HUDARIN_OK or HUDARIN_ROOM */
    uint32_t list;     /* HUDARIN_LIST_DACL or HUDARIN_LIST_SACL of what has no text or isn't plain, else 0 */
} hudarin_trimmed;

/* The lists of a whole descriptor. */
typedef enum hudarin_list {
    HUDARIN_LIST_DACL = 1,
    HUDARIN_LIST_SACL = 2
} hudarin_list;

/* The answer of hudarin_whole_list. */
typedef struct hudarin_whole_acl {
    uint32_t status;
    uint32_t fault;    /* HUDARIN_WIRE_.., else 0 */
    uint32_t kind;     /* HUDARIN_DACL_ABSENT, _NULL or _LIST, of a SACL too; 0 without a descriptor, as those below */
    uint32_t revision; /* AclRevision, 2 or 4; 0 where there is no list */
    uint32_t control;  /* the control bits that speak of the list ([MS-DTYP] 2.4.6), but whether it is present */
    uint64_t entries;  /* the number of entries */
} hudarin_whole_acl;

/* The answer of hudarin_whole_entry: its other fields are 0 unless the status is HUDARIN_OK or HUDARIN_ROOM. */
typedef struct hudarin_whole_ace {
    hudarin_written written;
    uint32_t type;         /* AceType ([MS-DTYP] 2.4.4.1) */
    uint32_t flags;        /* AceFlags, with every bit */
    uint32_t mask;         /* 0 where the body doesn't have the layout of the type */
    uint32_t object_types; /* 1 where there is an ObjectType, joined by | with 2 where an InheritedObjectType is */
    unsigned char object_type[16];
    unsigned char inherited_object_type[16];
    uint64_t sid_length;   /* the bytes of the SID, at the front of what is written; 0 as `mask` */
} hudarin_whole_ace;

/* The answer of a call that returns a node. */
typedef struct hudarin_node {
    hudarin_written written;
    uint32_t kind; /* HUDARIN_CONTAINER or HUDARIN_OBJECT; 0 unless the status is HUDARIN_OK or HUDARIN_ROOM */
} hudarin_node;

typedef enum hudarin_node_kind {
    HUDARIN_CONTAINER = 1,
    HUDARIN_OBJECT = 2
} hudarin_node_kind;

/* What a node keeps that was inherited elsewhere. */
typedef enum hudarin_stored {
    /* What it had inherited. */
    HUDARIN_STORED_KEPT = 1,
    /* What its container passed down there. */
    HUDARIN_STORED_OFFER = 2
} hudarin_stored;

/* The answer of hudarin_store_review: its other fields are 0 unless the status is HUDARIN_OK or HUDARIN_ROOM. */
typedef struct hudarin_review {
    hudarin_written written;
    uint32_t what;   /* HUDARIN_REVIEW_.. */
    uint32_t gained; /* the bits that some token gains of the node itself */
    uint32_t lost;   /* the bits that some token loses of the node itself */
    uint64_t path;   /* the bytes of the node's path, at the front of the buffer */
    uint64_t before; /* of HUDARIN_REVIEW_MOVED the bytes of the path that follows it, else 0 */
} hudarin_review;

/* What a publish does to a node. Of HUDARIN_REVIEW_SAME no check is answered otherwise, of any token, unless
 * HUDARIN_MAXIMUM_ALLOWED is asked for. */
typedef enum hudarin_review_kind {
    /* A node is at its path before and after, and no token gains or loses a right, of it or of what is made in it. */
    HUDARIN_REVIEW_SAME = 1,
    /* A node is at its path before and after, and its lines say what changes. */
    HUDARIN_REVIEW_CHANGED = 2,
    /* No published node is at its path, or was moved to it. */
    HUDARIN_REVIEW_NEW = 3,
    /* No published node is at its path; the one at another path is moved to it. */
    HUDARIN_REVIEW_MOVED = 4,
    /* A published node at whose path there is none any more. */
    HUDARIN_REVIEW_GONE = 5,
    /* A published node at whose path there is one still, which has a place of its own. */
    HUDARIN_REVIEW_STANDS = 6
} hudarin_review_kind;

#define HUDARIN_LEFT_OUT_SACL 0x1u
/* The resource manager's byte. */
#define HUDARIN_LEFT_OUT_MANAGER 0x2u
/* Control bits: of a text those without a keyword, of a plain part all but those of its DACL. */
#define HUDARIN_LEFT_OUT_CONTROL 0x4u

/* Parts of a whole descriptor, joined by |, as in SECURITY_INFORMATION ([MS-DTYP] 2.4.7). */
#define HUDARIN_PART_OWNER 0x1u
#define HUDARIN_PART_GROUP 0x2u
#define HUDARIN_PART_DACL 0x4u
#define HUDARIN_PART_SACL 0x8u

/* How a new object gets its descriptor, joined by |: AutoInheritFlags ([MS-DTYP] 2.5.3.4.1), with the bits that Windows
 * gives them. Others have no effect. */

/* What the parent's DACL, or its SACL, passes on follows the creator's own entries. */
#define HUDARIN_DACL_AUTO_INHERIT 0x01u
#define HUDARIN_SACL_AUTO_INHERIT 0x02u
/* A list that the creator gave counts only where the parent's list passes on nothing. */
#define HUDARIN_DEFAULT_DESCRIPTOR_FOR_OBJECT 0x04u
/* Any SID may be the owner. */
#define HUDARIN_AVOID_OWNER_CHECK 0x10u
/* Where the creator gave no owner, or no group, it is the parent's. */
#define HUDARIN_DEFAULT_OWNER_FROM_PARENT 0x20u
#define HUDARIN_DEFAULT_GROUP_FROM_PARENT 0x40u

/* The answer of hudarin_descriptor_dacl. */
typedef struct hudarin_dacl {
    uint32_t status;  /* HUDARIN_OK or HUDARIN_HANDLE */
    uint32_t kind;    /* HUDARIN_DACL_ABSENT, _NULL or _LIST, else 0 */
    uint32_t control; /* HUDARIN_DACL_PROTECTED .., joined by |, else 0 */
    uint64_t entries; /* the number of entries of a list, else 0 */
} hudarin_dacl;

/* The answer of hudarin_descriptor_entry: its fields are 0 unless the status is HUDARIN_OK or HUDARIN_ROOM. */
typedef struct hudarin_entry {
    hudarin_written written;
    uint32_t kind;  /* HUDARIN_ENTRY_ALLOW or _DENY */
    uint32_t flags; /* HUDARIN_OBJECT_INHERIT .., joined by | */
    uint32_t mask;
} hudarin_entry;

/* The answer of hudarin_compare. */
typedef struct hudarin_comparison {
    hudarin_verdict answer; /* as of hudarin_who */
    uint32_t gained;        /* with HUDARIN_OK the bits that some token gains of the object itself, else 0 */
    uint32_t lost;          /* with HUDARIN_OK the bits that some token loses of the object itself, else 0 */
} hudarin_comparison;

/* The answer of hudarin_line_value. `kind` and `number` are 0 unless the status is HUDARIN_OK or HUDARIN_ROOM. */
typedef struct hudarin_value {
    hudarin_written written;
    uint32_t kind;   /* HUDARIN_VALUE_.. */
    uint64_t number; /* the mask or the number; of a SID HUDARIN_MARK_DENY, HUDARIN_MARK_RESTRICT or 0; of a text 0 */
} hudarin_value;

/* The answer of hudarin_mask_from_text and hudarin_map_mask. */
typedef struct hudarin_mask {
    uint32_t status; /* HUDARIN_OK, HUDARIN_KIND, HUDARIN_UTF8, HUDARIN_TEXT or HUDARIN_MAPPING */
    uint32_t fault;  /* HUDARIN_TEXT_.., else 0 */
    uint64_t place;  /* of HUDARIN_TEXT the fault's byte offset, of HUDARIN_UTF8 the number of valid bytes, else 0 */
    uint32_t mask;
} hudarin_mask;

/*
 * What is kept between calls, or nothing: the content of the handles below, which are a type for each kind, so that a
 * compiler rejects one in the place of another. Only the calls below write its fields.
 */
typedef struct hudarin_kept {
    void *at;
    uint32_t is_there; /* 1 if something is kept, else 0 */
} hudarin_kept;

/*
 * A handle starts as HUDARIN_NOTHING, by an initializer. It may be moved in memory; of two copies only one is used
 * from then on. Only hudarin_free(&handle.kept) frees what it keeps.
 */
#define HUDARIN_NOTHING { { NULL, 0u } }

/* Keeps a descriptor. */
typedef struct hudarin_descriptor {
    hudarin_kept kept;
} hudarin_descriptor;

/* Keeps a token: a user, groups and privileges. */
typedef struct hudarin_token {
    hudarin_kept kept;
} hudarin_token;

/* Keeps who asks about whole descriptors: a token, a device's groups, claims and an integrity level. */
typedef struct hudarin_client {
    hudarin_kept kept;
} hudarin_client;

/* Keeps the accounts of a file: who has which name, and who is in which group. */
typedef struct hudarin_accounts {
    hudarin_kept kept;
} hudarin_accounts;

/* Keeps a store. */
typedef struct hudarin_store {
    hudarin_kept kept;
} hudarin_store;

/* Keeps a view of a store. */
typedef struct hudarin_view {
    hudarin_kept kept;
} hudarin_view;

/* Keeps the lines of an answer. */
typedef struct hudarin_lines {
    hudarin_kept kept;
} hudarin_lines;

/* A version. */
typedef struct hudarin_library {
    uint32_t major; /* another one may change what exists */
    uint32_t minor; /* another one adds to it, and while `major` is 0 may change what exists */
    uint32_t patch; /* another one fixes it */
} hudarin_library;

/* The library's version. */
HUDARIN_ANSWERS hudarin_library hudarin_version(void);

/* What a status means, as "the tree refuses the edit"; nothing for a number that is no status. Takes no memory. */
HUDARIN_ANSWERS hudarin_written hudarin_status_text(uint32_t status, char *room, size_t room_length);

/* The name of a status' fault, as "JournalFull"; nothing where the status has no such fault. Takes no memory. */
HUDARIN_ANSWERS hudarin_written hudarin_fault_name(uint32_t status, uint32_t fault, char *room, size_t room_length);

/* Whether all that was requested is granted. Testing only this never admits a user who wasn't granted access (fail
 * closed). */
static inline int hudarin_is_granted(hudarin_verdict answer)
{
    return answer.status == HUDARIN_OK && answer.kind == HUDARIN_GRANTED;
}

/* The state of a group with these Windows attributes: SE_GROUP_USE_FOR_DENY_ONLY wins, whether it is enabled or not;
 * of the others the enabled ones count. */
static inline uint32_t hudarin_group_state(uint32_t attributes)
{
    return (attributes & HUDARIN_GROUP_DENY_ONLY) != 0 ? HUDARIN_GROUP_DENY_ONLY : attributes & HUDARIN_GROUP_ENABLED;
}

/* ---- The check */

/*
 * The verdict on `asked`, for the self-relative descriptor at the front of `descriptor`, the user whose SID is at the
 * front of `user`, and the groups whose SIDs are concatenated in `groups`, with a state for each. `restricting` has
 * SIDs, concatenated, to its end: if there are some the token is restricted, and the descriptor's list grants what it
 * grants both to the user and the groups and, in a second pass, to these SIDs alone. The arguments are parsed in
 * their order, and the first invalid one is reported. A user is in no group but the given ones: neither in Everyone
 * nor in Authenticated Users.
 */
HUDARIN_ANSWERS hudarin_verdict hudarin_check(const void *descriptor, size_t descriptor_length,
                                              const void *user, size_t user_length,
                                              const void *groups, size_t groups_length,
                                              const uint32_t *states, size_t state_count,
                                              const void *restricting, size_t restricting_length,
                                              uint32_t privileges, hudarin_mapping mapping, uint32_t asked);

/* The same for a token in its parts. */
static inline HUDARIN_ANSWERS hudarin_verdict hudarin_check_parts(const void *descriptor, size_t descriptor_length,
                                                                  const hudarin_token_parts *token,
                                                                  hudarin_mapping mapping, uint32_t asked)
{
    return hudarin_check(descriptor, descriptor_length, token->user, token->user_length, token->groups,
                         token->groups_length, token->states, token->state_count, token->restricting,
                         token->restricting_length, token->privileges, mapping, asked);
}

/* ---- Descriptors. A text is UTF-8 and not zero-terminated, both as an argument and as a result. */

/* The self-relative form of the descriptor that the SDDL text spells. */
HUDARIN_ANSWERS hudarin_written hudarin_sddl_to_bytes(const char *text, size_t text_length, void *room,
                                                      size_t room_length);

/* The same, with the aliases of a domain's accounts and groups, such as DA and DU: those of the domain whose SID is
 * at the front of `domain`. Without a domain they are HUDARIN_TEXT_DOMAIN_ALIAS. */
HUDARIN_ANSWERS hudarin_written hudarin_sddl_to_bytes_in(const void *domain, size_t domain_length, const char *text,
                                                         size_t text_length, void *room, size_t room_length);

/* The canonical SDDL text of the descriptor at the front of the bytes. */
HUDARIN_ANSWERS hudarin_written hudarin_bytes_to_sddl(const void *bytes, size_t bytes_length, char *room,
                                                      size_t room_length);

/* The canonical SDDL text of the descriptor that the SDDL text spells. */
HUDARIN_ANSWERS hudarin_written hudarin_sddl_canonical(const char *text, size_t text_length, char *room,
                                                       size_t room_length);

/* The length of the descriptor at the front of the bytes: up to the end of its last part. */
HUDARIN_ANSWERS hudarin_written hudarin_descriptor_length(const void *bytes, size_t bytes_length);

/* ---- Whole descriptors: with a SACL, entries of every type in both lists, and all control bits. The calls above refuse
 * these, and those below take any descriptor. */

/* The self-relative form of the whole descriptor that the SDDL text spells, with the aliases of the domain whose SID is
 * at the front of `domain`. If `domain_length` is 0 there is no domain. */
HUDARIN_ANSWERS hudarin_written hudarin_whole_from_sddl(const void *domain, size_t domain_length, const char *text,
                                                        size_t text_length, void *room, size_t room_length);

/* The SDDL text of the whole descriptor at the front of the bytes. If `leaves_bits` is 0, control bits and the resource
 * manager's byte that no text says are HUDARIN_NO_TEXT, else they are left out. */
HUDARIN_ANSWERS hudarin_trimmed hudarin_whole_to_sddl(const void *bytes, size_t bytes_length, uint32_t leaves_bits,
                                                      char *room, size_t room_length);

/* The one self-relative form of the whole descriptor whose header is at the offset `place` of a blob from whose front
 * its offsets count, as in Samba's security.NTACL; of one at the front of bytes with `place` 0. */
HUDARIN_ANSWERS hudarin_written hudarin_whole_at(const void *blob, size_t blob_length, uint64_t place, void *room,
                                                 size_t room_length);

/* The self-relative form of the plain part of the whole descriptor at the front of the bytes, which all other calls
 * take: its owner, its group, and its DACL if that has only allow and deny entries. */
HUDARIN_ANSWERS hudarin_trimmed hudarin_whole_plain(const void *bytes, size_t bytes_length, void *room,
                                                    size_t room_length);

/* The one self-relative form of the whole descriptor at the front of `bytes`, with these parts, HUDARIN_PART_.., of the
 * one at the front of `other`, each with the control bits that speak of it. */
HUDARIN_ANSWERS hudarin_written hudarin_whole_with_parts(const void *bytes, size_t bytes_length, const void *other,
                                                         size_t other_length, uint32_t parts, void *room,
                                                         size_t room_length);

/* The one self-relative form of the whole descriptor at the front of `bytes`, with a list, HUDARIN_LIST_.., of the
 * AclRevision `revision`, 2 or 4, and of just the entries in `entries`, which stand there one after the other as in a
 * list. It takes the place of what was there, a list or none; all else stays. With HUDARIN_WIRE the fault is that of
 * `bytes` or of an entry, HUDARIN_WIRE_ACL_REVISION for another revision, or HUDARIN_WIRE_ACL_SIZE where the list would
 * have more than 65,535 bytes. HUDARIN_NO_PART if there is no such list. */
HUDARIN_ANSWERS hudarin_written hudarin_whole_with_entries(const void *bytes, size_t bytes_length, uint32_t list,
                                                           uint32_t revision, const void *entries,
                                                           size_t entries_length, void *room, size_t room_length);

/*
 * The one self-relative form of a new object's descriptor, as CreatePrivateObjectSecurityEx of Windows makes it ([MS-DTYP]
 * 2.5.3.4, CreateSecurityDescriptor), with entries of every type and a SACL. hudarin_creation says what each argument
 * is. Without bytes there is no parent, the creator gave nothing, or nobody else may be the owner; the token's defaults
 * are always there. They are tested in their order, the mapping last: HUDARIN_WIRE; HUDARIN_PARTS for defaults without an
 * owner or a group; HUDARIN_SID; HUDARIN_TYPES; HUDARIN_MAPPING. Then comes HUDARIN_NOT_CREATED. Whether the creator may
 * make the object, and give it a SACL or a label, the caller checks first.
 */
HUDARIN_ANSWERS hudarin_created hudarin_create(const void *parent, size_t parent_length, const void *creator,
                                               size_t creator_length, const void *defaults, size_t defaults_length,
                                               const void *owners, size_t owners_length, const void *types,
                                               size_t types_length, uint32_t container, uint32_t flags,
                                               uint32_t restores, hudarin_mapping mapping, void *room,
                                               size_t room_length);

/* The same of what a struct has. */
static inline HUDARIN_ANSWERS hudarin_created hudarin_create_of(const hudarin_creation *of, void *room,
                                                                size_t room_length)
{
    return hudarin_create(of->parent, of->parent_length, of->creator, of->creator_length, of->defaults,
                          of->defaults_length, of->owners, of->owners_length, of->types, of->types_length,
                          of->container, of->flags, of->restores, of->mapping, room, room_length);
}

/* The SID of the owner, HUDARIN_PART_OWNER, or of the group, HUDARIN_PART_GROUP, of the whole descriptor at the front of
 * the bytes. */
HUDARIN_ANSWERS hudarin_written hudarin_whole_trustee(const void *bytes, size_t bytes_length, uint32_t part, void *room,
                                                      size_t room_length);

/* A list, HUDARIN_LIST_.., of the whole descriptor at the front of the bytes. */
HUDARIN_ANSWERS hudarin_whole_acl hudarin_whole_list(const void *bytes, size_t bytes_length, uint32_t list);

/* The entry at the index, from 0, of such a list. Its SID and the bytes after that, as a condition or a claim, are
 * written; where the body doesn't have the layout of the type, all that follows the entry's header. */
HUDARIN_ANSWERS hudarin_whole_ace hudarin_whole_entry(const void *bytes, size_t bytes_length, uint32_t list,
                                                      uint64_t index, void *room, size_t room_length);

/* ---- SIDs and masks */

/* The bytes of the SID that the text spells, in full or by an alias of two letters. */
HUDARIN_ANSWERS hudarin_written hudarin_sid_text_to_bytes(const char *text, size_t text_length, void *room,
                                                          size_t room_length);

/* The same, also for the aliases of the domain whose SID is at the front of `domain`. */
HUDARIN_ANSWERS hudarin_written hudarin_sid_text_to_bytes_in(const void *domain, size_t domain_length, const char *text,
                                                             size_t text_length, void *room, size_t room_length);

/* The text of the SID at the front of the bytes: its alias if it has one, else in full. */
HUDARIN_ANSWERS hudarin_written hudarin_sid_bytes_to_text(const void *bytes, size_t bytes_length, char *room,
                                                          size_t room_length);

/* The same text in full, though the SID may have an alias. */
HUDARIN_ANSWERS hudarin_written hudarin_sid_bytes_to_full_text(const void *bytes, size_t bytes_length, char *room,
                                                               size_t room_length);

/*
 * The mask that the text is: words joined by "+", each a name that rights have for the kind of object, in any case, or
 * else rights of SDDL or a number, as "FR", "RCWD", "0x20" or, of a file, "Modify+WRITE_DAC". An empty text is 0.
 */
HUDARIN_ANSWERS hudarin_mask hudarin_mask_from_text(const char *text, size_t text_length, uint32_t kind);

/*
 * The mask by the names of the kind of object, of a file as "FR+WD"; the bits that no name has follow as a number, as in
 * "FR+0x200". hudarin_mask_from_text with the same kind returns the mask for each text that this writes.
 */
HUDARIN_ANSWERS hudarin_written hudarin_mask_to_text(uint32_t mask, uint32_t kind, char *room, size_t room_length);

/* The mask with its generic rights mapped, as MapGenericMask does, and as each check maps its request and the entries. */
HUDARIN_ANSWERS hudarin_mask hudarin_map_mask(uint32_t mask, hudarin_mapping mapping);

/* ---- Handles, for callers that check often */

/* Keeps the descriptor that the SDDL text spells. The answer's `length` is 0. */
HUDARIN_ANSWERS hudarin_written hudarin_keep_sddl(const char *text, size_t text_length, hudarin_descriptor *descriptor)
    HUDARIN_NONNULL(3);

/* Keeps the descriptor at the front of the bytes. The answer's `length` is 0. */
HUDARIN_ANSWERS hudarin_written hudarin_keep_bytes(const void *bytes, size_t bytes_length,
                                                   hudarin_descriptor *descriptor)
    HUDARIN_NONNULL(3);

/* Keeps the token of a user, groups with their states, restricting SIDs, and privileges, parsed as by hudarin_check.
 * With HUDARIN_OK the answer's `kind` and `mask` are 0. */
HUDARIN_ANSWERS hudarin_verdict hudarin_keep_token(const void *user, size_t user_length,
                                                   const void *groups, size_t groups_length,
                                                   const uint32_t *states, size_t state_count,
                                                   const void *restricting, size_t restricting_length,
                                                   uint32_t privileges, hudarin_token *token)
    HUDARIN_NONNULL(10);

/* The same for a token in its parts. */
static inline HUDARIN_ANSWERS hudarin_verdict hudarin_keep_parts(const hudarin_token_parts *parts, hudarin_token *token)
{
    return hudarin_keep_token(parts->user, parts->user_length, parts->groups, parts->groups_length, parts->states,
                              parts->state_count, parts->restricting, parts->restricting_length, parts->privileges,
                              token);
}

/* The bytes of a kept descriptor's owner. HUDARIN_NO_PART if it has none. */
HUDARIN_ANSWERS hudarin_written hudarin_descriptor_owner(hudarin_descriptor *descriptor, void *room, size_t room_length)
    HUDARIN_NONNULL(1);

/* The same of its group. */
HUDARIN_ANSWERS hudarin_written hudarin_descriptor_group(hudarin_descriptor *descriptor, void *room, size_t room_length)
    HUDARIN_NONNULL(1);

/* The kind of a kept descriptor's DACL, its control bits, and the number of its entries. Takes no memory. */
HUDARIN_ANSWERS hudarin_dacl hudarin_descriptor_dacl(hudarin_descriptor *descriptor)
    HUDARIN_NONNULL(1);

/* The entry at the index, from 0: its kind, flags and mask, and in the buffer its SID's bytes. HUDARIN_NO_PART after
 * the last one, and if there is no list. */
HUDARIN_ANSWERS hudarin_entry hudarin_descriptor_entry(hudarin_descriptor *descriptor, uint64_t index, void *room,
                                                       size_t room_length)
    HUDARIN_NONNULL(1);

/* The bytes of the SID by which the entry at the index applies to a token, as in hudarin_explain: its own, but for
 * OWNER RIGHTS (S-1-3-4) the descriptor's owner. HUDARIN_NO_PART if there is no entry, or for OWNER RIGHTS no owner. */
HUDARIN_ANSWERS hudarin_written hudarin_descriptor_subject(hudarin_descriptor *descriptor, uint64_t index, void *room,
                                                           size_t room_length)
    HUDARIN_NONNULL(1);

/* The verdict on `asked`, for a kept descriptor and a kept token, which stay. Takes no memory. */
HUDARIN_ANSWERS hudarin_verdict hudarin_check_kept(hudarin_descriptor *descriptor, hudarin_token *token,
                                                   hudarin_mapping mapping, uint32_t asked)
    HUDARIN_NONNULL(1, 2);

/* The verdict on `asked`, for the self-relative descriptor at the front of the bytes and a kept token, which stays:
 * what hudarin_keep_bytes and then hudarin_check_kept answer. The token's handle is tested first, then the mapping,
 * then the bytes. Takes no memory. */
HUDARIN_ANSWERS hudarin_verdict hudarin_check_bytes(const void *descriptor, size_t descriptor_length,
                                                    hudarin_token *token, hudarin_mapping mapping, uint32_t asked)
    HUDARIN_NONNULL(3);

/*
 * The verdict on `asked` for an open of an existing file ([MS-FSA] 2.1.5.1.2.1), for a kept token, which stays: what
 * hudarin_check_bytes grants for the self-relative descriptor at the front of `file`; DELETE also where it grants
 * FILE_DELETE_CHILD for that at the front of `parent`, and FILE_READ_ATTRIBUTES where it grants FILE_LIST_DIRECTORY
 * for it. MAXIMUM_ALLOWED takes these in. If `parent_length` is 0 there is no parent, as for a volume's root. The
 * token's handle is tested first, then the mapping, then the file's bytes, then the parent's. Share modes, and backup
 * and restore intent, have no part in it.
 */
HUDARIN_ANSWERS hudarin_verdict hudarin_check_open(const void *file, size_t file_length, const void *parent,
                                                   size_t parent_length, hudarin_token *token,
                                                   hudarin_mapping mapping, uint32_t asked)
    HUDARIN_NONNULL(5);

/* The reasons for hudarin_check_kept's verdict: each bit of the mapped request is in one part, with MAXIMUM_ALLOWED
 * each bit of 0x001fffff too, and the verdict follows from the parts. There are no parts unless the status is
 * HUDARIN_OK. Takes no memory. */
HUDARIN_ANSWERS hudarin_explanation hudarin_explain(hudarin_descriptor *descriptor, hudarin_token *token,
                                                    hudarin_mapping mapping, uint32_t asked)
    HUDARIN_NONNULL(1, 2);

/*
 * Keeps the lines of `sdstore who`: who is granted which rights of `asked` by a kept descriptor, of all tokens that
 * have the groups, which are passed as to hudarin_check; of all rights, if `asked` has MAXIMUM_ALLOWED. A line is as
 * "0x1 to S-1-5-32-545 unless S-1-5-32-546". `lines` is tested first, then the descriptor's handle, then the groups are
 * parsed, then the mapping. With HUDARIN_OK the answer's `kind` and `mask` are 0.
 */
HUDARIN_ANSWERS hudarin_verdict hudarin_who(hudarin_descriptor *descriptor, const void *groups, size_t groups_length,
                                            const uint32_t *states, size_t state_count, hudarin_mapping mapping,
                                            uint32_t asked, hudarin_lines *lines)
    HUDARIN_NONNULL(1, 8);

/* Keeps the lines of `sdstore lint`: what is doubtful in a kept descriptor, where all tokens have the groups, as "entry
 * 2 (A;;FR;;;BU) has no effect"; no line where nothing is. Arguments are tested as in hudarin_who. */
HUDARIN_ANSWERS hudarin_verdict hudarin_lint(hudarin_descriptor *descriptor, const void *groups, size_t groups_length,
                                             const uint32_t *states, size_t state_count, hudarin_mapping mapping,
                                             hudarin_lines *lines)
    HUDARIN_NONNULL(1, 7);

/*
 * Keeps the lines of `sdstore compare`: what tokens that have the groups gain and lose if the new descriptor takes the
 * old one's place. There is one for each token that shows it, as "gained 0x2 by S-1-5-32-545"; then as "new objects:
 * gained 0x2 by S-1-5-32-545" of what is made in it, if it is a container, and whether inheritance is blocked
 * otherwise; no line where nothing changes. Of all tokens, restricted ones and those with privileges too, none gains a
 * bit outside `gained`, nor loses one outside `lost`. Arguments are tested as in hudarin_who, the new descriptor's
 * handle after the old one's.
 */
HUDARIN_ANSWERS hudarin_comparison hudarin_compare(hudarin_descriptor *descriptor, hudarin_descriptor *new_descriptor,
                                                   const void *groups, size_t groups_length, const uint32_t *states,
                                                   size_t state_count, hudarin_mapping mapping, hudarin_lines *lines)
    HUDARIN_NONNULL(1, 2, 8);

/* The number of kept lines: `length`. Takes no memory. */
HUDARIN_ANSWERS hudarin_written hudarin_lines_count(hudarin_lines *lines)
    HUDARIN_NONNULL(1);

/* The line at the index, from 0, as the program prints it, with a newline at its end; unless `is_json` is 0 as an
 * object of JSON, as after `sdstore --json`. HUDARIN_NO_PART after the last one. */
HUDARIN_ANSWERS hudarin_written hudarin_line_print(hudarin_lines *lines, uint64_t index, uint32_t is_json, char *room,
                                                   size_t room_length)
    HUDARIN_NONNULL(1);

/*
 * The value in the line at the index that has this name in JSON; "answer" is the line's kind, a text. Of `unless` and
 * `with` it is the SID at the place, from 0; of any other value the place is 0. The buffer gets the bytes of a SID, or
 * of a text; of a mask and a number nothing. HUDARIN_NO_PART if there is no such line, value or place.
 */
HUDARIN_ANSWERS hudarin_value hudarin_line_value(hudarin_lines *lines, uint64_t index, const char *name,
                                                 size_t name_length, uint64_t place, void *room, size_t room_length)
    HUDARIN_NONNULL(1);

/*
 * Keeps the client of the user whose SID is at the front of `user`, and of words, as of `sdstore --whole verdict`: a
 * group (`BU`, `S-1-5-32-545=deny`), `SID=restrict`, `+security`, `+take`, `user=deny` for HUDARIN_DENY_ONLY_USER, a
 * device's group (`SID=device`), an integrity level (`level=low`), a claim (`@User.Project="VP"`). `words` is UTF-8,
 * with a zero byte after each word, also after the last one. No group is added, and of two claims with one name the
 * first counts. SIDs may have the aliases of the domain whose SID is at the front of `domain`. If `domain_length` is
 * 0 there is no domain. The handle is tested first; then the arguments are parsed in their order. With HUDARIN_OK the
 * answer's `kind` and `mask` are 0.
 */
HUDARIN_ANSWERS hudarin_verdict hudarin_keep_client(const void *domain, size_t domain_length, const void *user,
                                                    size_t user_length, const char *words, size_t words_length,
                                                    hudarin_client *client)
    HUDARIN_NONNULL(7);

/*
 * The verdict on `asked`, for the whole descriptor at the front of the bytes and a kept client, which stays: that of
 * `sdstore --whole verdict`, by entries of every type, conditions, the claims in the SACL and its integrity label.
 * `types` has the object types that are asked about, from the class on, of 16 bytes each as in an entry: at most five.
 * Without one the question is about the whole object. PRINCIPAL SELF (S-1-5-10) stands for the SID at the front of
 * `principal_self`, and for itself if `self_length` is 0. The client's handle is tested first, then the object types,
 * the SID, the mapping and the bytes; HUDARIN_UNDECIDED comes last.
 */
HUDARIN_ANSWERS hudarin_verdict hudarin_check_whole(const void *descriptor, size_t descriptor_length,
                                                    hudarin_client *client, const void *types, size_t types_length,
                                                    const void *principal_self, size_t self_length,
                                                    hudarin_mapping mapping, uint32_t asked)
    HUDARIN_NONNULL(3);

/* The reasons for hudarin_check_whole's verdict of the same arguments, as in hudarin_explain. An `entry` is an index of
 * the DACL, for hudarin_whole_entry. It applies as the plain entry that it is for the question: PRINCIPAL SELF as the
 * SID that it stands for, and OWNER RIGHTS as the owner. */
HUDARIN_ANSWERS hudarin_explanation hudarin_explain_whole(const void *descriptor, size_t descriptor_length,
                                                          hudarin_client *client, const void *types,
                                                          size_t types_length, const void *principal_self,
                                                          size_t self_length, hudarin_mapping mapping, uint32_t asked)
    HUDARIN_NONNULL(3);

/*
 * The verdict on `asked` of each node of a tree of object types, as of Windows' AccessCheckByTypeResultList: that of
 * `sdstore --whole types`. A tree is a class, its property sets and their properties: each node stands after the one
 * above it, with its level. Of a node without others below it, it is hudarin_check_whole's about the types from the
 * class to its own; a node with others is granted what each of those is, and what is missing there is missing on one
 * of them. The verdicts go to the front of the array, in the order of the nodes; the rest of it stays. With
 * HUDARIN_OK the answer's `kind` and `mask` are 0: the array alone has the verdicts. Arguments are tested as by
 * hudarin_check_whole, the nodes in the place of the object types. HUDARIN_UNDECIDED says that it is so for one node,
 * as where an entry of the SACL may deny what the DACL grants there; then none has a verdict. Last comes
 * HUDARIN_ROOM: the array has fewer elements than there are nodes.
 */
HUDARIN_ANSWERS hudarin_verdict hudarin_check_types(const void *descriptor, size_t descriptor_length,
                                                    hudarin_client *client, const hudarin_type_node *nodes,
                                                    size_t node_count, const void *principal_self, size_t self_length,
                                                    hudarin_mapping mapping, uint32_t asked,
                                                    hudarin_type_verdict *verdicts, size_t verdict_count)
    HUDARIN_NONNULL(3);

/*
 * Keeps the accounts of an accounts file's text, which is UTF-8, and those that Windows has everywhere: what sdstore's
 * option --accounts takes. A line is "user SID NAME", "group SID NAME", "member GROUP MEMBER", "primary USER GROUP" or
 * "disabled USER"; empty, or a comment after "#". With HUDARIN_ROW, of a line "incomplete" too, `place` is the number of
 * the first line that is none, from 1. The handle is tested first. The answer's `length` is 0.
 */
HUDARIN_ANSWERS hudarin_written hudarin_keep_accounts(const char *text, size_t text_length, hudarin_accounts *accounts)
    HUDARIN_NONNULL(3);

/*
 * The bytes of the SIDs in the token of a user that logged on, concatenated: first the user's own, then those of the
 * groups that it really has, directly and by other groups, with Everyone (S-1-1-0) and Authenticated Users (S-1-5-11)
 * and theirs, each once. A guest isn't an authenticated user, and who is anonymous is neither. `user` is UTF-8: the name
 * of an account, as "EXAMPLE\alice", or a SID, which may have the aliases of the domain whose SID is at the front of
 * `domain`. If `domain_length` is 0 there is no domain. The handle is tested first; then the arguments are parsed in
 * their order. HUDARIN_ACCOUNT if that is no user, or one that may not log on: nobody is given a token by mistake.
 */
HUDARIN_ANSWERS hudarin_written hudarin_account_sids(hudarin_accounts *accounts, const void *domain,
                                                     size_t domain_length, const char *user, size_t user_length,
                                                     void *room, size_t room_length)
    HUDARIN_NONNULL(1);

/* The users that may log on, in the file's order and after them those that Windows has everywhere: a line for each, its
 * SID in full, a blank, its name, and a newline. No name has a control character. */
HUDARIN_ANSWERS hudarin_written hudarin_account_users(hudarin_accounts *accounts, char *room, size_t room_length)
    HUDARIN_NONNULL(1);

/* Makes `other` another handle of what `handle` keeps, as for another thread: nothing is copied, and the object is
 * freed with its last handle. HUDARIN_HANDLE if `handle` keeps nothing, a store or lines, or `other` is in use. The
 * answer's `length` is 0. The five below do the same for each other kind. */
HUDARIN_ANSWERS hudarin_written hudarin_share(hudarin_kept *handle, hudarin_kept *other)
    HUDARIN_NONNULL(1, 2);

/* Another handle of a descriptor. */
static inline HUDARIN_ANSWERS hudarin_written hudarin_descriptor_share(hudarin_descriptor *handle,
                                                                       hudarin_descriptor *other)
{
    return hudarin_share(&handle->kept, &other->kept);
}

/* Another handle of a token. */
static inline HUDARIN_ANSWERS hudarin_written hudarin_token_share(hudarin_token *handle, hudarin_token *other)
{
    return hudarin_share(&handle->kept, &other->kept);
}

/* Another handle of a client. */
static inline HUDARIN_ANSWERS hudarin_written hudarin_client_share(hudarin_client *handle, hudarin_client *other)
{
    return hudarin_share(&handle->kept, &other->kept);
}

/* Another handle of accounts. */
static inline HUDARIN_ANSWERS hudarin_written hudarin_accounts_share(hudarin_accounts *handle, hudarin_accounts *other)
{
    return hudarin_share(&handle->kept, &other->kept);
}

/* Another handle of a view. */
static inline HUDARIN_ANSWERS hudarin_written hudarin_view_share(hudarin_view *handle, hudarin_view *other)
{
    return hudarin_share(&handle->kept, &other->kept);
}

/* ---- A store. It is a tree of containers and objects, each of which inherits from its parent. It has one handle. A
 * view is its tree as it was published; any number of handles share it, one or more for each thread. A path is UTF-8:
 * "/" for the root, else each name after a "/". */

/* The edits, and the value of each. */

typedef enum hudarin_edit {
    /* Adds a container or an object at the path: a self-relative descriptor with an owner, a group and its own DACL. */
    HUDARIN_EDIT_ADD_CONTAINER = 1,
    HUDARIN_EDIT_ADD_OBJECT = 2,
    /* Sets the node's owner or group: a SID. */
    HUDARIN_EDIT_SET_OWNER = 3,
    HUDARIN_EDIT_SET_GROUP = 4,
    /* Sets the node's own DACL: a self-relative descriptor without an owner and a group. */
    HUDARIN_EDIT_SET_DACL = 5,
    /* Removes a node without children: no value, and any other length than 0 is HUDARIN_EDIT. */
    HUDARIN_EDIT_REMOVE = 6,
    /* Protects the node, and makes what it had inherited its own: no value, and any other length than 0 is
     * HUDARIN_EDIT. */
    HUDARIN_EDIT_PROTECT_KEEPING = 7,
    /* Moves the node and all below it to a free path: that path. */
    HUDARIN_EDIT_MOVE = 8
} hudarin_edit;

/* The limits of what hudarin_store_open opens: the most nodes of the tree, the root counted, and the most edits of the
 * journal. An edit beyond them is HUDARIN_REFUSED_NODES_FULL or HUDARIN_REFUSED_JOURNAL_FULL. */
#define HUDARIN_NODES 65536u
#define HUDARIN_EDITS 1048576u
/* The largest limits. */
#define HUDARIN_NODES_MAX 16777216u
#define HUDARIN_EDITS_MAX 4294967296u

/* Opens a store whose tree is the root alone: a container with the descriptor's owner, group and own DACL. The
 * mapping is that of all nodes. With HUDARIN_OK the answer's `kind` and `mask` are 0. */
HUDARIN_ANSWERS hudarin_verdict hudarin_store_open(const void *root, size_t root_length, hudarin_mapping mapping,
                                                   hudarin_store *store)
    HUDARIN_NONNULL(4);

/* The same within limits: from 1 to HUDARIN_NODES_MAX nodes, and at most HUDARIN_EDITS_MAX edits. The root is parsed
 * first, then the mapping is tested, then the nodes, then the edits. */
HUDARIN_ANSWERS hudarin_verdict hudarin_store_open_within(const void *root, size_t root_length,
                                                          hudarin_mapping mapping, uint64_t nodes, uint64_t edits,
                                                          hudarin_store *store)
    HUDARIN_NONNULL(6);

/* Makes an edit: HUDARIN_EDIT_.., the path of its node, and its value. It joins the store's journal, and is in no
 * view before the next publish. Unless the status is HUDARIN_OK nothing has changed. */
HUDARIN_ANSWERS hudarin_verdict hudarin_store_edit(hudarin_store *store, uint32_t edit, const char *path,
                                                   size_t path_length, const void *value, size_t value_length)
    HUDARIN_NONNULL(1);

/* What hudarin_store_edit would answer to the same arguments; nothing changes. */
HUDARIN_ANSWERS hudarin_verdict hudarin_store_judge(hudarin_store *store, uint32_t edit, const char *path,
                                                    size_t path_length, const void *value, size_t value_length)
    HUDARIN_NONNULL(1);

/*
 * Adds a node, HUDARIN_CONTAINER or HUDARIN_OBJECT, that keeps what it had inherited elsewhere while its container
 * passes down what was passed down there, the offer; otherwise it inherits as any other node. `own` is the value of an
 * edit that adds a node. `kept`, what it had inherited, and `offer` are self-relative descriptors without an owner and
 * a group, each with a list that isn't protected. If the DACL of `own` is null or protected, the node keeps nothing.
 * The path is parsed first, then the kind is tested, HUDARIN_EDIT, then the descriptors are parsed in their order. All
 * else as in hudarin_store_edit.
 */
HUDARIN_ANSWERS hudarin_verdict hudarin_store_add_stored(hudarin_store *store, uint32_t kind, const char *path,
                                                         size_t path_length, const void *own, size_t own_length,
                                                         const void *kept, size_t kept_length,
                                                         const void *offer, size_t offer_length)
    HUDARIN_NONNULL(1);

/* What hudarin_store_add_stored would answer to the same arguments; nothing changes. */
HUDARIN_ANSWERS hudarin_verdict hudarin_store_judge_stored(hudarin_store *store, uint32_t kind, const char *path,
                                                           size_t path_length, const void *own, size_t own_length,
                                                           const void *kept, size_t kept_length,
                                                           const void *offer, size_t offer_length)
    HUDARIN_NONNULL(1);

/* Makes `view` the store's tree with all its edits, which never changes again; `length` is the number of edits. */
HUDARIN_ANSWERS hudarin_written hudarin_store_publish(hudarin_store *store, hudarin_view *view)
    HUDARIN_NONNULL(1, 2);

/* Makes the store's tree and journal those of the view again; `length` is the number of its edits, and later ones are
 * gone. With the last published view this makes several edits all or none. A view of another store brings that
 * store's root, mapping and limits too. Unless the status is HUDARIN_OK nothing has changed. */
HUDARIN_ANSWERS hudarin_written hudarin_store_revert(hudarin_store *store, hudarin_view *view)
    HUDARIN_NONNULL(1, 2);

/*
 * What the next publish changes, for all tokens, at the node of a place: that of the store's tree beside what the last
 * publish or revert left, or beside the root alone. Places from 0 are those of the nodes of the store's tree in path
 * order, and after them of the published nodes in path order; HUDARIN_NO_NODE after the last one. The buffer gets the
 * node's path, and of a moved one the path where it was; a buffer of HUDARIN_PATH_BYTES twice always suffices. `lines`
 * keeps the lines of hudarin_compare without groups, none of what is made in an object: the lines of `review` in
 * `sdstore script`, without a path at the front of each. `lines` is tested first.
 */
HUDARIN_ANSWERS hudarin_review hudarin_store_review(hudarin_store *store, uint64_t place, char *room,
                                                    size_t room_length, hudarin_lines *lines)
    HUDARIN_NONNULL(1, 5);

/* The number of edits in the journal of a store, or of a view: `length`. */
HUDARIN_ANSWERS hudarin_written hudarin_journal_length(hudarin_kept *store_or_view)
    HUDARIN_NONNULL(1);

/* The verdict on `asked`, for the path's node in the view's tree, and the number of that tree's edits. Takes memory
 * for the path. HUDARIN_NO_NODE if there is no node. */
HUDARIN_ANSWERS hudarin_view_verdict hudarin_view_check(hudarin_view *view, const char *path, size_t path_length,
                                                        hudarin_token *token, uint32_t asked)
    HUDARIN_NONNULL(1, 4);

/* The self-relative form of the descriptor of the path's node, with the entries that it inherits. */
HUDARIN_ANSWERS hudarin_written hudarin_view_descriptor(hudarin_view *view, const char *path, size_t path_length,
                                                        void *room, size_t room_length)
    HUDARIN_NONNULL(1);

/* What the path's node was given, without what it inherits: the self-relative form of a descriptor with its owner,
 * its group and its own DACL, the value of an edit that adds it; and its kind. What it keeps that was inherited
 * elsewhere hudarin_view_stored writes. */
HUDARIN_ANSWERS hudarin_node hudarin_view_own(hudarin_view *view, const char *path, size_t path_length, void *room,
                                              size_t room_length)
    HUDARIN_NONNULL(1);

/* The path of the node at this index in path order, and its kind: the root is at 0, and each node at one index, after
 * its parent. HUDARIN_NO_NODE after the last one. */
HUDARIN_ANSWERS hudarin_node hudarin_view_node(hudarin_view *view, uint64_t place, char *room, size_t room_length)
    HUDARIN_NONNULL(1);

/* What the node at this index in path order, as of hudarin_view_node, keeps that was inherited elsewhere: the part
 * HUDARIN_STORED_.., in the form that hudarin_store_add_stored takes. HUDARIN_NO_PART if the node keeps nothing, and
 * HUDARIN_NO_NODE after the last one. It keeps that even while it inherits as any other. */
HUDARIN_ANSWERS hudarin_written hudarin_view_stored(hudarin_view *view, uint64_t place, uint32_t part, void *room,
                                                    size_t room_length)
    HUDARIN_NONNULL(1);

/* ---- The end of a handle */

/* Frees what the handle keeps, if anything. It is HUDARIN_NOTHING after that, and may be used again. */
void hudarin_release(hudarin_kept *handle) HUDARIN_NONNULL(1);

/* The same; NULL is ignored. */
static inline void hudarin_free(hudarin_kept *handle)
{
    if (handle != NULL) {
        hudarin_release(handle);
    }
}

#ifdef __cplusplus
}
#endif

#endif
