/*
 * What the parts of hudarinfs share: the operations ask (asks.c) who may do what (who.c, maps.c, masks.c), of the
 * newest view of the store (store.c), and whether the user has any left of what all share (quotas.c). One writer at a
 * time changes the store (edits.c), what is kept of it (attributes.c or beside.c), and FOLDER itself (folder.c). A tree
 * of descriptors (tree.c) is there at the start alone.
 *
 * A function that answers an int answers 0 or more where it went well, and else a negative error number.
 */
#ifndef HUDARINFS_H
#define HUDARINFS_H

#define FUSE_USE_VERSION 31
#define _FILE_OFFSET_BITS 64

#include <dirent.h>
#include <hudarin.h>
#include <stdbool.h>
#include <stddef.h>
#include <stdint.h>
#include <sys/stat.h>
#include <sys/types.h>

/* The tree holds paths of 64 names, each of 255 bytes and led by a slash; one name more is looked up in vain. */
#define PATH_ROOM (65 * 256 + 1)
#define DEEPEST 64

/* ---- masks.c: which rights of the library's header an operation asks for */

/* What an open with these flags asks of a file. */
uint32_t mask_of_open(int flags);
/* What access(2) asks. */
uint32_t mask_of_access(int how);
/* What a new node asks of its parent. */
uint32_t mask_of_adding(bool is_folder);

/* ---- say.c: the log, on standard error */

void say(const char *format, ...) __attribute__((format(printf, 1, 2)));
/* Whether an operation's lines have the uid and the pid of its caller, from now on. */
void say_serving(bool is);

/* ---- steps.c: a test may end the process at a step of an edit, the one whose number HUDARINFS_STEP tells, counted
 * from steps_begin, or have it wait HUDARINFS_WAIT microseconds where FOLDER has changed and the view hasn't, and
 * before it closes a file. */

#ifdef STEPS
void steps_begin(void);
void step(void);
void linger(void);
#else
#define steps_begin() ((void)0)
#define step() ((void)0)
#define linger() ((void)0)
#endif

/* ---- maps.c: SIDs of users and groups */

struct sid {
    size_t length;
    unsigned char bytes[HUDARIN_SID_BYTES];
};

/* Reads lines `uid N SID` and `gid N SID`. */
int maps_read(const char *path);
struct sid sid_of_uid(uid_t uid);
struct sid sid_of_gid(gid_t gid);
/* The user or the group of a SID, or else `nobody`. */
uid_t uid_of_sid(const struct sid *sid, uid_t nobody);
gid_t gid_of_sid(const struct sid *sid, gid_t nobody);
bool sid_equal(const struct sid *a, const struct sid *b);
/* The SID that the text spells. */
int sid_read(const char *text, struct sid *sid);
/* Writes its text with a zero behind it. */
int sid_text(const struct sid *sid, char room[HUDARIN_SID_TEXT_BYTES + 1]);

/* ---- who.c: the process that calls */

struct who;
/* Who calls, with a token; it stands until the thread's next call of this. */
int who_calls(struct who **who);
hudarin_token *who_token(struct who *who);
const struct sid *who_user(const struct who *who);
/* Also where nobody is asked, in the program without checks. */
bool who_is_root(const struct who *who);
struct sid who_group(const struct who *who);
/* Whether the SID is the user's, or that of one of the groups. */
bool who_has(const struct who *who, const struct sid *sid);

/* ---- tree.c: what was given to each node, as the start reads it. Behind that the store has it. */

struct parts {
    char *owner; /* SIDs as texts */
    char *group;
    char *dacl; /* `D:` and the own entries, in SDDL */
};

struct node {
    char *name;
    bool is_folder;
    struct parts given;
    struct node *parent;
    struct node **children; /* by their names' bytes */
    size_t count;
    size_t room;
};

bool parts_make(struct parts *parts, const char *owner, const char *group, const char *dacl);
void parts_free(struct parts *parts);
/* The parts of a canonical text; those that it lacks stay NULL. The caller frees them, whatever the answer. */
bool parts_split(const char *text, struct parts *parts);
/* A text of the whole, to be freed, or NULL. */
char *parts_text(const struct parts *parts);
/* A node without a parent, or NULL; it takes a copy of the parts. */
struct node *node_make(const char *name, size_t length, bool is_folder, const struct parts *parts);
/* Frees the node with all below it; it stands in no parent any more. */
void node_free(struct node *node);
struct node *node_child(const struct node *parent, const char *name, size_t length);
struct node *tree_at(struct node *root, const char *path);
/* Room for one more child, so that node_join can't fail. */
bool node_reserve(struct node *parent);
void node_join(struct node *parent, struct node *child);
void node_leave(struct node *child);
/* The node goes below `parent`, which has room, by that name, which it takes over, in place of the node `replaced`,
 * where that isn't NULL. */
void tree_move(struct node *moved, struct node *parent, char *name, struct node *replaced);
/* The path's last name, and in `parent` the path before it. */
const char *path_split(const char *path, char parent[PATH_ROOM]);

/* ---- store.c: the library's store, and the view that checks ask */

/* A store of the tree's nodes, whose view is shown; what no path can spell is left out of the tree. */
int store_build(struct node *root);
/* An edit of the store, which nobody sees before store_show. */
int store_edit(uint32_t edit, const char *path, const void *value, size_t length);
/* The edit that adds a node, or sets a part. */
int store_add(const char *path, bool is_folder, const struct parts *parts);
int store_set(uint32_t edit, const char *path, const char *text);
/* Makes the view that store_show shows; that can't fail. */
int store_ready(void);
void store_show(void);
/* The edits since the last store_show are undone. */
void store_undo(void);
/* No edit is made any more. */
void store_close(const char *why);
/* How many edits the store has. */
uint64_t store_length(void);
/* The store's journal begins anew with the nodes that are there, where memory suffices. No edit has been made since store_show. */
void store_renew(void);
/* The writer's views: that of store_ready, and that of the last store_show. */
hudarin_view *store_next(void);
hudarin_view *store_shown(void);
/* Whether the node that is shown there is a folder: 1 or 0. */
int store_is_folder(const char *path);

/* A node of a view, and the bytes of what was given to it, which stand until the writer's next call. */
struct told {
    char path[PATH_ROOM];
    bool is_folder;
    const unsigned char *own;
    size_t length;
};

/* The node at a place of the writer's view: -ENOENT behind the last. */
int node_told(hudarin_view *view, uint64_t place, struct told *told);
/* The node at the path, which stands in `told` already. */
int own_told(hudarin_view *view, struct told *told);
/* The owner of the node that is shown at the path. */
int store_owner(const char *path, struct sid *owner);
/* The SID at the offset that the four bytes at `place` of a self-relative descriptor give: empty if none is there. */
struct sid sid_at(const unsigned char *bytes, size_t length, size_t place);
/* Whether the path is `top`, or below it. */
bool is_below(const char *path, const char *top);
/* How many bytes the longest descriptor at `top` and below has, with what it inherits, and at which path it is. Nothing
 * is below a new node, which is measured without a walk of the view. */
int store_longest(hudarin_view *view, const char *top, bool is_new, char longest[PATH_ROOM]);
/* The same, for the log. */
void store_name_longest(hudarin_view *view, const char *top);
int view_share(hudarin_view *view);
/* A negative error number for a status that isn't HUDARIN_OK. */
int error_of(uint32_t status, uint32_t fault);
const char *status_name(uint32_t status);
/* The canonical text of a descriptor, with a zero behind it, to be freed: in `text`. */
int text_of_bytes(const void *bytes, size_t length, char **text);
int text_of_text(const char *given, size_t length, char **text);

/* ---- What keeps each node's own parts, so that a start finds them */

/* Each call but `begin` carries out an edit that store_ready has made ready: it keeps it, changes FOLDER and shows the
 * view; or all is as it was, and FOLDER's and the store's edit are to be undone. */
struct keeper {
    /* Keeps the tree that the start has built. */
    int (*begin)(void);
    /* FOLDER gets the file, whose descriptor is the answer, or the folder. */
    int (*make)(const char *path, bool is_folder, int flags);
    int (*drop)(const char *path, bool is_folder);
    /* `keeps`: the node's own parts are others at its new path. */
    int (*move)(const char *from, const char *to, bool keeps);
    /* The node's own parts are others. */
    int (*give)(const char *path);
};

/* ---- attributes.c: an attribute of each of FOLDER's own files and folders */

extern const struct keeper keeper_attributes;
/* Whether FOLDER itself has the attribute: 1 or 0; -ENOTSUP where its file system keeps none. */
int attributes_are_there(void);
/* What is open there was given by its attribute: 1 with the parts, to be freed, or 0. */
int attribute_read(int fd, struct parts *parts);

/* ---- beside.c: a file beside FOLDER */

extern const struct keeper keeper_beside;
int beside_open(const char *folder);
int beside_is_there(void);
/* The tree that is kept, or NULL where no file is there. */
int beside_read(struct node **root);

/* ---- folder.c: FOLDER itself, below a descriptor that is held; no symlink is followed */

int folder_open(const char *path);
/* Opens the file or folder at the path; what is neither is EACCES. */
int folder_at(const char *path, int flags);
int folder_stat(const char *path, struct stat *found);
/* Makes a file, and answers its descriptor, or a folder, and answers 0. */
int folder_make(const char *path, bool is_folder, int flags);
int folder_remove(const char *path, bool is_folder);
int folder_move(const char *from, const char *to);
/* Syncs the folder that holds the path. */
int folder_sync(const char *path);
/* A new file or folder in FOLDER, open, at a name that no path can spell. */
int folder_stage(bool is_folder, int flags);
/* What was staged goes to the path, where nothing stands. */
int folder_place(const char *path);
/* What was staged goes, where it is there. */
void folder_unstage(void);
/* The tree of what FOLDER has. A node was given what `known` has of it or, where that is NULL and `by_attributes`, what
 * its attribute has; else, where `adopts`, it is a new node of root's, and -ENODATA where not. */
int folder_scan(struct node *known, bool by_attributes, bool adopts, const struct parts *root, struct node **found);

/* ---- asks.c: checks */

struct asking {
    hudarin_view view;
    struct who *who;
};

/* The caller, and a share of the newest view. */
int asking_begin(struct asking *asking);
void asking_end(struct asking *asking);
/* 0 where the whole mask is granted. The log says what this one denies, and those below. */
int asks(struct asking *asking, const char *path, uint32_t mask);
/* Whether the whole mask is granted at the path, and at all that is below it; the log says nothing. */
bool asks_all(struct asking *asking, const char *path, uint32_t mask);
/* 0 where a node stands there. */
int asks_node(struct asking *asking, const char *path);
/* 0 where the caller may see that the node is there. */
int asks_seen(struct asking *asking, const char *path, bool is_folder);
/* libfuse asks for the attributes of what a call has made before it answers that call, and who made it is told them,
 * whatever else is granted: notes the path, where the call went well, and answers its result. */
int made_by(const char *path, int result);
/* Whether this thread's last call made what stands there; once. */
bool made_is(const char *path);
/* 0 where the caller may delete it. */
int asks_delete(struct asking *asking, const char *path);
/* begins, asks, and ends. */
int asks_once(const char *path, uint32_t mask);
/* The node's descriptor in a room that is the thread's; how long it is. */
int descriptor_of(struct asking *asking, const char *path, const unsigned char **bytes);
/* Who the owner and the group are, as far as they are users and groups of this machine. */
int owners_of(struct asking *asking, const char *path, struct stat *found);

/* ---- quotas.c: how much a user may take of what all share */

/* Raises the limit of descriptors; a user may have `most` files open, or half of what there is for all. */
int opens_begin(uint64_t most);
/* One more open of the user's: -EMFILE where it has too many, or all have. */
int open_take(uid_t uid);
void open_give_back(uid_t uid);
/* The descriptor is of that user's open. */
void open_is(int fd, uid_t uid);
uid_t opener_of(int fd);
void nodes_begin(uint64_t most);
/* Whether one more node may be the owner's, -EDQUOT where it has too many, and -ENOSPC for a new one that is reserved
 * for root. nodes_count of this owner can't fail then. */
int nodes_may(const struct sid *owner, bool is_root, bool is_new);
int nodes_count(const struct sid *owner, int by);

/* ---- edits.c: what changes the tree */

/* Counts the nodes that are shown, too. */
int edits_open(uint64_t journal_limit, const struct keeper *kept_by);
int edit_create(const char *path, bool is_folder, int flags);
int edit_remove(const char *path, bool is_folder);
int edit_rename(const char *from, const char *to, unsigned int flags);
int edit_owners(const char *path, uid_t uid, gid_t gid);
int edit_descriptor(const char *path, const char *text);

/* ---- mounts.c: before MOUNT is mounted */

/* /proc has to number processes as this one's namespace does, since who.c reads it. */
int proc_is_ours(void);
/* Unmounts what a server that was killed has left at MOUNT. */
void unmount_dead(const char *mount);

/* ---- serve.c: MOUNT, from the mount to its end */

/* Serves until MOUNT is unmounted, which is 0, or a signal comes, whose number is the answer. */
int serve(const char *mount);

/* ---- operations.c: what FUSE calls */

struct fuse_operations;
const struct fuse_operations *operations(void);

#endif
