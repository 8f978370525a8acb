/* FOLDER itself. Each path is opened below a descriptor that is held, by a call of Linux that follows no symlink. */
#include "hudarinfs.h"

#include <errno.h>
#include <fcntl.h>
#include <linux/openat2.h>
#include <stdio.h>
#include <stdlib.h>
#include <string.h>
#include <sys/file.h>
#include <sys/syscall.h>
#include <unistd.h>

static int folder = -1;

/* FOLDER has to be open to nobody but its owner, who has to be the server's: or files could be had without a check. */
int folder_open(const char *path)
{
    struct stat found;
    folder = open(path, O_RDONLY | O_DIRECTORY | O_CLOEXEC);
    if (folder < 0 || fstat(folder, &found) != 0) {
        return -errno;
    }
    if ((found.st_mode & 077) != 0 || found.st_uid != geteuid()) {
        say("%s is open to others: chmod 700, and chown it", path);
        return -EPERM;
    }
    if (flock(folder, LOCK_EX | LOCK_NB) != 0) {
        say("%s is served already", path);
        return -errno;
    }
    return 0;
}

static int open_below(const char *path, int flags, mode_t mode)
{
    struct open_how how = {
        .flags = (uint64_t)(unsigned int)flags | O_CLOEXEC | O_NOFOLLOW,
        .mode = mode,
        .resolve = RESOLVE_BENEATH | RESOLVE_NO_SYMLINKS | RESOLVE_NO_MAGICLINKS | RESOLVE_NO_XDEV,
    };
    const char *below = path[1] == '\0' ? "." : path + 1;
    long fd = syscall(SYS_openat2, folder, below, &how, sizeof how);
    return fd < 0 ? -errno : (int)fd;
}

/* The folder that holds the path, and its last name. */
static int open_parent(const char *path, const char **name)
{
    char above[PATH_ROOM];
    *name = path_split(path, above);
    return open_below(above, O_RDONLY | O_DIRECTORY, 0);
}

int folder_at(const char *path, int flags)
{
    struct stat found;
    int fd = open_below(path, flags | O_NONBLOCK | O_NOCTTY, 0);
    if (fd < 0) {
        return fd == -ELOOP ? -EACCES : fd;
    }
    if (fstat(fd, &found) != 0 || !(S_ISREG(found.st_mode) || S_ISDIR(found.st_mode))) {
        (void)close(fd);
        return -EACCES;
    }
    return fd;
}

int folder_stat(const char *path, struct stat *found)
{
    const char *name;
    if (path[1] == '\0') {
        return fstat(folder, found) == 0 ? 0 : -errno;
    }
    int parent = open_parent(path, &name);
    if (parent < 0) {
        return parent;
    }
    int result = fstatat(parent, name, found, AT_SYMLINK_NOFOLLOW) == 0 ? 0 : -errno;
    (void)close(parent);
    return result;
}

int folder_make(const char *path, bool is_folder, int flags)
{
    const char *name;
    int parent = open_parent(path, &name);
    if (parent < 0) {
        return parent;
    }
    int result = is_folder ? mkdirat(parent, name, 0700)
                           : openat(parent, name, flags | O_CREAT | O_EXCL | O_NOFOLLOW | O_CLOEXEC, 0600);
    result = result < 0 ? -errno : result;
    (void)close(parent);
    return result;
}

/* No path can spell it, as it isn't UTF-8. */
#define STAGED ".hudarin\xff"

int folder_stage(bool is_folder, int flags)
{
    int how = is_folder ? O_RDONLY | O_DIRECTORY : flags | O_CREAT | O_EXCL;
    if (is_folder && mkdirat(folder, STAGED, 0700) != 0) {
        return -errno;
    }
    int fd = openat(folder, STAGED, how | O_NOFOLLOW | O_CLOEXEC, 0600);
    return fd < 0 ? -errno : fd;
}

int folder_place(const char *path)
{
    const char *name;
    int parent = open_parent(path, &name);
    if (parent < 0) {
        return parent;
    }
    int result = renameat2(folder, STAGED, parent, name, RENAME_NOREPLACE) == 0 ? 0 : -errno;
    (void)close(parent);
    return result;
}

void folder_unstage(void)
{
    if (unlinkat(folder, STAGED, 0) != 0) {
        (void)unlinkat(folder, STAGED, AT_REMOVEDIR);
    }
}

int folder_remove(const char *path, bool is_folder)
{
    const char *name;
    int parent = open_parent(path, &name);
    if (parent < 0) {
        return parent;
    }
    int result = unlinkat(parent, name, is_folder ? AT_REMOVEDIR : 0) == 0 ? 0 : -errno;
    (void)close(parent);
    return result;
}

int folder_move(const char *from, const char *to)
{
    const char *old_name, *new_name;
    int source = open_parent(from, &old_name);
    if (source < 0) {
        return source;
    }
    int target = open_parent(to, &new_name);
    int result = target;
    if (target >= 0) {
        result = renameat(source, old_name, target, new_name) == 0 ? 0 : -errno;
        (void)close(target);
    }
    (void)close(source);
    return result;
}

int folder_sync(const char *path)
{
    const char *name;
    int parent = open_parent(path, &name);
    if (parent < 0) {
        return parent;
    }
    int result = fsync(parent) == 0 ? 0 : -errno;
    (void)close(parent);
    return result;
}

/* ---- The tree at the start */

struct scan {
    bool by_attributes;
    const struct parts *root; /* a new node's owner and group */
    unsigned long unknown, known;
};

static int scan_below(struct scan *scan, struct node *node, struct node *known, int fd, unsigned depth);

/* A copy of what was given to a node: what is known of it, or what its attribute tells; else it is a new one of root's. */
static int given_to(struct scan *scan, const struct node *known, int fd, const char *name, struct parts *given)
{
    int told = known != NULL ? 1 : 0;
    if (scan->by_attributes) {
        told = attribute_read(fd, given);
    } else if (known != NULL && !parts_make(given, known->given.owner, known->given.group, known->given.dacl)) {
        return -ENOMEM;
    }
    if (told == 0) {
        scan->unknown++;
        if (scan->unknown <= 10) {
            say("nothing is kept of the name %s", name);
        }
        return parts_make(given, scan->root->owner, scan->root->group, "D:") ? 0 : -ENOMEM;
    }
    scan->known += told > 0 ? 1 : 0;
    return told < 0 ? told : 0;
}

/* What is open there joins the parent by that name. */
static int join_node(struct scan *scan, struct node *parent, const struct node *known, int fd, const char *name,
                     bool is_folder)
{
    struct parts given = { NULL, NULL, NULL };
    int result = given_to(scan, known, fd, name, &given);
    struct node *node = result < 0 ? NULL : node_make(name, strlen(name), is_folder, &given);
    parts_free(&given);
    if (node == NULL || !node_reserve(parent)) {
        node_free(node);
        say("%s: what was given to it isn't read", name);
        return result < 0 ? result : -ENOMEM;
    }
    node_join(parent, node);
    return 0;
}

/* A name that FOLDER has: it joins the node, with what is known of it, where its kind is the same. */
static int scan_name(struct scan *scan, struct node *parent, struct node *known, int fd, const char *name,
                     unsigned depth)
{
    struct stat found;
    if (fstatat(fd, name, &found, AT_SYMLINK_NOFOLLOW) != 0) {
        return -errno;
    }
    bool is_folder = S_ISDIR(found.st_mode);
    if ((!is_folder && !S_ISREG(found.st_mode)) || depth > DEEPEST) {
        say("%s is left out: neither a file nor a folder, or too deep", name);
        return 0;
    }
    struct node *same = known == NULL ? NULL : node_child(known, name, strlen(name));
    if (same != NULL && same->is_folder != is_folder) {
        same = NULL;
    }
    int below = openat(fd, name, O_RDONLY | O_NONBLOCK | O_NOCTTY | O_NOFOLLOW | O_CLOEXEC);
    if (below < 0) {
        return -errno;
    }
    int result = join_node(scan, parent, same, below, name, is_folder);
    if (result < 0 || !is_folder) {
        (void)close(below);
        return result;
    }
    return scan_below(scan, node_child(parent, name, strlen(name)), same, below, depth);
}

/* Closes the descriptor. */
static int scan_below(struct scan *scan, struct node *node, struct node *known, int fd, unsigned depth)
{
    int result = 0;
    DIR *listing = fdopendir(fd);
    if (listing == NULL) {
        (void)close(fd);
        return -ENOMEM;
    }
    errno = 0;
    for (struct dirent *entry = readdir(listing); entry != NULL && result == 0; entry = readdir(listing)) {
        if (strcmp(entry->d_name, ".") != 0 && strcmp(entry->d_name, "..") != 0) {
            result = scan_name(scan, node, known, fd, entry->d_name, depth + 1);
        }
        errno = 0;
    }
    result = result == 0 && errno != 0 ? -errno : result;
    (void)closedir(listing);
    return result;
}

/* The root's node: without anything kept of it the policy holds. */
static struct node *scan_root(const struct scan *scan, const struct node *known)
{
    struct parts given = { NULL, NULL, NULL };
    int told = scan->by_attributes ? attribute_read(folder, &given) : 0;
    struct node *top = NULL;
    if (told >= 0) {
        top = node_make("", 0, true, told > 0 ? &given : known != NULL ? &known->given : scan->root);
    } else {
        say("/: what was given to it isn't read: %s", strerror(-told));
    }
    parts_free(&given);
    return top;
}

/* A restore without descriptors may have brought names of which nothing is kept: the policy isn't meant for these. */
static int refuse_unknown(const struct scan *scan, bool is_kept)
{
    if (scan->unknown > 0) {
        say("nothing is kept of %lu names of FOLDER: -u gives them to root, and they inherit", scan->unknown);
        return -ENODATA;
    }
    if (scan->known > 0 && !is_kept) {
        say("nothing is kept of FOLDER itself, and something of %lu names in it: -u gives it the policy", scan->known);
        return -ENODATA;
    }
    return 0;
}

int folder_scan(struct node *known, bool by_attributes, bool adopts, const struct parts *root, struct node **found)
{
    struct scan scan = { by_attributes, root, 0, 0 };
    bool is_kept = known != NULL || (by_attributes && attributes_are_there() == 1);
    int fd = open_below("/", O_RDONLY | O_DIRECTORY, 0);
    struct node *top = scan_root(&scan, known);
    if (fd < 0 || top == NULL) {
        if (fd >= 0) {
            (void)close(fd);
        }
        node_free(top);
        return fd < 0 ? fd : -EINVAL;
    }
    int result = scan_below(&scan, top, known, fd, 0);
    result = result < 0 || adopts ? result : refuse_unknown(&scan, is_kept);
    if (result < 0) {
        node_free(top);
        return result;
    }
    if (scan.unknown > 0) {
        say("nothing was kept of %lu names of FOLDER: they are root's, and inherit", scan.unknown);
    }
    *found = top;
    return 0;
}
