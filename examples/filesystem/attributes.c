/*
 * The keeper by attributes: each of FOLDER's own files and folders has what was given to it, a descriptor in bytes, in
 * an extended attribute, which moves and goes with it. So each change of FOLDER is one call that the file system makes
 * whole; only a rename that keeps its entries is two.
 */
#include "hudarinfs.h"

#include <errno.h>
#include <fcntl.h>
#include <stdlib.h>
#include <string.h>
#include <sys/xattr.h>
#include <unistd.h>

#define NAME "user.hudarin.own"

/* How long the attribute is: -ENODATA where it isn't there. */
static int length_of(int fd)
{
    ssize_t length = fgetxattr(fd, NAME, NULL, 0);
    return length < 0 ? -errno : (int)length;
}

int attributes_are_there(void)
{
    int fd = folder_at("/", O_RDONLY | O_DIRECTORY);
    if (fd < 0) {
        return fd;
    }
    int length = length_of(fd);
    (void)close(fd);
    return length == -ENODATA ? 0 : length < 0 ? length : 1;
}

/* ---- Reading */

static int parts_of(const void *bytes, size_t length, struct parts *parts)
{
    char *text = NULL;
    int result = text_of_bytes(bytes, length, &text);
    if (result < 0) {
        return result;
    }
    bool is_read = parts_split(text, parts);
    free(text);
    return is_read && parts->owner != NULL && parts->group != NULL && parts->dacl != NULL ? 1 : -EINVAL;
}

int attribute_read(int fd, struct parts *parts)
{
    int length = length_of(fd);
    if (length < 0) {
        return length == -ENODATA ? 0 : length;
    }
    /* (a byte more, so that no length asks malloc for nothing) */
    char *bytes = malloc((size_t)length + 1);
    if (bytes == NULL) {
        return -ENOMEM;
    }
    ssize_t read = fgetxattr(fd, NAME, bytes, (size_t)length);
    int result = read < 0 ? -errno : parts_of(bytes, (size_t)read, parts);
    free(bytes);
    return result;
}

/* ---- Writing */

/* The attribute is what was given to the node, or what it was. */
static int attribute_set(int fd, const struct told *told)
{
    if (fsetxattr(fd, NAME, told->own, told->length, 0) != 0) {
        int error = errno;
        say("%s: its descriptor isn't kept: %s", told->path, strerror(error));
        return -error;
    }
    step();
    return 0;
}

static int sync_of(int fd)
{
    return fsync(fd) == 0 ? 0 : -errno;
}

static int told_at(hudarin_view *view, const char *path, struct told *told)
{
    size_t length = strlen(path);
    if (length >= sizeof told->path) {
        return -ENAMETOOLONG;
    }
    memcpy(told->path, path, length + 1);
    return own_told(view, told);
}

/* The attribute is what the view tells of the node. */
static int set_by(hudarin_view *view, int fd, const char *path)
{
    struct told told;
    int result = told_at(view, path, &told);
    return result < 0 ? result : attribute_set(fd, &told);
}

/* A node that has no attribute yet gets it. */
static int begin_node(const struct told *told)
{
    int fd = folder_at(told->path, O_RDONLY);
    if (fd < 0) {
        return fd;
    }
    int length = length_of(fd);
    int result = length == -ENODATA ? attribute_set(fd, told) : length < 0 ? length : 0;
    (void)close(fd);
    return result;
}

/* All of FOLDER's file system is on the disk. */
static int sync_all(void)
{
    int fd = folder_at("/", O_RDONLY | O_DIRECTORY);
    if (fd < 0) {
        return fd;
    }
    int result = syncfs(fd) == 0 ? 0 : -errno;
    (void)close(fd);
    return result;
}

static int begin(void)
{
    struct told told;
    int result = 0;
    for (uint64_t place = 0; result == 0; place++) {
        result = node_told(store_shown(), place, &told);
        result = result < 0 ? result : begin_node(&told);
    }
    return result == -ENOENT ? sync_all() : result; /* (behind the last node none is told) */
}

/* ---- The steps of each change, behind store_ready */

/* What is staged gets its attribute, and goes to its path. */
static int place(int fd, const char *path)
{
    int result = set_by(store_next(), fd, path);
    result = result < 0 ? result : sync_of(fd);
    step();
    return result < 0 ? result : folder_place(path);
}

static int make(const char *path, bool is_folder, int flags)
{
    folder_unstage();
    int fd = folder_stage(is_folder, flags);
    if (fd < 0) {
        return fd;
    }
    step();
    int result = place(fd, path);
    step();
    linger();
    if (result < 0) {
        folder_unstage();
    } else {
        store_show();
    }
    if (result < 0 || is_folder) {
        (void)close(fd);
    }
    return result < 0 ? result : is_folder ? 0 : fd;
}

/* Shows the view where FOLDER has changed. */
static int show_behind(int changed)
{
    step();
    linger();
    if (changed == 0) {
        store_show();
    }
    return changed;
}

static int drop(const char *path, bool is_folder)
{
    return show_behind(folder_remove(path, is_folder));
}

/* Between the two changes of FOLDER a crash leaves the node with the entries that it had, as its own, where it was. */
static int move_kept(int fd, const char *from, const char *to)
{
    struct told told;
    int result = told_at(store_next(), to, &told);
    result = result < 0 ? result : attribute_set(fd, &told);
    result = result < 0 ? result : sync_of(fd);
    step();
    result = result < 0 ? result : folder_move(from, to);
    if (result < 0 && set_by(store_shown(), fd, from) < 0) {
        store_close("an attribute may have entries of a move that wasn't made");
    }
    return result;
}

static int move(const char *from, const char *to, bool keeps)
{
    if (!keeps) {
        return show_behind(folder_move(from, to));
    }
    int fd = folder_at(from, O_RDONLY);
    if (fd < 0) {
        return fd;
    }
    int result = move_kept(fd, from, to);
    (void)close(fd);
    return show_behind(result);
}

static int give(const char *path)
{
    int fd = folder_at(path, O_RDONLY);
    if (fd < 0) {
        return fd;
    }
    int result = set_by(store_next(), fd, path);
    if (result == 0) {
        result = sync_of(fd);
        if (result < 0 && set_by(store_shown(), fd, path) < 0) {
            store_close("an attribute may tell of an edit that wasn't made");
        }
    }
    (void)close(fd);
    return show_behind(result);
}

const struct keeper keeper_attributes = { begin, make, drop, move, give };
