/* What FUSE calls: each operation asks for its mask, and works on FOLDER where that is granted. */
#include "hudarinfs.h"

#include <errno.h>
#include <fcntl.h>
#include <fuse.h>
#include <stdlib.h>
#include <string.h>
#include <sys/statvfs.h>
#include <unistd.h>

#define NAME_OF_TEXT "user.hudarin.sddl"
#define NAME_OF_BYTES "user.hudarin.descriptor"

/* An open file: its descriptor in the lower half, and above it what its open was granted. */
static uint64_t handle_of(int fd, uint32_t granted)
{
    return (uint64_t)granted << 32 | (uint32_t)fd;
}

static int fd_of(const struct fuse_file_info *info)
{
    return (int)(uint32_t)info->fh;
}

static uint32_t granted_of(const struct fuse_file_info *info)
{
    return (uint32_t)(info->fh >> 32);
}

static int result_of(int result)
{
    return result < 0 ? -errno : 0;
}

/* ---- What is there */

/* No bit of a mode decides anything here, so all are shown; who may what is for the descriptor to say. */
static void show_mode(struct stat *found)
{
    found->st_mode = (found->st_mode & S_IFMT) | 0777;
}

static int stat_seen(const char *path, struct stat *found)
{
    struct asking asking;
    bool is_made = made_is(path);
    int result = asking_begin(&asking);
    result = result < 0 ? result : asks_node(&asking, path);
    result = result < 0 ? result : folder_stat(path, found);
    if (result == 0 && !is_made) {
        result = asks_seen(&asking, path, S_ISDIR(found->st_mode));
    }
    result = result < 0 ? result : owners_of(&asking, path, found);
    asking_end(&asking);
    return result;
}

static int op_getattr(const char *path, struct stat *found, struct fuse_file_info *info)
{
    int result;
    if (path == NULL) {
        result = info == NULL ? -ENOENT : result_of(fstat(fd_of(info), found));
        found->st_uid = 65534;
        found->st_gid = 65534;
    } else {
        result = stat_seen(path, found);
    }
    show_mode(found);
    return result;
}

static int op_access(const char *path, int how)
{
    uint32_t mask = mask_of_access(how);
    return mask == 0 ? 0 : asks_once(path, mask);
}

static int op_statfs(const char *path, struct statvfs *found)
{
    (void)path;
    int fd = folder_at("/", O_RDONLY | O_DIRECTORY);
    if (fd < 0) {
        return fd;
    }
    int result = result_of(fstatvfs(fd, found));
    (void)close(fd);
    return result;
}

/* ---- Folders */

static int op_opendir(const char *path, struct fuse_file_info *info)
{
    info->fh = 0;
    return asks_once(path, HUDARIN_FILE_READ_DATA);
}

/* Names that the view doesn't know aren't listed: symlinks, special files, and what came without the server. */
static int list_known(struct asking *asking, const char *path, DIR *listing, void *room, fuse_fill_dir_t fill)
{
    char below[PATH_ROOM + 256];
    size_t length = path[1] == '\0' ? 0 : strlen(path);
    memcpy(below, path, length);
    below[length] = '/';
    errno = 0;
    for (struct dirent *entry = readdir(listing); entry != NULL; entry = readdir(listing)) {
        bool is_dots = strcmp(entry->d_name, ".") == 0 || strcmp(entry->d_name, "..") == 0;
        struct stat kind = { .st_mode = (mode_t)entry->d_type << 12, .st_ino = entry->d_ino };
        memcpy(below + length + 1, entry->d_name, strlen(entry->d_name) + 1);
        bool is_known = is_dots || asks_node(asking, below) == 0;
        if (is_known && fill(room, entry->d_name, &kind, 0, 0) != 0) {
            return -ENOMEM;
        }
        errno = 0;
    }
    return -errno;
}

static int list_path(const char *path, void *room, fuse_fill_dir_t fill)
{
    struct asking asking;
    int fd = folder_at(path, O_RDONLY | O_DIRECTORY);
    if (fd < 0) {
        return fd;
    }
    DIR *listing = fdopendir(fd);
    if (listing == NULL) {
        (void)close(fd);
        return -ENOMEM;
    }
    int result = asking_begin(&asking);
    result = result < 0 ? result : list_known(&asking, path, listing, room, fill);
    asking_end(&asking);
    (void)closedir(listing);
    return result;
}

static int op_readdir(const char *path, void *room, fuse_fill_dir_t fill, off_t offset, struct fuse_file_info *info,
                      enum fuse_readdir_flags flags)
{
    (void)offset;
    (void)info;
    (void)flags;
    return path == NULL ? -ENOENT : list_path(path, room, fill);
}

static int op_mkdir(const char *path, mode_t mode)
{
    (void)mode;
    return made_by(path, edit_create(path, true, 0));
}

static int op_rmdir(const char *path)
{
    return edit_remove(path, true);
}

static int op_rename(const char *from, const char *to, unsigned int flags)
{
    return edit_rename(from, to, flags);
}

/* ---- Files */

/* The descriptor is an open file of the caller's, whose quota has one less; or the answer is the error that `fd` is. */
static int opened(int fd, uid_t uid, struct fuse_file_info *info)
{
    if (fd < 0) {
        open_give_back(uid);
        return fd;
    }
    uint32_t mask = mask_of_open(info->flags);
    open_is(fd, uid);
    info->fh = handle_of(fd, mask);
    /* Pages that are mapped and written could reach the file by another's handle, and not at its end. */
    info->direct_io = (mask & (HUDARIN_FILE_APPEND_DATA | HUDARIN_FILE_WRITE_DATA)) == HUDARIN_FILE_APPEND_DATA;
    return 0;
}

static int op_open(const char *path, struct fuse_file_info *info)
{
    uid_t uid = fuse_get_context()->uid;
    int asked = asks_once(path, mask_of_open(info->flags));
    asked = asked < 0 ? asked : open_take(uid);
    if (asked < 0) {
        return asked;
    }
    return opened(folder_at(path, info->flags & (O_ACCMODE | O_APPEND | O_TRUNC)), uid, info);
}

static int op_create(const char *path, mode_t mode, struct fuse_file_info *info)
{
    (void)mode;
    uid_t uid = fuse_get_context()->uid;
    int taken = open_take(uid);
    if (taken < 0) {
        return taken;
    }
    return opened(made_by(path, edit_create(path, false, info->flags & (O_ACCMODE | O_APPEND))), uid, info);
}

static int op_mknod(const char *path, mode_t mode, dev_t device)
{
    (void)device;
    if (!S_ISREG(mode)) {
        return -EPERM;
    }
    int fd = made_by(path, edit_create(path, false, O_WRONLY));
    return fd < 0 ? fd : result_of(close(fd));
}

static int op_read(const char *path, char *room, size_t size, off_t offset, struct fuse_file_info *info)
{
    (void)path;
    ssize_t count = pread(fd_of(info), room, size, offset);
    return count < 0 ? -errno : (int)count;
}

static int op_write(const char *path, const char *bytes, size_t size, off_t offset, struct fuse_file_info *info)
{
    (void)path;
    ssize_t count = pwrite(fd_of(info), bytes, size, offset);
    return count < 0 ? -errno : (int)count;
}

static int op_truncate(const char *path, off_t size, struct fuse_file_info *info)
{
    if (info != NULL && (granted_of(info) & HUDARIN_FILE_WRITE_DATA) == 0) {
        say("a file that was opened without 0x2 isn't truncated");
        return -EACCES;
    }
    if (info != NULL) {
        return result_of(ftruncate(fd_of(info), size));
    }
    int asked = asks_once(path, HUDARIN_FILE_WRITE_DATA);
    int fd = asked < 0 ? asked : folder_at(path, O_WRONLY);
    if (fd < 0) {
        return fd;
    }
    int result = result_of(ftruncate(fd, size));
    (void)close(fd);
    return result;
}

static int op_utimens(const char *path, const struct timespec times[2], struct fuse_file_info *info)
{
    (void)info;
    if (path == NULL) {
        return -ENOENT;
    }
    int asked = asks_once(path, HUDARIN_FILE_WRITE_ATTRIBUTES);
    int fd = asked < 0 ? asked : folder_at(path, O_RDONLY);
    if (fd < 0) {
        return fd;
    }
    int result = result_of(futimens(fd, times));
    (void)close(fd);
    return result;
}

static int op_fsync(const char *path, int is_data, struct fuse_file_info *info)
{
    (void)path;
    return result_of(is_data != 0 ? fdatasync(fd_of(info)) : fsync(fd_of(info)));
}

static int op_release(const char *path, struct fuse_file_info *info)
{
    (void)path;
    uid_t uid = opener_of(fd_of(info));
    linger();
    int result = result_of(close(fd_of(info)));
    open_give_back(uid);
    return result;
}

static int op_unlink(const char *path)
{
    return edit_remove(path, false);
}

/* ---- Who has it, and who may what */

static int op_chown(const char *path, uid_t uid, gid_t gid, struct fuse_file_info *info)
{
    (void)info;
    return path == NULL ? -ENOENT : edit_owners(path, uid, gid);
}

static int op_chmod(const char *path, mode_t mode, struct fuse_file_info *info)
{
    (void)path;
    (void)mode;
    (void)info;
    return -EPERM;
}

static int op_setxattr(const char *path, const char *name, const char *value, size_t size, int flags)
{
    char *text = NULL;
    bool is_text = strcmp(name, NAME_OF_TEXT) == 0;
    if (!is_text && strcmp(name, NAME_OF_BYTES) != 0) {
        return -ENOTSUP;
    }
    if ((flags & 1) != 0) { /* XATTR_CREATE */
        return -EEXIST;
    }
    int result = is_text ? text_of_text(value, size, &text) : text_of_bytes(value, size, &text);
    if (result < 0) {
        say("%s: its %s stays as it was", path, name);
        return result;
    }
    result = edit_descriptor(path, text);
    free(text);
    return result;
}

static int read_descriptor(struct asking *asking, const char *path, bool is_text, char *room, size_t size)
{
    const unsigned char *bytes;
    int length = descriptor_of(asking, path, &bytes);
    if (length < 0) {
        return length;
    }
    if (!is_text) {
        if (size != 0 && size < (size_t)length) {
            return -ERANGE;
        }
        memcpy(room, bytes, size == 0 ? 0 : (size_t)length);
        return length;
    }
    hudarin_written answer = hudarin_bytes_to_sddl(bytes, (size_t)length, room, size);
    if (answer.status == HUDARIN_ROOM) {
        return size == 0 ? (int)answer.length : -ERANGE;
    }
    return answer.status == HUDARIN_OK ? (int)answer.length : error_of(answer.status, answer.fault);
}

static int op_getxattr(const char *path, const char *name, char *room, size_t size)
{
    struct asking asking;
    bool is_text = strcmp(name, NAME_OF_TEXT) == 0;
    if (!is_text && strcmp(name, NAME_OF_BYTES) != 0) {
        return -ENOTSUP;
    }
    int result = asking_begin(&asking);
    result = result < 0 ? result : asks(&asking, path, HUDARIN_READ_CONTROL);
    result = result < 0 ? result : read_descriptor(&asking, path, is_text, room, size);
    asking_end(&asking);
    return result;
}

static int op_listxattr(const char *path, char *room, size_t size)
{
    static const char names[] = NAME_OF_TEXT "\0" NAME_OF_BYTES;
    (void)path;
    if (size != 0 && size < sizeof names) {
        return -ERANGE;
    }
    memcpy(room, names, size == 0 ? 0 : sizeof names);
    return sizeof names;
}

static int op_removexattr(const char *path, const char *name)
{
    (void)path;
    return strcmp(name, NAME_OF_TEXT) == 0 || strcmp(name, NAME_OF_BYTES) == 0 ? -EPERM : -ENOTSUP;
}

static int op_symlink(const char *target, const char *path)
{
    (void)target;
    (void)path;
    return -EPERM;
}

static int op_link(const char *from, const char *to)
{
    (void)from;
    (void)to;
    return -EPERM;
}

/* Nothing is kept by the kernel between two calls, so each look-up is asked anew. */
static void *op_init(struct fuse_conn_info *connection, struct fuse_config *config)
{
    (void)connection;
    config->nullpath_ok = 0;
    config->hard_remove = 1;
    config->use_ino = 1;
    config->attr_timeout = 0;
    config->entry_timeout = 0;
    config->negative_timeout = 0;
    steps_begin();
    say("ready");
    say_serving(true);
    return NULL;
}

const struct fuse_operations *operations(void)
{
    static const struct fuse_operations all = {
        .getattr = op_getattr, .access = op_access, .statfs = op_statfs,
        .opendir = op_opendir, .readdir = op_readdir, .mkdir = op_mkdir, .rmdir = op_rmdir, .rename = op_rename,
        .open = op_open, .create = op_create, .mknod = op_mknod, .read = op_read, .write = op_write,
        .truncate = op_truncate, .utimens = op_utimens, .fsync = op_fsync, .release = op_release, .unlink = op_unlink,
        .chown = op_chown, .chmod = op_chmod, .setxattr = op_setxattr, .getxattr = op_getxattr,
        .listxattr = op_listxattr, .removexattr = op_removexattr, .symlink = op_symlink, .link = op_link,
        .init = op_init,
    };
    return &all;
}
