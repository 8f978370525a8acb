/* What is tested and cleared before MOUNT is mounted. */
#include "hudarinfs.h"

#include <errno.h>
#include <mntent.h>
#include <stdio.h>
#include <stdlib.h>
#include <string.h>
#include <sys/mount.h>
#include <unistd.h>

int proc_is_ours(void)
{
    char self[32] = "";
    ssize_t length = readlink("/proc/self", self, sizeof self - 1);
    if (length < 0 || strtol(self, NULL, 10) != (long)getpid()) {
        say("/proc is that of another PID namespace: the groups of callers can't be read there");
        return -ESRCH;
    }
    return 0;
}

/* The path as /proc/self/mounts has it, without a look at its last name, which fails where the server is gone. */
static bool real_mount(const char *mount, char real[PATH_ROOM])
{
    char above[PATH_ROOM];
    if (strlen(mount) >= sizeof above) {
        return false;
    }
    (void)snprintf(above, sizeof above, "%s", mount);
    for (size_t length = strlen(above); length > 1 && above[length - 1] == '/'; length--) {
        above[length - 1] = '\0';
    }
    char *slash = strrchr(above, '/');
    const char *name = slash == NULL ? mount : slash + 1;
    char last[256];
    (void)snprintf(last, sizeof last, "%s", name);
    if (slash == NULL) {
        (void)snprintf(above, sizeof above, ".");
    } else {
        slash[slash == above ? 1 : 0] = '\0';
    }
    char *parent = realpath(above, NULL);
    int length = parent == NULL ? -1 : snprintf(real, PATH_ROOM, "%s/%s", parent[1] == '\0' ? "" : parent, last);
    free(parent);
    return length > 0 && length < PATH_ROOM;
}

/* Whether the topmost mount at the path is one of this program. */
static bool is_ours(const char *real)
{
    bool is_ours = false;
    FILE *mounts = setmntent("/proc/self/mounts", "re");
    if (mounts == NULL) {
        return false;
    }
    for (struct mntent *entry = getmntent(mounts); entry != NULL; entry = getmntent(mounts)) {
        if (strcmp(entry->mnt_dir, real) == 0) {
            is_ours = strcmp(entry->mnt_fsname, "hudarinfs") == 0;
        }
    }
    (void)endmntent(mounts);
    return is_ours;
}

void unmount_dead(const char *mount)
{
    char real[PATH_ROOM];
    struct stat found;
    if (stat(mount, &found) != 0 && errno == ENOTCONN && real_mount(mount, real) && is_ours(real)) {
        say("%s has a mount without a server: it is unmounted", real);
        (void)umount2(real, MNT_DETACH);
    }
}
