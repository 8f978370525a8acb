/*
 * The keeper by a file beside FOLDER: `hudarinfs 1`, a line for each node, each folder before what it holds, where a
 * rename is under way a line for it, and `end`. It is written whole under another name, synced, and renamed.
 */
#include "hudarinfs.h"

#include <errno.h>
#include <fcntl.h>
#include <inttypes.h>
#include <stdio.h>
#include <stdlib.h>
#include <string.h>
#include <unistd.h>

static int beside = -1; /* the folder that holds FOLDER */
static char kept_name[300];
static char new_name[310];

int beside_open(const char *folder)
{
    char *real = realpath(folder, NULL);
    char parent[PATH_ROOM];
    if (real == NULL) {
        return -errno;
    }
    const char *name = path_split(real, parent);
    int wanted = snprintf(kept_name, sizeof kept_name, "%s.hudarin", name);
    (void)snprintf(new_name, sizeof new_name, "%s.new", kept_name);
    beside = wanted > 255 - 4 || name[0] == '\0' ? -1 : open(parent, O_RDONLY | O_DIRECTORY | O_CLOEXEC);
    int error = wanted > 255 - 4 || name[0] == '\0' ? EINVAL : errno;
    free(real);
    return beside < 0 ? -error : 0;
}

int beside_is_there(void)
{
    struct stat found;
    if (fstatat(beside, kept_name, &found, AT_SYMLINK_NOFOLLOW) != 0) {
        return errno == ENOENT ? 0 : -errno;
    }
    return 1;
}

/* ---- Writing */

/* Bytes that end a word, and '%', as two digits behind a '%'. */
static void put_path(FILE *file, const char *path)
{
    for (; *path != '\0'; path++) {
        unsigned char byte = (unsigned char)*path;
        if (byte <= ' ' || byte == '%' || byte == 0x7f) {
            (void)fprintf(file, "%%%02x", byte);
        } else {
            (void)putc(byte, file);
        }
    }
}

/* A node's line. */
static int put_node(FILE *file, const struct told *node)
{
    char *text = NULL;
    int result = text_of_bytes(node->own, node->length, &text);
    if (result < 0) {
        return result;
    }
    (void)fputs(node->is_folder ? "folder " : "file ", file);
    put_path(file, node->path);
    (void)fprintf(file, " %s\n", text);
    free(text);
    return 0;
}

static int put_nodes(FILE *file, hudarin_view *view)
{
    struct told node;
    int result = 0;
    for (uint64_t place = 0; result == 0; place++) {
        result = node_told(view, place, &node);
        result = result < 0 ? result : put_node(file, &node);
    }
    return result == -ENOENT ? 0 : result; /* (behind the last node none is told) */
}

static int put_all(FILE *file, hudarin_view *view, const char *from, const char *to, const char *kept)
{
    (void)fputs("hudarinfs 1\n", file);
    int result = put_nodes(file, view);
    if (result < 0) {
        return result;
    }
    (void)fflush(file);
    step();
    if (from != NULL) {
        (void)fputs("moving ", file);
        put_path(file, from);
        (void)putc(' ', file);
        put_path(file, to);
        (void)fprintf(file, "%s%s\n", kept == NULL ? "" : " ", kept == NULL ? "" : kept);
    }
    (void)fputs("end\n", file);
    /* (an error of any of the writes above stays with the file) */
    if (fflush(file) != 0 || ferror(file) || fsync(fileno(file)) != 0) {
        return errno != 0 ? -errno : -EIO;
    }
    return 0;
}

/* Keeps the view's nodes; with `from` also that a move to `to` is about to be made and, with `kept`, which descriptor
 * the node has there. The old tree is kept, or the new one. */
static int write_moving(hudarin_view *view, const char *from, const char *to, const char *kept)
{
    int fd = openat(beside, new_name, O_WRONLY | O_CREAT | O_TRUNC | O_NOFOLLOW | O_CLOEXEC, 0600);
    if (fd < 0) {
        return -errno;
    }
    FILE *file = fdopen(fd, "w");
    if (file == NULL) {
        (void)close(fd);
        return -ENOMEM;
    }
    errno = 0;
    step();
    int result = put_all(file, view, from, to, kept);
    if (fclose(file) != 0 && result == 0) {
        result = -EIO;
    }
    step();
    if (result == 0 && (renameat(beside, new_name, beside, kept_name) != 0 || fsync(beside) != 0)) {
        result = -errno;
    }
    step();
    if (result < 0) {
        say("the tree isn't kept: %s", strerror(-result));
    }
    return result;
}

static int write_whole(hudarin_view *view)
{
    return write_moving(view, NULL, NULL, NULL);
}

/* ---- Reading */

static int digit_of(char byte)
{
    const char *digits = "0123456789abcdef";
    const char *at = byte == '\0' ? NULL : strchr(digits, byte);
    return at == NULL ? -1 : (int)(at - digits);
}

/* Takes the word's two digits behind each '%' for their byte, in its place. */
static bool get_path(char *word)
{
    char *end = word;
    bool is_path = word[0] == '/';
    while (*word != '\0' && is_path) {
        if (*word == '%') {
            int high = digit_of(word[1]), low = high < 0 ? -1 : digit_of(word[2]);
            is_path = low >= 0 && high + low > 0;
            *end++ = (char)(high * 16 + low);
            word += is_path ? 3 : 1;
        } else {
            *end++ = *word++;
        }
    }
    *end = '\0';
    return is_path;
}

/* A node, by the words of its line: where it goes in the tree, which is NULL before the root. */
static int get_node(struct node **root, bool is_folder, char *path, const char *text)
{
    char above[PATH_ROOM];
    struct parts parts = { NULL, NULL, NULL };
    if (text == NULL || !get_path(path) || strlen(path) >= PATH_ROOM || (*root == NULL) != (strcmp(path, "/") == 0)) {
        return -EINVAL;
    }
    const char *name = path_split(path, above);
    struct node *parent = tree_at(*root, above), *node = NULL;
    bool is_read = parts_split(text, &parts) && parts.owner != NULL && parts.group != NULL && parts.dacl != NULL;
    bool has_place = *root == NULL ? is_folder : parent != NULL && parent->is_folder && tree_at(*root, path) == NULL;
    if (is_read && has_place) {
        node = node_make(name, strlen(name), is_folder, &parts);
    }
    parts_free(&parts);
    if (node == NULL || (parent != NULL && !node_reserve(parent))) {
        node_free(node);
        return is_read && has_place ? -ENOMEM : -EINVAL;
    }
    if (parent != NULL) {
        node_join(parent, node);
    } else {
        *root = node;
    }
    return 0;
}

/* A rename that was under way: once nothing is at `from` in FOLDER any more it was made. With `kept` the node has that
 * descriptor then. */
static int get_move(struct node *root, char *from, char *to, const char *kept)
{
    char above[PATH_ROOM];
    struct stat found;
    if (to == NULL || !get_path(from) || !get_path(to)) {
        return -EINVAL;
    }
    const char *name = path_split(to, above);
    struct node *moved = tree_at(root, from), *parent = tree_at(root, above), *replaced = tree_at(root, to);
    if (moved == NULL || moved->parent == NULL || parent == NULL || !parent->is_folder) {
        return -EINVAL;
    }
    int there = folder_stat(from, &found);
    if (there != -ENOENT) {
        return there;
    }
    if (kept != NULL) {
        struct parts parts = { NULL, NULL, NULL };
        if (!parts_split(kept, &parts) || parts.owner == NULL || parts.group == NULL || parts.dacl == NULL) {
            parts_free(&parts);
            return -EINVAL;
        }
        parts_free(&moved->given);
        moved->given = parts;
    }
    char *copy = strdup(name);
    if (copy == NULL || !node_reserve(parent)) {
        free(copy);
        return -ENOMEM;
    }
    tree_move(moved, parent, copy, replaced);
    return 0;
}

/* 1 at the last line. */
static int get_line(struct node **root, char *line)
{
    char *rest = NULL;
    char *kind = strtok_r(line, " \n", &rest);
    char *path = strtok_r(NULL, " \n", &rest);
    char *text = strtok_r(NULL, " \n", &rest);
    if (kind != NULL && path == NULL && strcmp(kind, "end") == 0) {
        return *root == NULL ? -EINVAL : 1;
    }
    char *kept = strtok_r(NULL, " \n", &rest);
    bool is_move = kind != NULL && strcmp(kind, "moving") == 0;
    bool has_more = strtok_r(NULL, " \n", &rest) != NULL || (kept != NULL && !is_move);
    if (kind == NULL || path == NULL || text == NULL || has_more) {
        return -EINVAL;
    }
    if (is_move && *root != NULL) {
        return get_move(*root, path, text, kept);
    }
    bool is_folder = strcmp(kind, "folder") == 0;
    return is_folder || strcmp(kind, "file") == 0 ? get_node(root, is_folder, path, text) : -EINVAL;
}

/* 0 where the file is whole, up to its last line and nothing behind that. */
static int get_all(FILE *file, struct node **root)
{
    char *line = NULL;
    size_t room = 0;
    unsigned long number = 1;
    int result = getline(&line, &room, file) > 0 && strcmp(line, "hudarinfs 1\n") == 0 ? 0 : -EINVAL;
    while (result == 0) {
        number++;
        result = getline(&line, &room, file) > 0 ? get_line(root, line) : -EINVAL;
    }
    if (result == 1 && getc(file) != EOF) {
        number++;
        result = -EINVAL;
    }
    if (result < 0) {
        say("%s, line %lu: %s", kept_name, number, strerror(-result));
    }
    free(line);
    return result < 0 ? result : 0;
}

int beside_read(struct node **root)
{
    *root = NULL;
    int fd = openat(beside, kept_name, O_RDONLY | O_NOFOLLOW | O_CLOEXEC);
    if (fd < 0) {
        return errno == ENOENT ? 0 : -errno;
    }
    FILE *file = fdopen(fd, "r");
    if (file == NULL) {
        (void)close(fd);
        return -ENOMEM;
    }
    int result = get_all(file, root);
    (void)fclose(file);
    if (result < 0) {
        node_free(*root);
        *root = NULL;
    }
    return result;
}

/* ---- The steps of each change, behind store_ready: README.md tells why in this order */

static int begin(void)
{
    return write_whole(store_shown());
}

/* The tree is kept with the node before FOLDER has it: a node that is kept alone is dropped at a start. */
static int make(const char *path, bool is_folder, int flags)
{
    int result = write_whole(store_next());
    if (result == 0) {
        result = folder_make(path, is_folder, flags);
        step();
        linger();
    }
    if (result >= 0) {
        store_show();
    } else {
        (void)write_whole(store_shown());
    }
    return result;
}

/* FOLDER loses the node before the file does: a node that is kept alone is dropped at a start. */
static int drop(const char *path, bool is_folder)
{
    int result = folder_remove(path, is_folder);
    step();
    linger();
    if (result == 0) {
        store_show();
        (void)write_whole(store_shown());
    }
    return result;
}

/* The text of the descriptor that the node has behind the move, to be freed. */
static int text_of_moved(const char *to, char **text)
{
    struct told told;
    size_t length = strlen(to);
    if (length >= sizeof told.path) {
        return -ENAMETOOLONG;
    }
    memcpy(told.path, to, length + 1);
    int result = own_told(store_next(), &told);
    return result < 0 ? result : text_of_bytes(told.own, told.length, text);
}

/* The file tells of the move before FOLDER makes it, and of the new tree afterwards. */
static int move(const char *from, const char *to, bool keeps)
{
    char *kept = NULL;
    int result = keeps ? text_of_moved(to, &kept) : 0;
    result = result < 0 ? result : write_moving(store_shown(), from, to, kept);
    free(kept);
    if (result < 0) {
        return result;
    }
    result = folder_move(from, to);
    step();
    linger();
    if (result == 0) {
        store_show();
    }
    int written = write_whole(store_shown());
    if (result < 0 && written < 0) {
        store_close("the kept tree tells of a move that wasn't made");
    }
    return result;
}

static int give(const char *path)
{
    (void)path;
    int result = write_whole(store_next());
    if (result == 0) {
        store_show();
    }
    return result;
}

const struct keeper keeper_beside = { begin, make, drop, move, give };
