/* What was given to each node, as FOLDER and the file beside it tell it at the start: kind, owner, group and own entries. */
#include "hudarinfs.h"

#include <stdio.h>
#include <stdlib.h>
#include <string.h>

bool parts_make(struct parts *parts, const char *owner, const char *group, const char *dacl)
{
    parts->owner = strdup(owner);
    parts->group = strdup(group);
    parts->dacl = strdup(dacl);
    if (parts->owner != NULL && parts->group != NULL && parts->dacl != NULL) {
        return true;
    }
    parts_free(parts);
    return false;
}

void parts_free(struct parts *parts)
{
    free(parts->owner);
    free(parts->group);
    free(parts->dacl);
    *parts = (struct parts){ NULL, NULL, NULL };
}

char *parts_text(const struct parts *parts)
{
    size_t room = strlen(parts->owner) + strlen(parts->group) + strlen(parts->dacl) + 5;
    char *text = malloc(room);
    if (text != NULL) {
        (void)snprintf(text, room, "O:%sG:%s%s", parts->owner, parts->group, parts->dacl);
    }
    return text;
}

/* A section is led by its letter and a ':', which stands in no SID and in no entry of a canonical text. */
static char **section_of(struct parts *parts, char letter)
{
    switch (letter) {
    case 'O':
        return &parts->owner;
    case 'G':
        return &parts->group;
    case 'D':
        return &parts->dacl;
    default:
        return NULL;
    }
}

bool parts_split(const char *text, struct parts *parts)
{
    while (text[0] != '\0' && text[1] == ':') {
        const char *colon = strchr(text + 2, ':');
        const char *end = colon == NULL ? text + strlen(text) : colon - 1;
        char **part = section_of(parts, text[0]);
        if (part == NULL || *part != NULL || end < text + 2) {
            return false;
        }
        const char *begin = part == &parts->dacl ? text : text + 2;
        *part = strndup(begin, (size_t)(end - begin));
        if (*part == NULL) {
            return false;
        }
        text = end;
    }
    return text[0] == '\0';
}

struct node *node_make(const char *name, size_t length, bool is_folder, const struct parts *parts)
{
    struct node *node = calloc(1, sizeof *node);
    if (node == NULL) {
        return NULL;
    }
    node->is_folder = is_folder;
    node->name = strndup(name, length);
    if (node->name == NULL || !parts_make(&node->given, parts->owner, parts->group, parts->dacl)) {
        free(node->name);
        free(node);
        return NULL;
    }
    return node;
}

/* Its depth is that of a path, at most 64. */
void node_free(struct node *node)
{
    if (node == NULL) {
        return;
    }
    for (size_t place = 0; place < node->count; place++) {
        node_free(node->children[place]);
    }
    free(node->children);
    parts_free(&node->given);
    free(node->name);
    free(node);
}

static int names_order(const char *name, const char *other, size_t length)
{
    int order = strncmp(name, other, length);
    return order != 0 ? order : name[length] != '\0';
}

/* Where the name stands among the children, or would. */
static size_t place_of(const struct node *parent, const char *name, size_t length)
{
    size_t low = 0, high = parent->count;
    while (low < high) {
        size_t middle = low + (high - low) / 2;
        if (names_order(parent->children[middle]->name, name, length) < 0) {
            low = middle + 1;
        } else {
            high = middle;
        }
    }
    return low;
}

struct node *node_child(const struct node *parent, const char *name, size_t length)
{
    size_t place = place_of(parent, name, length);
    if (place < parent->count && names_order(parent->children[place]->name, name, length) == 0) {
        return parent->children[place];
    }
    return NULL;
}

struct node *tree_at(struct node *root, const char *path)
{
    struct node *node = root;
    while (node != NULL && path[0] == '/' && path[1] != '\0') {
        const char *name = path + 1;
        size_t length = strcspn(name, "/");
        node = node_child(node, name, length);
        path = name + length;
    }
    return node;
}

bool node_reserve(struct node *parent)
{
    if (parent->count < parent->room) {
        return true;
    }
    size_t room = parent->room * 2 + 4;
    struct node **more = realloc(parent->children, room * sizeof(struct node *));
    if (more == NULL) {
        return false;
    }
    parent->children = more;
    parent->room = room;
    return true;
}

void node_join(struct node *parent, struct node *child)
{
    size_t place = place_of(parent, child->name, strlen(child->name));
    memmove(parent->children + place + 1, parent->children + place, (parent->count - place) * sizeof(struct node *));
    parent->children[place] = child;
    parent->count++;
    child->parent = parent;
}

void node_leave(struct node *child)
{
    struct node *parent = child->parent;
    size_t place = place_of(parent, child->name, strlen(child->name));
    parent->count--;
    memmove(parent->children + place, parent->children + place + 1, (parent->count - place) * sizeof(struct node *));
    child->parent = NULL;
}

const char *path_split(const char *path, char parent[PATH_ROOM])
{
    const char *slash = strrchr(path, '/');
    size_t length = slash == path ? 1 : (size_t)(slash - path);
    memcpy(parent, path, length);
    parent[length] = '\0';
    return slash + 1;
}

void tree_move(struct node *moved, struct node *parent, char *name, struct node *replaced)
{
    if (replaced != NULL) {
        node_leave(replaced);
        node_free(replaced);
    }
    node_leave(moved);
    free(moved->name);
    moved->name = name;
    node_join(parent, moved);
}
