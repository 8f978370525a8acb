/*
 * Shows FOLDER at MOUNT, where each call of a process is answered by a check of the security descriptor that the tree
 * gives the file or folder. It stays in the foreground, until MOUNT is unmounted or it is ended.
 */
#include "hudarinfs.h"

#include <errno.h>
#include <signal.h>
#include <stdio.h>
#include <stdlib.h>
#include <string.h>
#include <unistd.h>

/* The root's descriptor where none is given: root may do all, and nobody else anything. */
#define ROOTS_ALONE "O:S-1-22-1-0G:S-1-22-2-0D:P(A;OICI;FA;;;S-1-22-1-0)"

/* A store takes 1,048,576 edits; it begins anew before, and always has room for the edits of one call. */
#define LONGEST_JOURNAL 1000000

/* Of 65,536 descriptors and as many nodes. */
#define MOST_OPENS 1024
#define MOST_NODES 16384

struct words {
    const char *folder, *mount, *policy, *maps;
    bool wants_file, adopts;
    uint64_t journal, opens, nodes;
};

static int usage(void)
{
    (void)fputs("usage: hudarinfs [-fu] [-m MAPS] [-o OPENS] [-n NODES] [-j EDITS] FOLDER MOUNT [POLICY]\n"
                "  POLICY  the root's descriptor, in SDDL, where FOLDER has none kept yet\n"
                "  -f      keeps descriptors in a file beside FOLDER, in place of attributes\n"
                "  -u      serves names of which no descriptor is kept: they are root's, and inherit\n"
                "  MAPS    a file of lines `uid N SID` and `gid N SID`\n"
                "  OPENS   how many files a user other than root may have open (1024)\n"
                "  NODES   how many nodes an owner other than root may have (16384)\n"
                "  EDITS   after so many edits the store starts over from a compact journal (1000000)\n", stderr);
    return 2;
}

/* A number from 1 to the limit. */
static bool read_number(const char *word, uint64_t limit, uint64_t *number)
{
    char *end = NULL;
    errno = 0;
    *number = strtoull(word, &end, 10);
    return errno == 0 && *end == '\0' && *number > 0 && *number <= limit;
}

static bool read_option(int option, struct words *read)
{
    switch (option) {
    case 'f':
        read->wants_file = true;
        return true;
    case 'u':
        read->adopts = true;
        return true;
    case 'm':
        read->maps = optarg;
        return true;
    case 'o':
        return read_number(optarg, UINT32_MAX, &read->opens);
    case 'n':
        return read_number(optarg, UINT32_MAX, &read->nodes);
    case 'j':
        return read_number(optarg, LONGEST_JOURNAL, &read->journal);
    default:
        return false;
    }
}

static bool read_words(int count, char **words, struct words *read)
{
    *read = (struct words){ NULL, NULL, ROOTS_ALONE, NULL, false, false, LONGEST_JOURNAL, MOST_OPENS, MOST_NODES };
    int option;
    while ((option = getopt(count, words, "fum:o:n:j:")) != -1) {
        if (!read_option(option, read)) {
            return false;
        }
    }
    /* (a MOUNT that begins with '-' would be an option of FUSE) */
    if ((count - optind != 2 && count - optind != 3) || words[optind + 1][0] == '-') {
        return false;
    }
    read->folder = words[optind];
    read->mount = words[optind + 1];
    read->policy = count - optind == 3 ? words[optind + 2] : read->policy;
    return true;
}

/* What keeps the tree, and what is to, where nothing does yet: one of the two, and never both. */
static int choose(const struct words *words, const struct keeper **keeper)
{
    int attributes = attributes_are_there(), file = beside_is_there();
    if (file < 0 || (attributes < 0 && attributes != -ENOTSUP)) {
        return file < 0 ? file : attributes;
    }
    if (attributes == 1 && (file == 1 || words->wants_file)) {
        say("%s has its descriptors in attributes: a file beside it would tell of others", words->folder);
        return -EEXIST;
    }
    if (attributes != 1 && file == 0) {
        say("nothing is kept of %s: the policy holds", words->folder);
    }
    *keeper = file == 1 || words->wants_file || attributes < 0 ? &keeper_beside : &keeper_attributes;
    return 0;
}

/* POLICY's parts, to be freed whatever the answer. */
static int read_policy(const struct words *words, struct parts *policy)
{
    char *text = NULL;
    int result = text_of_text(words->policy, strlen(words->policy), &text);
    if (result < 0) {
        return result;
    }
    if (!parts_split(text, policy) || policy->owner == NULL || policy->group == NULL || policy->dacl == NULL) {
        say("POLICY wants an owner, a group and a DACL");
        result = -EINVAL;
    }
    free(text);
    return result;
}

/* The tree of FOLDER, with what was kept of it, or below the policy. */
static int read_tree(const struct words *words, const struct keeper *keeper, struct node **tree)
{
    struct parts policy = { NULL, NULL, NULL };
    struct node *known = NULL;
    bool by_attributes = keeper == &keeper_attributes;
    if (by_attributes) {
        folder_unstage();
    }
    int result = read_policy(words, &policy);
    result = result < 0 || by_attributes ? result : beside_read(&known);
    result = result < 0 ? result : folder_scan(known, by_attributes, words->adopts, &policy, tree);
    node_free(known);
    parts_free(&policy);
    return result;
}

/* The store, of what FOLDER has and what was kept of it. */
static int start(const struct words *words)
{
    struct node *tree = NULL;
    const struct keeper *keeper = NULL;
    int result = proc_is_ours();
    result = result < 0 ? result : opens_begin(words->opens);
    result = result < 0 || words->maps == NULL ? result : maps_read(words->maps);
    result = result < 0 ? result : folder_open(words->folder);
    result = result < 0 ? result : beside_open(words->folder);
    result = result < 0 ? result : choose(words, &keeper);
    result = result < 0 ? result : read_tree(words, keeper, &tree);
    result = result < 0 ? result : store_build(tree);
    result = result < 0 ? result : keeper->begin();
    node_free(tree);
    nodes_begin(words->nodes);
    return result < 0 ? result : edits_open(words->journal, keeper);
}

int main(int count, char **arguments)
{
    struct words words;
    if (!read_words(count, arguments, &words)) {
        return usage();
    }
    int result = start(&words);
    if (result >= 0) {
        unmount_dead(words.mount);
        /* A terminal or a log that closes, or a wish for the log's rotation, is no reason to unmount. */
        (void)signal(SIGHUP, SIG_IGN);
        (void)signal(SIGPIPE, SIG_IGN);
        result = serve(words.mount);
    }
    if (result < 0) {
        say("%s isn't served: %s", words.folder, strerror(-result));
    }
    return result == 0 ? 0 : 1;
}
