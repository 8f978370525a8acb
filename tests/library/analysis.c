/*
 * Access analysis: `analysis FORMS FILE ..` asks the worked rows of pages and of files .rows, by the forms of
 * docs/JSON.md: which lines are kept, as texts, as objects and as values, in rooms of all lengths; what is refused, and
 * why.
 */
#include "forms.h"

static const hudarin_mapping files = HUDARIN_FILE_MAPPING;

/* Groups as the calls take them. */
struct base {
    unsigned char sids[8 * HUDARIN_SID_BYTES];
    size_t length;
    uint32_t states[8];
    size_t count;
};

enum asks { NOTHING, WHO, COMPARE, LINT };

static const char *const commands[] = { "", "who", "compare", "lint" };

/* One of the three questions: about a descriptor and a mask, two descriptors, or one. */
struct question {
    enum asks asks;
    hudarin_descriptor descriptor, new_descriptor;
    uint32_t asked;
    struct base base;
    hudarin_mapping mapping;
};

static const struct question empty = { NOTHING, HUDARIN_NOTHING, HUDARIN_NOTHING, 1,
                                       { { 0 }, 0, { 0 }, 0 }, HUDARIN_FILE_MAPPING };

/* The answer to each, with 0 for the masks of `who` and `lint`. */
static hudarin_comparison answered(struct question *it, hudarin_lines *lines)
{
    const struct base *base = &it->base;
    const unsigned char *sids = base->length == 0 ? NULL : lent(base->sids, base->length);
    const uint32_t *states = base->count == 0 ? NULL : base->states;
    hudarin_comparison answer = { { 0, 0, 0, 0, 0, 0 }, 0, 0 };
    if (it->asks == COMPARE) {
        return hudarin_compare(&it->descriptor, &it->new_descriptor, sids, base->length, states, base->count,
                               it->mapping, lines);
    }
    if (it->asks == WHO) {
        answer.answer = hudarin_who(&it->descriptor, sids, base->length, states, base->count, it->mapping, it->asked,
                                    lines);
    } else {
        answer.answer = hudarin_lint(&it->descriptor, sids, base->length, states, base->count, it->mapping, lines);
    }
    return answer;
}

static void keep(const char *sddl, hudarin_descriptor *descriptor)
{
    HOLDS(hudarin_keep_sddl(sddl, strlen(sddl), descriptor).status == HUDARIN_OK);
}

static void release(struct question *it)
{
    hudarin_free(&it->descriptor.kept);
    hudarin_free(&it->new_descriptor.kept);
}

/* A group of the base, as `BG=deny`. */
static void add_group(struct base *base, const char *word)
{
    size_t name = strcspn(word, "=");
    unsigned char *room = base->sids + base->length;
    hudarin_written written = hudarin_sid_text_to_bytes(word, name, room, HUDARIN_SID_BYTES);
    HOLDS(written.status == HUDARIN_OK);
    base->length += (size_t)written.length;
    base->states[base->count++] = strcmp(word + name, "=deny") == 0  ? HUDARIN_GROUP_DENY_ONLY
                                  : strcmp(word + name, "=off") == 0 ? HUDARIN_GROUP_DISABLED
                                                                     : HUDARIN_GROUP_ENABLED;
}

static void read_base(struct base *base, char *words)
{
    char *word;
    for (word = strtok(words, " "); word != NULL; word = strtok(NULL, " ")) {
        add_group(base, word);
    }
}

/* Just these lines are kept: none of them is "same" or "clean". */
static void worked(struct question *it, char *wanted)
{
    hudarin_lines lines = HUDARIN_NOTHING;
    uint32_t gained = bits_of(wanted, "gained "), lost = bits_of(wanted, "lost ");
    hudarin_comparison answer = answered(it, &lines);
    hudarin_written count = hudarin_lines_count(&lines);
    uint64_t index = 0;
    char *line;
    HOLDS(answer.answer.status == HUDARIN_OK && answer.answer.argument == 0 && answer.answer.fault == 0);
    HOLDS(answer.answer.kind == 0 && answer.answer.mask == 0 && answer.answer.place == 0);
    HOLDS(answer.gained == gained && answer.lost == lost);
    for (line = strtok(wanted, "\n"); line != NULL; line = strtok(NULL, "\n")) {
        if (strcmp(line, "same") != 0 && strcmp(line, "clean") != 0) {
            line_is(&lines, index++, line);
        }
    }
    HOLDS(count.status == HUDARIN_OK && count.length == index && count.fault == 0 && count.place == 0);
    no_line(&lines, index, HUDARIN_NO_PART);
    no_line(&lines, UINT64_MAX, HUDARIN_NO_PART);
    HOLDS(it->descriptor.kept.is_there == 1 && it->new_descriptor.kept.is_there == (it->asks == COMPARE ? 1u : 0u));
    hudarin_free(&lines.kept);
    no_line(&lines, 0, HUDARIN_HANDLE);
}

/* Asks of a text, of `compare` a second one, of `who` a mask, with a base: how many questions that is. */
static int ask(enum asks asks, const char *first, const char *second, char *base, char *lines)
{
    struct question it = empty;
    it.asks = asks;
    keep(first, &it.descriptor);
    if (asks == COMPARE) {
        keep(second, &it.new_descriptor);
    } else if (asks == WHO) {
        it.asked = hudarin_mask_from_text(second, strlen(second), HUDARIN_KIND_ANY).mask;
    }
    read_base(&it.base, base);
    worked(&it, lines);
    release(&it);
    return 1;
}

/* The lines that the page has in a cell, as `one`<br>`two`. */
static void read_lines(const char *cell, char *lines)
{
    for (cell += strspn(cell, "`"); *cell != 0; cell += strspn(cell, "`")) {
        size_t part = strcspn(cell, "`");
        if (strncmp(cell, "<br>", 4) != 0) {
            lines += sprintf(lines, "%.*s\n", (int)part, cell);
        }
        cell += part;
    }
    *lines = 0;
}

/* The cell without the marks of code about it. */
static char *plain(char *cell)
{
    size_t length = strlen(cell);
    if (length > 1 && cell[0] == '`') {
        cell[length - 1] = 0;
        return cell + 1;
    }
    return cell;
}

/* The line's first four cells; how many it has of them. */
static int cut(const char *line, char cells[4][1000])
{
    int count = 0;
    while (line[0] == '|' && line[1] == ' ' && count < 4) {
        size_t length = strcspn(line + 2, "|"), end = length;
        while (end > 0 && line[1 + end] == ' ') {
            end--;
        }
        memcpy(cells[count], line + 2, end);
        cells[count++][end] = 0;
        line += 2 + length;
    }
    return count;
}

/* What the rows below these heads ask. */
static enum asks asked_below(char heads[4][1000], int count)
{
    if (count == 4 && strcmp(heads[2], "Base") == 0) {
        return strcmp(heads[0], "OLD") == 0 ? COMPARE : WHO;
    }
    return count == 2 && strcmp(heads[1], "Finds") == 0 ? LINT : NOTHING;
}

/* Each row of the tables of a page that are known by their heads; how many there are. */
static int page(FILE *text)
{
    static char line[4000], cells[4][1000], lines[1000];
    enum asks asks = NOTHING;
    int in_table = 0, rows = 0;
    while (fgets(line, sizeof line, text) != NULL) {
        int count = cut(line, cells);
        if (line[0] != '|') {
            in_table = 0;
        } else if (!in_table) {
            in_table = 1;
            asks = asked_below(cells, count);
        } else if (count > 0 && asks != NOTHING) {
            char none[1] = "";
            read_lines(cells[asks == LINT ? 1 : 3], lines);
            rows += ask(asks, plain(cells[0]), plain(cells[1]), asks == LINT ? none : cells[2], lines);
        }
    }
    return rows;
}

/* What a row of a file is about: its command, the words after it, those of the base in one, and its lines. */
struct row {
    enum asks asks;
    char words[3][1000], lines[4000];
    size_t length;
};

/* The words of a command line as `$ sdstore who SDDL MASK ..`, without an option. */
static void read_command(const char *line, struct row *row)
{
    int count = 0, given;
    char name[20] = "";
    row->asks = NOTHING;
    row->length = 0;
    memset(row->words, 0, sizeof row->words);
    if (sscanf(line, "$ sdstore %19[a-z]%n", name, &given) == 1) {
        for (line += given; *line == ' '; count++) {
            size_t quote = line[1] == '\'', size = strcspn(line + 1 + quote, quote ? "'" : " \n");
            char *word = row->words[count < 2 ? count : 2];
            sprintf(word + strlen(word), "%s%.*s", count > 2 ? " " : "", (int)size, line + 1 + quote);
            line += 1 + size + 2 * quote;
        }
        for (row->asks = LINT; row->asks != NOTHING && strcmp(name, commands[row->asks]) != 0; row->asks--) {
        }
    }
}

/* Asks what a row of a file is about, unless it has an option or is refused. */
static int ask_row(struct row *row)
{
    char base[2000];
    int is_lint = row->asks == LINT;
    sprintf(base, "%s %s", is_lint ? row->words[1] : "", row->words[2]);
    if (row->asks == NOTHING || row->length == 0 || row->words[0][0] == '-' || strncmp(row->lines, "fault", 5) == 0) {
        return 0;
    }
    return ask(row->asks, row->words[0], row->words[1], base, row->lines);
}

/* Each row of a file of rows; how many there are. */
static int rows_of(FILE *text)
{
    static char line[4000];
    static struct row row;
    int rows = 0;
    row.asks = NOTHING;
    while (fgets(line, sizeof line, text) != NULL) {
        if (strncmp(line, "> ", 2) == 0) {
            row.length += (size_t)sprintf(row.lines + row.length, "%s", line + 2);
        } else if (line[0] == '\n' || line[0] == '$') {
            rows += ask_row(&row);
            read_command(line, &row);
        }
    }
    return rows + ask_row(&row);
}

static void file(const char *path)
{
    FILE *text = fopen(path, "r");
    const char *end = strrchr(path, '.');
    if (text == NULL || end == NULL) {
        perror(path);
        exit(1);
    }
    HOLDS((strcmp(end, ".rows") == 0 ? rows_of(text) : page(text)) >= 5);
    fclose(text);
}

/* A call that is refused keeps nothing, and names the argument. */
static void refused(struct question *it, uint32_t status, uint32_t argument, uint32_t fault, uint64_t place)
{
    hudarin_lines lines = HUDARIN_NOTHING;
    hudarin_comparison answer = answered(it, &lines);
    HOLDS(answer.answer.status == status && answer.answer.fault == fault && answer.answer.place == place);
    HOLDS(answer.answer.argument == argument && answer.answer.kind == 0 && answer.answer.mask == 0);
    HOLDS(answer.gained == 0 && answer.lost == 0 && lines.kept.is_there == 0);
}

/* A handle for lines that is in use is refused first, and unchanged. */
static void in_use(struct question *it, hudarin_lines *lines)
{
    hudarin_kept before = lines->kept;
    hudarin_comparison answer = answered(it, lines);
    HOLDS(answer.answer.status == HUDARIN_HANDLE && answer.answer.argument == HUDARIN_ARGUMENT_LINES);
    HOLDS(answer.answer.fault == 0 && answer.answer.kind == 0 && answer.gained == 0 && answer.lost == 0);
    HOLDS(lines->kept.at == before.at && lines->kept.is_there == 1);
}

/* The base and the mapping, once the handles are right: the first invalid argument from the left. */
static void refused_base(struct question *it)
{
    static const hudarin_mapping wide = { 0, 0, 0, 0x200000 };
    it->base.count = it->base.length = 0;
    it->mapping = wide;
    add_group(&it->base, "WD");
    it->base.states[0] = 1;
    refused(it, HUDARIN_STATE, HUDARIN_ARGUMENT_STATES, 0, 0);
    it->base.states[0] = HUDARIN_GROUP_ENABLED;
    it->base.states[1] = HUDARIN_GROUP_ENABLED;
    it->base.count = 2;
    refused(it, HUDARIN_SID, HUDARIN_ARGUMENT_GROUPS, HUDARIN_SID_SHORT, 1);
    it->base.count = 0;
    refused(it, HUDARIN_BEHIND_GROUPS, HUDARIN_ARGUMENT_GROUPS, 0, 0);
    it->base.length = 0;
    refused(it, HUDARIN_MAPPING, HUDARIN_ARGUMENT_MAPPING, 0, 0);
    it->mapping = files;
}

/* Handles that are empty or keep something else, in the order in which they are tested: before the base. */
static void refused_handles(struct question *it, hudarin_token *token, hudarin_lines *lines)
{
    it->base.count = 1;
    in_use(it, lines);
    refused(it, HUDARIN_HANDLE, HUDARIN_ARGUMENT_DESCRIPTOR, 0, 0);
    it->new_descriptor.kept = token->kept;
    refused(it, HUDARIN_HANDLE, HUDARIN_ARGUMENT_DESCRIPTOR, 0, 0);
    it->descriptor.kept = lines->kept;
    refused(it, HUDARIN_HANDLE, HUDARIN_ARGUMENT_DESCRIPTOR, 0, 0);
    it->descriptor = empty.descriptor;
    keep("D:", &it->descriptor);
    if (it->asks == COMPARE) {
        refused(it, HUDARIN_HANDLE, HUDARIN_ARGUMENT_NEW_DESCRIPTOR, 0, 0);
        it->new_descriptor = empty.new_descriptor;
        refused(it, HUDARIN_HANDLE, HUDARIN_ARGUMENT_NEW_DESCRIPTOR, 0, 0);
    }
    it->new_descriptor = empty.new_descriptor;
    keep("D:", &it->new_descriptor);
    in_use(it, lines);
    refused_base(it);
    release(it);
}

/* Lines have one handle, and are nothing else than lines. */
static void kinds(hudarin_lines *lines, hudarin_token *token)
{
    hudarin_lines nothing = HUDARIN_NOTHING, other = HUDARIN_NOTHING;
    HOLDS(hudarin_lines_count(&nothing).status == HUDARIN_HANDLE && hudarin_lines_count(&nothing).length == 0);
    HOLDS(hudarin_lines_count((hudarin_lines *)token).status == HUDARIN_HANDLE);
    no_line(&nothing, 0, HUDARIN_HANDLE);
    no_line((hudarin_lines *)token, 0, HUDARIN_HANDLE);
    HOLDS(hudarin_share(&lines->kept, &other.kept).status == HUDARIN_HANDLE && other.kept.is_there == 0);
    HOLDS(hudarin_journal_length(&lines->kept).status == HUDARIN_HANDLE);
    HOLDS(hudarin_check_kept((hudarin_descriptor *)lines, token, files, 1).argument == HUDARIN_ARGUMENT_DESCRIPTOR);
    HOLDS(hudarin_lines_count(lines).length == 1 && token->kept.is_there == 1);
    line_is(lines, 0, "0x1 to nobody");
}

/* Rights that no line is about: none at all, and those from bit 21 on. */
static void no_right(struct question *it)
{
    static const uint32_t masks[] = { 0, 0x200000, 0x1000000, 0xCE00000 };
    size_t at;
    for (at = 0; at < sizeof masks / sizeof masks[0]; at++) {
        hudarin_lines lines = HUDARIN_NOTHING;
        it->asked = masks[at];
        HOLDS(answered(it, &lines).answer.status == HUDARIN_OK);
        HOLDS(hudarin_lines_count(&lines).status == HUDARIN_OK && hudarin_lines_count(&lines).length == 0);
        no_line(&lines, 0, HUDARIN_NO_PART);
        hudarin_free(&lines.kept);
    }
    it->asked = empty.asked;
}

static void refusals(void)
{
    struct question it = empty;
    hudarin_token token = HUDARIN_NOTHING;
    hudarin_lines lines = HUDARIN_NOTHING;
    HOLDS(hudarin_keep_token("\1\1\0\0\0\0\0\1\0\0\0", 12, NULL, 0, NULL, 0, NULL, 0, 0, &token).status == HUDARIN_OK);
    keep("D:", &it.descriptor);
    it.asks = WHO;
    HOLDS(answered(&it, &lines).answer.status == HUDARIN_OK);
    no_right(&it);
    release(&it);
    for (it.asks = WHO; it.asks <= LINT; it.asks++) {
        refused_handles(&it, &token, &lines);
    }
    kinds(&lines, &token);
    hudarin_free(&lines.kept);
    hudarin_free(&lines.kept);
    hudarin_free(&token.kept);
}

int main(int count, char **arguments)
{
    int at;
    HOLDS(count > 2);
    open_rooms();
    read_forms(arguments[1]);
    for (at = 2; at < count; at++) {
        file(arguments[at]);
    }
    refusals();
    return close_tally();
}
