/*
 * What the calls over lines return, beside what a page says: the text of a line, and by the forms of docs/JSON.md its
 * kind, its values by their names, and the object that they make. Each is written into rooms of all lengths.
 */
#ifndef FORMS_H
#define FORMS_H

#include "rooms.h"

#define MOST_FORMS 200
#define MOST_VALUES 24

/* A row of the page's table of kinds. */
struct form {
    char kind[40], words[160];
};

static struct form forms[MOST_FORMS];
static size_t form_count;

/* The names whose values are numbers, and those whose values are arrays, each between two marks of code. */
static char numbers[400], arrays[100];

/* A value of a line: its name, its place among those of that name, and its text. */
struct value {
    char name[20], text[ROOM];
    uint64_t place;
};

struct shape {
    char kind[60];
    struct value values[MOST_VALUES];
    size_t count;
};

static void read_forms(const char *path)
{
    static char line[4000];
    FILE *text = fopen(path, "r");
    if (text == NULL) {
        perror(path);
        exit(1);
    }
    while (fgets(line, sizeof line, text) != NULL && form_count < MOST_FORMS) {
        struct form *form = &forms[form_count];
        if (sscanf(line, "| `%39[^`]` | `%159[^`]` |", form->kind, form->words) == 2) {
            form_count++;
        } else if (strstr(line, "| a number |") != NULL) {
            sscanf(line, "| %399[^|]", numbers);
        } else if (strstr(line, "| an array of strings |") != NULL) {
            sscanf(line, "| %99[^|]", arrays);
        }
    }
    fclose(text);
    HOLDS(form_count >= 75 && form_count < MOST_FORMS && numbers[0] != 0 && arrays[0] != 0);
}

static int is_among(const char *names, const char *name, size_t length)
{
    char quoted[30];
    sprintf(quoted, "`%.*s`", (int)length, name);
    return strstr(names, quoted) != NULL;
}

/* Adds the value of the name at the front of the text, up to a space or what follows the name in the form; of an array
 * all to the text's end. It is the text after it, or NULL if there is none. */
static const char *with_value(struct shape *shape, const char *name, size_t length, const char *text)
{
    const char ends[] = { ' ', name[length + 1], 0 };
    int is_array = is_among(arrays, name, length);
    uint64_t place;
    for (place = 0;; place++) {
        struct value *value = &shape->values[shape->count];
        size_t size = is_array && *text++ != ' ' ? 0 : strcspn(text, ends);
        if (size == 0 || shape->count == MOST_VALUES) {
            return NULL;
        }
        sprintf(value->name, "%.*s", (int)length, name);
        sprintf(value->text, "%.*s", (int)size, text);
        value->place = place;
        shape->count++;
        text += size;
        if (!is_array || *text == 0) {
            return text;
        }
    }
}

/* Whether the text has this form; the shape gets its values. */
static int fits(const char *words, const char *text, struct shape *shape)
{
    while (text != NULL && *words != 0) {
        if (*words == '{') {
            size_t length = strcspn(++words, "}");
            text = with_value(shape, words, length, text);
            words += length + 1;
        } else if (*words++ != *text++) {
            return 0;
        }
    }
    return text != NULL && *text == 0;
}

/* The kind and the values of the text; without a kind if it has no form of the page. */
static void shape_of(const char *text, struct shape *shape)
{
    static const char *const heads[] = { "", "new {new}: ", "{below} below new containers: " };
    char words[240];
    size_t at;
    for (at = 0; at < 3 * form_count; at++) {
        const struct form *form = &forms[at / 3];
        shape->count = 0;
        sprintf(words, "%s%s", heads[at % 3], form->words);
        sprintf(shape->kind, "%s%s", form->kind, at % 3 == 0 ? "" : " below");
        if (fits(words, text, shape)) {
            return;
        }
    }
    shape->kind[0] = 0;
    shape->count = 0;
}

/* Writes the object of the line; how long it is. */
static size_t object_of(const struct shape *shape, char *room)
{
    size_t at, length = (size_t)sprintf(room, "{\"answer\":\"%s\"", shape->kind);
    for (at = 0; at < shape->count; at++) {
        const struct value *value = &shape->values[at];
        size_t name = strlen(value->name);
        int is_array = is_among(arrays, value->name, name), ends = at + 1 == shape->count || value[1].place == 0;
        const char *quote = is_among(numbers, value->name, name) ? "" : "\"";
        if (value->place == 0) {
            length += (size_t)sprintf(room + length, ",\"%s\":%s", value->name, is_array ? "[" : "");
        }
        length += (size_t)sprintf(room + length, "%s%s%s%s%s", value->place == 0 ? "" : ",", quote, value->text, quote,
                                  is_array && ends ? "]" : "");
    }
    return length + (size_t)sprintf(room + length, "}\n");
}

/* The bits of the lines that begin with the word. */
static uint32_t bits_of(const char *lines, const char *word)
{
    uint32_t bits = 0;
    const char *at;
    for (at = strstr(lines, word); at != NULL; at = strstr(at + 1, word)) {
        bits |= at == lines || at[-1] == '\n' ? (uint32_t)strtoul(at + strlen(word), NULL, 16) : 0;
    }
    return bits;
}

/* The bytes of a value: how many there are. */
static size_t bytes_of_value(const struct value *value, void *bytes, uint32_t *kind, uint64_t *number)
{
    size_t length = strcspn(value->text, "=");
    const char *mark = value->text + length;
    *number = 0;
    if (is_among(numbers, value->name, strlen(value->name))) {
        *kind = HUDARIN_VALUE_NUMBER;
        *number = strtoull(value->text, NULL, 10);
        return 0;
    }
    if (strcmp(value->name, "mask") == 0) {
        *kind = HUDARIN_VALUE_MASK;
        *number = strtoull(value->text, NULL, 16);
        return 0;
    }
    if (strncmp(value->text, "S-1-", 4) == 0) {
        *kind = HUDARIN_VALUE_SID;
        *number = strcmp(mark, "=deny") == 0       ? HUDARIN_MARK_DENY
                  : strcmp(mark, "=restrict") == 0 ? HUDARIN_MARK_RESTRICT
                                                   : 0;
        return (size_t)hudarin_sid_text_to_bytes(value->text, length, bytes, HUDARIN_SID_BYTES).length;
    }
    *kind = HUDARIN_VALUE_TEXT;
    return strlen(strcpy(bytes, value->text));
}

/* The value is returned, and written into each room that has the length for it. */
static void value_is(hudarin_lines *lines, uint64_t index, const struct value *value)
{
    unsigned char bytes[ROOM];
    uint32_t kind;
    uint64_t number;
    size_t length, name = strlen(value->name), size = bytes_of_value(value, bytes, &kind, &number);
    for (length = 0; length <= size + 2; length++) {
        int has_room = length >= size;
        unsigned char *room = fresh_room(length);
        hudarin_value answer = hudarin_line_value(lines, index, (char *)lent(value->name, name), name, value->place,
                                                  length == 0 ? NULL : room, length);
        HOLDS(answer.written.status == (has_room ? HUDARIN_OK : HUDARIN_ROOM) && answer.written.length == size);
        HOLDS(answer.kind == kind && answer.number == number && answer.written.fault == 0 && answer.written.place == 0);
        HOLDS(room_is(room, length, bytes, has_room ? size : 0));
    }
}

static void no_value(hudarin_lines *lines, uint64_t index, const char *name, size_t length, uint64_t place,
                     uint32_t status)
{
    unsigned char *room = fresh_room(ROOM);
    const char *given = length == 0 ? NULL : (char *)lent(name, length);
    hudarin_value answer = hudarin_line_value(lines, index, given, length, place, room, ROOM);
    HOLDS(answer.written.status == status && answer.written.length == 0 && answer.kind == 0 && answer.number == 0);
    HOLDS(room_is(room, ROOM, "", 0));
}

/* Of the names in a form the line has no value but those of its shape. */
static void no_other(hudarin_lines *lines, uint64_t index, const struct shape *shape, const char *words)
{
    for (words = strchr(words, '{'); words != NULL; words = strchr(words, '{')) {
        size_t at, length = strcspn(++words, "}");
        uint64_t count = 0;
        for (at = 0; at < shape->count; at++) {
            const char *name = shape->values[at].name;
            count += strlen(name) == length && memcmp(name, words, length) == 0;
        }
        no_value(lines, index, words, length, count, HUDARIN_NO_PART);
    }
}

/* The line is written into each room that has the length for it, and into no other. */
static void printed(hudarin_lines *lines, uint64_t index, uint32_t is_json, const char *wanted, size_t size)
{
    size_t length;
    for (length = 0; length <= size + 2; length++) {
        int has_room = length >= size;
        unsigned char *room = fresh_room(length);
        hudarin_written answer = hudarin_line_print(lines, index, is_json, length == 0 ? NULL : (char *)room, length);
        HOLDS(answer.status == (has_room ? HUDARIN_OK : HUDARIN_ROOM) && answer.length == size);
        HOLDS(answer.fault == 0 && answer.place == 0 && room_is(room, length, wanted, has_room ? size : 0));
    }
}

/* The line has this text, the values that are in it, and no other. */
static inline void line_is(hudarin_lines *lines, uint64_t index, const char *text)
{
    static const char *const wrong[] = { "", "m", "mas", "masks", "Mask", "answe", "answers", "text" };
    static struct shape shape;
    char wanted[2 * ROOM];
    size_t at;
    struct value kind = { "answer", "", 0 };
    shape_of(text, &shape);
    HOLDS(shape.kind[0] != 0);
    printed(lines, index, 0, wanted, (size_t)sprintf(wanted, "%s\n", text));
    printed(lines, index, index == 0 ? UINT32_MAX : 1, wanted, object_of(&shape, wanted));
    strcpy(kind.text, shape.kind);
    value_is(lines, index, &kind);
    no_value(lines, index, "answer", 6, 1, HUDARIN_NO_PART);
    for (at = 0; at < shape.count; at++) {
        value_is(lines, index, &shape.values[at]);
    }
    for (at = 0; at < form_count; at++) {
        no_other(lines, index, &shape, forms[at].words);
    }
    for (at = 0; at < sizeof wrong / sizeof wrong[0]; at++) {
        no_value(lines, index, wrong[at], strlen(wrong[at]), 0, HUDARIN_NO_PART);
    }
}

/* No line is at the index, or the handle keeps none. */
static inline void no_line(hudarin_lines *lines, uint64_t index, uint32_t status)
{
    unsigned char *room = fresh_room(ROOM);
    hudarin_written answer = hudarin_line_print(lines, index, 0, (char *)room, ROOM);
    HOLDS(answer.status == status && answer.length == 0 && answer.fault == 0 && answer.place == 0);
    HOLDS(room_is(room, ROOM, "", 0));
    no_value(lines, index, "answer", 6, 0, status);
    no_value(lines, index, "mask", 4, UINT64_MAX, status);
}

#endif
