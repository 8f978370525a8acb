/*
 * Who may do what with a file: SDDL to bytes, a check of the bytes, and what a refusal looks like.
 *
 *     cc example.c $(pkg-config --cflags --libs hudarin) -o example
 */
#include <hudarin.h>

#include <inttypes.h>
#include <stdio.h>
#include <string.h>

static const char *const verdicts[] = { "", "granted", "denied", "reserved", "empty" };

/* The bytes of a SID, written into the room; how many they are. */
static size_t sid(const char *text, unsigned char *room)
{
    hudarin_written answer = hudarin_sid_text_to_bytes(text, strlen(text), room, HUDARIN_SID_BYTES);
    return answer.status == HUDARIN_OK ? (size_t)answer.length : 0;
}

/* What a status and a fault mean, and where. */
static void refused(const char *what, uint32_t status, uint32_t fault, uint64_t place)
{
    char text[HUDARIN_MEANING_BYTES];
    hudarin_written said = hudarin_status_text(status, text, sizeof text);
    printf("%s: %.*s", what, (int)said.length, text);
    said = hudarin_fault_name(status, fault, text, sizeof text);
    printf("%s%.*s at %" PRIu64 "\n", said.length > 0 ? ", " : "", (int)said.length, text, place);
}

static void show(const char *what, hudarin_verdict answer)
{
    if (answer.status == HUDARIN_OK) {
        printf("%s: %s 0x%" PRIx32 "\n", what, verdicts[answer.kind], answer.mask);
    } else {
        printf("argument %" PRIu32 ", ", answer.argument);
        refused(what, answer.status, answer.fault, answer.place);
    }
}

/* The entries of a kept descriptor, until there is none. */
static void list(hudarin_descriptor *descriptor)
{
    unsigned char bytes[HUDARIN_SID_BYTES];
    char text[HUDARIN_SID_TEXT_BYTES];
    uint64_t index;
    for (index = 0;; index++) {
        hudarin_entry entry = hudarin_descriptor_entry(descriptor, index, bytes, sizeof bytes);
        hudarin_written sid = hudarin_sid_bytes_to_full_text(bytes, (size_t)entry.written.length, text, sizeof text);
        if (entry.written.status != HUDARIN_OK || sid.status != HUDARIN_OK) {
            return;
        }
        printf("%s 0x%" PRIx32 " to %.*s\n", entry.kind == HUDARIN_ENTRY_DENY ? "denies" : "allows", entry.mask,
               (int)sid.length, text);
    }
}

/* The SIDs in a line that a token must not have, until there is none. */
static void list_unless(hudarin_lines *lines, uint64_t index)
{
    unsigned char bytes[HUDARIN_SID_BYTES];
    char text[HUDARIN_SID_TEXT_BYTES];
    uint64_t place;
    for (place = 0;; place++) {
        hudarin_value value = hudarin_line_value(lines, index, "unless", 6, place, bytes, sizeof bytes);
        hudarin_written sid = hudarin_sid_bytes_to_full_text(bytes, (size_t)value.written.length, text, sizeof text);
        if (value.written.status != HUDARIN_OK || sid.status != HUDARIN_OK) {
            return;
        }
        printf("not with %.*s\n", (int)sid.length, text);
    }
}

/* Whom a kept descriptor grants the rights: each line as a text, and a part of it as a value. */
static void who(hudarin_descriptor *descriptor, hudarin_mapping mapping, uint32_t asked)
{
    hudarin_lines lines = HUDARIN_NOTHING;
    hudarin_verdict answer = hudarin_who(descriptor, NULL, 0, NULL, 0, mapping, asked, &lines);
    uint64_t index, count = answer.status == HUDARIN_OK ? hudarin_lines_count(&lines).length : 0;
    for (index = 0; index < count; index++) {
        char text[200];
        hudarin_written line = hudarin_line_print(&lines, index, 0, text, sizeof text);
        printf("%.*s", line.status == HUDARIN_OK ? (int)line.length : 0, text);
        list_unless(&lines, index);
    }
    hudarin_free(&lines.kept);
}

int main(void)
{
    static const char sddl[] = "o:bag:syd:(d;;fw;;;s-1-5-21-1-2-3-1001)(a;;fa;;;bu)";
    static const hudarin_mapping files = HUDARIN_FILE_MAPPING;
    static unsigned char descriptor[HUDARIN_DESCRIPTOR_BYTES];
    unsigned char user[HUDARIN_SID_BYTES], groups[2 * HUDARIN_SID_BYTES];
    uint32_t states[] = { HUDARIN_GROUP_ENABLED, HUDARIN_GROUP_DENY_ONLY };
    char text[100];
    size_t groups_length;
    hudarin_descriptor kept = HUDARIN_NOTHING;
    hudarin_token token = HUDARIN_NOTHING;
    hudarin_written answer;
    hudarin_mask asked;

    answer = hudarin_sddl_to_bytes(sddl, sizeof sddl - 1, descriptor, sizeof descriptor);
    printf("bytes: status %" PRIu32 ", %" PRIu64 " of them\n", answer.status, answer.length);
    size_t length = (size_t)answer.length;

    answer = hudarin_bytes_to_sddl(descriptor, length, text, sizeof text);
    printf("text: %.*s\n", (int)answer.length, text);

    groups_length = sid("BU", groups);
    groups_length += sid("BA", groups + groups_length);
    hudarin_token_parts parts = { .user = user, .user_length = sid("S-1-5-21-1-2-3-1001", user), .groups = groups,
                                  .groups_length = groups_length, .states = states, .state_count = 2 };
    hudarin_token_parts alone = { .user = user, .user_length = parts.user_length };

    show("read", hudarin_check_parts(descriptor, length, &parts, files, 0x1));
    show("write", hudarin_check_parts(descriptor, length, &parts, files, 0x2));
    show("all that is granted", hudarin_check_parts(descriptor, length, &parts, files, HUDARIN_MAXIMUM_ALLOWED));

    asked = hudarin_mask_from_text("GR", 2, HUDARIN_KIND_ANY);
    show("GR, without groups", hudarin_check_parts(descriptor, length, &alone, files, asked.mask));

    /* A refusal says why, and nothing is written. */
    show("a descriptor that ends too soon", hudarin_check_parts(descriptor, length - 1, &parts, files, 0x1));
    parts.state_count = 1;
    show("a group without a state", hudarin_check_parts(descriptor, length, &parts, files, 0x1));
    parts.state_count = 2;
    answer = hudarin_sddl_to_bytes("D:(A;;FA;;;DA)", 14, descriptor, sizeof descriptor);
    refused("a domain's alias", answer.status, answer.fault, answer.place);
    answer = hudarin_bytes_to_sddl(descriptor, length, text, 10);
    printf("a small buffer: %" PRIu64 " bytes are required\n", answer.length);

    /* To check often, parse once. */
    answer = hudarin_keep_sddl(sddl, sizeof sddl - 1, &kept);
    printf("kept: status %" PRIu32 "\n", answer.status);
    list(&kept);
    hudarin_verdict made = hudarin_keep_parts(&parts, &token);
    if (made.status != HUDARIN_OK) {
        show("a token", made);
    }
    show("read, as kept", hudarin_check_kept(&kept, &token, files, 0x1));

    /* Of all users, not of one. */
    printf("write: ");
    who(&kept, files, 0x2);
    hudarin_free(&kept.kept);
    show("a handle that was freed", hudarin_check_kept(&kept, &token, files, 0x1));
    hudarin_free(&token.kept);
    return 0;
}
