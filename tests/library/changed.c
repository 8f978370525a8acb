/*
 * A million changed texts, SIDs, masks and descriptors, from a fixed seed. What is read is printed and read again, as the same
 * bytes; what isn't leaves its room as it was. A word gives another count.
 */
#include "tally.h"

#define MOST 512
#define ROOM 4096

static const hudarin_mapping files = HUDARIN_FILE_MAPPING;
static unsigned char *given_end;
static unsigned char first[ROOM], second[ROOM], third[ROOM];
static unsigned long texts_read, bytes_read, sids_read, masks_read;
static uint64_t state = 0x9E3779B97F4A7C15u;

/* The next number below a limit, by xorshift. */
static uint32_t below(uint32_t limit)
{
    state ^= state << 13;
    state ^= state >> 7;
    state ^= state << 17;
    return (uint32_t)((state >> 16) % limit);
}

static const char *const seeds[] = {
    "O:BAG:SYD:PARAI(A;OICI;FA;;;SY)(D;;FW;;;S-1-5-21-1-2-3-1001)",
    "D:(A;;0x1f01ff;;;WD)(A;IOID;RCSD;;;OW)",
    "o:s-1-0x000000000005-018d:pai(a;idoi;017;;;wd)",
    "D:ARNO_ACCESS_CONTROL",
    "G:S-1-4294967296-1-2-3-4-5-6-7-8-9-10-11-12-13-14-15D:(D;SAFA;GRGWGXGA;;;PS)",
    "",
};
#define SEEDS (sizeof seeds / sizeof *seeds)

/* The self-relative forms of the seeds. */
static unsigned char forms[SEEDS][MOST / 2];
static size_t form_lengths[SEEDS];

static const char letters[] = "OGDSAPRIWBUYCNLTEKFX:();-0123456789xabcdef_\xc3\xa9\xff";
static const char *const parts[] = { "(A;;FA;;;WD)", "S-1-", "0x", "D:", "S:", "NO_ACCESS_CONTROL", "OICI", ";;;", "4294967296", "BA" };

/* Some bytes are put in place of some others, at a few places. */
static size_t changed(unsigned char *bytes, size_t length, int is_text)
{
    uint32_t times = below(5);
    while (times-- > 0) {
        size_t at = below((uint32_t)length + 1), end, put_length = 1;
        unsigned char put[20];
        if (is_text && below(3) == 0) {
            const char *part = parts[below(sizeof parts / sizeof *parts)];
            put_length = strlen(part);
            memcpy(put, part, put_length);
        } else if (is_text) {
            put[0] = (unsigned char)letters[below(sizeof letters - 1)];
        } else {
            put[0] = (unsigned char)(below(2) ? below(256) : below(24));
        }
        end = at + below(3);
        if (!is_text && below(4) != 0) {
            end = at + put_length;
        }
        if (end > length) {
            end = length;
        }
        if (length - (end - at) + put_length > MOST) {
            continue;
        }
        memmove(bytes + at + put_length, bytes + end, length - end);
        memcpy(bytes + at, put, put_length);
        length = length - (end - at) + put_length;
    }
    return below(8) == 0 && length > 0 ? below((uint32_t)length) : length;
}

/* The bytes, put where nothing can be read behind them. */
static unsigned char *lent(const unsigned char *bytes, size_t length)
{
    return memcpy(given_end - length, bytes, length);
}

/* Refused: a reason is told, and the room is as it was. */
static int is_refusal(hudarin_written answer, uint32_t status, const unsigned char *room)
{
    return (answer.status == status || answer.status == HUDARIN_UTF8) && (answer.fault != 0) == (answer.status != HUDARIN_UTF8) &&
           answer.length == 0 && room[0] == 0x5A && room[1] == 0x5A;
}

/* The form in `first` is printed as a text that is read as the same form, and that is its own canonical text. */
static void comes_back(size_t length)
{
    hudarin_written text = hudarin_bytes_to_sddl(first, length, (char *)second, ROOM), again;
    HOLDS(text.status == HUDARIN_OK);
    again = hudarin_sddl_to_bytes((char *)second, (size_t)text.length, third, ROOM);
    HOLDS(again.status == HUDARIN_OK && again.length == length && memcmp(first, third, length) == 0);
    again = hudarin_sddl_canonical((char *)second, (size_t)text.length, (char *)third, ROOM);
    HOLDS(again.status == HUDARIN_OK && again.length == text.length && memcmp(second, third, (size_t)text.length) == 0);
    again = hudarin_descriptor_length(first, length);
    HOLDS(again.status == HUDARIN_OK && again.length == length);
}

static void change_text(void)
{
    unsigned char text[MOST + 32];
    uint32_t seed = below(SEEDS);
    size_t length = strlen(seeds[seed]);
    hudarin_written answer;
    memcpy(text, seeds[seed], length);
    length = changed(text, length, 1);
    first[0] = first[1] = 0x5A;
    answer = hudarin_sddl_to_bytes((char *)lent(text, length), length, first, ROOM);
    if (answer.status == HUDARIN_OK) {
        texts_read++;
        comes_back((size_t)answer.length);
    } else {
        HOLDS(is_refusal(answer, HUDARIN_TEXT, first) && answer.place <= length);
        second[0] = second[1] = 0x5A;
        answer = hudarin_sddl_canonical((char *)given_end - length, length, (char *)second, ROOM);
        HOLDS(is_refusal(answer, HUDARIN_TEXT, second));
    }
}

/* How many bytes of the groups are restricting SIDs too: a quarter of the checks is of a restricted token. */
static size_t restricting(uint32_t asked, size_t groups)
{
    return (asked >> 4) % 4 == 3 ? groups : 0;
}

/* The verdict for the groups of the seeds, on any mask. */
static hudarin_verdict verdict(const unsigned char *bytes, size_t length, uint32_t asked)
{
    static const unsigned char user[] = { 1, 5, 0, 0, 0, 0, 0, 5, 21, 0, 0, 0, 1, 0, 0, 0, 2, 0, 0, 0, 3, 0, 0, 0, 0xe9, 3, 0, 0 };
    static const unsigned char groups[] = { 1, 1, 0, 0, 0, 0, 0, 1, 0, 0, 0, 0, 1, 1, 0, 0, 0, 0, 0, 5, 18, 0, 0, 0 };
    static const uint32_t states[] = { HUDARIN_GROUP_ENABLED, HUDARIN_GROUP_DENY_ONLY };
    return hudarin_check(bytes, length, user, sizeof user, groups, sizeof groups, states, 2, groups,
                         restricting(asked, sizeof groups), asked & 3, files, asked);
}

/* An explanation has the check's answer, no bit in two parts, and what is granted in parts that say so. */
static void explains(hudarin_descriptor *descriptor, hudarin_token *token, uint32_t asked, hudarin_verdict there)
{
    hudarin_explanation why = hudarin_explain(descriptor, token, files, asked);
    uint32_t all = 0, granted = 0;
    unsigned place;
    HOLDS(why.answer.status == there.status && why.answer.kind == there.kind && why.answer.mask == there.mask);
    for (place = 0; place < 32; place++) {
        const hudarin_part *part = &why.parts[place];
        HOLDS((part->mask & all) == 0 && (part->mask == 0 || (part->mask & -part->mask) == (uint32_t)1 << place));
        all |= part->mask;
        granted |= part->granted ? part->mask : 0;
    }
    HOLDS(there.kind != HUDARIN_GRANTED || granted == there.mask);
    HOLDS(there.status == HUDARIN_OK || all == 0);
}

/* The same by handles, and by bytes with the token's: what is kept answers as the bytes do, and is freed again. */
static void keeps(const unsigned char *bytes, size_t length, uint32_t asked, hudarin_verdict here)
{
    static const unsigned char user[] = { 1, 5, 0, 0, 0, 0, 0, 5, 21, 0, 0, 0, 1, 0, 0, 0, 2, 0, 0, 0, 3, 0, 0, 0, 0xe9, 3, 0, 0 };
    static const unsigned char groups[] = { 1, 1, 0, 0, 0, 0, 0, 1, 0, 0, 0, 0, 1, 1, 0, 0, 0, 0, 0, 5, 18, 0, 0, 0 };
    static const uint32_t states[] = { HUDARIN_GROUP_ENABLED, HUDARIN_GROUP_DENY_ONLY };
    hudarin_descriptor descriptor = HUDARIN_NOTHING;
    hudarin_token token = HUDARIN_NOTHING;
    hudarin_verdict there = hudarin_keep_token(user, sizeof user, groups, sizeof groups, states, 2, groups,
                                               restricting(asked, sizeof groups), asked & 3, &token);
    hudarin_written answer = hudarin_keep_bytes(bytes, length, &descriptor);
    HOLDS(there.status == HUDARIN_OK && answer.status == here.status && answer.fault == here.fault);
    there = hudarin_check_kept(&descriptor, &token, files, asked);
    if (here.status == HUDARIN_OK) {
        HOLDS(there.status == HUDARIN_OK && there.kind == here.kind && there.mask == here.mask);
    } else {
        HOLDS(there.status == HUDARIN_HANDLE && there.argument == HUDARIN_ARGUMENT_DESCRIPTOR);
    }
    explains(&descriptor, &token, asked, there);
    there = hudarin_check_bytes(bytes, length, &token, files, asked);
    HOLDS(there.status == here.status && there.fault == here.fault && there.kind == here.kind && there.mask == here.mask);
    hudarin_free(&descriptor.kept);
    hudarin_free(&token.kept);
    HOLDS(descriptor.kept.is_there == 0 && token.kept.is_there == 0);
}

static void change_bytes(void)
{
    unsigned char bytes[MOST + 32];
    uint32_t seed = below(SEEDS), asked = below(2) ? 0x02000000u : (uint32_t)1 << below(32);
    size_t length = form_lengths[seed];
    hudarin_written answer, form;
    hudarin_verdict here;
    memcpy(bytes, forms[seed], length);
    length = changed(bytes, length, 0);
    second[0] = second[1] = 0x5A;
    answer = hudarin_bytes_to_sddl(lent(bytes, length), length, (char *)second, ROOM);
    here = verdict(given_end - length, length, asked);
    keeps(given_end - length, length, asked, here);
    if (answer.status == HUDARIN_OK) {
        hudarin_verdict there;
        bytes_read++;
        form = hudarin_sddl_to_bytes((char *)second, (size_t)answer.length, first, ROOM);
        HOLDS(form.status == HUDARIN_OK);
        comes_back((size_t)form.length);
        there = verdict(first, (size_t)form.length, asked);
        HOLDS(here.status == HUDARIN_OK && here.kind == there.kind && here.mask == there.mask && there.status == HUDARIN_OK);
        answer = hudarin_descriptor_length(given_end - length, length);
        HOLDS(answer.status == HUDARIN_OK && answer.length <= length);
        form = hudarin_descriptor_length(lent(bytes, (size_t)answer.length), (size_t)answer.length);
        HOLDS(form.status == HUDARIN_OK && form.length == answer.length);
    } else {
        HOLDS(is_refusal(answer, HUDARIN_WIRE, second));
        HOLDS(here.status == HUDARIN_WIRE && here.fault == answer.fault && here.argument == HUDARIN_ARGUMENT_DESCRIPTOR);
    }
}

static void change_sid(void)
{
    unsigned char text[MOST + 32] = "S-1-5-21-1-2-3-1001";
    size_t length = changed(text, 19, 1);
    hudarin_written answer, again;
    first[0] = first[1] = 0x5A;
    answer = hudarin_sid_text_to_bytes((char *)lent(text, length), length, first, HUDARIN_SID_BYTES);
    if (answer.status != HUDARIN_OK) {
        HOLDS(is_refusal(answer, HUDARIN_TEXT, first));
        return;
    }
    sids_read++;
    again = hudarin_sid_bytes_to_text(lent(first, (size_t)answer.length), (size_t)answer.length, (char *)second, ROOM);
    HOLDS(again.status == HUDARIN_OK);
    again = hudarin_sid_text_to_bytes((char *)second, (size_t)again.length, third, ROOM);
    HOLDS(again.status == HUDARIN_OK && again.length == answer.length && memcmp(first, third, (size_t)again.length) == 0);
}

static void change_mask(void)
{
    static const char *const masks[] = { "0x1f01ff", "RCSDWDWO", "017", "4294967295", "", "Modify+WRITE_DAC+0x200",
                                         "PROCESS_VM_READ+GA" };
    unsigned char text[MOST + 32];
    char printed[1024];
    const char *seed = masks[below(7)];
    uint32_t kind = below(5);
    size_t length = strlen(seed);
    hudarin_mask answer, again;
    hudarin_written written;
    memcpy(text, seed, length);
    length = changed(text, length, 1);
    answer = hudarin_mask_from_text((char *)lent(text, length), length, kind);
    if (answer.status != HUDARIN_OK) {
        HOLDS((answer.status == HUDARIN_TEXT || answer.status == HUDARIN_UTF8) && answer.mask == 0 && answer.place <= length);
        return;
    }
    masks_read++;
    written = hudarin_mask_to_text(answer.mask, kind, printed, sizeof printed);
    HOLDS(written.status == HUDARIN_OK);
    again = hudarin_mask_from_text(printed, (size_t)written.length, kind);
    HOLDS(again.status == HUDARIN_OK && again.mask == answer.mask);
}

int main(int argc, char **argv)
{
    unsigned long turn, turns = argc > 1 ? strtoul(argv[1], NULL, 10) : 1000000;
    size_t seed;
    given_end = room_end(2 * MOST);
    for (seed = 0; seed < SEEDS; seed++) {
        hudarin_written answer = hudarin_sddl_to_bytes(seeds[seed], strlen(seeds[seed]), forms[seed], sizeof forms[seed]);
        HOLDS(answer.status == HUDARIN_OK);
        form_lengths[seed] = (size_t)answer.length;
    }
    for (turn = 0; turn < turns; turn++) {
        switch (turn % 8) {
        case 0: change_sid(); break;
        case 1: change_mask(); break;
        case 2: case 3: case 4: change_text(); break;
        default: change_bytes(); break;
        }
    }
    /* (a run in which hardly anything is read shows nothing) */
    HOLDS(texts_read > turns / 20 && bytes_read > turns / 20 && sids_read > turns / 100 && masks_read > turns / 100);
    printf("of %lu: %lu texts, %lu descriptors, %lu SIDs and %lu masks are read\n", turns, texts_read, bytes_read, sids_read,
           masks_read);
    return close_tally();
}
