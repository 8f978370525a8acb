/* What the header has of its own: its version, mappings, rooms that suffice, the functions that stand in it; and domains. */
#include "tally.h"

static const unsigned char user[] = { 1, 5, 0, 0, 0, 0, 0, 5, 21, 0, 0, 0, 1, 0, 0, 0, 2, 0, 0, 0, 3, 0, 0, 0, 0xe9, 3, 0, 0 };

/* The longest SID: an authority of 48 bits, and fifteen sub-authorities of 32. */
static void longest_sid(void)
{
    unsigned char bytes[HUDARIN_SID_BYTES] = { 1, 15 };
    char text[HUDARIN_SID_TEXT_BYTES];
    hudarin_written answer;
    memset(bytes + 2, 0xff, sizeof bytes - 2);
    answer = hudarin_sid_bytes_to_text(bytes, sizeof bytes, text, sizeof text);
    HOLDS(answer.status == HUDARIN_OK && answer.length == sizeof text);
    HOLDS(memcmp(text, "S-1-0xffffffffffff-4294967295-", 30) == 0);
    HOLDS(memcmp(text + sizeof text - 11, "-4294967295", 11) == 0);
}

/* Of all attributes of a group two bits count, and one of them more. */
static void group_states(void)
{
    uint32_t attributes;
    for (attributes = 0; attributes < 0x100; attributes++) {
        uint32_t state = hudarin_group_state(0xC0000000u | attributes);
        HOLDS(state == ((attributes & 0x10) ? 0x10u : (attributes & 0x4) ? 0x4u : 0u));
    }
}

/* Granted is a verdict of one kind, and no status but OK. */
static void granted(void)
{
    uint32_t status, kind;
    for (status = 0; status < 13; status++) {
        for (kind = 0; kind < 6; kind++) {
            hudarin_verdict answer = { status, 0, 0, kind, 0, 0 };
            HOLDS(hudarin_is_granted(answer) == (status == 0 && kind == 1));
        }
    }
}

/* That the library reads a name of the standard as these rights. */
static void names(const char *name, uint32_t rights)
{
    hudarin_mask answer = hudarin_mask_from_text(name, strlen(name), HUDARIN_KIND_ANY);
    HOLDS(answer.status == HUDARIN_OK && answer.mask == rights);
}

/* The constants of rights, beside what SDDL's names stand for. */
static void rights(void)
{
    const uint32_t standard = HUDARIN_DELETE | HUDARIN_READ_CONTROL | HUDARIN_WRITE_DAC | HUDARIN_WRITE_OWNER;
    const uint32_t read = HUDARIN_FILE_READ_DATA | HUDARIN_FILE_READ_EA | HUDARIN_FILE_READ_ATTRIBUTES;
    const uint32_t write = HUDARIN_FILE_WRITE_DATA | HUDARIN_FILE_APPEND_DATA | HUDARIN_FILE_WRITE_EA | HUDARIN_FILE_WRITE_ATTRIBUTES;
    const uint32_t key_read = HUDARIN_KEY_QUERY_VALUE | HUDARIN_KEY_ENUMERATE_SUB_KEYS | HUDARIN_KEY_NOTIFY;
    const uint32_t key_write = HUDARIN_KEY_SET_VALUE | HUDARIN_KEY_CREATE_SUB_KEY;
    names("GR", HUDARIN_GENERIC_READ);
    names("GW", HUDARIN_GENERIC_WRITE);
    names("GX", HUDARIN_GENERIC_EXECUTE);
    names("GA", HUDARIN_GENERIC_ALL);
    names("SD", HUDARIN_DELETE);
    names("RC", HUDARIN_READ_CONTROL);
    names("WD", HUDARIN_WRITE_DAC);
    names("WO", HUDARIN_WRITE_OWNER);
    names("FR", read | HUDARIN_READ_CONTROL | HUDARIN_SYNCHRONIZE);
    names("FW", write | HUDARIN_READ_CONTROL | HUDARIN_SYNCHRONIZE);
    names("FX", HUDARIN_FILE_EXECUTE | HUDARIN_FILE_READ_ATTRIBUTES | HUDARIN_READ_CONTROL | HUDARIN_SYNCHRONIZE);
    names("FA", read | write | HUDARIN_FILE_EXECUTE | HUDARIN_FILE_DELETE_CHILD | standard | HUDARIN_SYNCHRONIZE);
    names("KR", key_read | HUDARIN_READ_CONTROL);
    names("KW", key_write | HUDARIN_READ_CONTROL);
    names("KA", key_read | key_write | HUDARIN_KEY_CREATE_LINK | standard);
    names("0x1000000", HUDARIN_ACCESS_SYSTEM_SECURITY);
    names("0x2000000", HUDARIN_MAXIMUM_ALLOWED);
}

/* What the four generic rights come to, beside the constants of the standard. */
static void mapped(hudarin_mapping mapping, const uint32_t *rights)
{
    hudarin_descriptor descriptor = HUDARIN_NOTHING;
    hudarin_token token = HUDARIN_NOTHING;
    int at;
    HOLDS(hudarin_keep_sddl("D:NO_ACCESS_CONTROL", 19, &descriptor).status == HUDARIN_OK);
    HOLDS(hudarin_keep_token(user, sizeof user, NULL, 0, NULL, 0, NULL, 0, 0, &token).status == HUDARIN_OK);
    for (at = 0; at < 4; at++) {
        hudarin_verdict answer = hudarin_check_kept(&descriptor, &token, mapping, 0x80000000u >> at);
        HOLDS(hudarin_is_granted(answer) && answer.mask == rights[at]);
    }
    hudarin_free(&descriptor.kept);
    hudarin_free(&token.kept);
}

static void mappings(void)
{
    static const hudarin_mapping files = HUDARIN_FILE_MAPPING, keys = HUDARIN_KEY_MAPPING;
    static const hudarin_mapping services = HUDARIN_SERVICE_MAPPING, processes = HUDARIN_PROCESS_MAPPING;
    static const uint32_t of_files[] = { 0x120089, 0x120116, 0x1200A0, 0x1F01FF }, of_keys[] = { 0x20019, 0x20006, 0x20019, 0xF003F };
    static const uint32_t of_services[] = { 0x2008D, 0x20002, 0x20170, 0xF01FF }, of_processes[] = { 0x20410, 0x20BEA, 0x121001, 0x1FFFFF };
    static const hudarin_mapping directory = HUDARIN_DIRECTORY_MAPPING, printers = HUDARIN_PRINTER_MAPPING;
    static const hudarin_mapping sections = HUDARIN_SECTION_MAPPING, tokens = HUDARIN_TOKEN_MAPPING, manager = HUDARIN_MANAGER_MAPPING;
    static const uint32_t of_directory[] = { 0x20094, 0x20028, 0x20004, 0xF01FF }, of_printers[] = { 0x20008, 0x20008, 0x20008, 0xF000C };
    static const uint32_t of_sections[] = { 0x20005, 0x20002, 0x20008, 0xF001F }, of_tokens[] = { 0x20008, 0x200E0, 0x20000, 0xF01FF };
    static const uint32_t of_manager[] = { 0x20014, 0x20022, 0x20009, 0xF003F };
    mapped(files, of_files);
    mapped(keys, of_keys);
    mapped(services, of_services);
    mapped(processes, of_processes);
    mapped(directory, of_directory);
    mapped(printers, of_printers);
    mapped(sections, of_sections);
    mapped(tokens, of_tokens);
    mapped(manager, of_manager);
    hudarin_free(NULL);
}

/* The aliases of a domain, by the relative identifiers of the standard: 512 is DA's, 513 DU's. */
static void domains(void)
{
    static const char text[] = "O:DAG:DUD:(A;;FA;;;DA)", plain[] = "O:S-1-5-21-1-2-3-512G:S-1-5-21-1-2-3-513D:(A;;FA;;;S-1-5-21-1-2-3-512)";
    unsigned char in_domain[200], in_full[200];
    hudarin_written one, other = hudarin_sddl_to_bytes(plain, sizeof plain - 1, in_full, sizeof in_full);
    unsigned char domain[sizeof user];
    memcpy(domain, user, sizeof user);
    domain[1] = 4; /* the user's SID without its last sub-authority, which stands behind it then */
    one = hudarin_sddl_to_bytes_in(domain, sizeof domain, text, sizeof text - 1, in_domain, sizeof in_domain);
    HOLDS(one.status == HUDARIN_OK && other.status == HUDARIN_OK && one.length == other.length);
    HOLDS(memcmp(in_domain, in_full, (size_t)one.length) == 0);
    HOLDS(hudarin_sddl_to_bytes_in(domain, sizeof domain, text, sizeof text - 1, NULL, 0).status == HUDARIN_ROOM);
    one = hudarin_sddl_to_bytes_in(user, sizeof user, text, sizeof text - 1, in_domain, sizeof in_domain);
    HOLDS(one.status == HUDARIN_DOMAIN && one.fault == 0 && one.place == 0 && one.length == 0);
    one = hudarin_sddl_to_bytes_in(user, 27, "\xff", 1, in_domain, sizeof in_domain);
    HOLDS(one.status == HUDARIN_SID && one.fault == HUDARIN_SID_SHORT);
    one = hudarin_sddl_to_bytes_in(domain, 24, "\xff", 1, in_domain, sizeof in_domain);
    HOLDS(one.status == HUDARIN_UTF8 && one.place == 0);
    one = hudarin_sddl_to_bytes_in(domain, 24, "O:DAG:QQ", 8, in_domain, sizeof in_domain);
    HOLDS(one.status == HUDARIN_TEXT && one.fault == HUDARIN_TEXT_UNKNOWN_ALIAS && one.place == 6);
    one = hudarin_sid_text_to_bytes_in(domain, 24, "DU", 2, in_domain, sizeof in_domain);
    other = hudarin_sid_text_to_bytes("S-1-5-21-1-2-3-513", 18, in_full, sizeof in_full);
    HOLDS(one.status == HUDARIN_OK && one.length == other.length && memcmp(in_domain, in_full, (size_t)one.length) == 0);
    HOLDS(hudarin_sid_text_to_bytes("DU", 2, in_domain, sizeof in_domain).fault == HUDARIN_TEXT_DOMAIN_ALIAS);
    HOLDS(hudarin_sid_text_to_bytes_in(NULL, 0, "DU", 2, in_domain, sizeof in_domain).fault == HUDARIN_SID_SHORT);
}

int main(void)
{
    hudarin_library library = hudarin_version();
    HOLDS(library.major == HUDARIN_VERSION_MAJOR && library.minor == HUDARIN_VERSION_MINOR && library.patch == HUDARIN_VERSION_PATCH);
    longest_sid();
    group_states();
    rights();
    granted();
    mappings();
    domains();
    return close_tally();
}
