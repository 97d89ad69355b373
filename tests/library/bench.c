/* Makes one call of libcdpatch many times, so that its instructions can be counted: `bench ROW ROUNDS`. Without arguments it lists the
 * rows. `bench stack` prints for each row its call, and the bytes of stack that one round needs. */
#define _DEFAULT_SOURCE
/* Calls are measured, and their results are not used. */
#define CDPATCH_NODISCARD
#include <cdpatch.h>
#include <signal.h>
#include <stdio.h>
#include <stdlib.h>
#include <string.h>

static uint8_t address[3] = {0x00, 0x02, 0x00}, user[CDPATCH_USER_SIZE], sector[CDPATCH_SECTOR_SIZE];

/* An image, and a script with a patch for one of its sectors. */
enum { SECTORS = 16 };
static const uint8_t script[] = "cdpatch 1\nset 7 5 41\n";
static const uint8_t all_verbs[] = "cdpatch 2\nset 0 2047 4142 was 0000\nfill 1 7 4096 FF\nrebuild 2\naddress 3 00:02:03\nset 99 0 41\n";
static const uint8_t many[] = "cdpatch 1\nset 7 5 41\nset 6 5 41\nset 1 5 41\nset 9 5 41\nset 7 6 41\nset 0 5 41\nset 3 5 41\nset 5 5 41\nset 2 5 41\n"
                              "set 4 5 41\nset 8 5 41\nset 5 6 41\nset 6 6 41\nset 1 6 41\nset 0 6 41\nset 2 6 41\n";
static uint8_t image[SECTORS * CDPATCH_SECTOR_SIZE], text[CDPATCH_LINE_SIZE];

/* Each round uses different bytes, so that nothing is moved out of the loop. */
static void version(uint8_t n) { user[n] = (uint8_t)cdpatch_version(); }
static void result_text(uint8_t n) { cdpatch_result_text(n % 7, text); }
static void kind(uint8_t n) { user[n] = (uint8_t)cdpatch_kind(sector); }
static void address_of(uint8_t n) { cdpatch_address(n, address); }
static void encode(uint8_t n) { user[5] = n; cdpatch_encode(address, user, sector); }
static void is_consistent(uint8_t n) { user[n] = cdpatch_is_consistent(sector); }
static void find_defect(uint8_t n) {
    struct cdpatch_defect found;
    cdpatch_find_defect(sector, &found);
    user[0] = found.p + n;
}
static void edc(uint8_t n) { user[n] = (uint8_t)cdpatch_edc(sector, 2064); }
static void fill_parity(uint8_t n) { sector[20] = n; cdpatch_fill_parity(sector); }
static void rebuild(uint8_t n) { sector[20] = n; cdpatch_rebuild(sector); }
static void change_user_1(uint8_t n) { cdpatch_change_user(sector, 7, &n, 1); }
static void change_user_2048(uint8_t n) { user[0] = n; cdpatch_change_user(sector, 0, user, CDPATCH_USER_SIZE); }
static void carry_user_1(uint8_t n) { cdpatch_carry_user(sector, 7, &n, 1); }
static void carry_user_8(uint8_t n) { memset(user, n, 8); cdpatch_carry_user(sector, 7, user, 8); }
static void carry_user_2048(uint8_t n) { user[0] = n; cdpatch_carry_user(sector, 0, user, CDPATCH_USER_SIZE); }
static void change_address(uint8_t n) { address[2] = n; cdpatch_change_address(sector, address); }
static void carry_address(uint8_t n) { address[2] = n; cdpatch_carry_address(sector, address); }

/* Lines of a script whose first digit changes, and their patches. */
static struct cdpatch_patch patch;
static struct cdpatch_place place;
static struct cdpatch_record records[SECTORS];
static struct cdpatch_sha1 hashed;
static uint8_t new_bytes[CDPATCH_PATCH_SIZE], old_bytes[CDPATCH_PATCH_SIZE], columns[86], diagonals[52];
static uint8_t damaged[CDPATCH_SECTOR_SIZE];
static volatile enum cdpatch_fit last_fit;
static volatile bool is_corrected;
static char comment[] = "# 0 a comment", rebuilding[] = "rebuild 0", setting[] = "set 0 5 41", asking[] = "set 0 5 41 was 42";
static char longest[8 + 2 * CDPATCH_PATCH_SIZE + 1], spaces[sizeof longest];

static void read_as(char *line, size_t size, size_t digit, uint8_t n) {
    line[digit] = '0' + n % 10;
    cdpatch_read_line(1, n, (const uint8_t *)line, size, &patch, new_bytes, old_bytes);
}
static void first_line(uint8_t n) {
    struct cdpatch_line line;
    cdpatch_first_line(script, sizeof script - 1 - n % 2, &line);
    place.offset = (uint16_t)line.taken;
}
static void read_comment(uint8_t n) { read_as(comment, sizeof comment - 1, 2, n); }
static void read_rebuild(uint8_t n) { read_as(rebuilding, sizeof rebuilding - 1, 8, n); }
static void read_set_1(uint8_t n) { read_as(setting, sizeof setting - 1, 4, n); }
static void read_set_1_was(uint8_t n) { read_as(asking, sizeof asking - 1, 4, n); }
static void read_set_4096(uint8_t n) { read_as(longest, sizeof longest - 1, 4, n); }
static void read_spaces(uint8_t n) { read_as(spaces, sizeof spaces - 1, sizeof spaces - 2, n); }

/* A patch on the first three sectors of the image. */
static void apply_patch(uint8_t verb, uint16_t count, uint8_t n, bool carry) {
    patch = (struct cdpatch_patch){.offset = 5, .count = count, .verb = verb, .address = {0x00, 0x02, n % 10}};
    if (verb > CDPATCH_VERB_FILL)
        patch.offset = 0;
    new_bytes[0] = n;
    cdpatch_apply_patch(&patch, new_bytes, old_bytes, image, 3, carry, &place);
}
static void patch_set_1(uint8_t n) { apply_patch(CDPATCH_VERB_SET, 1, n, false); }
static void patch_set_1_carried(uint8_t n) { apply_patch(CDPATCH_VERB_SET, 1, n, true); }
static void patch_set_2043(uint8_t n) { apply_patch(CDPATCH_VERB_SET, 2043, n, false); }
static void patch_rebuild(uint8_t n) { image[20] = n; apply_patch(CDPATCH_VERB_REBUILD, 0, n, false); }
static void patch_address(uint8_t n) { apply_patch(CDPATCH_VERB_ADDRESS, 0, n, false); }
static void patch_set_4096(uint8_t n) { apply_patch(CDPATCH_VERB_SET, 4096, n, false); }
static void outcome_line(uint8_t n) { cdpatch_outcome_line(n, CDPATCH_RESULT_DIFFERS, 449849, 2047, text); }
static void last_line(uint8_t n) { cdpatch_last_line(UINT32_MAX, n, text); }
static void fault_line(uint8_t n) { cdpatch_fault_line(UINT32_MAX, n % 10 + CDPATCH_CONTENT_NO_HEAD, text); }
static void list_line(uint8_t n) { cdpatch_list_line(n, UINT32_MAX, n % 5, text); }
static void list_end(uint8_t n) { cdpatch_list_end(UINT32_MAX, n, text); }
static void audit_line(uint8_t n) {
    struct cdpatch_record record = {CDPATCH_KIND_MODE1, true, true, true, 86, n};
    cdpatch_audit_line(UINT32_MAX, &record, text);
}
static void audit_end(uint8_t n) { cdpatch_audit_end(UINT32_MAX, UINT32_MAX, UINT32_MAX, n, text); }
static void survey_16(uint8_t n) { cdpatch_survey(image, SECTORS, n, records, SECTORS); }
static void find_broken(uint8_t n) { sector[20] = n; cdpatch_find_broken(sector, columns, diagonals); }
static void merge_sector(uint8_t n) {
    size_t chosen;
    memcpy(damaged, image, sizeof damaged);
    damaged[20] ^= n | 1;
    last_fit = cdpatch_merge_sector(address, damaged, image, SECTORS, &chosen);
}
static void correct_sector(uint8_t n) {
    memcpy(damaged, image, sizeof damaged);
    damaged[20] ^= n | 1;
    damaged[900] ^= n | 1;
    is_corrected = cdpatch_correct_sector(damaged);
}
static void sha1_begin(uint8_t n) { hashed.count = n; cdpatch_sha1_begin(&hashed); }
static void sha1_2352(uint8_t n) { sector[20] = n; cdpatch_sha1_add(&hashed, sector, sizeof sector); }
static void sha1_end(uint8_t n) { hashed.count = n; cdpatch_sha1_end(&hashed, text); }

/* The scripts of one and of 16 patches on the whole image, and on a piece that ends before the first patch. */
static struct cdpatch_entry entries[SECTORS];
static struct cdpatch_index index_found;
static struct cdpatch_patch_bytes patch_bytes;
static struct cdpatch_answer answers[SECTORS];

static void index_script(const uint8_t *text, size_t size) { (void)!cdpatch_index_script(text, size, entries, SECTORS, &index_found); }
static void apply_entries(const uint8_t *text, size_t size, size_t count, uint32_t flags) {
    size_t done;
    struct cdpatch_job job = {text, size, entries, index_found.count, &patch_bytes, index_found.version, 0, 0, flags, {0}};
    (void)!cdpatch_apply_entries(&job, image, count, answers, SECTORS, &done);
}
static void index_16(uint8_t n) { text[0] = n; index_script(many, sizeof many - 1); }
static void entries_1(uint8_t n) {
    index_script(script, sizeof script - 1);
    apply_entries(script, sizeof script - 1, SECTORS, n % 2 + CDPATCH_FLAG_LAST);
}
static void entries_16(uint8_t n) {
    index_script(many, sizeof many - 1);
    apply_entries(many, sizeof many - 1, SECTORS, n % 2 + CDPATCH_FLAG_LAST);
}
static void entries_all_verbs(uint8_t n) {
    index_script(all_verbs, sizeof all_verbs - 1);
    apply_entries(all_verbs, sizeof all_verbs - 1, SECTORS, n % 2 + CDPATCH_FLAG_LAST);
}
static void entries_none(uint8_t n) {
    index_script(script, sizeof script - 1);
    apply_entries(script, sizeof script - 1, 0, n % 2);
}
static void script_base(uint8_t n) {
    struct cdpatch_named_base other;
    text[0] = cdpatch_script_base(many, sizeof many - 1, n, &other);
}
static void block_of(uint8_t n) {
    uint32_t block;
    address[2] = n % 10;
    text[0] = cdpatch_block(address, &block);
}
static void failure_line(uint8_t n) { cdpatch_failure_line(n % 4, text); }

/* For each row: its name, its rounds, and the call that they make. */
static const struct row { const char *name; void (*round)(uint8_t n); const char *call; } rows[] = {
    {"version", version, "version"}, {"result_text", result_text, "result_text"}, {"edc", edc, "edc"}, {"kind", kind, "kind"},
    {"address", address_of, "address"}, {"encode", encode, "encode"}, {"fill_parity", fill_parity, "fill_parity"},
    {"is_consistent", is_consistent, "is_consistent"}, {"find_defect", find_defect, "find_defect"},
    {"find_broken", find_broken, "find_broken"}, {"merge_sector", merge_sector, "merge_sector"},
    {"correct_sector", correct_sector, "correct_sector"}, {"survey_16", survey_16, "survey"}, {"rebuild", rebuild, "rebuild"},
    {"change_user_1", change_user_1, "change_user"}, {"change_user_2048", change_user_2048, "change_user"},
    {"carry_user_1", carry_user_1, "carry_user"}, {"carry_user_8", carry_user_8, "carry_user"},
    {"carry_user_2048", carry_user_2048, "carry_user"},
    {"change_address", change_address, "change_address"}, {"carry_address", carry_address, "carry_address"},
    {"first_line", first_line, "first_line"}, {"read_comment", read_comment, "read_line"}, {"read_rebuild", read_rebuild, "read_line"},
    {"read_set_1", read_set_1, "read_line"}, {"read_set_1_was", read_set_1_was, "read_line"},
    {"read_set_4096", read_set_4096, "read_line"}, {"read_spaces", read_spaces, "read_line"},
    {"patch_set_1", patch_set_1, "apply_patch"},
    {"patch_set_1_carried", patch_set_1_carried, "apply_patch"}, {"patch_set_2043", patch_set_2043, "apply_patch"},
    {"patch_set_4096", patch_set_4096, "apply_patch"}, {"patch_rebuild", patch_rebuild, "apply_patch"},
    {"patch_address", patch_address, "apply_patch"}, {"outcome_line", outcome_line, "outcome_line"}, {"last_line", last_line, "last_line"},
    {"failure_line", failure_line, "failure_line"}, {"block", block_of, "block"}, {"script_base", script_base, "script_base"},
    {"index_16", index_16, "index_script"}, {"entries_1", entries_1, "apply_entries"}, {"entries_16", entries_16, "apply_entries"},
    {"entries_all_verbs", entries_all_verbs, "apply_entries"}, {"entries_none", entries_none, "apply_entries"},
    {"fault_line", fault_line, "fault_line"}, {"list_line", list_line, "list_line"}, {"list_end", list_end, "list_end"},
    {"audit_line", audit_line, "audit_line"}, {"audit_end", audit_end, "audit_end"}, {"sha1_begin", sha1_begin, "sha1_begin"},
    {"sha1_2352", sha1_2352, "sha1_add"}, {"sha1_end", sha1_end, "sha1_end"},
};
enum { ROWS = sizeof rows / sizeof *rows };

/* ---- the stack of a round, which runs in a signal handler on a stack that was filled before */

enum { KEPT = 0xA5 };
static volatile uint8_t stack[1 << 18];
static void (*volatile in_handler)(uint8_t n);

static void make_round(int signal) { in_handler((uint8_t)signal); }
static void nothing(uint8_t n) { text[0] = n; }

/* The number of bytes of the stack that have changed. */
static size_t stack_with(void (*round)(uint8_t n)) {
    size_t untouched = 0;
    round(0); /* The loader looks for a function at its first call, which takes stack too. */
    in_handler = round;
    memset((void *)stack, KEPT, sizeof stack);
    raise(SIGUSR1);
    while (untouched < sizeof stack && stack[untouched] == KEPT)
        untouched++;
    return sizeof stack - untouched;
}

static void print_stacks(void) {
    stack_t here = {.ss_sp = (void *)stack, .ss_size = sizeof stack};
    struct sigaction action = {.sa_handler = make_round, .sa_flags = SA_ONSTACK};
    sigaltstack(&here, NULL);
    sigaction(SIGUSR1, &action, NULL);
    for (size_t i = 0; i < ROWS; i++)
        printf("%s %zu\n", rows[i].call, stack_with(rows[i].round) - stack_with(nothing));
}

int main(int count, char **arguments) {
    cdpatch_encode(address, user, sector);
    for (uint32_t block = 0; block < SECTORS; block++) {
        cdpatch_address(block, address);
        cdpatch_encode(address, user, image + block * CDPATCH_SECTOR_SIZE);
    }
    cdpatch_address(0, address);
    memset(longest, '4', sizeof longest - 1);
    memset(spaces, ' ', sizeof spaces - 1);
    memcpy(longest, "set 0 5 ", 8);
    cdpatch_sha1_begin(&hashed);
    if (count == 2)
        print_stacks();
    for (size_t i = 0; i < ROWS && count != 2; i++) {
        if (count < 3)
            puts(rows[i].name);
        else if (!strcmp(arguments[1], rows[i].name))
            for (long n = 0; n < atol(arguments[2]); n++)
                rows[i].round((uint8_t)n);
    }
    return 0;
}
