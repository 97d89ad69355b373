/* Tests the calls of libcdpatch for lines, patches, and sectors in the hand: `scripts SAMPLES [long]`, where SAMPLES has consistent sectors
 * of the blocks from 0 on; with `long` also with a line as long as the longest script. Prints each failure. The status is 0 if there is
 * none. Arguments are in memory directly before, and directly after, pages that cannot be accessed. Bytes that a call must not write are
 * filled before, and compared after. */
#define _DEFAULT_SOURCE
#include "fenced.h"

enum { KEPT = 0xA5, SECTOR = CDPATCH_SECTOR_SIZE, SAMPLES = 3, LONGEST = CDPATCH_MOST_SCRIPT_BYTES };

/* The arguments of calls on scripts. */
struct room {
    struct cdpatch_line *line;
    struct cdpatch_patch *patch;
    struct cdpatch_place *place;
    uint8_t *new_bytes, *old_bytes, *text, *sectors;
};

static struct room rooms(bool at_end) {
    struct room made = {(struct cdpatch_line *)fenced(sizeof *made.line, at_end),
                        (struct cdpatch_patch *)fenced(sizeof *made.patch, at_end),
                        (struct cdpatch_place *)fenced(sizeof *made.place, at_end),
                        fenced(CDPATCH_PATCH_SIZE, at_end), fenced(CDPATCH_PATCH_SIZE, at_end),
                        fenced(CDPATCH_LINE_SIZE, at_end), fenced(SAMPLES * SECTOR, at_end)};
    return made;
}

static bool all_kept(const void *bytes, size_t count) {
    for (size_t i = 0; i < count; i++)
        if (((const uint8_t *)bytes)[i] != KEPT)
            return false;
    return true;
}

static void blank(const struct room *it) {
    memset(it->line, KEPT, sizeof *it->line);
    memset(it->patch, KEPT, sizeof *it->patch);
    memset(it->place, KEPT, sizeof *it->place);
    memset(it->new_bytes, KEPT, CDPATCH_PATCH_SIZE);
    memset(it->old_bytes, KEPT, CDPATCH_PATCH_SIZE);
    memset(it->text, KEPT, CDPATCH_LINE_SIZE);
}

/* ---- text and version */

/* Whether a call wrote this text, and nothing after it. */
static bool has_text(const uint8_t *room, size_t count, const char *text) {
    return count == strlen(text) && !memcmp(room, text, count) && all_kept(room + count, CDPATCH_LINE_SIZE - count);
}

/* The message with this name in tests/lib/messages.sh; tests/library/run exports all of them. */
static const char *message(const char *name) {
    const char *text = getenv(name);
    if (text)
        return text;
    fprintf(stderr, "no message %s in the environment\n", name);
    exit(2);
}

static void check_texts(const struct room *it) {
    static const char *const results[] = {"done", "the sector is not a Mode 1 sector", "the sector is damaged",
        "the bytes are not within the user data", "the image has no such block", "the old bytes differ",
        "the record is not one of a patch", ""};
    static const char *const outcomes[] = {"line 4294967295: applied\n",
        "line 4294967295: refused: block 4294967294 is not mode 1\n",
        "line 4294967295: refused: block 4294967294 is damaged\n", "",
        "line 4294967295: refused: no block 4294967294\n",
        "line 4294967295: refused: old bytes differ at block 4294967294 offset 65535\n", "", ""};
    const char *const faults[] = {message("no_head"), message("unknown_verb"), message("word_count"), message("bad_number"),
        message("bad_hex"), message("bad_length"), message("bad_offset"), message("bad_address"), "more than 65535 patches"};
    char wanted[CDPATCH_LINE_SIZE];
    judge(cdpatch_version() == CDPATCH_VERSION_NUMBER, "version", 0);
    for (uint32_t number = 0; number < 20; number++) {
        uint32_t any = number < 16 ? number : UINT32_MAX - (number - 16);
        blank(it);
        judge(has_text(it->text, cdpatch_result_text(any, it->text), results[any < 7 ? any : 7]), "result_text", any);
        blank(it);
        judge(has_text(it->text, cdpatch_outcome_line(UINT32_MAX, any, UINT32_MAX - 1, UINT16_MAX, it->text),
                       outcomes[any < 7 ? any : 7]), "outcome_line", any);
        blank(it);
        wanted[0] = 0;
        if (any >= CDPATCH_CONTENT_NO_HEAD && any < CDPATCH_CONTENT_NO_MEMORY)
            snprintf(wanted, sizeof wanted, "script line 4294967295: %s\n", faults[any - CDPATCH_CONTENT_NO_HEAD]);
        else if (any == CDPATCH_CONTENT_NO_MEMORY)
            strcpy(wanted, "script: no memory\n");
        judge(has_text(it->text, cdpatch_fault_line(UINT32_MAX, any, it->text), wanted), "fault_line", any);
    }
    blank(it);
    judge(has_text(it->text, cdpatch_last_line(UINT32_MAX, 0, it->text), "applied 4294967295 refused 0\n"), "last_line", 0);
}

/* The lines of `list` and `audit`: the longest, each part alone, and records without a line. */
static void check_report_lines(const struct room *it, bool at_end) {
    static const char *const kinds[] = {"nosync", "mode0", "mode1", "mode2", "other"};
    static const struct { uint32_t block; struct cdpatch_record record; const char *line; } findings[] = {
        {UINT32_MAX, {CDPATCH_KIND_MODE1, true, true, true, 255, 255}, "4294967295 address zeros edc p=255 q=255\n"},
        {0, {CDPATCH_KIND_MODE1, true, false, false, 0, 0}, "0 address\n"}, {1, {CDPATCH_KIND_MODE1, false, true, false, 0, 0}, "1 zeros\n"},
        {2, {CDPATCH_KIND_MODE1, false, false, true, 0, 0}, "2 edc\n"}, {3, {CDPATCH_KIND_MODE1, false, false, false, 86, 0}, "3 p=86\n"},
        {4, {CDPATCH_KIND_MODE1, false, false, false, 0, 1}, "4 q=1\n"}, {5, {CDPATCH_KIND_MODE1, false, false, false, 0, 0}, ""},
        {6, {CDPATCH_KIND_MODE2, true, true, true, 1, 1}, ""}, {7, {CDPATCH_KIND_MODE0, true, true, true, 1, 1}, ""},
        {8, {255, true, true, true, 1, 1}, ""}};
    struct cdpatch_record *record = (struct cdpatch_record *)fenced(sizeof *record, at_end);
    char wanted[CDPATCH_LINE_SIZE];
    for (uint32_t kind = 0; kind < 8; kind++) {
        uint32_t any = kind < 7 ? kind : UINT32_MAX;
        wanted[0] = 0;
        if (any <= CDPATCH_KIND_OTHER)
            snprintf(wanted, sizeof wanted, "16-4294967295 %s\n", kinds[any]);
        blank(it);
        judge(has_text(it->text, cdpatch_list_line(16, UINT32_MAX, any, it->text), wanted), "list_line", any);
    }
    blank(it);
    judge(has_text(it->text, cdpatch_list_line(7, 7, CDPATCH_KIND_MODE2, it->text), "7-7 mode2\n"), "a run of one sector", 0);
    blank(it);
    judge(has_text(it->text, cdpatch_list_line(7, 6, CDPATCH_KIND_MODE2, it->text), ""), "a run of no sector", 0);
    blank(it);
    judge(has_text(it->text, cdpatch_list_end(UINT32_MAX, 2351, it->text), "sectors 4294967295 tail 2351\n"), "list_end", 0);
    for (unsigned i = 0; i < sizeof findings / sizeof *findings; i++) {
        *record = findings[i].record;
        blank(it);
        judge(has_text(it->text, cdpatch_audit_line(findings[i].block, record, it->text), findings[i].line), "audit_line", i);
    }
    blank(it);
    judge(has_text(it->text, cdpatch_audit_end(UINT32_MAX, 3, 2, UINT16_MAX, it->text),
                   "sectors 4294967295 mode1 3 damaged 2 tail 65535\n"), "audit_end", 0);
}

/* ---- lines */

/* Reads a line from memory of exactly its length. A line without a patch must not write anything. */
static uint32_t read_text(const struct room *it, uint32_t version, size_t earlier, const char *text, bool at_end) {
    size_t size = strlen(text);
    uint8_t *line = fenced(size, at_end);
    uint32_t answer;
    memcpy(line, text, size);
    blank(it);
    answer = cdpatch_read_line(version, earlier, line, size, it->patch, it->new_bytes, it->old_bytes);
    judge(answer == CDPATCH_CONTENT_PATCH || (all_kept(it->patch, sizeof *it->patch) && all_kept(it->new_bytes, CDPATCH_PATCH_SIZE) &&
          all_kept(it->old_bytes, CDPATCH_PATCH_SIZE)), "a line without a patch writes nothing", answer);
    munmap((void *)(line - (uintptr_t)line % PAGE - PAGE), (size + PAGE - 1) / PAGE * PAGE + 2 * PAGE);
    return answer;
}

static void check_contents(const struct room *it, bool at_end) {
    static const struct { uint32_t version; size_t earlier; const char *text; uint32_t content; } lines[] = {
        {0, 0, "", CDPATCH_CONTENT_NOTHING}, {2, 65535, " \t", CDPATCH_CONTENT_NOTHING}, {0, 0, "# set", CDPATCH_CONTENT_NOTHING},
        {0, 0, "cdpatch 1", CDPATCH_CONTENT_VERSION_1}, {0, SIZE_MAX, "\tcdpatch  2 ", CDPATCH_CONTENT_VERSION_2},
        {0, 0, "cdpatch 9", CDPATCH_CONTENT_NO_HEAD}, {0, 0, "rebuild 1", CDPATCH_CONTENT_NO_HEAD}, {0, 0, "cdpatch 1\r", CDPATCH_CONTENT_NO_HEAD},
        {1, 0, "cdpatch 1", CDPATCH_CONTENT_UNKNOWN_VERB}, {1, 0, "address 1 00:02:00", CDPATCH_CONTENT_UNKNOWN_VERB},
        {2, 0, "address 1", CDPATCH_CONTENT_WORD_COUNT}, {1, 0, "set 1 2 41 is 42", CDPATCH_CONTENT_WORD_COUNT},
        {1, 0, "rebuild 1234567890", CDPATCH_CONTENT_BAD_NUMBER}, {1, 0, "set x 9999 4", CDPATCH_CONTENT_BAD_NUMBER},
        {1, 0, "set 1 2 4", CDPATCH_CONTENT_BAD_HEX}, {1, 0, "set 1 2 4142 was 4", CDPATCH_CONTENT_BAD_HEX},
        {1, 0, "set 1 2 4142 was 41", CDPATCH_CONTENT_BAD_LENGTH}, {1, 0, "fill 1 2 0 41", CDPATCH_CONTENT_BAD_LENGTH},
        {1, 0, "fill 1 2 4097 41", CDPATCH_CONTENT_BAD_LENGTH}, {1, 0, "set 1 2048 4", CDPATCH_CONTENT_BAD_OFFSET},
        {2, 0, "address 1 00:02:75", CDPATCH_CONTENT_BAD_ADDRESS},
        {1, 65534, "rebuild 1", CDPATCH_CONTENT_PATCH}, {1, 65535, "rebuild 1", CDPATCH_CONTENT_TOO_MANY},
        {1, 65536, "rebuild 1", CDPATCH_CONTENT_TOO_MANY}, {2, SIZE_MAX, "rebuild 1", CDPATCH_CONTENT_TOO_MANY},
        {1, SIZE_MAX, "rebuild", CDPATCH_CONTENT_WORD_COUNT}, {3, 0, "cdpatch 1", CDPATCH_CONTENT_NO_VERSION},
        {UINT32_MAX, 0, "", CDPATCH_CONTENT_NO_VERSION}, {256, 0, "rebuild 1", CDPATCH_CONTENT_NO_VERSION}};
    for (unsigned i = 0; i < sizeof lines / sizeof *lines; i++)
        judge(read_text(it, lines[i].version, lines[i].earlier, lines[i].text, at_end) == lines[i].content, lines[i].text, i);
}

/* Each kind of patch has the numbers and the bytes of its line. */
static void check_patches_read(const struct room *it, bool at_end) {
    const struct cdpatch_patch *patch = it->patch;
    judge(read_text(it, 1, 0, "set 999999999 2047 0a0B was fFf0", at_end) == CDPATCH_CONTENT_PATCH, "set", 0);
    judge(patch->verb == CDPATCH_VERB_SET && patch->block == 999999999 && patch->offset == 2047 && patch->count == 2 &&
          patch->has_old == 1, "the record of a set", 0);
    judge(!memcmp(it->new_bytes, "\x0A\x0B", 2) && all_kept(it->new_bytes + 2, CDPATCH_PATCH_SIZE - 2), "its new bytes", 0);
    judge(!memcmp(it->old_bytes, "\xFF\xF0", 2) && all_kept(it->old_bytes + 2, CDPATCH_PATCH_SIZE - 2), "its old bytes", 0);
    judge(read_text(it, 1, 0, "set 0 0 41", at_end) == CDPATCH_CONTENT_PATCH && patch->has_old == 0 && patch->count == 1 &&
          all_kept(it->old_bytes, CDPATCH_PATCH_SIZE), "a set without old bytes", 0);
    judge(read_text(it, 1, 0, "fill 1 2 4096 fe", at_end) == CDPATCH_CONTENT_PATCH && patch->verb == CDPATCH_VERB_FILL && patch->block == 1 &&
          patch->offset == 2 && patch->count == 4096 && patch->value == 0xFE, "the record of a fill", 0);
    judge(read_text(it, 1, 0, "rebuild 4", at_end) == CDPATCH_CONTENT_PATCH && patch->verb == CDPATCH_VERB_REBUILD && patch->block == 4,
          "the record of a rebuild", 0);
    judge(read_text(it, 2, 0, "address 5 12:34:56", at_end) == CDPATCH_CONTENT_PATCH && patch->verb == CDPATCH_VERB_ADDRESS &&
          patch->block == 5 && !memcmp(patch->address, "\x12\x34\x56", 3), "the record of an address", 0);
}

/* Lines of every length: a `set` with this many digits, of which at most 8192 are valid. */
static void check_lengths(const struct room *it, bool at_end) {
    static char text[9000];
    for (unsigned digits = 1; digits < 8500; digits += digits < 300 || digits > 8180 ? 1 : 97) {
        uint32_t wanted = digits % 2 ? CDPATCH_CONTENT_BAD_HEX : digits > 8192 ? CDPATCH_CONTENT_BAD_LENGTH : CDPATCH_CONTENT_PATCH;
        memcpy(text, "set 0 0 ", 8);
        memset(text + 8, 'c', digits);
        text[8 + digits] = 0;
        judge(read_text(it, 1, 0, text, at_end) == wanted, "a set of so many digits", digits);
        if (wanted == CDPATCH_CONTENT_PATCH)
            judge(it->patch->count == digits / 2 && it->new_bytes[0] == 0xCC && it->new_bytes[digits / 2 - 1] == 0xCC &&
                  all_kept(it->new_bytes + digits / 2, CDPATCH_PATCH_SIZE - digits / 2), "its bytes", digits);
        memset(text, digits % 2 ? ' ' : 0xFF, digits);
        text[digits] = 0;
        judge(read_text(it, 1, 0, text, at_end) == (digits % 2 ? CDPATCH_CONTENT_NOTHING : CDPATCH_CONTENT_UNKNOWN_VERB), "so many bytes", digits);
    }
}

static void check_long_line(const struct room *it) {
    static const struct { const char *front; uint32_t content; } lines[] = {
        {"", CDPATCH_CONTENT_UNKNOWN_VERB}, {"set 0 0 ", CDPATCH_CONTENT_BAD_LENGTH}, {"rebuild ", CDPATCH_CONTENT_BAD_NUMBER}, {"#", CDPATCH_CONTENT_NOTHING}};
    uint8_t *line = fenced(LONGEST, true);
    blank(it);
    memset(line, '0', LONGEST);
    for (unsigned i = 0; i < sizeof lines / sizeof *lines; i++) {
        memcpy(line, lines[i].front, strlen(lines[i].front));
        judge(cdpatch_read_line(1, 0, line, LONGEST, it->patch, it->new_bytes, it->old_bytes) == lines[i].content,
              "the longest line", i);
    }
    judge(all_kept(it->patch, sizeof *it->patch) && all_kept(it->new_bytes, CDPATCH_PATCH_SIZE), "it writes nothing", 0);
    judge(cdpatch_first_line(line, LONGEST, it->line) && it->line->size == LONGEST && it->line->taken == LONGEST, "no end", 0);
    line[LONGEST - 1] = '\n';
    judge(cdpatch_first_line(line, LONGEST, it->line) && it->line->size == LONGEST - 1 && it->line->taken == LONGEST, "an end", 0);
}

static void check_cutting(const struct room *it, bool at_end) {
    static const struct { const char *text; size_t size, taken; } lines[] = {
        {"a", 1, 1}, {"a\n", 1, 2}, {"a\r\n", 1, 3}, {"a\r", 2, 2}, {"\n", 0, 1}, {"\r\n", 0, 2}, {"\r\r\n\n", 1, 3},
        {"\r", 1, 1}, {"a\nb", 1, 2}, {"a\rb\n", 3, 4}, {"\na", 0, 1}, {"a\n\r\nb", 1, 2}, {"a\r\n\r\n", 1, 3}};
    blank(it);
    judge(!cdpatch_first_line(fenced(0, at_end), 0, it->line) && all_kept(it->line, sizeof *it->line), "no line", 0);
    for (unsigned i = 0; i < sizeof lines / sizeof *lines; i++) {
        size_t size = strlen(lines[i].text);
        uint8_t *text = fenced(size, at_end);
        memcpy(text, lines[i].text, size);
        judge(cdpatch_first_line(text, size, it->line) && it->line->size == lines[i].size && it->line->taken == lines[i].taken,
              "first_line", i);
    }
}

/* ---- patches on the sectors in hand */

/* Applies a record to `count` sectors, and checks the result, and that a refusal leaves the sectors unchanged. */
static void expect(const struct room *it, const uint8_t *samples, struct cdpatch_patch record, size_t count, bool carry,
                   uint32_t result, uint32_t block, uint16_t offset, const char *what) {
    uint8_t *sectors = it->sectors + (count < SAMPLES ? SAMPLES - count : 0) * SECTOR;
    uint32_t answer;
    *it->patch = record;
    memset(it->place, KEPT, sizeof *it->place);
    memcpy(it->sectors, samples, SAMPLES * SECTOR);
    answer = cdpatch_apply_patch(it->patch, it->new_bytes, it->old_bytes, sectors, count, carry, it->place);
    judge(answer == result, what, answer);
    judge(!memcmp(it->patch, &record, offsetof(struct cdpatch_patch, address) + 3), "the record stays", answer);
    if (answer == CDPATCH_RESULT_OK || answer == CDPATCH_RESULT_NO_PATCH)
        judge(all_kept(&it->place->block, 4) && all_kept(&it->place->offset, 2), "no place", answer);
    else
        judge(it->place->block == block && it->place->offset == offset, "the place", answer);
    judge((memcmp(it->sectors, samples, SAMPLES * SECTOR) != 0) == (answer == CDPATCH_RESULT_OK), "the sectors", answer);
}

/* A set of 4096 bytes from offset 2047 on, the longest range, covers three sectors. */
static void check_applied(const struct room *it, uint8_t *samples) {
    struct cdpatch_patch set = {16, 2047, 4096, CDPATCH_VERB_SET, 0, 0, {0, 0, 0}}, fill = {16, 7, 1, CDPATCH_VERB_FILL, 9, 0x42, {0, 0, 0}};
    uint8_t wanted[SECTOR];
    blank(it);
    expect(it, samples, set, 3, false, CDPATCH_RESULT_OK, 0, 0, "three sectors");
    judge(it->sectors[16 + 2046] == samples[16 + 2046] && it->sectors[16 + 2047] == KEPT && it->sectors[SECTOR + 16] == KEPT &&
          it->sectors[2 * SECTOR + 16 + 2046] == KEPT && it->sectors[2 * SECTOR + 16 + 2047] == samples[2 * SECTOR + 16 + 2047],
          "what is set", 0);
    for (int i = 0; i < SAMPLES; i++)
        judge(cdpatch_is_consistent(it->sectors + i * SECTOR), "each sector is consistent", (unsigned)i);
    expect(it, samples, set, 2, false, CDPATCH_RESULT_NO_BLOCK, 18, 0, "two sectors of three");
    expect(it, samples, set, 0, true, CDPATCH_RESULT_NO_BLOCK, 16, 0, "no sectors");
    expect(it, samples, fill, SIZE_MAX, false, CDPATCH_RESULT_OK, 0, 0, "a count of sectors that wraps");
    memcpy(wanted, samples, SECTOR);
    judge(cdpatch_change_user(wanted, 7, (const uint8_t *)"\x42", 1) == CDPATCH_RESULT_OK && !memcmp(it->sectors, wanted, SECTOR), "a fill is a change", 0);
    set.has_old = 1;
    memcpy(it->old_bytes, samples + 16 + 2047, 1);
    memcpy(it->old_bytes + 1, samples + SECTOR + 16, 2048);
    memcpy(it->old_bytes + 2049, samples + 2 * SECTOR + 16, 2047);
    expect(it, samples, set, 3, false, CDPATCH_RESULT_OK, 0, 0, "right old bytes");
    it->old_bytes[4095] ^= 1;
    expect(it, samples, set, 3, false, CDPATCH_RESULT_DIFFERS, 18, 2046, "the last old byte");
    it->old_bytes[0] ^= 1;
    expect(it, samples, set, 3, false, CDPATCH_RESULT_DIFFERS, 16, 2047, "the first old byte");
    samples[SECTOR + 2351] ^= 1;
    expect(it, samples, set, 3, false, CDPATCH_RESULT_DAMAGED, 17, 0, "a damaged sector");
    set.has_old = 0;
    expect(it, samples, set, 3, true, CDPATCH_RESULT_OK, 0, 0, "a damaged sector, with carry");
    samples[SECTOR + 2351] ^= 1;
    samples[2 * SECTOR + 15] = 2;
    expect(it, samples, set, 3, true, CDPATCH_RESULT_NOT_MODE1, 18, 0, "a sector of Mode 2");
    samples[2 * SECTOR + 15] = 1;
}

/* Records that no line can give, and records with any bytes in the other fields. */
static void check_records(const struct room *it, const uint8_t *samples) {
    struct cdpatch_patch set = {0, 0, 1, CDPATCH_VERB_SET, 0, 0, {0, 0, 0}}, other;
    blank(it);
#define REFUSED(field, value) \
    (other = set, other.field = (value), expect(it, samples, other, 3, true, CDPATCH_RESULT_NO_PATCH, 0, 0, #field " is " #value))
    REFUSED(block, 1000000000);
    REFUSED(block, UINT32_MAX);
    REFUSED(offset, 2048);
    REFUSED(offset, UINT16_MAX);
    REFUSED(count, 0);
    REFUSED(count, 4097);
    REFUSED(count, UINT16_MAX);
    REFUSED(verb, CDPATCH_VERB_ADDRESS + 1);
    REFUSED(verb, 255);
    REFUSED(has_old, 2);
    REFUSED(has_old, 255);
    set.verb = CDPATCH_VERB_FILL;
    REFUSED(count, 0);
    REFUSED(count, 4097);
    REFUSED(offset, 2048);
    set.verb = CDPATCH_VERB_ADDRESS;
    REFUSED(address[1], 0x60);
    REFUSED(address[2], 0x75);
    REFUSED(address[0], 0x9A);
    REFUSED(address[2], 0x0A);
    REFUSED(offset, 1);
    set.verb = CDPATCH_VERB_REBUILD;
    REFUSED(offset, 1);
#undef REFUSED
    memset(&other, 255, sizeof other);
    expect(it, samples, other, 3, true, CDPATCH_RESULT_NO_PATCH, 0, 0, "a record of bytes FF");
}

/* Fields that a record's verb does not use may have any value. */
static void check_other_fields(const struct room *it, uint8_t *samples) {
    struct cdpatch_patch set = {16, 0, 1, CDPATCH_VERB_SET, 0, 0xFF, {0xFF, 0xFF, 0xFF}};
    struct cdpatch_patch fill = {16, 0, 1, CDPATCH_VERB_FILL, 0xFF, 0x42, {0xFF, 0xFF, 0xFF}};
    struct cdpatch_patch rebuild = {16, 0, 0xFFFF, CDPATCH_VERB_REBUILD, 0xFF, 0xFF, {0xFF, 0xFF, 0xFF}};
    struct cdpatch_patch address = {16, 0, 0xFFFF, CDPATCH_VERB_ADDRESS, 0xFF, 0xFF, {0x12, 0x34, 0x56}};
    blank(it);
    expect(it, samples, set, 1, false, CDPATCH_RESULT_OK, 0, 0, "a set with other fields");
    expect(it, samples, fill, 1, false, CDPATCH_RESULT_OK, 0, 0, "a fill with other fields");
    expect(it, samples, address, 1, false, CDPATCH_RESULT_OK, 0, 0, "an address with other fields");
    samples[2 * SECTOR + 20] ^= 1;
    expect(it, samples, rebuild, 1, false, CDPATCH_RESULT_OK, 0, 0, "a rebuild with other fields");
    judge(cdpatch_is_consistent(it->sectors + 2 * SECTOR), "it removes the damage", 0);
    expect(it, samples, rebuild, 1, true, CDPATCH_RESULT_OK, 0, 0, "a rebuild with carry");
    judge(cdpatch_is_consistent(it->sectors + 2 * SECTOR), "that removes it too", 0);
    samples[2 * SECTOR + 20] ^= 1;
}

/* A null pointer is valid for no bytes. */
static void check_nulls(const struct room *it, const uint8_t *samples) {
    struct cdpatch_patch set = {16, 7, 1, CDPATCH_VERB_SET, 0, 0, {0, 0, 0}};
    struct cdpatch_record record;
    blank(it);
    judge(!cdpatch_first_line(NULL, 0, it->line) && all_kept(it->line, sizeof *it->line), "the first line of nothing", 0);
    judge(cdpatch_read_line(1, 0, NULL, 0, it->patch, it->new_bytes, it->old_bytes) == CDPATCH_CONTENT_NOTHING, "a line of no bytes", 0);
    judge(cdpatch_apply_patch(&set, it->new_bytes, it->old_bytes, NULL, 0, true, it->place) == CDPATCH_RESULT_NO_BLOCK &&
          it->place->block == 16, "a patch on no sectors", 0);
    judge(cdpatch_survey(NULL, 0, 0, NULL, 0), "a survey of nothing", 0);
    judge(!cdpatch_survey(samples, 1, 0, NULL, 0) && !cdpatch_survey(NULL, 0, 0, &record, 1), "no room for a survey", 0);
}

/* A line can be read again with 0 as the number of earlier patches. */
static void check_read_again(const struct room *it) {
    static const uint8_t line[] = "set 3 7 4142 was 4344";
    struct cdpatch_patch first;
    blank(it);
    judge(cdpatch_read_line(1, 65534, line, 21, it->patch, it->new_bytes, it->old_bytes) == CDPATCH_CONTENT_PATCH, "a line", 0);
    first = *it->patch;
    blank(it);
    judge(cdpatch_read_line(1, 0, line, 21, it->patch, it->new_bytes, it->old_bytes) == CDPATCH_CONTENT_PATCH &&
          it->patch->block == first.block && it->patch->count == first.count && !memcmp(it->new_bytes, "AB", 2) &&
          !memcmp(it->old_bytes, "CD", 2), "a line that is read again", 0);
}

/* ---- sectors */

static void check_survey(const uint8_t *samples, bool at_end) {
    static const size_t counts[][2] = {{1, 0}, {0, 1}, {3, 2}, {2, 3}, {SIZE_MAX, 3}, {SIZE_MAX, SIZE_MAX},
                                       {SIZE_MAX / SECTOR + 1, SIZE_MAX / SECTOR + 1}};
    uint8_t *sectors = fenced(SAMPLES * SECTOR, at_end);
    struct cdpatch_record *records = (struct cdpatch_record *)fenced(SAMPLES * sizeof *records, at_end);
    memcpy(sectors, samples, SAMPLES * SECTOR);
    sectors[2351] ^= 1;
    sectors[SECTOR + 15] = 2;
    memset(records, KEPT, SAMPLES * sizeof *records);
    for (unsigned i = 0; i < sizeof counts / sizeof *counts; i++)
        judge(!cdpatch_survey(sectors, counts[i][0], 0, records, counts[i][1]), "counts that differ, or wrap", i);
    judge(!cdpatch_survey(sectors, 3, UINT32_MAX - 2, records, 3), "a block above the last one", 0);
    judge(all_kept(records, SAMPLES * sizeof *records), "a refused survey writes nothing", 0);
    judge(cdpatch_survey(sectors, 0, UINT32_MAX, records, 0) && all_kept(records, 6), "a survey of no sectors", 0);
    judge(cdpatch_survey(sectors, 2, 0, records, 2) && all_kept(records + 2, sizeof *records), "a survey of two", 0);
    judge(cdpatch_survey(sectors, 3, UINT32_MAX - 3, records, 3), "a survey up to the last block", 0);
    judge(!records[0].address && !records[2].address, "no other address than that of a block without one", 0);
    judge(cdpatch_survey(sectors, 3, 0, records, 3), "a survey", 0);
    judge(!memcmp(records, "\2\0\0\0\0\1" "\3\0\0\0\0\0" "\2\0\0\0\0\0", 18), "damaged, of Mode 2, sound", 0);
    judge(cdpatch_survey(sectors, 3, 1, records, 3) && records[0].address && !records[1].address && records[2].address,
          "other addresses", 0);
}

/* Byte 20 is in P column 8 and in Q diagonal 44; the last byte is in Q diagonal 51. */
static void check_broken(const uint8_t *samples, bool at_end) {
    uint8_t *sector = fenced(SECTOR, at_end), *columns = fenced(86, at_end), *diagonals = fenced(52, at_end);
    uint8_t wanted[86] = {0};
    memcpy(sector, samples, SECTOR);
    memset(columns, KEPT, 86);
    memset(diagonals, KEPT, 52);
    cdpatch_find_broken(sector, columns, diagonals);
    judge(!memcmp(columns, wanted, 86) && !memcmp(diagonals, wanted, 52), "nothing is broken", 0);
    sector[2351] ^= 0x80;
    wanted[51] = 1;
    cdpatch_find_broken(sector, columns, diagonals);
    judge(!memcmp(diagonals, wanted, 52), "the last diagonal", 0);
    sector[2351] ^= 0x80;
    wanted[51] = 0;
    sector[20] ^= 1;
    wanted[8] = 1;
    cdpatch_find_broken(sector, columns, diagonals);
    judge(!memcmp(columns, wanted, 86), "the column of byte 20", 0);
    wanted[8] = 0;
    wanted[44] = 1;
    judge(!memcmp(diagonals, wanted, 52), "the diagonal of byte 20", 0);
}

int main(int count, char **arguments) {
    uint8_t samples[SAMPLES * SECTOR];
    FILE *file = count >= 2 ? fopen(arguments[1], "rb") : NULL;
    if (!file || fread(samples, 1, sizeof samples, file) != sizeof samples) {
        fputs("scripts SAMPLES [long]\n", stderr);
        return 2;
    }
    fclose(file);
    for (int at_end = 0; at_end < 2; at_end++) {
        struct room room = rooms(at_end);
        check_texts(&room);
        check_report_lines(&room, at_end);
        check_cutting(&room, at_end);
        check_contents(&room, at_end);
        check_patches_read(&room, at_end);
        check_lengths(&room, at_end);
        if (count == 3)
            check_long_line(&room);
        check_applied(&room, samples);
        check_records(&room, samples);
        check_other_fields(&room, samples);
        check_nulls(&room, samples);
        check_read_again(&room);
        check_survey(samples, at_end);
        check_broken(samples, at_end);
    }
    printf("%d failures\n", failures);
    return failures != 0;
}
