/* Makes random calls of libcdpatch: `random_calls SEED COUNT` writes a record for each, with the arguments, the result, and the bytes that it
 * left. The same seed makes the same calls, so two builds must give the same bytes, and replay.mjs repeats the calls on a module. An
 * argument without bytes is a null pointer in half of the cases.
 *
 * A record is the name of the call and a zero; the number of its arguments in a byte; the arguments, each after one letter: `n` and a
 * number, or `s` and a size, of 8 bytes; `z` for a null pointer; `i`, a size of 4 bytes, and bytes that are only read; `r`, a size, the
 * bytes before the call, and those after it; and at the end 8 bytes of the call's result. */
#include <cdpatch.h>
#include <stdio.h>
#include <stdlib.h>
#include <string.h>

enum { SECTOR = CDPATCH_SECTOR_SIZE, MOST_SECTORS = 6, MOST_BYTES = MOST_SECTORS * SECTOR + 5000, MOST_ARGUMENTS = 16, MOST_ENTRIES = 12, CALLS = 35 };

static uint64_t state;
static uint8_t sectors[MOST_BYTES], bytes[MOST_BYTES], old_bytes[MOST_BYTES], out[MOST_BYTES], address[3], address_room[3];
static uint8_t text[MOST_BYTES], columns[86], diagonals[52], digest[20];
static struct cdpatch_line line;
static struct cdpatch_patch patch;
static struct cdpatch_place place;
static struct cdpatch_defect defect;
static struct cdpatch_record records[MOST_SECTORS];
static struct cdpatch_sha1 sha1;
static struct cdpatch_entry entries[MOST_ENTRIES];
static struct cdpatch_index index_found;
static struct cdpatch_named_base other;

/* ---- the record of a call */

static struct argument { char letter; uint64_t number; const uint8_t *bytes; uint8_t *before; } arguments[MOST_ARGUMENTS];
static size_t taken;
static const char *name;

static void put(const void *from, size_t count) {
    if (fwrite(from, 1, count, stdout) != count)
        exit(2);
}

static void begin(const char *call) {
    name = call;
    taken = 0;
}
static void add(char letter, uint64_t number, const void *from, uint8_t *before) {
    arguments[taken++] = (struct argument){letter, number, (const uint8_t *)from, before};
}
static void number(uint64_t value) { add('n', value, NULL, NULL); }
static void size(uint64_t value) { add('s', value, NULL, NULL); }
static void input(const void *from, size_t count) { add(from ? 'i' : 'z', count, from, NULL); }
static void room(const void *from, size_t count) {
    uint8_t *before = from && count ? (uint8_t *)malloc(count) : NULL;
    if (before)
        memcpy(before, from, count);
    add(from ? 'r' : 'z', count, from, before);
}

static void end(uint64_t result) {
    uint8_t count = (uint8_t)taken;
    put(name, strlen(name) + 1);
    put(&count, 1);
    for (struct argument *it = arguments; it < arguments + taken; it++) {
        put(&it->letter, 1);
        if (it->letter == 'n' || it->letter == 's')
            put(&it->number, 8);
        if (it->letter != 'i' && it->letter != 'r')
            continue;
        put(&it->number, 4);
        if (it->letter == 'r')
            put(it->before, it->number);
        put(it->bytes, it->number);
        free(it->before);
    }
    put(&result, 8);
}

/* ---- the arguments of calls */

static uint64_t some(uint64_t below) {
    state ^= state << 13;
    state ^= state >> 7;
    state ^= state << 17;
    return (state * 0x2545F4914F6CDD1D >> 11) % below;
}
static bool once_in(uint64_t count) { return some(count) == 0; }
static void fill(uint8_t *to, size_t count) {
    for (size_t i = 0; i < count; i++)
        to[i] = (uint8_t)some(256);
}
static uint64_t some_number(void) {
    static const uint64_t limits[] = {0, 1, 2, 3, 65535, 65536, 449849, 449850, 999999999, 1000000000, UINT32_MAX - 1, UINT32_MAX};
    return once_in(3) ? some((uint64_t)1 << 32) : once_in(2) ? some(30) : limits[some(sizeof limits / sizeof *limits)];
}
static uint64_t some_size(void) { return once_in(8) ? UINT64_MAX - some(70) : once_in(3) ? some_number() : some(2100); }

/* A pointer to bytes; for no bytes, a null pointer in half of the cases. */
static void *lent(void *from, size_t count) { return count == 0 && once_in(2) ? NULL : from; }

/* A sound sector, or one with some changed bytes, mostly of Mode 1; or random bytes. */
static void make_sector(uint8_t *sector) {
    uint8_t user[CDPATCH_USER_SIZE];
    if (once_in(20)) {
        fill(sector, SECTOR);
        return;
    }
    memset(user, (int)some(256), sizeof user);
    if (once_in(2))
        fill(user, sizeof user);
    if (!cdpatch_address((uint32_t)some(449860), address))
        fill(address, 3);
    cdpatch_encode(address, user, sector);
    for (uint64_t left = once_in(2) ? 0 : some(once_in(8) ? 40 : 4); left > 0; left--)
        sector[once_in(3) ? some(SECTOR) : 2064 + some(288)] = (uint8_t)some(256);
    if (once_in(8))
        sector[once_in(2) ? 15 : some(16)] = (uint8_t)some(4);
}
static size_t make_sectors(size_t most) {
    size_t count = some(most + 1);
    for (size_t i = 0; i < count; i++)
        make_sector(sectors + i * SECTOR);
    return count;
}

static size_t put_hex(char *to, size_t count) {
    for (size_t i = 0; i < 2 * count; i++)
        to[i] = "0123456789abcdefABCDEF"[some(22)];
    return 2 * count;
}

/* Writes a line of a script, mostly correct, without its end, and returns its size. The blocks are small numbers. */
static size_t make_line(char *to) {
    size_t at, count = once_in(9) ? some(4100) : some(20), block = some(9);
    if (once_in(12))
        block = some_number();
    switch (some(9)) {
    case 0: return (size_t)sprintf(to, "%s", (const char *const[]){"", "# any", "cdpatch 1", "cdpatch 2", " \t"}[some(5)]);
    case 1: return (size_t)sprintf(to, "rebuild %zu", block);
    case 2: return (size_t)sprintf(to, "address %zu %02d:%02d:%02d", block, (int)some(101), (int)some(61), (int)some(76));
    case 3: return (size_t)sprintf(to, "fill %zu %d %zu %02X", block, (int)some(2060), count, (int)some(256));
    case 4: at = (size_t)sprintf(to, "\t set  %zu %d ", block, (int)some(2060)); break;
    default: at = (size_t)sprintf(to, "set %zu %d ", block, (int)some(2060));
    }
    at += put_hex(to + at, count);
    if (once_in(3))
        at += (size_t)sprintf(to + at, " was "), at += put_hex(to + at, once_in(9) ? some(20) : count);
    for (uint64_t left = once_in(6) ? some(3) : 0; left > 0; left--)
        to[some(at)] = (char)some(256);
    return at;
}
static size_t make_script(void) {
    size_t at = once_in(12) ? 0 : (size_t)sprintf((char *)bytes, "cdpatch %d\n", once_in(20) ? 3 : 1 + (int)some(2));
    for (uint64_t left = some(6); left > 0 && at < MOST_BYTES - 17000; left--) {
        size_t begun = at;
        at += make_line((char *)bytes + at);
        if (once_in(2) && !memcmp(bytes + begun, "cdpatch", 7))
            at = begun;
        at += (size_t)sprintf((char *)bytes + at, once_in(4) ? "\r\n" : "\n");
    }
    return once_in(4) && at > 0 ? at - 1 : at;
}
static void make_patch(void) {
    size_t count = make_line((char *)text);
    fill(bytes, CDPATCH_PATCH_SIZE);
    fill(old_bytes, CDPATCH_PATCH_SIZE);
    if (cdpatch_read_line(1 + (uint32_t)some(2), 0, text, count, &patch, bytes, old_bytes) != CDPATCH_CONTENT_PATCH)
        patch = (struct cdpatch_patch){(uint32_t)some_number(), (uint16_t)some(2060), (uint16_t)some(4100), (uint8_t)some(5), (uint8_t)some(3),
                                       (uint8_t)some(256), {0, 2, (uint8_t)some(256)}};
    if (once_in(9))
        ((uint8_t *)&patch)[some(14)] = (uint8_t)some(256);
    if (patch.verb == CDPATCH_VERB_SET && patch.has_old == 1 && once_in(2))
        for (size_t i = 0; i < patch.count && i < CDPATCH_PATCH_SIZE; i++) {
            size_t user = patch.offset + i;
            old_bytes[i] = sectors[user / CDPATCH_USER_SIZE % MOST_SECTORS * SECTOR + 16 + user % CDPATCH_USER_SIZE];
        }
}

/* ---- each call */

static void on_sector(const char *call, enum cdpatch_result (*change)(uint8_t *)) {
    begin(call);
    room(sectors, SECTOR);
    end(change(sectors));
}
static void change_bytes(const char *call, enum cdpatch_result (*change)(uint8_t *, size_t, const uint8_t *, size_t)) {
    size_t offset = once_in(6) ? some_size() : some(2049), count = once_in(8) ? some(2060) : offset < 2049 ? some(2049 - offset) : some(9);
    count = once_in(12) ? 0 : count;
    uint8_t *from = (uint8_t *)lent(bytes, count);
    fill(bytes, count);
    begin(call);
    room(sectors, SECTOR), size(offset), input(from, count), size(count);
    end(change(sectors, offset, from, count));
}
static void change_header(const char *call, enum cdpatch_result (*change)(uint8_t *, const uint8_t *)) {
    fill(address, 3);
    begin(call);
    room(sectors, SECTOR), input(address, 3);
    end(change(sectors, address));
}

static void on_line(void) {
    uint32_t version = (uint32_t)(once_in(20) ? some_number() : some(3));
    size_t count = once_in(12) ? 0 : make_line((char *)text), earlier = once_in(6) ? some_size() : some(70000);
    uint8_t *from = (uint8_t *)lent(text, count);
    begin("read_line");
    number(version), size(earlier), input(from, count), size(count), room(&patch, sizeof patch);
    room(bytes, CDPATCH_PATCH_SIZE), room(old_bytes, CDPATCH_PATCH_SIZE);
    end(cdpatch_read_line(version, earlier, from, count, &patch, bytes, old_bytes));
}
static void on_text(void) {
    size_t count = make_script(), from = some(count + 1);
    uint8_t *here = (uint8_t *)lent(bytes + from, count - from);
    begin("first_line");
    input(here, count - from), size(count - from), room(&line, sizeof line);
    end(cdpatch_first_line(here, count - from, &line));
}
static void on_script(bool is_index) {
    size_t count = make_script(), capacity = some(MOST_ENTRIES + 1), at = count;
    uint32_t base = (uint32_t)(once_in(4) ? some_number() : some(9));
    if (count < MOST_BYTES - 40)
        count += (size_t)sprintf((char *)bytes + at, "%s# base %u%s", at && bytes[at - 1] != '\n' ? "\n" : "", (uint32_t)some(12),
                                 (const char *const[]){"", "\n", " \t\r\n", " x\n"}[some(4)]);
    uint8_t *from = (uint8_t *)lent(bytes, count);
    struct cdpatch_entry *to = (struct cdpatch_entry *)lent(entries, capacity);
    begin(is_index ? "index_script" : "script_base");
    input(from, count), size(count);
    if (is_index) {
        room(to, capacity * sizeof *to), size(capacity), room(&index_found, sizeof index_found);
        end(cdpatch_index_script(from, count, to, capacity, &index_found));
    } else {
        number(base), room(&other, sizeof other);
        end(cdpatch_script_base(from, count, base, &other));
    }
}
static void on_block(void) {
    uint32_t block = (uint32_t)some_number();
    if (!cdpatch_address((uint32_t)some(449850), address_room) || once_in(2))
        address_room[some(3)] = (uint8_t)some(256);
    begin("block");
    input(address_room, 3), room(&block, sizeof block);
    end(cdpatch_block(address_room, &block));
}
static void on_failure(void) {
    uint32_t failure = (uint32_t)(once_in(5) ? some_number() : some(5));
    begin("failure_line");
    number(failure), room(text, CDPATCH_LINE_SIZE);
    end(cdpatch_failure_line(failure, text));
}
static void on_hand(void) {
    size_t count = make_sectors(4);
    bool carry = once_in(2);
    uint8_t *hand = (uint8_t *)lent(sectors, count);
    make_patch();
    begin("apply_patch");
    input(&patch, sizeof patch), input(bytes, CDPATCH_PATCH_SIZE), input(old_bytes, CDPATCH_PATCH_SIZE), room(hand, count * SECTOR);
    size(count), number(carry), room(&place, sizeof place);
    end(cdpatch_apply_patch(&patch, bytes, old_bytes, hand, count, carry, &place));
}
static void on_survey(void) {
    size_t count = make_sectors(MOST_SECTORS), rooms = once_in(6) ? some(MOST_SECTORS + 1) : count;
    uint32_t block = (uint32_t)(once_in(3) ? some_number() : some(9));
    uint8_t *from = (uint8_t *)lent(sectors, count);
    struct cdpatch_record *to = (struct cdpatch_record *)lent(records, rooms);
    begin("survey");
    input(from, count * SECTOR), size(count), number(block), room(to, rooms * sizeof *to), size(rooms);
    end(cdpatch_survey(from, count, block, to, rooms));
}
static void on_digest(void) {
    size_t count = once_in(4) ? 0 : some(700);
    uint8_t *from = (uint8_t *)lent(bytes, count);
    fill(bytes, count);
    begin("sha1_add");
    room(&sha1, sizeof sha1), input(from, count), size(count);
    cdpatch_sha1_add(&sha1, from, count);
    end(0);
}
static void on_lines(uint64_t which) {
    uint32_t first = (uint32_t)some_number(), second = (uint32_t)(once_in(5) ? some_number() : some(16)), block = (uint32_t)some_number();
    uint16_t offset = (uint16_t)some(65536);
    begin((const char *const[]){"outcome_line", "last_line", "fault_line", "result_text"}[which]);
    if (which < 3)
        number(first);
    number(second);
    if (which == 0)
        number(block), number(offset);
    room(text, CDPATCH_LINE_SIZE);
    end(which == 0 ? cdpatch_outcome_line(first, second, block, offset, text) : which == 1 ? cdpatch_last_line(first, second, text) :
        which == 2 ? cdpatch_fault_line(first, second, text) : cdpatch_result_text(second, text));
}
static void on_report_lines(uint64_t which) {
    uint32_t first = (uint32_t)some_number(), second = once_in(3) ? (uint32_t)some_number() : first + (uint32_t)some(9);
    uint32_t kind = (uint32_t)(once_in(5) ? some_number() : some(6));
    uint16_t tail = (uint16_t)some(once_in(5) ? 65536 : SECTOR);
    begin((const char *const[]){"list_line", "list_end", "audit_line", "audit_end"}[which]);
    *records = (struct cdpatch_record){(uint8_t)(once_in(3) ? some(6) : CDPATCH_KIND_MODE1), once_in(2), once_in(2), once_in(2),
                                       (uint8_t)(once_in(2) ? 0 : some(256)), (uint8_t)(once_in(2) ? 0 : some(256))};
    number(first);
    switch (which) {
    case 0: number(second), number(kind), room(text, CDPATCH_LINE_SIZE), end(cdpatch_list_line(first, second, kind, text)); break;
    case 1: number(tail), room(text, CDPATCH_LINE_SIZE), end(cdpatch_list_end(first, tail, text)); break;
    case 2: input(records, sizeof *records), room(text, CDPATCH_LINE_SIZE), end(cdpatch_audit_line(first, records, text)); break;
    default: number(second), number(kind), number(tail), room(text, CDPATCH_LINE_SIZE), end(cdpatch_audit_end(first, second, kind, tail, text));
    }
}
static void on_codes(uint64_t which) {
    size_t count = once_in(9) ? 0 : some(3000);
    uint8_t *from = (uint8_t *)lent(sectors, count);
    uint32_t block = (uint32_t)(once_in(2) ? some(449850) : some_number());
    begin((const char *const[]){"edc", "kind", "is_consistent", "find_defect", "find_broken", "address", "encode", "fill_parity"}[which]);
    switch (which) {
    case 0: input(from, count), size(count), end(cdpatch_edc(from, count)); break;
    case 1: input(sectors, SECTOR), end(cdpatch_kind(sectors)); break;
    case 2: input(sectors, SECTOR), end(cdpatch_is_consistent(sectors)); break;
    case 3: input(sectors, SECTOR), room(&defect, sizeof defect), cdpatch_find_defect(sectors, &defect), end(0); break;
    case 4: input(sectors, SECTOR), room(columns, 86), room(diagonals, 52), cdpatch_find_broken(sectors, columns, diagonals), end(0); break;
    case 5: number(block), room(address_room, 3), end(cdpatch_address(block, address_room)); break;
    case 6: fill(bytes, 2048), input(address, 3), input(bytes, 2048), room(out, SECTOR), cdpatch_encode(address, bytes, out), end(0); break;
    default: room(sectors, SECTOR), cdpatch_fill_parity(sectors), end(0);
    }
}

/* The copies are the damaged sector as it was before, or have other damage or other data. */
static void on_merge(void) {
    size_t count = some(MOST_SECTORS + 1), chosen = some_size();
    uint8_t *from = (uint8_t *)lent(sectors, count * SECTOR);
    memcpy(out, sectors, SECTOR);
    for (size_t i = 0; i < count; i++) {
        memcpy(sectors + i * SECTOR, out, SECTOR);
        if (once_in(2))
            cdpatch_encode(once_in(3) ? address : out + 12, out + 16, sectors + i * SECTOR);
        if (once_in(3))
            sectors[i * SECTOR + some(SECTOR)] = (uint8_t)some(256);
    }
    begin("merge_sector");
    input(address, 3), input(out, SECTOR), input(from, count * SECTOR), size(count), room(&chosen, sizeof chosen);
    end(cdpatch_merge_sector(address, out, from, count, &chosen));
}
static void on_correction(void) {
    if (cdpatch_kind(sectors) == CDPATCH_KIND_MODE1 && once_in(2))
        cdpatch_encode(address, sectors + 16, sectors);
    for (uint64_t left = some(once_in(3) ? 60 : 12); left > 0; left--)
        sectors[some(SECTOR)] = (uint8_t)some(256);
    begin("correct_sector");
    room(sectors, SECTOR);
    end(cdpatch_correct_sector(sectors));
}

static void make_call(uint64_t which) {
    make_sector(sectors);
    switch (which) {
    case 0: on_sector("rebuild", cdpatch_rebuild); break;
    case 1: change_bytes("change_user", cdpatch_change_user); break;
    case 2: change_bytes("carry_user", cdpatch_carry_user); break;
    case 3: change_header("change_address", cdpatch_change_address); break;
    case 4: change_header("carry_address", cdpatch_carry_address); break;
    case 5: on_line(); break;
    case 6: on_text(); break;
    case 7: on_hand(); break;
    case 8: on_survey(); break;
    case 9: begin("sha1_begin"), room(&sha1, sizeof sha1), cdpatch_sha1_begin(&sha1), end(0); break;
    case 10: on_digest(); break;
    case 11: begin("sha1_end"), input(&sha1, sizeof sha1), room(digest, 20), cdpatch_sha1_end(&sha1, digest), end(0); break;
    case 12: begin("version"), end(cdpatch_version()); break;
    case 13: case 14: case 15: case 16: on_lines(which - 13); break;
    case 17: case 18: case 19: case 20: on_report_lines(which - 17); break;
    case 21: on_merge(); break;
    case 22: on_correction(); break;
    case 23: on_script(true); break;
    case 24: on_script(false); break;
    case 25: on_block(); break;
    case 26: on_failure(); break;
    default: on_codes(which - 27);
    }
}

int main(int count, char **words) {
    if (count != 3)
        return 2;
    uint64_t seed = strtoull(words[1], NULL, 10), calls = strtoull(words[2], NULL, 10);
    for (uint64_t i = 0; i < calls; i++) {
        state = (seed * 1000003 + i + 1) * 0x9E3779B97F4A7C15;
        make_call(some(CALLS));
    }
    return fflush(stdout) != 0;
}
