/* Tests the calls of libcdpatch for sectors: `check SAMPLES`, where SAMPLES has consistent sectors of other encoders. Prints each failure.
 * The status is 0 if there is none. Each call gets memory directly before, and directly after, pages that cannot be accessed. */
#define _DEFAULT_SOURCE
#include "fenced.h"

static bool has_defect(const uint8_t *sector, bool zeros, bool edc, unsigned p, unsigned q) {
    struct cdpatch_defect found;
    memset(&found, 0xA5, sizeof found);
    cdpatch_find_defect(sector, &found);
    return found.zeros == zeros && found.edc == edc && found.p == p && found.q == q;
}

/* A sound sector is recognised as one, and is encoded again from its parts. */
static void check_codes(const uint8_t *sample, uint8_t *sector, uint8_t *user, uint8_t *address, unsigned n) {
    uint32_t word = cdpatch_edc(sector, 2064);
    judge(cdpatch_is_consistent(sector), "is consistent", n);
    judge(cdpatch_kind(sector) == CDPATCH_KIND_MODE1, "is of Mode 1", n);
    judge(has_defect(sector, false, false, 0, 0), "has no defect", n);
    judge(sector[2064] == (word & 255) && sector[2067] == word >> 24, "EDC", n);
    memcpy(user, sample + 16, CDPATCH_USER_SIZE);
    memcpy(address, sample + 12, 3);
    memset(sector, 0xA5, CDPATCH_SECTOR_SIZE);
    cdpatch_encode(address, user, sector);
    judge(!memcmp(sector, sample, CDPATCH_SECTOR_SIZE), "encode", n);
    memset(sector + 2076, 0xA5, 276);
    cdpatch_fill_parity(sector);
    judge(!memcmp(sector, sample, CDPATCH_SECTOR_SIZE), "fill_parity", n);
}

/* Changes a sound sector and a damaged one to different content and back, by each call. */
static void check_changes(const uint8_t *sample, uint8_t *sector, uint8_t *user, uint8_t *address, unsigned n) {
    uint8_t wanted[CDPATCH_SECTOR_SIZE];
    memset(user, (int)n, CDPATCH_USER_SIZE);
    memcpy(address, "\x12\x34\x56", 3);
    cdpatch_encode(address, user, wanted);
    judge(cdpatch_change_user(sector, 0, user, CDPATCH_USER_SIZE) == CDPATCH_RESULT_OK, "change_user", n);
    judge(cdpatch_change_address(sector, address) == CDPATCH_RESULT_OK, "change_address", n);
    judge(!memcmp(sector, wanted, CDPATCH_SECTOR_SIZE), "both changes", n);
    sector[2351] ^= 1;
    sector[2070] ^= 1;
    judge(has_defect(sector, true, false, 1, 2), "defect of a byte of Q parity and of one of the Intermediate field", n);
    judge(cdpatch_carry_user(sector, 2047, sample + 2063, 1) == CDPATCH_RESULT_OK, "carry_user", n);
    judge(cdpatch_carry_user(sector, 0, sample + 16, 2047) == CDPATCH_RESULT_OK, "carry_user of many bytes", n);
    judge(cdpatch_carry_address(sector, sample + 12) == CDPATCH_RESULT_OK, "carry_address", n);
    sector[2351] ^= 1;
    sector[2070] ^= 1;
    judge(!memcmp(sector, sample, CDPATCH_SECTOR_SIZE), "what is carried differs only in the damage", n);
    sector[2064] ^= 1;
    judge(!cdpatch_is_consistent(sector), "is damaged", n);
    judge(cdpatch_rebuild(sector) == CDPATCH_RESULT_OK && !memcmp(sector, sample, CDPATCH_SECTOR_SIZE), "rebuild", n);
}

static void check_refusals(uint8_t *sector, uint8_t *user, uint8_t *address, unsigned n) {
    uint8_t kept[CDPATCH_SECTOR_SIZE];
    static const size_t ranges[][2] = { {2048, 1}, {2049, 0}, {1, 2048}, {(size_t)-1, 2}, {2047, 2} };
    static const uint32_t kinds[] = { CDPATCH_KIND_MODE0, CDPATCH_KIND_NOSYNC, CDPATCH_KIND_MODE2, CDPATCH_KIND_OTHER, CDPATCH_KIND_OTHER };
    memcpy(kept, sector, sizeof kept);
    for (unsigned i = 0; i < 5; i++) {
        judge(cdpatch_change_user(sector, ranges[i][0], user, ranges[i][1]) == CDPATCH_RESULT_OUT_OF_RANGE, "range of change_user", n);
        judge(cdpatch_carry_user(sector, ranges[i][0], user, ranges[i][1]) == CDPATCH_RESULT_OUT_OF_RANGE, "range of carry_user", n);
    }
    judge(!memcmp(sector, kept, sizeof kept), "a refused range leaves the sector", n);
    judge(cdpatch_change_user(sector, 2048, user, 0) == CDPATCH_RESULT_OK, "no bytes at the end", n);
    sector[20] ^= 1;
    judge(has_defect(sector, false, true, 1, 1), "defect of one byte", n);
    memcpy(kept, sector, sizeof kept);
    judge(cdpatch_change_user(sector, 0, user, 1) == CDPATCH_RESULT_DAMAGED, "change_user of a damaged sector", n);
    judge(cdpatch_change_user(sector, 2048, user, 1) == CDPATCH_RESULT_DAMAGED, "damage is tested before the range", n);
    judge(cdpatch_change_address(sector, address) == CDPATCH_RESULT_DAMAGED, "change_address of a damaged sector", n);
    judge(!memcmp(sector, kept, sizeof kept), "a refusal for damage leaves the sector", n);
    for (uint8_t mode = 0; mode < 5; mode++) {
        sector[15] = mode;
        sector[0] = mode == 1;
        memcpy(kept, sector, sizeof kept);
        judge(cdpatch_kind(sector) == kinds[mode], "kind", n);
        judge(cdpatch_change_user(sector, 0, user, 1) == CDPATCH_RESULT_NOT_MODE1, "change_user of another kind", n);
        judge(cdpatch_carry_user(sector, 2048, user, 1) == CDPATCH_RESULT_NOT_MODE1, "carry_user of another kind", n);
        judge(cdpatch_change_address(sector, address) == CDPATCH_RESULT_NOT_MODE1, "change_address of another kind", n);
        judge(cdpatch_carry_address(sector, address) == CDPATCH_RESULT_NOT_MODE1, "carry_address of another kind", n);
        judge(cdpatch_rebuild(sector) == CDPATCH_RESULT_NOT_MODE1, "rebuild of another kind", n);
        judge(!memcmp(sector, kept, sizeof kept), "a refusal for the kind leaves the sector", n);
    }
}

/* The block of each address, and no block for bytes that are not an address. */
static void check_blocks(uint8_t *address) {
    static const uint8_t others[][4] = {"\x00\x01\x74", "\x00\x02\x75", "\x00\x60\x00", "\x00\x02\x0A", "\xA0\x02\x00", "\xFF\xFF\xFF"};
    uint32_t block = 7;
    for (uint32_t n = 0; cdpatch_address(n, address); n++)
        judge(cdpatch_block(address, &block) && block == n, "the block of an address", n);
    for (unsigned n = 0; n < sizeof others / sizeof *others; n++)
        judge(!cdpatch_block(others[n], &block) && block == CDPATCH_LAST_BASE, "no block has such an address", n);
}

static void check_addresses(uint8_t *address) {
    judge(cdpatch_address(0, address) && !memcmp(address, "\x00\x02\x00", 3), "address of block 0", 0);
    judge(cdpatch_address(449849, address) && !memcmp(address, "\x99\x59\x74", 3), "address of the last block", 0);
    judge(!cdpatch_address(449850, address) && !cdpatch_address(UINT32_MAX, address), "no address", 0);
    judge(!memcmp(address, "\x99\x59\x74", 3), "no address leaves the bytes", 0);
    judge(cdpatch_edc(address, 0) == 0, "EDC of no bytes", 0);
    check_blocks(address);
}

/* A null pointer is valid for no bytes. */
static void check_nulls(const uint8_t *sample, uint8_t *sector, unsigned n) {
    memcpy(sector, sample, CDPATCH_SECTOR_SIZE);
    judge(cdpatch_edc(NULL, 0) == 0, "EDC of no bytes at a null pointer", n);
    judge(cdpatch_change_user(sector, 7, NULL, 0) == CDPATCH_RESULT_OK, "change_user of no bytes at a null pointer", n);
    judge(cdpatch_carry_user(sector, 2048, NULL, 0) == CDPATCH_RESULT_OK, "carry_user of no bytes at a null pointer", n);
    judge(cdpatch_change_user(sector, 2049, NULL, 0) == CDPATCH_RESULT_OUT_OF_RANGE, "their range", n);
    judge(!memcmp(sector, sample, CDPATCH_SECTOR_SIZE), "no bytes change nothing", n);
}

int main(int count, char **arguments) {
    uint8_t sample[CDPATCH_SECTOR_SIZE];
    unsigned number = 0;
    FILE *samples = count == 2 ? fopen(arguments[1], "rb") : NULL;
    if (!samples) {
        fputs("check SAMPLES\n", stderr);
        return 2;
    }
    while (fread(sample, 1, sizeof sample, samples) == sizeof sample) {
        for (int at_end = 0; at_end < 2; at_end++) {
            uint8_t *sector = fenced(CDPATCH_SECTOR_SIZE, at_end), *user = fenced(CDPATCH_USER_SIZE, at_end);
            uint8_t *address = fenced(3, at_end);
            memcpy(sector, sample, sizeof sample);
            check_codes(sample, sector, user, address, number);
            check_changes(sample, sector, user, address, number);
            check_refusals(sector, user, address, number);
            check_addresses(address);
            check_nulls(sample, sector, number);
        }
        number++;
    }
    fclose(samples);
    printf("%u samples, %d failures\n", number, failures);
    return number == 0 || failures != 0;
}
