/* Wrong calls of libcdpatch that a compiler must warn about: each is compiled with its name defined. Without a name only right calls are left,
 * about which it must not warn. */
#include <cdpatch.h>

uint8_t sector[CDPATCH_SECTOR_SIZE], user[CDPATCH_USER_SIZE], address[3], columns[86], diagonals[52], text[CDPATCH_LINE_SIZE];
uint8_t new_bytes[CDPATCH_PATCH_SIZE], old_bytes[CDPATCH_PATCH_SIZE];
struct cdpatch_patch patch;
struct cdpatch_place place;
struct cdpatch_job job;

int main(void) {
    struct cdpatch_line line;
    cdpatch_encode(address, user, sector);
    cdpatch_find_broken(sector, columns, diagonals);
    bool has_line = cdpatch_first_line(NULL, 0, &line);
    int result = cdpatch_apply_patch(&patch, new_bytes, old_bytes, NULL, 0, false, &place);
#if defined A_SECTOR_THAT_IS_NULL
    cdpatch_fill_parity(NULL);
#elif defined A_LINE_THAT_IS_NULL
    has_line = cdpatch_first_line(text, sizeof text, NULL);
#elif defined A_COUNT_THAT_IS_NULL
    result = cdpatch_apply_entries(&job, sector, 1, NULL, 0, NULL);
#elif defined A_SECTOR_OF_USER_DATA
    result = cdpatch_rebuild(user);
#elif defined USER_DATA_OF_A_LINE
    cdpatch_encode(address, text, sector);
#elif defined COLUMNS_AND_DIAGONALS_EXCHANGED
    cdpatch_find_broken(sector, diagonals, columns);
#elif defined A_LINE_FOR_OLD_BYTES
    result = cdpatch_apply_patch(&patch, new_bytes, text, sector, 1, false, &place);
#elif defined AN_ADDRESS_FOR_A_LINE
    cdpatch_last_line(1, 1, address);
#elif defined A_RESULT_THAT_NOBODY_LOOKS_AT
    cdpatch_rebuild(sector);
#endif
    return has_line || result;
}
