/* The smallest client: the EDC of an empty block 16. */
#include <cdpatch.h>
#include <stdio.h>

int main(void) {
    static uint8_t address[3], user[CDPATCH_USER_SIZE], sector[CDPATCH_SECTOR_SIZE];
    cdpatch_address(16, address);
    cdpatch_encode(address, user, sector);
    printf("%08X %d\n", (unsigned)cdpatch_edc(sector, 2064), cdpatch_is_consistent(sector));
    return 0;
}
