/* Prints COUNT random cases for the WebAssembly module: `piece_cases COUNT LONG SEED PROGRAM`. LONG of them have images of about 1000000
 * sectors. A case is a line of JSON, followed by image, script, log, and new image. Log and status are those of PROGRAM, and the new image is
 * that of a client by lines; if they disagree, piece_cases fails. A long image is blank except for some sectors: only these are printed, and
 * the new ones are those of two pieces. One case in four is without old bytes: the script for PROGRAM then has none. */
#include "pieces.h"
#include "by_program.h"

enum { SOME_BLOCKS = 12, LAST_SECTORS = 999996, FRONT_SECTORS = 8 };

static void print_parts(const uint8_t *const *parts, const size_t *sizes) {
    for (int i = 0; i < 4; i++)
        check_that(fwrite(parts[i], 1, sizes[i], stdout) == sizes[i], "a case");
}

/* Whether the program creates the same new image, or none. Only some cases are tried, since the program waits for the disk. */
static bool applies(const struct some_case *it, const uint8_t *made, uint32_t status) {
    size_t size;
    bool same = by_program("apply", it->base, it->carry) == status;
    uint8_t *out = load("out", &size);
    same = same && size == (status == 2 ? 0 : it->size) && !memcmp(made, out, size);
    free(out);
    return same;
}

static void print_case(unsigned number, uint64_t seed) {
    struct some_case it = case_of(seed, number), given = it;
    bool without_old = number % 4 == 3;
    if (without_old) {
        given.script = it.without_old;
        given.script_size = it.without_old_size;
    }
    save("image", it.image, it.size);
    save("script", given.script, given.script_size);
    uint32_t status = by_program("check", it.base, it.carry);
    size_t log_size;
    uint8_t *log = load("log", &log_size);
    struct made made = made_by_lines(&given, 0);
    check_that(made.status == status && made.logged == log_size && !memcmp(made.log, log, log_size) && !made.wrong &&
                   (number % 16 > 0 || applies(&it, made.out, status)),
               "the program and lines differ");
    size_t made_size = status == CDPATCH_STATUS_FAILED ? 0 : it.size;
    printf("{\"base\":%u,\"flags\":%d,\"status\":%u,\"blank\":0,\"sizes\":[%zu,%zu,%zu,%zu]}\n", it.base,
           it.carry * CDPATCH_FLAG_CARRY + without_old * CDPATCH_FLAG_WITHOUT_OLD, status, it.size, it.script_size, log_size, made_size);
    print_parts((const uint8_t *const[]){it.image, it.script, log, made.out}, (size_t[]){it.size, it.script_size, log_size, made_size});
    free_made(&made);
    free(log);
    free_case(&it);
}

/* ---- long images: blank except for some sectors */

struct long_case { uint64_t size; uint32_t base, flags, numbers[SOME_BLOCKS]; uint8_t sectors[SOME_BLOCKS][SECTOR], script[1 << 14];
                   size_t script_size; };

static void some_long_case(uint64_t *dice, struct long_case *it, unsigned number) {
    static const uint64_t more_bytes[] = {1, 3 * SECTOR + 7, 0, 5 * SECTOR};
    static const uint32_t bases[] = {0, 150, 449849};
    uint8_t user[CDPATCH_USER_SIZE], address[3] = {0, 2, 0};
    it->size = 2352000000u + more_bytes[number % 4] - (number % 5 == 4 ? below(dice, 3 * SECTOR) : 0);
    it->base = bases[below(dice, 3)];
    it->flags = below(dice, 2) * CDPATCH_FLAG_CARRY;
    for (uint32_t i = 0; i < SOME_BLOCKS; i++) {
        it->numbers[i] = i < 4 ? i : LAST_SECTORS + i - 4;
        some_bytes(dice, user, sizeof user);
        cdpatch_address(it->base + it->numbers[i], address);
        cdpatch_encode(address, user, it->sectors[i]);
        it->sectors[i][below(dice, SECTOR)] ^= below(dice, 5) == 0;
    }
    it->script_size = (size_t)sprintf((char *)it->script, "cdpatch 2\n");
    for (uint32_t line = below(dice, 12); line > 0; line--)
        it->script_size += (size_t)sprintf((char *)it->script + it->script_size, "fill %u %u %u %02X\n",
                                           it->base + (below(dice, 3) ? LAST_SECTORS + below(dice, 8) : below(dice, 4)),
                                           below(dice, 2) ? 2047 : below(dice, 2048), 1 + below(dice, 2049), below(dice, 256));
}

/* Applies the script to the first sectors, and to those from LAST_SECTORS on. Writes both to `out`, and returns their number. */
static size_t patch_long(const struct long_case *it, uint8_t *out, struct made *made) {
    static struct cdpatch_entry entries[SMALL_ROOM];
    static struct cdpatch_patch_bytes patch_bytes;
    const uint64_t most = (uint64_t)CDPATCH_MOST_SECTORS * SECTOR, size = it->size < most ? it->size : most;
    struct cdpatch_index index;
    uint8_t line[CDPATCH_LINE_SIZE];
    size_t counts[2] = {0, 0}, ends[2] = {FRONT_SECTORS, size / SECTOR}, written = 0;
    check_that(cdpatch_index_script(it->script, it->script_size, entries, SMALL_ROOM, &index) == CDPATCH_SCRIPT_VALID, "a long case");
    struct cdpatch_job job = {it->script, it->script_size, entries, index.count, &patch_bytes, index.version, it->base, 0, 0, {0}};
    for (int part = 0; part < 2; part++) {
        size_t from = part ? LAST_SECTORS : 0, count = ends[part] - from;
        uint8_t *piece = out + written * SECTOR;
        memset(piece, 0, count * SECTOR);
        for (uint32_t i = 0; i < SOME_BLOCKS; i++)
            if (it->numbers[i] >= from && it->numbers[i] < ends[part])
                memcpy(piece + (it->numbers[i] - from) * SECTOR, it->sectors[i], SECTOR);
        job.first = it->base + (uint32_t)from;
        job.flags = it->flags + (part && it->size <= most ? CDPATCH_FLAG_LAST : 0);
        (void)call(&job, piece, count, MOST_ANSWERS, made, counts);
        written += count;
    }
    made->status = it->size > most ? CDPATCH_STATUS_FAILED : counts[1] ? CDPATCH_STATUS_FOUND : CDPATCH_STATUS_DONE;
    print(made, line, it->size > most ? cdpatch_failure_line(CDPATCH_FAILURE_LONG_IMAGE, line)
                                      : cdpatch_last_line((uint32_t)counts[0], (uint32_t)counts[1], line));
    return written;
}

static void print_long_case(unsigned number, uint64_t seed) {
    static struct long_case it;
    static uint8_t out[2 * FRONT_SECTORS * SECTOR], log[4096];
    uint64_t dice = seed * 77 + number;
    some_long_case(&dice, &it, number);
    int image = open("image", O_RDWR | O_CREAT | O_TRUNC, 0600);
    check_that(image >= 0 && ftruncate(image, (off_t)it.size) == 0, "image");
    for (uint32_t i = 0; i < SOME_BLOCKS; i++) {
        uint64_t at = (uint64_t)it.numbers[i] * SECTOR, left = it.size > at ? it.size - at : 0;
        size_t size = left < SECTOR ? (size_t)left : SECTOR;
        check_that(pwrite(image, it.sectors[i], size, (off_t)at) == (ssize_t)size, "image");
    }
    close(image);
    save("script", it.script, it.script_size);
    struct made made = {.log = log};
    size_t log_size, out_size = patch_long(&it, out, &made) * SECTOR;
    uint32_t status = by_program("check", it.base, it.flags % 2);
    uint8_t *due = load("log", &log_size);
    check_that(!made.wrong && made.status == status && made.logged == log_size && !memcmp(log, due, log_size), "the program and two pieces differ");
    printf("{\"base\":%u,\"flags\":%u,\"status\":%u,\"blank\":%llu,\"sizes\":[%zu,%zu,%zu,%zu]}\n", it.base, it.flags, status,
           (unsigned long long)it.size, sizeof it.sectors, it.script_size, log_size, out_size);
    print_parts((const uint8_t *const[]){it.sectors[0], it.script, due, out}, (size_t[]){sizeof it.sectors, it.script_size, log_size, out_size});
    free(due);
    unlink("image");
}

int main(int count, char **arguments) {
    if (count != 5)
        return 2;
    uint64_t seed = (uint64_t)atol(arguments[3]);
    program = arguments[4];
    for (unsigned number = 0; number < (unsigned)atol(arguments[1]); number++)
        print_case(number, seed);
    for (unsigned number = 0; number < (unsigned)atol(arguments[2]); number++)
        print_long_case(number, seed);
    return fflush(stdout) != 0;
}
