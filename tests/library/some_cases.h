/* Random images and scripts for them. */
#ifndef SOME_CASES
#define SOME_CASES
#include <cdpatch.h>
#include <stdio.h>
#include <stdlib.h>
#include <string.h>

enum { SECTOR = CDPATCH_SECTOR_SIZE, MOST_SECTORS = 9, MOST_LINES = 9, SMALL_ROOM = 16, LARGE_EACH = 500, LARGE_IMAGE = 3000 };

/* `without_old` is the same script without old bytes. */
struct some_case { uint8_t *image; size_t size; uint8_t *script; size_t script_size; uint8_t *without_old; size_t without_old_size; uint32_t base;
                   bool carry; size_t room, log_room; };

static void *more(void *memory, size_t size) {
    memory = realloc(memory, size ? size : 1);
    if (!memory)
        exit(2);
    return memory;
}

/* The generator SplitMix64. */
static uint64_t roll(uint64_t *dice) {
    uint64_t z = *dice += 0x9E3779B97F4A7C15u;
    z = (z ^ z >> 30) * 0xBF58476D1CE4E5B9u;
    z = (z ^ z >> 27) * 0x94D049BB133111EBu;
    return z ^ z >> 31;
}

static uint32_t below(uint64_t *dice, uint32_t end) { return (uint32_t)(roll(dice) % end); }

static void some_bytes(uint64_t *dice, uint8_t *bytes, size_t size) {
    for (size_t i = 0; i < size; i++)
        bytes[i] = (uint8_t)roll(dice);
}

/* Whole sectors, most of them sound, and a tail. A large image has LARGE_IMAGE sectors. */
static void some_image(uint64_t *dice, struct some_case *it, bool large) {
    static const size_t tails[] = {0, 0, 1, 2351, 700};
    size_t count = large ? LARGE_IMAGE : below(dice, MOST_SECTORS + 1), tail = tails[below(dice, 5)];
    uint8_t user[CDPATCH_USER_SIZE] = {0}, address[3] = {0, 2, 0};
    it->size = count * SECTOR + tail;
    it->image = more(NULL, it->size);
    some_bytes(dice, it->image + count * SECTOR, tail);
    for (size_t i = 0; i < count; i++) {
        some_bytes(dice, user, below(dice, 2) ? sizeof user : 0);
        cdpatch_address(it->base + (uint32_t)i, address);
        cdpatch_encode(address, user, it->image + i * SECTOR);
        if (below(dice, 4) == 0)
            it->image[i * SECTOR + below(dice, SECTOR)] ^= (uint8_t)(1 + below(dice, 255));
    }
}

/* A line of a script, most often a patch near the image. */
static int some_line(uint64_t *dice, const struct some_case *it, char *line, size_t room) {
    uint32_t sectors = (uint32_t)(it->size / SECTOR), near = sectors > MOST_SECTORS && below(dice, 2) ? sectors - MOST_SECTORS : 0;
    uint32_t block = it->base + near + below(dice, MOST_SECTORS + 2) - (below(dice, 8) == 0), offset = below(dice, 3) ? below(dice, 2048) : 2047;
    char hex[2 * 5000];
    uint32_t count = below(dice, 8) ? 1 + below(dice, 9) : 1 + below(dice, 4096);
    for (uint32_t i = 0; i < 2 * count; i++)
        hex[i] = "0123456789abcdef"[below(dice, 16)];
    hex[2 * count] = 0;
    switch (below(dice, 30)) {
    case 0: return snprintf(line, room, "rebuild %u\n", block);
    case 1: case 2: return snprintf(line, room, "fill %u %u %u %02x\n", block, offset, 1 + below(dice, 4096), below(dice, 256));
    case 3: return snprintf(line, room, "address %u 00:02:%02u\n", block, below(dice, 75));
    case 4: return snprintf(line, room, "# %u\n", block);
    case 5: return snprintf(line, room, "\r\n");
    case 6: return snprintf(line, room, "set %u %u 00 if 00\n", block, offset);
    case 7: return snprintf(line, room, "set %u %u %s", block, offset, below(dice, 4) ? "00\n" : "0\n");
    default: return snprintf(line, room, "set %u %u %s\n", block, offset, hex);
    }
}

/* Old bytes for a `set` line, in three of four cases those of the image; none for any other line. */
static size_t some_old_bytes(uint64_t *dice, const struct some_case *it, const char *line, size_t size, char *was) {
    uint32_t block = 0, offset = 0;
    int start = 0;
    size_t count = 0, made = 0;
    if (line[size - 1] != '\n' || sscanf(line, "set %u %u %n", &block, &offset, &start) != 2 || memchr(line + start, ' ', size - (size_t)start) ||
        below(dice, 2))
        return 0;
    bool right = below(dice, 4) > 0;
    for (made = (size_t)sprintf(was, " was "); count < (size - (size_t)start) / 2; count++) {
        size_t user = offset + count, at = (block - it->base + user / CDPATCH_USER_SIZE) * (size_t)SECTOR + 16 + user % CDPATCH_USER_SIZE;
        made += (size_t)sprintf(was + made, "%02X", at < it->size && right ? it->image[at] : below(dice, 256));
    }
    return made;
}

/* Adds a line to both scripts if there is room. */
static void add_line(uint64_t *dice, struct some_case *it, size_t room) {
    char line[1 << 14], was[1 << 14];
    size_t size = (size_t)some_line(dice, it, line, sizeof line), old = some_old_bytes(dice, it, line, size, was);
    if (it->script_size + size + old > room)
        return;
    memcpy(it->without_old + it->without_old_size, line, size);
    memcpy(it->script + it->script_size, line, size);
    if (old > 0) {
        memcpy(it->script + it->script_size + size - 1, was, old);
        it->script[it->script_size + size - 1 + old] = '\n';
    }
    it->without_old_size += size;
    it->script_size += size + old;
}

static void some_script(uint64_t *dice, struct some_case *it) {
    size_t room = 1 << 16;
    it->script = more(NULL, room);
    it->without_old = more(NULL, room);
    it->script_size = (size_t)snprintf((char *)it->script, room, "%s", below(dice, 30) ? "cdpatch 2\n" : "cdpatch 9\n");
    memcpy(it->without_old, it->script, it->without_old_size = it->script_size);
    for (uint32_t line = below(dice, MOST_LINES + 1); line > 0; line--)
        add_line(dice, it, room);
}

static struct some_case case_of(uint64_t seed, unsigned number) {
    static const uint32_t bases[] = {0, 0, 1, 150, 449849};
    uint64_t dice = seed * 1000003 + number;
    struct some_case it = {.room = SMALL_ROOM, .log_room = 1 << 16};
    it.base = bases[below(&dice, 5)];
    it.carry = below(&dice, 3) == 0;
    some_image(&dice, &it, number % LARGE_EACH == LARGE_EACH - 1);
    some_script(&dice, &it);
    return it;
}

static void free_case(struct some_case *it) {
    free(it->image);
    free(it->script);
    free(it->without_old);
}

#endif
