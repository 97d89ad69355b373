/* Passes arbitrary bytes to the calls of libcdpatch: `clang -fsanitize=fuzzer fuzz.c libcdpatch.a`. The first bytes are a base, flags, and
 * the damage of an image of three sectors; the others are a script. The script is applied line by line, to the whole image, and in pieces:
 * the status, the log, and the image must be the same. */
#include "../library/pieces.h"

enum { SECTORS = 3, IMAGE = SECTORS * CDPATCH_SECTOR_SIZE, HEAD = 12, MOST_SCRIPT = 20000 };

static uint8_t image[IMAGE + 100];

static void due(bool holds) {
    if (!holds)
        abort();
}

/* Generates the image from the first bytes: sectors with their addresses, flipped bytes, and a tail. */
static size_t make_image(const uint8_t *head, uint32_t base) {
    uint8_t address[3], user[CDPATCH_USER_SIZE];
    for (uint32_t i = 0; i < SECTORS; i++) {
        memset(user, head[2] + (int)i, sizeof user);
        due(cdpatch_address(base + i, address));
        cdpatch_encode(address, user, image + i * CDPATCH_SECTOR_SIZE);
    }
    for (int i = 4; i < HEAD; i += 4)
        image[(head[i] << 8 | head[i + 1]) % IMAGE] ^= head[i + 2];
    memset(image + IMAGE, head[3], 100);
    return (size_t)(head[3] % (SECTORS + 1)) * CDPATCH_SECTOR_SIZE + head[7] % 100;
}

int LLVMFuzzerTestOneInput(const uint8_t *data, size_t data_size) {
    static const struct how ways[] = {{WHOLE, MOST_ANSWERS, 0}, {3, 1, 0}, {4, 2, 0}};
    static uint8_t script[MOST_SCRIPT];
    if (data_size < HEAD || data_size > MOST_SCRIPT)
        return 0;
    struct some_case it = {.image = image, .script = script, .script_size = data_size - HEAD, .carry = data[2] & 1, .room = 1, .log_room = 1 << 20};
    it.base = (data[0] << 8 | data[1]) % 449847u;
    it.size = make_image(data, it.base);
    memcpy(script, data + HEAD, it.script_size);
    for (size_t i = 0; i < it.script_size; i++)
        it.room += script[i] == '\n';
    it.room++;
    struct made wanted = made_by_lines(&it, 0);
    due(!wanted.wrong);
    for (size_t i = 0; i < sizeof ways / sizeof *ways; i++) {
        struct made made = made_in_pieces(&it, ways[i]);
        due(!made.wrong && made.status == wanted.status && made.logged == wanted.logged && !memcmp(made.log, wanted.log, wanted.logged));
        due(made.status == CDPATCH_STATUS_FAILED || (made.sent == it.size && !memcmp(made.out, wanted.out, it.size)));
        free_made(&made);
    }
    free_made(&wanted);
    return 0;
}
