/* Tests SHA-1 of libcdpatch with the examples of FIPS 180 in pieces of each size, in memory directly before, and directly after, pages that
 * cannot be accessed. Prints each failure. The status is 0 if there is none. */
#define _DEFAULT_SOURCE
#include "fenced.h"

enum { DIGEST_SIZE = 20, MOST_BYTES = 300 };

struct room { struct cdpatch_sha1 *state; uint8_t *digest; };

static bool ends_as(struct room room, const char *wanted) {
    char hex[2 * DIGEST_SIZE + 1];
    memset(room.digest, 0xA5, DIGEST_SIZE);
    cdpatch_sha1_end(room.state, room.digest);
    for (int i = 0; i < DIGEST_SIZE; i++) sprintf(hex + 2 * i, "%02x", room.digest[i]);
    return !strcmp(hex, wanted);
}

/* Before a message begins, the state may contain any bytes. */
static void begin(struct room room) {
    memset(room.state, 0xA5, sizeof *room.state);
    cdpatch_sha1_begin(room.state);
}

static void check_examples(struct room room) {
    static const char *const examples[][2] = {
        { "", "da39a3ee5e6b4b0d3255bfef95601890afd80709" },
        { "abc", "a9993e364706816aba3e25717850c26c9cd0d89d" },
        { "abcdbcdecdefdefgefghfghighijhijkijkljklmklmnlmnomnopnopq", "84983e441c3bd26ebaae4aa1f95129e5e54670f1" },
        { "abcdefghbcdefghicdefghijdefghijkefghijklfghijklmghijklmnhijklmnoijklmnopjklmnopqklmnopqrlmnopqrsmnopqrstnopqrstu",
          "a49b2446a02c645bf419f995b67091253a04a259" },
    };
    for (unsigned n = 0; n < 4; n++) {
        size_t length = strlen(examples[n][0]);
        const uint8_t *bytes = (const uint8_t *)examples[n][0];
        for (size_t cut = 0; cut <= length; cut++) {
            begin(room);
            cdpatch_sha1_add(room.state, bytes, cut);
            cdpatch_sha1_add(room.state, bytes + cut, length - cut);
            judge(ends_as(room, examples[n][1]), "an example in two pieces", n);
            judge(ends_as(room, examples[n][1]), "the end leaves the state", n);
        }
    }
}

static void check_million(struct room room, uint8_t *bytes) {
    memset(bytes, 'a', MOST_BYTES);
    begin(room);
    size_t length = 0;
    for (size_t left = 1000000; left > 0; left -= length) {
        length = (length + 61) % (MOST_BYTES + 1);
        length = length < left ? length : left;
        cdpatch_sha1_add(room.state, bytes, length);
    }
    judge(ends_as(room, "34aa973cd4c4daa4f61eeb2bdbad27316534016f"), "a million in odd pieces", 0);
}

/* A message in three pieces has the digest of the whole message, and a copy of a state continues independently. */
static void check_pieces(struct room room, uint8_t *bytes) {
    uint8_t wanted[DIGEST_SIZE];
    for (unsigned i = 0; i < MOST_BYTES; i++) bytes[i] = (uint8_t)(i * i + 3);
    for (size_t length = 0; length <= MOST_BYTES; length++) {
        begin(room);
        cdpatch_sha1_add(room.state, bytes, length);
        cdpatch_sha1_end(room.state, wanted);
        for (size_t cut = 0; cut <= length; cut += 7) {
            size_t middle = (length - cut) / 3;
            begin(room);
            cdpatch_sha1_add(room.state, bytes, cut);
            struct cdpatch_sha1 other = *room.state;
            cdpatch_sha1_add(&other, bytes, length);
            cdpatch_sha1_add(room.state, bytes + cut, middle);
            cdpatch_sha1_add(room.state, bytes + cut + middle, length - cut - middle);
            cdpatch_sha1_end(room.state, room.digest);
            judge(!memcmp(room.digest, wanted, DIGEST_SIZE), "three pieces", (unsigned)length);
        }
    }
}

/* A state that was never begun gives some digest, and nothing else is written. */
static void check_no_state(struct room room, uint8_t *bytes) {
    for (unsigned value = 0; value < 256; value++) {
        memset(room.state, (int)value, sizeof *room.state);
        cdpatch_sha1_add(room.state, bytes, MOST_BYTES);
        cdpatch_sha1_end(room.state, room.digest);
    }
    cdpatch_sha1_begin(room.state);
    judge(ends_as(room, "da39a3ee5e6b4b0d3255bfef95601890afd80709"), "a state begins anew", 0);
}

/* A null pointer is valid for no bytes. */
static void check_null(struct room room) {
    begin(room);
    cdpatch_sha1_add(room.state, NULL, 0);
    cdpatch_sha1_add(room.state, (const uint8_t *)"abc", 3);
    cdpatch_sha1_add(room.state, NULL, 0);
    judge(ends_as(room, "a9993e364706816aba3e25717850c26c9cd0d89d"), "no bytes at a null pointer", 0);
}

int main(void) {
    for (int at_end = 0; at_end < 2; at_end++) {
        struct room room = { (struct cdpatch_sha1 *)(void *)fenced(sizeof *room.state, at_end), fenced(DIGEST_SIZE, at_end) };
        uint8_t *bytes = fenced(MOST_BYTES, at_end);
        check_examples(room);
        check_million(room, bytes);
        check_pieces(room, bytes);
        check_no_state(room, bytes);
        check_null(room);
    }
    return failures != 0;
}
