/* Compiles the client that is printed in cdpatch.h, which tests/library/clients.sh copies to client.inc. `header_client SCRIPT < IMAGE >
 * OUT` runs it. `header_client` tests it on files that fail at each of many bytes. */
#ifndef _GNU_SOURCE
#define _GNU_SOURCE
#endif
#include <cdpatch.h>
#include <errno.h>
#include <stdio.h>
#include <stdlib.h>
#include <string.h>
#include <sys/types.h>

#include "client.inc"

enum { SECTORS = 90, TAIL = 100, SIZE = SECTORS * 2352 + TAIL, NEVER = 1 << 30 };

static const char script[] = "cdpatch 1\nset 1 0 41\nfill 40 2047 2 FF\nset 89 5 41\nset 90 0 41\n";

/* A file in memory that fails at byte `fails`, if it has that many bytes: a read there, or a write, as on a full disk. */
struct failing { char bytes[SIZE]; size_t at, end, fails; };

static ssize_t give(void *cookie, char *bytes, size_t size) {
    struct failing *it = (struct failing *)cookie;
    size_t end = it->fails < it->end ? it->fails : it->end, some = size < end - it->at ? size : end - it->at;
    memcpy(bytes, it->bytes + it->at, some);
    it->at += some;
    if (some > 0 || it->at < it->fails)
        return (ssize_t)some;
    errno = EIO;
    return -1;
}

static ssize_t keep(void *cookie, const char *bytes, size_t size) {
    struct failing *it = (struct failing *)cookie;
    size_t end = it->fails < SIZE ? it->fails : (size_t)SIZE, some = size < end - it->at ? size : end - it->at;
    memcpy(it->bytes + it->at, bytes, some);
    it->at += some;
    if (some == size)
        return (ssize_t)some;
    errno = ENOSPC;
    return (ssize_t)some;
}

static struct failing image, made, logged;

/* The status of the client when one of its files fails at a byte. */
static int status_of(size_t image_fails, size_t made_fails, size_t log_fails) {
    cookie_io_functions_t gives = {give, NULL, NULL, NULL}, keeps = {NULL, keep, NULL, NULL};
    image.at = made.at = logged.at = 0;
    image.end = SIZE;
    image.fails = image_fails;
    made.fails = made_fails;
    logged.fails = log_fails;
    FILE *in = fopencookie(&image, "rb", gives), *out = fopencookie(&made, "wb", keeps), *log = fopencookie(&logged, "wb", keeps);
    if (!in || !out || !log)
        exit(9);
    int status = patch((const uint8_t *)script, sizeof script - 1, 0, 0, in, out, log);
    fclose(in);
    fclose(out);
    fclose(log);
    return status;
}

static int differs(const char *what, size_t at) {
    printf("a client whose %s fails at byte %zu has another status than 2\n", what, at);
    return 1;
}

/* Applies the script to the whole image in `out`, and returns the number of answers in `answers`. */
static size_t apply_to(char *out, struct cdpatch_answer *answers, size_t capacity) {
    static struct cdpatch_entry entries[9];
    static struct cdpatch_patch_bytes bytes;
    struct cdpatch_index index;
    size_t done = 0;
    if (cdpatch_index_script((const uint8_t *)script, sizeof script - 1, entries, 9, &index) != CDPATCH_SCRIPT_VALID)
        exit(9);
    struct cdpatch_job job = {(const uint8_t *)script, sizeof script - 1, entries, index.count, &bytes, index.version, 0, 0, CDPATCH_FLAG_LAST, {0}};
    if (cdpatch_apply_entries(&job, (uint8_t *)out, SECTORS, answers, capacity, &done) != CDPATCH_STOP_ALL)
        exit(9);
    return done;
}

static int try_faults(void) {
    static char out[SIZE];
    struct cdpatch_answer answers[9];
    uint8_t user[2048] = {0}, address[3], line[CDPATCH_LINE_SIZE];
    size_t length = 0;
    for (uint32_t block = 0; block < SECTORS && cdpatch_address(block, address); block++)
        cdpatch_encode(address, user, (uint8_t *)image.bytes + 2352 * block);
    memcpy(out, image.bytes, SIZE);
    size_t count = apply_to(out, answers, 9);
    bool same = status_of(NEVER, NEVER, NEVER) == CDPATCH_STATUS_FOUND && made.at == SIZE && !memcmp(out, made.bytes, SIZE);
    for (size_t i = 0; i < count; i++) {
        size_t size = cdpatch_outcome_line(answers[i].number, answers[i].result, answers[i].block, (uint16_t)answers[i].offset, line);
        same = same && !memcmp(logged.bytes + length, line, size);
        length += size;
    }
    size_t size = cdpatch_last_line(3, 1, line);
    if (!same || count != 4 || memcmp(logged.bytes + length, line, size) || logged.at != (length += size)) {
        puts("the client gives another image or log than one piece");
        return 1;
    }
    for (size_t at = 0; at <= SIZE; at += at < SIZE - 300 ? 98 : 1)
        if (status_of(at, NEVER, NEVER) != CDPATCH_STATUS_FAILED)
            return differs("read", at);
    for (size_t at = 0; at < SIZE; at += at < SIZE - 300 ? 98 : 1)
        if (status_of(NEVER, at, NEVER) != CDPATCH_STATUS_FAILED)
            return differs("write", at);
    for (size_t at = 0; at < length; at++)
        if (status_of(NEVER, NEVER, at) != CDPATCH_STATUS_FAILED)
            return differs("log", at);
    return 0;
}

int main(int count, char **arguments) {
    static uint8_t text[1 << 20];
    if (count == 1)
        return try_faults();
    FILE *file = fopen(arguments[1], "rb");
    if (!file)
        return 9;
    size_t size = fread(text, 1, sizeof text, file);
    fclose(file);
    return patch(text, size, 0, 0, stdin, stdout, stderr);
}
