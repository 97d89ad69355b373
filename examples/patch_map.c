/* Patches a file in place: `patch_map [--without-old] SCRIPT IMAGE`. No copy of the old image is left, so it owes you this. First it
 * patches a private map, and prints the log; only if no patch is refused it patches the file. It refuses a script with a patch that does
 * not name the bytes that were there, unless you say `--without-old`: all others `cdscript undo` takes back. If it is interrupted, some
 * patches are made and some are not. The status is 0 if all are made; then they are on the disk. It is 1 if a patch is refused, and 2
 * if the script or a file fails. Compile with `cc patch_map.c -lcdpatch`. */
#define _DEFAULT_SOURCE
#include <cdpatch.h>
#include <fcntl.h>
#include <stdio.h>
#include <stdlib.h>
#include <string.h>
#include <sys/mman.h>
#include <sys/stat.h>
#include <unistd.h>

/* The bytes of a file. Those of an empty one stand nowhere. */
struct map { uint8_t *bytes; size_t size; };

static void fail(const char *why) {
    fprintf(stderr, "patch_map: %s\n", why);
    exit(CDPATCH_STATUS_FAILED);
}

/* Maps a regular file. What is written to a private map does not reach the file. */
static struct map mapped(const char *name, int access, int kind) {
    int file = open(name, access);
    struct stat about;
    if (file < 0 || fstat(file, &about) != 0 || !S_ISREG(about.st_mode))
        fail("cannot open a regular file");
    struct map map = {NULL, (size_t)about.st_size};
    if (map.size > 0)
        map.bytes = mmap(NULL, map.size, PROT_READ | PROT_WRITE, kind, file, 0);
    close(file);
    if (map.bytes == MAP_FAILED)
        fail("cannot map a file");
    return map;
}

/* Prints a line of the log. */
static void print(const uint8_t *line, size_t size) {
    if (fwrite(line, 1, size, stdout) != size)
        fail("cannot print the log");
}

/* Prints the line that cdpatch prints before it fails. */
static int failed(enum cdpatch_failure failure) {
    uint8_t line[CDPATCH_LINE_SIZE];
    print(line, cdpatch_failure_line(failure, line));
    return CDPATCH_STATUS_FAILED;
}

/* Refuses a script with a patch that names no old bytes. */
static void see_old_bytes(struct map script, const struct cdpatch_index *index, const struct cdpatch_entry *entries) {
    static struct cdpatch_patch_bytes bytes;
    struct cdpatch_patch patch;
    uint32_t first = UINT32_MAX;
    for (size_t i = 0; i < index->count; i++) {
        const struct cdpatch_entry *it = &entries[i];
        if (it->number < first && cdpatch_read_line(index->version, 0, script.bytes + it->start, it->size, &patch, bytes.new_bytes,
                                                    bytes.old_bytes) == CDPATCH_CONTENT_PATCH && !patch.has_old)
            first = it->number;
    }
    if (first == UINT32_MAX)
        return;
    fprintf(stderr, "patch_map: line %u of the script names no old bytes\n", first);
    exit(CDPATCH_STATUS_FAILED);
}

/* Applies the patches to a map, and prints the outcomes if `prints`. Returns the status. */
static int apply(struct cdpatch_job job, struct map image, bool prints) {
    static struct cdpatch_answer answers[CDPATCH_MOST_PATCHES];
    uint8_t line[CDPATCH_LINE_SIZE];
    size_t sectors = image.size / CDPATCH_SECTOR_SIZE, done;
    uint32_t applied = 0;
    bool is_long = image.size > CDPATCH_MOST_SECTORS * (size_t)CDPATCH_SECTOR_SIZE;
    job.flags = is_long ? 0 : CDPATCH_FLAG_LAST;
    enum cdpatch_stop stop = cdpatch_apply_entries(&job, image.bytes, is_long ? CDPATCH_MOST_SECTORS : sectors, answers,
                                                   CDPATCH_MOST_PATCHES, &done);
    if (stop > CDPATCH_STOP_PIECE)
        fail("the script cannot be applied");
    for (size_t i = 0; i < done; i++) {
        applied += answers[i].result == CDPATCH_RESULT_OK;
        if (prints)
            print(line, cdpatch_outcome_line(answers[i].number, answers[i].result, answers[i].block, (uint16_t)answers[i].offset, line));
    }
    if (is_long)
        return failed(CDPATCH_FAILURE_LONG_IMAGE);
    uint32_t refused = (uint32_t)done - applied;
    if (prints)
        print(line, cdpatch_last_line(applied, refused, line));
    return refused ? CDPATCH_STATUS_FOUND : CDPATCH_STATUS_DONE;
}

int main(int count, char **arguments) {
    static struct cdpatch_entry entries[CDPATCH_MOST_PATCHES];
    static struct cdpatch_patch_bytes patch_bytes;
    struct cdpatch_named_base other;
    struct cdpatch_index index;
    uint8_t line[CDPATCH_LINE_SIZE];
    bool without_old = count == 4 && strcmp(arguments[1], "--without-old") == 0;
    if (count != 3 && !without_old)
        fail("usage: patch_map [--without-old] SCRIPT IMAGE");
    struct map script = mapped(arguments[count - 2], O_RDONLY, MAP_PRIVATE);
    struct map trial = mapped(arguments[count - 1], O_RDWR, MAP_PRIVATE);
    switch (cdpatch_index_script(script.bytes, script.size, entries, CDPATCH_MOST_PATCHES, &index)) {
    case CDPATCH_SCRIPT_TOO_LONG:
        return failed(CDPATCH_FAILURE_LONG_SCRIPT);
    case CDPATCH_SCRIPT_INVALID:
        print(line, cdpatch_fault_line(index.line, index.fault, line));
        return CDPATCH_STATUS_FAILED;
    default:
        break;
    }
    if (cdpatch_script_base(script.bytes, script.size, 0, &other))
        fail("the script is for another base");
    if (!without_old)
        see_old_bytes(script, &index, entries);
    struct cdpatch_job job = {.script = script.bytes, .script_size = script.size, .entries = entries, .count = index.count,
                              .patch_bytes = &patch_bytes, .version = index.version};
    int status = apply(job, trial, true);
    if (fflush(stdout) != 0)
        fail("cannot print the log");
    if (status != CDPATCH_STATUS_DONE)
        return status;
    struct map image = mapped(arguments[count - 1], O_RDWR, MAP_SHARED);
    status = apply(job, image, false);
    if (image.size > 0 && msync(image.bytes, image.size, MS_SYNC) != 0)
        fail("cannot write the image");
    return status;
}
