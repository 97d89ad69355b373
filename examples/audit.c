/* Prints what is wrong with the Mode 1 sectors of an image, a regular file: `audit IMAGE`. The status is that of `cdpatch audit`.
 * Compile with `cc audit.c -lcdpatch`. */
#include <cdpatch.h>
#include <errno.h>
#include <fcntl.h>
#include <stdio.h>
#include <stdlib.h>
#include <string.h>
#include <sys/mman.h>
#include <sys/stat.h>
#include <unistd.h>

static const uint8_t *fail(const char *why) {
    fprintf(stderr, "audit: %s\n", why);
    exit(CDPATCH_STATUS_FAILED);
}

/* Maps a file, and returns its bytes. An empty one has no map, and its bytes may stand anywhere. */
static const uint8_t *mapped(const char *name, size_t *size) {
    int file = open(name, O_RDONLY);
    struct stat about;
    if (file < 0 || fstat(file, &about) != 0)
        return fail(strerror(errno));
    if (!S_ISREG(about.st_mode))
        return fail("not a regular file");
    *size = (size_t)about.st_size;
    void *image = *size == 0 ? NULL : mmap(NULL, *size, PROT_READ, MAP_PRIVATE, file, 0);
    close(file);
    return image == MAP_FAILED ? fail(strerror(errno)) : image;
}

static void print(const uint8_t *line, size_t size) {
    if (fwrite(line, 1, size, stdout) != size)
        fail("cannot write the text");
}

/* Prints the findings in the sectors, and the last line. Returns the status. */
static int audit(const uint8_t *image, uint32_t sectors, uint16_t tail) {
    uint8_t line[CDPATCH_LINE_SIZE];
    uint32_t mode1 = 0, damaged = 0;
    bool found = false;
    for (uint32_t block = 0; block < sectors; block++, image += CDPATCH_SECTOR_SIZE) {
        struct cdpatch_record it;
        if (!cdpatch_survey(image, 1, block, &it, 1))
            fail("cannot survey a sector");
        mode1 += it.kind == CDPATCH_KIND_MODE1;
        damaged += it.zeros || it.edc || it.p || it.q;
        size_t size = cdpatch_audit_line(block, &it, line);
        found = found || size > 0;
        print(line, size);
    }
    print(line, cdpatch_audit_end(sectors, mode1, damaged, tail, line));
    return found ? CDPATCH_STATUS_FOUND : CDPATCH_STATUS_DONE;
}

int main(int count, char **arguments) {
    uint8_t line[CDPATCH_LINE_SIZE];
    size_t size;
    if (count != 2)
        fail("usage: audit IMAGE");
    const uint8_t *image = mapped(arguments[1], &size);
    int status = CDPATCH_STATUS_FAILED;
    if (size > CDPATCH_MOST_SECTORS * (size_t)CDPATCH_SECTOR_SIZE)
        print(line, cdpatch_failure_line(CDPATCH_FAILURE_LONG_IMAGE, line));
    else
        status = audit(image, (uint32_t)(size / CDPATCH_SECTOR_SIZE), (uint16_t)(size % CDPATCH_SECTOR_SIZE));
    if (fflush(stdout) != 0)
        fail("cannot write the text");
    return status;
}
