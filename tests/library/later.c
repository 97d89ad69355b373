/* Imitates a later libcdpatch, in which a script may also begin with `cdpatch 9`, a language with the verbs of version 2. It calls this
 * library's cdpatch_read_line as right_read_line. */
#include <cdpatch.h>
#include <string.h>

enum { LATER_VERSION = 256 };

enum cdpatch_content right_read_line(uint32_t version, size_t earlier, const uint8_t *line, size_t size,
                                     struct cdpatch_patch *patch, uint8_t *new_bytes, uint8_t *old_bytes);
enum cdpatch_content cdpatch_read_line(uint32_t version, size_t earlier, const uint8_t *line, size_t size,
                                       struct cdpatch_patch *patch, uint8_t *new_bytes, uint8_t *old_bytes) {
    if (version == 0 && size == 9 && !memcmp(line, "cdpatch 9", 9))
        return (enum cdpatch_content)LATER_VERSION;
    return right_read_line(version == LATER_VERSION ? CDPATCH_CONTENT_VERSION_2 : version, earlier, line, size, patch, new_bytes, old_bytes);
}
