/** libcdpatch: the codes of CD-ROM sectors (ECMA-130), what cdpatch finds in
 * sectors, and scripts of patches. cc .. -lcdpatch; libcdpatch(3). The results
 * of each libcdpatch call are proved for Linux on x86-64, except whether
 * cdpatch_correct_sector corrects more than light damage; the header and the
 * linking are only tested, and no proof covers the program that reads, writes,
 * and prints. Sectors of Mode 2 are recognised, but none of their codes.
 *
 * The simplest program patches an image in memory:
 *
 *     #include <cdpatch.h>
 *     #include <stdio.h>
 *     static const uint8_t script[] =
 *         "cdpatch 1\nset 16 40 434452544F4F4C\n";
 *     static uint8_t image[64 << 20];
 *     static struct cdpatch_entry entries[1];
 *     static struct cdpatch_answer answers[1];
 *     static struct cdpatch_patch_bytes bytes;
 *     int main(void) { // from the standard input to the standard output
 *         struct cdpatch_index index;
 *         size_t size = fread(image, 1, sizeof image, stdin), done;
 *         if (!feof(stdin)) return 2; // a failed read, or 64 MB and more
 *         if (cdpatch_index_script(script, sizeof script - 1, entries, 1,
 *                                  &index) != CDPATCH_SCRIPT_VALID)
 *             return 2;
 *         struct cdpatch_job job = {
 *             script, sizeof script - 1, entries, index.count, &bytes,
 *             index.version, 0, 0, CDPATCH_FLAG_LAST, {0}};
 *         if (cdpatch_apply_entries(&job, image, size / 2352, answers, 1,
 *                                   &done) != CDPATCH_STOP_ALL)
 *             return 2;
 *         if (answers[0].result != CDPATCH_RESULT_OK) return 1;
 *         fwrite(image, 1, size, stdout);
 *         return fflush(stdout) || ferror(stdout) ? 2 : 0;
 *     }
 *
 * A program that reads and writes the image itself, with memory of a constant
 * size, patches it piece by piece (below).
 *
 * A sector is 2352 bytes. An address is three: minute, second, and frame in
 * BCD. Memory may hold any bytes, and a number may have any value. Each
 * pointer must be valid for the size given here, and may be null only if the
 * size is 0. The bytes that a call writes must not overlap its other arguments.
 * Text is written to the first bytes of its buffer; the other bytes do not
 * change. `spare` fields are for later releases: set those that a call reads
 * to 0.
 *
 * Nothing is kept between calls, so threads may make calls at the same time.
 * No other thread may access memory that a call writes. No call allocates
 * memory, and each may be made in a signal handler.
 *
 * The library needs a processor of x86-64-v2 (SSE4.2 and POPCNT). On an older
 * one the loader (glibc 2.33 or later) refuses the shared library, and the
 * static one may end the program with SIGILL.
 *
 * @file */
#ifndef CDPATCH_H
#define CDPATCH_H

#include <stdbool.h>
#include <stddef.h>
#include <stdint.h>

/** Begins the size of a parameter: `uint8_t sector[CDPATCH_AT_LEAST 2352]`.
 * From C11 on a compiler may warn of a call with a null pointer there, or with
 * fewer bytes. */
#if defined __STDC_VERSION__ && __STDC_VERSION__ >= 201112L && \
    !defined __cplusplus
#define CDPATCH_AT_LEAST static
#else
#define CDPATCH_AT_LEAST
#endif

/** Precedes a call whose result says whether it did anything: a compiler may
 * warn if a program ignores the result. Compile with `-DCDPATCH_NODISCARD=` to
 * turn this off. */
#ifndef CDPATCH_NODISCARD
#if defined __cplusplus && __cplusplus >= 201703L
#define CDPATCH_NODISCARD [[nodiscard]]
#elif defined __GNUC__
#define CDPATCH_NODISCARD __attribute__((warn_unused_result))
#else
#define CDPATCH_NODISCARD
#endif
#endif

#ifdef __cplusplus
extern "C" {
#endif

/** The version of this header as text. */
#define CDPATCH_VERSION "2.0.0"
/** The same as a number: 10000 times its first number, plus 100 times its
 * second, plus its third. */
#define CDPATCH_VERSION_NUMBER 20000

/** Sizes and limits. Sizes are in bytes. */
enum {
    CDPATCH_SECTOR_SIZE = 2352,    /**< A sector. */
    CDPATCH_USER_SIZE = 2048,      /**< The user data of a Mode 1 sector. */
    CDPATCH_ADDRESS_SIZE = 3,      /**< An address. */
    CDPATCH_PATCH_SIZE = 4096,     /**< The longest patch. */
    CDPATCH_LINE_SIZE = 96,        /**< Room for any line of text. */
    CDPATCH_DIGEST_SIZE = 20,      /**< A SHA-1. */
    CDPATCH_COLUMNS = 86,          /**< How many P columns a sector has. */
    CDPATCH_DIAGONALS = 52,        /**< How many Q diagonals a sector has. */
    CDPATCH_MOST_SECTORS = 1000000,         /**< The sectors of an image. */
    CDPATCH_MOST_SCRIPT_BYTES = 67108864,   /**< The bytes of a script. */
    CDPATCH_MOST_PATCHES = 65535,           /**< The patches of a script. */
    CDPATCH_MOST_LOG_BYTES = 5243080,       /**< Room for the log of any
                                                 script. */
    CDPATCH_MOST_AUDIT_BYTES = 40000100,    /**< Room for the list or audit of
                                                 any image: 100 bytes, and 40
                                                 for each sector. */
    CDPATCH_LAST_BLOCK = 999999999, /**< The last block a patch may name. */
    CDPATCH_LAST_BASE = 449849      /**< The last block with an address, which
                                         is also the largest base. */
};

/** Results of changes and of patches. A change tests them in this order. */
enum cdpatch_result {
    CDPATCH_RESULT_OK,           /**< The sector was changed. */
    CDPATCH_RESULT_NOT_MODE1,    /**< The sector is not of Mode 1. */
    CDPATCH_RESULT_DAMAGED,      /**< The sector is damaged. */
    CDPATCH_RESULT_OUT_OF_RANGE, /**< The bytes are not within the user data. */
    CDPATCH_RESULT_NO_BLOCK,     /**< The image does not have the block. */
    CDPATCH_RESULT_DIFFERS,      /**< The old bytes are different. */
    CDPATCH_RESULT_NO_PATCH      /**< A field that the verb reads has a value
                                      that no line of a script can produce. */
};
/** Exit statuses of commands. */
enum cdpatch_status {
    CDPATCH_STATUS_DONE,  /**< All was done, and nothing found. */
    CDPATCH_STATUS_FOUND, /**< A patch was refused, or a sector is damaged. */
    CDPATCH_STATUS_FAILED /**< The command failed. */
};
/** Kinds of sectors, by sync field and mode byte. */
enum cdpatch_sector_kind {
    CDPATCH_KIND_NOSYNC, /**< No sync field, such as audio. */
    CDPATCH_KIND_MODE0,  /**< Mode byte 0. */
    CDPATCH_KIND_MODE1,  /**< Mode byte 1. */
    CDPATCH_KIND_MODE2,  /**< Mode byte 2. */
    CDPATCH_KIND_OTHER   /**< A mode byte above 2. */
};
/** How well the copy that replaces a sector fits it. */
enum cdpatch_fit {
    CDPATCH_FIT_NONE,    /**< No copy can replace it. */
    CDPATCH_FIT_NEITHER, /**< EDC field and data are different. */
    CDPATCH_FIT_DATA,    /**< Header and user data are the same, and the EDC
                              field is not. */
    CDPATCH_FIT_EDC      /**< The EDC field is the same. */
};
/** The verbs of patches. */
enum cdpatch_verb {
    CDPATCH_VERB_SET,     /**< Writes bytes. */
    CDPATCH_VERB_FILL,    /**< Writes one byte many times. */
    CDPATCH_VERB_REBUILD, /**< Recalculates the codes of a sector. */
    CDPATCH_VERB_ADDRESS  /**< Writes an address. */
};
/** The content of a line of a script. Errors are 4 to 14 in every release. A
 * later release may add values above 255, for the head lines of later versions
 * of the language. */
enum cdpatch_content {
    CDPATCH_CONTENT_NOTHING,      /**< It is blank or a comment. */
    CDPATCH_CONTENT_VERSION_1,    /**< The head line of version 1. */
    CDPATCH_CONTENT_VERSION_2,    /**< The head line of version 2. */
    CDPATCH_CONTENT_PATCH,        /**< A patch. */
    CDPATCH_CONTENT_NO_HEAD,      /**< Error: it should be the head line. */
    CDPATCH_CONTENT_UNKNOWN_VERB, /**< Error: no verb has this name. */
    CDPATCH_CONTENT_WORD_COUNT,   /**< Error: too few or too many words. */
    CDPATCH_CONTENT_BAD_NUMBER,   /**< Error: not 1 to 9 decimal digits. */
    CDPATCH_CONTENT_BAD_HEX,      /**< Error: not pairs of hex digits. */
    CDPATCH_CONTENT_BAD_LENGTH,   /**< Error: not 1 to 4096 bytes, or not as
                                       many old bytes as new ones. */
    CDPATCH_CONTENT_BAD_OFFSET,   /**< Error: an offset above 2047. */
    CDPATCH_CONTENT_BAD_ADDRESS,  /**< Error: not an address. */
    CDPATCH_CONTENT_TOO_MANY,     /**< Error: more than 65535 patches. */
    CDPATCH_CONTENT_NO_MEMORY,    /**< Error of the program: no memory. */
    CDPATCH_CONTENT_NO_VERSION    /**< `version` is not a version. */
};
/** The results of cdpatch_index_script. */
enum cdpatch_script {
    CDPATCH_SCRIPT_VALID,    /**< Each patch has an entry. */
    CDPATCH_SCRIPT_INVALID,  /**< A line has an error. */
    CDPATCH_SCRIPT_TOO_LONG, /**< It has more than 67108864 bytes. */
    CDPATCH_SCRIPT_CAPACITY  /**< It has more patches than entries are given. */
};
/** Why cdpatch_apply_entries stopped before the next entry. From
 * CDPATCH_STOP_VERSION on nothing was done. */
enum cdpatch_stop {
    CDPATCH_STOP_ALL,      /**< All entries are done. */
    CDPATCH_STOP_PIECE,    /**< Its patch is for another piece. */
    CDPATCH_STOP_CAPACITY, /**< The answers are used up. */
    CDPATCH_STOP_ENTRY,    /**< It is not an entry of the script. */
    CDPATCH_STOP_VERSION,  /**< The version is not 1 or 2. */
    CDPATCH_STOP_BASE,     /**< The base is above 449849. */
    CDPATCH_STOP_FIRST,    /**< The piece begins before the image. */
    CDPATCH_STOP_FLAGS     /**< A flag is unknown. */
};
/** Failures that cdpatch(1) reports. */
enum cdpatch_failure {
    CDPATCH_FAILURE_LONG_SCRIPT, /**< The script is longer than allowed. */
    CDPATCH_FAILURE_LONG_IMAGE,  /**< The image has too many sectors. */
    CDPATCH_FAILURE_READ,        /**< A read of the image failed. */
    CDPATCH_FAILURE_WRITE        /**< A write to the output failed. */
};
/** Flags, whose sum a call gets. */
enum cdpatch_flag {
    CDPATCH_FLAG_CARRY = 1,      /**< Damaged sectors are patched, and keep
                                      their damage. */
    CDPATCH_FLAG_LAST = 2,       /**< The image ends with this piece. */
    CDPATCH_FLAG_WITHOUT_OLD = 4 /**< Old bytes are not compared. */
};

/** The defect of a sector: what is wrong with it. */
struct cdpatch_defect {
    bool zeros; /**< A byte of the Intermediate field is not 00. */
    bool edc;   /**< The EDC. */
    uint8_t p;  /**< How many of the 86 P columns. */
    uint8_t q;  /**< How many of the 52 Q diagonals. */
};
/** A sector's kind and defect. All fields but the kind are 0 if it is not a
 * Mode 1 sector. */
struct cdpatch_record {
    uint8_t kind; /**< An `enum cdpatch_sector_kind`. */
    bool address; /**< Its address is wrong; always false above block 449849. */
    bool zeros;   /**< The others are as in `struct cdpatch_defect`. */
    bool edc;
    uint8_t p;
    uint8_t q;
};
/** The size of a line. */
struct cdpatch_line {
    size_t size;  /**< Its bytes without its end (LF, or CR LF). */
    size_t taken; /**< Its bytes with its end. */
};
/** A patch. The new and the old bytes of CDPATCH_VERB_SET are elsewhere.
 *
 * cdpatch_apply_patch reads `block`, `offset`, and `verb` of each record. For
 * CDPATCH_VERB_SET it also reads `count` and `has_old`, the new bytes, and any
 * old ones; for CDPATCH_VERB_FILL `count` and `value`; for
 * CDPATCH_VERB_ADDRESS `address`. The other fields may hold anything. */
struct cdpatch_patch {
    uint32_t block;  /**< Its first block, at most 999999999. */
    uint16_t offset; /**< The user byte there at which it begins, at most 2047;
                          0 for CDPATCH_VERB_REBUILD and
                          CDPATCH_VERB_ADDRESS. */
    uint16_t count;  /**< How many bytes it sets or fills, 1 to 4096. */
    uint8_t verb;    /**< An `enum cdpatch_verb`. */
    uint8_t has_old; /**< 1 if it has old bytes, else 0. */
    uint8_t value;   /**< The byte that fills. */
    uint8_t address[3];
};
/** The place that refuses a patch. */
struct cdpatch_place {
    uint32_t block;
    uint16_t offset; /**< The user byte there that differs, else 0. */
};
/** The state of a SHA-1 between two calls. */
struct cdpatch_sha1 {
    uint32_t hash[5];
    uint8_t block[64];
    uint64_t count;
};

/** A patch of a script. A program may read it; it may not change it. */
struct cdpatch_entry {
    uint32_t block;      /**< The block in which the patch begins. */
    uint32_t number;     /**< Its line in the script, from 1 on. */
    uint32_t start;      /**< The offset of that line in the script. */
    uint32_t size;       /**< The bytes of that line without its end. */
    uint32_t blocks_met; /**< How many blocks it touches, 1 to 3. */
    uint32_t spare;
};
/** The patches of a script, or its error. */
struct cdpatch_index {
    size_t count;     /**< The number of its patches; 0 if it is not valid. */
    uint32_t version; /**< Its version, 1 or 2; 0 if it is not valid. */
    uint32_t fault;   /**< Its error, an `enum cdpatch_content`, else 0. */
    uint32_t line;    /**< The line of the error, else 0. */
    uint32_t spare[3];
};
/** The outcome of a patch: the arguments of cdpatch_outcome_line. */
struct cdpatch_answer {
    uint32_t number; /**< Its line in the script. */
    uint32_t result; /**< An `enum cdpatch_result`. */
    uint32_t block;  /**< The block that refuses it, else 0. */
    uint32_t offset; /**< The user byte there that differs, else 0. */
    uint32_t spare[2];
};
/** Memory for the bytes of one patch, which may hold anything. */
struct cdpatch_patch_bytes {
    uint8_t new_bytes[CDPATCH_PATCH_SIZE];
    uint8_t old_bytes[CDPATCH_PATCH_SIZE];
};
/** A script that is applied to an image. No call changes it. After a call that
 * did N entries, add N to `entries`, and subtract it from `count`. */
struct cdpatch_job {
    const uint8_t *script;               /**< The text of the script. */
    size_t script_size;                  /**< Its size. */
    const struct cdpatch_entry *entries; /**< The entries that are left. */
    size_t count;                        /**< Their number. */
    struct cdpatch_patch_bytes *patch_bytes; /**< Each call writes it. */
    uint32_t version; /**< The version of the script. */
    uint32_t base;    /**< The block of the image's first sector. */
    uint32_t first;   /**< The block of the piece's first sector. */
    uint32_t flags;   /**< 0, or a sum of flags. */
    uint32_t spare[4];
};
/** A line of a script that names a base, such as `# base 150`. */
struct cdpatch_named_base {
    size_t line; /**< The number of the line, from 1 on. */
    uint32_t base;
    uint32_t spare;
};

/** Returns the version of the library, as CDPATCH_VERSION_NUMBER. */
uint32_t cdpatch_version(void);
/** Writes a few words for an `enum cdpatch_result`, without a line feed, and
 * returns their length, or 0 for any other number. */
size_t cdpatch_result_text(uint32_t result, uint8_t text[CDPATCH_AT_LEAST 96]);

/** @name Codes, and whole sectors
 * @{ */

/** Returns the EDC of `length` bytes. A sector stores the EDC of its bytes 0 to
 * 2063 at byte 2064, least significant byte first. */
uint32_t cdpatch_edc(const uint8_t *bytes, size_t length);
/** Returns the kind of a sector. */
enum cdpatch_sector_kind cdpatch_kind(
    const uint8_t sector[CDPATCH_AT_LEAST 2352]);
/** Writes the address of a block, 0 to 449849 (block 0 is 00:02:00), and
 * returns true. For any other block returns false and writes nothing. */
bool cdpatch_address(uint32_t block, uint8_t address[CDPATCH_AT_LEAST 3]);
/** Writes the block that has an address, and returns true. If no block has it,
 * returns false and writes nothing. */
CDPATCH_NODISCARD
bool cdpatch_block(const uint8_t address[CDPATCH_AT_LEAST 3],
                   uint32_t block[CDPATCH_AT_LEAST 1]);
/** Makes the one consistent Mode 1 sector with this address and user data. The
 * address may be any three bytes. */
void cdpatch_encode(const uint8_t address[CDPATCH_AT_LEAST 3],
                    const uint8_t user[CDPATCH_AT_LEAST 2048],
                    uint8_t sector[CDPATCH_AT_LEAST 2352]);
/** Recalculates P and Q parity, bytes 2076 to 2351, in a sector of any kind. */
void cdpatch_fill_parity(uint8_t sector[CDPATCH_AT_LEAST 2352]);
/** Returns whether a sector is a Mode 1 sector with nothing wrong in
 * Intermediate field, EDC, and P and Q parity. */
bool cdpatch_is_consistent(const uint8_t sector[CDPATCH_AT_LEAST 2352]);
/** Writes what is wrong with a sector of any kind, read as a Mode 1 sector.
 * Nothing is wrong with a sector of zeros. To decide whether a sector is
 * sound, use cdpatch_is_consistent, which also tests the sync field and the
 * mode byte. */
void cdpatch_find_defect(const uint8_t sector[CDPATCH_AT_LEAST 2352],
                         struct cdpatch_defect defect[CDPATCH_AT_LEAST 1]);
/** For a sector of any kind, writes 1 for each of the 86 P columns and 52 Q
 * diagonals that is not a code word, and 0 for the others. Column C has the
 * bytes 12 + C + 86 * I for I from 0 to 25. Diagonal D, with N = D / 2, has
 * the bytes 12 + (86 * N + 88 * I) % 2236 + D % 2 for I from 0 to 42, and 2248
 * + D and 2300 + D. If one byte of 12 to 2247 is wrong, it is where the broken
 * column and diagonal cross. */
void cdpatch_find_broken(const uint8_t sector[CDPATCH_AT_LEAST 2352],
                         uint8_t columns[CDPATCH_AT_LEAST 86],
                         uint8_t diagonals[CDPATCH_AT_LEAST 52]);
/** Writes a record for each of `count` sectors, which begin at block `block`,
 * and returns true. If `capacity`, the number of records, is not `count`, or a
 * block is above 4294967294, returns false and writes nothing. */
CDPATCH_NODISCARD
bool cdpatch_survey(const uint8_t *sectors, size_t count, uint32_t block,
                    struct cdpatch_record *records, size_t capacity);

/** @}
 * @name Changes of a Mode 1 sector
 * EDC and parity are updated. If the result is not CDPATCH_RESULT_OK, the
 * sector does not change. The change calls refuse a damaged sector; the carry
 * calls keep its damage, and add none.
 * @{ */

/** Makes any Mode 1 sector the one consistent sector with its header and user
 * data. */
CDPATCH_NODISCARD
enum cdpatch_result cdpatch_rebuild(uint8_t sector[CDPATCH_AT_LEAST 2352]);
/** Writes `length` bytes into the user data at `offset`. To replace all user
 * data of a sound sector, cdpatch_encode is faster. */
CDPATCH_NODISCARD
enum cdpatch_result cdpatch_change_user(uint8_t sector[CDPATCH_AT_LEAST 2352],
                                        size_t offset, const uint8_t *bytes,
                                        size_t length);
/** Like cdpatch_change_user, but keeps the damage of a damaged sector. */
CDPATCH_NODISCARD
enum cdpatch_result cdpatch_carry_user(uint8_t sector[CDPATCH_AT_LEAST 2352],
                                       size_t offset, const uint8_t *bytes,
                                       size_t length);
/** Writes an address into the header. */
CDPATCH_NODISCARD
enum cdpatch_result cdpatch_change_address(
    uint8_t sector[CDPATCH_AT_LEAST 2352],
    const uint8_t address[CDPATCH_AT_LEAST 3]);
/** Like cdpatch_change_address, but keeps the damage of a damaged sector. */
CDPATCH_NODISCARD
enum cdpatch_result cdpatch_carry_address(
    uint8_t sector[CDPATCH_AT_LEAST 2352],
    const uint8_t address[CDPATCH_AT_LEAST 3]);

/** @}
 * @name Repairs of a Mode 1 sector
 * cdpatch_correct_sector changes only a damaged Mode 1 sector.
 * cdpatch_merge_sector chooses a copy for every sector that is not a
 * consistent Mode 1 sector, also for audio and Mode 2, so call it only for
 * sectors that should be Mode 1. Damage may be deliberate, so ask before you
 * repair it.
 * @{ */

/** Chooses, among `count` copies of a sector in other dumps, the one that
 * replaces it. A copy can replace it if the copy is consistent and has the
 * address; of these, the first with the highest fit is chosen. Writes its
 * place among the copies, from 0 on. For CDPATCH_FIT_NONE, also if the sector
 * is consistent, writes nothing. For CDPATCH_FIT_NEITHER nothing in the sector
 * confirms the copy. */
CDPATCH_NODISCARD
enum cdpatch_fit cdpatch_merge_sector(
    const uint8_t address[CDPATCH_AT_LEAST 3],
    const uint8_t sector[CDPATCH_AT_LEAST 2352], const uint8_t *copies,
    size_t count, size_t place[CDPATCH_AT_LEAST 1]);
/** Corrects a damaged sector by its P and Q parity, and returns true if the
 * Intermediate field, the EDC, and all parity are then right. The header and
 * the EDC field are never changed, so the EDC confirms the result. Otherwise
 * returns false, and the sector stays as it was.
 *
 * Light damage is always corrected: sync field, header, and EDC field are
 * right, at most one byte of each P column is wrong, and at most one of the two
 * Q bytes of each diagonal. A single wrong byte outside these fields is light
 * damage, and so are up to 86 wrong bytes in a row in the user data. A sync
 * field is restored if nothing else is wrong. More damage is often corrected,
 * too. */
CDPATCH_NODISCARD
bool cdpatch_correct_sector(uint8_t sector[CDPATCH_AT_LEAST 2352]);

/** @}
 * @name A script on an image
 * The library decides and applies; the program reads, writes, and prints. Two
 * functions are enough. cdpatch_index_script reads the script once, and
 * cdpatch_apply_entries applies its patches to a piece of the image: any
 * number of consecutive sectors in memory, which are patched in place. An
 * image in memory, or a mapped file, is one piece. A stream is cut into
 * pieces, of three sectors at least. This function is a whole client:
 *
 *     int patch(const uint8_t *script, size_t script_size, uint32_t base,
 *               uint32_t flags, FILE *in, FILE *out, FILE *log) {
 *         static struct cdpatch_entry entries[CDPATCH_MOST_PATCHES];
 *         static struct cdpatch_answer answers[CDPATCH_MOST_PATCHES];
 *         static struct cdpatch_patch_bytes bytes;
 *         static uint8_t piece[400 * CDPATCH_SECTOR_SIZE];
 *         uint8_t text[CDPATCH_LINE_SIZE];
 *         uint32_t counts[2] = {0, 0}; // applied, refused
 *         size_t held = 0, done, i;
 *         struct cdpatch_index index;
 *         struct cdpatch_named_base other;
 *         enum cdpatch_script found = cdpatch_index_script(
 *             script, script_size, entries, CDPATCH_MOST_PATCHES, &index);
 *         if (found == CDPATCH_SCRIPT_TOO_LONG)
 *             fwrite(text, 1, cdpatch_failure_line(
 *                 CDPATCH_FAILURE_LONG_SCRIPT, text), log);
 *         if (found == CDPATCH_SCRIPT_INVALID)
 *             fwrite(text, 1, cdpatch_fault_line(
 *                 index.line, index.fault, text), log);
 *         if (found != CDPATCH_SCRIPT_VALID) return CDPATCH_STATUS_FAILED;
 *         if (cdpatch_script_base(script, script_size, base, &other)) {
 *             fprintf(log, "the script is for base %u\n", other.base);
 *             return CDPATCH_STATUS_FAILED;
 *         }
 *         struct cdpatch_job job = {script, script_size, entries,
 *                                   index.count, &bytes, index.version,
 *                                   base, base, flags, {0}};
 *         for (bool last = false; !last; job.first += done) {
 *             size_t size = held + fread(piece + held, 1,
 *                                        sizeof piece - held, in);
 *             size_t most = CDPATCH_MOST_SECTORS - (job.first - base);
 *             bool too_long = size > most * CDPATCH_SECTOR_SIZE;
 *             last = size < sizeof piece && !ferror(in) && !too_long;
 *             if (too_long) size = most * CDPATCH_SECTOR_SIZE;
 *             job.flags = flags + (last ? CDPATCH_FLAG_LAST : 0);
 *             size_t count = size / CDPATCH_SECTOR_SIZE;
 *             enum cdpatch_stop stop = cdpatch_apply_entries(
 *                 &job, piece, count, answers, CDPATCH_MOST_PATCHES, &done);
 *             if (stop > CDPATCH_STOP_PIECE || (last && stop))
 *                 return CDPATCH_STATUS_FAILED;
 *             for (i = 0; i < done; i++) {
 *                 struct cdpatch_answer it = answers[i];
 *                 counts[it.result != CDPATCH_RESULT_OK]++;
 *                 fwrite(text, 1, cdpatch_outcome_line(
 *                     it.number, it.result, it.block, (uint16_t)it.offset,
 *                     text), log);
 *             }
 *             job.entries += done;
 *             job.count -= done;
 *             done = count; // the sectors before the next patch
 *             if (stop && job.entries->block - job.first < count)
 *                 done = job.entries->block - job.first;
 *             size_t sent = last ? size : done * CDPATCH_SECTOR_SIZE;
 *             if (ferror(log) || fwrite(piece, 1, sent, out) != sent)
 *                 return CDPATCH_STATUS_FAILED;
 *             if (too_long)
 *                 fwrite(text, 1, cdpatch_failure_line(
 *                     CDPATCH_FAILURE_LONG_IMAGE, text), log);
 *             if (too_long || ferror(in)) return CDPATCH_STATUS_FAILED;
 *             held = size - sent; // these were patched; never read them again
 *             memmove(piece, piece + sent, held);
 *         }
 *         fwrite(text, 1, cdpatch_last_line(counts[0], counts[1], text),
 *                log);
 *         if (fflush(out) || fflush(log) || ferror(log))
 *             return CDPATCH_STATUS_FAILED;
 *         return counts[1] ? CDPATCH_STATUS_FOUND : CDPATCH_STATUS_DONE;
 *     }
 *
 * The new image, the log, and the status are those of `cdpatch apply`,
 * whatever the pieces are. That the bytes and the answers are right for any
 * choice of pieces is proved; the order in which a program reads, writes, and
 * prints is its own.
 *
 * The call stops by itself at the first patch that needs sectors after the
 * piece, so pass all entries that are left each time. Three rules are the
 * program's:
 *
 * 1. `first` is the block of the piece's first sector. Each piece begins at the
 * block of the next entry or before it, and skips no sector that a patch
 * touches.
 *
 * 2. Sectors from the block of the next entry on are kept for the next piece as
 * they are, and are not read again: an earlier patch may have changed them.
 *
 * 3. CDPATCH_FLAG_LAST is set for the piece with which the image ends, and for
 * no other. Without it patches beyond the end stay undone. If it is set too
 * early, they are CDPATCH_RESULT_NO_BLOCK. A last read of 0 bytes is a piece,
 * too.
 *
 * A program that reads only the sectors that it needs reads `blocks_met`
 * sectors from `block` of an entry on, and those of the following entries that
 * meet or adjoin them, and passes them as one piece. Three patches need three
 * to nine sectors, however large the image is. To try a script, as `cdpatch
 * check` does, discard the pieces.
 * @{ */

/** Reads a whole script, and writes an entry for each of its patches to the
 * first of `capacity` entries, in the order in which they are applied: by
 * their blocks, and for the same block by their lines. For
 * CDPATCH_SCRIPT_CAPACITY the entries have no meaning: call again with
 * `index->count` entries. CDPATCH_MOST_PATCHES are enough for any script. */
CDPATCH_NODISCARD
enum cdpatch_script cdpatch_index_script(
    const uint8_t *script, size_t script_size, struct cdpatch_entry *entries,
    size_t capacity, struct cdpatch_index index[CDPATCH_AT_LEAST 1]);
/** Finds the first line of a script that names a base other than `base`, such
 * as `# base 150`, writes it, and returns true. If there is none, returns
 * false and writes nothing. For all other calls such a line is a comment, so
 * ask before you apply the script: its blocks would be wrong. To find out
 * which base a script names, pass UINT32_MAX. */
CDPATCH_NODISCARD
bool cdpatch_script_base(const uint8_t *script, size_t script_size,
                         uint32_t base,
                         struct cdpatch_named_base other[CDPATCH_AT_LEAST 1]);
/** Applies patches of a script, in the order of their entries, to a piece of
 * `count` sectors in place. Its first sector is block `job->first`. Writes the
 * answer for each patch to the first of `capacity` answers, and the number of
 * entries that were done to `done`. An accepted patch has changed the sectors
 * that it touches; a refused one has changed nothing. No other sector and no
 * other answer changes.
 *
 * Returns CDPATCH_STOP_ALL, or why it stopped before the next entry:
 * CDPATCH_STOP_PIECE if the patch touches a block that the piece does not have
 * and the image may have. The image has no block below `job->base`, and with
 * CDPATCH_FLAG_LAST none after the piece. CDPATCH_STOP_CAPACITY if all answers
 * are used: call again with the same piece. CDPATCH_STOP_ENTRY if the line of
 * the entry, read again, is not a patch, or begins in another block: the entry
 * is not from cdpatch_index_script, or the script has changed. For any other
 * reason `done` becomes 0, and nothing else changes.
 *
 * Whatever numbers and bytes the arguments hold, the call returns and accesses
 * only this memory. Entries that the program has changed are read as they are:
 * an entry of part of a line may be a patch, too. */
CDPATCH_NODISCARD
enum cdpatch_stop cdpatch_apply_entries(
    struct cdpatch_job job[CDPATCH_AT_LEAST 1], uint8_t *sectors, size_t count,
    struct cdpatch_answer *answers, size_t capacity,
    size_t done[CDPATCH_AT_LEAST 1]);

/** @}
 * @name A script line by line
 * Most programs should use cdpatch_index_script and cdpatch_apply_entries
 * instead (above).
 *
 * Cut the text with cdpatch_first_line, and read each line with
 * cdpatch_read_line. `version` is 0 until a head line is read, and then the
 * content of that line; `earlier` counts the patches. The first error makes
 * the script invalid. If the head line is missing, the error is
 * CDPATCH_CONTENT_NO_HEAD, in the line after the last one.
 *
 * Then sort the patches by `block`; those of equal blocks keep their order.
 * Give each to cdpatch_apply_patch, with the sectors from its block on as the
 * earlier patches left them: three, or as many as the image has there. Block B
 * is sector B - base; a block below the base has no sectors. The result is the
 * image of `cdpatch apply` without the tail; the lines of the patches and the
 * last line are its log.
 *
 * The program prints the line of a patch before it writes a sector of that
 * block or of a later one. The last line follows the whole image.
 * @{ */

/** Finds the first line of a text, and returns true; the next line begins after
 * `taken` bytes. For an empty text returns false and writes nothing. */
CDPATCH_NODISCARD
bool cdpatch_first_line(const uint8_t *text, size_t size,
                        struct cdpatch_line line[CDPATCH_AT_LEAST 1]);
/** Reads a line (given without its end), and returns its content, which is
 * never CDPATCH_CONTENT_NO_MEMORY. Returns CDPATCH_CONTENT_NO_VERSION if
 * `version` is not 0, 1, or 2. For CDPATCH_CONTENT_PATCH writes the patch and
 * its new and old bytes, otherwise nothing. `earlier` decides only whether a
 * patch is CDPATCH_CONTENT_TOO_MANY, so pass 0 to read a line a second time. */
CDPATCH_NODISCARD
enum cdpatch_content cdpatch_read_line(
    uint32_t version, size_t earlier, const uint8_t *line, size_t size,
    struct cdpatch_patch patch[CDPATCH_AT_LEAST 1],
    uint8_t new_bytes[CDPATCH_AT_LEAST 4096],
    uint8_t old_bytes[CDPATCH_AT_LEAST 4096]);
/** Applies a patch with its new and old bytes to `count` sectors from its block
 * on; no more than three are looked at. Its blocks are tested in turn, each
 * for CDPATCH_RESULT_NO_BLOCK, CDPATCH_RESULT_NOT_MODE1, and
 * CDPATCH_RESULT_DAMAGED, and then the old bytes for CDPATCH_RESULT_DIFFERS.
 * `place` becomes the place that refuses the patch; otherwise it does not
 * change. The sectors change only if the result is CDPATCH_RESULT_OK. With
 * CDPATCH_FLAG_CARRY damage is not a reason to refuse a patch, and is kept;
 * CDPATCH_VERB_REBUILD always removes it. Other flags have no effect: old
 * bytes are not compared if `has_old` is 0. */
CDPATCH_NODISCARD
enum cdpatch_result cdpatch_apply_patch(
    const struct cdpatch_patch patch[CDPATCH_AT_LEAST 1],
    const uint8_t new_bytes[CDPATCH_AT_LEAST 4096],
    const uint8_t old_bytes[CDPATCH_AT_LEAST 4096], uint8_t *sectors,
    size_t count, uint32_t flags,
    struct cdpatch_place place[CDPATCH_AT_LEAST 1]);

/** @}
 * @name Lines as the program prints them
 * Each is written with its line feed, and its length is returned, or 0 if the
 * program never prints such a line. This function prints an audit of an image
 * in memory (at most CDPATCH_MOST_SECTORS sectors and a tail), as
 * `cdpatch audit` does, and returns its status:
 *
 *     int print_audit(const uint8_t *image, size_t size, uint32_t base) {
 *         uint32_t sectors = (uint32_t)(size / 2352), mode1 = 0, damaged = 0;
 *         uint16_t tail = (uint16_t)(size % 2352);
 *         uint8_t text[CDPATCH_LINE_SIZE];
 *         bool found = false;
 *         for (uint32_t i = 0; i < sectors; i++, image += 2352) {
 *             struct cdpatch_record it;
 *             if (!cdpatch_survey(image, 1, base + i, &it, 1))
 *                 return CDPATCH_STATUS_FAILED;
 *             mode1 += it.kind == CDPATCH_KIND_MODE1;
 *             damaged += it.zeros || it.edc || it.p || it.q;
 *             size_t length = cdpatch_audit_line(base + i, &it, text);
 *             found = found || length > 0;
 *             fwrite(text, 1, length, stdout);
 *         }
 *         fwrite(text, 1, cdpatch_audit_end(sectors, mode1, damaged, tail,
 *                                           text), stdout);
 *         return found ? CDPATCH_STATUS_FOUND : CDPATCH_STATUS_DONE;
 *     }
 *
 * @{ */

/** The line of the log for the patch in line `number`, by the result and the
 * place of cdpatch_apply_patch. */
size_t cdpatch_outcome_line(uint32_t number, uint32_t outcome, uint32_t block,
                            uint16_t offset, uint8_t text[CDPATCH_AT_LEAST 96]);
/** The last line of the log. */
size_t cdpatch_last_line(uint32_t applied, uint32_t refused,
                         uint8_t text[CDPATCH_AT_LEAST 96]);
/** The line for an error, CDPATCH_CONTENT_NO_HEAD to CDPATCH_CONTENT_NO_MEMORY,
 * in line `number`. */
size_t cdpatch_fault_line(uint32_t number, uint32_t fault,
                          uint8_t text[CDPATCH_AT_LEAST 96]);
/** The line before the program fails: for an `enum cdpatch_failure`. */
size_t cdpatch_failure_line(uint32_t failure,
                            uint8_t text[CDPATCH_AT_LEAST 96]);
/** The line of `list` for a run of blocks of one `enum cdpatch_sector_kind`,
 * which ends where the kind changes. */
size_t cdpatch_list_line(uint32_t first, uint32_t last, uint32_t kind,
                         uint8_t text[CDPATCH_AT_LEAST 96]);
/** The last line of `list`. */
size_t cdpatch_list_end(uint32_t sectors, uint16_t tail,
                        uint8_t text[CDPATCH_AT_LEAST 96]);
/** The line of `audit` for a block, by its record of cdpatch_survey. */
size_t cdpatch_audit_line(
    uint32_t block, const struct cdpatch_record record[CDPATCH_AT_LEAST 1],
    uint8_t text[CDPATCH_AT_LEAST 96]);
/** The last line of `audit`. */
size_t cdpatch_audit_end(uint32_t sectors, uint32_t mode1, uint32_t damaged,
                         uint16_t tail, uint8_t text[CDPATCH_AT_LEAST 96]);

/** @}
 * @name SHA-1 (FIPS 180-4) of bytes as they come
 * @{ */

/** Begins a digest of no bytes. */
void cdpatch_sha1_begin(struct cdpatch_sha1 state[CDPATCH_AT_LEAST 1]);
/** Adds `length` bytes. */
void cdpatch_sha1_add(struct cdpatch_sha1 state[CDPATCH_AT_LEAST 1],
                      const uint8_t *bytes, size_t length);
/** Writes the digest of the bytes that were added. More may follow. */
void cdpatch_sha1_end(const struct cdpatch_sha1 state[CDPATCH_AT_LEAST 1],
                      uint8_t digest[CDPATCH_AT_LEAST 20]);

/** @} */

#ifdef __cplusplus
}
#endif

#endif
