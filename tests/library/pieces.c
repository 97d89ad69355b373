/* Applies random scripts to random images in pieces of 3, 4, and 446 sectors and as a whole, and compares each with a client by lines or with
 * the program: `pieces COUNT [SEED [PROGRAM PROGRAM_COUNT]]`. Then scripts and images at their limits, and scripts with errors. */
#include "pieces.h"
#include "by_program.h"

static const struct how ways[] = {{3, MOST_ANSWERS, 0}, {3, 1, 0}, {4, 2, 0}, {MOST_PIECE, MOST_ANSWERS, 0}, {WHOLE, MOST_ANSWERS, 0}, {WHOLE, 1, 0}};
enum { WAYS = sizeof ways / sizeof *ways };

/* Whether a client made this image and log, and has this status. */
static bool is_made(const struct made *made, uint32_t status, const uint8_t *out, size_t size, const uint8_t *log, size_t length) {
    return !made->wrong && made->status == status && made->logged == length && !memcmp(made->log, log, length) &&
           (status == CDPATCH_STATUS_FAILED || (made->sent == size && !memcmp(made->out, out, size)));
}

/* Compares clients with one that applies `due` line by line. `flags` are further flags, with which `it` gives what `due` gives without them. */
static void test_ways(const struct some_case *it, const struct some_case *due, uint32_t flags, unsigned number) {
    struct made wanted = made_by_lines(due, 0);
    for (unsigned i = 0; i < WAYS; i++) {
        struct how how = ways[i];
        how.flags = flags;
        struct made made = made_in_pieces(it, how);
        judge(is_made(&made, wanted.status, wanted.out, due->size, wanted.log, wanted.logged) && !wanted.wrong,
              made.wrong ? made.wrong : "pieces are not what lines give", number * WAYS + i);
        free_made(&made);
    }
    free_made(&wanted);
}

static void test_without_old(const struct some_case *it, unsigned number) {
    struct some_case due = *it;
    due.script = it->without_old;
    due.script_size = it->without_old_size;
    test_ways(it, &due, CDPATCH_FLAG_WITHOUT_OLD, number);
}

/* Compares a client with the program: the status, the log, and in some cases the new image, since the program waits for the disk. */
static void test_by_program(const struct some_case *it, unsigned number) {
    bool applies = number % 16 == 0;
    size_t length, size;
    save("image", it->image, it->size);
    save("script", it->script, it->script_size);
    uint32_t status = by_program(applies ? "apply" : "check", it->base, it->carry);
    uint8_t *log = load("log", &length), *out = load("out", &size);
    struct made made = made_in_pieces(it, ways[number % WAYS]);
    if (!applies) {
        memcpy(out = more(out, made.sent), made.out, made.sent);
        size = made.sent;
    }
    judge(is_made(&made, status, out, size, log, length), made.wrong ? made.wrong : "pieces are not what the program makes", number);
    free_made(&made);
    free(log);
    free(out);
}

/* With fewer entries than patches, a script has the same number of patches. */
static void test_capacity(const struct some_case *it, unsigned number) {
    struct cdpatch_entry entries[SMALL_ROOM];
    struct cdpatch_index index, due;
    if (cdpatch_index_script(it->script, it->script_size, entries, SMALL_ROOM, &due) != CDPATCH_SCRIPT_VALID)
        return;
    for (size_t capacity = 0; capacity < due.count; capacity++)
        judge(cdpatch_index_script(it->script, it->script_size, entries, capacity, &index) == CDPATCH_SCRIPT_CAPACITY && index.count == due.count &&
                  index.version == due.version && index.fault == 0,
              "too few entries", number);
    judge(cdpatch_index_script(it->script, it->script_size, entries, due.count, &index) == CDPATCH_SCRIPT_VALID, "an entry for each patch", number);
}

/* Applies a script to a map of zeros with this many bytes, of which only what patches touch is read. */
static struct made made_of_zeros(uint8_t *zeros, size_t size, const char *script, bool in_pieces) {
    static struct cdpatch_entry entries[SMALL_ROOM];
    static struct cdpatch_patch_bytes patch_bytes;
    struct made made = {.log = more(NULL, 4096), .status = CDPATCH_STATUS_FAILED};
    struct cdpatch_index index;
    const uint8_t *text = (const uint8_t *)script;
    uint8_t line[CDPATCH_LINE_SIZE];
    size_t counts[2] = {0, 0}, limit = CDPATCH_MOST_SECTORS, all = size / SECTOR < limit ? size / SECTOR : limit, piece = in_pieces ? MOST_PIECE : all;
    bool is_long = size > limit * SECTOR;
    if (cdpatch_index_script(text, strlen(script), entries, SMALL_ROOM, &index) != CDPATCH_SCRIPT_VALID)
        return made;
    struct cdpatch_job job = {text, strlen(script), entries, index.count, &patch_bytes, index.version, 0, 0, 0, {0}};
    for (size_t first = 0; first <= all && !made.wrong; first += piece - (in_pieces ? 2 : 0)) {
        bool is_last = first + piece >= all;
        job.first = (uint32_t)first;
        job.flags = is_last && !is_long ? CDPATCH_FLAG_LAST : 0;
        (void)call(&job, zeros + first * SECTOR, is_last ? all - first : piece, MOST_ANSWERS, &made, counts);
        if (is_last)
            break;
    }
    if (is_long)
        print(&made, line, cdpatch_failure_line(CDPATCH_FAILURE_LONG_IMAGE, line));
    else
        print(&made, line, cdpatch_last_line((uint32_t)counts[0], (uint32_t)counts[1], line));
    if (!is_long)
        made.status = counts[1] ? CDPATCH_STATUS_FOUND : CDPATCH_STATUS_DONE;
    return made;
}

/* The log of an image of zeros with fewer than the most sectors, with the most, and with more. */
static void test_long_images(void) {
    static const struct { const char *script, *logs[3]; } rows[] = {
        {"cdpatch 2\n", {"applied 0 refused 0\n", "applied 0 refused 0\n", ""}},
        {"cdpatch 2\nset 999998 2047 000000\nset 999997 0 00\nset 999999 2047 0000\nset 1000000 0 00\n",
         {"line 3: refused: block 999997 is not mode 1\nline 2: refused: block 999998 is not mode 1\nline 4: refused: no block 999999\n"
          "line 5: refused: no block 1000000\napplied 0 refused 4\n",
          "line 3: refused: block 999997 is not mode 1\nline 2: refused: block 999998 is not mode 1\nline 4: refused: block 999999 is not mode 1\n"
          "line 5: refused: no block 1000000\napplied 0 refused 4\n",
          "line 3: refused: block 999997 is not mode 1\nline 2: refused: block 999998 is not mode 1\n"}},
        {"cdpatch 2\nrebuild 5\nset 1000003 0 00\n",
         {"line 2: refused: block 5 is not mode 1\nline 3: refused: no block 1000003\napplied 0 refused 2\n",
          "line 2: refused: block 5 is not mode 1\nline 3: refused: no block 1000003\napplied 0 refused 2\n", "line 2: refused: block 5 is not mode 1\n"}}};
    size_t limit = (size_t)CDPATCH_MOST_SECTORS * SECTOR, sizes[] = {limit - 1, limit, limit + 1, limit + SECTOR, limit + 3 * SECTOR + 7};
    uint8_t *zeros = (uint8_t *)mmap(NULL, limit + 4 * SECTOR, PROT_READ | PROT_WRITE, MAP_PRIVATE | MAP_ANONYMOUS | MAP_NORESERVE, -1, 0);
    if (zeros == MAP_FAILED)
        exit(2);
    for (unsigned number = 0; number < 30; number++) {
        unsigned at = number / 2 % 5;
        const char *script = rows[number / 10].script;
        struct made made = made_of_zeros(zeros, sizes[at], script, number % 2);
        char due[4096];
        size_t length = (size_t)snprintf(due, sizeof due, "%s%s", rows[number / 10].logs[at < 2 ? at : 2],
                                         at < 2 ? "" : "cdpatch: the image has more than 1000000 sectors\n");
        uint32_t status = at > 1 ? CDPATCH_STATUS_FAILED : number < 10 ? CDPATCH_STATUS_DONE : CDPATCH_STATUS_FOUND;
        judge(!made.wrong && made.status == status && made.logged == length && !memcmp(made.log, due, length), "an image of about 1000000 sectors", number);
        free_made(&made);
    }
    munmap(zeros, limit + 4 * SECTOR);
}

/* A script with an error has no patches, and the line and the number of the error. */
static void test_error(const char *script, size_t size, enum cdpatch_script found, uint32_t fault, uint32_t line) {
    struct cdpatch_entry entries[2];
    struct cdpatch_index index;
    memset(&index, KEPT, sizeof index);
    judge(cdpatch_index_script((const uint8_t *)script, size, entries, 2, &index) == found && index.count == 0 && index.version == 0 &&
              index.fault == fault && index.line == line,
          "a script with an error", line);
}

static void test_errors(void) {
    static const char incomplete[] = "cdpatch 1\nset 0 0 4\n", last[] = "cdpatch 1\nset 0 0 41\nrebuild 1\nrebuild x\n";
    size_t most = CDPATCH_MOST_SCRIPT_BYTES;
    char *longest = more(NULL, most + 1);
    memset(longest, '#', most + 1);
    test_error(NULL, 0, CDPATCH_SCRIPT_INVALID, CDPATCH_CONTENT_NO_HEAD, 1);
    test_error("# none\n", 7, CDPATCH_SCRIPT_INVALID, CDPATCH_CONTENT_NO_HEAD, 2);
    test_error(incomplete, sizeof incomplete - 1, CDPATCH_SCRIPT_INVALID, CDPATCH_CONTENT_BAD_HEX, 2);
    test_error(last, sizeof last - 1, CDPATCH_SCRIPT_INVALID, CDPATCH_CONTENT_BAD_NUMBER, 4);
    test_error(longest, most, CDPATCH_SCRIPT_INVALID, CDPATCH_CONTENT_NO_HEAD, 2);
    test_error(longest, most + 1, CDPATCH_SCRIPT_TOO_LONG, 0, 0);
    free(longest);
}

/* The longest log has as many bytes as CDPATCH_MOST_LOG_BYTES allows, in a script of almost the maximum size with the most patches. */
static void test_longest_log(void) {
    static const char first[] = "cdpatch 1\n", patch[] = "set 999999999 0 41\n";
    static struct cdpatch_patch_bytes patch_bytes;
    static struct cdpatch_entry entries[CDPATCH_MOST_PATCHES];
    const size_t size = CDPATCH_MOST_SCRIPT_BYTES, patches = CDPATCH_MOST_PATCHES;
    char *script = more(NULL, size), *at = script + size - patches * strlen(patch);
    struct made made = {.log = more(NULL, CDPATCH_MOST_LOG_BYTES)};
    struct cdpatch_index index;
    size_t counts[2] = {0, 0};
    uint8_t line[CDPATCH_LINE_SIZE];
    memset(script, '\n', size);
    memcpy(script, first, strlen(first));
    for (size_t i = 0; i < patches; i++)
        memcpy(at + i * strlen(patch), patch, strlen(patch));
    judge(cdpatch_index_script((uint8_t *)script, size, entries, patches, &index) == CDPATCH_SCRIPT_VALID && index.count == patches,
          "the most patches", 0);
    struct cdpatch_job job = {(uint8_t *)script, size, entries, index.count, &patch_bytes, index.version, 0, 0, CDPATCH_FLAG_LAST, {0}};
    while (call(&job, NULL, 0, MOST_ANSWERS, &made, counts) == CDPATCH_STOP_CAPACITY)
        continue;
    print(&made, line, cdpatch_last_line((uint32_t)counts[0], (uint32_t)counts[1], line));
    judge(!made.wrong && counts[1] == patches && made.logged < CDPATCH_MOST_LOG_BYTES, "the log of the most patches", 0);
    free(made.log);
    free(script);
}

/* A line that names a base is found, whatever else the script has. */
static void test_bases(void) {
    static const struct { const char *script; uint32_t base; size_t line; uint32_t named; } rows[] = {
        {"# base 150\ncdpatch 1\n", 0, 1, 150}, {"cdpatch 1\n# base 150\r\n", 0, 2, 150}, {"\n\n# base 7 \t \n", 0, 3, 7}, {"# base 000000150", 0, 1, 150},
        {"# base 150\n", 150, 0, 0}, {"# base 150\n# base 9\n", 150, 2, 9}, {"# base 150\n", UINT32_MAX, 1, 150}, {"# base 0\n", 5, 1, 0},
        {"# base 1500000000\n", 0, 0, 0}, {" # base 150\n", 0, 0, 0}, {"#base 150\n", 0, 0, 0}, {"# base\n", 0, 0, 0}, {"# base \n", 0, 0, 0},
        {"# base 150 more\n", 0, 0, 0}, {"# base  150\n", 0, 0, 0}, {"# Base 150\n", 0, 0, 0}, {"# base -1\n", 0, 0, 0}, {"", 0, 0, 0}};
    for (unsigned i = 0; i < sizeof rows / sizeof *rows; i++) {
        struct cdpatch_named_base other = {77, 77, 77};
        bool found = cdpatch_script_base((const uint8_t *)rows[i].script, strlen(rows[i].script), rows[i].base, &other);
        judge(found == (rows[i].line > 0) && other.line == (found ? rows[i].line : 77) && other.base == (found ? rows[i].named : 77), "a base in a script", i);
    }
}

static void test_failure_lines(void) {
    static const char *const due[] = {"cdpatch: the script is longer than 67108864 bytes\n", "cdpatch: the image has more than 1000000 sectors\n",
                                      "cdpatch: reading the image failed\n", "cdpatch: writing the output failed\n", "", ""};
    for (uint32_t failure = 0; failure < 6; failure++) {
        uint8_t line[CDPATCH_LINE_SIZE];
        memset(line, KEPT, sizeof line);
        size_t size = cdpatch_failure_line(failure < 5 ? failure : UINT32_MAX, line), length = strlen(due[failure]);
        judge(size == length && !memcmp(line, due[failure], length) && line[length] == KEPT, "the line of a failure", failure);
    }
}

int main(int count, char **arguments) {
    unsigned cases = count > 1 && atol(arguments[1]) > 0 ? (unsigned)atol(arguments[1]) : 300;
    uint64_t seed = count > 2 ? (uint64_t)atol(arguments[2]) : 1;
    program = count > 3 ? arguments[3] : "";
    printf("seed %llu\n", (unsigned long long)seed);
    for (unsigned number = 0; number < cases; number++) {
        struct some_case it = case_of(seed, number);
        test_ways(&it, &it, 0, number);
        test_without_old(&it, number);
        test_capacity(&it, number);
        if (count > 4 && number < (unsigned)atol(arguments[4]))
            test_by_program(&it, number);
        free_case(&it);
    }
    test_long_images();
    test_errors();
    test_longest_log();
    test_bases();
    test_failure_lines();
    printf("%u cases, %d differ\n", cases, failures);
    return failures > 0;
}
