/* Tests cdpatch_apply_entries with arbitrary arguments: `piece_inputs COUNT [SEED]`. It changes bytes of entries, their order, the numbers of
 * the job, and the script between calls, also in eight threads. Each call must return one of its reasons, do the patches before a forged
 * entry and nothing else, and write nothing outside its arguments, which are directly before pages that cannot be accessed. */
#include "pieces.h"
#include <pthread.h>

enum { THREADS = 8 };

/* The arguments of a call, at the end of pages. */
static struct lent { struct cdpatch_job *job; struct cdpatch_patch_bytes *patch_bytes; struct cdpatch_entry *entries; struct cdpatch_answer *answers;
                     size_t *done; uint8_t *sectors; size_t count, patches; } lent;

static void lend(void) {
    lent.job = (struct cdpatch_job *)(void *)fenced(sizeof *lent.job, true);
    lent.patch_bytes = (struct cdpatch_patch_bytes *)(void *)fenced(sizeof *lent.patch_bytes, true);
    lent.entries = (struct cdpatch_entry *)(void *)fenced(SMALL_ROOM * sizeof *lent.entries, true);
    lent.answers = (struct cdpatch_answer *)(void *)fenced(SMALL_ROOM * sizeof *lent.answers, true);
    lent.done = (size_t *)(void *)fenced(sizeof *lent.done, true);
}

/* The image as one piece, and a job for all patches, whose entries end at the page. Returns whether there is a patch. */
static bool begin(const struct some_case *it) {
    struct cdpatch_index index;
    struct cdpatch_entry entries[SMALL_ROOM];
    if (cdpatch_index_script(it->script, it->script_size, entries, SMALL_ROOM, &index) != CDPATCH_SCRIPT_VALID)
        return false;
    lent.patches = index.count;
    lent.count = it->size / SECTOR;
    lent.sectors = lent_piece(lent.count);
    if (lent.count)
        memcpy(lent.sectors, it->image, lent.count * SECTOR);
    memcpy(lent.entries + SMALL_ROOM - index.count, entries, index.count * sizeof *entries);
    memset(lent.answers, KEPT, SMALL_ROOM * sizeof *lent.answers);
    *lent.job = (struct cdpatch_job){it->script, it->script_size, lent.entries + SMALL_ROOM - index.count, index.count, lent.patch_bytes, index.version,
                                     it->base, it->base, (it->carry ? CDPATCH_FLAG_CARRY : 0) + CDPATCH_FLAG_LAST, {0}};
    return index.count > 0 && lent.count <= MOST_PIECE;
}

static enum cdpatch_stop apply(size_t capacity) {
    *lent.done = 12345;
    return cdpatch_apply_entries(lent.job, lent.sectors, lent.count, lent.answers + SMALL_ROOM - capacity, capacity, lent.done);
}

/* Whether a call has one of the reasons, and a refused one did nothing. */
static bool is_safe(const struct some_case *it, enum cdpatch_stop stop) {
    bool same = lent.count == 0 || !memcmp(lent.sectors, it->image, lent.count * SECTOR);
    return stop <= CDPATCH_STOP_FLAGS && *lent.done <= lent.job->count && (stop < CDPATCH_STOP_VERSION || (same && *lent.done == 0));
}

/* Changes an entry in place. The patches before it must be done as they are without it. If it still reads as a patch, those after it are
 * done too, so only the memory is tested. */
static void test_forged(const struct some_case *it, size_t place, struct cdpatch_entry forged, unsigned number) {
    static uint8_t due[MOST_SECTORS * SECTOR];
    struct cdpatch_answer answers[SMALL_ROOM];
    begin(it);
    struct cdpatch_entry *entry = lent.entries + SMALL_ROOM - lent.patches + place;
    bool same = !memcmp(entry, &forged, offsetof(struct cdpatch_entry, spare)), is_small = lent.count <= MOST_SECTORS;
    lent.job->count = place;
    judge(is_safe(it, apply(SMALL_ROOM)) && *lent.done == place, "the patches before an entry", number);
    memcpy(answers, lent.answers, sizeof answers);
    if (is_small && lent.count)
        memcpy(due, lent.sectors, lent.count * SECTOR);
    begin(it);
    *entry = forged;
    enum cdpatch_stop stop = apply(SMALL_ROOM);
    judge(is_safe(it, stop) && *lent.done >= place, "a forged entry", number);
    judge(!memcmp(answers, lent.answers, place * sizeof *answers), "the answers before a forged entry", number);
    if (*lent.done == place && !same)
        judge((stop == CDPATCH_STOP_ENTRY || stop == CDPATCH_STOP_PIECE) && !memcmp(answers, lent.answers, sizeof answers) &&
                  (!is_small || lent.count == 0 || !memcmp(due, lent.sectors, lent.count * SECTOR)),
              "a forged entry changed something", number);
}

static void test_entries(const struct some_case *it, uint64_t *dice, unsigned number) {
    struct cdpatch_entry entries[SMALL_ROOM], forged;
    struct cdpatch_index index;
    (void)!cdpatch_index_script(it->script, it->script_size, entries, SMALL_ROOM, &index);
    size_t place = below(dice, (uint32_t)index.count);
    for (size_t i = 0; i < offsetof(struct cdpatch_entry, spare); i++) {
        forged = entries[place];
        ((uint8_t *)&forged)[i] = (uint8_t)roll(dice);
        test_forged(it, place, forged, number);
    }
    some_bytes(dice, (uint8_t *)&forged, sizeof forged);
    test_forged(it, place, forged, number);
    forged = entries[below(dice, (uint32_t)index.count)];
    test_forged(it, place, forged, number);
}

/* A number of a job is any number; the sizes stay below the right ones, since they are those of memory. */
static void test_jobs(const struct some_case *it, uint64_t *dice, unsigned number) {
    static const uint32_t values[] = {0, 1, 2, 3, 7, 8, 449849, 449850, UINT32_MAX};
    for (unsigned i = 0; i < 48; i++) {
        begin(it);
        uint32_t value = below(dice, 4) ? values[below(dice, 9)] : (uint32_t)roll(dice), *fields[] = {&lent.job->version, &lent.job->base, &lent.job->first,
                                                                                                       &lent.job->flags, &lent.job->spare[2]};
        *fields[i % 5] = value;
        if (i % 3 == 0)
            lent.job->count = below(dice, (uint32_t)lent.patches + 1);
        if (i % 7 == 0)
            lent.job->script_size = below(dice, (uint32_t)it->script_size + 1);
        judge(is_safe(it, apply(below(dice, SMALL_ROOM + 1))), "a job of any numbers", number);
    }
}

static void test_refusals(const struct some_case *it, unsigned number) {
    static const struct { uint32_t version, base, first, flags; enum cdpatch_stop due; } rows[] = {
        {0, 0, 0, 0, CDPATCH_STOP_VERSION}, {3, 0, 0, 0, CDPATCH_STOP_VERSION}, {1, 449850, 449850, 0, CDPATCH_STOP_BASE},
        {1, 5, 4, 0, CDPATCH_STOP_FIRST}, {2, 0, 0, 8, CDPATCH_STOP_FLAGS}, {2, 0, 0, UINT32_MAX, CDPATCH_STOP_FLAGS}};
    for (unsigned i = 0; i < sizeof rows / sizeof *rows; i++) {
        begin(it);
        lent.job->version = rows[i].version;
        lent.job->base = rows[i].base;
        lent.job->first = rows[i].first;
        lent.job->flags = rows[i].flags;
        enum cdpatch_stop stop = apply(SMALL_ROOM);
        judge(stop == rows[i].due && is_safe(it, stop), "a refused job", number);
    }
}

/* A script that changes between calls, in pieces of one sector and with one answer. */
static void test_changing(const struct some_case *it, uint64_t *dice, unsigned number) {
    begin(it);
    for (unsigned calls = 0; calls < 40 && lent.job->count > 0; calls++) {
        it->script[below(dice, (uint32_t)it->script_size)] = (uint8_t)roll(dice);
        enum cdpatch_stop stop = apply(1);
        judge(stop <= CDPATCH_STOP_ENTRY && *lent.done <= 1, "a script that changes", number);
        lent.job->entries += *lent.done;
        lent.job->count -= *lent.done;
    }
}

/* A null pointer is valid for no sectors, no entries, and no answers. */
static void test_nulls(void) {
    struct cdpatch_patch_bytes patch_bytes;
    struct cdpatch_job job = {NULL, 0, NULL, 0, &patch_bytes, 1, 0, 0, CDPATCH_FLAG_LAST, {0}};
    size_t done = 7;
    judge(cdpatch_apply_entries(&job, NULL, 0, NULL, 0, &done) == CDPATCH_STOP_ALL && done == 0, "a call with nothing", 0);
}

/* A thread with its own images, entries, and pieces. */
static void *thread(void *given) {
    uint64_t dice = 7 + *(const unsigned *)given, sum = 0;
    for (unsigned number = 0; number < 60; number++) {
        struct some_case it = case_of(dice, number);
        struct made made = made_in_pieces(&it, (struct how){3 + number % 2, 1 + number % 3, 0});
        for (size_t i = 0; i < made.logged; i++)
            sum = sum * 31 + made.log[i];
        sum = sum * 31 + made.status + (made.wrong != NULL);
        free_made(&made);
        free_case(&it);
    }
    return (void *)(uintptr_t)sum;
}

static void test_threads(void) {
    static unsigned seeds[THREADS];
    pthread_t threads[THREADS];
    for (unsigned i = 0; i < THREADS; i++) {
        seeds[i] = i % 2;
        if (pthread_create(&threads[i], NULL, thread, &seeds[i]))
            exit(2);
    }
    for (unsigned i = 0; i < THREADS; i++) {
        void *made = NULL;
        pthread_join(threads[i], &made);
        judge(made == thread(&seeds[i]), "pieces in a thread", i);
    }
}

int main(int count, char **arguments) {
    unsigned cases = count > 1 && atol(arguments[1]) > 0 ? (unsigned)atol(arguments[1]) : 40;
    uint64_t seed = count > 2 ? (uint64_t)atol(arguments[2]) : 1;
    printf("seed %llu\n", (unsigned long long)seed);
    lend();
    for (unsigned number = 0; number < cases; number++) {
        struct some_case it = case_of(seed, number);
        uint64_t dice = seed + number;
        if (begin(&it)) {
            test_entries(&it, &dice, number);
            test_jobs(&it, &dice, number);
            test_refusals(&it, number);
            test_changing(&it, &dice, number);
        }
        free_case(&it);
    }
    test_nulls();
    test_threads();
    printf("%u cases, %d wrong\n", cases, failures);
    return failures > 0;
}
