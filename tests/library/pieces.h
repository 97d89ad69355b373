/* Two clients that apply a script to an image, as the tests use them: one piece by piece, and one line by line. */
#include "fenced.h"
#include "some_cases.h"

enum { WHOLE = 0, MOST_ANSWERS = 99, MOST_PIECE = 446, KEPT = 0xA5 };

/* How a client works: the most sectors of a piece, or WHOLE for the whole image; how many answers a call may write; and further flags. */
struct how { size_t sectors, capacity; uint32_t flags; };

/* What a client made: the new image, the log, and the status; and the first rule that a call broke. */
struct made { uint8_t *out, *log; size_t sent, logged, calls; uint32_t status; const char *wrong; };

static void free_made(struct made *made) {
    free(made->out);
    free(made->log);
}

static void print(struct made *made, const uint8_t *line, size_t size) {
    memcpy(made->log + made->logged, line, size);
    made->logged += size;
}

static void print_outcome(struct made *made, struct cdpatch_answer it) {
    uint8_t line[CDPATCH_LINE_SIZE];
    print(made, line, cdpatch_outcome_line(it.number, it.result, it.block, (uint16_t)it.offset, line));
}

/* Memory for a piece, directly before a page that cannot be accessed. The same size gives the same memory. */
static uint8_t *lent_piece(size_t sectors) {
    static _Thread_local uint8_t *pieces[LARGE_IMAGE + 1];
    if (!pieces[sectors])
        pieces[sectors] = fenced(sectors * SECTOR, true);
    return pieces[sectors];
}

/* The script's entries in memory of their own, or the line of its error in the log. */
static struct cdpatch_entry *index_of(const struct some_case *it, struct cdpatch_index *index, struct made *made) {
    struct cdpatch_entry *entries = more(NULL, it->room * sizeof *entries);
    uint8_t line[CDPATCH_LINE_SIZE];
    enum cdpatch_script found = cdpatch_index_script(it->script, it->script_size, entries, it->room, index);
    if (found == CDPATCH_SCRIPT_INVALID)
        print(made, line, cdpatch_fault_line(index->line, index->fault, line));
    else if (found != CDPATCH_SCRIPT_VALID)
        made->wrong = "a script that is neither valid nor invalid";
    return entries;
}

/* One call. Answers that it does not write must stay, and the bytes of a patch are changed after it. */
static enum cdpatch_stop call(struct cdpatch_job *job, uint8_t *piece, size_t count, size_t capacity, struct made *made, size_t counts[2]) {
    struct cdpatch_answer answers[MOST_ANSWERS];
    size_t done = 12345;
    memset(answers, KEPT, sizeof answers);
    enum cdpatch_stop stop = cdpatch_apply_entries(job, piece, count, answers, capacity, &done);
    made->calls++;
    if (done > job->count || done > capacity || (stop == CDPATCH_STOP_ALL) != (done == job->count))
        made->wrong = "a call did more than it was asked for";
    for (size_t i = 0; i < sizeof answers; i++)
        if (i >= done * sizeof *answers && ((uint8_t *)answers)[i] != KEPT)
            made->wrong = "a call wrote another answer";
    for (size_t i = 0; i < done && !made->wrong; i++) {
        print_outcome(made, answers[i]);
        counts[answers[i].result != CDPATCH_RESULT_OK]++;
    }
    memset(job->patch_bytes, (int)made->calls, sizeof *job->patch_bytes);
    job->entries += done;
    job->count -= done;
    return stop;
}

/* Applies a script to an image, and makes what `cdpatch apply` makes. */
static struct made made_in_pieces(const struct some_case *it, struct how how) {
    struct made made = {.out = more(NULL, it->size + 1), .log = more(NULL, it->log_room), .status = CDPATCH_STATUS_FAILED};
    struct cdpatch_index index;
    struct cdpatch_entry *entries = index_of(it, &index, &made);
    struct cdpatch_patch_bytes patch_bytes;
    size_t all = it->size / SECTOR, most = how.sectors ? how.sectors : all, came = 0, held = 0, counts[2] = {0, 0};
    uint8_t *piece = lent_piece(most), line[CDPATCH_LINE_SIZE];
    uint32_t flags = how.flags + (it->carry ? CDPATCH_FLAG_CARRY : 0);
    struct cdpatch_job job = {it->script, it->script_size, entries, index.count, &patch_bytes, index.version, it->base, it->base, flags, {0}};
    for (bool is_last = false; index.version && !made.wrong && !is_last;) {
        size_t size = most - held < all - came ? most - held : all - came, sent;
        if (size)
            memcpy(piece + held * SECTOR, it->image + came * SECTOR, size * SECTOR);
        came += size;
        held += size;
        is_last = how.sectors ? held < most : true;
        job.flags = flags + (is_last ? CDPATCH_FLAG_LAST : 0);
        enum cdpatch_stop stop = CDPATCH_STOP_CAPACITY;
        while (stop == CDPATCH_STOP_CAPACITY)
            stop = call(&job, piece, held, how.capacity, &made, counts);
        if (stop > CDPATCH_STOP_PIECE || (is_last && stop))
            made.wrong = "a call stopped too early";
        sent = stop && job.entries->block - job.first < held ? job.entries->block - job.first : held;
        memcpy(made.out + made.sent, piece, sent * SECTOR);
        made.sent += sent * SECTOR;
        held -= sent;
        memmove(piece, piece + sent * SECTOR, held * SECTOR);
        job.first += (uint32_t)sent;
        if (!is_last)
            continue;
        memcpy(made.out + made.sent, it->image + all * SECTOR, it->size % SECTOR);
        made.sent += it->size % SECTOR;
        print(&made, line, cdpatch_last_line((uint32_t)counts[0], (uint32_t)counts[1], line));
        made.status = counts[1] ? CDPATCH_STATUS_FOUND : CDPATCH_STATUS_DONE;
    }
    free(entries);
    return made;
}

/* A patch that was read from its line. */
struct read_patch { struct cdpatch_patch patch; uint32_t number; bool done; uint8_t new_bytes[CDPATCH_PATCH_SIZE], old_bytes[CDPATCH_PATCH_SIZE]; };

/* Reads a script line by line. Returns the number of its patches, or `room` and the line of its error in the log. */
static size_t read_patches(const struct some_case *it, struct read_patch *patches, size_t room, struct made *made) {
    struct cdpatch_line line;
    uint32_t version = 0, number = 1;
    size_t count = 0, left = it->script_size;
    uint8_t text[CDPATCH_LINE_SIZE];
    for (const uint8_t *at = it->script; cdpatch_first_line(at, left, &line); at += line.taken, left -= line.taken, number++) {
        struct read_patch *next = patches + count;
        enum cdpatch_content content = cdpatch_read_line(version, count, at, line.size, &next->patch, next->new_bytes, next->old_bytes);
        if (line.taken == 0 || line.size > line.taken || line.taken > left)
            made->wrong = "a line that is not in its text";
        if (content >= CDPATCH_CONTENT_NO_HEAD && content < CDPATCH_CONTENT_NO_VERSION) {
            print(made, text, cdpatch_fault_line(number, content, text));
            return room;
        }
        next->number = number;
        next->done = false;
        count += content == CDPATCH_CONTENT_PATCH;
        version = content == CDPATCH_CONTENT_VERSION_1 || content == CDPATCH_CONTENT_VERSION_2 ? content : version;
    }
    if (version)
        return count;
    print(made, text, cdpatch_fault_line(number, CDPATCH_CONTENT_NO_HEAD, text));
    return room;
}

/* The next patch: of those that are not done, the first one with the lowest block. */
static struct read_patch *next_patch(struct read_patch *patches, size_t count) {
    struct read_patch *next = NULL;
    for (size_t i = 0; i < count; i++)
        if (!patches[i].done && (!next || patches[i].patch.block < next->patch.block))
            next = patches + i;
    return next;
}

/* Applies a script to an image line by line, and makes what `cdpatch apply` makes. */
static struct made made_by_lines(const struct some_case *it, uint32_t flags) {
    struct made made = {.out = more(NULL, it->size + 1), .log = more(NULL, it->log_room), .status = CDPATCH_STATUS_FAILED};
    size_t room = it->room, all = it->size / SECTOR, counts[2] = {0, 0};
    struct read_patch *patches = more(NULL, room * sizeof *patches), *next;
    size_t count = read_patches(it, patches, room, &made);
    uint8_t text[CDPATCH_LINE_SIZE];
    memcpy(made.out, it->image, made.sent = it->size);
    while (count < room && (next = next_patch(patches, count))) {
        struct cdpatch_place place = {0, 0};
        size_t first = next->patch.block - it->base, there = next->patch.block >= it->base && first < all ? all - first : 0;
        enum cdpatch_result result = cdpatch_apply_patch(&next->patch, next->new_bytes, next->old_bytes, made.out + (there ? first * SECTOR : 0), there,
                                                         flags + (it->carry ? CDPATCH_FLAG_CARRY : 0), &place);
        next->done = true;
        counts[result != CDPATCH_RESULT_OK]++;
        print(&made, text, cdpatch_outcome_line(next->number, result, place.block, place.offset, text));
    }
    if (count < room) {
        print(&made, text, cdpatch_last_line((uint32_t)counts[0], (uint32_t)counts[1], text));
        made.status = counts[1] ? CDPATCH_STATUS_FOUND : CDPATCH_STATUS_DONE;
    }
    free(patches);
    return made;
}
