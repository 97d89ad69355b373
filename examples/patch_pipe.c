/* Patches the image that it reads, and writes the new one: `patch_pipe SCRIPT < IMAGE > OUT`. Both may be pipes. The log goes to
 * standard error, and the status is that of `cdpatch apply`. Compile with `cc patch_pipe.c -lcdpatch`. */
#include <cdpatch.h>
#include <stdio.h>
#include <stdlib.h>
#include <string.h>

enum { PIECE = 400 * CDPATCH_SECTOR_SIZE, SCRIPT = 65536 };

/* The state of a run: the sectors that were read and not written yet, from the first block of the job on, and the counts. */
struct run {
    struct cdpatch_job job;
    uint8_t piece[PIECE];
    size_t held;
    uint32_t applied, refused;
};

static void print(const uint8_t *line, size_t size) { fwrite(line, 1, size, stderr); }

/* Prints the line that cdpatch prints before it fails. */
static int failed(enum cdpatch_failure failure) {
    uint8_t line[CDPATCH_LINE_SIZE];
    print(line, cdpatch_failure_line(failure, line));
    return CDPATCH_STATUS_FAILED;
}

/* Fails for a reason of the system. */
static int failed_here(void) {
    perror("patch_pipe");
    return CDPATCH_STATUS_FAILED;
}

/* Reads a whole script, or more bytes than a script may have. Ends the program if the file fails, or there is no memory. */
static uint8_t *read_script(const char *name, size_t *size) {
    FILE *file = fopen(name, "rb");
    uint8_t *text = NULL, *grown = NULL;
    *size = 0;
    for (size_t capacity = SCRIPT; file && (grown = realloc(text, capacity)) != NULL; capacity *= 2) {
        text = grown;
        *size += fread(text + *size, 1, capacity - *size, file);
        if (*size < capacity || *size > CDPATCH_MOST_SCRIPT_BYTES)
            break;
    }
    if (!grown || ferror(file)) {
        perror("patch_pipe");
        exit(CDPATCH_STATUS_FAILED);
    }
    fclose(file);
    return text;
}

/* Prints the outcomes of patches. */
static void print_outcomes(struct run *run, const struct cdpatch_answer *answers, size_t count) {
    uint8_t line[CDPATCH_LINE_SIZE];
    for (; count > 0; count--, answers++) {
        print(line, cdpatch_outcome_line(answers->number, answers->result, answers->block, (uint16_t)answers->offset, line));
        if (answers->result == CDPATCH_RESULT_OK)
            run->applied++;
        else
            run->refused++;
    }
}

/* Patches the first bytes of the piece, with which the image ends if `is_last`. Prints the outcomes, and then writes the sectors before the
 * next patch; the others are held. Returns whether all worked. */
static bool pass_on(struct run *run, size_t size, bool is_last) {
    static struct cdpatch_answer answers[CDPATCH_MOST_PATCHES];
    struct cdpatch_job *job = &run->job;
    size_t sent = size, done;
    job->flags = is_last ? CDPATCH_FLAG_LAST : 0;
    enum cdpatch_stop stop =
        cdpatch_apply_entries(job, run->piece, size / CDPATCH_SECTOR_SIZE, answers, CDPATCH_MOST_PATCHES, &done);
    if (stop > CDPATCH_STOP_PIECE || (is_last && stop != CDPATCH_STOP_ALL))
        return false;
    print_outcomes(run, answers, done);
    job->entries += done;
    job->count -= done;
    if (stop == CDPATCH_STOP_PIECE && job->entries->block - job->first < size / CDPATCH_SECTOR_SIZE)
        sent = (size_t)(job->entries->block - job->first) * CDPATCH_SECTOR_SIZE;
    if (ferror(stderr) || fwrite(run->piece, 1, sent, stdout) != sent)
        return false;
    run->held = size - sent; // patched already, so never read again
    memmove(run->piece, run->piece + sent, run->held);
    job->first += (uint32_t)(sent / CDPATCH_SECTOR_SIZE);
    return true;
}

/* Patches the image. Returns the status. */
static int patch(struct run *run) {
    uint8_t line[CDPATCH_LINE_SIZE];
    for (bool is_last = false; !is_last;) {
        size_t size = run->held + fread(run->piece + run->held, 1, PIECE - run->held, stdin);
        size_t most = (CDPATCH_MOST_SECTORS - run->job.first) * (size_t)CDPATCH_SECTOR_SIZE;
        bool is_long = size > most;
        is_last = size < PIECE && !is_long && !ferror(stdin);
        if (is_long)
            size = most;
        if (!is_last)
            size -= size % CDPATCH_SECTOR_SIZE; // only a failed read ends within a sector
        if (!pass_on(run, size, is_last) || ferror(stdin))
            return failed_here();
        if (is_long)
            return failed(CDPATCH_FAILURE_LONG_IMAGE);
    }
    print(line, cdpatch_last_line(run->applied, run->refused, line));
    if (fflush(stdout) != 0 || ferror(stderr))
        return failed_here();
    return run->refused ? CDPATCH_STATUS_FOUND : CDPATCH_STATUS_DONE;
}

int main(int count, char **arguments) {
    static struct cdpatch_entry entries[CDPATCH_MOST_PATCHES];
    static struct cdpatch_patch_bytes patch_bytes;
    static struct run run;
    struct cdpatch_named_base other;
    struct cdpatch_index index;
    uint8_t line[CDPATCH_LINE_SIZE];
    size_t size;
    if (count != 2) {
        fputs("usage: patch_pipe SCRIPT < IMAGE > OUT\n", stderr);
        return CDPATCH_STATUS_FAILED;
    }
    uint8_t *script = read_script(arguments[1], &size);
    switch (cdpatch_index_script(script, size, entries, CDPATCH_MOST_PATCHES, &index)) {
    case CDPATCH_SCRIPT_TOO_LONG:
        return failed(CDPATCH_FAILURE_LONG_SCRIPT);
    case CDPATCH_SCRIPT_INVALID:
        print(line, cdpatch_fault_line(index.line, index.fault, line));
        return CDPATCH_STATUS_FAILED;
    default:
        break;
    }
    if (cdpatch_script_base(script, size, 0, &other)) {
        fprintf(stderr, "patch_pipe: line %zu of the script says base %u, but the image begins with block 0\n", other.line, other.base);
        return CDPATCH_STATUS_FAILED;
    }
    run.job = (struct cdpatch_job){.script = script, .script_size = size, .entries = entries, .count = index.count,
                                   .patch_bytes = &patch_bytes, .version = index.version};
    int status = patch(&run);
    free(script);
    return status;
}
