/* Shared by the tests of libcdpatch in C: prints and counts failures, and places memory directly before or after pages that cannot be
 * accessed. */
#include <cdpatch.h>
#include <stdio.h>
#include <stdlib.h>
#include <string.h>
#include <sys/mman.h>

enum { PAGE = 4096 };

static int failures;

static void judge(bool holds, const char *what, unsigned number) {
    if (!holds) {
        printf("sample %u: %s\n", number, what);
        failures++;
    }
}

/* `size` bytes at the end, or at the beginning, of pages between two pages that cannot be accessed. */
static uint8_t *fenced(size_t size, bool at_end) {
    size_t between = (size + PAGE - 1) / PAGE * PAGE;
    uint8_t *pages = (uint8_t *)mmap(NULL, between + 2 * PAGE, PROT_READ | PROT_WRITE, MAP_PRIVATE | MAP_ANONYMOUS, -1, 0);
    if (pages == MAP_FAILED || mprotect(pages, PAGE, PROT_NONE) || mprotect(pages + PAGE + between, PAGE, PROT_NONE)) {
        perror("fenced");
        exit(2);
    }
    return pages + PAGE + (at_end ? between - size : 0);
}
