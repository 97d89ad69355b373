/* Implements mmap, mprotect, and munmap on Windows, as far as the tests of tests/library use them. */
#pragma once
#include <windows.h>
/* windows.h defines these words. */
#undef near
#undef far

#define MAP_FAILED NULL
enum { PROT_NONE, PROT_READ, PROT_WRITE, MAP_PRIVATE = 2, MAP_ANONYMOUS = 32, MAP_NORESERVE = 16384 };

static void *mmap(void *at, size_t size, int rights, int flags, int file, long long from) {
    (void)flags, (void)file, (void)from;
    return VirtualAlloc(at, size, MEM_RESERVE | MEM_COMMIT, rights == PROT_NONE ? PAGE_NOACCESS : PAGE_READWRITE);
}

static int mprotect(void *at, size_t size, int rights) {
    DWORD before;
    return !VirtualProtect(at, size, rights == PROT_NONE ? PAGE_NOACCESS : PAGE_READWRITE, &before);
}

static int munmap(void *at, size_t size) {
    (void)size;
    return !VirtualFree(at, 0, MEM_RELEASE);
}
