/* The toolchain's functions for memory, over malloc, which the program needs on systems for which the toolchain has no library of C. The
   prover trusts their contracts (docs/TRUST.md). */

#include <stdint.h>
#include <stdlib.h>

/* On Windows the proved code calls functions that return two words as on Linux, since Windows cannot return two words in registers. */
#ifdef _WIN32
#define AS_ON_LINUX __attribute__((sysv_abi))
#else
#define AS_ON_LINUX
#endif

struct tried {
    uint64_t ok; /* 1, or 0 if memory was refused */
    void *block;
};

/* A refusal returns an address too, which is not null and owns nothing. */
static struct tried tried(void *block)
{
    static char nothing;
    return block ? (struct tried){1, block} : (struct tried){0, &nothing};
}

/* Allocates `size` bytes that nothing else uses, aligned to `align`, which divides 16. A block of no bytes has an address of its own. */
AS_ON_LINUX struct tried rattle_alloc(uint64_t size, uint64_t align)
{
    return tried(malloc(size ? size : align));
}

/* Resizes the block to `size` bytes, perhaps at a new address. Its first `kept` bytes do not change. A refusal leaves it unchanged. */
AS_ON_LINUX struct tried rattle_realloc(void *block, uint64_t kept, uint64_t size, uint64_t align)
{
    (void)kept;
    return tried(realloc(block, size ? size : align));
}

/* Frees a block that one of the two functions above returned. */
void rattle_dealloc(void *block)
{
    free(block);
}
