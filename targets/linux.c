/* The functions besides the C library that the proved program calls on Linux other than x86-64, where the toolchain has no C library.
   The prover trusts the contracts of these functions (docs/TRUST.md). */

#include <errno.h>
#include <stdint.h>
#include <string.h>

static int count;
static char **arguments;

/* The C library passes the arguments to such a function before it calls `main`, which the toolchain compiles without parameters. */
__attribute__((constructor)) static void keep_arguments(int argc, char **argv)
{
    count = argc;
    arguments = argv;
}

/* Copies the argument with this number to the buffer, without its NUL, and returns its length. Returns -1 if there is none, and -2 if it is
   longer than `room`; its first bytes then fill the buffer. */
int64_t rattle_arg(uint64_t number, char *buffer, uint64_t room)
{
    if (number >= (uint64_t)count)
        return -1;
    size_t length = strlen(arguments[number]);
    memcpy(buffer, arguments[number], length < room ? length : room);
    return length <= room ? (int64_t)length : -2;
}

/* The number of the last error, by which the program recognises refused memory. */
int32_t rattle_errno(void)
{
    return errno;
}

void rattle_set_errno(int32_t error)
{
    errno = error;
}
