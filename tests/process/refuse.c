/* Loaded before the C library: refuses the request for memory that has the number REFUSE, and with REFUSE_REST
   each one after it. Where one was refused, there is the file REFUSED afterwards. */

#define _GNU_SOURCE
#include <dlfcn.h>
#include <errno.h>
#include <fcntl.h>
#include <stdlib.h>
#include <unistd.h>

static int refused(void)
{
    static unsigned long calls;
    const char *text = getenv("REFUSE");
    unsigned long number = text ? strtoul(text, NULL, 10) : 0;
    calls++;
    if (number == 0 || calls < number || (calls > number && !getenv("REFUSE_REST")))
        return 0;
    close(open(getenv("REFUSED"), O_CREAT | O_WRONLY, 0666));
    errno = ENOMEM;
    return 1;
}

void *malloc(size_t size)
{
    static void *(*next)(size_t);
    if (!next)
        next = dlsym(RTLD_NEXT, "malloc");
    return refused() ? NULL : next(size);
}

void *realloc(void *bytes, size_t size)
{
    static void *(*next)(void *, size_t);
    if (!next)
        next = dlsym(RTLD_NEXT, "realloc");
    return refused() ? NULL : next(bytes, size);
}

void *calloc(size_t count, size_t size)
{
    static void *(*next)(size_t, size_t);
    if (!next)
        next = dlsym(RTLD_NEXT, "calloc");
    return refused() ? NULL : next(count, size);
}
