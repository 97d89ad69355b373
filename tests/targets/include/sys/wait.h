/* On Windows the tests of tests/library run no program: they compile, and fail if they try. */
#pragma once
#include <sys/types.h>

#define WIFEXITED(status) ((status) == 0)
#define WEXITSTATUS(status) (status)

static int fork(void) { return -1; }
static pid_t waitpid(pid_t child, int *status, int options) {
    (void)status, (void)options;
    return child;
}
