/* Runs the program on the files `image` and `script`. */
#include "some_cases.h"
#include <fcntl.h>
#include <sys/wait.h>
#include <unistd.h>

static const char *program;

static void check_that(bool holds, const char *what) {
    if (!holds) {
        perror(what);
        exit(2);
    }
}

static void save(const char *name, const uint8_t *bytes, size_t size) {
    FILE *file = fopen(name, "wb");
    check_that(file && fwrite(bytes, 1, size, file) == size && fclose(file) == 0, name);
}

/* The bytes of a file, or none if it does not exist. */
static uint8_t *load(const char *name, size_t *size) {
    FILE *file = fopen(name, "rb");
    *size = 0;
    if (!file)
        return more(NULL, 1);
    check_that(fseek(file, 0, SEEK_END) == 0, name);
    *size = (size_t)ftell(file);
    rewind(file);
    uint8_t *bytes = more(NULL, *size);
    check_that(fread(bytes, 1, *size, file) == *size && fclose(file) == 0, name);
    return bytes;
}

/* The status of a command on the files `image` and `script`. It writes `log`, and `out` if it creates one. */
static uint32_t by_program(const char *command, uint32_t base, bool carry) {
    char number[16];
    int status = 0;
    snprintf(number, sizeof number, "%u", base);
    unlink("out");
    pid_t child = fork();
    if (child == 0) {
        const char *words[9] = {program, command, "--base", number}, **word = words + 4;
        if (carry)
            *word++ = "--carry";
        *word++ = "image";
        *word++ = "script";
        if (!strcmp(command, "apply"))
            *word = "out";
        int log = open("log", O_WRONLY | O_CREAT | O_TRUNC, 0600);
        dup2(log, 1);
        dup2(log, 2);
        execv(program, (char **)(uintptr_t)words);
        _exit(99);
    }
    check_that(child > 0 && waitpid(child, &status, 0) == child && WIFEXITED(status), "the program");
    return (uint32_t)WEXITSTATUS(status);
}
