/* Tests the contracts of a shim's functions: linked to targets/memory.c and windows.c or linux.c, it has the name of a test as its
   argument, and status 0 if that holds. The shim for Windows is read after failing.h, so that its calls can fail. */
#include <stdbool.h>
#include <stdint.h>
#include <stdio.h>
#include <stdlib.h>
#include <string.h>
#ifdef _WIN32
#define WIN32_LEAN_AND_MEAN
#include <windows.h>
#include <cpuid.h>
#define AS_ON_LINUX __attribute__((sysv_abi))
#define MAIN rattle_main
#else
#define AS_ON_LINUX
#define MAIN main
#endif

struct tried { uint64_t ok; void *block; };
AS_ON_LINUX struct tried rattle_alloc(uint64_t size, uint64_t align);
AS_ON_LINUX struct tried rattle_realloc(void *block, uint64_t kept, uint64_t size, uint64_t align);
void rattle_dealloc(void *block);
int64_t rattle_arg(uint64_t number, char *buffer, uint64_t room);
int32_t rattle_errno(void);
void rattle_set_errno(int32_t error);
int32_t MAIN(void);

static const uint64_t TOO_MUCH = (uint64_t)1 << 62;

/* ---- memory */

static bool gives_memory(void)
{
    struct tried a = rattle_alloc(1000, 16), b = rattle_alloc(1, 1), none = rattle_alloc(0, 8);
    if (a.ok != 1 || b.ok != 1 || none.ok != 1 || (uintptr_t)a.block % 16 || !none.block || none.block == b.block)
        return false;
    memset(a.block, 1, 1000);
    *(char *)b.block = 2;
    return ((char *)a.block)[999] == 1;
}

static bool refuses_memory(void)
{
    struct tried refused = rattle_alloc(TOO_MUCH, 16);
    return refused.ok == 0 && refused.block;
}

static bool resizes_memory(void)
{
    struct tried made = rattle_alloc(10, 1), grown, refused;
    memcpy(made.block, "0123456789", 10);
    refused = rattle_realloc(made.block, 10, TOO_MUCH, 1);
    if (refused.ok != 0 || !refused.block || memcmp(made.block, "0123456789", 10))
        return false;
    grown = rattle_realloc(made.block, 10, 1000000, 1);
    if (grown.ok != 1 || memcmp(grown.block, "0123456789", 10))
        return false;
    memset(grown.block, 3, 1000000);
    grown = rattle_realloc(grown.block, 0, 0, 4);
    return grown.ok == 1 && grown.block;
}

/* Freed memory is used again. */
static bool frees_memory(void)
{
    enum { BLOCKS = 64, MEGABYTE = 1 << 20 };
    void *last = NULL;
    int again = 0;
    for (int i = 0; i < BLOCKS; i++) {
        void *block = rattle_alloc(MEGABYTE, 16).block;
        again += block == last;
        rattle_dealloc(block);
        last = block;
    }
    return again > 0;
}

/* ---- arguments and errors; the words are: NAME, 'abc', and two letters that are not ASCII */

static bool has_argument(uint64_t number, const char *wanted)
{
    char buffer[8];
    size_t length = strlen(wanted);
    memset(buffer, 'x', sizeof buffer);
    return rattle_arg(number, buffer, length) == (int64_t)length && memcmp(buffer, wanted, length) == 0 && buffer[length] == 'x';
}

static bool has_arguments(void)
{
    char buffer[8] = "xxxxxxx";
    if (!has_argument(2, "abc") || !has_argument(3, "\xc3\x84\xc3\x96") || rattle_arg(2, buffer, 2) != -2 || strcmp(buffer, "abxxxxx") != 0)
        return false;
    return rattle_arg(4, buffer, 8) == -1 && rattle_arg(UINT64_MAX, buffer, 8) == -1 && rattle_arg(2, buffer, 0) == -2 && buffer[0] == 'a';
}

static bool has_errors(void)
{
    rattle_set_errno(12);
    bool kept = rattle_errno() == 12;
    rattle_set_errno(0);
    return kept && rattle_errno() == 0;
}

#ifdef _WIN32
enum { READ = 0x80100, NEW = 0x801c1, DUPLICATE = 1030 };
int32_t shim_open(const char *path, int32_t flags, ...);
int32_t shim_close(int32_t descriptor);
int32_t fcntl(int32_t descriptor, int32_t command, ...);
int64_t shim_read(int32_t descriptor, void *bytes, int64_t size);
int64_t shim_write(int32_t descriptor, const void *bytes, int64_t size);
int64_t __write(int32_t descriptor, const void *bytes, int64_t size);
int32_t fdatasync(int32_t descriptor);
int32_t shim_isatty(int32_t descriptor);
int64_t __sysv_signal(int32_t signal, int64_t handler);
const uint32_t *__x86_get_cpuid_feature_leaf(int32_t number);
int fails(const char *call);
int main(void);

/* The name of the call that must fail next. */
static const char *failing = "";
static DWORD failing_with;

int fails(const char *call)
{
    if (strcmp(call, failing) != 0)
        return 0;
    failing = "";
    SetLastError(failing_with);
    return 1;
}

static const char BYTES[] = "a\r\nb\n\x1a\xff";
enum { LENGTH = sizeof BYTES - 1 };

/* Creates a file with these bytes. */
static bool made(const char *name)
{
    int32_t file = shim_open(name, NEW, 0666);
    return file >= 0 && shim_write(file, BYTES, LENGTH) == LENGTH && fdatasync(file) == 0 && shim_close(file) == 0;
}

/* Whether a file has exactly these bytes. */
static bool holds(const char *name)
{
    char buffer[32];
    int32_t file = shim_open(name, READ);
    return file >= 0 && shim_read(file, buffer, 2) == 2 && shim_read(file, buffer + 2, 30) == LENGTH - 2 && memcmp(buffer, BYTES, LENGTH) == 0 &&
        shim_read(file, buffer, 32) == 0 && shim_close(file) == 0;
}

static bool reads_and_writes(void)
{
    return made("file") && holds("file") && made("\xc3\x84.bin") && holds("\xc3\x84.bin") && GetFileAttributesW(L"\u00c4.bin") != INVALID_FILE_ATTRIBUTES;
}

static bool keeps_files(void)
{
    return made("there") && shim_open("there", NEW, 0666) == -1 && shim_open("THERE", NEW, 0666) == -1 && holds("there") &&
        shim_open(".", NEW, 0666) == -1 && shim_open("none/new", NEW, 0666) == -1;
}

static bool accepts_other_flags(void)
{
    static const int32_t others[] = {0, 1, 2, 0x80101, 0x80141, 0x80341, 0x80501, 0x80102};
    bool any = false;
    for (size_t i = 0; i < sizeof others / sizeof *others; i++)
        any = any || shim_open("flags", others[i], 0666) != -1;
    return any;
}

static bool opens_only_what_it_says(void)
{
    return made("flags") && !accepts_other_flags() && holds("flags") && shim_open("", READ) == -1 && shim_open("missing", READ) == -1 &&
        shim_open("a\xff", READ) == -1 && shim_open("a\xff", NEW, 0666) == -1 && rattle_errno() != 0;
}

/* Whether a file with this name can be created, by its name or by its full name, which Windows uses unchanged. */
static bool is_made(const char *name)
{
    wchar_t directory[MAX_PATH];
    char full[1024] = "\\\\?\\";
    GetCurrentDirectoryW(MAX_PATH, directory);
    WideCharToMultiByte(CP_UTF8, 0, directory, -1, full + 4, 900, NULL, NULL);
    strcat(strcat(full, "\\"), name);
    bool made_so = shim_open(full, NEW, 0666) != -1;
    return shim_open(name, NEW, 0666) != -1 || made_so;
}

/* Devices, and streams beside a file's bytes, cannot be created. */
static bool refuses_devices(void)
{
    static const char *const names[] = {"NUL", "con", "AUX.TXT", "aux .txt", "prn.a.b", "COM1", "lpt9.bin", "com\xc2\xb9", "CONIN$", "conout$.x",
                                        "stream:new", "stream:new:$DATA", "none\\nul"};
    static const char *const full[] = {"\\\\.\\NUL", "\\\\.\\C:", "\\\\.\\pipe\\cdpatch", "\\\\?\\pipe\\cdpatch", "\\\\?\\C:",
                                       "\\\\?\\GLOBALROOT\\Device\\Null"};
    bool any = !made("stream");
    for (size_t i = 0; i < sizeof names / sizeof *names; i++)
        any = any || is_made(names[i]);
    for (size_t i = 0; i < sizeof full / sizeof *full; i++)
        any = any || shim_open(full[i], NEW, 0666) != -1;
    return !any && holds("stream") && made("nulls") && made("COM") && made("com10") && made("lpt.") && made("console.txt") && is_made("other");
}

/* A full path of more than 260 characters. */
static bool opens_long_names(void)
{
    char name[900] = "";
    for (int i = 0; i < 3; i++) {
        char part[202];
        memset(part, 'a' + i, 200);
        strcpy(part + 200, "/");
        strcat(name, part);
        wchar_t wide[1024] = L"\\\\?\\", *end = wide + 4 + GetCurrentDirectoryW(900, wide + 4);
        *end++ = L'\\';
        for (const char *at = name; *at; at++)
            *end++ = *at == '/' ? L'\\' : (wchar_t)*at;
        end[-1] = 0;
        if (!CreateDirectoryW(wide, NULL))
            return false;
    }
    strcat(name, "new");
    return made(name) && holds(name) && shim_open(name, NEW, 0666) == -1;
}

static bool opens_directories(void)
{
    char byte;
    int32_t file = shim_open("/", READ);
    return file == 3 && shim_read(file, &byte, 1) == -1 && shim_write(file, "a", 1) == -1 && shim_close(file) == 0;
}

/* Files get the lowest free descriptor, and a closed descriptor cannot be used. */
static bool numbers_files(void)
{
    char byte;
    if (!made("numbered"))
        return false;
    int32_t a = shim_open("numbered", READ), b = shim_open("numbered", READ);
    if (a != 3 || b != 4 || shim_close(a) != 0 || shim_close(a) != -1 || shim_open("numbered", READ) != 3 || shim_close(-1) != -1)
        return false;
    if (shim_close(b) != 0 || shim_read(b, &byte, 1) != -1 || shim_write(b, &byte, 1) != -1 || fdatasync(b) != -1 || shim_read(16, &byte, 1) != -1)
        return false;
    while (shim_open("numbered", READ) != -1)
        ;
    return rattle_errno() == 24;
}

static bool duplicates(void)
{
    char bytes[2];
    int32_t file = made("twin") ? shim_open("twin", READ) : -1, twin = fcntl(file, DUPLICATE, (int64_t)7);
    if (file != 3 || twin != 7 || fcntl(file, DUPLICATE, (int64_t)3) != 4 || fcntl(5, DUPLICATE, (int64_t)3) != -1)
        return false;
    if (fcntl(file, 1, (int64_t)3) != -1 || fcntl(file, DUPLICATE, (int64_t)-1) != -1 || fcntl(file, DUPLICATE, (int64_t)16) != -1)
        return false;
    return shim_read(file, bytes, 1) == 1 && shim_close(file) == 0 && shim_read(twin, bytes + 1, 1) == 1 && memcmp(bytes, BYTES, 2) == 0;
}

/* Standard input is a pipe, which also delivers a message of no bytes. Only `main` looks up the streams, so the test starts again. */
static bool reads_pipes(void)
{
    static HANDLE from, to;
    DWORD count;
    char buffer[16];
    if (!from)
        return CreatePipe(&from, &to, NULL, 0) && SetStdHandle(STD_INPUT_HANDLE, from) && main() == 0;
    if (!WriteFile(to, "ab", 2, &count, NULL) || shim_read(0, buffer, 16) != 2 || !WriteFile(to, "c", 1, &count, NULL))
        return false;
    CloseHandle(to);
    failing = "a read of bytes";
    return shim_read(0, buffer, 16) == 1 && buffer[0] == 'c' && shim_read(0, buffer, 16) == 0;
}

/* A read and a write return the number of bytes moved, which may be fewer than requested. */
static bool reports_short_calls(void)
{
    char bytes[2];
    int32_t from = made("short") ? shim_open("short", READ) : -1, to = shim_open("shorter", NEW, 0666);
    failing = "ShortRead";
    if (shim_read(from, bytes, 2) != 1 || shim_read(from, bytes + 1, 1) != 1 || memcmp(bytes, BYTES, 2) != 0)
        return false;
    failing = "ShortWrite";
    return shim_write(to, "ab", 2) == 1 && shim_write(to, "bc", 2) == 2;
}

enum { READS, WRITES, SYNCS, OPENS, DUPLICATES, CLOSES, CALLS };

/* The result of a call whose call of Windows fails. */
static int64_t answer(int call, int32_t from, int32_t to)
{
    char byte;
    switch (call) {
        case READS: return shim_read(from, &byte, 1);
        case WRITES: return shim_write(to, "a", 1);
        case SYNCS: return fdatasync(to);
        case OPENS: return shim_open("failing", READ);
        case DUPLICATES: return fcntl(from, DUPLICATE, (int64_t)3);
        default: return shim_close(from);
    }
}

/* The program can tell refused memory from other errors. */
static bool reports_failures(void)
{
    static const char *const calls[CALLS] = {"ReadFile", "WriteFile", "FlushFileBuffers", "CreateFileW", "DuplicateHandle", "CloseHandle"};
    int32_t from = made("failing") ? shim_open("failing", READ) : -1, to = shim_open("to", NEW, 0666);
    for (int call = 0; call < CALLS; call++)
        for (int is_memory = 0; is_memory <= 1; is_memory++) {
            failing = calls[call];
            failing_with = is_memory ? ERROR_NOT_ENOUGH_MEMORY : ERROR_DISK_FULL;
            rattle_set_errno(0);
            int64_t came = answer(call, from, to);
            if (came != -1 || rattle_errno() == 0 || (rattle_errno() == 12) != is_memory)
                return false;
            if (call == CLOSES)
                from = shim_open("failing", READ);
        }
    return true;
}

/* Here standard output is a terminal, which shows UTF-8 until the console ends the program. */
static bool knows_consoles(void)
{
    BOOL WINAPI restore_page(DWORD event);
    int32_t file = made("no_console") ? shim_open("no_console", READ) : -1;
    return GetConsoleOutputCP() == CP_UTF8 && shim_isatty(1) == 1 && file >= 0 && !shim_isatty(file) && !shim_isatty(9)
        && !restore_page(CTRL_C_EVENT) && GetConsoleOutputCP() != CP_UTF8 && SetConsoleCtrlHandler(restore_page, FALSE);
}

static bool knows_the_processor(void)
{
    uint32_t a, b, c, d;
    __cpuid(1, a, b, c, d);
    if (__x86_get_cpuid_feature_leaf(0)[6] != c || __x86_get_cpuid_feature_leaf(0)[4] != a)
        return false;
    __cpuid(0x80000001, a, b, c, d);
    return __x86_get_cpuid_feature_leaf(2)[6] == c;
}

/* The text goes to standard output, where the caller checks the bytes. */
static bool writes_at_the_start(void)
{
    return __sysv_signal(13, 1) == 0 && __write(1, "12\n34", 5) == 5;
}

static bool ends_without_arguments(void)
{
    failing = "CommandLineToArgvW";
    return main() == 2;
}

/* An argument that is not Unicode, passed to a new process of this program. */
static bool marks_other_arguments(void)
{
    wchar_t program[MAX_PATH], line[] = L"shim unpaired \xd800 end";
    STARTUPINFOW start = {.cb = sizeof start};
    PROCESS_INFORMATION it;
    DWORD status = 1;
    char buffer[8];
    if (rattle_arg(2, buffer, 8) >= 0)
        return has_argument(2, "\xff") && has_argument(3, "end");
    GetModuleFileNameW(NULL, program, MAX_PATH);
    return CreateProcessW(program, line, NULL, NULL, FALSE, 0, NULL, NULL, &start, &it) &&
        WaitForSingleObject(it.hProcess, INFINITE) == WAIT_OBJECT_0 && GetExitCodeProcess(it.hProcess, &status) && status == 0;
}

static bool has_no_closed_stream(void)
{
    static bool is_closed;
    char byte;
    if (!is_closed) {
        is_closed = true;
        SetStdHandle(STD_INPUT_HANDLE, NULL);
        return main() == 0;
    }
    return shim_read(0, &byte, 1) == -1 && rattle_errno() == 9 && fcntl(0, DUPLICATE, (int64_t)3) == -1;
}
#endif

static const struct { const char *name; bool (*holds)(void); } TESTS[] = {
    {"memory", gives_memory}, {"refused_memory", refuses_memory}, {"resized_memory", resizes_memory}, {"freed_memory", frees_memory},
    {"arguments", has_arguments}, {"errors", has_errors},
#ifdef _WIN32
    {"bytes", reads_and_writes}, {"existing_files", keeps_files}, {"flags", opens_only_what_it_says}, {"devices", refuses_devices},
    {"long_names", opens_long_names}, {"directories", opens_directories}, {"numbers", numbers_files}, {"duplicates", duplicates},
    {"pipes", reads_pipes}, {"short", reports_short_calls}, {"failures", reports_failures}, {"consoles", knows_consoles},
    {"processor", knows_the_processor}, {"start", writes_at_the_start}, {"unpaired", marks_other_arguments},
    {"closed_streams", has_no_closed_stream}, {"no_arguments", ends_without_arguments},
#endif
};

/* Without an argument, prints the names of all tests. */
int32_t MAIN(void)
{
    char name[32];
    int64_t length = rattle_arg(1, name, sizeof name - 1);
    for (size_t i = 0; i < sizeof TESTS / sizeof *TESTS; i++)
        if (length < 0)
            puts(TESTS[i].name);
        else if (name[length] = 0, strcmp(name, TESTS[i].name) == 0)
            return !TESTS[i].holds();
    return length < 0 ? 0 : 2;
}
