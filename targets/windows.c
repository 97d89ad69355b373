/* The functions that the proved program calls on Windows, except those for memory. The prover trusts their contracts (docs/TRUST.md). Each
   comment says what its function has to do. Flags and numbers of errors are those of Linux on x86-64, for which the program was proved. */

#define WIN32_LEAN_AND_MEAN
#include <windows.h>
/* After windows.h, whose types it uses. */
#include <cpuid.h>
#include <shellapi.h>
#include <stdarg.h>
#include <stdint.h>
#include <string.h>
#include <wchar.h>

enum { OPEN_TO_READ = 0x80100, OPEN_NEW_TO_WRITE = 0x801c1, TO_DUPLICATE = 1030 };
enum { NO_FILE = 2, IO_FAILED = 5, BAD_DESCRIPTOR = 9, NO_MEMORY = 12, NOT_ALLOWED = 13, INVALID = 22, TOO_MANY_FILES = 24 };
enum { FILES = 16, PATH_SIZE = 4096, NAME_SIZE = 32768, MOST_BYTES = 0x7ffff000 };

int32_t rattle_main(void);

/* ---- errors */

static int32_t last_error;

/* The number of the last error, by which the program recognises refused memory. */
int32_t rattle_errno(void)
{
    return last_error;
}

void rattle_set_errno(int32_t error)
{
    last_error = error;
}

static int32_t failed(int32_t error)
{
    last_error = error;
    return -1;
}

/* The program distinguishes only refused memory from other errors. */
static int32_t failed_call(void)
{
    DWORD error = GetLastError();
    return failed(error == ERROR_NOT_ENOUGH_MEMORY || error == ERROR_OUTOFMEMORY ? NO_MEMORY : IO_FAILED);
}

/* ---- arguments */

static int count;
static wchar_t **arguments;

/* Copies the argument of this number to the buffer in UTF-8, without a NUL, and returns its length. Returns -1 if there is none, -2 if it
   is longer than `room`; its first bytes then fill the buffer. One that is not Unicode becomes a byte that is not UTF-8 either. */
int64_t rattle_arg(uint64_t number, char *buffer, uint64_t room)
{
    static char text[3 * NAME_SIZE + 1];
    if (number >= (uint64_t)count)
        return -1;
    if (!WideCharToMultiByte(CP_UTF8, WC_ERR_INVALID_CHARS, arguments[number], -1, text, sizeof text, NULL, NULL))
        strcpy(text, "\xff");
    size_t length = strlen(text);
    memcpy(buffer, text, length < room ? length : room);
    return length <= room ? (int64_t)length : -2;
}

/* ---- names of files */

/* The full name of a path in UTF-8, or NULL. The prefix makes Windows accept 32,767 characters, and use them unchanged. A name of a device
   has no such prefix. */
static const wchar_t *full_name(const char *path)
{
    static wchar_t wide[PATH_SIZE], name[NAME_SIZE + 8];
    wchar_t *full = name + 8;
    if (!MultiByteToWideChar(CP_UTF8, MB_ERR_INVALID_CHARS, path, -1, wide, PATH_SIZE))
        return NULL;
    DWORD length = GetFullPathNameW(wide, NAME_SIZE, full, NULL);
    if (length == 0 || length >= NAME_SIZE)
        return NULL;
    if (wcsncmp(full, L"\\\\.\\", 4) == 0 || wcsncmp(full, L"\\\\?\\", 4) == 0)
        return full;
    if (wcsncmp(full, L"\\\\", 2) == 0)
        return wmemcpy(full - 6, L"\\\\?\\UNC", 7);
    return wmemcpy(full - 4, L"\\\\?\\", 4);
}

/* Whether Windows has a device of this name, with any extension: NUL, CON, or COM1.TXT. */
static int is_reserved(const wchar_t *name)
{
    static const wchar_t *const devices[] = {L"CON", L"PRN", L"AUX", L"NUL", L"CONIN$", L"CONOUT$"};
    size_t length = wcscspn(name, L". ");
    for (size_t i = 0; i < sizeof devices / sizeof *devices; i++)
        if (wcslen(devices[i]) == length && _wcsnicmp(name, devices[i], length) == 0)
            return 1;
    return length == 4 && (_wcsnicmp(name, L"COM", 3) == 0 || _wcsnicmp(name, L"LPT", 3) == 0) &&
        wcschr(L"0123456789\u00b9\u00b2\u00b3", name[3]) != NULL;
}

/* Whether a full name is that of a file on a drive or a share, and not that of a device or of a stream beside a file's bytes. */
static int can_be_made(const wchar_t *name)
{
    if (wcsncmp(name, L"\\\\?\\", 4) != 0)
        return 0;
    const wchar_t *rest = name + 4;
    if (_wcsnicmp(rest, L"UNC\\", 4) != 0) {
        if (!((*rest >= L'A' && *rest <= L'Z') || (*rest >= L'a' && *rest <= L'z')) || rest[1] != L':' || rest[2] != L'\\')
            return 0;
        rest += 2;
    }
    return wcschr(rest, L':') == NULL && !is_reserved(wcsrchr(rest, L'\\') + 1);
}

/* ---- files */

/* The file on which each descriptor is open; NULL if it is closed. */
static HANDLE files[FILES];

static HANDLE file_at(int32_t descriptor)
{
    return descriptor >= 0 && descriptor < FILES ? files[descriptor] : NULL;
}

/* Opens the lowest free descriptor from `from` on for the file, and returns it. If there is none, closes the file and returns -1. */
static int32_t described(HANDLE file, int32_t from)
{
    for (int32_t i = from; i < FILES; i++)
        if (files[i] == NULL) {
            files[i] = file;
            return i;
        }
    CloseHandle(file);
    return failed(TOO_MANY_FILES);
}

/* Opens a file or directory to be read, or makes a new file to be written, and returns its descriptor, the lowest free one, or -1. No other
   flags are accepted. A file that exists is never opened to be written, at the end of a link neither. What a directory has cannot be read. */
int32_t shim_open(const char *path, int32_t flags, ...)
{
    int is_new = flags == OPEN_NEW_TO_WRITE;
    if (!is_new && flags != OPEN_TO_READ)
        return failed(INVALID);
    const wchar_t *name = full_name(path);
    if (name == NULL)
        return failed(NO_FILE);
    if (is_new && !can_be_made(name))
        return failed(NOT_ALLOWED);
    HANDLE file = CreateFileW(name, is_new ? GENERIC_WRITE : GENERIC_READ, FILE_SHARE_READ | FILE_SHARE_WRITE | FILE_SHARE_DELETE, NULL,
                              is_new ? CREATE_NEW : OPEN_EXISTING, is_new ? FILE_FLAG_OPEN_REPARSE_POINT : FILE_FLAG_BACKUP_SEMANTICS, NULL);
    return file == INVALID_HANDLE_VALUE ? failed_call() : described(file, 0);
}

/* Closes a descriptor. Returns 0, or -1. */
int32_t shim_close(int32_t descriptor)
{
    HANDLE file = file_at(descriptor);
    if (file == NULL)
        return failed(BAD_DESCRIPTOR);
    files[descriptor] = NULL;
    return CloseHandle(file) ? 0 : failed_call();
}

/* Returns a descriptor from `from` on that is open on the same file, or -1. Only the command TO_DUPLICATE is accepted. */
int32_t fcntl(int32_t descriptor, int32_t command, ...)
{
    HANDLE file = file_at(descriptor), twin, self = GetCurrentProcess();
    va_list rest;
    va_start(rest, command);
    int64_t from = va_arg(rest, int64_t);
    va_end(rest);
    if (file == NULL)
        return failed(BAD_DESCRIPTOR);
    if (command != TO_DUPLICATE || from < 0 || from >= FILES)
        return failed(INVALID);
    return DuplicateHandle(self, file, self, &twin, 0, FALSE, DUPLICATE_SAME_ACCESS) ? described(twin, (int32_t)from) : failed_call();
}

/* Reads the file's next bytes, at most `size`, and returns their number, 0 at its end, or -1. A pipe's end is an error to Windows; a message of
   no bytes in a pipe is not its end. */
int64_t shim_read(int32_t descriptor, void *bytes, int64_t size)
{
    HANDLE file = file_at(descriptor);
    DWORD count, most = size < MOST_BYTES ? (DWORD)size : MOST_BYTES;
    if (file == NULL)
        return failed(BAD_DESCRIPTOR);
    do {
        if (!ReadFile(file, bytes, most, &count, NULL))
            return GetLastError() == ERROR_BROKEN_PIPE ? 0 : failed_call();
    } while (count == 0 && most != 0 && GetNamedPipeInfo(file, NULL, NULL, NULL, NULL));
    return count;
}

/* Writes these bytes, perhaps only the first of them, and returns the number of those that were written, or -1. */
int64_t shim_write(int32_t descriptor, const void *bytes, int64_t size)
{
    HANDLE file = file_at(descriptor);
    DWORD count;
    if (file == NULL)
        return failed(BAD_DESCRIPTOR);
    return WriteFile(file, bytes, size < MOST_BYTES ? (DWORD)size : MOST_BYTES, &count, NULL) ? (int64_t)count : failed_call();
}

/* Returns 0 when everything written to the file is on the disk, or -1. */
int32_t fdatasync(int32_t descriptor)
{
    HANDLE file = file_at(descriptor);
    if (file == NULL)
        return failed(BAD_DESCRIPTOR);
    return FlushFileBuffers(file) ? 0 : failed_call();
}

/* Whether a descriptor is open on a console. */
int32_t shim_isatty(int32_t descriptor)
{
    DWORD mode;
    HANDLE file = file_at(descriptor);
    return file != NULL && GetConsoleMode(file, &mode);
}

/* ---- the start */

/* `main` calls these three first: it ignores the signal of a closed pipe, which Windows does not have, and refuses an older processor. */
int64_t __sysv_signal(int32_t signal, int64_t handler)
{
    (void)signal;
    (void)handler;
    return 0;
}

/* The processor's features: after 16 bytes the four words of CPUID's leaf 1, or of the leaf 0x80000001 for the number 2. */
const uint32_t *__x86_get_cpuid_feature_leaf(int32_t number)
{
    static uint32_t words[8];
    if (!__get_cpuid(number == 2 ? 0x80000001 : 1, &words[4], &words[5], &words[6], &words[7]))
        memset(words, 0, sizeof words);
    return words;
}

int64_t __write(int32_t descriptor, const void *bytes, int64_t size)
{
    return shim_write(descriptor, bytes, size);
}

/* The console's code page before the program. */
static UINT page_before;

/* Restores the code page if the console ends the program, for example by Ctrl-C. The next handler, which is the system's, ends it. */
BOOL WINAPI restore_page(DWORD event)
{
    (void)event;
    SetConsoleOutputCP(page_before);
    return FALSE;
}

/* Calls the program's own `main` with its arguments and streams, and a console that shows UTF-8. A stream that is closed stays closed. */
int main(void)
{
    static const char refused[] = "cdpatch: no memory\n";
    static const DWORD streams[] = {STD_INPUT_HANDLE, STD_OUTPUT_HANDLE, STD_ERROR_HANDLE};
    for (int i = 0; i < 3; i++) {
        HANDLE stream = GetStdHandle(streams[i]);
        files[i] = stream == INVALID_HANDLE_VALUE ? NULL : stream;
    }
    arguments = CommandLineToArgvW(GetCommandLineW(), &count);
    if (arguments == NULL) {
        shim_write(1, refused, sizeof refused - 1);
        return 2;
    }
    page_before = GetConsoleOutputCP();
    SetConsoleCtrlHandler(restore_page, TRUE);
    SetConsoleOutputCP(CP_UTF8);
    int32_t status = rattle_main();
    SetConsoleOutputCP(page_before);
    return status;
}
