/* Included before a shim: each of these calls fails if `fails` returns 1. */
#ifdef _WIN32
#define WIN32_LEAN_AND_MEAN
#include <windows.h>
#include <shellapi.h>

/* Whether the call with this name must fail now. Sets the error if it must. */
int fails(const char *call);

/* The number of bytes that a read or a write moves: one if it must be short now. */
#define MOVED(call, size) ((size) > 1 && fails(call) ? 1 : (size))

/* Closes a file even if the call must fail. */
static BOOL closed(HANDLE file)
{
    return CloseHandle(file) && !fails("CloseHandle");
}

#define CloseHandle(file) closed(file)
#define CommandLineToArgvW(...) (fails("CommandLineToArgvW") ? NULL : CommandLineToArgvW(__VA_ARGS__))
#define CreateFileW(...) (fails("CreateFileW") ? INVALID_HANDLE_VALUE : CreateFileW(__VA_ARGS__))
#define DuplicateHandle(...) (!fails("DuplicateHandle") && DuplicateHandle(__VA_ARGS__))
#define FlushFileBuffers(file) (!fails("FlushFileBuffers") && FlushFileBuffers(file))
#define GetFullPathNameW(...) (fails("GetFullPathNameW") ? 0 : GetFullPathNameW(__VA_ARGS__))
#define GetStdHandle(stream) (fails("GetStdHandle") ? INVALID_HANDLE_VALUE : GetStdHandle(stream))
#define MultiByteToWideChar(...) (fails("MultiByteToWideChar") ? 0 : MultiByteToWideChar(__VA_ARGS__))
#define ReadFile(file, bytes, size, count, more) \
    (!fails("ReadFile") && (fails("a read of bytes") ? (*(count) = 0, TRUE) : ReadFile(file, bytes, MOVED("ShortRead", size), count, more)))
#define WideCharToMultiByte(...) (fails("WideCharToMultiByte") ? 0 : WideCharToMultiByte(__VA_ARGS__))
#define WriteFile(file, bytes, size, count, more) \
    (!fails("WriteFile") && WriteFile(file, bytes, MOVED("ShortWrite", size), count, more))
#endif
