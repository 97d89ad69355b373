/* Makes a call of the shim for Windows fail in the whole program. FAIL is its name, a space, and the number of the call, 0 for all. If it
   was made, there is the file FAILED afterwards. */
#define WIN32_LEAN_AND_MEAN
#include <stdio.h>
#include <stdlib.h>
#include <string.h>
#include <windows.h>

int fails(const char *call);

int fails(const char *call)
{
    static int calls, failed;
    char name[64];
    int number;
    const char *text = getenv("FAIL");
    if (!text || sscanf(text, "%63s %d", name, &number) != 2 || strcmp(name, call) != 0 || (number != 0 && ++calls != number))
        return 0;
    FILE *file = failed++ ? NULL : fopen("FAILED", "w");
    if (file)
        fclose(file);
    SetLastError(ERROR_GEN_FAILURE);
    return 1;
}
