/* The shim for Windows with calls that fail, as failing.c says. */
#include "failing.h"
/* After failing.h. */
#include "../../targets/windows.c"
#include "failing.c"
