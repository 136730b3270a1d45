/* Numbers on the command line. */
#include "desk.h"

#include <ctype.h>
#include <errno.h>
#include <stdlib.h>

/* What fits in 32 bits is handed on: that there is no such rule, or that no record can have the number, is for the library to refuse. */
int given_number(const char *text, uint32_t *number)
{
    char *end;
    errno = 0;
    unsigned long value = strtoul(text, &end, 10);
    *number = (uint32_t)value;
    return isdigit((unsigned char)*text) && *end == 0 && errno == 0 && value <= UINT32_MAX;
}
