/* What the C programs here share: their exit statuses, the look at the library's interface, and lost output. */
#ifndef PROGRAM_H
#define PROGRAM_H

#include <inttypes.h>
#include <stdio.h>

#include "margin_unit.h"

enum { ACCEPTED = 0, REFUSED = 1, FAILED = 2 };

/* Whether the library is the one that the header describes; where it is not, that is said on standard error. */
static inline int same_interface(void)
{
    if (margin_unit_version() == MARGIN_UNIT_VERSION)
        return 1;
    fprintf(stderr, "the library's interface is %" PRIu32 ", the header's %d\n", margin_unit_version(), MARGIN_UNIT_VERSION);
    return 0;
}

static inline int print_refusal(uint32_t code)
{
    printf("refused %" PRIu32 " %" PRIu32 "\n", MARGIN_UNIT_NUMBER(code), MARGIN_UNIT_ITEM(code));
    return REFUSED;
}

/* The exit status, or FAILED where not all lines went out. */
static inline int written(int status)
{
    if (fflush(stdout) == 0 && !ferror(stdout))
        return status;
    fprintf(stderr, "standard output can't be written\n");
    return FAILED;
}

#endif
