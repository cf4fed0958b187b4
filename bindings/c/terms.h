/* What the C programs over a bond's terms share: arguments, and the lines of flows. */
#ifndef TERMS_H
#define TERMS_H

#include "program.h"

enum { RECORD = 8 };

struct date {
    uint32_t year, month, day;
};

/* Reads digits up to a character that ends them, and gives what follows it; NULL where another stands there, there are no
 * digits, or 32 bits do not hold the number. */
static inline const char *read_number(const char *text, char end, uint32_t *number)
{
    uint64_t value = 0;
    const char *at = text;

    for (; *at >= '0' && *at <= '9'; at++) {
        value = 10 * value + (uint64_t)(*at - '0');
        if (value > UINT32_MAX)
            return NULL;
    }
    if (at == text || *at != end)
        return NULL;
    *number = (uint32_t)value;
    return at + 1;
}

static inline int read_date(const char *text, struct date *date)
{
    const char *at = read_number(text, '-', &date->year);
    if (at != NULL)
        at = read_number(at, '-', &date->month);
    return at != NULL && read_number(at, '\0', &date->day) != NULL;
}

static inline uint32_t little_endian(const uint8_t *bytes, int count)
{
    uint32_t value = 0;

    while (count > 0)
        value = value << 8 | bytes[--count];
    return value;
}

/* Prints so many flows as the call gives, a line of days and amount for each, or its refusal; gives the exit status. */
static inline int print_flows(uint32_t code, const uint8_t *flows)
{
    if (MARGIN_UNIT_NUMBER(code) != 0)
        return print_refusal(code);
    for (uint32_t i = 0; i < code; i++) {
        const uint8_t *record = flows + RECORD * i;
        printf("%" PRIu32 " %" PRIu32 "\n", little_endian(record, 2), little_endian(record + 4, 4));
    }
    return ACCEPTED;
}

#endif
