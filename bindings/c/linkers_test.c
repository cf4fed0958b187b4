/* Compares margin_unit_linker_flows with the oracle, whose calls oracle/linkers_calls.rs prints: the twelve numbers that are
 * handed over, the lent buffer's bytes, how many prices there are, the prices, what the call gives, and the records. calls.h
 * has how they are compared. The prices, and some numbers before and after them, must keep their contents. */
#include "calls.h"

/* Numbers handed over, and prices at most. */
enum { NUMBERS = 12, MONTHS = 2048 };

static uint32_t handed[NUMBERS], count;

/* The prices that are handed over stand in the second, from AROUND on. */
static uint32_t prices[MONTHS], lent_prices[AROUND + MONTHS + AROUND];

static int read_call(const char *line, struct call *call)
{
    line = read_numbers(line, handed, NUMBERS);
    if (line != NULL)
        line = read_numbers(line, &call->room, 1);
    if (line != NULL)
        line = read_numbers(line, &count, 1);
    if (line == NULL || count > MONTHS)
        return 0;
    line = read_numbers(line, prices, count);
    return line != NULL && read_outcome(line, call);
}

/* Whether all prices are as they were read, and 0 stands around them. */
static int same_prices(void)
{
    for (size_t i = 0; i < AROUND + MONTHS + AROUND; i++) {
        int inside = i >= AROUND && i - AROUND < count;
        if (lent_prices[i] != (inside ? prices[i - AROUND] : 0))
            return 0;
    }
    return 1;
}

static uint32_t make_call(uint8_t *lent, size_t room)
{
    const uint32_t *n = handed;

    memset(lent_prices, 0, sizeof lent_prices);
    memcpy(lent_prices + AROUND, prices, count * sizeof *prices);
    uint32_t code = margin_unit_linker_flows(n[0], n[1], n[2], n[3], n[4], n[5], n[6], n[7], n[8], n[9], n[10], n[11],
                                             lent_prices + AROUND, count, lent, room);
    if (same_prices())
        return code;
    fprintf(stderr, "prices, or numbers around them, are changed\n");
    return UINT32_MAX;
}

int main(void)
{
    return same_calls();
}
