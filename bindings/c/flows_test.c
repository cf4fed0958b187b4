/* Compares margin_unit_flows with the oracle, whose calls oracle/schedule_calls.rs prints: the eight numbers that are handed
 * over, the lent buffer's bytes, what the call gives, and the records. calls.h has how they are compared. */
#include "calls.h"

enum { NUMBERS = 8 };

static uint32_t handed[NUMBERS];

static int read_call(const char *line, struct call *call)
{
    line = read_numbers(line, handed, NUMBERS);
    if (line != NULL)
        line = read_numbers(line, &call->room, 1);
    return line != NULL && read_outcome(line, call);
}

static uint32_t make_call(uint8_t *lent, size_t room)
{
    const uint32_t *n = handed;

    return margin_unit_flows(n[0], n[1], n[2], n[3], n[4], n[5], n[6], n[7], lent, room);
}

int main(void)
{
    return same_calls();
}
