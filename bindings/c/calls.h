/* What the C tests share. Calls that the oracle made stand on standard input, a line for each: numbers, by which the test
 * makes the call, then what it gives, and the records that it writes, in hexadecimal. Each is made twice, and all bytes of the
 * lent buffer, and some before and after it, are compared.
 *
 * A test prints how many calls there were. Its exit status is 1 where one differs, and 2 where a line can't be read, there is
 * none, the count can't be written or the library is not the one that the header describes. */
#ifndef CALLS_H
#define CALLS_H

#include <stdlib.h>
#include <string.h>

#include "program.h"

/* A line's characters, and the bytes lent at most and around them. */
enum { LONGEST = 32768, MOST = 2048, AROUND = 64 };

struct call {
    uint32_t room, code;
    uint8_t records[MOST];
    size_t written;
};

/* Numbers with a space after each; gives what follows them, or NULL. */
static inline const char *read_numbers(const char *text, uint32_t *numbers, size_t count)
{
    for (size_t i = 0; i < count; i++) {
        char *end;
        numbers[i] = (uint32_t)strtoul(text, &end, 10);
        if (end == text || *end != ' ')
            return NULL;
        text = end + 1;
    }
    return text;
}

/* Pairs of hexadecimal digits, to the line's end. */
static inline int read_records(const char *text, struct call *call)
{
    unsigned byte;
    int length = 0;

    for (call->written = 0; call->written < MOST && sscanf(text, "%2x%n", &byte, &length) == 1 && length == 2; text += 2)
        call->records[call->written++] = (uint8_t)byte;
    return strcmp(text, "\n") == 0;
}

/* What the call gives, and its records: the last of the line. */
static inline int read_outcome(const char *text, struct call *call)
{
    text = read_numbers(text, &call->code, 1);
    return text != NULL && call->room <= MOST && read_records(text, call);
}

/* Bytes by their places. */
static inline void fill(uint8_t *bytes, uint8_t flip)
{
    for (size_t i = 0; i < AROUND + MOST + AROUND; i++)
        bytes[i] = (uint8_t)(37 * i + 11) ^ flip;
}

/* A test has these two of its own: one reads a line, the other makes the call that was read, with so many bytes from lent
 * on. */
static int read_call(const char *line, struct call *call);
static uint32_t make_call(uint8_t *lent, size_t room);

/* Whether the call gives and writes what it must. The lent bytes are those from AROUND on. */
static inline int same(const struct call *call, uint8_t flip)
{
    static uint8_t lent[AROUND + MOST + AROUND], must[sizeof lent];

    fill(lent, flip);
    fill(must, flip);
    memcpy(must + AROUND, call->records, call->written);
    uint32_t code = make_call(lent + AROUND, call->room);
    int same_bytes = memcmp(lent, must, sizeof lent) == 0;
    if (code != call->code)
        fprintf(stderr, "gives %" PRIu32 ", and must give %" PRIu32 "\n", code, call->code);
    if (!same_bytes)
        fprintf(stderr, "bytes of the buffer or around it are not as they must be\n");
    return code == call->code && same_bytes;
}

static inline int same_calls(void)
{
    static char line[LONGEST];
    static struct call call;
    unsigned long calls = 0;

    if (!same_interface())
        return FAILED;
    for (; fgets(line, sizeof line, stdin) != NULL; calls++) {
        int read = read_call(line, &call);
        /* turned over, a byte that is written with what it held in the first call is seen in the second */
        if (read && same(&call, 0) && same(&call, 255))
            continue;
        fprintf(stderr, "line %lu %s: %s", calls + 1, read ? "differs" : "can't be read", line);
        return read ? REFUSED : FAILED;
    }
    if (calls == 0 || ferror(stdin)) {
        fprintf(stderr, "no calls on standard input, or they can't be read\n");
        return FAILED;
    }
    printf("%lu calls\n", calls);
    return written(ACCEPTED);
}

#endif
