/* Prints what the unit makes of a book: its four lines, or its refusal.
 *
 *     margin FILE
 *
 * The exit status is 0 where the book is accepted, 1 where it is refused, and 2 where it can't be read, the lines can't be
 * written or the library is not the one that the header describes. */
#include <stdlib.h>

#include "program.h"

struct book {
    uint8_t *bytes;
    size_t length;
};

/* Reads to the file's end, into as much room as that takes. */
static int read_all(FILE *file, struct book *book)
{
    size_t room = 0;

    for (;;) {
        if (book->length == room) {
            room = room == 0 ? 65536 : 2 * room;
            uint8_t *more = realloc(book->bytes, room);
            if (more == NULL)
                return 0;
            book->bytes = more;
        }
        size_t count = fread(book->bytes + book->length, 1, room - book->length, file);
        if (count == 0)
            return !ferror(file);
        book->length += count;
    }
}

static int load(const char *name, struct book *book)
{
    FILE *file = fopen(name, "rb");
    if (file == NULL)
        return 0;
    int whole = read_all(file, book);
    fclose(file);
    return whole;
}

/* T, U, D and M of one kind of returns, and its listed scenarios. */
static void print_charge(const char *word, const uint64_t *figures, const uint16_t *list, uint64_t k)
{
    printf("%s", word);
    for (int i = 0; i < 4; i++)
        printf(" %" PRIu64, figures[i]);
    for (uint64_t i = 0; i < k; i++)
        printf(" %u", (unsigned)list[i]);
    printf("\n");
}

static int run(const struct book *book)
{
    static int64_t exposures[MARGIN_UNIT_EXPOSURES];
    static int32_t returns[MARGIN_UNIT_RETURNS];
    uint16_t list[MARGIN_UNIT_LIST];
    uint64_t figures[MARGIN_UNIT_FIGURES];

    uint32_t code = margin_unit_run(book->bytes, book->length, exposures, MARGIN_UNIT_EXPOSURES, returns,
                                    MARGIN_UNIT_RETURNS, list, MARGIN_UNIT_LIST, figures);
    if (code != MARGIN_UNIT_ACCEPTED)
        return print_refusal(code);
    uint64_t k = figures[MARGIN_UNIT_K];
    printf("tail %" PRIu64 "\n", k);
    print_charge("unscaled", figures + MARGIN_UNIT_UNSCALED, list, k);
    print_charge("scaled", figures + MARGIN_UNIT_SCALED, list + k, k);
    printf("margin %" PRIu64 "\n", figures[MARGIN_UNIT_EUROS]);
    return ACCEPTED;
}

int main(int count, char **arguments)
{
    struct book book = {NULL, 0};

    if (!same_interface())
        return FAILED;
    if (count != 2) {
        fprintf(stderr, "usage: margin FILE\n");
        return FAILED;
    }
    int status = FAILED;
    if (load(arguments[1], &book))
        status = run(&book);
    else
        fprintf(stderr, "%s: can't be read\n", arguments[1]);
    free(book.bytes);
    return written(status);
}
