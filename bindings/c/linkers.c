/* Prints the flows of an inflation bond, a line for each: days from evaluation, and the amount in millionths of nominal.
 *
 *     linkers EVALUATION ISSUE MATURITY RATE FREQUENCY KIND PRICES
 *     linkers 2018-04-20 2014-04-23 2020-04-23 8250 2 italia prices.txt
 *
 * Dates are YEAR-MONTH-DAY; the rate is the yearly coupon in millionths of nominal, before it is indexed, the frequency
 * coupons a year; KIND is italia for a BTP Italia, and other for the rest. PRICES is a file of index prices in
 * ten-thousandths, a line a month from January 2000 on, up to December 2099 at the most. The exit status is 0 where the flows
 * are printed, 1 where terms or prices are refused, and 2 where the arguments have another form, the file can't be read, the
 * lines can't be written or the library is not the one that the header describes. */
#include <string.h>

#include "terms.h"

/* A price for every month of the calendar, and the characters of a line: ten digits, its end and a zero. */
enum { MONTHS = 1200, LINE = 12 };

struct linker {
    struct date evaluation, issue, maturity;
    uint32_t rate, frequency, btp_italia;
    uint32_t prices[MONTHS];
    size_t months;
};

/* A number in every line, and no more lines than months. */
static int read_prices(FILE *file, struct linker *linker)
{
    char line[LINE];

    for (linker->months = 0; fgets(line, sizeof line, file) != NULL; linker->months++) {
        if (linker->months == MONTHS || read_number(line, '\n', &linker->prices[linker->months]) == NULL)
            return 0;
    }
    return !ferror(file);
}

static int load(const char *name, struct linker *linker)
{
    FILE *file = fopen(name, "r");
    if (file == NULL)
        return 0;
    int whole = read_prices(file, linker);
    fclose(file);
    return whole;
}

static int read_kind(const char *text, uint32_t *btp_italia)
{
    *btp_italia = strcmp(text, "italia") == 0;
    return *btp_italia || strcmp(text, "other") == 0;
}

static int read_terms(char **arguments, struct linker *linker)
{
    return read_date(arguments[1], &linker->evaluation) && read_date(arguments[2], &linker->issue) &&
           read_date(arguments[3], &linker->maturity) && read_number(arguments[4], '\0', &linker->rate) != NULL &&
           read_number(arguments[5], '\0', &linker->frequency) != NULL && read_kind(arguments[6], &linker->btp_italia);
}

static int run(const struct linker *linker)
{
    const struct date *evaluation = &linker->evaluation, *issue = &linker->issue, *maturity = &linker->maturity;
    uint8_t flows[MARGIN_UNIT_FLOWS_BYTES];

    uint32_t code = margin_unit_linker_flows(evaluation->year, evaluation->month, evaluation->day, issue->year,
                                             issue->month, issue->day, maturity->year, maturity->month, maturity->day,
                                             linker->rate, linker->frequency, linker->btp_italia, linker->prices,
                                             linker->months, flows, sizeof flows);
    return print_flows(code, flows);
}

int main(int count, char **arguments)
{
    static struct linker linker;

    if (!same_interface())
        return FAILED;
    if (count != 8 || !read_terms(arguments, &linker)) {
        fprintf(stderr, "usage: linkers EVALUATION ISSUE MATURITY RATE FREQUENCY italia|other PRICES, dates as 2020-08-31, "
                        "the rate in millionths, PRICES a file of index prices, a line a month\n");
        return FAILED;
    }
    if (!load(arguments[7], &linker)) {
        fprintf(stderr, "%s: can't be read, or is not a number in each of up to %d lines\n", arguments[7], MONTHS);
        return FAILED;
    }
    return written(run(&linker));
}
