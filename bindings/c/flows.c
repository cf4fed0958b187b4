/* Prints the flows of a bond from its terms, a line for each: days from evaluation, and the amount in millionths of nominal.
 *
 *     flows EVALUATION MATURITY RATE FREQUENCY
 *     flows 2018-04-20 2020-08-31 40000 2
 *
 * Dates are YEAR-MONTH-DAY; the rate is the yearly coupon in millionths of nominal, the frequency coupons a year. The exit
 * status is 0 where the flows are printed, 1 where the terms are refused, and 2 where the arguments have another form, the
 * lines can't be written or the library is not the one that the header describes. */
#include "terms.h"

static int run(const struct date *evaluation, const struct date *maturity, uint32_t rate, uint32_t frequency)
{
    uint8_t flows[MARGIN_UNIT_FLOWS_BYTES];

    uint32_t code = margin_unit_flows(evaluation->year, evaluation->month, evaluation->day, maturity->year, maturity->month,
                                      maturity->day, rate, frequency, flows, sizeof flows);
    return print_flows(code, flows);
}

int main(int count, char **arguments)
{
    struct date evaluation, maturity;
    uint32_t rate, frequency;

    if (!same_interface())
        return FAILED;
    if (count != 5 || !read_date(arguments[1], &evaluation) || !read_date(arguments[2], &maturity) ||
        read_number(arguments[3], '\0', &rate) == NULL || read_number(arguments[4], '\0', &frequency) == NULL) {
        fprintf(stderr, "usage: flows EVALUATION MATURITY RATE FREQUENCY, dates as 2020-08-31, the rate in millionths\n");
        return FAILED;
    }
    return written(run(&evaluation, &maturity, rate, frequency));
}
