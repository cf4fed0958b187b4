/* The sealed margin unit, for hosts in C and C++: from the bytes of a book to its margin, and from a bond's terms, with index
 * prices where it is an inflation bond, to its flows as a book has them.
 *
 * docs/BOOK.md says what a book is, byte by byte, and how the figures come about; bindings/README.md says how to link the
 * library. In short: a book has vertices (points of zero-coupon curves) with their prices, bonds with their flows, and
 * positions. The positions come to an exposure at each vertex, and the prices to LP scenarios, LP being the book's lookback:
 * a scenario has a return for each vertex, once as it was (unscaled) and once brought to the newest volatility (scaled). A
 * scenario's loss comes of every exposure times its return, and the margin of the k largest losses. The terms of a bond are
 * its maturity, its yearly coupon and how often a year this is paid. */
#ifndef MARGIN_UNIT_H
#define MARGIN_UNIT_H

#include <stddef.h>
#include <stdint.h>

#ifdef __cplusplus
extern "C" {
#endif

/* The interface that this header describes. It rises by one whenever an exported signature, the form of a refusal's code, the
 * figures' array or a lent buffer's layout changes. A host compares it, when it starts, with what the library that it is
 * linked with says, and calls nothing else of one that differs. A new function leaves it as it is: a host that calls it does
 * not link with a library that lacks it. */
#define MARGIN_UNIT_VERSION 1

/* The interface that the library has. */
uint32_t margin_unit_version(void);

/* Entries that suffice for every book. */
#define MARGIN_UNIT_EXPOSURES 64
#define MARGIN_UNIT_RETURNS 131072
#define MARGIN_UNIT_LIST 32

/* Bytes that suffice for the flows of every bond. */
#define MARGIN_UNIT_FLOWS_BYTES 960

/* The ten figures, by their places in the array. "Millionths" are millionths of a euro, added up over the k scenarios; p is
 * the book's decorrelation parameter, in percent. */
enum margin_unit_figure {
    MARGIN_UNIT_K = 0, /* k: how many scenarios a tail adds up, 1 to 16 */

    MARGIN_UNIT_UNSCALED = 1,               /* where the four of the unscaled returns start: */
    MARGIN_UNIT_UNSCALED_TAIL = 1,          /* T, the tail sum, in millionths: the total of the k largest losses */
    MARGIN_UNIT_UNSCALED_UNDIVERSIFIED = 2, /* U, in millionths: the sum of the T that each exposure alone would have */
    MARGIN_UNIT_UNSCALED_ADD_ON = 3,        /* D, the add-on, in millionths: (100 - p) percent of U - T, rounded up */
    MARGIN_UNIT_UNSCALED_TOTAL = 4,         /* M = T + D, in millionths */

    MARGIN_UNIT_SCALED = 5,               /* where the four of the scaled returns start: */
    MARGIN_UNIT_SCALED_TAIL = 5,          /* T, in millionths */
    MARGIN_UNIT_SCALED_UNDIVERSIFIED = 6, /* U, in millionths */
    MARGIN_UNIT_SCALED_ADD_ON = 7,        /* D, in millionths */
    MARGIN_UNIT_SCALED_TOTAL = 8,         /* M, in millionths */

    MARGIN_UNIT_EUROS = 9, /* the margin, in whole euros: the larger M / (k x 1,000,000), rounded up */

    MARGIN_UNIT_FIGURES = 10 /* how many figures there are */
};

/* What a book (1 to 24) or a bond's terms (25 to 30) are refused for, by number. The item is the index, from 0, of the vertex,
 * bond or position where a comment names one, and else 0.
 *
 * Of several faults of a book the first is given: place by place (directory, parameters, vertices, prices, bonds, flows,
 * positions, scenarios, buffers); in a place its length before its records, records by rising index, on one record (for 14 to
 * 16, on one bond) the lowest number; 20 after every position. Of several faults of terms the lowest number is given: each is
 * looked for over all that it covers before the next. */
enum margin_unit_refusal {
    /* no refusal of a book */
    MARGIN_UNIT_ACCEPTED = 0,

    /* fewer than 48 bytes, so no room for the directory */
    MARGIN_UNIT_REFUSED_DIRECTORY_SHORT = 1,
    /* the six sections do not follow one another from byte 48 to the book's end */
    MARGIN_UNIT_REFUSED_DIRECTORY_PAIRS = 2,

    /* the parameters are not 16 bytes, or one of the last six is not 0 */
    MARGIN_UNIT_REFUSED_PARAMETERS_FORM = 3,
    /* a parameter is outside its range */
    MARGIN_UNIT_REFUSED_PARAMETERS_RANGE = 4,
    /* lookback and confidence come to a k above 16 */
    MARGIN_UNIT_REFUSED_TAIL_COUNT = 5,

    /* the vertices are not 1 to 64 records of 4 bytes */
    MARGIN_UNIT_REFUSED_VERTICES_LENGTH = 6,
    /* a field is outside its range, or the vertex does not lie past the one before, by curve, then days; item: the vertex */
    MARGIN_UNIT_REFUSED_VERTEX = 7,

    /* the prices are not LP + holding period + warm-up of 4 bytes for each vertex */
    MARGIN_UNIT_REFUSED_PRICES_LENGTH = 8,
    /* a price is outside 1 to 2,000,000; item: the vertex */
    MARGIN_UNIT_REFUSED_PRICE = 9,

    /* the bonds are not 1 to 1,024 records of 16 bytes */
    MARGIN_UNIT_REFUSED_BONDS_LENGTH = 10,
    /* no vertex has its curve, a zero byte is not 0, or its dirty price is outside 1 to 2,000,000; item: the bond */
    MARGIN_UNIT_REFUSED_BOND = 11,
    /* its first flow does not follow those of the bond before (the first bond's: 0), or not 1 to 120 flows; item: the bond */
    MARGIN_UNIT_REFUSED_BOND_FLOWS = 12,

    /* the flows are not a record of 8 bytes for each flow of the bonds */
    MARGIN_UNIT_REFUSED_FLOWS_LENGTH = 13,
    /* days that are 0, do not rise or pass the last vertex of the bond's curve, or a zero byte is not 0; item: the bond */
    MARGIN_UNIT_REFUSED_FLOW_DAYS = 14,
    /* an amount is 0, or the bond's amounts total more than 10,000,000; item: the bond */
    MARGIN_UNIT_REFUSED_FLOW_AMOUNTS = 15,
    /* the bond's flows are worth 0 in all, so that no value can be split over them; item: the bond */
    MARGIN_UNIT_REFUSED_FLOW_WORTHS = 16,

    /* the positions are no whole number of 12-byte records, or more than 4,096 of them (there may be none) */
    MARGIN_UNIT_REFUSED_POSITIONS_LENGTH = 17,
    /* the book has no such bond; item: the position */
    MARGIN_UNIT_REFUSED_POSITION_BOND = 18,
    /* the nominal's size is above 10,000,000,000; item: the position */
    MARGIN_UNIT_REFUSED_POSITION_NOMINAL = 19,
    /* the sizes of the positions' values total more than 100,000,000,000 */
    MARGIN_UNIT_REFUSED_TOTAL_VALUE = 20,

    /* a return, also of the warm-up, or a scenario's scaled return is outside -1,000,000 to 1,000,000; item: the vertex */
    MARGIN_UNIT_REFUSED_RETURN = 21,

    /* room for fewer exposures than vertices */
    MARGIN_UNIT_REFUSED_EXPOSURES_SHORT = 22,
    /* room for fewer returns than 2 x vertices x LP */
    MARGIN_UNIT_REFUSED_RETURNS_SHORT = 23,
    /* room for fewer list entries than 2 x k */
    MARGIN_UNIT_REFUSED_LIST_SHORT = 24,

    /* Of terms, not of a book: */

    /* evaluation, maturity or an inflation bond's issue is no date of the calendar, 1 January 2000 to 31 December 2099 */
    MARGIN_UNIT_REFUSED_TERMS_DATE = 25,
    /* maturity does not lie after evaluation, or not after an inflation bond's issue */
    MARGIN_UNIT_REFUSED_TERMS_MATURITY = 26,
    /* frequency is not 1 or 2, rate is above 1,000,000, more than 120 flows, or room for fewer bytes than 8 a flow; an
     * inflation bond's flows are counted before its coupons are indexed */
    MARGIN_UNIT_REFUSED_TERMS_RANGE = 27,

    /* Of an inflation bond alone: */

    /* a lent index price is 0 or above 10,000,000, whether it is needed or not */
    MARGIN_UNIT_REFUSED_LINKER_PRICE = 28,
    /* a month that issue or a coupon date after it needs, paid or not, has no price: it is before January 2000, or past those
     * that are lent */
    MARGIN_UNIT_REFUSED_LINKER_MONTH = 29,
    /* an indexed coupon after evaluation and issue is above 10,000,000, the principal not counted */
    MARGIN_UNIT_REFUSED_LINKER_COUPON = 30
};

/* A code taken apart: the refusal's number and its item, each a uint32_t. */
#define MARGIN_UNIT_NUMBER(code) ((uint32_t)((uint32_t)(code) / 65536u))
#define MARGIN_UNIT_ITEM(code) ((uint32_t)((uint32_t)(code) % 65536u))

/* Runs the book, of book_len bytes, to its margin.
 *
 * It gives 0, MARGIN_UNIT_ACCEPTED, where the book is accepted. Then figures holds the ten figures, and the lent buffers hold
 *     exposures   for each vertex its exposure, in euros; negative for short
 *     returns     2 x vertices x LP, in millionths: all unscaled ones, LP for the first vertex, LP for the second, and so on,
 *                 each in the scenarios' order; and then all scaled ones likewise
 *     list        2 x k scenario numbers, 0 to LP - 1: the k of the unscaled T by falling loss, of equal losses the smaller
 *                 number first; and then the k of the scaled T
 * and later entries of the buffers keep their contents. A book without positions has k and returns like any other; its
 * exposures and all its other figures are 0, and its list is 0 to k - 1, twice.
 *
 * Otherwise it gives number x 65,536 + item of the book's one refusal. Then no entry of a buffer and no figure is changed.
 *
 * Any bytes may be handed over as a book, of any length. Lengths of buffers are in entries, and may be any too: a buffer that
 * is too short for the book is refused. What the host has to see to:
 *     Every pointer is valid for its length and aligned for its type (8 bytes for exposures and figures, 4 for returns, 2 for
 *     list). None is null, also where its length is 0.
 *     No two of the book, the three buffers and the figures overlap.
 *     Nobody else writes to any of them, or reads the buffers and the figures, until the call is over.
 *
 * It keeps nothing from one call to the next, allocates nothing, touches no memory but what it is lent and its stack, of which
 * it takes at most 40 KiB, and always comes to an end. So several threads may call it at once, each with buffers and figures of
 * its own; they may share the book. */
uint32_t margin_unit_run(const uint8_t *book, size_t book_len,
                         int64_t *exposures, size_t exposures_len,
                         int32_t *returns, size_t returns_len,
                         uint16_t *list, size_t list_len,
                         uint64_t figures[MARGIN_UNIT_FIGURES]);

/* Writes the flows of a bond, given by its terms, as records of a book's flows section. Given are
 *     evaluation_year, _month, _day   the day from which flows count: the date of the book that they are for
 *     maturity_year, _month, _day     the day of the last flow
 *     rate                            the yearly coupon, in millionths of nominal: 40,000 is 4 %, 0 a zero-coupon bond
 *     frequency                       coupons a year, 1 or 2
 * Dates run from 1 January 2000 to 31 December 2099; months and days count from 1.
 *
 * Coupons are due every 12 / frequency months, counted back from maturity: on its own day of the month, or on the month's last
 * where that has no such day. Those at or before evaluation are left out. A coupon is rate / frequency, to the nearest
 * millionth, halves up; the flow at maturity has the principal, 1,000,000, in it too. Flows of 0 are left out.
 *
 * It gives how many flows there are, 1 to 120. Then flows holds 8 bytes for each, by rising days: the days from evaluation to
 * the flow, 2 bytes; 0, 2 bytes; the amount in millionths of nominal, 4 bytes; little-endian. Later bytes keep their contents.
 *
 * Otherwise it gives number x 65,536 of the terms' one refusal, 25 to 27, and no byte is changed. So MARGIN_UNIT_NUMBER of
 * what it gives is 0 exactly where the flows are written.
 *
 * A bond made of these flows can still be refused by margin_unit_run: with 14 where its curve ends before the last flow, with
 * 15 where the amounts total more than 10,000,000.
 *
 * Any numbers may be handed over, and a buffer of any length, in bytes: one that is too short is refused. The host sees to it
 * that the pointer is valid for the length, and not null, also where that is 0, and that nobody else reads or writes the bytes
 * until the call is over. They may stand at any address, also within a book that is being put together.
 *
 * It keeps nothing from one call to the next, allocates nothing, writes to no memory but the buffer and its stack, of which
 * it takes at most 4 KiB, and always comes to an end. So several threads may call it at once, each with a buffer of its
 * own. */
uint32_t margin_unit_flows(uint32_t evaluation_year, uint32_t evaluation_month, uint32_t evaluation_day,
                           uint32_t maturity_year, uint32_t maturity_month, uint32_t maturity_day,
                           uint32_t rate, uint32_t frequency,
                           uint8_t *flows, size_t flows_len);

/* Writes the flows of an inflation bond, as margin_unit_flows those of other bonds. What that is given means here what it does
 * there, and rate is the yearly coupon before it is indexed. Given too are
 *     issue_year, _month, _day   the day of issue: coupon dates after it bear coupons, and no others
 *     btp_italia                 0 where the bond is no BTP Italia; any other number where it is one
 *     prices                     the bond's consumer price index, in ten-thousandths, 1 to 10,000,000, one price a month: the
 *                                first is January 2000's, the next February's, and so on; 100.1867 is 1,001,867
 *
 * Coupon dates and coupons are those of margin_unit_flows; each coupon is then multiplied by the coefficient of its date. What
 * is rounded goes to the nearest, halves up:
 *     Index number    of issue or of a coupon date, on day d of a month of n days, in hundred-thousandths:
 *                     10 x (P3 + (d - 1) / n x (P2 - P3)), rounded as a whole. P3 is the price of the third month before its
 *                     own, P2 that of the second. From P3 1,001,867 and P2 1,000,934, 23 April has 10,011,828.
 *     Coefficient     in hundred-thousandths: for a BTP Italia the date's index number divided by the largest of issue's and
 *                     those of all coupon dates after issue and before this one, also where these were paid before evaluation;
 *                     for another bond divided by issue's. It may be below 1. 10,031,927 over 10,011,828 is 100,201.
 *     Indexed coupon  coupon x coefficient / 100,000, in millionths of nominal
 * Flows are the indexed coupons of the dates after both evaluation and issue; the flow at maturity has the principal,
 * 1,000,000, in it too, which is not indexed. Flows of 0 are left out. Days run from evaluation, which may lie before issue.
 *
 * Issue and every coupon date after it, paid or not, need both their prices, on a first of the month (when P2 has no weight)
 * and at rate 0 too. So issue is in April 2000 at the earliest, and the list goes up to the second month before maturity's,
 * with prices that the host expects for months to come. It may be longer; prices that nobody needs are looked at too.
 *
 * It gives how many flows there are, 1 to 120. Then flows holds 8 bytes for each, as margin_unit_flows writes them. Later
 * bytes keep their contents. Otherwise it gives number x 65,536 of the one refusal, 25 to 30, and no byte is changed. The
 * buffer has to have room for all flows that there are before coupons are indexed, also where some then become 0 and are left
 * out; MARGIN_UNIT_FLOWS_BYTES are always enough. A bond made of these flows can still be refused by margin_unit_run, as
 * there.
 *
 * Any numbers and prices may be handed over, and a list and a buffer of any length, prices_len in prices, flows_len in bytes.
 * The host sees to it that each pointer is valid for its length, and not null, also where that is 0; that prices is aligned
 * for its type (4 bytes), while flows may stand at any address; that the two do not overlap; and that nobody else writes to
 * the prices, or reads or writes the bytes of flows, until the call is over.
 *
 * It keeps nothing from one call to the next, allocates nothing, writes to no memory but the buffer and its stack, of which it
 * takes at most 6 KiB, and always comes to an end. So several threads may call it at once, each with a buffer of its
 * own; they may share the prices. */
uint32_t margin_unit_linker_flows(uint32_t evaluation_year, uint32_t evaluation_month, uint32_t evaluation_day,
                                  uint32_t issue_year, uint32_t issue_month, uint32_t issue_day,
                                  uint32_t maturity_year, uint32_t maturity_month, uint32_t maturity_day,
                                  uint32_t rate, uint32_t frequency, uint32_t btp_italia,
                                  const uint32_t *prices, size_t prices_len,
                                  uint8_t *flows, size_t flows_len);

#ifdef __cplusplus
}
#endif

#endif
