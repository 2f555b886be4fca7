/* The services of settlement, for C. Each takes any input, checks it in the order given, and answers
 *
 *     0                       accepted: every lent output holds its figures
 *     number + 256 x place    refused: the number and the place of 01 ("Refusal numbers"; 19: 02, W6), nothing is written
 *
 * so the number is answer % 256 and the place answer / 256. Places count from 0; where no place is named it is 0.
 *
 * A list is a pointer and a length, the number of its elements, in two arguments that follow each other. A list that is
 * only read is const. No pointer may be null, also not of an empty list; each must be aligned for its element, and a
 * lent output may not overlap another argument. Every other value of every argument has its answer. No call keeps a
 * pointer, allocates, or writes anything but its lent outputs, and calls with other outputs may run at once.
 *
 * Energies are in Wh, load shares in kWh a year, prices in øre per MWh, amounts in millionths of an øre.
 * Link with the static library of the crate settle_c_c, which `rt lib` in crates/settle_c_c writes as out/libsettle_c_c.a.
 */
#ifndef SAYARIMU_H
#define SAYARIMU_H

#include <stddef.h>
#include <stdint.h>

/* Which functions there are, and what they mean; a caller can ask for it by #if. 1 was the header without a number. 2 has
 * `settle_invoice` in place of `settle_invoice_ore`, which rounded one amount by itself (02, W2). 3 adds `settle_plan`, the
 * planner of readings over several months, and leaves the rest as it was (02, W3). 4 adds `settle_amounts`, which prices the
 * differences of hours, and the refusal 19, and leaves the rest as it was (02, W6). */
#define SAYARIMU_VERSION 4

#ifdef __cplusplus
extern "C" {
#endif

/* RESIDUAL. The residual of each hour, net supply + production - hourly settled - flex settled, into `out`. A status is 0
 * missing, 1 measured or 2 estimated. Refuses, in order: 16, `out` not as long as the statuses; 4, lists of unequal length,
 * then hours outside 1..745, then the first value outside its range at its hour, list by list (statuses, nets, productions,
 * hourlies, flexes), then the first hour with status 0 and a figure other than 0, at that hour; then, hour by hour, 7
 * missing, 8 negative, 9 above 2,000,000,000. Lent: `out`. */
uint64_t settle_residual(const uint8_t *statuses, size_t statuses_len,
                         const int64_t *nets_wh, size_t nets_len,
                         const uint64_t *productions_wh, size_t productions_len,
                         const uint64_t *hourlies_wh, size_t hourlies_len,
                         const uint64_t *flexes_wh, size_t flexes_len,
                         uint32_t *out_wh, size_t out_len);

/* CURVE. The curve number of each hour, residual x 1,000,000 / W rounded down, into `out`. Refuses, in order: 16, `out` not
 * as long as the residuals; 4, hours outside 1..745; 6, W outside 1..4,000,000,000; 9, the first residual above
 * 2,000,000,000 at its hour; 10, the first curve number above 1,000,000,000 at its hour. Lent: `out`. */
uint64_t settle_curve(const uint32_t *residuals_wh, size_t residuals_len, uint64_t w_kwh,
                      uint32_t *out, size_t out_len);

/* DISTRIBUTION. The distributed consumption of every party in every hour into `out`, hour by hour and within an hour party
 * by party; a figure can be -1. Refuses, in order: 16, `out` not as long as parties x hours; 4, hours outside 1..745 or
 * parties outside 1..64, then the first share above 4,000,000,000 at its party; 6, the sum of the shares outside
 * 1..4,000,000,000; 9, the first residual above 2,000,000,000 at its hour. Lent: `out`. */
uint64_t settle_distribution(const uint64_t *shares_kwh, size_t shares_len,
                             const uint32_t *residuals_wh, size_t residuals_len,
                             int64_t *out_wh, size_t out_len);

/* PERIODISATION. A reading's energy E over the weights of its hours into `out`: the growth of E x weights so far / their sum,
 * rounded down. Refuses, in order: 16, `out` not as long as the weights; 11, weights of 0 or of more than 8,784 hours; 12, E
 * above 1,000,000,000; 10, the first weight above 1,000,000,000 at its hour; 13, E positive and every weight 0.
 * Lent: `out`. */
uint64_t settle_periodisation(uint64_t e_wh, const uint32_t *weights, size_t weights_len,
                              uint32_t *out_wh, size_t out_len);

/* PLANNER. The records 08 of a reading that crosses several months, one for each month, of E Wh from hour `a` of the first
 * month to before hour `b` of the last. `parties` has the number of the reading's party in each month, `hours` the hours of
 * each month, and `curves` the months' curve numbers one month after the other. Of the record of month k the party is
 * parties[k] and E the one handed in; its a goes to `out_a`, its b to `out_b`, the weight of the reading in the months before
 * to `out_before` and the weight of the whole reading to `out_whole`, each at k. A weight is a sum of curve numbers over the
 * reading's hours. Refuses, in order: 16, a lent list not as long as `hours`; 4, parties not as many as months, months outside
 * 1..13, hours of a month outside 1..745, hours that do not add up to the number of curve numbers, or a party above 63; 11, a
 * reading of more than 8,784 hours, or without an hour in one of its months (a not below the first month's hours, b 0 or above
 * the last month's hours, in one month a not below b); 12, E above 1,000,000,000; 10, a curve number above 1,000,000,000, also
 * outside the reading's hours; 13, E positive and the weight of the whole reading 0. Lent: `out_a`, `out_b`, `out_before` and
 * `out_whole`. */
uint64_t settle_plan(uint64_t e_wh, uint16_t a, uint16_t b,
                     const uint8_t *parties, size_t parties_len,
                     const uint16_t *hours, size_t hours_len,
                     const uint32_t *curves, size_t curves_len,
                     uint16_t *out_a, size_t out_a_len,
                     uint16_t *out_b, size_t out_b_len,
                     uint64_t *out_before, size_t out_before_len,
                     uint64_t *out_whole, size_t out_whole_len);

/* RECONCILIATION OF ONE HOUR. The grid loss, residual - all periodised, into `loss`; each party's difference, periodised +
 * (loss, if it carries the loss) - distributed, into `differences`; difference x price into `amounts`. Refuses, in order: 16,
 * a lent list not as long as the distributed figures; 4, lists of unequal length, parties outside 1..64, carrier not below
 * the parties or price outside -5,000,000..5,000,000, the first distributed figure outside -1..2,000,000,001 at its party,
 * the first periodised above 2,000,000,000 at its party, distributed figures that do not add up to the residual; 9, a
 * residual above 2,000,000,000; 14, more than 2,000,000,000 periodised over all parties. Lent: `differences`, `amounts` and
 * `loss`. */
uint64_t settle_reconciliation(uint32_t residual_wh,
                               const int64_t *distributed_wh, size_t distributed_len,
                               const uint32_t *periodised_wh, size_t periodised_len,
                               size_t carrier, int64_t price_ore,
                               int64_t *differences_wh, size_t differences_len,
                               int64_t *amounts_millionths, size_t amounts_len,
                               int64_t *loss_wh);

/* AMOUNTS. Each difference times the price of its hour into `amounts`. Differences and amounts stand hour by hour and within an
 * hour party by party, and `prices` has one price for each hour. Refuses, in order: 16, `amounts` not as long as the
 * differences; 4, differences not as many as parties x prices, then hours (the number of prices) outside 1..745 or parties
 * outside 1..64, the first price outside -5,000,000..5,000,000 at its hour, the first hour whose differences have a sum, which
 * does not wrap, other than 0, at that hour; 19, the first hour with a difference below -2,000,000,001 or above 2,000,000,001,
 * at that hour. Lent: `amounts`. */
uint64_t settle_amounts(const int64_t *differences_wh, size_t differences_len, size_t parties,
                        const int64_t *prices_ore, size_t prices_len,
                        int64_t *amounts_millionths, size_t amounts_len);

/* INVOICE. The parties' exact amounts of a month in whole øre, which add up to 0, into `out`: each is rounded down, also
 * below zero, and the øre then missing from zero go one each to the largest remainders, lower party number first. An amount
 * may be any number. Refuses, in order: 16, `out` not as long as the amounts; 4, parties (the number of amounts) outside
 * 1..64, then amounts whose sum, which does not wrap, is not 0. Lent: `out`. */
uint64_t settle_invoice(const int64_t *amounts_millionths, size_t amounts_len,
                        int64_t *out_ore, size_t out_len);

#ifdef __cplusplus
}
#endif

#endif
