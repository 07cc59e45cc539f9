/* woddirme.h: a proved port of part of the Rust library openquant, for C and C++.

   Link target/libwoddirme.a, which include/build writes; it needs memcpy and memset and nothing else of
   the C library. No function keeps a pointer, allocates, prints, blocks or has state, so all may be called
   from any thread. `double` is IEEE 754 binary64 in the default rounding mode. Every answer is that of
   openquant bit for bit, all NaNs counting as one; crates/capi* have the proved contracts.

   LISTS. A pointer with a length beside it is a list of that many numbers. A pointer is never null, not
   even where the length is 0; it is aligned for its type; and what is written overlaps with nothing else
   that is given to the same call. A longer list than is needed is well: places past those that are
   written keep what they held.

   REFUSALS. A function that answers uint64_t answers 0, or the number of why it did nothing; then
   everything that it was lent is as it was, bit for bit. Each function lists the numbers that it can
   answer, in the order of testing.

     1   too few moments
     2   more than 16 moments
     3   the variant is not 1 or 2
     4   the epsilon in force is not finite, or not above 0
     5   more than 131,072 rows of the grid
     6   fewer weights than rows
     7   a weight that would be used is not at least 0 and below 1 (NaN included)
     8   a list that is written, or a fit state, is too short
     9   an order above 16
     10  starts, ends and sides are unequal in number
     11  more than 16,384 spans
     12  more than 1,000,000 lots
     13  more than 64 runs */
#ifndef WODDIRME_H
#define WODDIRME_H

#include <stddef.h>
#include <stdint.h>
#ifndef __cplusplus
#include <stdbool.h>
#endif

#ifdef __cplusplus
extern "C" {
#endif

/* ---- Moments. A mixture of two normals has weight p_1 on the first, with mean mu_1 and standard
   deviation sigma_1, and 1 - p_1 on the second. Lists of moments begin with the moment of order 1. */

/* The first five raw moments of a mixture, into the first five places of `moments`.
   Answers 0, or 8: fewer than five places. Any parameters are taken. */
uint64_t woddirme_get_moments(
    double mu_1, double mu_2, double sigma_1, double sigma_2, double p_1,
    double *moments, size_t moments_len);

/* The centred moment of an order, 0 upward, from raw moments: `*moment` becomes it.
   Answers 0, or 9: order above 16; 1: fewer moments than the larger of order and 1; 2: more than 16. */
uint64_t woddirme_centered_moment(
    const double *moments, size_t moments_len,
    size_t order, double *moment);

/* The raw moments, from centred moments and the mean: as many as there are centred moments, and the mean
   alone where there is none, into the front of `raw`.
   Answers 0, or 2: more than 16 centred moments; 8: `raw` shorter than the larger of their number and 1. */
uint64_t woddirme_raw_moment(
    const double *central, size_t central_len,
    double mean, double *raw, size_t raw_len);

/* ---- One step of the fit, from a mean `mu_2` and a weight `p_1`, on four raw moments or on five.
   Where the step is admissible `*admitted` becomes 1 and the first five places of `numbers` become mu_1,
   mu_2, sigma_1, sigma_2, p_1. Where it is not, `*admitted` becomes 0 and `numbers` stays as it was; that
   is no refusal.
   Answers 0, or 1: fewer than four moments (woddirme_iter_5: five); 2: more than 16; 8: fewer than five
   places in `numbers`. */
uint64_t woddirme_iter_4(
    const double *moments, size_t moments_len,
    double mu_2, double p_1,
    size_t *admitted, double *numbers, size_t numbers_len);
uint64_t woddirme_iter_5(
    const double *moments, size_t moments_len,
    double mu_2, double p_1,
    size_t *admitted, double *numbers, size_t numbers_len);

/* ---- Walks and searches. The state of a fit is
     moments   the raw moments to fit;
     variant   1 for four moments, 2 for five;
     factor    how many standard deviations the grid of a search is wide;
     max_iter  the most steps of one walk;
     fit       12 numbers: the parameters kept, mu_1, mu_2, sigma_1, sigma_2, p_1; their error; epsilon; and
               the five moments of the last step that was admitted. Epsilon must be set. The others may be
               anything before a search, which begins anew; a walk keeps what beats `error`, which openquant
               begins with the sum of the squared moments.
   A row is 6 numbers: mu_1, mu_2, sigma_1, sigma_2, p_1, error. Where openquant draws a weight at random,
   the next one of `weights` is taken; weights past those that are needed are not looked at. */

/* One walk from a mean and a weight. `fit` becomes the state after it, `*count` how many steps were taken
   and `*reason` why it ended: 1, max_iter steps were taken; 2, the weight moved by less than epsilon; 3,
   the last step was inadmissible. `factor` is not looked at.
   Answers 0, or 8: `fit` has fewer than 12 numbers; 3: variant; 1: fewer than four moments (variant 2:
   five); 2: more than 16; 7: p_1 out of range. */
uint64_t woddirme_iterate_from(
    const double *moments, size_t moments_len,
    size_t variant, double factor, size_t max_iter,
    double mu_2, double p_1,
    double *fit, size_t fit_len,
    size_t *count, uint64_t *reason);

/* One search: a walk from each row of a grid of means, of which there is one less than 1/epsilon cut, and
   none where epsilon is 1 or more. `epsilon_override` is empty, or its first number is taken for epsilon
   and stays in `fit`. `fit` becomes the state after the search; `*rows` becomes 1 and the first six places
   of `row` the best fit, or `*rows` 0, where no walk was better than none, and `row` stays as it was.
   Answers 0, or 8: `fit` has fewer than 12 numbers or `row` fewer than 6; 1: fewer than five moments; 2:
   more than 16; 3: variant; 4: epsilon; 5: too many rows; 6: fewer weights than rows; 7: a weight. */
uint64_t woddirme_single_fit_loop(
    const double *moments, size_t moments_len,
    size_t variant, double factor, size_t max_iter,
    const double *epsilon_override, size_t epsilon_override_len,
    const double *weights, size_t weights_len,
    double *fit, size_t fit_len,
    double *row, size_t row_len,
    size_t *rows);

/* Several searches, each from the same state and with the next weights; `fit` is only read. The rows that
   are found go into the front of `rows`, six numbers each, and `*count` becomes how many there are, at most
   `n_runs`. With no runs nothing but the length of `fit` is looked at, and `*count` becomes 0.
   Answers 0, or 8: `fit` has fewer than 12 numbers; 13: more than 64 runs; then, as for one search, 1, 2,
   3, 4, 5, 6 (with n_runs times the rows), 7; 8: `rows` has fewer than 6 * n_runs numbers. */
uint64_t woddirme_mp_fit(
    const double *moments, size_t moments_len,
    size_t variant, double factor, size_t max_iter, size_t n_runs,
    const double *weights, size_t weights_len,
    const double *fit, size_t fit_len,
    double *rows, size_t rows_len,
    size_t *count);

/* ---- Spans and bet sizes. Span i is live from starts[i] until before ends[i]; instants are whole numbers,
   of which only the order matters. It is long where sides[i] is above 0, and short otherwise, NaN
   included.
   Both functions answer 0, or 10: unequal lengths; 11: more than 16,384 spans; 8: a result list shorter
   than the spans. */

/* How many spans of each side are live at each start, into the front of `long_counts` and of
   `short_counts`. */
uint64_t woddirme_get_concurrent_sides(
    const int64_t *starts, size_t starts_len,
    const int64_t *ends, size_t ends_len,
    const double *sides, size_t sides_len,
    double *long_counts, size_t long_counts_len,
    double *short_counts, size_t short_counts_len);

/* The budget size of each span, from -1 to 1, into the front of `size`: its long count over the largest
   less its short count over the largest. */
uint64_t woddirme_bet_size_budget(
    const int64_t *starts, size_t starts_len,
    const int64_t *ends, size_t ends_len,
    const double *sides, size_t sides_len,
    double *size, size_t size_len);

/* ---- Prices on the sigmoid curve. Any numbers are taken. */

/* The width at which a divergence of `price_div` has the size `m_bet_size`. */
double woddirme_get_w_sigmoid(double price_div, double m_bet_size);

/* The market price at which the size is `m_bet_size`. */
double woddirme_inv_price_sigmoid(double forecast_price, double w_param, double m_bet_size);

/* The mean price of the lots from position `pos` to `t_pos`, both cut towards zero, for the forecast `f`,
   the width `w` and the largest position `max_pos`: `*price` becomes it, NaN where no lot lies between.
   Answers 0, or 12: more than 1,000,000 lots. */
uint64_t woddirme_limit_price_sigmoid(
    double t_pos, double pos, double f, double w, double max_pos, double *price);

/* ---- The count sheet. */

/* Reads a sheet, any bytes, and puts its answer at the front of `out`: a row for each span, in order, or
   the one line that refuses the sheet, `(refused 11)` or `(refused 15 LINE)`. README.md shows the forms.
   Answers the length of the answer in bytes; no zero byte closes either text. Where `out` has too little
   room it stays as it was and 0 is answered; 0 is also the length of the answer to no bytes. 131,072
   bytes are always enough. */
size_t woddirme_count_sheet(
    const uint8_t *sheet, size_t sheet_len,
    uint8_t *out, size_t out_len);

/* ---- Numbers. Each rounds once where it rounds. */

/* The square root: NaN at a NaN and below zero; a zero keeps its sign. */
double woddirme_sqrt(double x);
/* The size: the sign is dropped, of -0 too. */
double woddirme_abs(double x);
/* Whether x is neither infinite nor NaN. */
bool woddirme_is_finite(double x);
/* The larger of two; where one is NaN the other; of two equal zeros the first. */
double woddirme_larger(double x, double y);
/* x cut towards zero; beyond the range its nearest end, and 0 at a NaN. */
int64_t woddirme_as_i64(double x);
size_t woddirme_as_usize(double x);
/* The double nearest to n, half to even. */
double woddirme_i64_as_f64(int64_t n);
/* x to the n, by squaring and multiplying from the lowest binary digit of n up; 1 where n is 0. */
double woddirme_powi(double x, size_t n);

#ifdef __cplusplus
}
#endif

#endif
