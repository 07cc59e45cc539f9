/* cc -Wall -Wextra -Werror -Iinclude demo/example.c target/libwoddirme.a -o target/example
   (include/build writes the library; demo/check does all and compares what is printed). */
#include <stdio.h>
#include <stdlib.h>
#include <string.h>
#include "woddirme.h"

static void must(const char *what, uint64_t refusal) {
    if (refusal != 0) {
        fprintf(stderr, "%s: refused by %llu\n", what, (unsigned long long)refusal);
        exit(1);
    }
}

/* Fits a mixture to the moments of one that is known. An epsilon of 1/8192 gives 8191 rows. */
enum { ROWS = 8191 };

static void fit_moments(void) {
    double moments[5], none[1], weights[ROWS], fit[12] = {0}, row[6];
    size_t rows = 0;
    must("moments", woddirme_get_moments(-1.0, 2.0, 1.0, 0.5, 0.75, moments, 5));
    printf("moments %g %g %g %g %g\n", moments[0], moments[1], moments[2], moments[3], moments[4]);
    for (size_t i = 0; i < ROWS; i++) weights[i] = (double)(i * 619 % ROWS) / ROWS;
    fit[6] = 1.0 / (ROWS + 1); /* epsilon */
    must("fit", woddirme_single_fit_loop(moments, 5, 2, 5.0, 1000, none, 0, weights, ROWS,
                                         fit, 12, row, 6, &rows));
    if (rows == 0) puts("fit none");
    else printf("fit mu %.4f %.4f sigma %.4f %.4f p_1 %.4f error %.3g\n",
                row[0], row[1], row[2], row[3], row[4], row[5]);
}

/* Sizes three orders by how many are live when each starts. */
static void size_budget(void) {
    const int64_t starts[3] = {0, 5, 10}, ends[3] = {10, 15, 20};
    const double sides[3] = {1.0, -1.0, 1.0};
    double size[3];
    must("budget", woddirme_bet_size_budget(starts, 3, ends, 3, sides, 3, size, 3));
    printf("budget %g %g %g\n", size[0], size[1], size[2]);
}

/* Prices the lots from 0 to 40 of at most 100, the forecast being 100; then asks for too many. */
static void price_limit_order(void) {
    double w = woddirme_get_w_sigmoid(10.0, 0.95), price = 0.0;
    must("price", woddirme_limit_price_sigmoid(40.0, 0.0, 100.0, w, 100.0, &price));
    printf("width %.6f limit price %.6f\n", w, price);
    uint64_t refusal = woddirme_limit_price_sigmoid(2e6, 0.0, 100.0, w, 4e6, &price);
    printf("refused by %llu, price still %.6f\n", (unsigned long long)refusal, price);
}

/* Counts a sheet of the same three orders. */
static void count_sheet(void) {
    const char *sheet = "(span (from 0) (to 10) (side 3ff0000000000000))\n"
                        "(span (from 5) (to 15) (side bff0000000000000))\n"
                        "(span (from 10) (to 20) (side 3ff0000000000000))\n";
    static uint8_t answer[131072]; /* enough for every sheet */
    size_t length = woddirme_count_sheet((const uint8_t *)sheet, strlen(sheet), answer, sizeof answer);
    fwrite(answer, 1, length, stdout);
}

int main(void) {
    fit_moments();
    size_budget();
    price_limit_order();
    count_sheet();
    return 0;
}
