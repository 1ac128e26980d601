/* Splits a filing of 3 trading units of 1,000 shares for 100,010.00 yuan, and one that cannot be split. */
#include <inttypes.h>
#include <stdio.h>

#include "grapewinch.h"

static void print_run(const char *name, uint64_t quantity, uint64_t price)
{
    printf("  %s run: %" PRIu64 " at %" PRIu64 ".%02" PRIu64 "\n", name, quantity, price / 100, price % 100);
}

static void print_split(uint64_t quantity, uint64_t shares, uint64_t amount)
{
    struct grapewinch_runs runs = grapewinch_split(quantity, shares, amount);

    printf("%" PRIu64 " units of %" PRIu64 " shares for %" PRIu64 ".%02" PRIu64 " yuan:\n",
           quantity, shares, amount / 100, amount % 100);
    print_run("first", runs.first_quantity, runs.first_price);
    print_run("second", runs.second_quantity, runs.second_price);
}

int main(void)
{
    print_split(3, 1000, 10001000);
    /* 100,005.00 yuan is not a multiple of 1,000 cents: both runs are empty. */
    print_split(3, 1000, 10000500);
    return 0;
}
