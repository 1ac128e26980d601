/*
 * Grapewinch for C hosts.
 *
 * For the split link liblots.a (`examples/static-library lots liblots.a` writes it), and for the inspection
 * libinspection.a (`examples/static-library inspection libinspection.a`). A program may link both, in
 * either order: they have no name in common, and neither needs a further library.
 *
 * Every function here takes numbers of any value, always returns, keeps no state, allocates nothing, and writes
 * nothing but its result. What it asks of a pointer is told with the function.
 */
#ifndef GRAPEWINCH_H
#define GRAPEWINCH_H

#include <stddef.h>
#include <stdint.h>

#ifdef __cplusplus
extern "C" {
#endif

/*
 * The two runs that a filing comes back as.
 *
 * Quantities count what the filing counts: trading units for board lots, shares for odd lots.
 * Prices are in cents (hundredths of a yuan) for one share.
 * An empty run is 0 at 0.
 */
struct grapewinch_runs {
    uint64_t first_quantity;
    uint64_t first_price;
    uint64_t second_quantity;
    uint64_t second_price;
};

/*
 * Splits a filing into two runs, each of one price.
 *
 *   quantity  what was filed, in trading units (board lots) or shares (odd lots)
 *   shares    shares in one of these: the size of the trading unit (1, 10, 100 or 1,000) for board lots, 1 for odd lots
 *   amount    the filed amount in cents
 *
 * The first run is at the price rounded down to the cent, the second one cent above it. Their quantities add up to
 * `quantity`, and shares times price, over both, is `amount` exactly. A filing at an even price is the first run
 * alone, and the second is empty.
 *
 * Both runs are empty when `quantity` or `shares` is 0, or when `shares` does not divide `amount`.
 */
struct grapewinch_runs grapewinch_split(uint64_t quantity, uint64_t shares, uint64_t amount);

/*
 * The inspection of saved blocks, which may be damaged or foreign.
 *
 * A block is 512 bytes; numbers have their low byte first. Bytes 0 and 1 are the count of its entries, bytes 2 and 3
 * its number, bytes 4 to 507 seven places of 72 bytes for entries, and bytes 508 to 511 its checksum: the sum over
 * bytes 0 to 507 of byte times (place + 1). The fillers of an entry are its byte 1 and its bytes 53 to 71.
 * docs/FORMATS.md has the other bytes of an entry.
 *
 * A block is sound when
 *   - its count is 0 to 7,
 *   - its number is its place, from 0,
 *   - its checksum holds,
 *   - the places past its entries are zero,
 *   - the fillers of its entries are zero,
 *   - all blocks before it are sound, and full if it has entries itself.
 * What an entry tells is not judged: its numbers may have any values that fit their bytes.
 *
 * Both functions take
 *
 *   bytes   the first of the bytes; it may not be null, even for length 0, and need not be aligned
 *   length  how many bytes there are, all of them readable
 *
 * The bytes are only read, and nobody may write them during the call. The whole blocks at their front are looked at, at
 * most 1,142 of them; bytes past the last of these do not matter.
 */

/* How many leading blocks are sound, and how many entries these hold. */
struct grapewinch_found {
    uint64_t blocks;
    uint64_t entries;
};

/*
 * An entry, in plain numbers.
 *
 * Prices are in cents for one share, and amounts in cents. Quantities count trading units for board lots, shares for
 * odd lots. Where there is no such entry, all numbers are 0.
 */
struct grapewinch_entry {
    uint64_t found;            /* 1, or 0 where there is no such entry */
    uint64_t group;            /* number of the group */
    uint64_t kind;             /* 0 for board lots, 2 for odd lots */
    uint64_t order_type;       /* 0 to 6; 0 in a plan */
    uint64_t order_first;      /* the order number's first character */
    uint64_t order_rest;       /* its other four characters, the first of them in the low byte */
    uint64_t new_broker;       /* four characters, the first in the low byte; blanks in an omnibus account */
    uint64_t new_account;      /* the number that its seven digits write */
    uint64_t quantity;
    uint64_t price;
    uint64_t trade_number;
    uint64_t running_quantity; /* over group and kind */
    uint64_t running_amount;   /* over group and kind */
    uint64_t type_quantity;    /* over group, kind and order type; 0 in a plan */
    uint64_t type_amount;      /* over group, kind and order type; 0 in a plan */
};

/* Counts the leading sound blocks, and the entries that they hold. */
struct grapewinch_found grapewinch_inspect(const uint8_t *bytes, size_t length);

/*
 * Reads entry `index`, from 0, of those that the leading sound blocks hold.
 *
 * Past the last of them there is no entry: `found` is 0, and so are all other numbers. Each call inspects the blocks
 * anew.
 */
struct grapewinch_entry grapewinch_read_entry(const uint8_t *bytes, size_t length, uint64_t index);

#ifdef __cplusplus
}
#endif

#endif
