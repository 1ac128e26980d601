/* Inspects two blocks that hold one entry, reads the entry, and inspects them again with one bit of it flipped. */
#include <inttypes.h>
#include <stdio.h>
#include <stdlib.h>

#include "grapewinch.h"

/* The image of one entry in two blocks; what is not written here is zero. */
static uint8_t image[1024] = {
    /* Block 0: one entry, number 0, then the entry. */
    0x01, 0x00, 0x00, 0x00, 0x00, 0x00, 0x00, 0x00, 0x41, 0x30, 0x30, 0x30, 0x31, 0x39, 0x38, 0x30,
    0x31, 0x40, 0xe2, 0x01, 0x00, 0x02, 0x00, 0x00, 0x00, 0x88, 0x13, 0x00, 0x00, 0x80, 0x4a, 0x5d,
    0x05, 0x02, 0x00, 0x00, 0x00, 0x80, 0x96, 0x98, 0x00, 0x00, 0x00, 0x00, 0x00, 0x00, 0x00, 0x00,
    /* Its checksum, 41,742. */
    [508] = 0x0e, 0xa3, 0x00, 0x00,
    /* Block 1: no entries, number 1, and its checksum, 1 * (2 + 1). */
    [512] = 0x00, 0x00, 0x01, 0x00,
    [1020] = 0x03, 0x00, 0x00, 0x00,
};

/* Ends the program where a number is not the one worked out by hand. */
static void expect(const char *what, uint64_t is, uint64_t should_be)
{
    if (is != should_be) {
        fprintf(stderr, "%s is %" PRIu64 " and should be %" PRIu64 "\n", what, is, should_be);
        exit(1);
    }
}

/* Prints the low `count` bytes of a number as characters, the low byte first. */
static void print_text(uint64_t text, int count)
{
    for (int i = 0; i < count; i++)
        putchar((int)(text >> (8 * i) & 0xff));
}

static void print_yuan(const char *name, uint64_t cents)
{
    printf("  %s: %" PRIu64 ".%02" PRIu64 "\n", name, cents / 100, cents % 100);
}

static void print_entry(const struct grapewinch_entry *entry)
{
    printf("  order number: ");
    print_text(entry->order_first, 1);
    print_text(entry->order_rest, 4);
    printf("\n  new broker: ");
    print_text(entry->new_broker, 4);
    printf("\n  new account: %07" PRIu64 "\n", entry->new_account);
    printf("  quantity: %" PRIu64 "\n", entry->quantity);
    print_yuan("price", entry->price);
    printf("  trade number: %" PRIu64 "\n", entry->trade_number);
    printf("  running quantity: %" PRIu64 "\n", entry->running_quantity);
    print_yuan("running amount", entry->running_amount);
}

/* Prints what the inspection finds, and every entry. */
static struct grapewinch_found print_found(void)
{
    struct grapewinch_found found = grapewinch_inspect(image, sizeof image);

    printf("sound blocks %" PRIu64 ", entries %" PRIu64 "\n", found.blocks, found.entries);
    for (uint64_t i = 0; i < found.entries; i++) {
        struct grapewinch_entry entry = grapewinch_read_entry(image, sizeof image, i);

        printf("entry %" PRIu64 ":\n", i);
        print_entry(&entry);
    }
    return found;
}

static void expect_no_entry(uint64_t index)
{
    struct grapewinch_entry entry = grapewinch_read_entry(image, sizeof image, index);

    expect("found", entry.found, 0);
    expect("group", entry.group, 0);
    expect("kind", entry.kind, 0);
    expect("order type", entry.order_type, 0);
    expect("first of the order number", entry.order_first, 0);
    expect("rest of the order number", entry.order_rest, 0);
    expect("new broker", entry.new_broker, 0);
    expect("new account", entry.new_account, 0);
    expect("quantity", entry.quantity, 0);
    expect("price", entry.price, 0);
    expect("trade number", entry.trade_number, 0);
    expect("running quantity", entry.running_quantity, 0);
    expect("running amount", entry.running_amount, 0);
    expect("type quantity", entry.type_quantity, 0);
    expect("type amount", entry.type_amount, 0);
}

int main(void)
{
    struct grapewinch_found found = print_found();
    struct grapewinch_entry entry = grapewinch_read_entry(image, sizeof image, 0);

    expect("sound blocks", found.blocks, 2);
    expect("entries", found.entries, 1);
    expect("found", entry.found, 1);
    expect("group", entry.group, 0);
    expect("kind", entry.kind, 0);
    expect("order type", entry.order_type, 0);
    expect("first of the order number", entry.order_first, 0x41);
    expect("rest of the order number", entry.order_rest, 0x31303030);
    expect("new broker", entry.new_broker, 0x31303839);
    expect("new account", entry.new_account, 123456);
    expect("quantity", entry.quantity, 2);
    expect("price", entry.price, 5000);
    expect("trade number", entry.trade_number, 90000000);
    expect("running quantity", entry.running_quantity, 2);
    expect("running amount", entry.running_amount, 10000000);
    expect("type quantity", entry.type_quantity, 0);
    expect("type amount", entry.type_amount, 0);
    expect_no_entry(1);
    expect_no_entry(UINT64_MAX);

    /* Without its last byte, block 1 is not looked at. */
    found = grapewinch_inspect(image, sizeof image - 1);
    expect("sound blocks", found.blocks, 1);
    expect("entries", found.entries, 1);

    /* No bytes, no blocks. */
    found = grapewinch_inspect(image, 0);
    expect("sound blocks", found.blocks, 0);
    expect("entries", found.entries, 0);

    /* The quantity becomes 3, and the checksum of block 0 no longer holds. */
    image[21] ^= 1;
    printf("with one bit of the entry flipped:\n");
    found = print_found();
    expect("sound blocks", found.blocks, 0);
    expect("entries", found.entries, 0);
    expect_no_entry(0);
    return 0;
}
