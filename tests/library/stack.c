/* How deep the stack goes in each large call, on full tables: below the caller's frame the stack is filled with a mark, and what a call changed of it is looked
 * for from the far end. For processors whose stack has no guard page: tools/small-test runs it. What is answered is checked too. */
#include "kevdarosh.h"

#include <stddef.h>
#include <stdio.h>
#include <stdlib.h>
#include <string.h>

#define DEPTH 24576 /* of the stack, looked at below the caller */
#define NEAR 64     /* left alone, for this file's own calls */
#define MARK 0xA5

static uint8_t table[KEV_TABLE], follower[KEV_TABLE], digest[KEV_DIGEST], delta[KEV_DELTA], listing[KEV_LISTING], answers[KEV_NODES], grid[KEV_GRID];
static const uint64_t none[1] = {0}, ties[KEV_NODES] = {0};
static const uint8_t no_nodes[2] = {0, 0};
static uint64_t number;
static kev_size bytes, text;

static void check(void) { number = kev_check(table, KEV_TABLE); }
static void find(void) { number = kev_find(table, KEV_TABLE, KEV_NOBODY, 7, (const uint8_t *)"k", 1).number; }
static void write(void) { number = kev_write(table, KEV_TABLE, KEV_NOBODY, 7, (const uint8_t *)"k", 1, (const uint8_t *)"v", 1, KEV_SET, 0); }
static void removal(void) { number = kev_remove_scheduled(table, KEV_TABLE, 0, 1); }
static void rows(void) { number = kev_prefix_rows(table, KEV_TABLE, KEV_NOBODY, 7, (const uint8_t *)"k", 1).number; }
static void tell(void) { number = kev_write_digest(table, KEV_TABLE, KEV_V0, none, 0, digest, KEV_DIGEST, 0).number; }
static void compute(void) {
    struct kev_computed told = kev_compute(table, KEV_TABLE, KEV_V0, no_nodes, 2, KEV_DELTA, none, 0, ties, KEV_NODES, delta, KEV_DELTA, 0);
    number = told.number;
    bytes = told.bytes;
}
static void apply(void) { number = kev_apply(follower, KEV_TABLE, delta, bytes, 0, answers, KEV_NODES).number; }
static void exchange(void) {
    number = kev_exchange(
        table, KEV_TABLE, follower, KEV_TABLE, KEV_V0, 1400, none, 0, none, 0, ties, KEV_NODES, 0, digest, KEV_DIGEST, delta, KEV_DELTA, answers, KEV_NODES)
                 .number;
}
static void list(void) {
    struct kev_count told = kev_list_delta(delta, bytes, listing, KEV_LISTING);
    number = told.number;
    text = told.count;
}
static void make(void) { number = kev_make_delta(listing, text, delta, KEV_DELTA).number; }
static void new_grid(void) { number = kev_new_grid(grid, KEV_GRID, table, KEV_TABLE); }
static void told(void) { number = kev_tell(grid, KEV_GRID, 7, KEV_V0, digest, KEV_DIGEST).number; }
static void least(void) { number = kev_least_max(grid, KEV_GRID, 7).number; }
static void careful(void) { number = kev_remove_carefully(grid, KEV_GRID, table, KEV_TABLE, 0, 1); }
static void goes(void) { number = kev_grid_remove_node(grid, KEV_GRID, table, KEV_TABLE, 0); }
static void comes(void) { number = kev_grid_add_node(grid, KEV_GRID, table, KEV_TABLE, 0); }
static void taken_out(void) { number = kev_take_out(grid, KEV_GRID, 7); }

static void fresh(uint8_t *at) {
    uint64_t node;
    if (kev_new_table(at, KEV_TABLE, KEV_GUARDED, KEV_PROFILE_FREE)) abort();
    for (node = 0; node < KEV_NODES; node++)
        if (kev_add_node(at, KEV_TABLE, node)) abort();
}

static int failed = 0;
static void __attribute__((noinline)) deepest(const char *what, void (*call)(void), uint64_t wanted) {
    volatile uint8_t *here = __builtin_frame_address(0);
    size_t depth;
    for (depth = NEAR; depth < DEPTH; depth++) here[-(ptrdiff_t)depth] = MARK;
    call();
    for (depth = DEPTH - 1; depth > NEAR && here[-(ptrdiff_t)depth] == MARK; depth--) {}
    printf("  %-34s %5u bytes\n", what, (unsigned)depth);
    if (number != wanted || depth == DEPTH - 1) {
        fprintf(stderr, "stack.c: %s: %u\n", what, (unsigned)number);
        failed = 1;
    }
}

int main(void) {
    char key[KEV_KEY + 1], value[KEV_VALUE + 1];
    uint64_t node;
    unsigned record;
    fresh(table);
    fresh(follower);
    memset(value, 'v', sizeof value);
    for (node = 0; node < KEV_NODES; node++)
        for (record = 0; record < KEV_RECORDS - 1; record++) {
            snprintf(key, sizeof key, "%02u%030u", record * 7 % 31, record);
            if (kev_write(table, KEV_TABLE, KEV_NOBODY, node, (const uint8_t *)key, KEV_KEY, (const uint8_t *)value, KEV_VALUE - record, KEV_SET, 0)) abort();
        }
    printf("stack.c: the deepest stack of each call, on full tables\n");
    deepest("the check", check, 0);
    deepest("a lookup", find, 0);
    deepest("a write of a new key", write, 0);
    deepest("the rows of a prefix", rows, 0);
    deepest("removal", removal, 0);
    deepest("a digest written", tell, 0);
    deepest("a delta of 16,384 bytes computed", compute, 0);
    deepest("the same applied", apply, 0);
    deepest("its listing", list, 0);
    deepest("a delta from that", make, 0);
    fresh(follower);
    deepest("an exchange with an MTU of 1,400", exchange, 0);
    deepest("a grid made", new_grid, 0);
    tell();
    deepest("a digest told to it", told, 0);
    deepest("the least max of a node", least, 0);
    deepest("a careful removal", careful, 0);
    deepest("a node removed with its column", goes, 0);
    deepest("a node added with its column", comes, 0);
    deepest("a peer taken out", taken_out, 0);
    return failed;
}
