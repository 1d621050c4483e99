/* What applying goes into: `applying ORDER TIMES` applies a delta of eight nodes with 32 records each, 13,512 bytes, to a table of eight fresh nodes, TIMES times.
 * ORDER is how the keys stand in the delta, which is the order of their versions: `rising`, `falling`, `scattered`, or `held`: scattered, to a table that has
 * every key already under an older version. Its instructions are counted by valgrind --tool=callgrind (docs/SPEED.md, "Where applying goes"). */
#include <stdio.h>
#include <stdlib.h>
#include <string.h>
#include "kevdarosh.h"

enum { NODES = 8, RECORDS = 32 };

static uint8_t giver[KEV_TABLE], fresh[KEV_TABLE], taker[KEV_TABLE], digest[258], delta[16384], answers[NODES];

static void ok(uint64_t number) {
    if (number) { fprintf(stderr, "applying: refused %d\n", (int)number); exit(1); }
}

/* The record of a turn: the keys rise with its number. */
static int record_of(const char *order, int turn) {
    if (!strcmp(order, "rising")) return turn;
    if (!strcmp(order, "falling")) return RECORDS - 1 - turn;
    return (turn * 13 + 5) % RECORDS;
}

static void write_all(uint8_t *table, const char *order, char first) {
    for (int node = 1; node <= NODES; node++)
        for (int turn = 0; turn < RECORDS; turn++) {
            char key[40], value[40];
            int record = record_of(order, turn);
            int keylen = snprintf(key, sizeof key, "key-%02d-%02d-%06d", node, record, record * 7919);
            int valuelen = snprintf(value, sizeof value, "%c123456789012345678901", first);
            ok(kev_write(table, KEV_TABLE, KEV_NOBODY, (uint64_t)node, (uint8_t *)key, (kev_size)keylen, (uint8_t *)value, (kev_size)valuelen, KEV_SET, 0));
        }
}

int main(int argc, char **argv) {
    if (argc != 3) { fprintf(stderr, "usage: applying ORDER TIMES\n"); return 2; }
    int held = !strcmp(argv[1], "held");
    ok(kev_new_table(giver, KEV_TABLE, KEV_PLAIN, KEV_PROFILE_FREE));
    ok(kev_new_table(fresh, KEV_TABLE, KEV_PLAIN, KEV_PROFILE_FREE));
    for (uint64_t node = 1; node <= NODES; node++) {
        ok(kev_add_node(giver, KEV_TABLE, node));
        ok(kev_add_node(fresh, KEV_TABLE, node));
    }
    if (held) {
        write_all(giver, "scattered", '0');
        memcpy(fresh, giver, KEV_TABLE);
    }
    write_all(giver, argv[1], '1');
    struct kev_count told = kev_write_digest(fresh, KEV_TABLE, 0, NULL, 0, digest, sizeof digest, 0);
    ok(told.number);
    uint64_t ties[NODES] = {0};
    struct kev_computed sent = kev_compute(giver, KEV_TABLE, 0, digest, sizeof digest, sizeof delta, NULL, 0, ties, NODES, delta, sizeof delta, 0);
    ok(sent.number);
    for (int times = atoi(argv[2]); times > 0; times--) {
        memcpy(taker, fresh, KEV_TABLE);
        struct kev_applied applied = kev_good_apply(taker, KEV_TABLE, delta, sent.bytes, 1000, answers, NODES);
        ok(applied.number);
    }
    for (uint64_t node = 1; node <= NODES; node++)
        if (kev_node_header(taker, KEV_TABLE, node).max != (held ? 2 * RECORDS : RECORDS)) { fprintf(stderr, "applying: not all taken\n"); return 1; }
    printf("%s: %d records, %d bytes\n", argv[1], NODES * RECORDS, (int)sent.bytes);
    return 0;
}
