/* What removal goes into: `removing WHAT TIMES` makes a table of eight nodes with 32 records each and removes its scheduled records, TIMES times, each on a copy of it.
 * WHAT is `nothing`, where no record is scheduled, or `half`, where every second one is a tombstone whose grace is over. Its instructions are counted by
 * valgrind --tool=callgrind (docs/SPEED.md, "Who has seen what"). */
#include <stdio.h>
#include <stdlib.h>
#include <string.h>
#include "kevdarosh.h"

enum { NODES = 8, RECORDS = 32, NOW = 1000, GRACE = 50 };

static uint8_t full[KEV_TABLE], table[KEV_TABLE];

static void ok(uint64_t number) {
    if (number) { fprintf(stderr, "removing: refused %d\n", (int)number); exit(1); }
}

static int key_of(char *key, size_t room, int node, int record) {
    return snprintf(key, room, "key-%02d-%02d-%06d", node, record, record * 7919 % 1000000);
}

static void make(int half) {
    char key[40];
    uint8_t value[KEV_VALUE];
    memset(value, '7', sizeof value);
    ok(kev_new_table(full, KEV_TABLE, KEV_PLAIN, KEV_PROFILE_FREE));
    for (int node = 0; node < NODES; node++) {
        ok(kev_add_node(full, KEV_TABLE, (uint64_t)node));
        for (int record = 0; record < RECORDS; record++) {
            int length = key_of(key, sizeof key, node, record);
            ok(kev_write(full, KEV_TABLE, KEV_NOBODY, (uint64_t)node, (const uint8_t *)key, (kev_size)length, value, (kev_size)(16 + (32 * node + record) * 37 % 49), KEV_SET, 0));
        }
        for (int record = 0; half && record < RECORDS; record += 2) {
            int length = key_of(key, sizeof key, node, record);
            ok(kev_delete(full, KEV_TABLE, KEV_NOBODY, (uint64_t)node, (const uint8_t *)key, (kev_size)length, NOW - GRACE));
        }
    }
}

int main(int argc, char **argv) {
    if (argc != 3 || (strcmp(argv[1], "nothing") && strcmp(argv[1], "half"))) { fprintf(stderr, "usage: removing nothing|half TIMES\n"); return 2; }
    make(!strcmp(argv[1], "half"));
    for (int i = 0; i < atoi(argv[2]); i++) {
        memcpy(table, full, KEV_TABLE);
        ok(kev_good_remove_scheduled(table, KEV_TABLE, NOW, GRACE));
    }
    printf("%s: %d records of a node are left\n", argv[1], (int)kev_record_count(table, KEV_TABLE, KEV_NOBODY, 0).count);
    return 0;
}
