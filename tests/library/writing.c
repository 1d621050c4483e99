/* What a write goes into: `writing PROFILE WHAT TIMES` makes a table of eight nodes with 32 readings each and writes to node 4, TIMES times, each time a greater number.
 * PROFILE is `free` or `meter`, WHAT `reading` or `total`. The instructions of kev_good_write are counted by valgrind --tool=callgrind (docs/SPEED.md, "The meter profile"). */
#include <stdio.h>
#include <stdlib.h>
#include <string.h>
#include "kevdarosh.h"

enum { NODES = 8, RECORDS = 32, NODE = 4 };

static uint8_t table[KEV_TABLE];

static void ok(uint64_t number) {
    if (number) { fprintf(stderr, "writing: refused %d\n", (int)number); exit(1); }
}

static int key_of(char *key, size_t room, int node, int record) {
    if (record == 0) return snprintf(key, room, "total");
    return snprintf(key, room, "key.%02d.%02d.%06d", node, record, record * 7919 % 1000000);
}

int main(int argc, char **argv) {
    char key[40], value[16];
    if (argc != 4) { fprintf(stderr, "usage: writing free|meter reading|total TIMES\n"); return 2; }
    const kev_size profile = strcmp(argv[1], "meter") ? KEV_PROFILE_FREE : KEV_PROFILE_METER;
    const int record = strcmp(argv[2], "total") ? 17 : 0;
    ok(kev_new_table(table, KEV_TABLE, KEV_PLAIN, profile));
    for (int node = 0; node < NODES; node++) {
        ok(kev_add_node(table, KEV_TABLE, (uint64_t)node));
        for (int r = 0; r < RECORDS; r++) {
            int length = key_of(key, sizeof key, node, r);
            ok(kev_write(table, KEV_TABLE, KEV_NOBODY, (uint64_t)node, (const uint8_t *)key, (kev_size)length, (const uint8_t *)"0001000", 7, KEV_SET, 0));
        }
    }
    const int length = key_of(key, sizeof key, NODE, record);
    for (int i = 0; i < atoi(argv[3]); i++) {
        snprintf(value, sizeof value, "%07d", 1001 + i);
        ok(kev_good_write(table, KEV_TABLE, KEV_NOBODY, NODE, (const uint8_t *)key, (kev_size)length, (const uint8_t *)value, 7, KEV_SET, 0));
    }
    printf("%s, %s: version %lu\n", argv[1], argv[2], (unsigned long)kev_record_by_key(table, KEV_TABLE, KEV_NOBODY, NODE, (const uint8_t *)key, (kev_size)length).version);
    return 0;
}
