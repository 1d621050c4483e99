/* Kevdarosh: tables of versioned keys for hubs, and their gossip by digest and delta. For C11 and C++.
 *
 * A table is KEV_TABLE bytes of the caller's; there is no heap, no state and no operating system behind these functions. Every call
 * takes any bytes, ends, and either does what its page says or refuses by a number and changes nothing: docs/RULES.md has the rules,
 * docs/FORMAT.md every byte.
 *
 * Overrides are KEV_OVERRIDES bytes of the caller's: one node in form, for labels of a site that are never gossiped. No call that takes a table takes them: they are shorter.
 *
 * A grid is KEV_GRID bytes of the caller's, beside the table whose nodes are its columns: what each peer's digest told last ("who has seen what", below).
 *
 * What is proved. Every function that is declared here and stands in the archive is proved to meet a contract that says this. The inline
 * functions, kev_text, kev_text_over and kev_row, are C that the hub's compiler takes in, and are tested, not proved.
 *
 * What is answered. The number is 0 where the call was accepted; else it is one of those named at the function, asked in that order.
 * A number is never a count: where a call has more to tell, it returns a struct whose first field is the number. Values come back by
 * value, and a value that an answer has not is 0.
 *
 * What the caller owes. A pointer with its length is that many bytes or numbers which may be read, and written where it is not const;
 * with a length of 0 the pointer may be anything, NULL too. Parts lent to one call do not overlap if one of them is written.
 * Nobody else writes to them while the call runs. Calls on different memory may run at the same time.
 *
 * The functions kev_good_.. stand in a part of their own at the end: the same calls without the check of 14. On bytes that are no good table
 * they may read and write anywhere. Take them only where the check is too slow, and for a table that nobody else can write to.
 *
 * Linking. Each function is in a section of its own: with -Wl,--gc-sections a program has what it calls and no more. kevdarosh.pc is for pkg-config.
 */
#ifndef KEVDAROSH_H
#define KEVDAROSH_H

#include <stdint.h>

#ifdef __cplusplus
extern "C" {
#endif

/* A length, a count or a place. The library counts in 64 bits on every processor, also where size_t has 32. */
typedef uint64_t kev_size;

/* ---- sizes */

#define KEV_TABLE 29964   /* bytes of a table */
#define KEV_NODES 8       /* nodes of a table, at most */
#define KEV_RECORDS 32    /* records of a node, at most, tombstones counted */
#define KEV_KEY 32        /* bytes of a key, at most */
#define KEV_VALUE 64      /* bytes of a value, at most */
#define KEV_DIGEST 258    /* bytes of a digest, at most */
#define KEV_MTU_LEAST 100 /* the smallest MTU */
#define KEV_DELTA 16384   /* the largest MTU, and the longest delta */
#define KEV_LISTING 81979 /* bytes of a listing, at most */
#define KEV_TABLE_LISTING 96648 /* bytes of a table's listing, at most */
#define KEV_MODE_AT 29705 /* the byte of a table that says its mode */
#define KEV_PROFILE_AT 29706 /* the byte behind it, that says its profile */
#define KEV_ROW 115       /* bytes of a record in a table */
#define KEV_OVERRIDES 3713 /* bytes of overrides */
#define KEV_OVER 128      /* what a hit in the overrides has before its place */
#define KEV_PLACES 64     /* hits of a merged listing, at most */
#define KEV_GRID 1097     /* bytes of a grid */
#define KEV_PEERS 8       /* peers of a grid, numbered from 0 */

/* ---- modes of a table */

#define KEV_PLAIN 0   /* for deltas that arrive before the next digest is written */
#define KEV_FENCED 1  /* late deltas cannot bring back what was deleted */
#define KEV_GUARDED 2 /* the same, and in a net no hub is left behind that the fence would leave */

/* ---- profiles of a table */

#define KEV_PROFILE_FREE 0  /* any record */
#define KEV_PROFILE_METER 1 /* readings alone: keys of a to z, 0 to 9 and dots, at least one; values of 1 to 10 digits, or empty where the record is deleted or has a TTL */

#define KEV_PROFILE_SHARED 2 /* two firms: every key begins m/ or b/, at most KEV_EACH records a node of each */

/* ---- parties of a shared table
 *
 * Every call that looks at keys names its party, behind the table. Only a shared table looks at it. A number that is neither of the two is nobody: in a shared table no
 * key is its own, it sees nothing and may write nothing; in every other table it is as good as any. A party is told of its own records alone, and what it is told does
 * not depend on the other's, but for versions, and max and last_gc of kev_node_header. So the places that it is told (start, key_at, value_at, at) are those of a table
 * that has its own records alone: they are counted from kev_party_front, not from the table. Where the table is not shared that is the table itself. */

#define KEV_NOBODY 0
#define KEV_METERING 1 /* the metering firm: its keys begin m/ */
#define KEV_BUILDING 2 /* the building manager: its keys begin b/ */
#define KEV_EACH 16    /* records of a node that a party may have, at most, tombstones counted */

/* ---- editions of a digest */

#define KEV_V0 0 /* a count, then the entries */
#define KEV_V1 1 /* the entries alone */

/* ---- statuses of a record */

#define KEV_SET 0
#define KEV_DELETE 1
#define KEV_TTL 2

/* ---- answers to a node delta, by the names that they have everywhere */

#define KEV_ANSWER_REJECT 0            /* from the future, or nothing new */
#define KEV_ANSWER_APPLY 1             /* taken */
#define KEV_ANSWER_APPLY_AFTER_RESET 2 /* the node began afresh, then taken */
#define KEV_ANSWER_ROOM 3              /* over 32 keys, in a shared table over 16 of a party: the node stays as it is */
#define KEV_ANSWER_UNKNOWN 4           /* the table has no such node */
#define KEV_ANSWER_FENCED 5            /* older than the reset that a fenced or guarded node is in: it stays as it is */

/* ---- what is wrong with a line of a plan */

#define KEV_NOT_HELD 1     /* the table has no such node */
#define KEV_EXCLUDED 2     /* the node is excluded */
#define KEV_NAMED_BEFORE 3 /* a line before it names the same node */
#define KEV_UP_TO_DATE 4   /* the digest is not behind with the node */
#define KEV_COUNT_ABOVE 5  /* the count is above the node's stale records */
#define KEV_COUNT_ZERO 6   /* the count is 0, though the node has stale records */
#define KEV_NO_FIT 7       /* it does not fit into what the lines before it leave of the MTU */
#define KEV_ALONE 8        /* a node without a count, or a count without a node */

/* ---- numbers of refusals */

#define KEV_TOO_LONG 1         /* a key over 32 bytes, a value over 64 */
#define KEV_NO_NODE 2          /* no such node */
#define KEV_NO_KEY 3           /* no such key to delete */
#define KEV_NINTH_NODE 4       /* a ninth node */
#define KEV_NODE_FULL 5        /* a 33rd key, in a shared table a party's 17th */
#define KEV_EXHAUSTED 6        /* a version or heartbeat is 2^64-1 and must rise */
#define KEV_BAD_MTU 7          /* an MTU below 100 or above 16,384 */
#define KEV_NO_PLACE 8         /* a place past the end, or too little room behind it */
#define KEV_CUT 9              /* the bytes end inside a field */
#define KEV_BAD_TAG 10         /* a tag or status above 2, or a wanted status that is neither Set nor TTL */
#define KEV_OUT_OF_ORDER 11    /* an operation before its Node, or versions that do not rise */
#define KEV_NODE_TWICE 12      /* a node twice in a delta */
#define KEV_TOO_MANY 13        /* over eight nodes, or a delta over 16,384 bytes */
#define KEV_BAD_TABLE 14       /* the table, the overrides or the grid break a rule, or the grid's columns are not the table's nodes */
#define KEV_BAD_TIES 15        /* not one tie for each node */
#define KEV_BAD_LINE 16        /* a line of a listing is not as it is printed */
#define KEV_BAD_FORM 17        /* a write or a delta's record that a meter table does not take */
#define KEV_SMALLER_TOTAL 18   /* a write to the key total of a meter table that states a smaller number than the record there */
#define KEV_OTHER_PARTY 19     /* in a shared table a key of neither party, or of the other one; in a delta for it a key of neither */
#define KEV_BAD_EDITION 20     /* no such edition of a digest */
#define KEV_BAD_PEER 21        /* a peer's number above 7 */
#define KEV_NOBODY_PRESENT 22  /* no peer is present */
#define KEV_BAD_PLAN 23        /* a plan is not accepted, or its two lists are not as long as each other */

/* ---- answers */

struct kev_count {
    uint64_t number;
    kev_size count;
};

/* Found is 1 where the node is remembered. */
struct kev_heartbeat {
    uint64_t number;
    kev_size found;
    uint64_t heartbeat;
};

struct kev_node {
    uint64_t number;
    uint64_t node;
};

/* A text in the caller's table: found is 1, and it is the len bytes from front + start on (see kev_text). The front is the table, unless that is shared: see kev_party_front. */
struct kev_found {
    uint64_t number;
    kev_size found;
    kev_size start;
    kev_size len;
};

/* A text in the caller's overrides, over is 1, or in its table, over is 0: found is 1, and it is the len bytes from overrides + start or
 * table + start on (see kev_text_over). With 14, which is 1 for the overrides and 2 for the table; with another number it is 0. */
struct kev_found_over {
    uint64_t number;
    kev_size found;
    kev_size over;
    kev_size start;
    kev_size len;
    uint64_t which;
};

/* How many hits; which as in kev_found_over. */
struct kev_listed_over {
    uint64_t number;
    kev_size count;
    uint64_t which;
};

struct kev_header {
    uint64_t number;
    uint64_t heartbeat;
    uint64_t max;
    uint64_t last_gc;
};

struct kev_record {
    uint64_t number;
    kev_size found;
    kev_size key_at;   /* where its key begins, from the front on */
    kev_size value_at; /* and its value */
    kev_size key_len;
    kev_size value_len;
    uint64_t version;
    kev_size status;
    uint64_t start; /* when it was scheduled; 0 under Set */
};

/* Records of a node in one piece: count rows of KEV_ROW bytes, from front + at on. */
struct kev_rows {
    uint64_t number;
    kev_size at;
    kev_size count;
};

struct kev_digest {
    uint64_t number;
    kev_size count;
    kev_size rest;
    kev_size need; /* with 9, how many bytes the field lacks in which the bytes end */
};

struct kev_entry {
    uint64_t number;
    uint64_t node;
    uint64_t heartbeat;
    uint64_t last_gc;
    uint64_t max;
    kev_size need; /* with 9, how many bytes the field lacks in which the bytes end */
};

struct kev_computed {
    uint64_t number;
    kev_size ops;
    kev_size bytes;
    kev_size need; /* with 9, how many bytes the digest's field lacks */
};

struct kev_judged {
    uint64_t number;
    kev_size line; /* with 23, the first line of the plan that is at fault, counted from 0 */
    uint64_t why;  /* with 23, what is wrong with it (KEV_NOT_HELD and on) */
    kev_size need; /* with 9, how many bytes the digest's field lacks */
};

struct kev_delta {
    uint64_t number;
    kev_size ops;
    kev_size nodes;
    kev_size at;   /* of a refused delta, the place of the faulty operation's tag */
    kev_size need; /* with 9, how many bytes its field lacks */
};

struct kev_applied {
    uint64_t number;
    kev_size nodes;
    kev_size at;   /* of a refused delta, the place of the faulty operation's tag */
    kev_size need; /* with 9, how many bytes its field lacks */
};

struct kev_made {
    uint64_t number;
    kev_size bytes;
    kev_size line; /* with 16, the first line that is not as it is printed; the first of a text is 1 */
    kev_size at;   /* of a refused delta, the place of the faulty operation's tag */
    kev_size need; /* as in kev_delta; a listing gives no 9 */
};

struct kev_exchanged {
    uint64_t number;
    kev_size ops;
    kev_size bytes;
    kev_size nodes;
    kev_size step; /* refused by: 1 the digest, 2 the delta, 3 applying */
};

/* The answer to a digest that a peer told. */
struct kev_told {
    uint64_t number;
    kev_size need; /* with 9, how many bytes the field lacks in which the digest ends */
};

struct kev_least {
    uint64_t number;
    uint64_t max;
};

/* What a peer told of a node. Found is 1 where the peer is present; else the pair is (0,0). */
struct kev_seen {
    uint64_t number;
    kev_size found;
    uint64_t last_gc;
    uint64_t max;
};

/* The first byte of a text that was found in this table. In a shared table hand in kev_party_front in its place. */
static inline const uint8_t *kev_text(const uint8_t *table, struct kev_found text) {
    return table + text.start;
}

/* The first byte of a text that was found in these overrides or in this table; of a shared table hand in kev_party_front. */
static inline const uint8_t *kev_text_over(const uint8_t *overrides, const uint8_t *table, struct kev_found_over text) {
    return (text.over ? overrides : table) + text.start;
}

/* Record i of these rows, where i is below their count, as kev_record_at tells it; read in the table, without a call. In a shared table hand in kev_party_front in its place. A row is its
 * key's length, 32 bytes of key, its value's length, 64 bytes of value, version, status, start (docs/FORMAT.md, "A record slot").
 * It is C, and not proved: tests/library/every.c holds it to kev_record_at. */
static inline struct kev_record kev_row(const uint8_t *table, struct kev_rows rows, kev_size i) {
    struct kev_record record;
    /* a product of small numbers: in 64 bits the smallest processors would want a routine for it */
    const kev_size at = rows.at + (uint32_t)i * (uint32_t)KEV_ROW, version = at + 2 + KEV_KEY + KEV_VALUE;
    kev_size byte;
    record.number = 0;
    record.found = 1;
    record.key_at = at + 1;
    record.value_at = at + 2 + KEV_KEY;
    record.key_len = table[at];
    record.value_len = table[at + 1 + KEV_KEY];
    record.version = 0;
    record.status = table[version + 8];
    record.start = 0;
    for (byte = 8; byte-- > 0;) {
        record.version = record.version << 8 | table[version + byte];
        record.start = record.start << 8 | table[version + 9 + byte];
    }
    return record;
}

/* ---- the table and its nodes */

/* Whether the bytes are a table that obeys the rules: 0, or 14.
 * Numbers: 14. */
uint64_t kev_check(const uint8_t *table, kev_size table_len);

/* The bytes become an empty table in this mode (KEV_PLAIN, KEV_FENCED, KEV_GUARDED) and of this profile (KEV_PROFILE_FREE,
 * KEV_PROFILE_METER, KEV_PROFILE_SHARED), whatever stood there. 14 where table_len is not KEV_TABLE, or a number is that of no mode or no
 * profile. Choose one profile for all hubs of a net: a meter or a shared table refuses a whole delta for one record that it may not have.
 * Numbers: 14. */
uint64_t kev_new_table(uint8_t *table, kev_size table_len, kev_size mode, kev_size profile);

/* Adds a fresh node. One that is held already stays as it is.
 * Numbers: 14, 4. */
uint64_t kev_add_node(uint8_t *table, kev_size table_len, uint64_t node);

/* Removes a node and its records. The table remembers it with its last heartbeat, the last sixteen that were removed.
 * Numbers: 14, 2. */
uint64_t kev_remove_node(uint8_t *table, kev_size table_len, uint64_t node);

/* The last heartbeat of a node that was removed. Found is 0 where the table does not remember it, as where it holds the node.
 * Numbers: 14. */
struct kev_heartbeat kev_last_heartbeat(const uint8_t *table, kev_size table_len, uint64_t node);

/* ---- local calls, by the owner of a node */

/* The key's record takes this value and a new version, under the wanted status, KEV_SET or KEV_TTL. Where it has both already,
 * nothing changes. A record under TTL is scheduled from the clock on; under Set the clock is not looked at.
 * In a meter table 17 where the key or the value has not its form, and 18 where the key is total and the value states a smaller number
 * than that of the record there, unless it is deleted; an empty value is 0. No other local call gives 17 or 18.
 * In a shared table 19 where the key is not the party's own, by the two deletes too; and 5 for the party's own 17th key.
 * Numbers: 14, 10, 2, 1, 17, 19, 18, 5, 6. */
uint64_t kev_write(
    uint8_t *table, kev_size table_len, uint64_t party, uint64_t node, const uint8_t *key, kev_size key_len, const uint8_t *value,
    kev_size value_len, uint64_t wanted, uint64_t clock);

/* The key's record is emptied and hidden, and scheduled from the clock on: a tombstone.
 * Numbers: 14, 2, 1, 19, 3, 6. */
uint64_t kev_delete(
    uint8_t *table, kev_size table_len, uint64_t party, uint64_t node, const uint8_t *key, kev_size key_len, uint64_t clock);

/* The key's record keeps its value and is scheduled from the clock on.
 * Numbers: 14, 2, 1, 19, 3, 6. */
uint64_t kev_delete_after_ttl(
    uint8_t *table, kev_size table_len, uint64_t party, uint64_t node, const uint8_t *key, kev_size key_len, uint64_t clock);

/* Of every node, the scheduled records whose grace is over go.
 * Numbers: 14. */
uint64_t kev_remove_scheduled(uint8_t *table, kev_size table_len, uint64_t clock, uint64_t grace);

/* A heartbeat that was heard of. The count is 1 where it was news, else 0.
 * Numbers: 14, 2. */
struct kev_count kev_offer_heartbeat(uint8_t *table, kev_size table_len, uint64_t node, uint64_t heartbeat);

/* The node's own heartbeat rises by one.
 * Numbers: 14, 2, 6. */
uint64_t kev_local_beat(uint8_t *table, kev_size table_len, uint64_t node);

/* ---- readings */

/* The value of a key. Found is 0 where there is no such key, or its record is hidden. In a shared table 19 where the key is not the party's own.
 * Numbers: 14, 2, 1, 19. */
struct kev_found kev_find(const uint8_t *table, kev_size table_len, uint64_t party, uint64_t node, const uint8_t *key, kev_size key_len);

/* The records that are not hidden and whose keys begin with the prefix: their places in the node, a byte each, in key order at
 * the front of out. The count is how many. KEV_RECORDS places are always enough. In a shared table the party's own records alone, and places among these; a prefix of
 * the other's keys lists nothing.
 * Numbers: 14, 2, 1, 8. */
struct kev_count kev_list_prefix(
    const uint8_t *table, kev_size table_len, uint64_t party, uint64_t node, const uint8_t *prefix, kev_size prefix_len, uint8_t *out,
    kev_size out_len);

/* How many nodes the table holds.
 * Numbers: 14. */
struct kev_count kev_node_count(const uint8_t *table, kev_size table_len);

/* The number of the node in place i; they ascend.
 * Numbers: 14, 8. */
struct kev_node kev_node_number(const uint8_t *table, kev_size table_len, kev_size i);

/* Heartbeat, max and last_gc of a node.
 * Numbers: 14, 2. */
struct kev_header kev_node_header(const uint8_t *table, kev_size table_len, uint64_t node);

/* How many records a node has, tombstones counted; in a shared table the party's own.
 * Numbers: 14, 2. */
struct kev_count kev_record_count(const uint8_t *table, kev_size table_len, uint64_t party, uint64_t node);

/* The record in place j of a node, hidden or not, and where its key and value stand, from the front on; their keys ascend. In a shared table j counts the party's own
 * records.
 * Numbers: 14, 2, 8. */
struct kev_record kev_record_at(const uint8_t *table, kev_size table_len, uint64_t party, uint64_t node, kev_size j);

/* The same of the record in place j of the node in place i.
 * Numbers: 14, 8. */
struct kev_record kev_record_of(const uint8_t *table, kev_size table_len, uint64_t party, kev_size i, kev_size j);

/* The same of the record of a key. Found is 0 where there is none.
 * Numbers: 14, 2, 1, 19. */
struct kev_record kev_record_by_key(
    const uint8_t *table, kev_size table_len, uint64_t party, uint64_t node, const uint8_t *key, kev_size key_len);

/* All records of a node in one piece, hidden ones too, in key order: count rows of KEV_ROW bytes from front + at on (see kev_row); in a shared table the party's own.
 * Numbers: 14, 2. */
struct kev_rows kev_node_rows(const uint8_t *table, kev_size table_len, uint64_t party, uint64_t node);

/* How many bytes behind the table's first the front stands from which this party's places in this node are counted: 0, unless the table is shared and the party is
 * KEV_METERING, whose records stand behind the building manager's. It is an address and no answer, and tells how many records the other has: use kev_party_front,
 * and hand neither on to a party. It holds until the next call that writes to the table.
 * Numbers: 14, 2. */
struct kev_count kev_front(const uint8_t *table, kev_size table_len, uint64_t party, uint64_t node);

/* The front itself, to be handed to kev_text, kev_text_over and kev_row in place of the table. Where kev_front is refused it is the table. */
static inline const uint8_t *kev_party_front(const uint8_t *table, kev_size table_len, uint64_t party, uint64_t node) {
    return table + kev_front(table, table_len, party, node).count;
}

/* The rows of the records whose keys begin with the prefix, hidden ones too: keys ascend, so they stand together.
 * Numbers: 14, 2, 1. */
struct kev_rows kev_prefix_rows(
    const uint8_t *table, kev_size table_len, uint64_t party, uint64_t node, const uint8_t *prefix, kev_size prefix_len);

/* The key of the record in place j of a node; in a shared table j counts the party's own records.
 * Numbers: 14, 2, 8. */
struct kev_found kev_key_at(const uint8_t *table, kev_size table_len, uint64_t party, uint64_t node, kev_size j);

/* The value of the record in place j of a node, hidden or not; j as in kev_key_at.
 * Numbers: 14, 2, 8. */
struct kev_found kev_value_at(const uint8_t *table, kev_size table_len, uint64_t party, uint64_t node, kev_size j);

/* ---- overrides: labels of a site over those of a node */

/* Whether the bytes are overrides that obey the rules: 0, or 14.
 * Numbers: 14. */
uint64_t kev_check_overrides(const uint8_t *overrides, kev_size overrides_len);

/* The bytes become overrides without a record, whatever stood there. Their number is kept, and no call looks at it. 14 where overrides_len
 * is not KEV_OVERRIDES.
 * Numbers: 14. */
uint64_t kev_new_overrides(uint8_t *overrides, kev_size overrides_len, uint64_t node);

/* The key's override takes this value, under the wanted status, KEV_SET or KEV_TTL, as kev_write has it.
 * Numbers: 14, 10, 1, 5, 6. */
uint64_t kev_write_override(
    uint8_t *overrides, kev_size overrides_len, const uint8_t *key, kev_size key_len, const uint8_t *value,
    kev_size value_len, uint64_t wanted, uint64_t clock);

/* The key's override is emptied and hidden, and scheduled from the clock on: the node's record shows again.
 * Numbers: 14, 1, 3, 6. */
uint64_t kev_delete_override(
    uint8_t *overrides, kev_size overrides_len, const uint8_t *key, kev_size key_len, uint64_t clock);

/* The key's override keeps its value, shows, and is scheduled from the clock on.
 * Numbers: 14, 1, 3, 6. */
uint64_t kev_delete_override_after_ttl(
    uint8_t *overrides, kev_size overrides_len, const uint8_t *key, kev_size key_len, uint64_t clock);

/* The scheduled overrides whose grace is over go. Without it deleted ones fill the 32 places.
 * Numbers: 14. */
uint64_t kev_remove_overrides(uint8_t *overrides, kev_size overrides_len, uint64_t clock, uint64_t grace);

/* The value of a key: the override's if its record is there and not hidden, else the node's. Found is 0 where neither shows one. 14 is asked
 * of the overrides first, then of the table; which says of which. In a shared table 19 where the key is not the party's own.
 * Numbers: 14, 2, 1, 19. */
struct kev_found_over kev_find_over(
    const uint8_t *overrides, kev_size overrides_len, const uint8_t *table, kev_size table_len, uint64_t party, uint64_t node,
    const uint8_t *key, kev_size key_len);

/* The records of the overrides and of the node that are not hidden and whose keys begin with the prefix, each key once, in key order, at the
 * front of out, a byte each: the place in the node, or KEV_OVER and the place in the overrides. KEV_PLACES places are always enough. In a shared table the party's own
 * keys alone, of the overrides too, and places in the node among its own records.
 * Numbers: 14, 2, 1, 8. */
struct kev_listed_over kev_list_over(
    const uint8_t *overrides, kev_size overrides_len, const uint8_t *table, kev_size table_len, uint64_t party, uint64_t node,
    const uint8_t *prefix, kev_size prefix_len, uint8_t *out, kev_size out_len);

/* ---- digests and deltas */

/* The table's digest in this edition (KEV_V0, KEV_V1) without the excluded nodes, into the datagram from the place on. The count is its bytes, KEV_DIGEST at most.
 * Numbers: 14, 20, 8. */
struct kev_count kev_write_digest(
    const uint8_t *table, kev_size table_len, uint64_t edition, const uint64_t *excluded, kev_size excluded_len,
    uint8_t *datagram, kev_size datagram_len, kev_size place);

/* How many nodes the digest at the front of the bytes tells of, and where the bytes behind it begin. A digest of KEV_V1 is all the bytes.
 * Numbers: 20, 9, 13. */
struct kev_digest kev_read_digest(uint64_t edition, const uint8_t *digest, kev_size digest_len);

/* What a digest tells of the node in place i, in the order of their numbers.
 * Numbers: 20, 9, 13, 8. */
struct kev_entry kev_digest_entry(uint64_t edition, const uint8_t *digest, kev_size digest_len, kev_size i);

/* The delta for a peer's digest of this edition, of at most mtu bytes, without the excluded nodes, into the datagram from the place on, where mtu
 * bytes must be free. Ties are one number for each node of the table: of two nodes with as much to tell the smaller goes first.
 * Numbers: 14, 20, 7, 8, 15, 9, 13. */
struct kev_computed kev_compute(
    const uint8_t *table, kev_size table_len, uint64_t edition, const uint8_t *digest, kev_size digest_len, kev_size mtu,
    const uint64_t *excluded, kev_size excluded_len, const uint64_t *ties, kev_size ties_len, uint8_t *datagram,
    kev_size datagram_len, kev_size place);

/* The delta of a plan for a peer's digest of this edition: these nodes in this order, and of each so many of its stale records, the lowest versions first; where a
 * node has none, its max. The plan is accepted exactly if every node is held, not excluded, named once, and stale; each count is at most the node's stale records,
 * and not 0 unless there are none; and the bytes fit mtu. Nothing of it is cut or dropped. It goes into the datagram from the place on, where mtu bytes must be
 * free. An empty plan is accepted and sends nothing.
 * Numbers: 14, 20, 7, 8, 9, 13, 23. */
struct kev_computed kev_compute_plan(
    const uint8_t *table, kev_size table_len, uint64_t edition, const uint8_t *digest, kev_size digest_len, kev_size mtu,
    const uint64_t *excluded, kev_size excluded_len, const uint64_t *nodes, kev_size nodes_len, const uint64_t *counts,
    kev_size counts_len, uint8_t *datagram, kev_size datagram_len, kev_size place);

/* Whether kev_compute_plan would accept the plan: 0 if it would, else 23 with the first line at fault and what is wrong with it.
 * Numbers: 14, 20, 7, 9, 13, 23. */
struct kev_judged kev_plan_fault(
    const uint8_t *table, kev_size table_len, uint64_t edition, const uint8_t *digest, kev_size digest_len, kev_size mtu,
    const uint64_t *excluded, kev_size excluded_len, const uint64_t *nodes, kev_size nodes_len, const uint64_t *counts,
    kev_size counts_len);

/* The verdict on a delta: its operations and node deltas.
 * Numbers: 13, 9, 1, 10, 11, 12. */
struct kev_delta kev_read_delta(const uint8_t *delta, kev_size delta_len);

/* Takes a peer's delta into the table, at the receiver's clock. For each node delta an answer (KEV_ANSWER_REJECT and on), a byte
 * each, at the front of answers; nodes is how many. KEV_NODES places are always enough. A meter table refuses the whole delta with 17 for one
 * record that has not its form, also where that record would be skipped or its node is not held; a total may be smaller here. A shared table refuses it with 19 for
 * one key of neither party.
 * Numbers: 14, 13, 9, 1, 10, 11, 17, 19, 12, 8. */
struct kev_applied kev_apply(
    uint8_t *table, kev_size table_len, const uint8_t *delta, kev_size delta_len, uint64_t clock, uint8_t *answers,
    kev_size answers_len);

/* The same, but for the nodes of own: the hub's own, which it alone writes. Such a node answers KEV_ANSWER_REJECT and stays as it is, whatever the bytes say, forged ones too; one
 * that the table does not hold answers KEV_ANSWER_UNKNOWN, named or not. The others as ever. The list takes any length and any numbers; with none it is kev_apply. A hub that takes
 * datagrams from anywhere should name its own nodes here: one delta with a version of 2^64 - 1 would replace what it wrote, and make every later write 6.
 * Numbers: 14, 13, 9, 1, 10, 11, 17, 19, 12, 8. */
struct kev_applied kev_apply_leaving(
    uint8_t *table, kev_size table_len, const uint64_t *own, kev_size own_len, const uint8_t *delta, kev_size delta_len,
    uint64_t clock, uint8_t *answers, kev_size answers_len);

/* The listing of a delta in words, a line for each operation, or the one line of a refused delta. The count is its bytes.
 * KEV_LISTING bytes are always enough.
 * Numbers: 8. */
struct kev_count kev_list_delta(const uint8_t *delta, kev_size delta_len, uint8_t *out, kev_size out_len);

/* The delta that a listing tells, at the front of out; bytes is its length. The text must be exactly what kev_list_delta gives for it,
 * to the end line with its counts. KEV_DELTA bytes are always enough. The call takes some 17,500 bytes of stack.
 * Numbers: 16, 13, 11, 12, 8. */
struct kev_made kev_make_delta(const uint8_t *text, kev_size text_len, uint8_t *out, kev_size out_len);

/* The listing of a table in words: a line for its mode and profile, for each node and each of its records, for each removed node, and for the end; or the
 * one line of bytes that are no table, with 14 and the first thing that is wrong where it has a name. It shows every party's records. Good tables with equal
 * listings are equal. The count is its bytes. KEV_TABLE_LISTING bytes are always enough.
 * Numbers: 8. */
struct kev_count kev_list_table(const uint8_t *table, kev_size table_len, uint8_t *out, kev_size out_len);

/* The numbers of the nodes that a delta names, in its order, at the front of list; nodes is how many. KEV_NODES places are always enough. Nothing is applied.
 * A delta that kev_read_delta refuses is refused as there.
 * Numbers: 13, 9, 1, 10, 11, 12, 8. */
struct kev_applied kev_delta_nodes(const uint8_t *delta, kev_size delta_len, uint64_t *list, kev_size list_len);

/* One exchange of two tables in one memory: the follower's digest without the unasked nodes, the publisher's delta for it without
 * the unsent ones, the delta applied. Refused, it wrote nothing: so with 17, of applying, wherever the follower is a meter table and one
 * record of the publisher's table, sent or not, has not its form; and with 19, wherever it is a shared table and one key is of neither party.
 * Numbers: 14, 20, 8, 7, 15, 17, 19. */
struct kev_exchanged kev_exchange(
    const uint8_t *publisher, kev_size publisher_len, uint8_t *follower, kev_size follower_len, uint64_t edition,
    kev_size mtu, const uint64_t *unasked, kev_size unasked_len, const uint64_t *unsent, kev_size unsent_len,
    const uint64_t *ties, kev_size ties_len, uint64_t clock, uint8_t *digest, kev_size digest_len, uint8_t *delta,
    kev_size delta_len, uint8_t *answers, kev_size answers_len);

/* ---- who has seen what
 *
 * A grid keeps, for KEV_PEERS peers and KEV_NODES nodes, the pair of last_gc and max that each peer's digest told last. Its columns are the nodes of one table, which
 * come and go through the grid. A peer is present from the first digest that it told until it is taken out. With what the peers present have told, a careful removal
 * keeps a tombstone until all of them have seen it. The caller numbers its peers, and says whose digest it is; plain hubs are safe by it only under the conditions
 * of docs/NET.md, "Careful nets".
 *
 * 14 is given where the grid breaks a rule of grids and, by the calls that take a table too, where that breaks a rule or its nodes are not the columns; the number does
 * not tell which. kev_tell, kev_take_out, kev_least_max and kev_seen_by take no table, and so find nothing of the last.
 *
 * What is seen and what is not. A node that was added or removed past the grid, by kev_add_node or kev_remove_node, is 14 at the next call with both. A node that was
 * removed and added past the grid is not seen: the number is the same, and the old pairs stand for the new node. Nor is a table that was put back to an older state with
 * the same nodes, or the table of another hub with the same nodes. Where any of these may have happened, make the grid anew: nobody is present then, and the
 * next removal should wait until all peers have told again. */

/* The bytes become the grid of the table's nodes, with nobody present, whatever stood there. 14 where grid_len is not KEV_GRID, or the table is none.
 * Numbers: 14. */
uint64_t kev_new_grid(uint8_t *grid, kev_size grid_len, const uint8_t *table, kev_size table_len);

/* Adds a fresh node to the table, and its column at (0,0) for every peer. A node held already stays as it is, and so does its column.
 * Numbers: 14, 4. */
uint64_t kev_grid_add_node(uint8_t *grid, kev_size grid_len, uint8_t *table, kev_size table_len, uint64_t node);

/* Removes a node and its records from the table, which remembers it as with kev_remove_node, and its column.
 * Numbers: 14, 2. */
uint64_t kev_grid_remove_node(uint8_t *grid, kev_size grid_len, uint8_t *table, kev_size table_len, uint64_t node);

/* What a peer's digest of this edition (KEV_V0, KEV_V1) tells takes the place of all that the peer told before, also where a number falls. A node that the digest omits
 * counts as (0,0); one that is no column is ignored, and not kept for later; of a repeated node the last entry counts. From then on the peer is present. A refused digest
 * makes nobody present. The bytes do not say their edition: told in the wrong one they are refused, or tell other numbers, and a careful removal is then not careful.
 * Numbers: 14, 21, 20, 9, 13. */
struct kev_told kev_tell(
    uint8_t *grid, kev_size grid_len, uint64_t peer, uint64_t edition, const uint8_t *digest, kev_size digest_len);

/* A peer is taken out, and what it told with it: from then on it is absent, and no removal waits for it. Taking out an absent peer changes nothing.
 * Numbers: 14, 21. */
uint64_t kev_take_out(uint8_t *grid, kev_size grid_len, uint64_t peer);

/* The least max that the peers present told of a node. An absent peer is not one that told 0: it is not counted.
 * Numbers: 14, 22, 2. */
struct kev_least kev_least_max(const uint8_t *grid, kev_size grid_len, uint64_t node);

/* The pair that a peer told last of a node; found is 0 where the peer is absent. No other call uses last_gc.
 * Numbers: 14, 21, 2. */
struct kev_seen kev_seen_by(const uint8_t *grid, kev_size grid_len, uint64_t peer, uint64_t node);

/* As kev_remove_scheduled, of every node of the table, but a record goes only if every peer present has told a max of its node that is not below the record's version.
 * Numbers: 14, 22. */
uint64_t kev_remove_carefully(
    const uint8_t *grid, kev_size grid_len, uint8_t *table, kev_size table_len, uint64_t clock, uint64_t grace);

/* ==== WITHOUT THE CHECK
 *
 * The same calls on a table that every call kept: no check, and so no 14. What is promised of them is promised for such a table alone: it was made by kev_new_table, or
 * kev_check accepted it, and since then nothing but functions of this header wrote to it. ON OTHER BYTES THEY MAY READ AND WRITE ANYWHERE, and a length that is not KEV_TABLE is
 * not found either: one wrong byte of a count or a length is enough to leave the table. So not on bytes out of a file, a mapped page, a peer or another program, as long as
 * kev_check has not accepted them, and not on memory that another thread or a stray pointer may reach. If in doubt, take the call without good in its name. */

/* Numbers: 4. */
uint64_t kev_good_add_node(uint8_t *table, kev_size table_len, uint64_t node);

/* Numbers: 2. */
uint64_t kev_good_remove_node(uint8_t *table, kev_size table_len, uint64_t node);

/* Numbers: none. */
struct kev_heartbeat kev_good_last_heartbeat(const uint8_t *table, kev_size table_len, uint64_t node);

/* Numbers: 10, 2, 1, 17, 19, 18, 5, 6. */
uint64_t kev_good_write(
    uint8_t *table, kev_size table_len, uint64_t party, uint64_t node, const uint8_t *key, kev_size key_len, const uint8_t *value,
    kev_size value_len, uint64_t wanted, uint64_t clock);

/* Numbers: 2, 1, 19, 3, 6. */
uint64_t kev_good_delete(
    uint8_t *table, kev_size table_len, uint64_t party, uint64_t node, const uint8_t *key, kev_size key_len, uint64_t clock);

/* Numbers: 2, 1, 19, 3, 6. */
uint64_t kev_good_delete_after_ttl(
    uint8_t *table, kev_size table_len, uint64_t party, uint64_t node, const uint8_t *key, kev_size key_len, uint64_t clock);

/* Numbers: none. */
uint64_t kev_good_remove_scheduled(uint8_t *table, kev_size table_len, uint64_t clock, uint64_t grace);

/* Numbers: 2. */
struct kev_count kev_good_offer_heartbeat(uint8_t *table, kev_size table_len, uint64_t node, uint64_t heartbeat);

/* Numbers: 2, 6. */
uint64_t kev_good_local_beat(uint8_t *table, kev_size table_len, uint64_t node);

/* Numbers: 2, 1, 19. */
struct kev_found kev_good_find(
    const uint8_t *table, kev_size table_len, uint64_t party, uint64_t node, const uint8_t *key, kev_size key_len);

/* Numbers: 2, 1, 8. */
struct kev_count kev_good_list_prefix(
    const uint8_t *table, kev_size table_len, uint64_t party, uint64_t node, const uint8_t *prefix, kev_size prefix_len, uint8_t *out,
    kev_size out_len);

/* The overrides too are good: kev_new_overrides made them, or kev_check_overrides accepted them, and only calls on overrides wrote to them.
 * Numbers: 2, 1, 19. */
struct kev_found_over kev_good_find_over(
    const uint8_t *overrides, kev_size overrides_len, const uint8_t *table, kev_size table_len, uint64_t party, uint64_t node,
    const uint8_t *key, kev_size key_len);

/* Numbers: 2, 1, 8. */
struct kev_listed_over kev_good_list_over(
    const uint8_t *overrides, kev_size overrides_len, const uint8_t *table, kev_size table_len, uint64_t party, uint64_t node,
    const uint8_t *prefix, kev_size prefix_len, uint8_t *out, kev_size out_len);

/* Numbers: none. */
struct kev_count kev_good_node_count(const uint8_t *table, kev_size table_len);

/* Numbers: 8. */
struct kev_node kev_good_node_number(const uint8_t *table, kev_size table_len, kev_size i);

/* Numbers: 2. */
struct kev_header kev_good_node_header(const uint8_t *table, kev_size table_len, uint64_t node);

/* Numbers: 2. */
struct kev_count kev_good_record_count(const uint8_t *table, kev_size table_len, uint64_t party, uint64_t node);

/* Numbers: 2, 8. */
struct kev_record kev_good_record_at(const uint8_t *table, kev_size table_len, uint64_t party, uint64_t node, kev_size j);

/* Numbers: 8. */
struct kev_record kev_good_record_of(const uint8_t *table, kev_size table_len, uint64_t party, kev_size i, kev_size j);

/* Numbers: 2, 1, 19. */
struct kev_record kev_good_record_by_key(
    const uint8_t *table, kev_size table_len, uint64_t party, uint64_t node, const uint8_t *key, kev_size key_len);

/* Numbers: 2. */
struct kev_rows kev_good_node_rows(const uint8_t *table, kev_size table_len, uint64_t party, uint64_t node);

/* Numbers: 2. */
struct kev_count kev_good_front(const uint8_t *table, kev_size table_len, uint64_t party, uint64_t node);

/* Numbers: 2, 1. */
struct kev_rows kev_good_prefix_rows(
    const uint8_t *table, kev_size table_len, uint64_t party, uint64_t node, const uint8_t *prefix, kev_size prefix_len);

/* Numbers: 2, 8. */
struct kev_found kev_good_key_at(const uint8_t *table, kev_size table_len, uint64_t party, uint64_t node, kev_size j);

/* Numbers: 2, 8. */
struct kev_found kev_good_value_at(const uint8_t *table, kev_size table_len, uint64_t party, uint64_t node, kev_size j);

/* Numbers: 20, 8. */
struct kev_count kev_good_write_digest(
    const uint8_t *table, kev_size table_len, uint64_t edition, const uint64_t *excluded, kev_size excluded_len,
    uint8_t *datagram, kev_size datagram_len, kev_size place);

/* Numbers: 20, 7, 8, 15, 9, 13. */
struct kev_computed kev_good_compute(
    const uint8_t *table, kev_size table_len, uint64_t edition, const uint8_t *digest, kev_size digest_len, kev_size mtu,
    const uint64_t *excluded, kev_size excluded_len, const uint64_t *ties, kev_size ties_len, uint8_t *datagram,
    kev_size datagram_len, kev_size place);

/* Numbers: 20, 7, 8, 9, 13, 23. */
struct kev_computed kev_good_compute_plan(
    const uint8_t *table, kev_size table_len, uint64_t edition, const uint8_t *digest, kev_size digest_len, kev_size mtu,
    const uint64_t *excluded, kev_size excluded_len, const uint64_t *nodes, kev_size nodes_len, const uint64_t *counts,
    kev_size counts_len, uint8_t *datagram, kev_size datagram_len, kev_size place);

/* Numbers: 20, 7, 9, 13, 23. */
struct kev_judged kev_good_plan_fault(
    const uint8_t *table, kev_size table_len, uint64_t edition, const uint8_t *digest, kev_size digest_len, kev_size mtu,
    const uint64_t *excluded, kev_size excluded_len, const uint64_t *nodes, kev_size nodes_len, const uint64_t *counts,
    kev_size counts_len);

/* Numbers: 13, 9, 1, 10, 11, 17, 19, 12, 8. */
struct kev_applied kev_good_apply(
    uint8_t *table, kev_size table_len, const uint8_t *delta, kev_size delta_len, uint64_t clock, uint8_t *answers,
    kev_size answers_len);

/* Numbers: 13, 9, 1, 10, 11, 17, 19, 12, 8. */
struct kev_applied kev_good_apply_leaving(
    uint8_t *table, kev_size table_len, const uint64_t *own, kev_size own_len, const uint8_t *delta, kev_size delta_len,
    uint64_t clock, uint8_t *answers, kev_size answers_len);

#ifdef __cplusplus
}
#endif

#endif
