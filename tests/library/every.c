/* Every function of include/kevdarosh.h, and every number. Lent memory is on the heap, exactly as long as it is said to be, so that valgrind and the
 * sanitizers see what goes beyond it; what a refused call could have changed is compared with a copy. Prints how many checks held. */
#include "kevdarosh.h"

#include <stdbool.h>
#include <stdio.h>
#include <stdlib.h>
#include <string.h>

static unsigned long held = 0, failed = 0;
static bool seen[24];

static void check_at(bool ok, const char *what, int line) {
    if (ok) { held++; return; }
    failed++;
    fprintf(stderr, "every.c:%d: %s\n", line, what);
}
#define CHECK(condition) check_at((condition), #condition, __LINE__)

static uint64_t given(uint64_t number) {
    if (number < 24) seen[number] = true;
    return number;
}
#define GIVES(number, call) CHECK(given(call) == (number))

/* Memory of its own, exactly so long. */
struct lent { uint8_t *at; size_t len; uint8_t *was; };
static struct lent lend(size_t len) {
    struct lent l = {malloc(len ? len : 1), len, malloc(len ? len : 1)};
    if (!l.at || !l.was) abort();
    memset(l.at, 0xEE, len);
    memset(l.was, 0xEE, len);
    return l;
}
static void mark(struct lent l) { memcpy(l.was, l.at, l.len); }
static bool same(struct lent l) { return memcmp(l.was, l.at, l.len) == 0; }
static void give_back(struct lent l) { free(l.at); free(l.was); }

#define T(l) (l).at, (l).len
#define TEXT(s) (const uint8_t *)(s), sizeof(s) - 1
/* A length of 0 comes with NULL. */
#define NO_NUMBERS NULL, 0
#define NO_BYTES NULL, 0
#define NO_OUT NULL, 0
static const char long_key[] = "123456789012345678901234567890123";
static const char long_value[] = "12345678901234567890123456789012345678901234567890123456789012345";

/* The same call with and without the check must tell the same and leave the same. */
#define BOTH(table, call, good)                                            \
    do {                                                                   \
        struct lent checked_ = (table), other_ = lend((table).len), t;     \
        memcpy(other_.at, checked_.at, checked_.len);                      \
        t = checked_;                                                      \
        uint64_t told_ = given(call);                                      \
        t = other_;                                                        \
        CHECK(told_ == given(good));                                       \
        CHECK(memcmp(other_.at, checked_.at, checked_.len) == 0);          \
        CHECK(kev_check(T(checked_)) == 0);                                \
        give_back(other_);                                                 \
    } while (0)

static void put64(uint8_t *at, uint64_t n) { for (int i = 0; i < 8; i++) at[i] = (uint8_t)(n >> (8 * i)); }

/* Overrides, read together with node 10 of the table, whose keys that show are a, tariff and total, and with node 12, which is full. */
static void overrides_of(struct lent table) {
    struct lent over = lend(KEV_OVERRIDES), shorter = lend(KEV_OVERRIDES - 1), places = lend(KEV_PLACES), few = lend(1);
    GIVES(KEV_BAD_TABLE, kev_check_overrides(T(over)));
    GIVES(KEV_BAD_TABLE, kev_write_override(T(over), TEXT("total"), TEXT("x"), 3, 0));
    GIVES(KEV_BAD_TABLE, kev_delete_override(T(over), TEXT("total"), 0));
    GIVES(KEV_BAD_TABLE, kev_delete_override_after_ttl(T(over), TEXT("total"), 0));
    GIVES(KEV_BAD_TABLE, kev_remove_overrides(T(over), 0, 0));
    struct kev_found_over f = kev_find_over(T(over), T(shorter), KEV_NOBODY, 99, TEXT(long_key));
    CHECK(f.number == KEV_BAD_TABLE && f.which == 1 && f.found == 0);
    struct kev_listed_over l = kev_list_over(T(over), T(shorter), KEV_NOBODY, 99, TEXT(long_key), NO_OUT);
    CHECK(l.number == KEV_BAD_TABLE && l.which == 1);
    CHECK(same(over));
    GIVES(KEV_BAD_TABLE, kev_new_overrides(T(shorter), 10));
    CHECK(same(shorter));
    GIVES(0, kev_new_overrides(T(over), 10));
    GIVES(0, kev_check_overrides(T(over)));
    f = kev_find_over(T(over), T(shorter), KEV_NOBODY, 99, TEXT(long_key));
    CHECK(f.number == KEV_BAD_TABLE && f.which == 2);
    l = kev_list_over(T(over), T(shorter), KEV_NOBODY, 99, TEXT(long_key), NO_OUT);
    CHECK(l.number == KEV_BAD_TABLE && l.which == 2);

    /* without a record they are not there */
    f = kev_find_over(T(over), T(table), KEV_NOBODY, 10, TEXT("total"));
    struct kev_found plain = kev_find(T(table), KEV_NOBODY, 10, TEXT("total"));
    CHECK(f.number == 0 && f.found == 1 && f.over == 0 && f.start == plain.start && f.len == plain.len && f.which == 0);
    l = kev_list_over(T(over), T(table), KEV_NOBODY, 10, NO_BYTES, T(places));
    struct kev_count hits = kev_list_prefix(T(table), KEV_NOBODY, 10, NO_BYTES, T(shorter));
    CHECK(l.number == 0 && l.count == hits.count && memcmp(places.at, shorter.at, hits.count) == 0);

    GIVES(KEV_BAD_TAG, kev_write_override(T(over), TEXT(long_key), TEXT("x"), KEV_DELETE, 0));
    GIVES(KEV_TOO_LONG, kev_write_override(T(over), TEXT(long_key), TEXT("x"), KEV_SET, 0));
    GIVES(KEV_TOO_LONG, kev_write_override(T(over), TEXT("a"), TEXT(long_value), KEV_TTL, 0));
    GIVES(KEV_NO_KEY, kev_delete_override(T(over), TEXT("total"), 5));
    GIVES(KEV_NO_KEY, kev_delete_override_after_ttl(T(over), TEXT("total"), 5));
    GIVES(KEV_TOO_LONG, kev_delete_override(T(over), TEXT(long_key), 5));
    GIVES(0, kev_write_override(T(over), TEXT("total"), TEXT("cellar"), KEV_SET, 0));
    GIVES(0, kev_write_override(T(over), TEXT("own"), NO_BYTES, KEV_TTL, 5));
    f = kev_find_over(T(over), T(table), KEV_NOBODY, 10, TEXT("total"));
    CHECK(f.over == 1 && f.len == 6 && memcmp(kev_text_over(over.at, table.at, f), "cellar", 6) == 0);
    struct kev_found_over g = kev_good_find_over(T(over), T(table), KEV_NOBODY, 10, TEXT("total"));
    CHECK(memcmp(&f, &g, sizeof f) == 0);
    f = kev_find_over(T(over), T(table), KEV_NOBODY, 10, TEXT("own"));
    CHECK(f.number == 0 && f.found == 1 && f.over == 1 && f.len == 0);
    f = kev_find_over(T(over), T(table), KEV_NOBODY, 10, TEXT("absent"));
    CHECK(f.number == 0 && f.found == 0 && f.over == 0);
    GIVES(KEV_NO_NODE, kev_find_over(T(over), T(table), KEV_NOBODY, 99, TEXT("own")).number);
    GIVES(KEV_NO_NODE, kev_find_over(T(over), T(table), KEV_NOBODY, 99, TEXT(long_key)).number);
    GIVES(KEV_TOO_LONG, kev_find_over(T(over), T(table), KEV_NOBODY, 10, TEXT(long_key)).number);
    GIVES(KEV_NO_NODE, kev_list_over(T(over), T(table), KEV_NOBODY, 99, TEXT(long_key), T(few)).number);
    GIVES(KEV_TOO_LONG, kev_list_over(T(over), T(table), KEV_NOBODY, 10, TEXT(long_key), T(few)).number);
    GIVES(KEV_NO_PLACE, kev_list_over(T(over), T(table), KEV_NOBODY, 10, TEXT("t"), T(few)).number);
    CHECK(same(few));
    /* tariff of the node, total of the overrides */
    l = kev_list_over(T(over), T(table), KEV_NOBODY, 10, TEXT("t"), T(places));
    struct kev_listed_over m = kev_good_list_over(T(over), T(table), KEV_NOBODY, 10, TEXT("t"), T(places));
    CHECK(l.count == 2 && m.count == 2 && places.at[0] < KEV_OVER && places.at[1] == KEV_OVER + 1);
    /* taken back, the node's shows again; then its place is free */
    GIVES(0, kev_delete_override(T(over), TEXT("total"), 10));
    f = kev_find_over(T(over), T(table), KEV_NOBODY, 10, TEXT("total"));
    CHECK(f.found == 1 && f.over == 0 && f.start == plain.start);
    GIVES(0, kev_delete_override_after_ttl(T(over), TEXT("own"), 10));
    f = kev_find_over(T(over), T(table), KEV_NOBODY, 10, TEXT("own"));
    CHECK(f.found == 1 && f.over == 1);
    GIVES(0, kev_remove_overrides(T(over), 19, 10));
    CHECK(over.at[32] == 2);
    GIVES(0, kev_remove_overrides(T(over), 20, 10));
    CHECK(over.at[32] == 0);
    /* 32 and 32 other keys */
    char key[3] = "~A";
    for (int i = 0; i < KEV_RECORDS; i++) {
        key[1] = (char)('A' + i);
        GIVES(0, kev_write_override(T(over), (const uint8_t *)key, 2, TEXT("v"), KEV_SET, 0));
    }
    mark(over);
    GIVES(KEV_NODE_FULL, kev_write_override(T(over), TEXT("one more"), TEXT("v"), KEV_SET, 0));
    CHECK(same(over));
    CHECK(kev_list_over(T(over), T(table), KEV_NOBODY, 12, NO_BYTES, T(places)).count == KEV_PLACES);
    GIVES(KEV_NO_PLACE, kev_list_over(T(over), T(table), KEV_NOBODY, 12, NO_BYTES, places.at, KEV_PLACES - 1).number);
    /* max is at its end */
    memset(over.at + 16, 0xFF, 8);
    GIVES(KEV_EXHAUSTED, kev_delete_override(T(over), TEXT("~A"), 0));
    GIVES(KEV_EXHAUSTED, kev_write_override(T(over), TEXT("~A"), TEXT("w"), KEV_TTL, 0));
    /* never gossiped: they are no table */
    mark(over);
    GIVES(KEV_BAD_TABLE, kev_write_digest(T(over), KEV_V0, NO_NUMBERS, T(places), 0).number);
    GIVES(KEV_BAD_TABLE, kev_compute(T(over), KEV_V0, NO_BYTES, 100, NO_NUMBERS, NO_NUMBERS, T(places), 0).number);
    GIVES(KEV_BAD_TABLE, kev_apply(T(over), NO_BYTES, 0, NO_OUT).number);
    GIVES(KEV_BAD_TABLE, kev_apply_leaving(T(over), NO_NUMBERS, NO_BYTES, 0, NO_OUT).number);
    GIVES(KEV_BAD_TABLE, kev_exchange(T(over), T(table), KEV_V0, 100, NO_NUMBERS, NO_NUMBERS, NO_NUMBERS, 0, NO_OUT, T(places), NO_OUT).number);
    GIVES(KEV_BAD_TABLE, kev_exchange(T(table), T(over), KEV_V0, 100, NO_NUMBERS, NO_NUMBERS, NO_NUMBERS, 0, NO_OUT, T(places), NO_OUT).number);
    CHECK(same(over));
    give_back(over);
    give_back(shorter);
    give_back(places);
    give_back(few);
}

static void local_calls(void) {
    struct lent table = lend(KEV_TABLE), brief = lend(KEV_TABLE - 1);
    GIVES(KEV_BAD_TABLE, kev_new_table(T(brief), KEV_PLAIN, KEV_PROFILE_FREE));
    CHECK(same(brief));
    GIVES(KEV_BAD_TABLE, kev_new_table(T(table), 3, KEV_PROFILE_FREE));
    GIVES(KEV_BAD_TABLE, kev_new_table(T(table), (kev_size)-1, KEV_PROFILE_FREE));
    GIVES(KEV_BAD_TABLE, kev_new_table(T(table), KEV_PLAIN, 3));
    GIVES(KEV_BAD_TABLE, kev_new_table(T(table), KEV_PLAIN, (kev_size)-1));
    GIVES(KEV_BAD_TABLE, kev_new_table(T(table), 3, KEV_PROFILE_METER));
    CHECK(same(table));
    GIVES(KEV_BAD_TABLE, kev_check(T(table)));
    GIVES(0, kev_new_table(T(table), KEV_GUARDED, KEV_PROFILE_FREE));
    CHECK(table.at[KEV_MODE_AT] == KEV_GUARDED);
    GIVES(0, kev_new_table(T(table), KEV_FENCED, KEV_PROFILE_FREE));
    CHECK(table.at[KEV_MODE_AT] == KEV_FENCED);
    GIVES(0, kev_new_table(T(table), KEV_PLAIN, KEV_PROFILE_FREE));
    GIVES(0, kev_check(T(table)));
    for (uint64_t node = 10; node < 18; node++) BOTH(table, kev_add_node(T(t), node), kev_good_add_node(T(t), node));
    BOTH(table, kev_add_node(T(t), 10), kev_good_add_node(T(t), 10));
    mark(table);
    GIVES(KEV_NINTH_NODE, kev_add_node(T(table), 99));
    GIVES(KEV_NINTH_NODE, kev_good_add_node(T(table), 99));
    GIVES(KEV_NO_NODE, kev_remove_node(T(table), 99));
    CHECK(same(table));
    GIVES(0, kev_offer_heartbeat(T(table), 17, 33).number);
    CHECK(kev_last_heartbeat(T(table), 17).number == 0 && kev_last_heartbeat(T(table), 17).found == 0);
    CHECK(kev_good_last_heartbeat(T(table), 17).number == 0 && kev_good_last_heartbeat(T(table), 17).found == 0);
    BOTH(table, kev_remove_node(T(t), 17), kev_good_remove_node(T(t), 17));
    BOTH(table, kev_remove_node(T(t), 17), kev_good_remove_node(T(t), 17));
    struct kev_heartbeat last = kev_last_heartbeat(T(table), 17);
    CHECK(last.number == 0 && last.found == 1 && last.heartbeat == 33);
    last = kev_good_last_heartbeat(T(table), 17);
    CHECK(last.number == 0 && last.found == 1 && last.heartbeat == 33);
    BOTH(table, kev_add_node(T(t), 17), kev_good_add_node(T(t), 17));
    CHECK(kev_last_heartbeat(T(table), 17).found == 0 && kev_good_last_heartbeat(T(table), 17).found == 0);
    BOTH(table, kev_remove_node(T(t), 17), kev_good_remove_node(T(t), 17));

    BOTH(table, kev_write(T(t), KEV_NOBODY, 10, TEXT("total"), TEXT("41"), KEV_SET, 5), kev_good_write(T(t), KEV_NOBODY, 10, TEXT("total"), TEXT("41"), KEV_SET, 5));
    BOTH(table, kev_write(T(t), KEV_NOBODY, 10, TEXT("tariff"), TEXT("night"), KEV_TTL, 5), kev_good_write(T(t), KEV_NOBODY, 10, TEXT("tariff"), TEXT("night"), KEV_TTL, 5));
    BOTH(table, kev_write(T(t), KEV_NOBODY, 10, TEXT("tall"), NO_BYTES, KEV_SET, 5), kev_good_write(T(t), KEV_NOBODY, 10, TEXT("tall"), NO_BYTES, KEV_SET, 5));
    mark(table);
    GIVES(0, kev_write(T(table), KEV_NOBODY, 10, TEXT("total"), TEXT("41"), KEV_SET, 9));
    GIVES(KEV_BAD_TAG, kev_write(T(table), KEV_NOBODY, 99, TEXT("total"), TEXT("42"), KEV_DELETE, 5));
    GIVES(KEV_BAD_TAG, kev_good_write(T(table), KEV_NOBODY, 10, TEXT("total"), TEXT("42"), 3, 5));
    GIVES(KEV_NO_NODE, kev_write(T(table), KEV_NOBODY, 99, TEXT("total"), TEXT("42"), KEV_SET, 5));
    GIVES(KEV_TOO_LONG, kev_write(T(table), KEV_NOBODY, 10, TEXT(long_key), TEXT("42"), KEV_SET, 5));
    GIVES(KEV_TOO_LONG, kev_write(T(table), KEV_NOBODY, 10, TEXT("total"), TEXT(long_value), KEV_SET, 5));
    GIVES(KEV_NO_KEY, kev_delete(T(table), KEV_NOBODY, 10, TEXT("absent"), 5));
    GIVES(KEV_NO_KEY, kev_delete_after_ttl(T(table), KEV_NOBODY, 10, TEXT("absent"), 5));
    GIVES(KEV_NO_NODE, kev_delete(T(table), KEV_NOBODY, 99, TEXT("total"), 5));
    GIVES(KEV_TOO_LONG, kev_delete_after_ttl(T(table), KEV_NOBODY, 10, TEXT(long_key), 5));
    CHECK(same(table));
    BOTH(table, kev_delete(T(t), KEV_NOBODY, 10, TEXT("tall"), 6), kev_good_delete(T(t), KEV_NOBODY, 10, TEXT("tall"), 6));
    BOTH(table, kev_delete_after_ttl(T(t), KEV_NOBODY, 10, TEXT("total"), 6), kev_good_delete_after_ttl(T(t), KEV_NOBODY, 10, TEXT("total"), 6));

    struct kev_count news = kev_offer_heartbeat(T(table), 11, 7);
    CHECK(news.number == 0 && news.count == 0);
    BOTH(table, kev_offer_heartbeat(T(t), 11, 8).count, kev_good_offer_heartbeat(T(t), 11, 8).count);
    GIVES(KEV_NO_NODE, kev_offer_heartbeat(T(table), 99, 8).number);
    BOTH(table, kev_local_beat(T(t), 11), kev_good_local_beat(T(t), 11));
    GIVES(KEV_NO_NODE, kev_local_beat(T(table), 99));
    GIVES(0, kev_offer_heartbeat(T(table), 11, UINT64_MAX).number);
    mark(table);
    GIVES(KEV_EXHAUSTED, kev_local_beat(T(table), 11));
    CHECK(same(table));

    char key[2] = "a";
    for (int i = 0; i < KEV_RECORDS; i++) {
        key[0] = (char)('A' + i);
        GIVES(0, kev_write(T(table), KEV_NOBODY, 12, (const uint8_t *)key, 1, TEXT("v"), KEV_SET, 0));
    }
    mark(table);
    GIVES(KEV_NODE_FULL, kev_write(T(table), KEV_NOBODY, 12, TEXT("one more"), TEXT("v"), KEV_SET, 0));
    GIVES(KEV_NODE_FULL, kev_good_write(T(table), KEV_NOBODY, 12, TEXT("one more"), TEXT("v"), KEV_SET, 0));
    CHECK(same(table));

    struct kev_found f = kev_find(T(table), KEV_NOBODY, 10, TEXT("total"));
    CHECK(f.number == 0 && f.found == 1 && f.len == 2 && memcmp(kev_text(table.at, f), "41", 2) == 0);
    struct kev_found g = kev_good_find(T(table), KEV_NOBODY, 10, TEXT("total"));
    CHECK(memcmp(&f, &g, sizeof f) == 0);
    f = kev_find(T(table), KEV_NOBODY, 10, TEXT("tall"));
    CHECK(f.number == 0 && f.found == 0 && f.start == 0 && f.len == 0);
    GIVES(KEV_NO_NODE, kev_find(T(table), KEV_NOBODY, 99, TEXT("tall")).number);
    GIVES(KEV_TOO_LONG, kev_find(T(table), KEV_NOBODY, 10, TEXT(long_key)).number);
    struct lent places = lend(2), few = lend(1);
    struct kev_count hits = kev_list_prefix(T(table), KEV_NOBODY, 10, TEXT("t"), T(places));
    CHECK(hits.number == 0 && hits.count == 2 && places.at[0] == 1 && places.at[1] == 2);
    hits = kev_good_list_prefix(T(table), KEV_NOBODY, 10, TEXT("t"), T(places));
    CHECK(hits.number == 0 && hits.count == 2);
    GIVES(KEV_NO_PLACE, kev_list_prefix(T(table), KEV_NOBODY, 10, NO_BYTES, T(few)).number);
    CHECK(same(few));
    GIVES(KEV_TOO_LONG, kev_list_prefix(T(table), KEV_NOBODY, 10, TEXT(long_key), T(few)).number);
    GIVES(KEV_NO_NODE, kev_list_prefix(T(table), KEV_NOBODY, 99, NO_BYTES, T(few)).number);
    overrides_of(table);
    CHECK(kev_node_count(T(table)).count == 7 && kev_good_node_count(T(table)).count == 7);
    CHECK(kev_node_number(T(table), 6).node == 16 && kev_good_node_number(T(table), 6).node == 16);
    GIVES(KEV_NO_PLACE, kev_node_number(T(table), 7).number);
    GIVES(KEV_NO_PLACE, kev_good_node_number(T(table), (kev_size)-1).number);
    struct kev_header h = kev_node_header(T(table), 10), k = kev_good_node_header(T(table), 10);
    CHECK(h.number == 0 && h.max == 5 && h.last_gc == 0 && h.heartbeat == 0 && memcmp(&h, &k, sizeof h) == 0);
    GIVES(KEV_NO_NODE, kev_node_header(T(table), 99).number);
    CHECK(kev_record_count(T(table), KEV_NOBODY, 10).count == 3 && kev_good_record_count(T(table), KEV_NOBODY, 10).count == 3);
    GIVES(KEV_NO_NODE, kev_record_count(T(table), KEV_NOBODY, 99).number);
    struct kev_record r = kev_record_at(T(table), KEV_NOBODY, 10, 0), s = kev_good_record_at(T(table), KEV_NOBODY, 10, 0);
    CHECK(r.number == 0 && r.found == 1 && r.key_len == 4 && r.value_len == 0 && r.version == 4 && r.status == KEV_DELETE && r.start == 6);
    CHECK(memcmp(&r, &s, sizeof r) == 0);
    f = kev_key_at(T(table), KEV_NOBODY, 10, 0);
    CHECK(r.key_at == f.start && r.key_len == f.len);
    f = kev_value_at(T(table), KEV_NOBODY, 10, 0);
    CHECK(r.value_at == f.start && r.value_len == f.len);
    s = kev_record_of(T(table), KEV_NOBODY, 0, 0);
    CHECK(memcmp(&r, &s, sizeof r) == 0);
    s = kev_good_record_of(T(table), KEV_NOBODY, 0, 0);
    CHECK(memcmp(&r, &s, sizeof r) == 0);
    GIVES(KEV_NO_PLACE, kev_record_of(T(table), KEV_NOBODY, 0, 3).number);
    GIVES(KEV_NO_PLACE, kev_good_record_of(T(table), KEV_NOBODY, 7, 0).number);
    GIVES(KEV_NO_PLACE, kev_record_at(T(table), KEV_NOBODY, 10, 3).number);
    GIVES(KEV_NO_NODE, kev_record_at(T(table), KEV_NOBODY, 99, 0).number);
    /* rows: every record of the node, hidden ones too, as the call for one record tells it; of a prefix those that begin with it */
    struct kev_rows all = kev_node_rows(T(table), KEV_NOBODY, 10), known = kev_good_node_rows(T(table), KEV_NOBODY, 10), some;
    CHECK(all.number == 0 && all.count == 3 && memcmp(&all, &known, sizeof all) == 0);
    for (size_t i = 0; i < all.count; i++) {
        r = kev_record_at(T(table), KEV_NOBODY, 10, i);
        s = kev_row(table.at, all, i);
        CHECK(memcmp(&r, &s, sizeof r) == 0);
    }
    GIVES(KEV_NO_NODE, kev_node_rows(T(table), KEV_NOBODY, 99).number);
    GIVES(KEV_NO_NODE, kev_good_node_rows(T(table), KEV_NOBODY, 99).number);
    some = kev_prefix_rows(T(table), KEV_NOBODY, 10, TEXT("tar"));
    known = kev_good_prefix_rows(T(table), KEV_NOBODY, 10, TEXT("tar"));
    CHECK(some.number == 0 && some.count == 1 && some.at == all.at + KEV_ROW && memcmp(&some, &known, sizeof some) == 0);
    some = kev_prefix_rows(T(table), KEV_NOBODY, 10, TEXT("ta"));
    CHECK(some.number == 0 && some.count == 2 && some.at == all.at && kev_row(table.at, some, 0).status == KEV_DELETE);
    some = kev_prefix_rows(T(table), KEV_NOBODY, 10, NO_BYTES);
    CHECK(some.number == 0 && some.count == 3 && some.at == all.at);
    some = kev_prefix_rows(T(table), KEV_NOBODY, 10, TEXT("z"));
    CHECK(some.number == 0 && some.count == 0 && some.at == all.at + 3 * KEV_ROW);
    GIVES(KEV_NO_NODE, kev_prefix_rows(T(table), KEV_NOBODY, 99, TEXT("t")).number);
    GIVES(KEV_TOO_LONG, kev_prefix_rows(T(table), KEV_NOBODY, 10, TEXT(long_key)).number);
    GIVES(KEV_TOO_LONG, kev_good_prefix_rows(T(table), KEV_NOBODY, 10, TEXT(long_key)).number);
    r = kev_record_by_key(T(table), KEV_NOBODY, 10, TEXT("tariff"));
    s = kev_good_record_by_key(T(table), KEV_NOBODY, 10, TEXT("tariff"));
    CHECK(r.found == 1 && r.status == KEV_TTL && r.start == 5 && memcmp(&r, &s, sizeof r) == 0);
    CHECK(memcmp(table.at + r.key_at, "tariff", r.key_len) == 0 && memcmp(table.at + r.value_at, "night", r.value_len) == 0);
    r = kev_record_by_key(T(table), KEV_NOBODY, 10, TEXT("absent"));
    CHECK(r.number == 0 && r.found == 0 && r.version == 0);
    GIVES(KEV_TOO_LONG, kev_record_by_key(T(table), KEV_NOBODY, 10, TEXT(long_key)).number);
    GIVES(KEV_NO_NODE, kev_record_by_key(T(table), KEV_NOBODY, 99, TEXT("a")).number);
    f = kev_key_at(T(table), KEV_NOBODY, 10, 1);
    CHECK(f.found == 1 && f.len == 6 && memcmp(kev_text(table.at, f), "tariff", 6) == 0);
    f = kev_good_key_at(T(table), KEV_NOBODY, 10, 2);
    CHECK(f.found == 1 && f.len == 5 && memcmp(kev_text(table.at, f), "total", 5) == 0);
    f = kev_value_at(T(table), KEV_NOBODY, 10, 1);
    CHECK(f.found == 1 && f.len == 5 && memcmp(kev_text(table.at, f), "night", 5) == 0);
    f = kev_good_value_at(T(table), KEV_NOBODY, 10, 0);
    CHECK(f.found == 1 && f.len == 0);
    GIVES(KEV_NO_PLACE, kev_key_at(T(table), KEV_NOBODY, 10, 3).number);
    GIVES(KEV_NO_NODE, kev_value_at(T(table), KEV_NOBODY, 99, 0).number);
    BOTH(table, kev_remove_scheduled(T(t), 100, 50), kev_good_remove_scheduled(T(t), 100, 50));
    CHECK(kev_record_count(T(table), KEV_NOBODY, 10).count == 0 && kev_node_header(T(table), 10).last_gc == 5);

    /* 14 of every call on a table */
    table.at[0] = 9;
    mark(table);
    struct lent out = lend(KEV_DELTA);
    GIVES(KEV_BAD_TABLE, kev_add_node(T(table), 1));
    GIVES(KEV_BAD_TABLE, kev_remove_node(T(table), 10));
    GIVES(KEV_BAD_TABLE, kev_last_heartbeat(T(table), 10).number);
    GIVES(KEV_BAD_TABLE, kev_write(T(table), KEV_NOBODY, 10, TEXT("a"), TEXT("b"), 3, 0));
    GIVES(KEV_BAD_TABLE, kev_delete(T(table), KEV_NOBODY, 10, TEXT("a"), 0));
    GIVES(KEV_BAD_TABLE, kev_delete_after_ttl(T(table), KEV_NOBODY, 10, TEXT("a"), 0));
    GIVES(KEV_BAD_TABLE, kev_remove_scheduled(T(table), 0, 0));
    GIVES(KEV_BAD_TABLE, kev_offer_heartbeat(T(table), 10, 1).number);
    GIVES(KEV_BAD_TABLE, kev_local_beat(T(table), 10));
    GIVES(KEV_BAD_TABLE, kev_find(T(table), KEV_NOBODY, 10, TEXT("a")).number);
    GIVES(KEV_BAD_TABLE, kev_list_prefix(T(table), KEV_NOBODY, 10, TEXT("a"), T(out)).number);
    GIVES(KEV_BAD_TABLE, kev_node_count(T(table)).number);
    GIVES(KEV_BAD_TABLE, kev_node_number(T(table), 0).number);
    GIVES(KEV_BAD_TABLE, kev_node_header(T(table), 10).number);
    GIVES(KEV_BAD_TABLE, kev_record_count(T(table), KEV_NOBODY, 10).number);
    GIVES(KEV_BAD_TABLE, kev_record_at(T(table), KEV_NOBODY, 10, 0).number);
    GIVES(KEV_BAD_TABLE, kev_record_of(T(table), KEV_NOBODY, 0, 0).number);
    GIVES(KEV_BAD_TABLE, kev_node_rows(T(table), KEV_NOBODY, 10).number);
    GIVES(KEV_BAD_TABLE, kev_prefix_rows(T(table), KEV_NOBODY, 10, TEXT("a")).number);
    GIVES(KEV_BAD_TABLE, kev_record_by_key(T(table), KEV_NOBODY, 10, TEXT("a")).number);
    GIVES(KEV_BAD_TABLE, kev_key_at(T(table), KEV_NOBODY, 10, 0).number);
    GIVES(KEV_BAD_TABLE, kev_value_at(T(table), KEV_NOBODY, 10, 0).number);
    GIVES(KEV_BAD_TABLE, kev_write_digest(T(table), KEV_V0, NO_NUMBERS, T(out), 0).number);
    GIVES(KEV_BAD_TABLE, kev_compute(T(table), KEV_V0, NO_BYTES, 0, NO_NUMBERS, NO_NUMBERS, T(out), 0).number);
    GIVES(KEV_BAD_TABLE, kev_compute_plan(T(table), KEV_V0, NO_BYTES, 0, NO_NUMBERS, NO_NUMBERS, NO_NUMBERS, T(out), 0).number);
    GIVES(KEV_BAD_TABLE, kev_plan_fault(T(table), KEV_V0, NO_BYTES, 0, NO_NUMBERS, NO_NUMBERS, NO_NUMBERS).number);
    GIVES(KEV_BAD_TABLE, kev_apply(T(table), NO_BYTES, 0, T(out)).number);
    GIVES(KEV_BAD_TABLE, kev_apply_leaving(T(table), NO_NUMBERS, NO_BYTES, 0, T(out)).number);
    GIVES(KEV_BAD_TABLE, kev_check(NO_BYTES));
    CHECK(same(table) && same(out));
    give_back(table), give_back(brief), give_back(places), give_back(few), give_back(out);
}

static void peers(void) {
    struct lent a = lend(KEV_TABLE), b = lend(KEV_TABLE), digest = lend(KEV_DIGEST), delta = lend(1400), answers = lend(KEV_NODES);
    static const uint64_t ties[2] = {0, 1}, one[1] = {7};
    GIVES(0, kev_new_table(T(a), KEV_FENCED, KEV_PROFILE_FREE));
    GIVES(0, kev_new_table(T(b), KEV_FENCED, KEV_PROFILE_FREE));
    for (uint64_t node = 7; node < 9; node++) { GIVES(0, kev_add_node(T(a), node)); GIVES(0, kev_add_node(T(b), node)); }
    GIVES(0, kev_write(T(a), KEV_NOBODY, 7, TEXT("total"), TEXT("41"), KEV_SET, 0));
    GIVES(0, kev_write(T(a), KEV_NOBODY, 8, TEXT("flow"), TEXT("3"), KEV_SET, 0));

    struct kev_count d = kev_write_digest(T(b), KEV_V0, NO_NUMBERS, T(digest), 0);
    CHECK(d.number == 0 && d.count == 66);
    struct kev_count e = kev_good_write_digest(T(b), KEV_V0, one, 1, T(digest), 10);
    CHECK(e.number == 0 && e.count == 34);
    mark(digest);
    GIVES(KEV_NO_PLACE, kev_write_digest(T(b), KEV_V0, NO_NUMBERS, T(digest), 193).number);
    GIVES(KEV_NO_PLACE, kev_good_write_digest(T(b), KEV_V0, NO_NUMBERS, T(digest), KEV_DIGEST + 1).number);
    CHECK(same(digest));
    d = kev_write_digest(T(b), KEV_V0, NO_NUMBERS, T(digest), 0);
    struct kev_digest read = kev_read_digest(KEV_V0, T(digest));
    CHECK(read.number == 0 && read.count == 2 && read.rest == 66);
    struct kev_entry entry = kev_digest_entry(KEV_V0, T(digest), 1);
    CHECK(entry.number == 0 && entry.node == 8 && entry.max == 0 && entry.last_gc == 0 && entry.heartbeat == 0);
    GIVES(KEV_NO_PLACE, kev_digest_entry(KEV_V0, T(digest), 2).number);
    GIVES(KEV_NO_PLACE, kev_digest_entry(KEV_V0, T(digest), 8).number);
    GIVES(KEV_CUT, kev_read_digest(KEV_V0, digest.at, 1).number);
    GIVES(KEV_CUT, kev_digest_entry(KEV_V0, digest.at, 65, 0).number);
    CHECK(kev_digest_entry(KEV_V0, digest.at, 65, 0).need == 1 && kev_digest_entry(KEV_V0, digest.at, 0, 0).need == 2 && kev_digest_entry(KEV_V1, digest.at, 33, 1).need == 7);
    CHECK(entry.need == 0 && kev_digest_entry(KEV_V0, T(digest), 2).need == 0);
    static const uint8_t nine[2] = {9, 0};
    GIVES(KEV_TOO_MANY, kev_read_digest(KEV_V0, nine, 2).number);
    GIVES(KEV_TOO_MANY, kev_digest_entry(KEV_V0, nine, 2, 0).number);
    CHECK(kev_read_digest(KEV_V0, digest.at, 1).need == 1 && kev_read_digest(KEV_V0, digest.at, 65).need == 1);
    CHECK(kev_read_digest(KEV_V1, digest.at + 2, 64).count == 2 && kev_digest_entry(KEV_V1, digest.at + 2, 64, 1).node == 8);
    GIVES(KEV_CUT, kev_read_digest(KEV_V1, digest.at, 33).number);
    mark(digest);
    GIVES(KEV_BAD_EDITION, kev_read_digest(2, T(digest)).number);
    GIVES(KEV_BAD_EDITION, kev_digest_entry(2, T(digest), 0).number);
    GIVES(KEV_BAD_EDITION, kev_write_digest(T(b), 2, NO_NUMBERS, T(digest), 0).number);
    GIVES(KEV_BAD_EDITION, kev_good_write_digest(T(b), UINT64_MAX, NO_NUMBERS, T(digest), 0).number);
    CHECK(same(digest));
    CHECK(kev_good_write_digest(T(b), KEV_V1, NO_NUMBERS, T(digest), 0).count == 64);
    d = kev_write_digest(T(b), KEV_V0, NO_NUMBERS, T(digest), 0);

    mark(delta);
    GIVES(KEV_BAD_MTU, kev_compute(T(a), KEV_V0, digest.at, d.count, 99, NO_NUMBERS, ties, 2, T(delta), 0).number);
    GIVES(KEV_BAD_MTU, kev_good_compute(T(a), KEV_V0, digest.at, d.count, KEV_DELTA + 1, NO_NUMBERS, ties, 2, T(delta), 0).number);
    GIVES(KEV_NO_PLACE, kev_compute(T(a), KEV_V0, digest.at, d.count, 1400, NO_NUMBERS, ties, 2, T(delta), 1).number);
    GIVES(KEV_BAD_TIES, kev_compute(T(a), KEV_V0, digest.at, d.count, 1400, NO_NUMBERS, ties, 1, T(delta), 0).number);
    GIVES(KEV_CUT, kev_compute(T(a), KEV_V0, digest.at, 1, 1400, NO_NUMBERS, ties, 2, T(delta), 0).number);
    GIVES(KEV_TOO_MANY, kev_compute(T(a), KEV_V0, nine, 2, 1400, NO_NUMBERS, ties, 2, T(delta), 0).number);
    GIVES(KEV_BAD_EDITION, kev_compute(T(a), 2, digest.at, d.count, 1400, NO_NUMBERS, ties, 2, T(delta), 0).number);
    GIVES(KEV_BAD_EDITION, kev_good_compute(T(a), 2, digest.at, d.count, 1400, NO_NUMBERS, ties, 2, T(delta), 0).number);
    CHECK(kev_compute(T(a), KEV_V0, digest.at, 1, 1400, NO_NUMBERS, ties, 2, T(delta), 0).need == 1);
    CHECK(same(delta));
    struct kev_computed c = kev_good_compute(T(a), KEV_V0, digest.at, d.count, 1000, one, 1, ties, 2, T(delta), 400);
    CHECK(c.number == 0 && c.ops == 2 && c.bytes > 0);
    c = kev_compute(T(a), KEV_V0, digest.at, d.count, 1400, NO_NUMBERS, ties, 2, T(delta), 0);
    CHECK(c.number == 0 && c.ops == 4);

    /* a plan: 8 before 7, a record each; what it refuses leaves the datagram, and the line at fault is told */
    static const uint64_t eight_seven[2] = {8, 7}, ones[2] = {1, 1}, eight_zero[2] = {1, 0}, eight_twice[2] = {8, 8}, stranger[1] = {9}, two[1] = {2};
    struct lent planned = lend(1400);
#define PLAN(mtu, nodes, n, counts, k) digest.at, d.count, mtu, NO_NUMBERS, nodes, n, counts, k
    GIVES(KEV_BAD_EDITION, kev_compute_plan(T(a), 2, PLAN(99, eight_seven, 2, ones, 1), T(planned), 0).number);
    GIVES(KEV_BAD_EDITION, kev_good_compute_plan(T(a), 2, PLAN(99, eight_seven, 2, ones, 1), T(planned), 0).number);
    GIVES(KEV_BAD_MTU, kev_compute_plan(T(a), KEV_V0, PLAN(99, eight_seven, 2, ones, 1), T(planned), 1400).number);
    GIVES(KEV_BAD_MTU, kev_good_compute_plan(T(a), KEV_V0, PLAN(KEV_DELTA + 1, eight_seven, 2, ones, 1), T(planned), 1400).number);
    GIVES(KEV_NO_PLACE, kev_compute_plan(T(a), KEV_V0, PLAN(1400, eight_seven, 2, ones, 1), T(planned), 1).number);
    GIVES(KEV_CUT, kev_compute_plan(T(a), KEV_V0, digest.at, 1, 1400, NO_NUMBERS, eight_seven, 2, ones, 1, T(planned), 0).number);
    CHECK(kev_compute_plan(T(a), KEV_V0, digest.at, 1, 1400, NO_NUMBERS, eight_seven, 2, ones, 1, T(planned), 0).need == 1);
    GIVES(KEV_TOO_MANY, kev_good_compute_plan(T(a), KEV_V0, nine, 2, 1400, NO_NUMBERS, eight_seven, 2, ones, 1, T(planned), 0).number);
    GIVES(KEV_BAD_PLAN, kev_compute_plan(T(a), KEV_V0, PLAN(1400, eight_seven, 2, ones, 1), T(planned), 0).number);
    GIVES(KEV_BAD_PLAN, kev_good_compute_plan(T(a), KEV_V0, PLAN(1400, eight_seven, 2, eight_zero, 2), T(planned), 0).number);
    CHECK(same(planned));
    GIVES(KEV_BAD_EDITION, kev_plan_fault(T(a), 2, PLAN(99, eight_seven, 2, ones, 1)).number);
    GIVES(KEV_BAD_MTU, kev_good_plan_fault(T(a), KEV_V0, PLAN(99, eight_seven, 2, ones, 1)).number);
    GIVES(KEV_CUT, kev_plan_fault(T(a), KEV_V0, digest.at, 1, 1400, NO_NUMBERS, eight_seven, 2, ones, 1).number);
    CHECK(kev_plan_fault(T(a), KEV_V0, digest.at, 1, 1400, NO_NUMBERS, eight_seven, 2, ones, 1).need == 1);
    GIVES(KEV_TOO_MANY, kev_plan_fault(T(a), KEV_V0, nine, 2, 1400, NO_NUMBERS, eight_seven, 2, ones, 1).number);
#define FAULT(l, w, told) do { struct kev_judged j = (told); CHECK(given(j.number) == KEV_BAD_PLAN && j.line == (l) && j.why == (w) && j.need == 0); } while (0)
    FAULT(0, KEV_NOT_HELD, kev_plan_fault(T(a), KEV_V0, PLAN(1400, stranger, 1, ones, 1)));
    FAULT(1, KEV_EXCLUDED, kev_plan_fault(T(a), KEV_V0, digest.at, d.count, 1400, one, 1, eight_seven, 2, ones, 2));
    FAULT(1, KEV_NAMED_BEFORE, kev_good_plan_fault(T(a), KEV_V0, PLAN(1400, eight_twice, 2, ones, 2)));
    FAULT(0, KEV_COUNT_ABOVE, kev_plan_fault(T(a), KEV_V0, PLAN(1400, eight_seven, 1, two, 1)));
    FAULT(1, KEV_COUNT_ZERO, kev_plan_fault(T(a), KEV_V0, PLAN(1400, eight_seven, 2, eight_zero, 2)));
    FAULT(1, KEV_ALONE, kev_good_plan_fault(T(a), KEV_V0, PLAN(1400, eight_seven, 2, ones, 1)));
    FAULT(0, KEV_ALONE, kev_plan_fault(T(a), KEV_V0, PLAN(1400, NULL, 0, ones, 1)));
    struct kev_judged said = kev_good_plan_fault(T(a), KEV_V0, PLAN(1400, eight_seven, 2, ones, 2));
    CHECK(said.number == 0 && said.line == 0 && said.why == 0 && said.need == 0);
    struct kev_computed by_plan = kev_good_compute_plan(T(a), KEV_V0, PLAN(1000, eight_seven, 1, ones, 1), T(planned), 400);
    CHECK(by_plan.number == 0 && by_plan.ops == 2 && by_plan.bytes > 0);
    by_plan = kev_compute_plan(T(a), KEV_V0, PLAN(1400, eight_seven, 2, ones, 2), T(planned), 0);
    CHECK(by_plan.number == 0 && by_plan.ops == 4 && by_plan.bytes == c.bytes && planned.at[1] == 8);
    CHECK(kev_compute_plan(T(a), KEV_V0, PLAN(1400, NULL, 0, NULL, 0), T(planned), 0).bytes == 0);
    give_back(planned);

    struct kev_delta v = kev_read_delta(delta.at, c.bytes);
    CHECK(v.number == 0 && v.ops == 4 && v.nodes == 2 && v.at == 0);
    struct lent listing = lend(KEV_LISTING), brief = lend(10);
    struct kev_count text = kev_list_delta(delta.at, c.bytes, T(listing));
    CHECK(text.number == 0 && memcmp(listing.at, "op=node id=7 gc=0 from=0\n", 25) == 0);
    GIVES(KEV_NO_PLACE, kev_list_delta(delta.at, c.bytes, T(brief)).number);
    CHECK(same(brief));

    /* and back: the same bytes, and none behind them; then each kind of refusal, in the order in which they are asked */
    struct lent back = lend(c.bytes + 3), scant = lend(c.bytes - 1);
    struct kev_made made = kev_make_delta(listing.at, text.count, T(back));
    CHECK(made.number == 0 && made.bytes == c.bytes && made.line == 0 && made.at == 0 && made.need == 0);
    CHECK(memcmp(back.at, delta.at, c.bytes) == 0 && memcmp(back.at + c.bytes, back.was + c.bytes, 3) == 0);
    mark(back);
    made = kev_make_delta(listing.at, text.count - 1, T(back));
    CHECK(given(made.number) == KEV_BAD_LINE && made.line == 5 && made.bytes == 0 && made.at == 0 && made.need == 0);
    CHECK(kev_make_delta(NO_BYTES, T(back)).line == 1);
    made = kev_make_delta(TEXT("op=max version=5\nend=ok ops=1 bytes=9\n"), T(back));
    CHECK(given(made.number) == KEV_OUT_OF_ORDER && made.line == 0 && made.bytes == 0 && made.at == 0 && made.need == 0);
    made = kev_make_delta(TEXT("op=node id=7 gc=0 from=0\nop=node id=7 gc=0 from=0\nend=ok ops=2 bytes=50\n"), T(back));
    CHECK(given(made.number) == KEV_NODE_TWICE && made.at == 25 && made.line == 0 && made.bytes == 0 && made.need == 0);
    made = kev_make_delta(listing.at, text.count, T(scant));
    CHECK(given(made.number) == KEV_NO_PLACE && made.line == 0 && made.bytes == 0 && made.at == 0 && made.need == 0);
    CHECK(kev_make_delta(TEXT("op=max version=5\nend=ok ops=1 bytes=8\n"), NO_OUT).number == KEV_BAD_LINE);
    CHECK(kev_make_delta(TEXT("op=max version=5\nend=ok ops=1 bytes=9\n"), NO_OUT).number == KEV_OUT_OF_ORDER);
    CHECK(kev_make_delta(TEXT("end=ok ops=0 bytes=0\n"), NO_OUT).number == 0);
    CHECK(same(back) && same(scant));
    give_back(back), give_back(scant);

    /* a delta at fault, of each kind */
    struct lent bad = lend(KEV_DELTA + 1);
    mark(b), mark(answers);
    struct { uint64_t number; size_t at; size_t len; uint8_t bytes[60]; } faults[] = {
        {KEV_CUT, 0, 12, {0}},
        {KEV_TOO_LONG, 25, 30, {[25] = 1, [26] = 33}},
        {KEV_BAD_TAG, 0, 1, {3}},
        {KEV_OUT_OF_ORDER, 0, 9, {2, 5}},
        {KEV_NODE_TWICE, 25, 50, {0}},
    };
    for (size_t i = 0; i < sizeof faults / sizeof *faults; i++) {
        struct kev_delta f = kev_read_delta(faults[i].bytes, faults[i].len);
        CHECK(given(f.number) == faults[i].number && f.at == faults[i].at && f.ops == 0 && f.nodes == 0);
        size_t need = f.number == KEV_CUT ? 5 : 0;
        CHECK(f.need == need);
        struct kev_applied p = kev_apply(T(b), faults[i].bytes, faults[i].len, 5, T(answers));
        CHECK(p.number == faults[i].number && p.at == faults[i].at && p.nodes == 0 && p.need == need);
        p = kev_good_apply(T(b), faults[i].bytes, faults[i].len, 5, T(answers));
        CHECK(p.number == faults[i].number && p.at == faults[i].at && p.nodes == 0 && p.need == need);
        p = kev_apply_leaving(T(b), one, 1, faults[i].bytes, faults[i].len, 5, T(answers));
        CHECK(p.number == faults[i].number && p.at == faults[i].at && p.nodes == 0 && p.need == need);
    }
    GIVES(KEV_TOO_MANY, kev_read_delta(T(bad)).number);
    GIVES(KEV_TOO_MANY, kev_apply(T(b), T(bad), 5, T(answers)).number);
    GIVES(KEV_NO_PLACE, kev_apply(T(b), delta.at, c.bytes, 5, answers.at, 1).number);
    GIVES(KEV_NO_PLACE, kev_good_apply(T(b), delta.at, c.bytes, 5, answers.at, 1).number);
    GIVES(KEV_TOO_MANY, kev_apply_leaving(T(b), one, 1, T(bad), 5, T(answers)).number);
    GIVES(KEV_NO_PLACE, kev_apply_leaving(T(b), one, 1, delta.at, c.bytes, 5, answers.at, 1).number);
    GIVES(KEV_NO_PLACE, kev_good_apply_leaving(T(b), one, 1, delta.at, c.bytes, 5, answers.at, 1).number);
    CHECK(same(b) && same(answers));

    /* its own node is left alone, and the other is as ever; a stranger and a repeat in the list do not matter, and a node that is not held is Unknown though it is named */
    {
        static const uint64_t own[4] = {7, UINT64_MAX, 7, 9};
        struct lent left = lend(KEV_TABLE), plain = lend(KEV_TABLE);
        memcpy(left.at, b.at, KEV_TABLE), memcpy(plain.at, b.at, KEV_TABLE);
        BOTH(left, kev_apply_leaving(T(t), own, 4, delta.at, c.bytes, 5, T(answers)).number, kev_good_apply_leaving(T(t), own, 4, delta.at, c.bytes, 5, T(answers)).number);
        CHECK(answers.at[0] == KEV_ANSWER_REJECT && answers.at[1] == KEV_ANSWER_APPLY && answers.at[2] == 0xEE);
        GIVES(0, kev_apply(T(plain), delta.at, c.bytes, 5, T(answers)).number);
        enum { SLOT = (KEV_MODE_AT - 1) / KEV_NODES };
        CHECK(memcmp(left.at, b.at, 1 + SLOT) == 0 && memcmp(left.at + 1 + SLOT, plain.at + 1 + SLOT, KEV_TABLE - 1 - SLOT) == 0);
        memcpy(left.at, b.at, KEV_TABLE);
        GIVES(0, kev_apply_leaving(T(left), NO_NUMBERS, delta.at, c.bytes, 5, T(answers)).number);
        CHECK(memcmp(left.at, plain.at, KEV_TABLE) == 0 && answers.at[0] == KEV_ANSWER_APPLY);
        static uint8_t stranger[25] = {0};
        put64(stranger + 1, 9);
        GIVES(0, kev_apply_leaving(T(left), own, 4, stranger, sizeof stranger, 5, T(answers)).number);
        CHECK(answers.at[0] == KEV_ANSWER_UNKNOWN && memcmp(left.at, plain.at, KEV_TABLE) == 0);
        /* a forged delta: the highest version, under the own key */
        static uint8_t forged[25 + 9] = {0};
        put64(forged + 1, 7), forged[25] = 2, put64(forged + 26, UINT64_MAX);
        GIVES(0, kev_apply_leaving(T(left), own, 1, forged, sizeof forged, 5, T(answers)).number);
        CHECK(answers.at[0] == KEV_ANSWER_REJECT && memcmp(left.at, plain.at, KEV_TABLE) == 0);
        memset(answers.at, 0xEE, answers.len);
        give_back(left), give_back(plain);
    }
    BOTH(b, kev_apply(T(t), delta.at, c.bytes, 5, T(answers)).number, kev_good_apply(T(t), delta.at, c.bytes, 5, T(answers)).number);
    CHECK(answers.at[0] == KEV_ANSWER_APPLY && answers.at[1] == KEV_ANSWER_APPLY && answers.at[2] == 0xEE);
    struct kev_applied again = kev_apply(T(b), delta.at, c.bytes, 5, T(answers));
    CHECK(again.number == 0 && again.nodes == 2 && answers.at[0] == KEV_ANSWER_REJECT);

    /* a version of 2^64-1 cannot rise */
    static uint8_t highest[25 + 9] = {0};
    put64(highest + 1, 7);
    put64(highest + 17, 1);
    highest[25] = 2;
    put64(highest + 26, UINT64_MAX);
    CHECK(kev_apply(T(b), highest, sizeof highest, 5, T(answers)).number == 0 && answers.at[0] == KEV_ANSWER_APPLY);
    GIVES(KEV_EXHAUSTED, kev_write(T(b), KEV_NOBODY, 7, TEXT("new"), TEXT("1"), KEV_SET, 0));
    GIVES(KEV_EXHAUSTED, kev_good_delete(T(b), KEV_NOBODY, 7, TEXT("total"), 0));

    struct lent c2 = lend(KEV_TABLE);
    GIVES(0, kev_new_table(T(c2), KEV_PLAIN, KEV_PROFILE_FREE));
    GIVES(0, kev_add_node(T(c2), 7));
    mark(c2), mark(digest), mark(delta), mark(answers);
    struct kev_exchanged x = kev_exchange(T(a), T(c2), KEV_V0, 1400, NO_NUMBERS, NO_NUMBERS, ties, 1, 5, T(digest), T(delta), T(answers));
    CHECK(given(x.number) == KEV_BAD_TIES && x.step == 2 && x.ops == 0);
    x = kev_exchange(T(a), T(c2), KEV_V0, 99, NO_NUMBERS, NO_NUMBERS, ties, 2, 5, T(digest), T(delta), T(answers));
    CHECK(x.number == KEV_BAD_MTU && x.step == 2);
    x = kev_exchange(T(a), T(c2), KEV_V0, 1400, NO_NUMBERS, NO_NUMBERS, ties, 2, 5, digest.at, 3, T(delta), T(answers));
    CHECK(x.number == KEV_NO_PLACE && x.step == 1);
    x = kev_exchange(T(a), T(c2), KEV_V0, 1400, NO_NUMBERS, NO_NUMBERS, ties, 2, 5, T(digest), T(delta), answers.at, 1);
    CHECK(x.number == KEV_NO_PLACE && x.step == 3);
    x = kev_exchange(T(a), c2.at, 3, KEV_V0, 1400, NO_NUMBERS, NO_NUMBERS, ties, 2, 5, T(digest), T(delta), T(answers));
    CHECK(x.number == KEV_BAD_TABLE && x.step == 1);
    x = kev_exchange(T(a), T(c2), 2, 1400, NO_NUMBERS, NO_NUMBERS, ties, 2, 5, T(digest), T(delta), T(answers));
    CHECK(given(x.number) == KEV_BAD_EDITION);
    CHECK(same(c2) && same(digest) && same(delta) && same(answers));
    x = kev_exchange(T(a), T(c2), KEV_V0, 1400, NO_NUMBERS, NO_NUMBERS, ties, 2, 5, T(digest), T(delta), T(answers));
    CHECK(x.number == 0 && x.nodes == 2 && x.ops == 4 && x.step == 0 && answers.at[0] == KEV_ANSWER_APPLY && answers.at[1] == KEV_ANSWER_UNKNOWN);
    CHECK(kev_check(T(c2)) == 0);
    give_back(a), give_back(b), give_back(digest), give_back(delta), give_back(answers), give_back(listing), give_back(brief), give_back(bad), give_back(c2);
}

/* A write that both calls refuse with this number, and that changes nothing. */
#define REFUSES(no, table, key, value, wanted)                                     \
    do {                                                                           \
        mark(table);                                                               \
        GIVES(no, kev_write(T(table), KEV_NOBODY, 7, TEXT(key), TEXT(value), wanted, 9));      \
        GIVES(no, kev_good_write(T(table), KEV_NOBODY, 7, TEXT(key), TEXT(value), wanted, 9)); \
        CHECK(same(table));                                                        \
    } while (0)

/* Tables of the meter profile, beside free ones. */
static void meters(void) {
    struct lent meter = lend(KEV_TABLE), free_one = lend(KEV_TABLE), digest = lend(KEV_DIGEST), delta = lend(1400), answers = lend(KEV_NODES);
    static const uint64_t ties[2] = {0, 1};
    GIVES(0, kev_new_table(T(meter), KEV_GUARDED, KEV_PROFILE_METER));
    CHECK(meter.at[KEV_MODE_AT] == KEV_GUARDED && meter.at[KEV_PROFILE_AT] == KEV_PROFILE_METER);
    GIVES(0, kev_check(T(meter)));
    GIVES(0, kev_new_table(T(free_one), KEV_GUARDED, KEV_PROFILE_FREE));
    CHECK(free_one.at[KEV_PROFILE_AT] == KEV_PROFILE_FREE);
    GIVES(KEV_NO_NODE, kev_write(T(meter), KEV_NOBODY, 7, TEXT("A"), TEXT("x"), KEV_SET, 0));
    GIVES(0, kev_add_node(T(meter), 7));
    GIVES(0, kev_add_node(T(free_one), 7));

    /* forms: 17 behind 1, and in no other local call */
    REFUSES(KEV_BAD_TAG, meter, "A", "x", KEV_DELETE);
    REFUSES(KEV_TOO_LONG, meter, long_key, "x", KEV_SET);
    REFUSES(KEV_TOO_LONG, meter, "A", long_value, KEV_SET);
    REFUSES(KEV_BAD_FORM, meter, "A", "1", KEV_SET);
    REFUSES(KEV_BAD_FORM, meter, "a/b", "1", KEV_TTL);
    REFUSES(KEV_BAD_FORM, meter, "", "1", KEV_SET);
    REFUSES(KEV_BAD_FORM, meter, "a", "1.5", KEV_SET);
    REFUSES(KEV_BAD_FORM, meter, "a", "", KEV_SET);
    REFUSES(KEV_BAD_FORM, meter, "a", "12345678901", KEV_SET);
    BOTH(meter, kev_write(T(t), KEV_NOBODY, 7, TEXT("a.1"), NO_BYTES, KEV_TTL, 5), kev_good_write(T(t), KEV_NOBODY, 7, TEXT("a.1"), NO_BYTES, KEV_TTL, 5));
    BOTH(meter, kev_delete(T(t), KEV_NOBODY, 7, TEXT("A"), 5), kev_good_delete(T(t), KEV_NOBODY, 7, TEXT("A"), 5));
    GIVES(KEV_NO_KEY, kev_delete_after_ttl(T(meter), KEV_NOBODY, 7, TEXT("A"), 5));
    CHECK(kev_find(T(meter), KEV_NOBODY, 7, TEXT("A")).number == 0 && kev_find(T(meter), KEV_NOBODY, 7, TEXT("A")).found == 0);

    /* totals: by number, and only against a record that is not deleted */
    BOTH(meter, kev_write(T(t), KEV_NOBODY, 7, TEXT("total"), TEXT("0041823"), KEV_SET, 0), kev_good_write(T(t), KEV_NOBODY, 7, TEXT("total"), TEXT("0041823"), KEV_SET, 0));
    REFUSES(KEV_SMALLER_TOTAL, meter, "total", "41283", KEV_SET);
    REFUSES(KEV_SMALLER_TOTAL, meter, "total", "9", KEV_TTL);
    REFUSES(KEV_SMALLER_TOTAL, meter, "total", "", KEV_TTL);
    BOTH(meter, kev_write(T(t), KEV_NOBODY, 7, TEXT("total"), TEXT("41823"), KEV_SET, 0), kev_good_write(T(t), KEV_NOBODY, 7, TEXT("total"), TEXT("41823"), KEV_SET, 0));
    BOTH(meter, kev_write(T(t), KEV_NOBODY, 7, TEXT("total"), TEXT("9999999999"), KEV_TTL, 5), kev_good_write(T(t), KEV_NOBODY, 7, TEXT("total"), TEXT("9999999999"), KEV_TTL, 5));
    REFUSES(KEV_SMALLER_TOTAL, meter, "total", "9999999998", KEV_SET);
    GIVES(0, kev_delete_after_ttl(T(meter), KEV_NOBODY, 7, TEXT("total"), 6));
    REFUSES(KEV_SMALLER_TOTAL, meter, "total", "1", KEV_SET);
    GIVES(0, kev_delete(T(meter), KEV_NOBODY, 7, TEXT("total"), 7));
    GIVES(0, kev_write(T(meter), KEV_NOBODY, 7, TEXT("total"), TEXT("1"), KEV_SET, 0));
    GIVES(0, kev_write(T(free_one), KEV_NOBODY, 7, TEXT("total"), TEXT("5"), KEV_SET, 0));
    GIVES(0, kev_write(T(free_one), KEV_NOBODY, 7, TEXT("total"), TEXT("4"), KEV_SET, 0));
    CHECK(kev_remove_node(T(free_one), 7) == 0 && kev_add_node(T(free_one), 8) == 0 && kev_add_node(T(meter), 8) == 0);

    /* a peer's record: judged for its form, not for its size; and the exchange in one call asks the whole table before it writes */
#define EXCHANGE(from, to, ties_len) \
    kev_exchange(T(from), T(to), KEV_V0, 1400, NO_NUMBERS, NO_NUMBERS, ties, ties_len, 9, T(digest), T(delta), T(answers))
    GIVES(0, kev_write(T(free_one), KEV_NOBODY, 8, TEXT("total"), TEXT("50"), KEV_SET, 0));
    CHECK(EXCHANGE(free_one, meter, 1).nodes == 1 && answers.at[0] == KEV_ANSWER_APPLY);
    GIVES(0, kev_write(T(free_one), KEV_NOBODY, 8, TEXT("total"), TEXT("4"), KEV_SET, 0));
    CHECK(EXCHANGE(free_one, meter, 1).nodes == 1 && kev_find(T(meter), KEV_NOBODY, 8, TEXT("total")).len == 1);
    GIVES(KEV_SMALLER_TOTAL, kev_write(T(meter), KEV_NOBODY, 8, TEXT("total"), TEXT("3"), KEV_SET, 0));
    GIVES(0, kev_write(T(free_one), KEV_NOBODY, 8, TEXT("Note"), TEXT("bell broken"), KEV_SET, 0));
    mark(meter), mark(digest), mark(delta), mark(answers);
    struct kev_exchanged x = EXCHANGE(free_one, meter, 1);
    CHECK(given(x.number) == KEV_BAD_FORM && x.step == 3 && x.ops == 0 && x.bytes == 0 && x.nodes == 0);
    CHECK(EXCHANGE(free_one, meter, 0).number == KEV_BAD_TIES);
    CHECK(same(meter) && same(digest) && same(delta) && same(answers));
    CHECK(EXCHANGE(meter, free_one, 2).number == 0);
#undef EXCHANGE
    struct kev_count d = kev_write_digest(T(meter), KEV_V0, NO_NUMBERS, T(digest), 0);
    struct kev_computed c = kev_compute(T(free_one), KEV_V0, digest.at, d.count, 1400, NO_NUMBERS, ties, 1, T(delta), 0);
    CHECK(c.number == 0 && c.ops == 2);
    mark(meter), mark(answers);
    struct kev_applied applied = kev_apply(T(meter), delta.at, c.bytes, 9, T(answers));
    CHECK(given(applied.number) == KEV_BAD_FORM && applied.nodes == 0 && applied.at == 25 && applied.need == 0);
    struct kev_applied good = kev_good_apply(T(meter), delta.at, c.bytes, 9, T(answers));
    CHECK(memcmp(&applied, &good, sizeof applied) == 0 && same(meter) && same(answers));
    CHECK(kev_read_delta(delta.at, c.bytes).number == 0);

    /* the forms are rules of the table: the byte may be changed only where the records obey them */
    meter.at[KEV_PROFILE_AT] = KEV_PROFILE_FREE;
    GIVES(0, kev_check(T(meter)));
    GIVES(0, kev_write(T(meter), KEV_NOBODY, 7, TEXT("Note"), TEXT("x"), KEV_SET, 0));
    meter.at[KEV_PROFILE_AT] = KEV_PROFILE_METER;
    GIVES(KEV_BAD_TABLE, kev_check(T(meter)));
    GIVES(KEV_BAD_TABLE, kev_add_node(T(meter), 8));
    meter.at[KEV_PROFILE_AT] = 3;
    GIVES(KEV_BAD_TABLE, kev_check(T(meter)));
    give_back(meter), give_back(free_one), give_back(digest), give_back(delta), give_back(answers);
}

/* A text that this party was told of, by its front. */
static bool text_is(struct lent table, uint64_t party, uint64_t node, struct kev_found text, const char *expected) {
    const uint8_t *front = kev_party_front(T(table), party, node);
    return text.number == 0 && text.found == 1 && text.len == strlen(expected) && memcmp(kev_text(front, text), expected, text.len) == 0;
}

/* What a party is told of node 7, but for versions: the same in two tables that differ in the other's records alone. */
static void told_alike(struct lent a, struct lent b, uint64_t party, const char *key) {
    const uint8_t *name = (const uint8_t *)key;
    struct kev_found f = kev_find(T(a), party, 7, name, strlen(key)), g = kev_find(T(b), party, 7, name, strlen(key));
    CHECK(memcmp(&f, &g, sizeof f) == 0);
    struct kev_rows rows = kev_node_rows(T(a), party, 7), others = kev_node_rows(T(b), party, 7);
    CHECK(memcmp(&rows, &others, sizeof rows) == 0);
    CHECK(rows.count == kev_record_count(T(a), party, 7).count && kev_record_count(T(b), party, 7).count == rows.count);
    for (kev_size j = 0; j <= rows.count; j++) {
        struct kev_record r = kev_record_at(T(a), party, 7, j), q = kev_record_at(T(b), party, 7, j);
        struct kev_record place = kev_record_of(T(a), party, 0, j);
        CHECK(j < rows.count ? memcmp(&r, &place, sizeof r) == 0 : given(place.number) == KEV_NO_PLACE);
        r.version = q.version;
        CHECK(memcmp(&r, &q, sizeof r) == 0);
        f = kev_key_at(T(a), party, 7, j), g = kev_value_at(T(a), party, 7, j);
        if (j < rows.count) {
            struct kev_record row = kev_row(kev_party_front(T(a), party, 7), rows, j), real = kev_record_at(T(a), party, 7, j);
            CHECK(memcmp(&row, &real, sizeof row) == 0 && f.start == r.key_at && g.start == r.value_at);
        } else {
            GIVES(KEV_NO_PLACE, f.number);
        }
    }
    uint8_t places[KEV_RECORDS] = {0}, same_places[KEV_RECORDS] = {0};
    struct kev_count hits = kev_list_prefix(T(a), party, 7, NO_BYTES, places, sizeof places);
    CHECK(hits.count == kev_good_list_prefix(T(b), party, 7, NO_BYTES, same_places, sizeof same_places).count && memcmp(places, same_places, sizeof places) == 0);
}

/* Two firms on one table. */
static void firms(void) {
    struct lent shared = lend(KEV_TABLE), alone = lend(KEV_TABLE), free_one = lend(KEV_TABLE), over = lend(KEV_OVERRIDES);
    struct lent digest = lend(KEV_DIGEST), delta = lend(8000), answers = lend(KEV_NODES), places = lend(KEV_PLACES);
    static const uint64_t ties[1] = {0};
    GIVES(0, kev_new_table(T(shared), KEV_GUARDED, KEV_PROFILE_SHARED));
    CHECK(shared.at[KEV_PROFILE_AT] == KEV_PROFILE_SHARED);
    GIVES(KEV_NO_NODE, kev_write(T(shared), KEV_METERING, 7, TEXT("b/x"), TEXT("1"), KEV_SET, 0));
    GIVES(0, kev_add_node(T(shared), 7));

    /* 19 behind 1 and before 3, by every call that names a key; never for a prefix */
    mark(shared);
    GIVES(KEV_BAD_TAG, kev_write(T(shared), KEV_METERING, 7, TEXT("b/x"), TEXT("1"), KEV_DELETE, 0));
    GIVES(KEV_TOO_LONG, kev_write(T(shared), KEV_METERING, 7, TEXT("b/x"), TEXT(long_value), KEV_SET, 0));
    GIVES(KEV_OTHER_PARTY, kev_write(T(shared), KEV_METERING, 7, TEXT("b/x"), TEXT("1"), KEV_SET, 0));
    GIVES(KEV_OTHER_PARTY, kev_good_write(T(shared), KEV_BUILDING, 7, TEXT("m/x"), TEXT("1"), KEV_TTL, 0));
    GIVES(KEV_OTHER_PARTY, kev_write(T(shared), KEV_METERING, 7, TEXT("m"), TEXT("1"), KEV_SET, 0));
    GIVES(KEV_OTHER_PARTY, kev_write(T(shared), KEV_METERING, 7, NO_BYTES, NO_BYTES, KEV_SET, 0));
    GIVES(KEV_OTHER_PARTY, kev_write(T(shared), 3, 7, TEXT("m/x"), TEXT("1"), KEV_SET, 0));
    GIVES(KEV_OTHER_PARTY, kev_delete(T(shared), KEV_METERING, 7, TEXT("b/x"), 5));
    GIVES(KEV_NO_KEY, kev_delete(T(shared), KEV_METERING, 7, TEXT("m/x"), 5));
    GIVES(KEV_OTHER_PARTY, kev_delete_after_ttl(T(shared), KEV_NOBODY, 7, TEXT("m/x"), 5));
    GIVES(KEV_OTHER_PARTY, kev_find(T(shared), KEV_BUILDING, 7, TEXT("m/x")).number);
    GIVES(KEV_OTHER_PARTY, kev_good_record_by_key(T(shared), KEV_BUILDING, 7, TEXT("m/x")).number);
    CHECK(kev_list_prefix(T(shared), KEV_BUILDING, 7, TEXT("m/"), T(places)).number == 0 && kev_prefix_rows(T(shared), KEV_BUILDING, 7, TEXT("z")).number == 0);
    CHECK(same(shared));

    /* each has sixteen to itself */
    BOTH(shared, kev_write(T(t), KEV_METERING, 7, TEXT("m/total"), TEXT("41"), KEV_SET, 0), kev_good_write(T(t), KEV_METERING, 7, TEXT("m/total"), TEXT("41"), KEV_SET, 0));
    memcpy(alone.at, shared.at, shared.len);
    for (uint8_t i = 0; i < KEV_EACH; i++) {
        const uint8_t key[3] = {'b', '/', (uint8_t)('a' + i)};
        GIVES(0, kev_write(T(shared), KEV_BUILDING, 7, key, 3, TEXT("label"), KEV_TTL, 1));
    }
    mark(shared);
    GIVES(KEV_NODE_FULL, kev_write(T(shared), KEV_BUILDING, 7, TEXT("b/z"), TEXT("label"), KEV_SET, 0));
    GIVES(KEV_NODE_FULL, kev_good_write(T(shared), KEV_BUILDING, 7, TEXT("b/z"), TEXT("label"), KEV_SET, 0));
    CHECK(same(shared));
    GIVES(0, kev_write(T(shared), KEV_METERING, 7, TEXT("m/flow"), TEXT("3"), KEV_SET, 0));
    GIVES(0, kev_write(T(alone), KEV_METERING, 7, TEXT("m/flow"), TEXT("3"), KEV_SET, 0));
    GIVES(0, kev_delete(T(shared), KEV_METERING, 7, TEXT("m/flow"), 9));
    GIVES(0, kev_delete(T(alone), KEV_METERING, 7, TEXT("m/flow"), 9));
    CHECK(kev_record_count(T(shared), KEV_BUILDING, 7).count == KEV_EACH && kev_record_count(T(shared), KEV_NOBODY, 7).count == 0);

    /* what the metering firm is told does not depend on the sixteen before its records; where its bytes stand does */
    told_alike(shared, alone, KEV_METERING, "m/total");
    told_alike(shared, alone, KEV_NOBODY, "m/total");
    CHECK(text_is(shared, KEV_METERING, 7, kev_find(T(shared), KEV_METERING, 7, TEXT("m/total")), "41"));
    CHECK(text_is(alone, KEV_METERING, 7, kev_good_find(T(alone), KEV_METERING, 7, TEXT("m/total")), "41"));
    CHECK(text_is(shared, KEV_BUILDING, 7, kev_find(T(shared), KEV_BUILDING, 7, TEXT("b/c")), "label"));
    CHECK(text_is(shared, KEV_METERING, 7, kev_good_key_at(T(shared), KEV_METERING, 7, 1), "m/total"));
    CHECK(kev_front(T(shared), KEV_METERING, 7).count == KEV_EACH * KEV_ROW && kev_good_front(T(alone), KEV_METERING, 7).count == 0);
    CHECK(kev_front(T(shared), KEV_BUILDING, 7).count == 0 && kev_front(T(shared), KEV_NOBODY, 7).count == 0);
    GIVES(KEV_NO_NODE, kev_front(T(shared), KEV_METERING, 8).number);
    GIVES(KEV_BAD_TABLE, kev_front(NO_BYTES, KEV_METERING, 7).number);

    /* over labels of the site: its own keys alone */
    GIVES(0, kev_new_overrides(T(over), 7));
    GIVES(0, kev_write_override(T(over), TEXT("b/a"), TEXT("cellar"), KEV_SET, 0));
    GIVES(0, kev_write_override(T(over), TEXT("m/new"), TEXT("8"), KEV_SET, 0));
    GIVES(0, kev_write_override(T(over), TEXT("note"), TEXT("x"), KEV_SET, 0));
    struct kev_found_over f = kev_find_over(T(over), T(shared), KEV_METERING, 7, TEXT("m/total"));
    CHECK(f.found == 1 && f.over == 0 && memcmp(kev_text_over(over.at, kev_party_front(T(shared), KEV_METERING, 7), f), "41", 2) == 0);
    GIVES(KEV_OTHER_PARTY, kev_find_over(T(over), T(shared), KEV_METERING, 7, TEXT("b/a")).number);
    GIVES(KEV_OTHER_PARTY, kev_good_find_over(T(over), T(shared), KEV_METERING, 7, TEXT("note")).number);
    struct kev_listed_over l = kev_list_over(T(over), T(shared), KEV_METERING, 7, NO_BYTES, T(places));
    CHECK(l.number == 0 && l.count == 2 && places.at[0] == KEV_OVER + 1 && places.at[1] == 1);
    CHECK(kev_good_list_over(T(over), T(shared), KEV_BUILDING, 7, TEXT("b"), T(places)).count == KEV_EACH && places.at[0] == KEV_OVER && places.at[1] == 1);
    CHECK(kev_list_over(T(over), T(shared), KEV_NOBODY, 7, NO_BYTES, T(places)).count == 0);

    /* a stream: both firms' keys, Room by party, 19 for a key of neither */
    GIVES(0, kev_new_table(T(free_one), KEV_GUARDED, KEV_PROFILE_FREE));
    GIVES(0, kev_add_node(T(free_one), 7));
    for (uint8_t i = 0; i <= KEV_EACH; i++) {
        const uint8_t key[3] = {'m', '/', (uint8_t)('a' + i)};
        GIVES(0, kev_write(T(free_one), KEV_METERING, 7, key, 3, TEXT("1"), KEV_SET, 0));
    }
    GIVES(0, kev_new_table(T(alone), KEV_GUARDED, KEV_PROFILE_SHARED));
    GIVES(0, kev_add_node(T(alone), 7));
    struct kev_count d = kev_write_digest(T(alone), KEV_V0, NO_NUMBERS, T(digest), 0);
    struct kev_computed c = kev_compute(T(free_one), KEV_V0, digest.at, d.count, 8000, NO_NUMBERS, ties, 1, T(delta), 0);
    mark(alone);
    CHECK(kev_apply(T(alone), delta.at, c.bytes, 9, T(answers)).nodes == 1 && answers.at[0] == KEV_ANSWER_ROOM && same(alone));
    CHECK(kev_good_apply(T(alone), delta.at, c.bytes, 9, T(answers)).nodes == 1 && answers.at[0] == KEV_ANSWER_ROOM && same(alone));
    GIVES(0, kev_write(T(free_one), KEV_NOBODY, 7, TEXT("neither"), TEXT("1"), KEV_SET, 0));
    c = kev_compute(T(free_one), KEV_V0, digest.at, d.count, 8000, NO_NUMBERS, ties, 1, T(delta), 0);
    GIVES(KEV_OTHER_PARTY, kev_apply(T(alone), delta.at, c.bytes, 9, T(answers)).number);
    struct kev_exchanged x = kev_exchange(T(free_one), T(alone), KEV_V0, 8000, NO_NUMBERS, NO_NUMBERS, ties, 1, 9, T(digest), T(delta), T(answers));
    CHECK(given(x.number) == KEV_OTHER_PARTY && x.step == 3 && same(alone));
    x = kev_exchange(T(shared), T(alone), KEV_V0, 8000, NO_NUMBERS, NO_NUMBERS, ties, 1, 9, T(digest), T(delta), T(answers));
    CHECK(x.number == 0 && x.nodes == 1 && answers.at[0] == KEV_ANSWER_APPLY);

    /* the rules of 14 */
    shared.at[KEV_PROFILE_AT] = KEV_PROFILE_METER;
    GIVES(KEV_BAD_TABLE, kev_check(T(shared)));
    free_one.at[KEV_PROFILE_AT] = KEV_PROFILE_SHARED;
    GIVES(KEV_BAD_TABLE, kev_check(T(free_one)));
    give_back(shared), give_back(alone), give_back(free_one), give_back(over), give_back(digest), give_back(delta), give_back(answers), give_back(places);
}

/* A grid as docs/FORMAT.md has its bytes: count of columns, numbers, who is present, the rows of last_gc, the rows of max. */
enum { NUMBERS_AT = 1, PRESENT_AT = 65, GCS_AT = 73, MAXES_AT = 585 };

static void put_pair(uint8_t *grid, size_t peer, size_t column, uint64_t gc, uint64_t max) {
    put64(grid + GCS_AT + 64 * peer + 8 * column, gc);
    put64(grid + MAXES_AT + 64 * peer + 8 * column, max);
}

/* An entry of a digest: its heartbeat is no version, and is told nowhere. */
static void put_entry(uint8_t *at, uint64_t node, uint64_t gc, uint64_t max) {
    put64(at, node);
    put64(at + 8, 77);
    put64(at + 16, gc);
    put64(at + 24, max);
}

/* 14 of every call that takes this grid, though the peer, the edition, the digest and the node are no good either; nothing changes. */
static void no_grid(struct lent grid, struct lent table) {
    mark(grid), mark(table);
    GIVES(KEV_BAD_TABLE, kev_grid_add_node(T(grid), T(table), 8));
    GIVES(KEV_BAD_TABLE, kev_grid_remove_node(T(grid), T(table), 99));
    struct kev_told told = kev_tell(T(grid), KEV_PEERS, 2, NO_BYTES);
    CHECK(given(told.number) == KEV_BAD_TABLE && told.need == 0);
    GIVES(KEV_BAD_TABLE, kev_take_out(T(grid), KEV_PEERS));
    struct kev_least least = kev_least_max(T(grid), 99);
    CHECK(given(least.number) == KEV_BAD_TABLE && least.max == 0);
    struct kev_seen pair = kev_seen_by(T(grid), KEV_PEERS, 99);
    CHECK(given(pair.number) == KEV_BAD_TABLE && pair.found == 0 && pair.last_gc == 0 && pair.max == 0);
    GIVES(KEV_BAD_TABLE, kev_remove_carefully(T(grid), T(table), 1000, 0));
    CHECK(same(grid) && same(table));
}

/* 14 of every call that takes both; those that take the grid alone find nothing wrong. */
static void not_both(struct lent grid, struct lent table) {
    mark(grid), mark(table);
    GIVES(KEV_BAD_TABLE, kev_grid_add_node(T(grid), T(table), 8));
    GIVES(KEV_BAD_TABLE, kev_grid_remove_node(T(grid), T(table), 99));
    GIVES(KEV_BAD_TABLE, kev_remove_carefully(T(grid), T(table), 1000, 0));
    GIVES(0, kev_seen_by(T(grid), 0, 9).number);
    CHECK(same(grid) && same(table));
}

static void grids(void) {
    struct lent grid = lend(KEV_GRID), shorter = lend(KEV_GRID - 1), longer = lend(KEV_GRID + 1), table = lend(KEV_TABLE), digest = lend(2 + 3 * 32);
    uint8_t want[KEV_GRID] = {0};
    /* made for a table, whatever stood there; the length is asked, and the table */
    GIVES(KEV_BAD_TABLE, kev_new_grid(T(grid), T(table)));
    GIVES(KEV_BAD_TABLE, kev_check(T(grid)));
    CHECK(same(grid));
    no_grid(grid, table);
    GIVES(0, kev_new_table(T(table), KEV_PLAIN, KEV_PROFILE_FREE));
    GIVES(0, kev_add_node(T(table), 7));
    GIVES(0, kev_add_node(T(table), 9));
    no_grid(grid, table);
    GIVES(KEV_BAD_TABLE, kev_new_grid(T(shorter), T(table)));
    GIVES(KEV_BAD_TABLE, kev_new_grid(T(longer), T(table)));
    CHECK(same(shorter) && same(longer));
    mark(table);
    GIVES(0, kev_new_grid(T(grid), T(table)));
    want[0] = 2, want[NUMBERS_AT] = 7, want[NUMBERS_AT + 8] = 9;
    CHECK(memcmp(grid.at, want, KEV_GRID) == 0 && same(table));
    memcpy(shorter.at, grid.at, KEV_GRID - 1), memcpy(longer.at, grid.at, KEV_GRID), longer.at[KEV_GRID] = 0;
    no_grid(shorter, table), no_grid(longer, table);

    /* nobody is present: 22 before 2, and no record goes */
    GIVES(0, kev_write(T(table), KEV_NOBODY, 7, TEXT("lamp"), TEXT("on"), KEV_SET, 0));
    GIVES(0, kev_write(T(table), KEV_NOBODY, 7, TEXT("door"), TEXT("shut"), KEV_SET, 0));
    GIVES(0, kev_delete(T(table), KEV_NOBODY, 7, TEXT("lamp"), 100));
    mark(table), mark(grid);
    struct kev_least least = kev_least_max(T(grid), 99);
    CHECK(given(least.number) == KEV_NOBODY_PRESENT && least.max == 0);
    GIVES(KEV_NOBODY_PRESENT, kev_least_max(T(grid), 7).number);
    GIVES(KEV_NOBODY_PRESENT, kev_remove_carefully(T(grid), T(table), 1000, 0));
    struct kev_seen pair = kev_seen_by(T(grid), 7, 9);
    CHECK(pair.number == 0 && pair.found == 0 && pair.last_gc == 0 && pair.max == 0);
    CHECK(same(table));

    /* a digest that is refused: 21, 20, then its own; it makes nobody present */
    digest.at[0] = 3, digest.at[1] = 0;
    put_entry(digest.at + 2, 9, 1, 5);
    put_entry(digest.at + 34, 8, 6, 6);
    put_entry(digest.at + 66, 7, 0, 2);
    static const uint8_t nine[2] = {9, 0};
    struct kev_told told = kev_tell(T(grid), KEV_PEERS, 2, digest.at, 1);
    CHECK(given(told.number) == KEV_BAD_PEER && told.need == 0);
    GIVES(KEV_BAD_PEER, kev_tell(T(grid), UINT64_MAX, KEV_V0, T(digest)).number);
    told = kev_tell(T(grid), 3, 2, digest.at, 1);
    CHECK(given(told.number) == KEV_BAD_EDITION && told.need == 0);
    told = kev_tell(T(grid), 3, KEV_V0, digest.at, 1);
    CHECK(given(told.number) == KEV_CUT && told.need == 1);
    told = kev_tell(T(grid), 3, KEV_V0, digest.at, digest.len - 5);
    CHECK(given(told.number) == KEV_CUT && told.need == 5);
    told = kev_tell(T(grid), 3, KEV_V1, digest.at, 33);
    CHECK(given(told.number) == KEV_CUT && told.need == 7);
    told = kev_tell(T(grid), 3, KEV_V0, nine, 2);
    CHECK(given(told.number) == KEV_TOO_MANY && told.need == 0);
    CHECK(same(grid));

    /* one that is accepted: each column by its number, a stranger ignored, the peer present; in either edition */
    told = kev_tell(T(grid), 3, KEV_V0, T(digest));
    CHECK(given(told.number) == 0 && told.need == 0);
    want[PRESENT_AT + 3] = 1;
    put_pair(want, 3, 0, 0, 2), put_pair(want, 3, 1, 1, 5);
    CHECK(memcmp(grid.at, want, KEV_GRID) == 0);
    GIVES(0, kev_tell(T(grid), 7, KEV_V1, digest.at + 2, digest.len - 2).number);
    want[PRESENT_AT + 7] = 1;
    put_pair(want, 7, 0, 0, 2), put_pair(want, 7, 1, 1, 5);
    CHECK(memcmp(grid.at, want, KEV_GRID) == 0);
    /* another takes its place, also where a number falls; a node that it omits is (0,0); of a repeated node the last entry counts */
    put_entry(digest.at + 2, 9, 3, 9);
    put_entry(digest.at + 34, 9, 0, 4);
    digest.at[0] = 2;
    GIVES(0, kev_tell(T(grid), 7, KEV_V0, T(digest)).number);
    put_pair(want, 7, 0, 0, 0), put_pair(want, 7, 1, 0, 4);
    CHECK(memcmp(grid.at, want, KEV_GRID) == 0);
    mark(grid);
    pair = kev_seen_by(T(grid), 3, 9);
    CHECK(pair.number == 0 && pair.found == 1 && pair.last_gc == 1 && pair.max == 5);
    pair = kev_seen_by(T(grid), 4, 9);
    CHECK(pair.number == 0 && pair.found == 0 && pair.last_gc == 0 && pair.max == 0);
    GIVES(KEV_BAD_PEER, kev_seen_by(T(grid), KEV_PEERS, 99).number);
    GIVES(KEV_NO_NODE, kev_seen_by(T(grid), 3, 99).number);
    GIVES(KEV_NO_NODE, kev_seen_by(T(grid), 4, 8).number);
    least = kev_least_max(T(grid), 9);
    CHECK(least.number == 0 && least.max == 4);
    CHECK(kev_least_max(T(grid), 7).number == 0 && kev_least_max(T(grid), 7).max == 0);
    least = kev_least_max(T(grid), 8);
    CHECK(given(least.number) == KEV_NO_NODE && least.max == 0);

    /* a careful removal waits for the peer that told 0, then for the one that told 2: the tombstone has version 3 */
    GIVES(0, kev_remove_carefully(T(grid), T(table), 1000, 0));
    CHECK(same(table) && same(grid));
    GIVES(KEV_BAD_PEER, kev_take_out(T(grid), KEV_PEERS));
    GIVES(0, kev_take_out(T(grid), 4));
    CHECK(same(grid));
    GIVES(0, kev_take_out(T(grid), 7));
    want[PRESENT_AT + 7] = 0;
    put_pair(want, 7, 0, 0, 0), put_pair(want, 7, 1, 0, 0);
    CHECK(memcmp(grid.at, want, KEV_GRID) == 0);
    CHECK(kev_least_max(T(grid), 7).max == 2 && kev_least_max(T(grid), 9).max == 5);
    GIVES(0, kev_remove_carefully(T(grid), T(table), 1000, 0));
    CHECK(same(table));
    put_entry(digest.at + 2, 7, 0, 3);
    GIVES(0, kev_tell(T(grid), 3, KEV_V0, T(digest)).number);
    CHECK(kev_least_max(T(grid), 7).max == 3);
    GIVES(0, kev_remove_carefully(T(grid), T(table), 149, 50));
    CHECK(same(table));
    GIVES(0, kev_remove_carefully(T(grid), T(table), 150, 50));
    CHECK(kev_check(T(table)) == 0 && kev_record_count(T(table), KEV_NOBODY, 7).count == 1 && kev_node_header(T(table), 7).last_gc == 3);
    put_pair(want, 3, 0, 0, 3), put_pair(want, 3, 1, 0, 4);
    CHECK(memcmp(grid.at, want, KEV_GRID) == 0);

    /* nodes come and go, each with its column; by the plain calls alone the table would be the same */
    struct lent plain = lend(KEV_TABLE);
    memcpy(plain.at, table.at, KEV_TABLE);
    GIVES(0, kev_grid_add_node(T(grid), T(table), 8));
    GIVES(0, kev_add_node(T(plain), 8));
    want[0] = 3, want[NUMBERS_AT + 8] = 8, want[NUMBERS_AT + 16] = 9;
    put_pair(want, 3, 1, 0, 0), put_pair(want, 3, 2, 0, 4);
    CHECK(memcmp(grid.at, want, KEV_GRID) == 0 && memcmp(table.at, plain.at, KEV_TABLE) == 0);
    mark(grid), mark(table);
    GIVES(0, kev_grid_add_node(T(grid), T(table), 9));
    GIVES(KEV_NO_NODE, kev_grid_remove_node(T(grid), T(table), 10));
    CHECK(same(grid) && same(table));
    GIVES(0, kev_offer_heartbeat(T(table), 7, 33).number);
    GIVES(0, kev_offer_heartbeat(T(plain), 7, 33).number);
    GIVES(0, kev_grid_remove_node(T(grid), T(table), 7));
    GIVES(0, kev_remove_node(T(plain), 7));
    want[0] = 2, want[NUMBERS_AT] = 8, want[NUMBERS_AT + 8] = 9, want[NUMBERS_AT + 16] = 0;
    put_pair(want, 3, 0, 0, 0), put_pair(want, 3, 1, 0, 4), put_pair(want, 3, 2, 0, 0);
    CHECK(memcmp(grid.at, want, KEV_GRID) == 0 && memcmp(table.at, plain.at, KEV_TABLE) == 0);
    CHECK(kev_last_heartbeat(T(table), 7).heartbeat == 33);
    for (uint64_t node = 10; node < 16; node++) GIVES(0, kev_grid_add_node(T(grid), T(table), node));
    mark(grid), mark(table);
    GIVES(KEV_NINTH_NODE, kev_grid_add_node(T(grid), T(table), 99));
    GIVES(0, kev_grid_add_node(T(grid), T(table), 15));
    CHECK(same(grid) && same(table) && grid.at[0] == KEV_NODES);
    for (uint64_t node = 10; node < 16; node++) GIVES(0, kev_grid_remove_node(T(grid), T(table), node));
    CHECK(memcmp(grid.at, want, KEV_GRID) == 0 && kev_check(T(table)) == 0);

    /* a node that came or went past the grid is 14 for the calls with both; one that went and came again is not seen */
    GIVES(0, kev_add_node(T(table), 1));
    not_both(grid, table);
    GIVES(0, kev_remove_node(T(table), 1));
    GIVES(0, kev_remove_node(T(table), 8));
    not_both(grid, table);
    GIVES(0, kev_add_node(T(table), 8));
    GIVES(0, kev_remove_node(T(table), 9));
    GIVES(0, kev_add_node(T(table), 9));
    GIVES(0, kev_remove_carefully(T(grid), T(table), 1000, 0));
    CHECK(kev_seen_by(T(grid), 3, 9).max == 4);
    /* and so with a table that is none */
    table.at[KEV_MODE_AT] = 3;
    not_both(grid, table);
    table.at[KEV_MODE_AT] = KEV_PLAIN;

    /* each rule of a grid, broken at one byte */
    static const struct { size_t at; uint8_t byte; } broken[] = {
        {0, 9},                            /* nine columns */
        {0, 1},                            /* a number and a pair behind the last column */
        {NUMBERS_AT, 9},                   /* the same number twice */
        {NUMBERS_AT, 10},                  /* numbers that fall */
        {NUMBERS_AT + 16, 1},              /* a number behind the last column */
        {PRESENT_AT + 1, 2},               /* neither present nor absent */
        {GCS_AT, 1}, {MAXES_AT + 8, 1},    /* a pair of an absent peer */
        {GCS_AT + 64 * 3 + 8 * 2, 1},      /* a pair behind the last column */
        {MAXES_AT + 64 * 3 + 8 * 7 + 7, 1},
    };
    for (size_t i = 0; i < sizeof broken / sizeof *broken; i++) {
        const uint8_t was = grid.at[broken[i].at];
        grid.at[broken[i].at] = broken[i].byte;
        no_grid(grid, table);
        grid.at[broken[i].at] = was;
    }
    GIVES(0, kev_take_out(T(grid), 3));
    /* a grid is no table, and a table is no grid */
    mark(grid), mark(table);
    mark(longer);
    GIVES(KEV_BAD_TABLE, kev_new_grid(longer.at, KEV_GRID, T(grid)));
    CHECK(same(longer));
    GIVES(KEV_BAD_TABLE, kev_tell(T(table), 0, KEV_V0, T(digest)).number);
    GIVES(KEV_BAD_TABLE, kev_remove_carefully(T(table), T(grid), 1000, 0));
    CHECK(same(grid) && same(table));
    give_back(grid), give_back(shorter), give_back(longer), give_back(table), give_back(digest), give_back(plain);
}

/* A delta of one node with one record, Set: 25 bytes of its Node, then tag, version, status and two texts. */
static size_t one_record(uint8_t *delta, uint64_t node, uint64_t gc, uint64_t from, uint64_t version, const char *key) {
    const size_t key_len = strlen(key);
    memset(delta, 0, 25 + 14 + key_len);
    put64(delta + 1, node), put64(delta + 9, gc), put64(delta + 17, from);
    delta[25] = 1;
    delta[26] = (uint8_t)key_len;
    memcpy(delta + 28, key, key_len);
    put64(delta + 30 + key_len, version);
    return 25 + 14 + key_len;
}

/* Applies a delta of one node with and without the check: the answer. */
static unsigned answered(struct lent table, const uint8_t *delta, size_t len) {
    struct lent answers = lend(1), copy = lend(table.len);
    memcpy(copy.at, table.at, table.len);
    struct kev_applied told = kev_apply(T(table), delta, len, 5, T(answers));
    unsigned answer = answers.at[0];
    CHECK(told.number == 0 && told.nodes == 1 && kev_check(T(table)) == 0);
    answers.at[0] = 0xEE;
    told = kev_good_apply(T(copy), delta, len, 5, T(answers));
    CHECK(told.number == 0 && told.nodes == 1 && answers.at[0] == answer && memcmp(copy.at, table.at, table.len) == 0);
    give_back(answers), give_back(copy);
    return answer;
}

/* Every answer, in every mode. */
static void answers_to_deltas(void) {
    uint8_t delta[100];
    for (unsigned mode = KEV_PLAIN; mode <= KEV_GUARDED; mode++) {
        struct lent t = lend(KEV_TABLE);
        GIVES(0, kev_new_table(T(t), mode, KEV_PROFILE_FREE));
        GIVES(0, kev_add_node(T(t), 7));
        mark(t);
        CHECK(answered(t, delta, one_record(delta, 8, 0, 0, 1, "a")) == KEV_ANSWER_UNKNOWN);
        CHECK(answered(t, delta, one_record(delta, 7, 0, 9, 10, "a")) == KEV_ANSWER_REJECT);
        CHECK(same(t));
        CHECK(answered(t, delta, one_record(delta, 7, 0, 0, 1, "a")) == KEV_ANSWER_APPLY);
        CHECK(kev_find(T(t), KEV_NOBODY, 7, TEXT("a")).found == 1 && kev_node_header(T(t), 7).max == 1);
        mark(t);
        CHECK(answered(t, delta, one_record(delta, 7, 0, 0, 1, "a")) == KEV_ANSWER_REJECT);
        CHECK(same(t));

        /* its sender has removed up to 5: the node begins afresh, and a is gone */
        CHECK(answered(t, delta, one_record(delta, 7, 5, 0, 3, "b")) == KEV_ANSWER_APPLY_AFTER_RESET);
        struct kev_header header = kev_node_header(T(t), 7);
        CHECK(header.last_gc == 5 && header.max == 3);
        CHECK(kev_find(T(t), KEV_NOBODY, 7, TEXT("a")).found == 0 && kev_find(T(t), KEV_NOBODY, 7, TEXT("b")).found == 1);

        /* older than that reset: taken by a plain node alone */
        struct lent before = lend(KEV_TABLE);
        memcpy(before.at, t.at, t.len);
        mark(t);
        CHECK(answered(t, delta, one_record(delta, 7, 0, 3, 4, "a")) == (mode == KEV_PLAIN ? KEV_ANSWER_APPLY : KEV_ANSWER_FENCED));
        CHECK(mode == KEV_PLAIN ? kev_find(T(t), KEV_NOBODY, 7, TEXT("a")).found == 1 : same(t));
        /* one that reaches it, of a sender that has removed less: Fenced by a fenced node alone */
        memcpy(t.at, before.at, t.len);
        CHECK(answered(t, delta, one_record(delta, 7, 0, 3, 6, "a")) == (mode == KEV_FENCED ? KEV_ANSWER_FENCED : KEV_ANSWER_APPLY));
        CHECK(mode == KEV_FENCED ? same(t) : kev_node_header(T(t), 7).max == 6);

        /* a 33rd key: the node stays as it is */
        GIVES(0, kev_add_node(T(t), 9));
        for (uint8_t key = 'A'; key < 'A' + KEV_RECORDS; key++) GIVES(0, kev_write(T(t), KEV_NOBODY, 9, &key, 1, NO_BYTES, KEV_SET, 0));
        mark(t);
        CHECK(answered(t, delta, one_record(delta, 9, 0, KEV_RECORDS, KEV_RECORDS + 1, "new")) == KEV_ANSWER_ROOM);
        CHECK(same(t));
        CHECK(answered(t, delta, one_record(delta, 9, 0, KEV_RECORDS, KEV_RECORDS + 1, "A")) == KEV_ANSWER_APPLY);
        give_back(t), give_back(before);
    }
}

/* A length of 0 with NULL for each lent part in its turn, where the call must not so much as look at it. */
static void null_parts(void) {
    struct lent t = lend(KEV_TABLE), over = lend(KEV_OVERRIDES), grid = lend(KEV_GRID), out = lend(1400), digest = lend(KEV_DIGEST), answers = lend(KEV_NODES);
    static const uint64_t tie[1] = {0};
    GIVES(0, kev_new_table(T(t), KEV_GUARDED, KEV_PROFILE_FREE));
    GIVES(0, kev_add_node(T(t), 7));
    GIVES(0, kev_new_overrides(T(over), 7));
    GIVES(0, kev_new_grid(T(grid), T(t)));
    /* the empty key and the empty value are a key and a value */
    BOTH(t, kev_write(T(t), KEV_NOBODY, 7, NO_BYTES, NO_BYTES, KEV_SET, 0), kev_good_write(T(t), KEV_NOBODY, 7, NO_BYTES, NO_BYTES, KEV_SET, 0));
    struct kev_found found = kev_find(T(t), KEV_NOBODY, 7, NO_BYTES);
    CHECK(found.found == 1 && found.len == 0 && kev_good_find(T(t), KEV_NOBODY, 7, NO_BYTES).start == found.start);
    CHECK(kev_record_by_key(T(t), KEV_NOBODY, 7, NO_BYTES).found == 1 && kev_good_record_by_key(T(t), KEV_NOBODY, 7, NO_BYTES).found == 1);
    CHECK(kev_prefix_rows(T(t), KEV_NOBODY, 7, NO_BYTES).count == 1 && kev_good_prefix_rows(T(t), KEV_NOBODY, 7, NO_BYTES).count == 1);
    CHECK(kev_list_prefix(T(t), KEV_NOBODY, 7, NO_BYTES, T(out)).count == 1 && kev_good_list_prefix(T(t), KEV_NOBODY, 7, NO_BYTES, T(out)).count == 1);
    GIVES(KEV_NO_PLACE, kev_list_prefix(T(t), KEV_NOBODY, 7, NO_BYTES, NO_OUT).number);
    GIVES(KEV_NO_PLACE, kev_good_list_prefix(T(t), KEV_NOBODY, 7, NO_BYTES, NO_OUT).number);
    GIVES(0, kev_write_override(T(over), NO_BYTES, NO_BYTES, KEV_SET, 0));
    CHECK(kev_find_over(T(over), T(t), KEV_NOBODY, 7, NO_BYTES).over == 1 && kev_good_find_over(T(over), T(t), KEV_NOBODY, 7, NO_BYTES).over == 1);
    CHECK(kev_list_over(T(over), T(t), KEV_NOBODY, 7, NO_BYTES, T(out)).count == 1 && kev_good_list_over(T(over), T(t), KEV_NOBODY, 7, NO_BYTES, T(out)).count == 1);
    GIVES(KEV_NO_PLACE, kev_list_over(T(over), T(t), KEV_NOBODY, 7, NO_BYTES, NO_OUT).number);
    GIVES(0, kev_delete_override_after_ttl(T(over), NO_BYTES, 5));
    GIVES(0, kev_delete_override(T(over), NO_BYTES, 5));
    /* digests, deltas, plans and listings */
    GIVES(KEV_NO_PLACE, kev_write_digest(T(t), KEV_V0, NO_NUMBERS, NO_OUT, 0).number);
    CHECK(kev_write_digest(T(t), KEV_V1, NO_NUMBERS, T(digest), 0).count == 32);
    GIVES(0, kev_read_digest(KEV_V1, NO_BYTES).number);
    GIVES(KEV_CUT, kev_read_digest(KEV_V0, NO_BYTES).number);
    GIVES(KEV_NO_PLACE, kev_digest_entry(KEV_V1, NO_BYTES, 0).number);
    struct kev_computed sent = kev_compute(T(t), KEV_V1, NO_BYTES, 100, NO_NUMBERS, tie, 1, T(out), 0);
    CHECK(sent.number == 0 && sent.ops == 2 && kev_good_compute(T(t), KEV_V1, NO_BYTES, 100, NO_NUMBERS, tie, 1, T(out), 0).bytes == sent.bytes);
    GIVES(KEV_BAD_TIES, kev_compute(T(t), KEV_V1, NO_BYTES, 100, NO_NUMBERS, NO_NUMBERS, T(out), 0).number);
    GIVES(KEV_NO_PLACE, kev_compute(T(t), KEV_V1, NO_BYTES, 100, NO_NUMBERS, tie, 1, NO_OUT, 0).number);
    GIVES(0, kev_compute_plan(T(t), KEV_V1, NO_BYTES, 100, NO_NUMBERS, NO_NUMBERS, NO_NUMBERS, T(out), 0).number);
    GIVES(KEV_BAD_PLAN, kev_compute_plan(T(t), KEV_V1, NO_BYTES, 100, NO_NUMBERS, tie, 1, NO_NUMBERS, T(out), 0).number);
    GIVES(0, kev_plan_fault(T(t), KEV_V1, NO_BYTES, 100, NO_NUMBERS, NO_NUMBERS, NO_NUMBERS).number);
    GIVES(0, kev_read_delta(NO_BYTES).number);
    mark(t);
    GIVES(0, kev_apply(T(t), NO_BYTES, 5, NO_OUT).number);
    GIVES(0, kev_good_apply(T(t), NO_BYTES, 5, NO_OUT).number);
    CHECK(same(t));
    GIVES(KEV_NO_PLACE, kev_list_delta(NO_BYTES, NO_OUT).number);
    GIVES(KEV_BAD_LINE, kev_make_delta(NO_BYTES, NO_OUT).number);
    struct lent other = lend(KEV_TABLE);
    GIVES(0, kev_new_table(T(other), KEV_GUARDED, KEV_PROFILE_FREE));
    GIVES(KEV_NO_PLACE, kev_exchange(T(t), T(other), KEV_V0, 100, NO_NUMBERS, NO_NUMBERS, NO_NUMBERS, 5, NO_OUT, NO_OUT, NO_OUT).number);
    give_back(other);
    GIVES(0, kev_tell(T(grid), 0, KEV_V1, NO_BYTES).number);
    GIVES(0, kev_delete_after_ttl(T(t), KEV_NOBODY, 7, NO_BYTES, 5));
    GIVES(0, kev_delete(T(t), KEV_NOBODY, 7, NO_BYTES, 5));
    /* what is no table, no overrides and no grid */
    GIVES(KEV_BAD_TABLE, kev_check(NO_BYTES));
    GIVES(KEV_BAD_TABLE, kev_new_table(NO_OUT, KEV_PLAIN, KEV_PROFILE_FREE));
    GIVES(KEV_BAD_TABLE, kev_add_node(NO_OUT, 7));
    GIVES(KEV_BAD_TABLE, kev_remove_node(NO_OUT, 7));
    GIVES(KEV_BAD_TABLE, kev_last_heartbeat(NO_BYTES, 7).number);
    GIVES(KEV_BAD_TABLE, kev_write(NO_OUT, KEV_NOBODY, 7, NO_BYTES, NO_BYTES, KEV_SET, 0));
    GIVES(KEV_BAD_TABLE, kev_remove_scheduled(NO_OUT, 5, 5));
    GIVES(KEV_BAD_TABLE, kev_offer_heartbeat(NO_OUT, 7, 5).number);
    GIVES(KEV_BAD_TABLE, kev_local_beat(NO_OUT, 7));
    GIVES(KEV_BAD_TABLE, kev_find(NO_BYTES, KEV_NOBODY, 7, NO_BYTES).number);
    GIVES(KEV_BAD_TABLE, kev_node_count(NO_BYTES).number);
    GIVES(KEV_BAD_TABLE, kev_node_rows(NO_BYTES, KEV_NOBODY, 7).number);
    GIVES(KEV_BAD_TABLE, kev_apply(NO_OUT, NO_BYTES, 5, NO_OUT).number);
    GIVES(KEV_BAD_TABLE, kev_check_overrides(NO_BYTES));
    GIVES(KEV_BAD_TABLE, kev_new_overrides(NO_OUT, 7));
    GIVES(KEV_BAD_TABLE, kev_find_over(NO_BYTES, NO_BYTES, KEV_NOBODY, 7, NO_BYTES).number);
    GIVES(KEV_BAD_TABLE, kev_new_grid(NO_OUT, T(t)));
    GIVES(KEV_BAD_TABLE, kev_remove_carefully(NO_BYTES, NO_OUT, 5, 5));
    give_back(t), give_back(over), give_back(grid), give_back(out), give_back(digest), give_back(answers);
}

/* The listing of a table, and the nodes of a delta. */
static bool listed(struct lent table, const char *text) {
    struct lent out = lend(KEV_TABLE_LISTING), exact = lend(strlen(text)), brief = lend(strlen(text) - 1);
    mark(table);
    struct kev_count told = kev_list_table(T(table), T(out));
    bool ok = told.number == 0 && told.count == strlen(text) && memcmp(out.at, text, told.count) == 0;
    ok = ok && memcmp(out.at + told.count, out.was + told.count, out.len - told.count) == 0;
    told = kev_list_table(T(table), T(exact));
    ok = ok && told.number == 0 && told.count == exact.len && memcmp(exact.at, text, exact.len) == 0;
    told = kev_list_table(T(table), T(brief));
    ok = ok && given(told.number) == KEV_NO_PLACE && told.count == 0 && same(brief) && same(table);
    give_back(out), give_back(exact), give_back(brief);
    return ok;
}

static void looks(void) {
    struct lent t = lend(KEV_TABLE), cut = lend(KEV_TABLE - 1);
    const char *kinds[3][3] = {
        {"mode=plain profile=free", "mode=plain profile=meter", "mode=plain profile=shared"},
        {"mode=fenced profile=free", "mode=fenced profile=meter", "mode=fenced profile=shared"},
        {"mode=guarded profile=free", "mode=guarded profile=meter", "mode=guarded profile=shared"},
    };
    char text[1000];
    for (uint64_t mode = 0; mode < 3; mode++) {
        for (uint64_t profile = 0; profile < 3; profile++) {
            GIVES(0, kev_new_table(T(t), mode, profile));
            snprintf(text, sizeof text, "%s\nend=ok nodes=0 records=0 removed=0\n", kinds[mode][profile]);
            CHECK(listed(t, text));
            GIVES(0, kev_add_node(T(t), 7));
            GIVES(0, kev_add_node(T(t), 9));
            GIVES(0, kev_local_beat(T(t), 9));
            GIVES(0, kev_remove_node(T(t), 9));
            if (profile == KEV_PROFILE_METER)
                GIVES(0, kev_write(T(t), KEV_METERING, 7, TEXT("flat.1"), TEXT("41"), KEV_TTL, 6));
            else
                GIVES(0, kev_write(T(t), KEV_METERING, 7, TEXT("m/\n"), TEXT("41"), KEV_TTL, 6));
            snprintf(
                text, sizeof text,
                "%s\nnode=7 heartbeat=0 max=1 gc=0\nkey=%s value=41 version=1 status=ttl start=6\nremoved=9 heartbeat=1\nend=ok nodes=1 records=1 removed=1\n",
                kinds[mode][profile], profile == KEV_PROFILE_METER ? "flat.1" : "m/%0A");
            CHECK(listed(t, text));
        }
    }
    /* what is wrong, from the last to the first that has a name */
    uint8_t *tail = t.at + 29705;
    tail[2] = 17;
    CHECK(listed(t, "end=refused code=14\n"));
    tail[1] = 3;
    CHECK(listed(t, "end=refused code=14 profile=3\n"));
    tail[0] = 3;
    CHECK(listed(t, "end=refused code=14 mode=3\n"));
    t.at[33] = 33;
    CHECK(listed(t, "end=refused code=14 place=0\n"));
    t.at[0] = 9;
    CHECK(listed(t, "end=refused code=14 nodes=9\n"));
    CHECK(listed(cut, "end=refused code=14 length=29963\n"));
    struct lent none = lend(0);
    CHECK(listed(none, "end=refused code=14 length=0\n"));
    give_back(none);
    GIVES(KEV_NO_PLACE, kev_list_table(NO_BYTES, NO_OUT).number);
    give_back(t), give_back(cut);

    /* Node 9 with a SetMaxVersion, then Node 7 */
    static const uint8_t two[59] = {[1] = 9, [25] = 2, [26] = 5, [35] = 7};
    static const uint64_t untouched[3] = {5, 5, 5};
    uint64_t numbers[3] = {5, 5, 5};
    struct kev_applied named = kev_delta_nodes(two, sizeof two, numbers, 3);
    CHECK(named.number == 0 && named.nodes == 2 && named.at == 0 && named.need == 0 && numbers[0] == 9 && numbers[1] == 7 && numbers[2] == 5);
    numbers[0] = numbers[1] = 5;
    named = kev_delta_nodes(two, sizeof two, numbers, 1);
    CHECK(given(named.number) == KEV_NO_PLACE && named.nodes == 0 && named.at == 0 && memcmp(numbers, untouched, sizeof numbers) == 0);
    named = kev_delta_nodes(two, sizeof two, numbers, 2);
    CHECK(named.number == 0 && numbers[1] == 7 && numbers[2] == 5);
    numbers[0] = numbers[1] = 5;
    struct { uint64_t number; size_t at; size_t len; uint8_t bytes[60]; } faults[] = {
        {KEV_CUT, 0, 12, {0}},
        {KEV_TOO_LONG, 25, 30, {[25] = 1, [26] = 33}},
        {KEV_BAD_TAG, 0, 1, {3}},
        {KEV_OUT_OF_ORDER, 0, 9, {2, 5}},
        {KEV_NODE_TWICE, 25, 50, {0}},
    };
    for (size_t i = 0; i < sizeof faults / sizeof *faults; i++) {
        named = kev_delta_nodes(faults[i].bytes, faults[i].len, NO_OUT);
        CHECK(given(named.number) == faults[i].number && named.at == faults[i].at && named.nodes == 0 && named.need == (named.number == KEV_CUT ? 5 : 0));
        CHECK(kev_delta_nodes(faults[i].bytes, faults[i].len, numbers, 3).number == faults[i].number);
    }
    struct lent much = lend(KEV_DELTA + 1);
    GIVES(KEV_TOO_MANY, kev_delta_nodes(T(much), numbers, 3).number);
    CHECK(memcmp(numbers, untouched, sizeof numbers) == 0);
    give_back(much);
    GIVES(0, kev_delta_nodes(NO_BYTES, NO_OUT).number);
}

int main(void) {
    local_calls();
    peers();
    meters();
    firms();
    answers_to_deltas();
    null_parts();
    grids();
    looks();
    for (int number = 0; number < 24; number++) CHECK(seen[number]);
    printf("every.c: %lu checks held, %lu failed\n", held, failed);
    return failed ? 1 : 0;
}
