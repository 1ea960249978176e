/* Arrays of other lengths than they must have, tables that are not exact, and numbers that name no rule or way: each is answered with 255, and nothing is
 * changed. */
#include <stdio.h>
#include <string.h>
#include "ior.h"

static uint32_t table[IOR_TABLE + 1], before[IOR_TABLE + 1], name[5], pair[3];
static uint64_t answer[IOR_ANSWER + 1];
static uint8_t source[8], output[16];
static int failures;

static void dirty(void) {
    memset(table, 0xA5, sizeof table), memset(name, 0xA5, sizeof name), memset(pair, 0xA5, sizeof pair);
    memset(answer, 0xA5, sizeof answer), memset(output, 0xA5, sizeof output), memcpy(before, table, sizeof table);
}

static int is_dirty(const void *p, size_t n) {
    for (size_t i = 0; i < n; i++)
        if (((const uint8_t *)p)[i] != 0xA5) return 0;
    return 1;
}

static void expect(const char *what, uint32_t result) {
    if (result == IOR_NOT_ASKED && memcmp(table, before, sizeof table) == 0 && is_dirty(name, sizeof name) && is_dirty(pair, sizeof pair)
        && is_dirty(answer, sizeof answer) && is_dirty(output, sizeof output)) return;
    printf("%s: result %u, or an array was changed\n", what, (unsigned)result);
    failures++;
}

/* An empty table but for one number, in an entry that is used. */
static void inexact(const char *what, size_t used, size_t at, uint32_t value, uint32_t sort) {
    dirty();
    memset(table, 0, sizeof table);
    table[used] = 1;
    if (used == IOR_PROFILES_USED) table[IOR_PROFILE_START] = sort;
    table[at] = value;
    memcpy(before, table, sizeof table);
    expect(what, ior_length(table, IOR_TABLE, source, 8, answer, IOR_ANSWER));
    expect(what, ior_write(table, IOR_TABLE, source, 8, output, 16, answer, IOR_ANSWER));
    expect(what, ior_first_biop(table, IOR_TABLE, answer, IOR_ANSWER));
    for (uint32_t rule = IOR_RULE_MULTIPLE; rule <= IOR_RULE_GAP; rule++) {
        expect(what, ior_length_by(rule, table, IOR_TABLE, source, 8, answer, IOR_ANSWER));
        expect(what, ior_write_by(rule, IOR_WAY_CONSTANTS, table, IOR_TABLE, source, 8, output, 16, answer, IOR_ANSWER));
    }
}

/* The four functions that name a rule, with a table and an answer of these lengths. */
static void expect_by(uint32_t rule, size_t t, size_t a) {
    expect("ior_read_by", ior_read_by(rule, source, 8, table, t, answer, a));
    expect("ior_read_whole_by", ior_read_whole_by(rule, source, 8, table, t, answer, a));
    expect("ior_length_by", ior_length_by(rule, table, t, source, 8, answer, a));
    expect("ior_write_by", ior_write_by(rule, IOR_WAY_CONSTANTS, table, t, source, 8, output, 16, answer, a));
}

/* Numbers beside those that name a rule or a way, and with them in the lowest octet alone. The arrays are as they must be, and the table is an empty one. */
static void unnamed(void) {
    static const uint32_t numbers[] = {0, 3, 255, 256, 257, 258, 0x80000001, 0xFFFFFFFF};
    dirty();
    memset(table, 0, sizeof table), memcpy(before, table, sizeof table);
    for (size_t i = 0; i < 8; i++) {
        expect_by(numbers[i], IOR_TABLE, IOR_ANSWER);
        for (uint32_t rule = 0; rule <= IOR_RULE_GAP + 1; rule++)
            expect("ior_write_by, way", ior_write_by(rule, numbers[i], table, IOR_TABLE, source, 8, output, 16, answer, IOR_ANSWER));
    }
    expect("ior_write_by, way 2", ior_write_by(IOR_RULE_MULTIPLE, 2, table, IOR_TABLE, source, 8, output, 16, answer, IOR_ANSWER));
    expect("ior_write_by, way 2", ior_write_by(IOR_RULE_GAP, 2, table, IOR_TABLE, source, 8, output, 16, answer, IOR_ANSWER));
}

int main(void) {
    static const size_t lengths[] = {0, 1, 2, 3, 4, 5, 6, 7, 489, 490, 491};
    for (size_t i = 0; i < 11; i++)
        for (size_t j = 0; j < 8; j++) {
            size_t t = lengths[i], a = lengths[j];
            dirty();
            if (t != IOR_TABLE || a != IOR_ANSWER) {
                expect("ior_read", ior_read(source, 8, table, t, answer, a));
                expect("ior_read_whole", ior_read_whole(source, 8, table, t, answer, a));
                expect("ior_length", ior_length(table, t, source, 8, answer, a));
                expect("ior_write", ior_write(table, t, source, 8, output, 16, answer, a));
                expect("ior_first_biop", ior_first_biop(table, t, answer, a));
                expect_by(IOR_RULE_MULTIPLE, t, a);
                expect_by(IOR_RULE_GAP, t, a);
            }
            if (t <= 5 && (t != 4 || a != IOR_ANSWER)) {
                expect("ior_name_read", ior_name_read(source, 8, name, t, answer, a));
                expect("ior_name_write", ior_name_write(name, t, source, 8, output, 16, answer, a));
            }
            if (t <= 3 && t != 1) expect("ior_kind", ior_kind(source, 4, pair, t));
            if (t <= 3 && t != 2) expect("ior_tap", ior_tap(0x16, source, 8, pair, t));
        }
    dirty();
    expect("ior_tap, use", ior_tap(0x10016, source, 8, pair, 2));
    for (size_t n = 0; n <= 8; n++) expect("ior_dvb_address", ior_dvb_address(source, n));

    unnamed();
    inexact("sort", IOR_PROFILES_USED, IOR_PROFILE_START, 3, 3);
    inexact("module", IOR_PROFILES_USED, IOR_PROFILE_START + IOR_BIOP_MODULE, 65536, IOR_BIOP);
    inexact("major", IOR_PROFILES_USED, IOR_PROFILE_START + IOR_BIOP_MAJOR, 256, IOR_BIOP);
    inexact("minor", IOR_PROFILES_USED, IOR_PROFILE_START + IOR_BIOP_MINOR, 256, IOR_BIOP);
    inexact("specifier", IOR_PROFILES_USED, IOR_PROFILE_START + IOR_LITE_SPECIFIER, 1 << 24, IOR_LITE_OPTIONS);
    inexact("transport stream", IOR_PROFILES_USED, IOR_PROFILE_START + IOR_LITE_TRANSPORT_STREAM, 65536, IOR_LITE_OPTIONS);
    inexact("network", IOR_PROFILES_USED, IOR_PROFILE_START + IOR_LITE_NETWORK, 65536, IOR_LITE_OPTIONS);
    inexact("service", IOR_PROFILES_USED, IOR_PROFILE_START + IOR_LITE_SERVICE, 65536, IOR_LITE_OPTIONS);
    inexact("tap id", IOR_TAPS_USED, IOR_TAP_START + IOR_TAP_ID, 65536, 0);
    inexact("tap use", IOR_TAPS_USED, IOR_TAP_START + IOR_TAP_USE, 65536, 0);
    inexact("tap association", IOR_TAPS_USED, IOR_TAP_START + IOR_TAP_ASSOCIATION, 65536, 0);
    printf("lengths: %d failures\n", failures);
    return failures != 0;
}
