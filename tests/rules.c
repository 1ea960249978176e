/* One reference with a type id of five octets, read, measured and written by both rules; its gap wrong or cut; and rule 1 beside the functions that name
 * none. Numbers that name no rule or way are tried in lengths.c. */
#include <stdio.h>
#include <string.h>
#include "ior.h"

enum { BEFORE = 0xA5, WHOLE = 16, GAP_AT = 9, GAP_END = 12 };

static const uint8_t whole[WHOLE] = {0, 0, 0, 5, 'a', 'b', 'c', 'd', 'e', 0xFF, 0xFF, 0xFF, 0, 0, 0, 0};
static const uint8_t plain[12] = {0, 0, 0, 4, 'd', 'i', 'r', 0, 0, 0, 0, 0};
static uint8_t long_source[IOR_MOST], output[WHOLE + 1];
static struct ior_table table, other;
static struct ior_answer answer, beside;
static int checks, failures;

static void check(const char *what, int holds) {
    checks++;
    if (holds) return;
    printf("%s: another result\n", what);
    failures++;
}

static int is(const void *p, int octet, size_t n) {
    for (size_t i = 0; i < n; i++)
        if (((const uint8_t *)p)[i] != octet) return 0;
    return 1;
}

static void begin(void) {
    memset(&table, BEFORE, sizeof table), memset(&answer, BEFORE, sizeof answer), memset(output, BEFORE, sizeof output);
}

static int answers(uint32_t result, uint64_t number, uint64_t place, uint64_t first, uint64_t second, uint64_t count, uint64_t offset) {
    const uint64_t *a = answer.number;
    return result == number && a[0] == number && a[1] == place && a[2] == first && a[3] == second && a[4] == count && a[5] == offset;
}

/* Both readings of these octets are refused so, and leave zeros. */
static void refused(const char *what, uint32_t rule, const uint8_t *s, size_t n, uint32_t number, uint64_t place, uint64_t need, uint64_t have,
                    uint64_t offset) {
    begin();
    check(what, answers(ior_read_into_by(rule, s, n, &table, &answer), number, place, need, have, 0, offset) && is(&table, 0, sizeof table));
    begin();
    check(what, answers(ior_read_whole_into_by(rule, s, n, &table, &answer), number, place, need, have, 0, offset) && is(&table, 0, sizeof table));
}

/* ---- reading */

/* The type id's view and four counts of 0 are stored; no entry is used, so all others are kept. */
static int is_read(void) {
    static const uint32_t front[6] = {4, 5, 0, 0, 0, 0};
    return memcmp(table.number, front, sizeof front) == 0 && is(table.number + 6, BEFORE, sizeof table - sizeof front);
}

static void reading(void) {
    uint8_t behind[WHOLE + 1] = {0};
    memcpy(behind, whole, WHOLE);
    begin();
    check("read whole", answers(ior_read_whole_into_by(IOR_RULE_GAP, whole, WHOLE, &table, &answer), 0, 0, 0, 0, WHOLE, 0) && is_read());
    begin();
    check("read", answers(ior_read_into_by(IOR_RULE_GAP, behind, WHOLE + 1, &table, &answer), 0, 0, 0, 0, WHOLE, 0) && is_read());
    begin();
    check("octet left over", answers(ior_read_whole_into_by(IOR_RULE_GAP, behind, WHOLE + 1, &table, &answer), IOR_CUT, 4, 1, 0, 0, WHOLE));
    refused("rule 1", IOR_RULE_MULTIPLE, whole, WHOLE, IOR_OUT_OF_RANGE, 33, 0, 0, 0);
}

static void damaged_gap(void) {
    for (size_t at = GAP_AT; at < GAP_END; at++) {
        uint8_t wrong[WHOLE];
        memcpy(wrong, whole, WHOLE);
        wrong[at] = 0;
        refused("wrong gap", IOR_RULE_GAP, wrong, WHOLE, IOR_WRONG, 46, 0, 0, GAP_AT);
        refused("cut gap", IOR_RULE_GAP, whole, at, IOR_CUT, 47, GAP_END, at, GAP_AT);
        refused("wrong and cut gap", IOR_RULE_GAP, wrong, GAP_END - 1, IOR_CUT, 47, GAP_END, GAP_END - 1, GAP_AT);
    }
    refused("cut profile count", IOR_RULE_GAP, whole, WHOLE - 1, IOR_CUT, 2, WHOLE, WHOLE - 1, GAP_END);
    refused("cut type id", IOR_RULE_GAP, whole, GAP_AT - 1, IOR_TOO_LONG, 0, 5, 4, 4);
}

/* ---- measuring and writing */

static uint32_t written(uint32_t rule, size_t room) {
    return ior_write_from_by(rule, IOR_WAY_CONSTANTS, &table, whole, WHOLE, output, room, &answer);
}

static void writing(void) {
    begin();
    check("a table to write", ior_read_into_by(IOR_RULE_GAP, whole, WHOLE, &table, &answer) == IOR_ACCEPTED);
    check("length", answers(ior_length_of_by(IOR_RULE_GAP, &table, whole, WHOLE, &answer), 0, 0, 0, 0, WHOLE, 0));
    check("length, rule 1", answers(ior_length_of_by(IOR_RULE_MULTIPLE, &table, whole, WHOLE, &answer), 0, 0, 0, 0, WHOLE - 3, 0));
    check("written, rule 1", answers(written(IOR_RULE_MULTIPLE, WHOLE), IOR_OUT_OF_RANGE, 33, 0, 0, 0, 0) && is(output, BEFORE, sizeof output));
    check("no room", answers(written(IOR_RULE_GAP, WHOLE - 1), IOR_NO_ROOM, 0, WHOLE, WHOLE - 1, 0, 0) && is(output, BEFORE, sizeof output));
    check("written", answers(written(IOR_RULE_GAP, WHOLE + 1), 0, 0, 0, 0, WHOLE, 0) && memcmp(output, whole, WHOLE) == 0 && output[WHOLE] == BEFORE);
}

/* The longest type id that an image has room for; with one octet more, the gap makes it 65,536 octets. */
static void longest(void) {
    memset(&table, 0, sizeof table);
    table.number[IOR_TYPE_ID_LEN] = 65524;
    check("longest", answers(ior_length_of_by(IOR_RULE_GAP, &table, long_source, IOR_MOST, &answer), 0, 0, 0, 0, 65532, 0));
    table.number[IOR_TYPE_ID_LEN] = 65525;
    check("too long", answers(ior_length_of_by(IOR_RULE_GAP, &table, long_source, IOR_MOST, &answer), IOR_IMAGE_LARGE, 0, 65536, IOR_MOST, 0, 0));
    check("too long, written", answers(ior_write_from_by(IOR_RULE_GAP, IOR_WAY_CONSTANTS, &table, long_source, IOR_MOST, output, 0, &answer),
                                       IOR_IMAGE_LARGE, 0, 65536, IOR_MOST, 0, 0));
}

/* ---- rule 1 is what the functions without a rule do, for a reference that it takes and one that it refuses */

static int same(uint32_t result, uint32_t expected) {
    return result == expected && memcmp(&answer, &beside, sizeof answer) == 0 && memcmp(&table, &other, sizeof table) == 0;
}

static void without_a_rule(const uint8_t *s, size_t n) {
    uint8_t expected[WHOLE + 1];
    begin();
    memcpy(expected, output, sizeof output), other = table, beside = answer;
    check("as ior_read", same(ior_read_into_by(IOR_RULE_MULTIPLE, s, n, &table, &answer), ior_read_into(s, n, &other, &beside)));
    check("as ior_read_whole", same(ior_read_whole_into_by(IOR_RULE_MULTIPLE, s, n, &table, &answer), ior_read_whole_into(s, n, &other, &beside)));
    check("as ior_length", same(ior_length_of_by(IOR_RULE_MULTIPLE, &table, s, n, &answer), ior_length_of(&other, s, n, &beside)));
    check("as ior_write", same(ior_write_from_by(IOR_RULE_MULTIPLE, IOR_WAY_CONSTANTS, &table, s, n, output, WHOLE, &answer),
                               ior_write_from(&other, s, n, expected, WHOLE, &beside))
                              && memcmp(output, expected, sizeof output) == 0);
}

int main(void) {
    reading();
    damaged_gap();
    writing();
    longest();
    without_a_rule(plain, sizeof plain);
    without_a_rule(whole, WHOLE);
    printf("rules: %d checks, %d failures\n", checks, failures);
    return failures != 0;
}
