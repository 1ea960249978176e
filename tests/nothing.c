/* What include/ior.h allows that may look wrong. Every array of every function as a null pointer with length 0: alone, with the others as they must be, and
 * all at once; where it may have any length it is answered as an empty one, where it must have another with 255, and nothing is changed. And arrays that
 * are only read overlap. */
#include <stdio.h>
#include <string.h>
#include "ior.h"

enum { BEFORE = 0xA5 };

static uint32_t table[IOR_TABLE], name[4], kind[1], pair[2];
static uint64_t answer[IOR_ANSWER];
static uint8_t source[8], output[16];
static int calls, failures;

/* Arrays that are read hold the empty reference, its table and the empty name; those that are written hold A5. */
static void begin(void) {
    memset(table, 0, sizeof table), memset(name, 0, sizeof name), memset(source, 0, sizeof source);
    memset(answer, BEFORE, sizeof answer), memset(output, BEFORE, sizeof output);
    memset(kind, BEFORE, sizeof kind), memset(pair, BEFORE, sizeof pair);
}

static int is(const void *p, int octet, size_t n) {
    for (size_t i = 0; i < n; i++)
        if (((const uint8_t *)p)[i] != octet) return 0;
    return 1;
}

static void check(const char *what, int holds) {
    calls++;
    if (holds) return;
    printf("%s: another result, or an array was changed\n", what);
    failures++;
}

/* An answer: five of its numbers, and the sixth is 0, since nothing here breaks behind the first octet. */
static int answers(uint64_t number, uint64_t place, uint64_t first, uint64_t second, uint64_t count) {
    return answer[0] == number && answer[1] == place && answer[2] == first && answer[3] == second && answer[4] == count && answer[5] == 0;
}

/* Nothing was asked: 255, and every array is as `begin` left it. */
static int unasked(uint32_t result) {
    return result == IOR_NOT_ASKED && is(answer, BEFORE, sizeof answer) && is(output, BEFORE, sizeof output) && is(kind, BEFORE, sizeof kind)
        && is(pair, BEFORE, sizeof pair) && is(table, 0, sizeof table) && is(name, 0, sizeof name);
}

#define UNASKED(call) (begin(), check(#call, unasked(call)))
#define TOLD(call, result, then) (begin(), check(#call, (call) == (result) && (then)))

/* A table and a name that are their own sources. The type id's octets are a number that no used entry holds. */
static void shared(void) {
    static const uint8_t image[12] = {0, 0, 0, 4, 'd', 'd', 'd', 'd'}, with_gap[12] = {0, 0, 0, 3, 'd', 'd', 'd', 0xFF}, short_name[6] = {4};
    const uint8_t *octets = (const uint8_t *)table;
    begin();
    table[IOR_TYPE_ID_AT] = 4 * (IOR_TABLE - 1), table[IOR_TYPE_ID_LEN] = 4, table[IOR_TABLE - 1] = 0x64646464;
    check("ior_length, shared", ior_length(table, IOR_TABLE, octets, sizeof table, answer, IOR_ANSWER) == IOR_ACCEPTED && answers(0, 0, 0, 0, 12));
    check("ior_write, shared", ior_write(table, IOR_TABLE, octets, sizeof table, output, 16, answer, IOR_ANSWER) == IOR_ACCEPTED
          && answers(0, 0, 0, 0, 12) && memcmp(output, image, 12) == 0 && is(output + 12, BEFORE, 4));
    begin();
    table[IOR_TYPE_ID_AT] = 4 * (IOR_TABLE - 1), table[IOR_TYPE_ID_LEN] = 3, table[IOR_TABLE - 1] = 0x64646464;
    check("ior_length_by, shared",
          ior_length_by(IOR_RULE_GAP, table, IOR_TABLE, octets, sizeof table, answer, IOR_ANSWER) == IOR_ACCEPTED && answers(0, 0, 0, 0, 12));
    check("ior_write_by, shared",
          ior_write_by(IOR_RULE_GAP, IOR_WAY_CONSTANTS, table, IOR_TABLE, octets, sizeof table, output, 16, answer, IOR_ANSWER) == IOR_ACCEPTED
          && answers(0, 0, 0, 0, 12) && memcmp(output, with_gap, 12) == 0 && is(output + 12, BEFORE, 4));
    begin();
    name[IOR_NAME_ID_LEN] = 4;
    check("ior_name_write, shared", ior_name_write(name, 4, (const uint8_t *)name, sizeof name, output, 16, answer, IOR_ANSWER) == IOR_ACCEPTED
          && answers(0, 0, 0, 0, 6) && memcmp(output, short_name, 6) == 0 && is(output + 6, BEFORE, 10));
}

/* The functions that name a rule, as below. */
static void by(uint32_t rule) {
    const uint32_t way = IOR_WAY_CONSTANTS;
    TOLD(ior_read_by(rule, NULL, 0, table, IOR_TABLE, answer, IOR_ANSWER), IOR_CUT, answers(IOR_CUT, 1, 8, 0, 0) && is(table, 0, sizeof table));
    TOLD(ior_read_whole_by(rule, NULL, 0, table, IOR_TABLE, answer, IOR_ANSWER), IOR_CUT, answers(IOR_CUT, 1, 8, 0, 0) && is(table, 0, sizeof table));
    TOLD(ior_length_by(rule, table, IOR_TABLE, NULL, 0, answer, IOR_ANSWER), IOR_ACCEPTED, answers(0, 0, 0, 0, 8));
    TOLD(ior_write_by(rule, way, table, IOR_TABLE, NULL, 0, output, 16, answer, IOR_ANSWER), IOR_ACCEPTED,
         answers(0, 0, 0, 0, 8) && is(output, 0, 8) && is(output + 8, BEFORE, 8));
    TOLD(ior_write_by(rule, way, table, IOR_TABLE, source, 8, NULL, 0, answer, IOR_ANSWER), IOR_NO_ROOM, answers(IOR_NO_ROOM, 0, 8, 0, 0));
    TOLD(ior_write_by(rule, way, table, IOR_TABLE, NULL, 0, NULL, 0, answer, IOR_ANSWER), IOR_NO_ROOM, answers(IOR_NO_ROOM, 0, 8, 0, 0));
    UNASKED(ior_read_by(rule, source, 8, NULL, 0, answer, IOR_ANSWER));
    UNASKED(ior_read_by(rule, source, 8, table, IOR_TABLE, NULL, 0));
    UNASKED(ior_read_whole_by(rule, source, 8, NULL, 0, answer, IOR_ANSWER));
    UNASKED(ior_read_whole_by(rule, source, 8, table, IOR_TABLE, NULL, 0));
    UNASKED(ior_length_by(rule, NULL, 0, source, 8, answer, IOR_ANSWER));
    UNASKED(ior_length_by(rule, table, IOR_TABLE, source, 8, NULL, 0));
    UNASKED(ior_write_by(rule, way, NULL, 0, source, 8, output, 16, answer, IOR_ANSWER));
    UNASKED(ior_write_by(rule, way, table, IOR_TABLE, source, 8, output, 16, NULL, 0));
    UNASKED(ior_read_by(rule, NULL, 0, NULL, 0, NULL, 0));
    UNASKED(ior_read_whole_by(rule, NULL, 0, NULL, 0, NULL, 0));
    UNASKED(ior_length_by(rule, NULL, 0, NULL, 0, NULL, 0));
    UNASKED(ior_write_by(rule, way, NULL, 0, NULL, 0, NULL, 0, NULL, 0));
}

int main(void) {
    /* An empty source: no reference, no name. */
    TOLD(ior_read(NULL, 0, table, IOR_TABLE, answer, IOR_ANSWER), IOR_CUT, answers(IOR_CUT, 1, 8, 0, 0) && is(table, 0, sizeof table));
    TOLD(ior_read_whole(NULL, 0, table, IOR_TABLE, answer, IOR_ANSWER), IOR_CUT, answers(IOR_CUT, 1, 8, 0, 0) && is(table, 0, sizeof table));
    TOLD(ior_name_read(NULL, 0, name, 4, answer, IOR_ANSWER), IOR_CUT, answers(IOR_CUT, 26, 1, 0, 0) && is(name, 0, sizeof name));

    /* An empty source under empty views: the image looks at none of its octets. */
    TOLD(ior_length(table, IOR_TABLE, NULL, 0, answer, IOR_ANSWER), IOR_ACCEPTED, answers(0, 0, 0, 0, 8));
    TOLD(ior_write(table, IOR_TABLE, NULL, 0, output, 16, answer, IOR_ANSWER), IOR_ACCEPTED,
         answers(0, 0, 0, 0, 8) && is(output, 0, 8) && is(output + 8, BEFORE, 8));
    TOLD(ior_name_write(name, 4, NULL, 0, output, 16, answer, IOR_ANSWER), IOR_ACCEPTED,
         answers(0, 0, 0, 0, 2) && is(output, 0, 2) && is(output + 2, BEFORE, 14));

    /* An empty output has no room. */
    TOLD(ior_write(table, IOR_TABLE, source, 8, NULL, 0, answer, IOR_ANSWER), IOR_NO_ROOM, answers(IOR_NO_ROOM, 0, 8, 0, 0));
    TOLD(ior_write(table, IOR_TABLE, NULL, 0, NULL, 0, answer, IOR_ANSWER), IOR_NO_ROOM, answers(IOR_NO_ROOM, 0, 8, 0, 0));
    TOLD(ior_name_write(name, 4, source, 8, NULL, 0, answer, IOR_ANSWER), IOR_NO_ROOM, answers(IOR_NO_ROOM, 0, 2, 0, 0));
    TOLD(ior_name_write(name, 4, NULL, 0, NULL, 0, answer, IOR_ANSWER), IOR_NO_ROOM, answers(IOR_NO_ROOM, 0, 2, 0, 0));

    /* An empty type id is unknown, an empty selector has no numbers. */
    TOLD(ior_kind(NULL, 0, kind, 1), IOR_KIND_UNKNOWN, kind[0] == 0);
    TOLD(ior_tap(0x16, NULL, 0, pair, 2), 0, pair[0] == 0 && pair[1] == 0);

    /* What must have another length, alone. */
    UNASKED(ior_read(source, 8, NULL, 0, answer, IOR_ANSWER));
    UNASKED(ior_read(source, 8, table, IOR_TABLE, NULL, 0));
    UNASKED(ior_read_whole(source, 8, NULL, 0, answer, IOR_ANSWER));
    UNASKED(ior_read_whole(source, 8, table, IOR_TABLE, NULL, 0));
    UNASKED(ior_length(NULL, 0, source, 8, answer, IOR_ANSWER));
    UNASKED(ior_length(table, IOR_TABLE, source, 8, NULL, 0));
    UNASKED(ior_write(NULL, 0, source, 8, output, 16, answer, IOR_ANSWER));
    UNASKED(ior_write(table, IOR_TABLE, source, 8, output, 16, NULL, 0));
    UNASKED(ior_kind(source, 4, NULL, 0));
    UNASKED(ior_tap(0x16, source, 8, NULL, 0));
    UNASKED(ior_first_biop(NULL, 0, answer, IOR_ANSWER));
    UNASKED(ior_first_biop(table, IOR_TABLE, NULL, 0));
    UNASKED(ior_dvb_address(NULL, 0));
    UNASKED(ior_name_read(source, 8, NULL, 0, answer, IOR_ANSWER));
    UNASKED(ior_name_read(source, 8, name, 4, NULL, 0));
    UNASKED(ior_name_write(NULL, 0, source, 8, output, 16, answer, IOR_ANSWER));
    UNASKED(ior_name_write(name, 4, source, 8, output, 16, NULL, 0));

    /* All of them at once. */
    UNASKED(ior_read(NULL, 0, NULL, 0, NULL, 0));
    UNASKED(ior_read_whole(NULL, 0, NULL, 0, NULL, 0));
    UNASKED(ior_length(NULL, 0, NULL, 0, NULL, 0));
    UNASKED(ior_write(NULL, 0, NULL, 0, NULL, 0, NULL, 0));
    UNASKED(ior_kind(NULL, 0, NULL, 0));
    UNASKED(ior_tap(0x16, NULL, 0, NULL, 0));
    UNASKED(ior_first_biop(NULL, 0, NULL, 0));
    UNASKED(ior_name_read(NULL, 0, NULL, 0, NULL, 0));
    UNASKED(ior_name_write(NULL, 0, NULL, 0, NULL, 0, NULL, 0));
    by(IOR_RULE_MULTIPLE);
    by(IOR_RULE_GAP);
    shared();
    printf("nothing: %d calls, %d failures\n", calls, failures);
    return failures != 0;
}
