/* Answers requests from standard input as the program `answers` does, a line for each, through the exported functions alone (docs/DIFFERENTIAL.md).
 * A table handed to a reading is zero throughout before it, an output holds A5 throughout before a writing. With the word `apart`, each source and
 * each output is memory of just its size, so that valgrind or AddressSanitizer sees a step outside. */
#include <stdio.h>
#include <stdlib.h>
#include <string.h>
#include <unistd.h>
#include "ior.h"

enum { MOST = 70000, BEFORE = 0xA5 };

static uint8_t input[1 << 18], source_room[MOST + 1], output_room[MOST + 1], *source = source_room, *output = output_room;
static int apart;
static char line[1 << 20];
static size_t input_at, input_end, line_end;
static uint32_t table[IOR_TABLE];
static uint64_t answer[IOR_ANSWER];

static void flush(void) {
    size_t at = 0;
    while (at < line_end) {
        ssize_t n = write(1, line + at, line_end - at);
        if (n <= 0) exit(1);
        at += (size_t)n;
    }
    line_end = 0;
}

static void bad(void) {
    memcpy(line + line_end, "bad request\n", 12);
    line_end += 12;
    flush();
    exit(0);
}

/* ---- input: lines are flushed before it waits */

static int more(void) {
    ssize_t n;
    flush();
    n = read(0, input, sizeof input);
    if (n <= 0) return 0;
    input_at = 0;
    input_end = (size_t)n;
    return 1;
}

static void take(uint8_t *to, size_t n) {
    while (n > 0) {
        size_t have = input_end - input_at, some;
        if (have == 0) {
            if (!more()) bad();
            continue;
        }
        some = have < n ? have : n;
        memcpy(to, input + input_at, some);
        input_at += some, to += some, n -= some;
    }
}

static uint8_t octet(void) {
    uint8_t b;
    take(&b, 1);
    return b;
}

static uint32_t number(void) {
    uint8_t b[4];
    take(b, 4);
    return (uint32_t)b[0] << 24 | (uint32_t)b[1] << 16 | (uint32_t)b[2] << 8 | b[3];
}

static size_t size(void) {
    uint32_t n = number();
    if (n > MOST) bad();
    return n;
}

/* Memory of n octets, in the place of `old` if they are to stand apart. */
static uint8_t *memory(uint8_t *old, size_t n) {
    uint8_t *new;
    if (!apart) return old;
    new = malloc(n == 0 ? 1 : n);
    if (new == NULL) exit(1);
    if (old != source_room && old != output_room) free(old);
    return new;
}

static size_t take_source(void) {
    size_t n = size();
    source = memory(source, n);
    take(source, n);
    return n;
}

static void take_output(size_t room) {
    output = memory(output, room);
    memset(output, BEFORE, room);
}

static void take_table(void) {
    for (size_t i = 0; i < IOR_TABLE; i++) table[i] = number();
}

/* ---- lines */

static void put(char c) { line[line_end++] = c; }

static void put_number(uint64_t v) {
    char digits[20];
    size_t n = 0;
    do digits[n++] = (char)('0' + v % 10);
    while ((v /= 10) != 0);
    while (n > 0) put(digits[--n]);
}

static void put_hex(const uint8_t *octets, size_t n) {
    static const char digit[] = "0123456789abcdef";
    if (n == 0) put('-');
    for (size_t i = 0; i < n; i++) put(digit[octets[i] >> 4]), put(digit[octets[i] & 15]);
}

static void put_word(const char *word) {
    while (*word != 0) put(*word++);
}

/* So many of the answer's numbers; 255 is a bad request, and any other result must be the first of them. */
static void put_answer(uint32_t result, size_t count) {
    if (result == IOR_NOT_ASKED) bad();
    if (result != answer[0]) put_word("another result ");
    for (size_t i = 0; i < count; i++) {
        if (i > 0) put(' ');
        put_number(answer[i]);
    }
}

/* What a writing answers, and all of its output. */
static void put_written(uint32_t result, size_t room) {
    put_answer(result, 5);
    put(' ');
    put_hex(output, room);
}

static void put_table(void) {
    for (size_t i = 0; i < IOR_TABLE; i++) {
        if (table[i] == 0) continue;
        put(' ');
        put_number(i);
        put(':');
        put_number(table[i]);
    }
}

/* ---- one function for each op */

static void answer_read(uint32_t (*reads)(const uint8_t *, size_t, uint32_t *, size_t, uint64_t *, size_t)) {
    size_t n = take_source();
    memset(table, 0, sizeof table);
    put_answer(reads(source, n, table, IOR_TABLE, answer, IOR_ANSWER), 5);
    put_table();
}

/* What ops 11 to 15 tell of an answer: the offset before the count. */
static void put_where(uint32_t result) {
    put_answer(result, 4);
    put(' '), put_number(answer[IOR_ANSWER_OFFSET]);
    put(' '), put_number(answer[IOR_ANSWER_COUNT]);
}

static void answer_where(uint32_t (*reads)(const uint8_t *, size_t, uint32_t *, size_t, uint64_t *, size_t)) {
    size_t n = take_source();
    put_where(reads(source, n, table, IOR_TABLE, answer, IOR_ANSWER));
}

static void answer_length(void) {
    size_t n;
    take_table();
    n = take_source();
    put_answer(ior_length(table, IOR_TABLE, source, n, answer, IOR_ANSWER), 5);
}

static void answer_write(void) {
    size_t room, n;
    take_table();
    room = size();
    n = take_source();
    take_output(room);
    put_written(ior_write(table, IOR_TABLE, source, n, output, room, answer, IOR_ANSWER), room);
}

static void answer_kind(void) {
    static const char *const word[] = {"dir", "fil", "str", "srg", "ste"};
    size_t n = take_source();
    uint32_t kind = 0, result = ior_kind(source, n, &kind, 1);
    if (result < 5) {
        put_word(word[result]);
    } else {
        uint8_t b[4] = {(uint8_t)(kind >> 24), (uint8_t)(kind >> 16), (uint8_t)(kind >> 8), (uint8_t)kind};
        put_hex(b, 4);
    }
}

static void answer_tap(void) {
    uint8_t b[2];
    uint32_t pair[2], result;
    size_t n;
    take(b, 2);
    n = take_source();
    result = ior_tap((uint32_t)b[0] << 8 | b[1], source, n, pair, 2);
    if (result == 1) {
        put_number(pair[0]), put(' '), put_number(pair[1]);
    } else {
        put_word("none none");
    }
}

static void answer_name_read(void) {
    uint32_t name[4] = {0, 0, 0, 0};
    size_t n = take_source();
    put_answer(ior_name_read(source, n, name, 4, answer, IOR_ANSWER), 5);
    for (size_t i = 0; i < 4; i++) put(' '), put_number(name[i]);
}

static void answer_name_where(void) {
    uint32_t name[4];
    size_t n = take_source();
    put_where(ior_name_read(source, n, name, 4, answer, IOR_ANSWER));
}

static void answer_name_write(void) {
    uint32_t name[4];
    size_t room, n;
    for (size_t i = 0; i < 4; i++) name[i] = number();
    room = size();
    n = take_source();
    take_output(room);
    put_written(ior_name_write(name, 4, source, n, output, room, answer, IOR_ANSWER), room);
}

static void answer_first(void) {
    uint32_t result;
    take_table();
    result = ior_first_biop(table, IOR_TABLE, answer, IOR_ANSWER);
    put_answer(result, 4);
    put(' ');
    if (result != 0 || answer[4] == IOR_PROFILES) put_word("none");
    else put_number(answer[4]);
}

static void answer_address(void) {
    source = memory(source, 20);
    take(source, 20);
    put_word(ior_dvb_address(source, 20) == 1 ? "yes" : "no");
}

/* ---- the ops that name a rule, and 17 a way: whether there is such a one, the call says */

static void answer_read_by(uint32_t (*reads)(uint32_t, const uint8_t *, size_t, uint32_t *, size_t, uint64_t *, size_t)) {
    uint8_t rule = octet();
    size_t n = take_source();
    memset(table, 0, sizeof table);
    put_where(reads(rule, source, n, table, IOR_TABLE, answer, IOR_ANSWER));
    put_table();
}

static void answer_length_by(void) {
    uint8_t rule = octet();
    size_t n;
    take_table();
    n = take_source();
    put_answer(ior_length_by(rule, table, IOR_TABLE, source, n, answer, IOR_ANSWER), 5);
}

static void answer_write_by(void) {
    uint8_t rule = octet(), way = octet();
    size_t room, n;
    take_table();
    room = size();
    n = take_source();
    take_output(room);
    put_written(ior_write_by(rule, way, table, IOR_TABLE, source, n, output, room, answer, IOR_ANSWER), room);
}

int main(int argc, char **argv) {
    apart = argc == 2 && strcmp(argv[1], "apart") == 0;
    while (input_at < input_end || more()) {
        switch (octet()) {
            case 1: answer_read(ior_read); break;
            case 2: answer_read(ior_read_whole); break;
            case 3: answer_length(); break;
            case 4: answer_write(); break;
            case 5: answer_kind(); break;
            case 6: answer_tap(); break;
            case 7: answer_name_read(); break;
            case 8: answer_name_write(); break;
            case 9: answer_first(); break;
            case 10: answer_address(); break;
            case 11: answer_where(ior_read); break;
            case 12: answer_where(ior_read_whole); break;
            case 13: answer_name_where(); break;
            case 14: answer_read_by(ior_read_by); break;
            case 15: answer_read_by(ior_read_whole_by); break;
            case 16: answer_length_by(); break;
            case 17: answer_write_by(); break;
            default: bad();
        }
        put('\n');
        if (line_end > sizeof line / 2) flush();
    }
    flush();
    return 0;
}
