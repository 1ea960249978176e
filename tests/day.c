/* The day of one reference, run: references made at random are read into a dirty table, read again into another, written anew and read once more. After
 * each step stands what `through_the_day` promises of it (docs/PROMISES.md); and power goes while one is stored (`c_cut_short`, `c_whole_cut_short`,
 * `c_behind`). A day is by each rule in turn, and by the functions that name none. */
#include <stdio.h>
#include <stdlib.h>
#include <string.h>
#include "ior.h"

enum { DAYS = 5000, SOURCE = 4096, ROOM = 16384, BEHIND = 64, CONSTANTS = 7 };

static const size_t regions[4][3] = { /* where the entries of a sort start, how wide one is, and how many there are */
    {IOR_PROFILE_START, IOR_PROFILE_WIDTH, IOR_PROFILES}, {IOR_TAP_START, IOR_TAP_WIDTH, IOR_TAPS},
    {IOR_NAME_START, IOR_NAME_WIDTH, IOR_NAMES}, {IOR_EXTRA_START, IOR_EXTRA_WIDTH, IOR_EXTRAS}};
static const size_t constant_at[CONSTANTS] = {19, 20, 25, 35, 36, 37, 38}; /* of an address, from its profile's start */
static const uint8_t constant[CONSTANTS] = {0, 0, 1, 0xFF, 0xFF, 0xFF, 0xFF};

static uint64_t state = 0x9E3779B97F4A7C15u;
static uint8_t source[SOURCE], stored[ROOM + BEHIND], output[ROOM], before[ROOM];
static int fixed[ROOM]; /* which octets of the stored reference are constants */
static uint32_t rule;   /* the day's; 0 for the functions that name none */

static uint32_t any(uint32_t below) {
    state ^= state << 13, state ^= state >> 7, state ^= state << 17;
    return (uint32_t)((state >> 32) % below);
}

static void expect(int held, const char *what) {
    if (held) return;
    printf("day: %s\n", what);
    exit(1);
}

static struct ior_table dirty(void) {
    struct ior_table t;
    for (size_t i = 0; i < IOR_TABLE; i++) t.number[i] = any(0xFFFFFFFF);
    return t;
}

static void fill(uint8_t *octets, size_t n) {
    for (size_t i = 0; i < n; i++) octets[i] = (uint8_t)any(256);
}

static uint32_t reads(const uint8_t *s, size_t n, struct ior_table *t, struct ior_answer *a) {
    return rule == 0 ? ior_read_whole_into(s, n, t, a) : ior_read_whole_into_by(rule, s, n, t, a);
}

static uint32_t leads(const uint8_t *s, size_t n, struct ior_table *t, struct ior_answer *a) {
    return rule == 0 ? ior_read_into(s, n, t, a) : ior_read_into_by(rule, s, n, t, a);
}

static uint32_t writes(const struct ior_table *t, const uint8_t *s, size_t n, uint8_t *out, size_t room, struct ior_answer *a) {
    return rule == 0 ? ior_write_from(t, s, n, out, room, a) : ior_write_from_by(rule, IOR_WAY_CONSTANTS, t, s, n, out, room, a);
}

/* ---- a reference at random: its table over the source, and its octets with any constants */

static void view(uint32_t *numbers, uint32_t most) {
    numbers[1] = any(most + 1);
    numbers[0] = any(SOURCE - numbers[1] + 1);
}

static void tap(struct ior_table *t) {
    uint32_t *n = ior_edit_tap(t, t->number[IOR_TAPS_USED]++);
    n[IOR_TAP_ID] = any(65536), n[IOR_TAP_USE] = any(65536), n[IOR_TAP_ASSOCIATION] = any(65536);
    view(n + IOR_TAP_SELECTOR_AT, 20);
}

static void name(struct ior_table *t) {
    uint32_t *n = ior_edit_name(t, t->number[IOR_NAMES_USED]++);
    view(n + IOR_NAME_ID_AT, 30), view(n + IOR_NAME_KIND_AT, 8);
}

static void extra(struct ior_table *t) {
    uint32_t *n = ior_edit_extra(t, t->number[IOR_EXTRAS_USED]++);
    n[IOR_EXTRA_TAG] = any(0xFFFFFFFF);
    view(n + IOR_EXTRA_AT, 255);
}

static void profile(struct ior_table *t) {
    uint32_t *n = ior_edit_profile(t, t->number[IOR_PROFILES_USED]++), entries = any(5), extras = any(5);
    memset(n, 0, IOR_PROFILE_WIDTH * sizeof *n);
    n[0] = any(3), n[1] = any(0xFFFFFFFF);
    if (n[0] == IOR_OPAQUE) {
        n[IOR_OPAQUE_TAG] |= 0x80000000; /* no known tag */
        view(n + IOR_OPAQUE_AT, 300);
    } else if (n[0] == IOR_BIOP) {
        n[IOR_BIOP_MODULE] = any(65536), n[IOR_BIOP_MAJOR] = any(256), n[IOR_BIOP_MINOR] = any(256);
        view(n + IOR_BIOP_KEY_AT, 246);
        n[IOR_BIOP_TAPS] = entries, n[IOR_BIOP_EXTRAS] = extras;
        for (uint32_t i = 0; i < entries; i++) tap(t);
    } else {
        n[IOR_LITE_SPECIFIER] = any(1 << 24), n[IOR_LITE_TRANSPORT_STREAM] = any(65536), n[IOR_LITE_NETWORK] = any(65536), n[IOR_LITE_SERVICE] = any(65536);
        view(n + IOR_LITE_CONTEXT_AT, 60);
        n[IOR_LITE_NAMES] = entries, n[IOR_LITE_EXTRAS] = extras;
        for (uint32_t i = 0; i < entries; i++) name(t);
    }
    for (uint32_t i = 0; i < extras && n[0] != IOR_OPAQUE; i++) extra(t);
}

static uint32_t number(const uint8_t *s) { return (uint32_t)s[0] << 24 | (uint32_t)s[1] << 16 | (uint32_t)s[2] << 8 | s[3]; }

static size_t arrive(void) {
    struct ior_table t = dirty();
    struct ior_answer a;
    size_t n, at, profiles = any(IOR_PROFILES + 1);
    for (size_t i = IOR_PROFILES_USED; i <= IOR_EXTRAS_USED; i++) t.number[i] = 0;
    view(t.number + IOR_TYPE_ID_AT, 12);
    if (rule != IOR_RULE_GAP) t.number[IOR_TYPE_ID_LEN] -= t.number[IOR_TYPE_ID_LEN] % 4;
    for (size_t i = 0; i < profiles; i++) profile(&t);
    expect(writes(&t, source, SOURCE, stored, ROOM, &a) == IOR_ACCEPTED, "a reference could not be made");
    n = (size_t)a.number[IOR_ANSWER_COUNT];
    memset(fixed, 0, sizeof fixed);
    at = 8 + (number(stored) + 3) / 4 * 4;
    for (size_t i = 0; i < profiles; i++) {
        if (number(stored + at) == 0x49534F05)
            for (size_t k = 0; k < CONSTANTS; k++) stored[at + constant_at[k]] = (uint8_t)any(256), fixed[at + constant_at[k]] = 1 + (int)constant[k];
        at += 8 + number(stored + at + 4);
    }
    return n;
}

/* ---- the day */

static int same(const struct ior_answer *a, const struct ior_answer *b) { return memcmp(a, b, sizeof *a) == 0; }

static int equal(const struct ior_table *t, const struct ior_table *u) {
    if (memcmp(t, u, 6 * sizeof *t->number) != 0) return 0;
    for (size_t k = 0; k < 4; k++)
        if (memcmp(t->number + regions[k][0], u->number + regions[k][0], t->number[IOR_PROFILES_USED + k] * regions[k][1] * sizeof *t->number) != 0) return 0;
    return 1;
}

static int kept(const struct ior_table *was, const struct ior_table *t) {
    for (size_t k = 0; k < 4; k++) {
        size_t used = t->number[IOR_PROFILES_USED + k], from = regions[k][0] + used * regions[k][1];
        if (memcmp(was->number + from, t->number + from, (regions[k][2] - used) * regions[k][1] * sizeof *t->number) != 0) return 0;
    }
    return 1;
}

/* The entries of all profiles before the one behind the last are all that are used. */
static int sums(const struct ior_table *t) {
    size_t end = t->number[IOR_PROFILES_USED];
    return ior_first_tap(t, end) == t->number[IOR_TAPS_USED] && ior_first_name(t, end) == t->number[IOR_NAMES_USED]
           && ior_first_extra(t, end) == t->number[IOR_EXTRAS_USED];
}

static int zero(const struct ior_table *t) {
    for (size_t i = 0; i < IOR_TABLE; i++)
        if (t->number[i] != 0) return 0;
    return 1;
}

/* Power goes while the octets are stored: of a piece both readings tell 1 or 2, and leave zeros. */
static void cut(size_t piece) {
    struct ior_table t, u;
    struct ior_answer a;
    uint32_t leading, whole;
    memset(&t, 0xA5, sizeof t), memset(&u, 0xA5, sizeof u);
    leading = leads(stored, piece, &t, &a);
    expect((leading == IOR_CUT || leading == IOR_TOO_LONG) && zero(&t), "a piece passed for a reference");
    whole = reads(stored, piece, &u, &a);
    expect((whole == IOR_CUT || whole == IOR_TOO_LONG) && zero(&u), "a piece passed for a whole reference");
}

/* Whatever stands behind the n octets, they are read as they were. */
static void behind(size_t n, const struct ior_table *was, const struct ior_answer *told) {
    struct ior_table t = dirty();
    struct ior_answer a;
    fill(stored + n, BEHIND);
    expect(leads(stored, n + any(BEHIND + 1), &t, &a) == IOR_ACCEPTED && same(&a, told) && equal(&t, was), "octets behind the reference were looked at");
}

static void day(int cut_at_each) {
    struct ior_table arrived = dirty(), again = dirty(), was = again, after = dirty();
    struct ior_answer a, b;
    size_t n = arrive(), room = n + any(50);
    expect(reads(stored, n, &arrived, &a) == IOR_ACCEPTED && a.number[IOR_ANSWER_COUNT] == n, "the octets were not accepted");
    expect(reads(stored, n, &again, &b) == IOR_ACCEPTED && same(&a, &b), "the stored octets were not accepted again");
    expect(equal(&arrived, &again), "used entries differ when read again");
    expect(sums(&again), "a first entry is not where the earlier ones end");
    expect(kept(&was, &again), "an unused entry was changed");
    fill(output, sizeof output), memcpy(before, output, sizeof output);
    expect(writes(&again, stored, n, output, room, &b) == IOR_ACCEPTED && same(&a, &b), "the table was not written");
    for (size_t i = 0; i < n; i++) expect(output[i] == (fixed[i] ? (uint8_t)(fixed[i] - 1) : stored[i]), "the copy differs");
    expect(memcmp(output + n, before + n, sizeof output - n) == 0, "octets behind the copy were changed");
    expect(reads(output, n, &after, &b) == IOR_ACCEPTED && same(&a, &b), "the copy was not accepted");
    expect(equal(&arrived, &after), "used entries of the copy differ");
    for (size_t piece = cut_at_each ? 0 : n - 1; piece < n; piece++) cut(piece);
    cut(any((uint32_t)n));
    behind(n, &arrived, &a);
}

int main(void) {
    fill(source, SOURCE);
    for (uint32_t i = 0; i < DAYS; i++) rule = i % 3, day(i % 10 == 0);
    printf("day: %d days passed\n", (int)DAYS);
    return 0;
}
