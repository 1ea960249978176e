/* Object references (IOP::IOR) of DSM-CC carousels: read, measure, write and ask.
 *
 * Link with libior_c.a. No function allocates, prints, keeps a pointer or any state, or changes anything but the arrays that it is lent for that. So calls may
 * run at once, in several threads, if no array that one of them writes is lent to another of them.
 *
 * A reference's contents are told in a table of 490 numbers (struct ior_table). Octets stay where they are: a view is an offset and a length in the
 * source. An answer is six numbers (struct ior_answer): the refusal's number, its place, two figures, a count, and the offset in the source at which a
 * reading broke.
 *
 * What a caller must keep. Each array is a pointer and a length in elements.
 *   - The pointer is aligned for its elements and valid for as many as the length says: to read, and where it is not const to write.
 *   - An array that is written (not const) overlaps no other array of the call. Two that are only read may overlap.
 *   - Nobody else changes an array, or looks at one that is written, while the call runs.
 *   - An array of length 0 may have any pointer, NULL too: it is never followed, and no rule above is for it.
 * Nothing more is asked: the arrays may have any lengths and hold anything.
 *
 * The result:
 *   - of ior_kind, a kind: 0 to 5 (IOR_KIND_..);
 *   - of ior_tap and ior_dvb_address, 1 or 0: yes or no;
 *   - of all others the refusal's number (IOR_CUT ..), which is the answer's first number too, and 0 (IOR_ACCEPTED) for none;
 *   - of each of them IOR_NOT_ASKED (255) if an array has not the length that it must have, if the use that ior_tap is given has more than 16 bits, if a rule
 *     or a way is none of those below, or if the table that is given to be measured, written or asked for its first BIOP profile is not exact: it holds a
 *     number wider than its field, or an unknown sort, in a used entry. Then nothing is changed, the answer no more than the rest: test for 255 before you
 *     look at it. A table that a reading has filled is exact.
 */
#ifndef IOR_H
#define IOR_H

#include <stddef.h>
#include <stdint.h>

#ifdef __cplusplus
extern "C" {
#endif

/* ---- sizes */

enum {
    IOR_TABLE = 490,       /* numbers of a table */
    IOR_ANSWER = 6,        /* numbers of an answer */
    IOR_PROFILES = 8,      /* the most profiles, taps, names and extras of one reference */
    IOR_TAPS = 36,
    IOR_NAMES = 32,
    IOR_EXTRAS = 32,
    IOR_MOST = 65535       /* the most octets of a source and of an image */
};

/* ---- results and refusals; places and figures are listed in docs/FIRMWARE.md */

enum {
    IOR_ACCEPTED = 0,
    IOR_CUT = 1,           /* a field or its data is cut off (figures: need, have), or octets are left over (count, 0) */
    IOR_TOO_LONG = 2,      /* a length passes the end, or a written component passes 255 (declared, available) */
    IOR_WRONG = 3,         /* an order octet, a required tag or the gap behind a type id is wrong */
    IOR_OUT_OF_RANGE = 4,  /* a type id's length, a component count or an address length is out of range */
    IOR_NO_ROOM = 5,       /* the output is too small (need, have) */
    IOR_SOURCE_LARGE = 6,  /* the source has over 65,535 octets (length, 65535) */
    IOR_TABLE_SMALL = 7,   /* a table is too small (total needed, size) */
    IOR_COUNTS = 8,        /* a used count is above the table's size, or sums disagree */
    IOR_OUTSIDE = 9,       /* a view passes the source's end (offset, length) */
    IOR_IMAGE_LARGE = 10,  /* the image has over 65,535 octets (image, 65535) */
    IOR_NOT_ASKED = 255    /* an array has another length than it must have, a table is not exact, or no rule or way has the number: nothing is changed, the
                              answer neither */
};

/* ---- where an answer's numbers stand */

enum {
    IOR_ANSWER_NUMBER = 0, IOR_ANSWER_PLACE = 1, IOR_ANSWER_FIRST = 2, IOR_ANSWER_SECOND = 3, IOR_ANSWER_COUNT = 4,
    IOR_ANSWER_OFFSET = 5  /* of a reading refused with 1 to 4: the first octet of what is cut off, left over, too long or wrong; else 0 */
};

/* ---- where a table's numbers stand */

enum {
    IOR_TYPE_ID_AT = 0, IOR_TYPE_ID_LEN = 1,
    IOR_PROFILES_USED = 2, IOR_TAPS_USED = 3, IOR_NAMES_USED = 4, IOR_EXTRAS_USED = 5,
    IOR_PROFILE_START = 6, IOR_PROFILE_WIDTH = 10,
    IOR_TAP_START = 86, IOR_TAP_WIDTH = 5,
    IOR_NAME_START = 266, IOR_NAME_WIDTH = 4,
    IOR_EXTRA_START = 394, IOR_EXTRA_WIDTH = 3
};

/* the first number of a profile */
enum { IOR_OPAQUE = 0, IOR_BIOP = 1, IOR_LITE_OPTIONS = 2 };

/* the others, by its sort; what is not named is 0 */
enum { IOR_OPAQUE_TAG = 1, IOR_OPAQUE_AT = 2, IOR_OPAQUE_LEN = 3 };
enum {
    IOR_BIOP_CAROUSEL = 1, IOR_BIOP_MODULE = 2, IOR_BIOP_MAJOR = 3, IOR_BIOP_MINOR = 4,
    IOR_BIOP_KEY_AT = 5, IOR_BIOP_KEY_LEN = 6, IOR_BIOP_TAPS = 7, IOR_BIOP_EXTRAS = 8
};
enum {
    IOR_LITE_CAROUSEL = 1, IOR_LITE_SPECIFIER = 2, IOR_LITE_TRANSPORT_STREAM = 3, IOR_LITE_NETWORK = 4, IOR_LITE_SERVICE = 5,
    IOR_LITE_NAMES = 6, IOR_LITE_CONTEXT_AT = 7, IOR_LITE_CONTEXT_LEN = 8, IOR_LITE_EXTRAS = 9
};

enum { IOR_TAP_ID = 0, IOR_TAP_USE = 1, IOR_TAP_ASSOCIATION = 2, IOR_TAP_SELECTOR_AT = 3, IOR_TAP_SELECTOR_LEN = 4 };
enum { IOR_NAME_ID_AT = 0, IOR_NAME_ID_LEN = 1, IOR_NAME_KIND_AT = 2, IOR_NAME_KIND_LEN = 3 };
enum { IOR_EXTRA_TAG = 0, IOR_EXTRA_AT = 1, IOR_EXTRA_LEN = 2 };

/* ---- references */

/* Reads the reference at the start of s. Accepted: answer[4] octets were consumed, the table's six front numbers and its used entries are
 * stored, and what stands behind the used entries is kept. Refused (1 to 4, 6, 7): answer[4] is 0 and the table is zero throughout. Octets behind the
 * reference, up to 65,535 in all, change nothing; a reference that is cut short is refused with 1 or 2. */
uint32_t ior_read(const uint8_t *s, size_t n, uint32_t *table, size_t table_len, uint64_t *answer, size_t answer_len);

/* The same, and s must end with the reference: octets left over are refused with 1, place 4. */
uint32_t ior_read_whole(const uint8_t *s, size_t n, uint32_t *table, size_t table_len, uint64_t *answer, size_t answer_len);

/* The length of the image that ior_write writes of the table over the source s, in answer[4]; or 6, 8, 9 or 10, and 0 there. */
uint32_t ior_length(const uint32_t *table, size_t table_len, const uint8_t *s, size_t n, uint64_t *answer, size_t answer_len);

/* Writes the table over the source s at the start of out. Accepted: answer[4] octets were written, and those behind are as they were.
 * Refused (2, 4, 5, 6, 8, 9, 10): answer[4] is 0 and no octet of out is changed. */
uint32_t ior_write(const uint32_t *table, size_t table_len, const uint8_t *s, size_t n, uint8_t *out, size_t out_len, uint64_t *answer,
                   size_t answer_len);

/* ---- references by a rule for their type ids, and written in a way */

/* A type id's length is a multiple of 4, as for the functions above; or it may be any, and a gap of 0 to 3 octets FF fills up to the next multiple of 4 before
 * the profile count. */
enum { IOR_RULE_MULTIPLE = 1, IOR_RULE_GAP = 2 };

/* An address is written with its constants, as ior_write does. */
enum { IOR_WAY_CONSTANTS = 1 };

/* The same as the functions above, which are those of IOR_RULE_MULTIPLE and IOR_WAY_CONSTANTS. Under IOR_RULE_GAP a reading refuses a gap that is cut off with
 * 1, place 47 (figures: where it should end, where the octets end), and one with another octet than FF with 3, place 46, both at the gap's first octet; 4 with
 * place 33 is not given; and the image has the gap, so that its length counts it. A table doesn't say by which rule it was read: name it again. */
uint32_t ior_read_by(uint32_t rule, const uint8_t *s, size_t n, uint32_t *table, size_t table_len, uint64_t *answer, size_t answer_len);
uint32_t ior_read_whole_by(uint32_t rule, const uint8_t *s, size_t n, uint32_t *table, size_t table_len, uint64_t *answer, size_t answer_len);
uint32_t ior_length_by(uint32_t rule, const uint32_t *table, size_t table_len, const uint8_t *s, size_t n, uint64_t *answer, size_t answer_len);
uint32_t ior_write_by(uint32_t rule, uint32_t way, const uint32_t *table, size_t table_len, const uint8_t *s, size_t n, uint8_t *out, size_t out_len,
                      uint64_t *answer, size_t answer_len);

/* ---- questions */

enum { IOR_KIND_DIRECTORY = 0, IOR_KIND_FILE = 1, IOR_KIND_STREAM = 2, IOR_KIND_SERVICE_GATEWAY = 3, IOR_KIND_STREAM_EVENT = 4, IOR_KIND_UNKNOWN = 5 };

/* The kind that the octets of a type id name, one of the six above; kind[0] is its four octets as a number, 0 if it has not four octets. kind has one
 * number, else IOR_NOT_ASKED. */
uint32_t ior_kind(const uint8_t *type_id, size_t n, uint32_t *kind, size_t kind_len);

/* Whether a tap of this use and selector has a transaction id and a timeout: 1, and pair[0] and pair[1] are the two; or 0, and both are 0. pair has
 * two numbers and use has 16 bits; else IOR_NOT_ASKED. */
uint32_t ior_tap(uint32_t use, const uint8_t *selector, size_t n, uint32_t *pair, size_t pair_len);

/* The index of the first BIOP profile, in answer[4]; IOR_PROFILES (8) if there is none. Refused with 8, place 40, if more than 8 are used. */
uint32_t ior_first_biop(const uint32_t *table, size_t table_len, uint64_t *answer, size_t answer_len);

/* Whether an address of twenty octets is a DVB address: 1 or 0. It is one if AFI (octet 0) and type (1) are 00, the specifier type (6) is 01, the specifier
 * data (7 to 9) is DVB's own organisation number 00 01 5A and the last four (16 to 19) are FF; the ten other octets may be any. IOR_NOT_ASKED if it has
 * another length. */
uint32_t ior_dvb_address(const uint8_t *address, size_t n);

/* ---- the name component with lengths of one octet */

/* Reads a name at the start of s: answer[4] octets were consumed, and name has four numbers: where the id stands and its length, where the kind stands
 * and its length. Refused (1, 2, 6): answer[4] is 0 and name is zero throughout. */
uint32_t ior_name_read(const uint8_t *s, size_t n, uint32_t *name, size_t name_len, uint64_t *answer, size_t answer_len);

/* Writes the name of these views over the source s at the start of out: answer[4] octets were written, and those behind are as they were. Refused (2, 5, 6,
 * 9): answer[4] is 0 and no octet of out is changed. */
uint32_t ior_name_write(const uint32_t *name, size_t name_len, const uint8_t *s, size_t n, uint8_t *out, size_t out_len, uint64_t *answer,
                        size_t answer_len);

#ifdef __cplusplus
}
#endif

/* ---- the same with typed arrays, and entries by their index */

struct ior_table { uint32_t number[IOR_TABLE]; };
struct ior_answer { uint64_t number[IOR_ANSWER]; };
struct ior_view { uint32_t at, len; };

static inline uint32_t ior_read_into(const uint8_t *s, size_t n, struct ior_table *t, struct ior_answer *a) {
    return ior_read(s, n, t->number, IOR_TABLE, a->number, IOR_ANSWER);
}
static inline uint32_t ior_read_whole_into(const uint8_t *s, size_t n, struct ior_table *t, struct ior_answer *a) {
    return ior_read_whole(s, n, t->number, IOR_TABLE, a->number, IOR_ANSWER);
}
static inline uint32_t ior_length_of(const struct ior_table *t, const uint8_t *s, size_t n, struct ior_answer *a) {
    return ior_length(t->number, IOR_TABLE, s, n, a->number, IOR_ANSWER);
}
static inline uint32_t ior_write_from(const struct ior_table *t, const uint8_t *s, size_t n, uint8_t *out, size_t room, struct ior_answer *a) {
    return ior_write(t->number, IOR_TABLE, s, n, out, room, a->number, IOR_ANSWER);
}

static inline uint32_t ior_read_into_by(uint32_t rule, const uint8_t *s, size_t n, struct ior_table *t, struct ior_answer *a) {
    return ior_read_by(rule, s, n, t->number, IOR_TABLE, a->number, IOR_ANSWER);
}
static inline uint32_t ior_read_whole_into_by(uint32_t rule, const uint8_t *s, size_t n, struct ior_table *t, struct ior_answer *a) {
    return ior_read_whole_by(rule, s, n, t->number, IOR_TABLE, a->number, IOR_ANSWER);
}
static inline uint32_t ior_length_of_by(uint32_t rule, const struct ior_table *t, const uint8_t *s, size_t n, struct ior_answer *a) {
    return ior_length_by(rule, t->number, IOR_TABLE, s, n, a->number, IOR_ANSWER);
}
static inline uint32_t ior_write_from_by(uint32_t rule, uint32_t way, const struct ior_table *t, const uint8_t *s, size_t n, uint8_t *out, size_t room,
                                         struct ior_answer *a) {
    return ior_write_by(rule, way, t->number, IOR_TABLE, s, n, out, room, a->number, IOR_ANSWER);
}

/* The numbers of entry i; i is below the used count, which is at most the table's size after an accepted reading. */
static inline const uint32_t *ior_profile_at(const struct ior_table *t, size_t i) { return t->number + IOR_PROFILE_START + IOR_PROFILE_WIDTH * i; }
static inline const uint32_t *ior_tap_at(const struct ior_table *t, size_t i) { return t->number + IOR_TAP_START + IOR_TAP_WIDTH * i; }
static inline const uint32_t *ior_name_at(const struct ior_table *t, size_t i) { return t->number + IOR_NAME_START + IOR_NAME_WIDTH * i; }
static inline const uint32_t *ior_extra_at(const struct ior_table *t, size_t i) { return t->number + IOR_EXTRA_START + IOR_EXTRA_WIDTH * i; }

/* The same, to change them. */
static inline uint32_t *ior_edit_profile(struct ior_table *t, size_t i) { return t->number + IOR_PROFILE_START + IOR_PROFILE_WIDTH * i; }
static inline uint32_t *ior_edit_tap(struct ior_table *t, size_t i) { return t->number + IOR_TAP_START + IOR_TAP_WIDTH * i; }
static inline uint32_t *ior_edit_name(struct ior_table *t, size_t i) { return t->number + IOR_NAME_START + IOR_NAME_WIDTH * i; }
static inline uint32_t *ior_edit_extra(struct ior_table *t, size_t i) { return t->number + IOR_EXTRA_START + IOR_EXTRA_WIDTH * i; }

/* How many taps, names and extras a profile has. */
static inline size_t ior_taps_of(const uint32_t *profile) { return profile[0] == IOR_BIOP ? profile[IOR_BIOP_TAPS] : 0; }
static inline size_t ior_names_of(const uint32_t *profile) { return profile[0] == IOR_LITE_OPTIONS ? profile[IOR_LITE_NAMES] : 0; }
static inline size_t ior_extras_of(const uint32_t *profile) {
    return profile[0] == IOR_BIOP ? profile[IOR_BIOP_EXTRAS] : profile[0] == IOR_LITE_OPTIONS ? profile[IOR_LITE_EXTRAS] : 0;
}

/* The index of the first tap, name and extra of profile i: so many have the profiles before it. */
static inline size_t ior_first_tap(const struct ior_table *t, size_t i) {
    size_t sum = 0;
    while (i > 0) sum += ior_taps_of(ior_profile_at(t, --i));
    return sum;
}
static inline size_t ior_first_name(const struct ior_table *t, size_t i) {
    size_t sum = 0;
    while (i > 0) sum += ior_names_of(ior_profile_at(t, --i));
    return sum;
}
static inline size_t ior_first_extra(const struct ior_table *t, size_t i) {
    size_t sum = 0;
    while (i > 0) sum += ior_extras_of(ior_profile_at(t, --i));
    return sum;
}

/* A view: offset and length stand one after the other. */
static inline struct ior_view ior_view_of(const uint32_t *numbers, size_t at) {
    struct ior_view v;
    v.at = numbers[at];
    v.len = numbers[at + 1];
    return v;
}
static inline struct ior_view ior_type_id(const struct ior_table *t) { return ior_view_of(t->number, IOR_TYPE_ID_AT); }

#endif
