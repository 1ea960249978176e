/* What both examples share: a file's octets, a refusal in plain words, and whether all that was printed got out. */
#ifndef EXAMPLE_FILE_H
#define EXAMPLE_FILE_H

#include <errno.h>
#include <stdio.h>
#include <string.h>
#include "ior.h"

/* One more than the library takes, so that a file that is too large is refused by it. */
enum { ROOM = IOR_MOST + 1 };

/* How a program ends: 0, or 1 if a reference is refused, or 2 if it can't do what it was asked. */
enum { DONE = 0, REFUSED = 1, FAILED = 2 };

static int is_dash(const char *path) { return strcmp(path, "-") == 0; }

static const char *named(const char *path) { return is_dash(path) ? "standard input" : path; }

/* Says that a file can't be read or written, and why as far as errno tells. */
static int failed(const char *path, const char *what) {
    fprintf(stderr, "%s: can't be %s%s%s\n", named(path), what, errno != 0 ? ": " : "", errno != 0 ? strerror(errno) : "");
    return FAILED;
}

/* The octets of a file, or of standard input for "-", at most ROOM of them; -1 if it can't be read, and errno says why. */
static long file_octets(const char *path, uint8_t *octets) {
    FILE *f;
    size_t n;
    int bad, why;
    errno = 0;
    f = is_dash(path) ? stdin : fopen(path, "rb");
    if (f == NULL) return -1;
    n = fread(octets, 1, ROOM, f);
    bad = ferror(f);
    why = errno;
    if (f != stdin) fclose(f);
    errno = why;
    return bad ? -1 : (long)n;
}

/* Says why a call was not accepted; of a reading, where in the file it broke. 255 comes first: it leaves the answer as it was before the call, so there is
 * nothing in it to tell. */
static int report(const char *path, int is_reading, uint32_t result, const struct ior_answer *a) {
    static const char *const why[] = {
        "accepted", "cut off, or octets left over", "a length passes its end", "a wrong octet or tag", "a number out of range",
        "no room in the output", "the source is too large", "a table is too small", "counts disagree", "a view lies outside the source",
        "the image is too large"};
    if (result == IOR_NOT_ASKED) {
        fprintf(stderr, "%s: not asked: an array has another length than it must have, or the table is not exact\n", named(path));
        return FAILED;
    }
    fprintf(stderr, "%s: refused: %s (number %u, place %llu, %llu, %llu)", named(path), why[result], (unsigned)result,
            (unsigned long long)a->number[IOR_ANSWER_PLACE], (unsigned long long)a->number[IOR_ANSWER_FIRST],
            (unsigned long long)a->number[IOR_ANSWER_SECOND]);
    if (is_reading && result <= IOR_OUT_OF_RANGE) fprintf(stderr, " at octet %llu", (unsigned long long)a->number[IOR_ANSWER_OFFSET]);
    fprintf(stderr, "\n");
    return REFUSED;
}

/* Ends the output: a full disk may show only now. */
static int printed(void) {
    if (fflush(stdout) == 0 && !ferror(stdout)) return DONE;
    return failed("standard output", "written");
}

#endif
