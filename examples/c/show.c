/* show FILE: prints what the object reference at the start of FILE says; - is standard input. */
#include "file.h"

static const char usage[] =
    "usage: show FILE\n"
    "Prints what the object reference at the start of FILE says; - is standard input.\n"
    "Status: 0 shown, 1 refused, 2 the file can't be read or the text not written.\n";

static uint8_t source[ROOM];
static struct ior_table table;
static struct ior_answer answer;

static void octets(const char *label, struct ior_view v) {
    printf("%s ", label);
    if (v.len == 0) printf("-");
    for (uint32_t i = 0; i < v.len; i++) printf("%02x", source[v.at + i]);
    printf("\n");
}

static void kind(void) {
    static const char *const word[] = {"directory", "file", "stream", "service gateway", "stream event", "unknown"};
    struct ior_view v = ior_type_id(&table);
    uint32_t number = 0;
    octets("type id", v);
    printf("kind %s\n", word[ior_kind(source + v.at, v.len, &number, 1)]);
}

static void tap(const uint32_t *t) {
    struct ior_view selector = ior_view_of(t, IOR_TAP_SELECTOR_AT);
    uint32_t pair[2];
    printf("  tap id %u use %04x association %u\n", (unsigned)t[IOR_TAP_ID], (unsigned)t[IOR_TAP_USE], (unsigned)t[IOR_TAP_ASSOCIATION]);
    octets("    selector", selector);
    if (ior_tap(t[IOR_TAP_USE], source + selector.at, selector.len, pair, 2) == 1)
        printf("    transaction %08x timeout %u\n", (unsigned)pair[0], (unsigned)pair[1]);
}

static void extra(const uint32_t *e) {
    printf("  extra tag %08x\n", (unsigned)e[IOR_EXTRA_TAG]);
    octets("    data", ior_view_of(e, IOR_EXTRA_AT));
}

static void biop(const uint32_t *p, size_t first) {
    printf("BIOP carousel %u module %u version %u.%u\n", (unsigned)p[IOR_BIOP_CAROUSEL], (unsigned)p[IOR_BIOP_MODULE],
           (unsigned)p[IOR_BIOP_MAJOR], (unsigned)p[IOR_BIOP_MINOR]);
    octets("  key", ior_view_of(p, IOR_BIOP_KEY_AT));
    for (size_t i = 0; i < ior_taps_of(p); i++) tap(ior_tap_at(&table, first + i));
}

static void lite_options(const uint32_t *p, size_t first) {
    printf("LiteOptions carousel %u specifier %06x transport stream %u network %u service %u\n", (unsigned)p[IOR_LITE_CAROUSEL],
           (unsigned)p[IOR_LITE_SPECIFIER], (unsigned)p[IOR_LITE_TRANSPORT_STREAM], (unsigned)p[IOR_LITE_NETWORK], (unsigned)p[IOR_LITE_SERVICE]);
    for (size_t i = 0; i < ior_names_of(p); i++) {
        octets("  name id", ior_view_of(ior_name_at(&table, first + i), IOR_NAME_ID_AT));
        octets("  name kind", ior_view_of(ior_name_at(&table, first + i), IOR_NAME_KIND_AT));
    }
    octets("  context", ior_view_of(p, IOR_LITE_CONTEXT_AT));
}

static void opaque(const uint32_t *p) {
    printf("opaque tag %08x\n", (unsigned)p[IOR_OPAQUE_TAG]);
    octets("  data", ior_view_of(p, IOR_OPAQUE_AT));
}

static void profile(size_t i) {
    const uint32_t *p = ior_profile_at(&table, i);
    size_t first = ior_first_extra(&table, i);
    if (p[0] == IOR_BIOP) {
        biop(p, ior_first_tap(&table, i));
    } else if (p[0] == IOR_LITE_OPTIONS) {
        lite_options(p, ior_first_name(&table, i));
    } else {
        opaque(p);
    }
    for (size_t k = 0; k < ior_extras_of(p); k++) extra(ior_extra_at(&table, first + k));
}

int main(int argc, char **argv) {
    long n;
    uint32_t result;
    if (argc == 2 && strcmp(argv[1], "--help") == 0) {
        fputs(usage, stdout);
        return printed();
    }
    if (argc != 2) {
        fputs(usage, stderr);
        return FAILED;
    }
    n = file_octets(argv[1], source);
    if (n < 0) return failed(argv[1], "read");
    result = ior_read_into(source, (size_t)n, &table, &answer);
    if (result != IOR_ACCEPTED) return report(argv[1], 1, result, &answer);
    printf("octets %llu of %ld\n", (unsigned long long)answer.number[IOR_ANSWER_COUNT], n);
    kind();
    for (size_t i = 0; i < table.number[IOR_PROFILES_USED]; i++) profile(i);
    return printed();
}
