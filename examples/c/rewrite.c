/* rewrite FILE OUT: reads the object reference at the start of FILE and writes it anew; - is standard input and output. */
#include "file.h"

static const char usage[] =
    "usage: rewrite FILE OUT\n"
    "Reads the object reference at the start of FILE and writes it anew to OUT; - is standard input and output.\n"
    "Status: 0 written, 1 refused, 2 a file can't be read or written.\n";

static uint8_t source[ROOM], image[IOR_MOST];
static struct ior_table table;
static struct ior_answer answer;

/* A file that could not be written whole is told as such, even if only its end was lost. */
static int store(const char *path, size_t length) {
    FILE *f;
    size_t stored;
    errno = 0;
    if (is_dash(path)) {
        fwrite(image, 1, length, stdout);
        return printed();
    }
    f = fopen(path, "wb");
    if (f == NULL) return failed(path, "written");
    stored = fwrite(image, 1, length, f);
    if (fclose(f) != 0 || stored != length) return failed(path, "written");
    return DONE;
}

int main(int argc, char **argv) {
    long n;
    size_t length;
    uint32_t result;
    if (argc == 2 && strcmp(argv[1], "--help") == 0) {
        fputs(usage, stdout);
        return printed();
    }
    if (argc != 3) {
        fputs(usage, stderr);
        return FAILED;
    }
    n = file_octets(argv[1], source);
    if (n < 0) return failed(argv[1], "read");
    result = ior_read_into(source, (size_t)n, &table, &answer);
    if (result != IOR_ACCEPTED) return report(argv[1], 1, result, &answer);
    result = ior_length_of(&table, source, (size_t)n, &answer);
    if (result != IOR_ACCEPTED) return report(argv[1], 0, result, &answer);
    length = (size_t)answer.number[IOR_ANSWER_COUNT];
    result = ior_write_from(&table, source, (size_t)n, image, length, &answer);
    if (result != IOR_ACCEPTED) return report(argv[1], 0, result, &answer);
    return store(argv[2], length);
}
