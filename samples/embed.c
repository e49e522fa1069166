/* Rewrites a message with the library: embed TABLE [SECOND] <MESSAGE. With two tables they are joined first.
 * What is sent goes to standard output as it is sent. The exit status is the number given back, 64 for bad usage. */
#include <jermanuts.h>
#include <stdio.h>

static uint8_t file[JERMANUTS_FILE + 1], second[JERMANUTS_FILE + 1], joined[JERMANUTS_FILE];
static uint8_t session[JERMANUTS_SESSION], work[JERMANUTS_WORK], out[JERMANUTS_OUT];

/* One byte more than a rule file can have, so that what is too long is not cut to fit. */
static size_t load(const char *name, uint8_t *bytes) {
    FILE *stream = fopen(name, "rb");
    size_t length = stream ? fread(bytes, 1, JERMANUTS_FILE + 1, stream) : 0;
    if (stream) fclose(stream);
    return length;
}

static uint32_t rewrite(const uint8_t *table, size_t length) {
    uint32_t number, states;
    size_t count;
    int symbol;
    number = jermanuts_begin(table, length, session, &states);
    while (number == JERMANUTS_TAKEN && (symbol = getchar()) != EOF) {
        number = jermanuts_step_in(table, length, session, (uint8_t)symbol, out, sizeof out, &count, work);
        fwrite(out, 1, count, stdout);
    }
    if (number != JERMANUTS_TAKEN) return number;
    number = jermanuts_finish(table, length, session, out, sizeof out, &count);
    fwrite(out, 1, count, stdout);
    return number;
}

int main(int argc, char **argv) {
    uint32_t number, which;
    size_t length, count;
    if (argc != 2 && argc != 3) return 64;
    length = load(argv[1], file);
    if (argc == 2) {
        number = jermanuts_check(file, length);
        return (int)(number ? number : rewrite(file, length));
    }
    number = jermanuts_join(file, length, second, load(argv[2], second), joined, sizeof joined, &which, &count);
    if (number == JERMANUTS_BAD_TABLE) fprintf(stderr, "table %u is bad\n", (unsigned)which);
    return (int)(number ? number : rewrite(joined, count));
}
