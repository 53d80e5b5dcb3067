/*
 * A small loader: reads a job in hexadecimal, has it analysed, tells the operator what was found and decides whether the
 * transport may move. In the repository, after `./staticlib`:
 *
 *   cc -std=c99 -Wall -Wextra -pedantic -I include -o target/loader examples/c/loader.c target/staticlib/libnll.a
 *   target/loader jobs/case5.hex
 *
 * Ends with status 0 if the transport may move, 1 if it stays for what the job does, 2 if the job is refused, 3 if it cannot be
 * read.
 */
#include <stdio.h>
#include <string.h>

#include "nll.h"

/* In an operator's words, by number. */
static const char *const refusals[] = {
    "accepted",
    "this is no job of version 1",
    "the job's length is wrong: it was cut off or is too long",
    "the job is damaged: a part is missing, unknown or left over",
    "the job has too many or too few parts of a kind",
    "the job is too large: over 1,024 points or 128 borrows",
    "the job has a number that names nothing or cannot stand there",
    "the job has a type whose parts do not fit together",
    "the job has a path that its types do not have, or one to a type that is too large",
    "the job assigns or borrows between types that differ",
    "the loader lent too little room for the answer",
};

static const char *const kinds[] = {"nothing", "a read of", "a write to", "a move of", "the storage's end of"};

/* These serve every record. One byte more than a record can have, so that a longer one is refused. */
static uint8_t record[NLL_MAX_RECORD + 1];
static uint32_t words[NLL_MAX_WORDS];
static uint8_t bytes[NLL_MAX_BYTES];

static int digit(int c) {
    if (c >= '0' && c <= '9')
        return c - '0';
    if (c >= 'a' && c <= 'f')
        return c - 'a' + 10;
    if (c >= 'A' && c <= 'F')
        return c - 'A' + 10;
    return -1;
}

/* Reads a record as nll-list does: spaces and line ends are skipped, and other text or an odd digit is an empty record. */
static size_t read_record(FILE *file) {
    size_t digits = 0;
    int c;
    while ((c = getc(file)) != EOF) {
        if (c == ' ' || c == '\r' || c == '\n')
            continue;
        if (digit(c) < 0)
            return 0;
        if (digits / 2 < sizeof record)
            record[digits / 2] = (uint8_t)(digits % 2 == 0 ? digit(c) * 16 : record[digits / 2] + digit(c));
        digits++;
    }
    if (digits % 2 != 0)
        return 0;
    return digits / 2 < sizeof record ? digits / 2 : sizeof record;
}

/* Says what the answer has, and whether the transport may move. */
static int decide(void) {
    size_t points = nll_points(record, bytes, sizeof bytes);
    int found = 0;
    printf("accepted: %zu points, %zu regions\n", points, nll_regions(record));
    for (size_t p = 0; p < points; p++) {
        if (bytes[2 * p] != NLL_FAULT_NONE) {
            printf("point %zu: %s operand %d, which is still lent\n", p, kinds[bytes[2 * p]], bytes[2 * p + 1]);
            found = 1;
        }
    }
    for (size_t r = 0; r < nll_declared(record); r++) {
        if (bytes[2 * points + r] == 1) {
            printf("region %zu: has to outlive more than the job declares\n", r);
            found = 1;
        }
    }
    puts(found ? "the transport stays" : "the transport may move");
    return found;
}

int main(int argc, char **argv) {
    if (argc != 2) {
        fprintf(stderr, "usage: loader FILE\n");
        return 3;
    }
    FILE *file = fopen(argv[1], "rb");
    if (file == NULL) {
        perror(argv[1]);
        return 3;
    }
    size_t length = read_record(file);
    int failed = ferror(file);
    if (failed)
        perror(argv[1]);
    fclose(file);
    if (failed)
        return 3;
    memset(bytes, NLL_UNWRITTEN, sizeof bytes);
    uint8_t number = nll_analyse(record, length, words, NLL_MAX_WORDS, bytes, sizeof bytes);
    if (number != NLL_ACCEPTED) {
        printf("refused (%d): %s\n", number, refusals[number]);
        return 2;
    }
    return decide();
}
