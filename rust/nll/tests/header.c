/* Prints the constants of the header, and calls the library with null pointers where the length is 0. It is both C and C++. */
#include <stdio.h>
#include <string.h>

#include "nll.h"

static int failures = 0;

static void expect(int holds, const char *what) {
    if (!holds) {
        printf("failed: %s\n", what);
        failures++;
    }
}

static void null_pointers(void) {
    /* one empty block: no words and two bytes */
    static const uint8_t empty_block[] = {1, 0, 7, 0, 0, 0, 0, 1, 0, 0};
    uint8_t bytes[2] = {9, 9};
    expect(nll_analyse(NULL, 0, NULL, 0, NULL, 0) == NLL_REFUSED_VERSION, "no record and no buffers");
    expect(nll_analyse(empty_block, sizeof empty_block, NULL, 0, NULL, 0) == NLL_REFUSED_ROOM, "no buffers");
    expect(nll_analyse(empty_block, sizeof empty_block, NULL, 0, bytes, 2) == NLL_ACCEPTED, "no words");
    expect(bytes[0] == 0 && bytes[1] == 0, "the bytes");
}

static void readers(void) {
    /* two declared regions, the second grown: case 9 */
    static const uint8_t record[] = {1, 0, 27, 0, 2, 2, 2, 1, 0, 0, 1, 1, 0, 0, 0, 1, 1, 0, 1, 0, 0, 2, 3, 0, 0, 0, 1, 5, 0, 0};
    uint32_t words[2];
    uint8_t bytes[13];
    memset(bytes, NLL_UNWRITTEN, sizeof bytes);
    expect(nll_analyse(record, sizeof record, words, 2, bytes, sizeof bytes) == NLL_ACCEPTED, "case 9");
    expect(nll_points(record, bytes, sizeof bytes) == 5, "points, with a byte to spare");
    expect(nll_points(record, bytes, 12) == 5, "points, with an exact fit");
    expect(nll_words_needed(2, 5) == 2 && nll_bytes_needed(5, 2) == 12, "what is needed");
    expect(!nll_holds(words, 5, 0, 4) && nll_holds(words, 5, 1, 4), "the sets");
    expect(bytes[10] == 0 && bytes[11] == 1 && bytes[12] == NLL_UNWRITTEN, "the marks");
}

#define PRINT(name) printf("%s %d\n", #name, name)

static void constants(void) {
    PRINT(NLL_VERSION);
    PRINT(NLL_MAX_RECORD);
    PRINT(NLL_MAX_STRUCTS);
    PRINT(NLL_MAX_REGIONS);
    PRINT(NLL_MAX_DECLARED);
    PRINT(NLL_MAX_VARIABLES);
    PRINT(NLL_MAX_BLOCKS);
    PRINT(NLL_MAX_PARAMETERS);
    PRINT(NLL_MAX_FIELDS);
    PRINT(NLL_MAX_OUTLIVED);
    PRINT(NLL_MAX_SUCCESSORS);
    PRINT(NLL_MAX_ACTIONS);
    PRINT(NLL_MAX_STEPS);
    PRINT(NLL_MAX_SOURCES);
    PRINT(NLL_MAX_NODES);
    PRINT(NLL_MAX_POINTS);
    PRINT(NLL_MAX_BORROWS);
    PRINT(NLL_MAX_WORDS);
    PRINT(NLL_MAX_BYTES);
    PRINT(NLL_ACCEPTED);
    PRINT(NLL_REFUSED_VERSION);
    PRINT(NLL_REFUSED_LENGTH);
    PRINT(NLL_REFUSED_FORM);
    PRINT(NLL_REFUSED_RANGE);
    PRINT(NLL_REFUSED_SIZE);
    PRINT(NLL_REFUSED_NAME);
    PRINT(NLL_REFUSED_ARGUMENTS);
    PRINT(NLL_REFUSED_PATH);
    PRINT(NLL_REFUSED_SHAPE);
    PRINT(NLL_REFUSED_ROOM);
    PRINT(NLL_FAULT_NONE);
    PRINT(NLL_FAULT_READ);
    PRINT(NLL_FAULT_WRITE);
    PRINT(NLL_FAULT_MOVE);
    PRINT(NLL_FAULT_STORAGE_DEAD);
    PRINT(NLL_UNWRITTEN);
}

int main(void) {
    null_pointers();
    readers();
    constants();
    return failures != 0;
}
