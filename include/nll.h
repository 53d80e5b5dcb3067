/*
 * The borrow analysis of scan jobs: one call, from a record's bytes to the words and bytes of its answer.
 *
 * The static library is written by `./staticlib` to target/staticlib/libnll.a, for x86-64 Linux. It needs memcpy and memset
 * of the C library, has no data that can be written, allocates nothing and keeps nothing between calls.
 * docs/INTEGRATION.md says how a loader uses it; docs/PROMISES.md says what is proved of it.
 */
#ifndef NLL_H
#define NLL_H

#include <stddef.h>
#include <stdint.h>

#ifdef __cplusplus
extern "C" {
#endif

/*
 * The limits of an accepted record. A record has 3 bytes (the version, and the length of what follows in two bytes, the high one
 * first) and at most 16,384 after them. Its points are the actions of all blocks, an end for each block and an end for each
 * declared region.
 */
enum {
    NLL_VERSION = 1,
    NLL_MAX_RECORD = 3 + 16384,
    NLL_MAX_STRUCTS = 16,
    NLL_MAX_REGIONS = 128,
    NLL_MAX_DECLARED = 16,
    NLL_MAX_VARIABLES = 64,
    NLL_MAX_BLOCKS = 64,      /* at least 1 */
    NLL_MAX_PARAMETERS = 4,   /* of a struct, and arguments of a struct in a type */
    NLL_MAX_FIELDS = 8,       /* of a struct */
    NLL_MAX_OUTLIVED = 16,    /* by a declared region */
    NLL_MAX_SUCCESSORS = 8,   /* of a block */
    NLL_MAX_ACTIONS = 64,     /* of a block */
    NLL_MAX_STEPS = 6,        /* of a path */
    NLL_MAX_SOURCES = 8,      /* of an Init */
    NLL_MAX_NODES = 32,       /* of a type */
    NLL_MAX_POINTS = 1024,
    NLL_MAX_BORROWS = 128
};

/* The most words and bytes that an accepted record needs: 4,096 and 2,064. Buffers of these lengths are never too short. */
enum {
    NLL_MAX_WORDS = NLL_MAX_REGIONS * (NLL_MAX_POINTS / 32),
    NLL_MAX_BYTES = NLL_MAX_POINTS * 2 + NLL_MAX_DECLARED
};

/* What the call returns: accepted, or the first refusal that applies. */
enum {
    NLL_ACCEPTED = 0,
    NLL_REFUSED_VERSION = 1,   /* the record is empty, or its first byte is not 1 */
    NLL_REFUSED_LENGTH = 2,    /* it has under three bytes, or its length is over 16,384 or is not the number of bytes that
                                  follow */
    NLL_REFUSED_FORM = 3,      /* a byte is missing, a tag or choice has no meaning, or bytes are left over */
    NLL_REFUSED_RANGE = 4,     /* a count is out of its range, or a type has over 32 nodes */
    NLL_REFUSED_SIZE = 5,      /* there are over 1,024 points or over 128 borrows */
    NLL_REFUSED_NAME = 6,      /* a number names nothing, or declared regions exceed regions, or an outlived region is not
                                  declared, or a field is numbered 0 */
    NLL_REFUSED_ARGUMENTS = 7, /* a type's arguments do not fit its struct's parameters, or a bound stands where it has no
                                  meaning */
    NLL_REFUSED_PATH = 8,      /* a path takes a step that its type does not have, or reaches a type of over 32 nodes */
    NLL_REFUSED_SHAPE = 9,     /* an assignment or a borrow joins types of different shape */
    NLL_REFUSED_ROOM = 10      /* the word buffer or the byte buffer is too short */
};

/* The kinds of fault: what an action does to something that is still lent. */
enum {
    NLL_FAULT_NONE = 0,
    NLL_FAULT_READ = 1,
    NLL_FAULT_WRITE = 2,
    NLL_FAULT_MOVE = 3,
    NLL_FAULT_STORAGE_DEAD = 4
};

/*
 * Analyses a record, and returns NLL_ACCEPTED or a refusal. With N points and W = N / 32, rounded up:
 *
 *   words   region r has the words r * W to r * W + W - 1; point p is bit p % 32 of its word p / 32, and bits past N are 0.
 *           regions * W words are written, and those beyond are left.
 *   bytes   point p has its kind of fault at 2 * p and the operand at 2 * p + 1, both 0 without a fault; declared region r has
 *           1 at 2 * N + r if it is grown, else 0. N * 2 + declared bytes are written, and those beyond are left.
 *
 * Points are numbered block by block, a block's actions first and then its end; the ends of the declared regions follow.
 * An action's operands are its paths in the record's order, counted from 0; a StorageDead's one operand, number 0, is its
 * variable.
 *
 * A refusal changes neither buffer. Any bytes may be handed over as a record, and buffers of any length, 0 too; the call does not
 * mind what they hold before (nll_points does).
 *
 * Of the pointers the caller owes what C cannot test:
 *   - `record` has `record_len` bytes that can be read, `words` `words_len` words and `bytes` `bytes_len` bytes that can be read
 *     and written. They are the caller's alone for the time of the call; a record may be read by others too.
 *   - the three do not overlap.
 *   - `words` is aligned for uint32_t.
 *   - where a length is 0 nothing is read or written through the pointer, and it may be null.
 */
uint8_t nll_analyse(const uint8_t *record, size_t record_len, uint32_t *words, size_t words_len, uint8_t *bytes,
                    size_t bytes_len);

/* The words that an accepted job of so many regions and points needs. */
static inline size_t nll_words_needed(size_t regions, size_t points) { return regions * ((points + 31) / 32); }

/* The bytes that an accepted job of so many points and declared regions needs. */
static inline size_t nll_bytes_needed(size_t points, size_t declared) { return points * 2 + declared; }

/* The regions and the declared regions of an accepted record. */
static inline size_t nll_regions(const uint8_t *record) { return record[4]; }
static inline size_t nll_declared(const uint8_t *record) { return record[5]; }

/* A byte that no answer has: kinds are at most 4, operands at most 8, marks of grown regions at most 1. */
enum { NLL_UNWRITTEN = 0xFF };

/*
 * The points of an accepted record, by what was written into a byte buffer that was filled with NLL_UNWRITTEN right before the
 * call. A buffer that served an earlier call has to be filled again: what is left there would be counted. Whoever makes the
 * record knows the number without this.
 */
static inline size_t nll_points(const uint8_t *record, const uint8_t *bytes, size_t bytes_len) {
    size_t written = 0;
    while (written < bytes_len && bytes[written] != NLL_UNWRITTEN)
        written++;
    return (written - nll_declared(record)) / 2;
}

/* Whether the set of a region has a point, in the answer to a job of so many points. Both have to be the job's. */
static inline int nll_holds(const uint32_t *words, size_t points, size_t region, size_t point) {
    return (int)(words[region * ((points + 31) / 32) + point / 32] >> (point % 32) & 1);
}

#ifdef __cplusplus
}
#endif

#endif
