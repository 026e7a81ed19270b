/*
 * Vullades: an estate in lent memory, which answers calls. The library is libvullades.a. It allocates nothing and keeps nothing
 * between calls; of others it calls only what a compiler for C calls by itself (memset and the like, division of 128 bits).
 *
 * A desk lives in 64-bit words that the caller lends: as many as vullades_words says, opened once by vullades_open, lent again
 * with each vullades_call, and moved or copied as the caller likes. A call is a row of bytes, and so is its answer.
 *
 * Each function answers one signed number: a length, which is 0 or more, or, below 0, a refusal and its place, as
 * -(refusal * 2^32 + place). What is refused changes nothing: neither the memory nor the bytes for the answer.
 *
 * No function asks anything of what memory or bytes hold, and none of the lengths: whatever they are, it returns, it reads
 * nothing but what it was lent, and writes nothing but the desk's words and the answer. What C has to see to is what no
 * function can: that so many words or bytes are where a pointer points to, words on an address that 8 divides, that no two of
 * the three overlap, and that no other thread uses them meanwhile. A pointer may be NULL where its length is 0.
 */
#ifndef VULLADES_H
#define VULLADES_H

#include <stddef.h>
#include <stdint.h>

#ifdef __cplusplus
extern "C" {
#endif

/* The most creditors of a desk; the most cents in one call; the most cents there. */
#define VULLADES_MOST_CREDITORS 1024
#define VULLADES_MOST_CENTS UINT64_C(1000000000)
#define VULLADES_MOST_THERE UINT64_C(1000000000000)

/* What a desk for the most creditors asks for, for those who lend arrays. */
#define VULLADES_MOST_WORDS 3136
#define VULLADES_MOST_BYTES 8216

/*
 * The calls: their first byte. Numbers follow it, of eight bytes each, the low byte first.
 */
enum {
    VULLADES_CLAIM = 0,  /* cents: a claim, the last. Answered by how many there were before it, which is its place. */
    VULLADES_PROVE = 1,  /* place, cents: the claim at this place, from 0, is so much from now on. By the place. */
    VULLADES_COME = 2,   /* cents: so many more are there. By how many there are. */
    VULLADES_SHARES = 3, /* By what each creditor has, in parts of a cent. */
    VULLADES_CENTS = 4   /* By what each creditor has, in whole cents. */
};

/*
 * The answers: their first byte, with numbers behind it as in a call.
 */
enum {
    VULLADES_NUMBER = 1, /* the number: 9 bytes */
    VULLADES_PARTS = 2,  /* how many parts a cent has, a count, and so many shares: 17 bytes, and 8 for each */
    VULLADES_AMOUNTS = 3 /* a count, and so many amounts of cents: 9 bytes, and 8 for each */
};

/*
 * The refusals. The first that applies is told.
 */
enum {
    VULLADES_UNREADABLE = 1, /* no call; the place is that of the first byte that does not fit */
    VULLADES_TOO_LARGE = 2,  /* more than VULLADES_MOST_CENTS; at 1 for prove, else at 0 */
    VULLADES_NOT_LENT = 3,   /* at 0, more than VULLADES_MOST_CREDITORS; at 1, too few words or bytes, or words of no desk */
    VULLADES_NOT_THERE = 4,  /* at 0: no claim has this place */
    VULLADES_NO_ROOM = 5     /* at 0: as many claims as the desk is for, or more than VULLADES_MOST_THERE */
};

/* How many words of memory a desk for so many creditors asks for: 64 + 3 * limit. Refused: 3 at 0. */
int64_t vullades_words(size_t limit);

/* How many bytes it asks for with each call, for the answer: 24 + 8 * limit. Refused: 3 at 0. */
int64_t vullades_bytes(size_t limit);

/*
 * Opens a desk for so many creditors, whatever memory held: there are no claims, and nothing is there. Answers how many words
 * the desk takes; those behind it are left as they are. Refused: 3 at 0; 3 at 1, where fewer words are lent than it asks for.
 */
int64_t vullades_open(uint64_t *memory, size_t words, size_t limit);

/*
 * Does what a call asks for, writes the answer at the start of the bytes that are lent for it, and answers how long it is; the
 * bytes behind it are left as they are. Refused as the list says; 3 does not come where a desk was opened in this memory and
 * as many bytes are lent as it asks for.
 */
int64_t vullades_call(uint64_t *memory, size_t words, const uint8_t *call, size_t length, uint8_t *answer, size_t bytes);

/* Of a number below 0: the refusal and its place. */
static inline int vullades_refusal(int64_t answered) { return (int)((0 - (uint64_t)answered) >> 32); }

static inline uint32_t vullades_place(int64_t answered) { return (uint32_t)(0 - (uint64_t)answered); }

#ifdef __cplusplus
}
#endif

#endif
