/*
 * A desk in memory of its own, over libvullades.a. What the library answers is looked at before it is used: what cannot
 * come is told as DESK_BROKEN, and then the desk can only be closed.
 */
#ifndef DESK_H
#define DESK_H

#include <stddef.h>
#include <stdint.h>

#include "vullades.h"

/* What comes of a call: a refusal of vullades.h, or one of these. */
enum { DESK_DONE = 0, DESK_NO_MEMORY = -1, DESK_BROKEN = -2 };

struct desk {
    size_t limit;     /* for how many creditors it is */
    size_t creditors; /* how many there are */
    uint64_t there;   /* how many cents are there */
    int64_t answered; /* what the library answered last */
    uint64_t *memory; /* what it is lent */
    size_t words;
    uint8_t *answer;
    size_t bytes;
};

/* Opens a desk for so many creditors, at most VULLADES_MOST_CREDITORS. It is to be closed, also where that fails. */
int desk_open(struct desk *desk, size_t limit);

void desk_close(struct desk *desk);

/* Sends a claim or cents that come, with one number, or a proof, with two. */
int desk_enter(struct desk *desk, uint8_t call, const uint64_t *numbers);

/* Asks for shares or cents; a cent has so many parts in them. desk_amount tells each, until the next call. */
int desk_list(struct desk *desk, uint8_t call, uint64_t *parts);

uint64_t desk_amount(const struct desk *desk, size_t creditor);

#endif
