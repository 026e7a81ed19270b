/*
 * A million calls that nobody should send, at desks and at what is none. Memory, a call and bytes for its answer have
 * each a block of their own that is exactly as large as what is lent, with canaries at both ends: bytes of a block that
 * the sanitizer lets nobody touch, and that are looked at afterwards, since the library itself is built without it.
 * Prints a line of what came of the calls, or what went wrong, with status 1.
 */
#include <sanitizer/asan_interface.h>
#include <stdbool.h>
#include <stdio.h>
#include <stdlib.h>
#include <string.h>

#include "../../include/vullades.h"

enum { CALLS = 1000000, CANARIES = 32, MOST_LIMIT = 40, MOST_LENGTH = 40 };

static const unsigned char CANARY = 0xa5;

/* What is lent, between canaries, and what it held before. */
struct block {
    size_t length;
    unsigned char *all;
    unsigned char *lent;
    unsigned char *before;
};

static uint64_t state = 2;

/* The next number that looks random (splitmix64). */
static uint64_t any_word(void)
{
    uint64_t mixed = state += UINT64_C(0x9e3779b97f4a7c15);
    mixed = (mixed ^ (mixed >> 30)) * UINT64_C(0xbf58476d1ce4e5b9);
    mixed = (mixed ^ (mixed >> 27)) * UINT64_C(0x94d049bb133111eb);
    return mixed ^ (mixed >> 31);
}

static size_t up_to(size_t most)
{
    return (size_t)(any_word() % (most + 1));
}

static bool one_in(size_t times)
{
    return up_to(times - 1) == 0;
}

/* A word of few or many binary digits. */
static uint64_t any_size(void)
{
    uint64_t word = any_word();
    return word >> up_to(63);
}

static void fail(const char *what, long call)
{
    fprintf(stderr, "call %ld: %s\n", call, what);
    exit(1);
}

static struct block lend(size_t length)
{
    struct block block = {length, malloc(length + 2 * CANARIES), NULL, malloc(length + 1)};
    if (block.all == NULL || block.before == NULL)
        fail("no memory", 0);
    block.lent = block.all + CANARIES;
    memset(block.all, CANARY, CANARIES);
    memset(block.lent + length, CANARY, CANARIES);
    ASAN_POISON_MEMORY_REGION(block.all, CANARIES);
    ASAN_POISON_MEMORY_REGION(block.lent + length, CANARIES);
    return block;
}

static void keep(struct block *block)
{
    memcpy(block->before, block->lent, block->length);
}

/* Whether all is as it was kept, but for so many bytes at the start. */
static bool is_kept_but(const struct block *block, size_t changed)
{
    return changed <= block->length &&
           memcmp(block->lent + changed, block->before + changed, block->length - changed) == 0;
}

/* Takes a block back, and says whether its canaries are as they were. */
static bool take_back(struct block *block)
{
    unsigned char *behind = block->lent + block->length;
    bool kept = true;
    ASAN_UNPOISON_MEMORY_REGION(block->all, CANARIES);
    ASAN_UNPOISON_MEMORY_REGION(behind, CANARIES);
    for (size_t i = 0; i < CANARIES; i++)
        kept = kept && block->all[i] == CANARY && behind[i] == CANARY;
    free(block->all);
    free(block->before);
    return kept;
}

static void put(unsigned char *at, uint64_t number)
{
    for (int i = 0; i < 8; i++)
        at[i] = (unsigned char)(number >> 8 * i);
}

static uint64_t any_cents(void)
{
    return one_in(8) ? any_size() : up_to(one_in(2) ? 9 : VULLADES_MOST_CENTS);
}

/* A place where a claim may be, or one of which that is so only in its low bits. */
static uint64_t any_place(void)
{
    uint64_t high = one_in(4) ? any_size() << 32 : 0;
    return high + up_to(MOST_LIMIT / 4);
}

/* A call: mostly one that can be read, otherwise a changed one, or any bytes. */
static struct block any_call(void)
{
    static const size_t lengths[] = {9, 17, 9, 1, 1};
    unsigned char bytes[MOST_LENGTH];
    size_t kind = up_to(VULLADES_CENTS);
    size_t length = lengths[kind];
    for (size_t i = 0; i < MOST_LENGTH; i++)
        bytes[i] = (unsigned char)any_word();
    if (!one_in(16)) {
        bytes[0] = (unsigned char)kind;
        put(bytes + 1, kind == VULLADES_PROVE ? any_place() : any_cents());
        put(bytes + 9, any_cents());
    }
    if (one_in(16))
        length = up_to(MOST_LENGTH);
    size_t flipped = one_in(16) ? up_to(16) : MOST_LENGTH;
    if (flipped < MOST_LENGTH)
        bytes[flipped] ^= (unsigned char)(1u << up_to(7));
    struct block call = lend(length);
    memcpy(call.lent, bytes, length);
    return call;
}

/* Changes a few words, by a bit. */
static void change(uint64_t *at, size_t words)
{
    for (size_t left = 1 + up_to(3); left > 0; left--) {
        size_t place = up_to(one_in(4) ? 2 : words - 1);
        at[place] ^= UINT64_C(1) << up_to(63);
    }
}

/* Memory: a desk where nothing or much is there, or any words, of which the first may be a desk's; some of them
 * changed. */
static struct block any_memory(void)
{
    size_t limit = up_to(MOST_LIMIT);
    size_t words = one_in(4) ? up_to(64 + 3 * MOST_LIMIT) : (size_t)vullades_words(limit) + up_to(2);
    struct block memory = lend(8 * words);
    uint64_t *at = (uint64_t *)(void *)memory.lent;
    for (size_t i = 0; i < words; i++)
        at[i] = any_size();
    for (size_t i = 0; i < words && i < 3; i++)
        at[i] = up_to(limit);
    keep(&memory);
    int64_t opened = one_in(4) ? 0 : vullades_open(at, words, limit);
    bool right =
        opened == 0 || opened == (words < 64 + 3 * limit ? -(INT64_C(3) << 32) - 1 : (int64_t)(64 + 3 * limit));
    if (!right)
        fail("a desk is opened otherwise", 0);
    if (!is_kept_but(&memory, opened < 0 ? 0 : 8 * (size_t)opened))
        fail("opening wrote other words", 0);
    if (opened > 0 && one_in(2))
        at[1] = VULLADES_MOST_THERE - up_to(VULLADES_MOST_CENTS);
    if (words > 2 && one_in(4))
        change(at, words);
    return memory;
}

/* Whether a call of this length may be refused so. */
static bool may_refuse(int64_t answered, size_t length)
{
    uint32_t place = vullades_place(answered);
    switch (vullades_refusal(answered)) {
    case VULLADES_UNREADABLE:
        return place <= length && place <= 17;
    case VULLADES_TOO_LARGE:
        return place <= 1 && length == (place == 1 ? 17 : 9);
    case VULLADES_NOT_LENT:
        return place == 1;
    case VULLADES_NOT_THERE:
        return place == 0 && length == 17;
    case VULLADES_NO_ROOM:
        return place == 0 && length == 9;
    default:
        return false;
    }
}

/* What is wrong with what a call did, or NULL. */
static const char *wrong(int64_t answered, const struct block *memory, const struct block *call,
                         const struct block *answer)
{
    if (!is_kept_but(call, 0))
        return "the call was written";
    if (answered < 0 && !may_refuse(answered, call->length))
        return "no such refusal";
    if (answered < 0 && !is_kept_but(memory, 0))
        return "it is refused, and memory was written";
    if (answered < 0)
        return is_kept_but(answer, 0) ? NULL : "it is refused, and an answer was written";
    uint64_t limit;
    memcpy(&limit, memory->before, sizeof limit);
    size_t numbers = ((size_t)answered - 1) / 8;
    if ((size_t)answered > answer->length || answered % 8 != 1)
        return "no such length";
    if (!is_kept_but(answer, (size_t)answered))
        return "bytes behind the answer were written";
    bool changes = call->lent[0] <= VULLADES_COME;
    if (!is_kept_but(memory, changes ? 8 * (64 + 3 * (size_t)limit) : 0))
        return "other words were written";
    int kind = call->lent[0] == VULLADES_SHARES ? VULLADES_PARTS : changes ? VULLADES_NUMBER : VULLADES_AMOUNTS;
    size_t head = kind == VULLADES_PARTS ? 2 : 1;
    uint64_t count = numbers - head;
    bool counted = numbers >= head && (changes ? count == 0 : memcmp(answer->lent + 8 * head - 7, &count, 8) == 0);
    return counted && answer->lent[0] == kind ? NULL : "no such answer";
}

/* Makes a call, and says whether it was answered. */
static bool once(struct block *memory, long number)
{
    size_t asked = 24 + 8 * MOST_LIMIT;
    struct block call = any_call(), answer = lend(one_in(4) ? up_to(asked) : asked);
    size_t words = one_in(16) ? up_to(memory->length / 8) : memory->length / 8;
    for (size_t i = 0; i < answer.length; i++)
        answer.lent[i] = (unsigned char)(any_word() | 1);
    keep(memory), keep(&call), keep(&answer);
    uint64_t *at = (uint64_t *)(void *)memory->lent;
    const unsigned char *sent = call.length > 0 ? call.lent : NULL;
    int64_t answered = vullades_call(at, words, sent, call.length, answer.lent, answer.length);
    const char *fault = wrong(answered, memory, &call, &answer);
    if (fault != NULL)
        fail(fault, number);
    bool kept = take_back(&call) & take_back(&answer);
    if (!kept)
        fail("a canary was written", number);
    return answered >= 0;
}

int main(void)
{
    long answered = 0, made = 0;
    while (made < CALLS) {
        struct block memory = any_memory();
        for (size_t calls = 1 + up_to(60); calls > 0 && made < CALLS; calls--)
            answered += once(&memory, made++);
        if (!take_back(&memory))
            fail("a canary of memory was written", made);
    }
    printf("%ld calls: %ld answered, %ld refused\n", made, answered, made - answered);
}
