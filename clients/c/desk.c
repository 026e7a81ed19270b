#include "desk.h"

#include <stdbool.h>
#include <stdlib.h>

enum { NUMBER = 8 }; /* the bytes of a number */

static void put_number(uint8_t *bytes, uint64_t number)
{
    for (unsigned i = 0; i < NUMBER; i++)
        bytes[i] = (uint8_t)(number >> (8 * i) & 0xff);
}

static uint64_t get_number(const uint8_t *bytes)
{
    uint64_t number = 0;

    for (unsigned i = 0; i < NUMBER; i++)
        number |= (uint64_t)bytes[i] << (8 * i);
    return number;
}

int desk_open(struct desk *desk, size_t limit)
{
    const int64_t words = vullades_words(limit);
    const int64_t bytes = vullades_bytes(limit);

    *desk = (struct desk){.limit = limit, .answered = words < 0 ? words : bytes};
    if (words <= 0 || words > VULLADES_MOST_WORDS || bytes <= 0 || bytes > VULLADES_MOST_BYTES)
        return DESK_BROKEN;
    desk->words = (size_t)words;
    desk->bytes = (size_t)bytes;
    desk->memory = malloc(desk->words * sizeof *desk->memory);
    desk->answer = malloc(desk->bytes);
    if (desk->memory == NULL || desk->answer == NULL)
        return DESK_NO_MEMORY;
    desk->answered = vullades_open(desk->memory, desk->words, limit);
    return desk->answered == words ? DESK_DONE : DESK_BROKEN;
}

void desk_close(struct desk *desk)
{
    free(desk->memory);
    free(desk->answer);
    *desk = (struct desk){0};
}

static void send_call(struct desk *desk, uint8_t call, const uint64_t *numbers, size_t count)
{
    uint8_t bytes[1 + 2 * NUMBER] = {call};

    for (size_t i = 0; i < count; i++)
        put_number(bytes + 1 + NUMBER * i, numbers[i]);
    desk->answered = vullades_call(desk->memory, desk->words, bytes, 1 + NUMBER * count, desk->answer, desk->bytes);
}

/* Whether the answer is of this kind, and has so many bytes. */
static bool is_answer(const struct desk *desk, uint8_t kind, size_t length)
{
    return desk->answered == (int64_t)length && length <= desk->bytes && desk->answer[0] == kind;
}

/* Which refusal was answered, if it is one that can come of this call. */
static int refusal_of(const struct desk *desk, uint8_t call)
{
    if (desk->answered == INT64_MIN)
        return DESK_BROKEN; /* nothing is its negation */
    const bool prove = call == VULLADES_PROVE;
    const int refusal = vullades_refusal(desk->answered);
    const uint32_t place = refusal == VULLADES_TOO_LARGE && prove ? 1 : 0;
    const bool comes = refusal == VULLADES_TOO_LARGE || refusal == (prove ? VULLADES_NOT_THERE : VULLADES_NO_ROOM);

    return comes && vullades_place(desk->answered) == place ? refusal : DESK_BROKEN;
}

int desk_enter(struct desk *desk, uint8_t call, const uint64_t *numbers)
{
    send_call(desk, call, numbers, call == VULLADES_PROVE ? 2 : 1);
    if (desk->answered < 0)
        return refusal_of(desk, call);
    if (!is_answer(desk, VULLADES_NUMBER, 1 + NUMBER))
        return DESK_BROKEN;
    const uint64_t number = get_number(desk->answer + 1);
    if (call == VULLADES_CLAIM && number == desk->creditors && number < desk->limit)
        desk->creditors++;
    else if (call == VULLADES_COME && number == desk->there + numbers[0])
        desk->there = number;
    else if (call != VULLADES_PROVE || number != numbers[0] || number >= desk->creditors)
        return DESK_BROKEN;
    return DESK_DONE;
}

int desk_list(struct desk *desk, uint8_t call, uint64_t *parts)
{
    const bool shares = call == VULLADES_SHARES;
    const size_t head = shares ? 1 + 2 * NUMBER : 1 + NUMBER;

    send_call(desk, call, NULL, 0);
    if (!is_answer(desk, shares ? VULLADES_PARTS : VULLADES_AMOUNTS, head + NUMBER * desk->creditors))
        return DESK_BROKEN;
    *parts = shares ? get_number(desk->answer + 1) : 1;
    if (*parts == 0 || get_number(desk->answer + head - NUMBER) != desk->creditors)
        return DESK_BROKEN;
    return DESK_DONE;
}

/* Amounts are what an answer ends with. */
uint64_t desk_amount(const struct desk *desk, size_t creditor)
{
    return get_number(desk->answer + (size_t)desk->answered - NUMBER * (desk->creditors - creditor));
}
