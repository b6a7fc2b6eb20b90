/*
 * For the programs that a comparison asks, one question after the other (writes.c, wires.c): numbers of four bytes, least first, on standard
 * input and output, and a buffer that is lent between guard bytes. SERVED_ROOM is the most bytes that a buffer has.
 */
#ifndef SERVED_H
#define SERVED_H

#include <stdint.h>
#include <stdio.h>

enum { GUARD = 64 };

static uint8_t guarded[GUARD + SERVED_ROOM + GUARD];
static uint8_t *const out = guarded + GUARD;

static uint32_t four_bytes(const uint8_t *at)
{
    return at[0] | (uint32_t)at[1] << 8 | (uint32_t)at[2] << 16 | (uint32_t)at[3] << 24;
}

/* A byte for each place outside the buffer, different from those around it. */
static uint8_t filler(size_t i)
{
    return (uint8_t)(i * 37 + 11);
}

static void fill(size_t from, size_t to)
{
    for (size_t i = from; i < to; i++)
        guarded[i] = filler(i);
}

static int stays(size_t from, size_t to)
{
    for (size_t i = from; i < to; i++)
        if (guarded[i] != filler(i))
            return 0;
    return 1;
}

static int put(const uint8_t *bytes, size_t length)
{
    return fwrite(bytes, 1, length, stdout) == length;
}

static int put_four(uint32_t value)
{
    uint8_t bytes[4] = {value & 0xFF, value >> 8 & 0xFF, value >> 16 & 0xFF, value >> 24};

    return put(bytes, sizeof bytes);
}

static int get(uint8_t *bytes, size_t length)
{
    return fread(bytes, 1, length, stdin) == length;
}

/* Gets a length and as many bytes. */
static int get_bytes(uint8_t *bytes, size_t most, size_t *length)
{
    uint8_t head[4];

    if (!get(head, sizeof head))
        return 0;
    *length = four_bytes(head);
    return *length <= most && get(bytes, *length);
}

#endif
