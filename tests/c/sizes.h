/* Stripe sizes at the bounds of their rule. */
#ifndef SIZES_H
#define SIZES_H

#include <stdint.h>
#include <stdio.h>

#include "lfsck_layout.h"
#include "report.h"

enum { SIZES = 9 };
static const struct {
    uint32_t bytes;
    uint32_t answer; /* where nothing else is wrong */
} sizes[SIZES] = {
    {0, LFSCK_BAD_LAYOUT},
    {1, LFSCK_BAD_LAYOUT},
    {LFSCK_STRIPE_UNIT / 2, LFSCK_BAD_LAYOUT},
    {LFSCK_STRIPE_UNIT - 1, LFSCK_BAD_LAYOUT},
    {LFSCK_STRIPE_UNIT, LFSCK_OK},
    {LFSCK_STRIPE_UNIT + 1, LFSCK_BAD_LAYOUT},
    {2 * LFSCK_STRIPE_UNIT, LFSCK_OK},
    {65535 * LFSCK_STRIPE_UNIT, LFSCK_OK},
    {UINT32_MAX, LFSCK_BAD_LAYOUT},
};

/* Writes a stripe size to its place in a layout. */
static void put_size(uint8_t *layout, uint32_t size)
{
    for (int i = 0; i < 4; i++)
        layout[24 + i] = size >> 8 * i & 0xff;
}

/* A check that names the stripe size. */
static void check_size(const char *name, uint32_t size, int holds)
{
    char line[100];

    snprintf(line, sizeof line, "%s, stripe size %lu", name, (unsigned long)size);
    check(line, holds);
}

#endif
