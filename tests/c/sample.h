/* Small tables for the C tests: one file with one object, and an unused row in each table. */
#ifndef SAMPLE_H
#define SAMPLE_H

#include <string.h>

#include "e2.h"
#include "lfsck_layout.h"

/* Where the fields of a row stand. */
enum {
    PARENT_SELF = 1,
    PARENT_LENGTH = 25,
    PARENT_LAYOUT = 27,
    PARENT_COUNT = 55,
    PARENT_GENERATION = 57,
    PARENT_SLOT = 59,
    OBJECT_SELF = 1,
    OBJECT_OST = 17,
    OBJECT_UID = 21,
    OBJECT_CLAIM = 29,
    OBJECT_FRESH = 45
};

/* P = [0x200000401:1:0]. */
static const uint8_t p[16] = {0x01, 0x04, 0, 0, 0x02, 0, 0, 0, 1};
/* A = [0x240000400:0x10:0] and N = [0x240000400:0x20:0]. */
static const uint8_t a[16] = {0x00, 0x04, 0x00, 0x40, 0x02, 0, 0, 0, 0x10};
static const uint8_t n[16] = {0x00, 0x04, 0x00, 0x40, 0x02, 0, 0, 0, 0x20};

/* Everything that a call is handed, with room for a third object row. */
struct input {
    uint8_t parents[2 * LFSCK_PARENT_BYTES];
    size_t parents_bytes;
    uint8_t objects[3 * LFSCK_OBJECT_BYTES];
    size_t objects_bytes;
    uint8_t reserve[LFSCK_RESERVE_BYTES];
    size_t reserve_bytes;
    uint64_t policy;
    uint64_t position[LFSCK_POSITION_NUMBERS];
};

/* P with A, which claims its slot; an unused row in each table, full of other bytes. */
static struct input sound(void)
{
    struct input in;
    uint8_t *parent = in.parents;
    uint8_t *object = in.objects + LFSCK_OBJECT_BYTES;

    memset(&in, 0, sizeof in);
    parent[0] = 1;
    memcpy(parent + PARENT_SELF, p, 16);
    parent[PARENT_LENGTH] = 56;
    memcpy(parent + PARENT_LAYOUT, e2, 56);
    memset(in.parents + LFSCK_PARENT_BYTES + 1, 0xff, LFSCK_PARENT_BYTES - 1);
    in.parents_bytes = sizeof in.parents;

    memset(in.objects + 1, 0xff, LFSCK_OBJECT_BYTES - 1);
    object[0] = 1;
    memcpy(object + OBJECT_SELF, a, 16);
    object[OBJECT_OST] = 3;
    memcpy(object + OBJECT_CLAIM, p, 16);
    in.objects_bytes = 2 * LFSCK_OBJECT_BYTES;

    memcpy(in.reserve, n, 16);
    in.reserve_bytes = sizeof in.reserve;
    in.position[0] = LFSCK_STAGE_PARENTS;
    return in;
}

#endif
