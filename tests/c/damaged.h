/* Tables with damage, for the program that repairs them in their files. */
#ifndef DAMAGED_H
#define DAMAGED_H

#include <string.h>

#include "lfsck_layout.h"

enum {
    FILES = 2,
    ROWS = 26, /* the most object rows */
    SLOTS = 16,
    OST = 3,
    OTHER_OST = 5,
    USER = 0,
    OTHER_USER = 9
};

/* The files, and the objects of the reserve, by their ids. */
enum { P = 1, Q = 2, N = 0x80, M = 0x81 };

/* Both tables; the object table has so many rows. */
struct content {
    uint8_t parents[FILES * LFSCK_PARENT_BYTES];
    uint8_t objects[ROWS * LFSCK_OBJECT_BYTES];
    size_t rows;
};

static size_t object_bytes(const struct content *content)
{
    return content->rows * LFSCK_OBJECT_BYTES;
}

static int is_same(const struct content *one, const struct content *other)
{
    return one->rows == other->rows &&
           memcmp(one->parents, other->parents, sizeof one->parents) == 0 &&
           memcmp(one->objects, other->objects, object_bytes(one)) == 0;
}

static void put_number(uint8_t *to, uint64_t number, size_t bytes)
{
    for (size_t i = 0; i < bytes; i++)
        to[i] = (uint8_t)(number >> (8 * i));
}

static void put_fid(uint8_t *to, uint64_t sequence, uint64_t id, uint64_t version)
{
    put_number(to, sequence, 8);
    put_number(to + 8, id, 4);
    put_number(to + 12, version, 4);
}

static void put_object_fid(uint8_t *to, uint64_t id)
{
    put_fid(to, UINT64_C(0x240000400), id, 0);
}

/* Rows that are not used, full of other bytes. */
static void put_unused(struct content *to, size_t rows)
{
    memset(to, 0xa5, sizeof *to);
    to->rows = rows;
    for (size_t row = 0; row < FILES; row++)
        to->parents[row * LFSCK_PARENT_BYTES] = 0;
    for (size_t row = 0; row < ROWS; row++)
        to->objects[row * LFSCK_OBJECT_BYTES] = 0;
}

/* An object; it claims a slot of a file, or nothing of file 0. */
struct object {
    uint64_t id;
    uint64_t ost;
    uint64_t user;
    uint64_t file;
    uint64_t index;
    uint8_t fresh;
};

static void put_object(struct content *to, size_t row, struct object object)
{
    uint8_t *bytes = to->objects + row * LFSCK_OBJECT_BYTES;
    uint64_t sequence = object.file ? UINT64_C(0x200000401) : 0;

    bytes[0] = 1;
    put_object_fid(bytes + 1, object.id);
    put_number(bytes + 17, object.ost, 4);
    put_number(bytes + 21, object.user, 4);
    put_number(bytes + 25, 0, 4);
    put_fid(bytes + 29, sequence, object.file, object.index);
    bytes[45] = object.fresh;
}

/* P, in the first row, with these objects in its slots, all on one OST; 0 is a hole. */
static int put_file(struct content *to, uint64_t own_id, const uint8_t *named, size_t count)
{
    static const uint8_t no_pool[1] = {0};
    const uint64_t fields[LFSCK_WRITE_FIELDS] = {
        1, LFSCK_PATTERN_HOLES, own_id, UINT64_C(0x200000401), 1048576, count, 65535};
    uint64_t slots[SLOTS * LFSCK_SLOT_NUMBERS] = {0};
    uint64_t bytes = 0;
    uint8_t *row = to->parents;
    uint32_t answer;

    for (size_t i = 0; i < count; i++) {
        const uint64_t slot[LFSCK_SLOT_NUMBERS] = {1, UINT64_C(0x240000400), named[i], 4, OST};

        if (named[i])
            memcpy(slots + LFSCK_SLOT_NUMBERS * i, slot, sizeof slot);
    }
    row[0] = 1;
    put_fid(row + 1, UINT64_C(0x200000401), P, 0);
    put_number(row + 17, USER, 4);
    put_number(row + 21, 0, 4);
    answer = lfsck_layout_write(fields, LFSCK_WRITE_FIELDS, no_pool, 0, slots,
                                count * LFSCK_SLOT_NUMBERS, row + 27, LFSCK_LAYOUT_BYTES,
                                &bytes, 1);
    put_number(row + 25, bytes, 2);
    return answer == LFSCK_OK;
}

/*
 * Every kind of repair, with and without its second write. Object 0x10 + i is the one of slot i,
 * and 0x20 + i waits for slot i or is an orphan that claims it. The rows that N and 0x14 need are
 * the only unused ones.
 */
static int put_damaged(struct content *to)
{
    static const uint8_t named[SLOTS] = {
        0x10, 0x10, 0x10, 0x10, 0x14, 0x15, 0x16, 0x17,
        0x18, 0x19, 0x1a, 0x1b, 0,    0,    0x1e, 0x1f};
    static const struct object objects[] = {
        {0x10, OST, USER, P, 0, 0},               /* slots 1 to 3 are redirected: to N, */
        {0x22, OTHER_OST, OTHER_USER, P, 2, 1},   /* to this one, */
        {0x23, OST, USER, P, 3, 1},               /* and to this one */
        {0x2e, OST, USER, P, 14, 0},              /* takes the place of 0x1e */
        {0x2f, OTHER_OST, OTHER_USER, P, 15, 0},  /* takes the place of 0x1f */
        {0x15, OST, OTHER_USER, 0, 0, 0},         /* BLANK */
        {0x16, OTHER_OST, USER, 0, 0, 0},
        {0x17, OST, OTHER_USER, P, 99, 0},        /* UNMATCHED */
        {0x18, OTHER_OST, USER, Q, 7, 0},
        {0x19, OTHER_OST, USER, P, 9, 0},         /* WRONG-OST */
        {0x1a, OTHER_OST, OTHER_USER, P, 10, 0},
        {0x1b, OST, OTHER_USER, P, 11, 0},        /* OWNER */
        {0x2c, OST, USER, P, 12, 0},              /* fills a hole */
        {0x2d, OTHER_OST, OTHER_USER, P, 13, 0},
        {0x1e, OST, USER, P, 14, 1},
        {0x1f, OST, USER, P, 15, 1},
        {0x30, OST, USER, P, 17, 0},              /* the layout grows */
        {0x31, OTHER_OST, OTHER_USER, P, 20, 0},
        {0x32, OTHER_OST, OTHER_USER, Q, 1, 0},   /* Q is made */
        {0x33, OST, USER, P, 0, 1},               /* EMPTY */
    };
    size_t count = sizeof objects / sizeof *objects;

    put_unused(to, count + 2);
    for (size_t i = 0; i < count; i++)
        put_object(to, i < 3 ? i : i + 1, objects[i]);
    return put_file(to, 7, named, SLOTS);
}

#endif
