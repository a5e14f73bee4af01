/* Layouts of the most slots, and parent tables whose rows have another size. */
#include "report.h"
#include "sample.h"

enum {
    MOST = LFSCK_SLOTS_MAX,
    OLD_ROW = 3915, /* bytes of a row with room for 160 slots */
    OLD_ROWS = 3
};

/* Where the header of a layout has its count and its generation. */
enum { COUNT = 28, GENERATION = 30 };

/* A layout and its numbers, with places for a slot more than there may be. */
struct full {
    uint8_t bytes[LFSCK_HEADER_V3 + LFSCK_SLOT_BYTES * (MOST + 1)];
    size_t length;
    uint64_t fields[LFSCK_READ_FIELDS];
    uint8_t pool[LFSCK_POOL_BYTES];
    size_t pool_bytes;
    uint64_t slots[LFSCK_SLOT_NUMBERS * (MOST + 1)];
};

static struct full full;
/* What a call is lent to be written, and the same before it. */
static uint8_t to[sizeof full.bytes];
static uint8_t before[sizeof full.bytes];

/* P's layout with so many slots, all of them E2's but for their ids, which count from 1. */
static void make(uint64_t version, size_t slots)
{
    size_t header = version == 1 ? LFSCK_HEADER_V1 : LFSCK_HEADER_V3;
    const uint64_t fields[LFSCK_READ_FIELDS] = {
        version, LFSCK_PATTERN_PLAIN, 1, 0x200000401, 1048576, slots, 0, header,
    };

    memset(&full, 0, sizeof full);
    memcpy(full.fields, fields, sizeof fields);
    memcpy(full.bytes, e2, LFSCK_HEADER_V1);
    full.bytes[COUNT] = slots % 256;
    full.bytes[COUNT + 1] = slots / 256;
    if (version == 3) {
        full.bytes[2] = 0xd3;
        full.pool_bytes = LFSCK_POOL_BYTES;
        memset(full.pool, 'p', LFSCK_POOL_BYTES);
        memset(full.bytes + LFSCK_HEADER_V1, 'p', LFSCK_POOL_BYTES);
    }
    for (size_t i = 0; i < slots; i++) {
        const uint64_t numbers[LFSCK_SLOT_NUMBERS] = {1, 0x240000400, i + 1, 0, 3};
        uint8_t *slot = full.bytes + header + LFSCK_SLOT_BYTES * i;

        memcpy(full.slots + LFSCK_SLOT_NUMBERS * i, numbers, sizeof numbers);
        memcpy(slot, e2 + LFSCK_HEADER_V1, LFSCK_SLOT_BYTES);
        slot[8] = (i + 1) % 256;
        slot[9] = (i + 1) / 256;
    }
    full.length = header + LFSCK_SLOT_BYTES * slots;
}

static uint32_t write_full(size_t bytes, uint64_t *out)
{
    memset(to, 0xab, sizeof to);
    memset(before, 0xab, sizeof before);
    return lfsck_layout_write(full.fields, LFSCK_WRITE_FIELDS, full.pool, full.pool_bytes,
                              full.slots, LFSCK_SLOT_NUMBERS * (size_t)full.fields[5], to, bytes,
                              out, 1);
}

/* As many slots as there may be: the header and the last slot are read. */
static void test_read(const char *name, uint64_t version, size_t length)
{
    uint64_t fields[LFSCK_READ_FIELDS];
    uint64_t slot[LFSCK_SLOT_NUMBERS];
    const uint64_t *last = full.slots + LFSCK_SLOT_NUMBERS * (MOST - 1);

    make(version, MOST);
    check(name, full.length == length &&
                    lfsck_layout_read(full.bytes, length, fields, LFSCK_READ_FIELDS) == LFSCK_OK &&
                    memcmp(fields, full.fields, sizeof fields) == 0);
    check("its last slot",
          lfsck_layout_slot(full.bytes, length, MOST - 1, slot, LFSCK_SLOT_NUMBERS) == LFSCK_OK &&
              memcmp(slot, last, sizeof slot) == 0);
    check("no slot follows", lfsck_layout_slot(full.bytes, length, MOST, slot,
                                               LFSCK_SLOT_NUMBERS) == LFSCK_NO_POSITION);
    check("a byte more or less",
          lfsck_layout_read(full.bytes, length + 1, fields, 8) == LFSCK_BAD_LAYOUT &&
              lfsck_layout_read(full.bytes, length - 1, fields, 8) == LFSCK_BAD_LAYOUT);
}

/* They are written into exactly their bytes; a byte less is no room. */
static void test_write(uint64_t version)
{
    uint64_t out = 9;

    make(version, MOST);
    check("a destination that is a byte short", write_full(full.length - 1, &out) == LFSCK_NO_ROOM &&
                                                    out == 9 &&
                                                    memcmp(to, before, sizeof to) == 0);
    check("2,000 slots are written", write_full(full.length, &out) == LFSCK_OK && out == full.length);
    check("with these bytes", memcmp(to, full.bytes, full.length) == 0);
    check("and none past them", memcmp(to + full.length, before + full.length,
                                       sizeof to - full.length) == 0);
}

/* Slot 1,999 is rewritten: its bytes and the generation change, and no others. */
static void test_rewrite(uint64_t version)
{
    uint64_t slot[LFSCK_SLOT_NUMBERS] = {1, 0x240000400, MOST + 1, 0, 3};
    uint8_t *last;

    make(version, MOST);
    memcpy(to, full.bytes, sizeof to);
    check("a slot at the count", lfsck_slot_rewrite(to, full.length, MOST, slot, 5) ==
                                     LFSCK_NO_POSITION &&
                                     memcmp(to, full.bytes, sizeof to) == 0);
    check("slot 1,999 is rewritten",
          lfsck_slot_rewrite(to, full.length, MOST - 1, slot, 5) == LFSCK_OK);
    last = full.bytes + full.length - LFSCK_SLOT_BYTES;
    last[8] = (MOST + 1) % 256;
    last[9] = (MOST + 1) / 256;
    full.bytes[GENERATION] = 1;
    check("and no other bytes but the generation", memcmp(to, full.bytes, sizeof to) == 0);
}

/* One slot more is no layout: 13 of all four, in the writer before 17. */
static void test_too_many(uint64_t version)
{
    uint64_t fields[LFSCK_READ_FIELDS] = {9};
    uint64_t out = 9;

    make(version, MOST + 1);
    memcpy(to, full.bytes, sizeof to);
    check("2,001 slots are not read",
          lfsck_layout_read(to, full.length, fields, 8) == LFSCK_BAD_LAYOUT && fields[0] == 9);
    check("nor is one of them",
          lfsck_layout_slot(to, full.length, 0, fields, 5) == LFSCK_BAD_LAYOUT && fields[0] == 9);
    check("nor rewritten",
          lfsck_slot_rewrite(to, full.length, 0, full.slots + 5, 5) == LFSCK_BAD_LAYOUT &&
              memcmp(to, full.bytes, sizeof to) == 0);
    check("nor are they written", write_full(full.length, &out) == LFSCK_BAD_LAYOUT && out == 9 &&
                                      memcmp(to, before, sizeof to) == 0);
    check("13 before 17", write_full(0, &out) == LFSCK_BAD_LAYOUT && out == 9);
}

/* The room of a row that is filled to its last byte, and one that says a byte more. */
static void test_room(void)
{
    struct input in = sound();
    uint64_t steps = 0;

    make(3, MOST);
    in.parents[PARENT_LENGTH] = LFSCK_LAYOUT_BYTES % 256;
    in.parents[PARENT_LENGTH + 1] = LFSCK_LAYOUT_BYTES / 256;
    memcpy(in.parents + PARENT_LAYOUT, full.bytes, LFSCK_LAYOUT_BYTES);
    check("a row is its fields and the longest layout",
          full.length == LFSCK_LAYOUT_BYTES &&
              PARENT_LAYOUT + LFSCK_LAYOUT_BYTES == LFSCK_PARENT_BYTES);
    check("a full room passes the check",
          lfsck_steps(in.parents, in.parents_bytes, in.objects, in.objects_bytes, &steps, 1) ==
                  LFSCK_OK &&
              steps == 2 + MOST + 2);
    in.parents[PARENT_LENGTH]++;
    check("a length past the room does not",
          lfsck_steps(in.parents, in.parents_bytes, in.objects, in.objects_bytes, &steps, 1) ==
              LFSCK_BAD_LAYOUT);
}

/* P, Q and R in rows of the old size. */
static struct input old_rows(void)
{
    struct input in = sound();
    struct input row = sound();

    memset(in.parents, 0, sizeof in.parents);
    for (uint8_t i = 0; i < OLD_ROWS; i++) {
        row.parents[PARENT_SELF + 8] = row.parents[PARENT_LAYOUT + 8] = i + 1;
        memcpy(in.parents + i * OLD_ROW, row.parents, OLD_ROW);
    }
    return in;
}

/* Whether every call with these tables is 11, and writes nothing. */
static int refused_by_all(struct input *in)
{
    const uint8_t *parents = in->parents;
    const uint8_t *objects = in->objects;
    size_t rows = in->parents_bytes;
    size_t others = in->objects_bytes;
    uint64_t out[LFSCK_REPORT_NUMBERS] = {9, 9, 9, 9, 9, 9, 9, 9, 9, 9};
    uint64_t done = 9;
    int refused;

    refused = lfsck_check(parents, rows, objects, others, in->reserve, 16, 0, 1, 0, 0) == 11 &&
              lfsck_start(parents, rows, objects, others, out, 3) == 11 &&
              lfsck_steps(parents, rows, objects, others, out, 1) == 11 &&
              lfsck_class(parents, rows, objects, others, 1, 0, 0, out, 4) == 11 &&
              lfsck_classes(parents, rows, objects, others, in->position, 3, out, 8, &done, 1) ==
                  11 &&
              lfsck_keeper(parents, rows, objects, others, 0x240000400, 0x10, out, 4) == 11 &&
              lfsck_run(in->parents, rows, in->objects, others, in->reserve, 16, 3, 9,
                        in->position, 3, out, 10) == 11;
    for (int i = 0; i < LFSCK_REPORT_NUMBERS; i++)
        refused = refused && out[i] == 9;
    return refused && done == 9;
}

/* Tables of rows of the old size, of one row and of several. */
static void test_old_rows(void)
{
    struct input in = old_rows();
    struct input before;
    int refused = 1;
    int same = 1;

    for (size_t rows = 1; rows <= OLD_ROWS; rows++) {
        in.parents_bytes = rows * OLD_ROW;
        memcpy(&before, &in, sizeof before);
        refused = refused && refused_by_all(&in);
        same = same && memcmp(&before, &in, sizeof before) == 0;
    }
    check("tables of old rows are 11 to every call", refused);
    check("and stay as they were", same);
}

int main(void)
{
    test_read("2,000 slots of version 1, 48,032 bytes", 1, 48032);
    test_read("2,000 slots of version 3, 48,048 bytes", 3, 48048);
    for (uint64_t version = 1; version <= 3; version += 2) {
        test_write(version);
        test_rewrite(version);
        test_too_many(version);
    }
    test_room();
    test_old_rows();
    return report_all();
}
