/* The layout functions called from C, on the bytes of the paper's examples E2 and E3. */
#include <string.h>

#include "e2.h"
#include "lfsck_layout.h"
#include "report.h"
#include "sizes.h"

/* The same in numbers. */
static const uint64_t e2_fields[LFSCK_READ_FIELDS] = {
    1, LFSCK_PATTERN_PLAIN, 1, 0x200000401, 1048576, 1, 0, LFSCK_HEADER_V1,
};
static const uint64_t e2_slot[LFSCK_SLOT_NUMBERS] = {1, 0x240000400, 0x10, 0, 3};

/* A slot apart from E2's in every number, and its bytes. */
static const uint64_t other_slot[LFSCK_SLOT_NUMBERS] = {1, 0x240000401, 0x11, 7, 4};
static const uint8_t other_slot_bytes[LFSCK_SLOT_BYTES] = {
    0x01, 0x04, 0x00, 0x40, 0x02, 0x00, 0x00, 0x00,
    0x11, 0x00, 0x00, 0x00, 0x00, 0x00, 0x00, 0x00,
    0x07, 0x00, 0x00, 0x00, 0x04, 0x00, 0x00, 0x00,
};

static const uint64_t hole[LFSCK_SLOT_NUMBERS] = {0, 0, 0, 0, 0};

/* Where a layout of version 1 has its pattern, its generation and its slots. */
enum { PATTERN = 4, GENERATION = 30, SLOTS = 32 };

/* A value that no call hands out here. */
#define MARK UINT64_C(0xabababababababab)

static int all_marked(const uint64_t *numbers, size_t count)
{
    for (size_t i = 0; i < count; i++)
        if (numbers[i] != MARK)
            return 0;
    return 1;
}

static void mark(uint64_t *numbers, size_t count)
{
    for (size_t i = 0; i < count; i++)
        numbers[i] = MARK;
}

static void test_read(void)
{
    uint64_t fields[LFSCK_READ_FIELDS + 1];

    mark(fields, 9);
    check("E2 is read", lfsck_layout_read(e2, 56, fields, 9) == LFSCK_OK);
    check("E2's header", memcmp(fields, e2_fields, sizeof e2_fields) == 0);
    check("the rest of a longer array stays", fields[8] == MARK);

    mark(fields, 9);
    check("too few fields", lfsck_layout_read(e2, 56, fields, 7) == LFSCK_NO_ROOM);
    check("nothing is written then", all_marked(fields, 9));
}

/* E3: E2 with a byte less or more. */
static void test_lengths(void)
{
    uint8_t longer[57] = {0};
    uint64_t fields[LFSCK_READ_FIELDS];
    uint64_t slot[LFSCK_SLOT_NUMBERS];

    memcpy(longer, e2, 56);
    mark(fields, 8);
    mark(slot, 5);
    check("E3, 55 bytes", lfsck_layout_read(longer, 55, fields, 8) == LFSCK_BAD_LAYOUT);
    check("E3, 57 bytes", lfsck_layout_read(longer, 57, fields, 8) == LFSCK_BAD_LAYOUT);
    check("13 before 17", lfsck_layout_read(longer, 57, fields, 0) == LFSCK_BAD_LAYOUT);
    check("E3, a slot of 55 bytes", lfsck_layout_slot(longer, 55, 0, slot, 5) == LFSCK_BAD_LAYOUT);
    check("E3, a slot of 57 bytes", lfsck_layout_slot(longer, 57, 0, slot, 5) == LFSCK_BAD_LAYOUT);
    check("E3 hands nothing out", all_marked(fields, 8) && all_marked(slot, 5));
}

static void test_slot(void)
{
    uint64_t slot[LFSCK_SLOT_NUMBERS + 1];

    mark(slot, 6);
    check("E2's slot is read", lfsck_layout_slot(e2, 56, 0, slot, 6) == LFSCK_OK);
    check("E2's slot", memcmp(slot, e2_slot, sizeof e2_slot) == 0);
    check("the number after it stays", slot[5] == MARK);

    mark(slot, 6);
    check("a slot at the count", lfsck_layout_slot(e2, 56, 1, slot, 5) == LFSCK_NO_POSITION);
    check("a slot far past it", lfsck_layout_slot(e2, 56, UINT64_MAX, slot, 5) == LFSCK_NO_POSITION);
    check("16 before 17", lfsck_layout_slot(e2, 56, 1, slot, 4) == LFSCK_NO_POSITION);
    check("too few numbers", lfsck_layout_slot(e2, 56, 0, slot, 4) == LFSCK_NO_ROOM);
    check("a refused slot hands nothing out", all_marked(slot, 6));
}

static uint32_t write_e2(uint64_t generation, uint8_t *to, size_t bytes, uint64_t *out, size_t count)
{
    uint64_t fields[LFSCK_READ_FIELDS];

    memcpy(fields, e2_fields, sizeof e2_fields);
    fields[6] = generation;
    return lfsck_layout_write(fields, LFSCK_WRITE_FIELDS, e2, 0, e2_slot, 5, to, bytes, out, count);
}

static void test_write(void)
{
    uint8_t to[60];
    uint8_t untouched[60];
    uint64_t out[2];

    memset(to, 0xab, sizeof to);
    memset(untouched, 0xab, sizeof untouched);
    mark(out, 2);
    check("no room for E2", write_e2(0, to, 55, out, 2) == LFSCK_NO_ROOM);
    check("no place for the length", write_e2(0, to, 60, out, 0) == LFSCK_NO_ROOM);
    check("a generation too wide", write_e2(65536, to, 60, out, 2) == LFSCK_BAD_LAYOUT);
    check("13 before 17 in the writer", write_e2(65536, to, 55, out, 0) == LFSCK_BAD_LAYOUT);
    check("a refused write writes nothing", memcmp(to, untouched, 60) == 0 && all_marked(out, 2));

    check("E2 is written", write_e2(0, to, 60, out, 2) == LFSCK_OK);
    check("E2's bytes", memcmp(to, e2, 56) == 0);
    check("E2's length", out[0] == 56 && out[1] == MARK);
    check("bytes past it stay", memcmp(to + 56, untouched, 4) == 0);
}

static int has_generation(const uint8_t *layout, uint16_t generation)
{
    return layout[GENERATION] == generation % 256 && layout[GENERATION + 1] == generation / 256;
}

/* E2 with a hole in the place of its slot, and of this generation. */
static void make_hole(uint8_t *layout, uint16_t generation)
{
    memcpy(layout, e2, SLOTS);
    layout[PATTERN + 3] = 0x40;
    layout[GENERATION] = generation % 256;
    layout[GENERATION + 1] = generation / 256;
    memset(layout + SLOTS, 0, 24);
}

static void test_rewrite(void)
{
    uint8_t layout[56];

    memcpy(layout, e2, 56);
    check("rewrite at the count", lfsck_slot_rewrite(layout, 56, 1, other_slot, 5) == LFSCK_NO_POSITION);
    check("rewrite of 55 bytes", lfsck_slot_rewrite(layout, 55, 0, other_slot, 5) == LFSCK_BAD_LAYOUT);
    check("a hole in a plain layout", lfsck_slot_rewrite(layout, 56, 0, hole, 5) == LFSCK_BAD_LAYOUT);
    check("13 before 16 in the rewrite", lfsck_slot_rewrite(layout, 56, 1, hole, 5) == LFSCK_BAD_LAYOUT);
    check("a slot of four numbers", lfsck_slot_rewrite(layout, 56, 0, other_slot, 4) == LFSCK_BAD_LAYOUT);
    check("a refused rewrite changes nothing", memcmp(layout, e2, 56) == 0);

    check("a slot is rewritten", lfsck_slot_rewrite(layout, 56, 0, other_slot, 5) == LFSCK_OK);
    check("its 24 bytes", memcmp(layout + SLOTS, other_slot_bytes, 24) == 0);
    check("the generation is raised", has_generation(layout, 1));
    check("the header before it stays", memcmp(layout, e2, GENERATION) == 0);
    check("it is rewritten back", lfsck_slot_rewrite(layout, 56, 0, e2_slot, 5) == LFSCK_OK);
    check("and is E2's again", memcmp(layout + SLOTS, e2 + SLOTS, 24) == 0);
    check("the generation is raised again", has_generation(layout, 2));
}

/* A slot that is there already: no byte changes, whatever the generation. */
static void test_equal_slot(void)
{
    uint8_t layout[56];
    uint8_t before[56];

    memcpy(layout, e2, 56);
    check("an equal slot", lfsck_slot_rewrite(layout, 56, 0, e2_slot, 5) == LFSCK_OK);
    check("no byte changes", memcmp(layout, e2, 56) == 0);

    make_hole(layout, 65535);
    memcpy(before, layout, 56);
    check("an equal hole", lfsck_slot_rewrite(layout, 56, 0, hole, 5) == LFSCK_OK);
    check("no byte changes at the last generation", memcmp(layout, before, 56) == 0);
}

/*
 * A slot for the hole: the generation goes from this one to that, and all else stays. A hole in its
 * place again: it goes one further.
 */
static void expect_raised(const char *name, uint16_t from, uint16_t to)
{
    uint8_t layout[56];
    uint8_t expected[56];
    int holds;

    make_hole(layout, from);
    make_hole(expected, to);
    memcpy(expected + SLOTS, other_slot_bytes, 24);
    holds = lfsck_slot_rewrite(layout, 56, 0, other_slot, 5) == LFSCK_OK &&
            memcmp(layout, expected, 56) == 0;
    make_hole(expected, (uint16_t)(to + 1));
    check(name, holds && lfsck_slot_rewrite(layout, 56, 0, hole, 5) == LFSCK_OK &&
                    memcmp(layout, expected, 56) == 0);
}

static void test_generation(void)
{
    uint8_t layout[56];
    uint8_t before[56];

    expect_raised("255 to 256", 255, 256);
    expect_raised("65,534 to 65,535", 65534, 65535);
    expect_raised("65,535 to 0", 65535, 0);

    make_hole(layout, 65535);
    memcpy(before, layout, 56);
    check("16 at the last generation",
          lfsck_slot_rewrite(layout, 56, 1, other_slot, 5) == LFSCK_NO_POSITION);
    check("13 at the last generation",
          lfsck_slot_rewrite(layout, 56, 0, other_slot, 4) == LFSCK_BAD_LAYOUT);
    check("refused, it stays", memcmp(layout, before, 56) == 0);
}

/* A layout of either version with E2's slot or none, and the same in numbers. */
struct sized {
    uint8_t bytes[LFSCK_HEADER_V3 + LFSCK_SLOT_BYTES];
    size_t length;
    uint64_t fields[LFSCK_WRITE_FIELDS];
    size_t pool_bytes;
};

/* The four of them: bit 0 of the shape is version 3, bit 1 a slot. */
enum { SHAPES = 4 };

static struct sized make_sized(uint32_t size, int shape)
{
    struct sized made;
    size_t slots = shape / 2;

    memset(&made, 0, sizeof made);
    memcpy(made.bytes, e2, LFSCK_HEADER_V1);
    memcpy(made.fields, e2_fields, sizeof made.fields);
    made.pool_bytes = shape % 2 ? LFSCK_POOL_BYTES : 0;
    if (shape % 2) {
        made.bytes[2] = 0xd3;
        made.fields[0] = 3;
    }
    put_size(made.bytes, size);
    made.bytes[28] = slots;
    made.fields[4] = size;
    made.fields[5] = slots;
    made.length = LFSCK_HEADER_V1 + made.pool_bytes;
    memcpy(made.bytes + made.length, e2 + SLOTS, LFSCK_SLOT_BYTES * slots);
    made.length += LFSCK_SLOT_BYTES * slots;
    return made;
}

/* The answer where nothing else is wrong, or this one where the stripe size is good. */
static uint32_t or_else(uint32_t answer, uint32_t good)
{
    return answer == LFSCK_OK ? good : answer;
}

static int reads(const struct sized *in, uint32_t answer)
{
    uint64_t fields[LFSCK_READ_FIELDS];
    uint64_t slot[LFSCK_SLOT_NUMBERS];
    uint32_t past = or_else(answer, LFSCK_NO_POSITION);
    uint32_t first = in->fields[5] ? answer : past;
    int holds;

    mark(fields, 8);
    mark(slot, 5);
    holds = lfsck_layout_read(in->bytes, in->length, fields, 7) == or_else(answer, LFSCK_NO_ROOM) &&
            lfsck_layout_slot(in->bytes, in->length, 1, slot, 5) == past &&
            lfsck_layout_slot(in->bytes, in->length, UINT64_MAX, slot, 0) == past &&
            all_marked(fields, 8) && all_marked(slot, 5);
    holds = holds && lfsck_layout_read(in->bytes, in->length, fields, 8) == answer &&
            lfsck_layout_slot(in->bytes, in->length, 0, slot, 5) == first;
    if (answer == LFSCK_OK)
        return holds && memcmp(fields, in->fields, sizeof in->fields) == 0;
    return holds && all_marked(fields, 8) && all_marked(slot, 5);
}

/* Written with a byte too little, with no place for the length and with room. */
static int writes(const struct sized *in, uint32_t answer)
{
    uint8_t pool[LFSCK_POOL_BYTES] = {0};
    uint8_t to[sizeof in->bytes];
    uint8_t untouched[sizeof in->bytes];
    uint64_t out[1];
    int holds = 1;

    memset(to, 0xab, sizeof to);
    memset(untouched, 0xab, sizeof untouched);
    mark(out, 1);
    for (size_t less = 0; less < 2; less++)
        holds = holds && lfsck_layout_write(in->fields, LFSCK_WRITE_FIELDS, pool, in->pool_bytes,
                                            e2_slot, 5 * in->fields[5], to, in->length - less, out,
                                            less) == or_else(answer, LFSCK_NO_ROOM);
    holds = holds && memcmp(to, untouched, sizeof to) == 0 && all_marked(out, 1);
    holds = holds && lfsck_layout_write(in->fields, LFSCK_WRITE_FIELDS, pool, in->pool_bytes,
                                        e2_slot, 5 * in->fields[5], to, sizeof to, out,
                                        1) == answer;
    if (answer == LFSCK_OK)
        return holds && out[0] == in->length && memcmp(to, in->bytes, in->length) == 0;
    return holds && memcmp(to, untouched, sizeof to) == 0 && all_marked(out, 1);
}

/* At the count, past it, with the slot that is there, and with another one. */
static int rewrites(const struct sized *in, uint32_t answer)
{
    struct sized out = *in;
    uint64_t count = in->fields[5];
    uint32_t past = or_else(answer, LFSCK_NO_POSITION);
    uint32_t first = count ? answer : past;
    int holds = lfsck_slot_rewrite(out.bytes, out.length, count, other_slot, 5) == past &&
                lfsck_slot_rewrite(out.bytes, out.length, UINT64_MAX, other_slot, 5) == past &&
                lfsck_slot_rewrite(out.bytes, out.length, 0, e2_slot, 5) == first &&
                memcmp(&out, in, sizeof out) == 0;

    holds = holds && lfsck_slot_rewrite(out.bytes, out.length, 0, other_slot, 5) == first;
    return holds && (memcmp(&out, in, sizeof out) == 0) == (first != LFSCK_OK) &&
           memcmp(out.bytes, in->bytes, GENERATION) == 0;
}

/* Either version, with a slot and with none; refused, nothing is written. */
static void test_stripe_sizes(void)
{
    for (int i = 0; i < SIZES; i++) {
        uint32_t size = sizes[i].bytes;
        int holds[3] = {1, 1, 1};

        for (int shape = 0; shape < SHAPES; shape++) {
            struct sized in = make_sized(size, shape);

            holds[0] = holds[0] && reads(&in, sizes[i].answer);
            holds[1] = holds[1] && writes(&in, sizes[i].answer);
            holds[2] = holds[2] && rewrites(&in, sizes[i].answer);
        }
        check_size("read: 13 before 16 and 17", size, holds[0]);
        check_size("written: 13 before 17", size, holds[1]);
        check_size("rewritten: 13 before 16", size, holds[2]);
    }
}

int main(void)
{
    test_read();
    test_lengths();
    test_slot();
    test_write();
    test_rewrite();
    test_equal_slot();
    test_generation();
    test_stripe_sizes();
    return report_all();
}
