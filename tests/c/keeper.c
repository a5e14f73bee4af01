/* Keepers asked from C, with counts worked out by hand. */
#include "report.h"
#include "sample.h"

/* Q = [0x200000401:2:0] and R = [0x200000401:3:0]. */
static const uint8_t q[16] = {0x01, 0x04, 0, 0, 0x02, 0, 0, 0, 2};
static const uint8_t r[16] = {0x01, 0x04, 0, 0, 0x02, 0, 0, 0, 3};
/* B = [0x240000400:0x11:0]. */
static const uint8_t b[16] = {0x00, 0x04, 0x00, 0x40, 0x02, 0, 0, 0, 0x11};

/* The sequence of A, B and N, and their ids. */
#define SEQUENCE UINT64_C(0x240000400)
enum { ID_A = 0x10, ID_B = 0x11, ID_N = 0x20 };

static uint32_t ask(const struct input *in, uint64_t sequence, uint64_t id, uint64_t *out,
                    size_t count)
{
    return lfsck_keeper(in->parents, in->parents_bytes, in->objects, in->objects_bytes,
                        sequence, id, out, count);
}

/* The four numbers, and the place past them left alone. */
static void expect(const char *name, const struct input *in, uint64_t id, uint64_t found,
                   uint64_t row, uint64_t slot, uint64_t compared)
{
    uint64_t out[LFSCK_KEEPER_NUMBERS + 1] = {99, 99, 99, 99, 99};

    check(name, ask(in, SEQUENCE, id, out, LFSCK_KEEPER_NUMBERS + 1) == LFSCK_OK &&
                    out[0] == found && out[1] == row && out[2] == slot && out[3] == compared &&
                    out[4] == 99);
}

/* E11: rows Q[A], P[B,A]; A claims (P,0), B claims (P,0). */
static struct input e11(void)
{
    struct input in = sound();
    uint8_t *second = in.parents + LFSCK_PARENT_BYTES;

    memcpy(second, in.parents, LFSCK_PARENT_BYTES);
    second[PARENT_LENGTH] += LFSCK_SLOT_BYTES;
    second[PARENT_LAYOUT + 28] = 2;
    memcpy(second + PARENT_SLOT + LFSCK_SLOT_BYTES, second + PARENT_SLOT, LFSCK_SLOT_BYTES);
    memcpy(second + PARENT_SLOT, b, 16);
    memcpy(in.parents + PARENT_SELF, q, 16);
    in.parents[PARENT_LAYOUT + 8] = 2;
    memcpy(in.objects, in.objects + LFSCK_OBJECT_BYTES, LFSCK_OBJECT_BYTES);
    memcpy(in.objects + LFSCK_OBJECT_BYTES + OBJECT_SELF, b, 16);
    return in;
}

static void test_e11(void)
{
    struct input in = e11();
    uint64_t out[LFSCK_KEEPER_NUMBERS];

    expect("E11, A: (P,0); (P,0), (P,1)", &in, ID_A, 1, 1, 1, 3);
    expect("E11, B: (P,0)", &in, ID_B, 1, 1, 0, 1);
    expect("E11, N, absent: all three slots", &in, ID_N, 0, 0, 0, 3);
    check("E11, A's id in another sequence",
          ask(&in, SEQUENCE + 1, ID_A, out, LFSCK_KEEPER_NUMBERS) == LFSCK_OK && out[0] == 0 &&
              out[1] == 0 && out[2] == 0 && out[3] == 3);
}

/* What A claims in E11 is in the first object row. */
static void test_claims(void)
{
    struct input in = e11();
    uint8_t *claim = in.objects + OBJECT_CLAIM;

    claim[12] = 1;
    expect("A claims (P,1)", &in, ID_A, 1, 1, 1, 1);
    claim[12] = 2;
    expect("A claims a slot at P's count: (P,0), (P,1)", &in, ID_A, 1, 1, 1, 2);
    memset(claim + 12, 0xff, 4);
    expect("A claims the greatest index", &in, ID_A, 1, 1, 1, 2);
    memcpy(claim, q, 16);
    expect("A claims (Q,0)", &in, ID_A, 1, 0, 0, 1);
    memcpy(claim, r, 16);
    expect("A claims R, which is absent: (Q,0)", &in, ID_A, 1, 0, 0, 1);
    memset(claim, 0, 16);
    expect("A claims nothing: (Q,0)", &in, ID_A, 1, 0, 0, 1);
    in.objects[0] = 0;
    expect("A is absent: (Q,0)", &in, ID_A, 1, 0, 0, 1);

    in = e11();
    memcpy(in.objects + OBJECT_SELF, n, 16);
    expect("N claims (P,0): 1, P's two, all three", &in, ID_N, 0, 0, 0, 6);
}

static void test_holes_and_unused_rows(void)
{
    struct input in = e11();
    uint8_t *second = in.parents + LFSCK_PARENT_BYTES;

    second[PARENT_LAYOUT + 7] = 0x40;
    memset(second + PARENT_SLOT, 0, LFSCK_SLOT_BYTES);
    expect("A claims a hole: it; it again, (P,1)", &in, ID_A, 1, 1, 1, 3);
    expect("B is nowhere: 1, P's two, all three", &in, ID_B, 0, 0, 0, 6);
    in.parents[0] = 0;
    memset(in.objects + OBJECT_CLAIM, 0, 16);
    expect("past an unused row and a hole", &in, ID_A, 1, 1, 1, 2);
    in.objects_bytes = 0;
    expect("without objects", &in, ID_A, 1, 1, 1, 2);
    in.parents_bytes = 0;
    expect("without rows", &in, ID_A, 0, 0, 0, 0);
}

/* P alone, N in no slot: 1, then all slots twice. */
static void test_bound(void)
{
    struct input in = sound();

    memcpy(in.objects + LFSCK_OBJECT_BYTES + OBJECT_SELF, n, 16);
    expect("the bound with one slot", &in, ID_N, 0, 0, 0, 3);
    in = e11();
    in.parents[0] = 0;
    memcpy(in.objects + OBJECT_SELF, n, 16);
    expect("the bound with two slots", &in, ID_N, 0, 0, 0, 5);
}

/* A refusal, with nothing written. */
static void expect_refused(const char *name, const struct input *in, uint64_t sequence,
                           uint64_t id, size_t count, uint32_t expected)
{
    uint64_t out[LFSCK_KEEPER_NUMBERS] = {99, 99, 99, 99};

    check(name, ask(in, sequence, id, out, count) == expected && out[0] == 99 && out[1] == 99 &&
                    out[2] == 99 && out[3] == 99);
}

static void test_bad_fids(void)
{
    struct input in = e11();

    expect_refused("a sequence too low", &in, UINT64_C(0x2000003ff), ID_A, 4, LFSCK_BAD_FID);
    expect_refused("a sequence too high", &in, UINT64_MAX, ID_A, 4, LFSCK_BAD_FID);
    expect_refused("id 0", &in, SEQUENCE, 0, 4, LFSCK_BAD_FID);
    expect_refused("A's id and a bit above", &in, SEQUENCE, UINT64_C(0x100000010), 4,
                   LFSCK_BAD_FID);
    expect_refused("a bit above alone", &in, SEQUENCE, UINT64_C(0x100000000), 4, LFSCK_BAD_FID);
    expect_refused("14 before 17", &in, SEQUENCE, 0, 3, LFSCK_BAD_FID);
}

static void test_refusals(void)
{
    struct input in = e11();

    expect_refused("three places", &in, SEQUENCE, ID_A, 3, LFSCK_NO_ROOM);
    expect_refused("no place", &in, SEQUENCE, ID_A, 0, LFSCK_NO_ROOM);

    memcpy(in.objects + LFSCK_OBJECT_BYTES + OBJECT_SELF, a, 16);
    expect_refused("A twice", &in, SEQUENCE, ID_A, 4, LFSCK_FID_TWICE);
    expect_refused("15 before 17", &in, SEQUENCE, ID_A, 3, LFSCK_FID_TWICE);
    expect_refused("14 for the FID before 15", &in, SEQUENCE, 0, 4, LFSCK_BAD_FID);
    in.objects[OBJECT_OST + 2] = 1;
    expect_refused("14 for the tables before 15", &in, SEQUENCE, ID_A, 4, LFSCK_BAD_FID);
    in.parents[PARENT_LENGTH]--;
    expect_refused("13 before 14", &in, SEQUENCE, ID_A, 4, LFSCK_BAD_LAYOUT);
    expect_refused("13 before 14 for the FID", &in, SEQUENCE, 0, 4, LFSCK_BAD_LAYOUT);
    in.objects[0] = 7;
    expect_refused("11 before 13", &in, SEQUENCE, ID_A, 4, LFSCK_BAD_TABLE);
    expect_refused("11 before all", &in, UINT64_MAX, 0, 3, LFSCK_BAD_TABLE);
}

int main(void)
{
    test_e11();
    test_claims();
    test_holes_and_unused_rows();
    test_bound();
    test_bad_fids();
    test_refusals();
    return report_all();
}
