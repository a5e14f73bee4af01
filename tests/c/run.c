/* Runs made from C. */
#include "report.h"
#include "sample.h"
#include "sizes.h"

static uint32_t run(struct input *in, uint64_t most, size_t position_count, uint64_t *report,
                    size_t report_count)
{
    return lfsck_run(in->parents, in->parents_bytes, in->objects, in->objects_bytes,
                     in->reserve, in->reserve_bytes, in->policy, most,
                     in->position, position_count, report, report_count);
}

static int stands_at(const struct input *in, uint64_t stage, uint64_t row, uint64_t part)
{
    return in->position[0] == stage && in->position[1] == row && in->position[2] == part;
}

/* P with A absent, and two unused object rows. */
static struct input dangling(void)
{
    struct input in = sound();

    in.objects[LFSCK_OBJECT_BYTES] = 0;
    return in;
}

/* The row of A as a repair makes it, with P's claim, owner and OST. */
static int is_made(const uint8_t *row)
{
    struct input in = sound();
    uint8_t *expected = in.objects + LFSCK_OBJECT_BYTES;

    expected[OBJECT_FRESH] = 1;
    return memcmp(row, expected, LFSCK_OBJECT_BYTES) == 0;
}

/* E7: without create nothing changes; with it the object is made. */
static void test_dangling(void)
{
    struct input in = dangling();
    struct input before;
    uint64_t report[11] = {99, 99, 99, 99, 99, 99, 99, 99, 99, 99, 99};

    memcpy(&before, &in, sizeof before);
    check("E7, policy 0", run(&in, UINT64_MAX, 3, report, 11) == LFSCK_OK);
    check("E7, no change", memcmp(in.parents, before.parents, sizeof in.parents) == 0 &&
                               memcmp(in.objects, before.objects, sizeof in.objects) == 0);
    check("the end", stands_at(&in, LFSCK_STAGE_END, 0, 0));
    check("five steps, no repair", report[LFSCK_REPORT_STEPS] == 5 &&
                                       report[LFSCK_REPORT_DANGLING] == 0);
    check("the number after the report stays", report[10] == 99);

    in = dangling();
    in.policy = LFSCK_CREATE;
    check("E7, policy 1, one step", run(&in, 1, 3, report, 10) == LFSCK_STEPS_USED);
    check("the header was clean", stands_at(&in, 1, 0, 1) && report[LFSCK_REPORT_STEPS] == 1);
    check("E7, policy 1, one more", run(&in, 1, 3, report, 10) == LFSCK_STEPS_USED);
    check("A is made", is_made(in.objects));
    check("it is counted", report[LFSCK_REPORT_STEPS] == 1 && report[LFSCK_REPORT_DANGLING] == 1);
    check("the layout stays", memcmp(in.parents, before.parents, sizeof in.parents) == 0);
    check("the other row stays", memcmp(in.objects + LFSCK_OBJECT_BYTES,
                                        before.objects + LFSCK_OBJECT_BYTES,
                                        LFSCK_OBJECT_BYTES) == 0);
}

static void test_stop(void)
{
    struct input in = dangling();
    uint64_t report[10];

    in.policy = LFSCK_CREATE;
    in.objects_bytes = 0;
    check("no object row", run(&in, 9, 3, report, 10) == LFSCK_NO_OBJECT_ROW);
    check("it rests on the slot", stands_at(&in, 1, 0, 1));
    check("one step was done", report[LFSCK_REPORT_STEPS] == 1);
    check("with no steps the slot is not looked at", run(&in, 0, 3, report, 10) == LFSCK_STEPS_USED);
}

/* Q, a second file that names A; A claims P. */
static struct input shared(void)
{
    struct input in = sound();
    uint8_t *q = in.parents + LFSCK_PARENT_BYTES;

    memcpy(q, in.parents, LFSCK_PARENT_BYTES);
    q[PARENT_SELF + 8] = 2;
    q[PARENT_LAYOUT + 8] = 2;
    in.policy = LFSCK_CREATE;
    return in;
}

static void test_redirect(void)
{
    struct input in = shared();
    uint8_t slot[24] = {0};
    uint64_t report[10];
    const uint8_t *q = in.parents + LFSCK_PARENT_BYTES;

    memcpy(slot, n, 16);
    slot[20] = 3;
    check("a slot is redirected", run(&in, 99, 3, report, 10) == LFSCK_OK);
    check("it names N", memcmp(q + PARENT_SLOT, slot, 24) == 0);
    check("its file's generation is raised", q[PARENT_GENERATION] == 1 &&
                                                 in.parents[PARENT_GENERATION] == 0);
    check("N is made in the unused row", in.objects[0] == 1 &&
                                             memcmp(in.objects + OBJECT_SELF, n, 16) == 0);
    check("it is counted as MULTIPLE", report[LFSCK_REPORT_STEPS] == 6 &&
                                           report[LFSCK_REPORT_MULTIPLE] == 1);

    in = shared();
    in.reserve_bytes = 0;
    check("no reserve", run(&in, 99, 3, report, 10) == LFSCK_NO_RESERVE);
    check("it rests on Q's slot", stands_at(&in, 1, 1, 1) && report[LFSCK_REPORT_STEPS] == 3);
}

/* P is absent, and A, which may hold data, claims a slot of it. */
static struct input orphan(uint16_t index)
{
    struct input in = sound();

    memset(in.parents, 0, LFSCK_PARENT_BYTES);
    in.objects[LFSCK_OBJECT_BYTES + OBJECT_CLAIM + 12] = index % 256;
    in.objects[LFSCK_OBJECT_BYTES + OBJECT_CLAIM + 13] = index / 256;
    in.policy = LFSCK_ADOPT;
    return in;
}

/* P's row as adoption makes it: holes, and A in this slot, the last. */
static void make_row(uint8_t *made, size_t index)
{
    uint8_t *layout = made + PARENT_LAYOUT;
    size_t slots = index + 1;
    size_t bytes = 32 + 24 * slots;

    memset(made, 0, LFSCK_PARENT_BYTES);
    made[0] = 1;
    memcpy(made + PARENT_SELF, p, 16);
    made[PARENT_LENGTH] = bytes % 256;
    made[PARENT_LENGTH + 1] = bytes / 256;
    memcpy(layout, e2, 32);
    layout[7] = 0x40;
    layout[28] = slots % 256;
    layout[29] = slots / 256;
    memcpy(layout + 32 + 24 * index, e2 + 32, 24);
}

/* A's claim on this index of P, which is absent: P is made, with A in its last slot. */
static void expect_made(const char *name, uint16_t index)
{
    struct input in = orphan(index);
    uint64_t report[10];
    uint8_t made[LFSCK_PARENT_BYTES];

    make_row(made, index);
    check(name, run(&in, 99, 3, report, 10) == LFSCK_OK &&
                    memcmp(in.parents, made, sizeof made) == 0);
    check("it is counted as ORPHAN", report[LFSCK_REPORT_STEPS] == 4 &&
                                         report[LFSCK_REPORT_ORPHAN] == 1);
    put_size(made + PARENT_LAYOUT, 1048576);
    check("its stripe size is 1,048,576 and passes the check",
          memcmp(in.parents, made, sizeof made) == 0 &&
              lfsck_check(in.parents, in.parents_bytes, in.objects, in.objects_bytes, in.reserve,
                          in.reserve_bytes, in.policy, 3, 0, 0) == LFSCK_OK);
}

/* E10: a parent of 2,000 slots is made, and none of 2,001. */
static void test_made_parent(void)
{
    struct input in;
    struct input before;
    uint64_t report[10];

    expect_made("index 159: a parent of 160 slots", 159);
    expect_made("index 160: a parent of 161 slots", 160);
    expect_made("E10, index 1,999: a parent of 2,000 slots", 1999);

    in = orphan(2000);
    memcpy(&before, &in, sizeof before);
    check("E10, index 2,000", run(&in, 99, 3, report, 10) == LFSCK_OK);
    check("CONFLICT, no change", memcmp(in.parents, before.parents, sizeof in.parents) == 0 &&
                                     memcmp(in.objects, before.objects, sizeof in.objects) == 0);

    in = orphan(1999);
    in.parents_bytes = 0;
    in.position[0] = LFSCK_STAGE_OBJECTS;
    check("no parent row", run(&in, 99, 3, report, 10) == LFSCK_NO_PARENT_ROW);
    check("it rests on the object", stands_at(&in, 2, 1, 0));
}

/* P with A, which its slot names on OST 3, of generation 7; A is on this OST and of this user. */
static struct input placed(uint8_t ost, uint8_t user)
{
    struct input in = sound();

    in.parents[PARENT_SLOT + 16] = 7;
    in.objects[LFSCK_OBJECT_BYTES + OBJECT_OST] = ost;
    in.objects[LFSCK_OBJECT_BYTES + OBJECT_UID] = user;
    return in;
}

/*
 * A run over P's header and slot, under every policy: it makes this one repair, and leaves P's slot
 * on the OST of A, with the generation raised where that OST was another, and A with P's claim and
 * owner, every other byte as it was. The next run makes none.
 */
static void expect_mended(const char *name, const struct input *lent, int counted)
{
    uint8_t ost = lent->objects[LFSCK_OBJECT_BYTES + OBJECT_OST];
    struct input after = placed(ost, 0);
    int holds = 1;

    after.parents[PARENT_SLOT + 20] = ost;
    after.parents[PARENT_GENERATION] = ost != lent->parents[PARENT_SLOT + 20];
    for (uint64_t policy = 0; policy < 4; policy++) {
        uint64_t expected[10] = {2};
        uint64_t report[10];
        struct input in = *lent;

        in.policy = policy;
        for (int again = 0; again < 2; again++) {
            in.position[0] = LFSCK_STAGE_PARENTS;
            in.position[1] = in.position[2] = 0;
            expected[counted] = !again;
            holds = holds && run(&in, 2, 3, report, 10) == LFSCK_STEPS_USED &&
                    memcmp(report, expected, sizeof report) == 0 &&
                    memcmp(in.parents, after.parents, sizeof in.parents) == 0 &&
                    memcmp(in.objects, after.objects, sizeof in.objects) == 0;
        }
    }
    check(name, holds);
}

static void test_wrong_ost(void)
{
    struct input in = placed(5, 0);

    expect_mended("WRONG-OST: the index is written", &in, LFSCK_REPORT_WRONG_OST);
    in = placed(5, 1);
    expect_mended("WRONG-OST: the owner too", &in, LFSCK_REPORT_WRONG_OST);
    in = placed(3, 1);
    expect_mended("OWNER: the index was right", &in, LFSCK_REPORT_OWNER);
}

/* A claims nothing, or slot 5, on the slot's OST and on another. */
static void test_claim_and_index(void)
{
    uint8_t *claim;
    struct input in;

    for (uint8_t ost = 3; ost <= 5; ost += 2) {
        in = placed(ost, ost == 3);
        claim = in.objects + LFSCK_OBJECT_BYTES + OBJECT_CLAIM;
        claim[12] = 5;
        expect_mended(ost == 3 ? "UNMATCHED, right index" : "UNMATCHED mends the index", &in,
                      LFSCK_REPORT_UNMATCHED);
        memset(claim, 0, 16);
        expect_mended(ost == 3 ? "BLANK, right index" : "BLANK mends the index", &in,
                      LFSCK_REPORT_BLANK);
    }
}

/*
 * A run to the end leaves these tables, with this report; so does a second one, in as many steps and
 * with no repair.
 */
static void expect_ran(const char *name, struct input *in, const struct input *after,
                       const uint64_t *first)
{
    uint64_t second[10] = {first[LFSCK_REPORT_STEPS]};
    uint64_t report[10];
    int holds = 1;

    for (int again = 0; again < 2; again++) {
        in->position[0] = LFSCK_STAGE_PARENTS;
        in->position[1] = in->position[2] = 0;
        holds = holds && run(in, UINT64_MAX, 3, report, 10) == LFSCK_OK &&
                memcmp(report, again ? second : first, sizeof report) == 0 &&
                memcmp(in->parents, after->parents, sizeof in->parents) == 0 &&
                memcmp(in->objects, after->objects, sizeof in->objects) == 0;
    }
    check(name, holds);
}

/* E4: P[A,B], Q[A]; A claims (Q,0), B claims (P,1); a third object row. */
static struct input e4(void)
{
    struct input in = shared();
    uint8_t *slot = in.parents + PARENT_SLOT;
    uint8_t *object = in.objects + LFSCK_OBJECT_BYTES;

    in.parents[PARENT_LENGTH] = 80;
    in.parents[PARENT_COUNT] = 2;
    memcpy(slot + 24, slot, 24);
    slot[24 + 8] = 0x11;
    memcpy(in.objects, object, LFSCK_OBJECT_BYTES);
    in.objects[OBJECT_CLAIM + 8] = 2;
    object[OBJECT_SELF + 8] = 0x11;
    object[OBJECT_CLAIM + 12] = 1;
    in.objects_bytes = sizeof in.objects;
    return in;
}

static void test_e4(void)
{
    struct input in = e4();
    struct input after = e4();
    uint8_t *made = after.objects + 2 * LFSCK_OBJECT_BYTES;
    uint64_t report[10] = {8};

    report[LFSCK_REPORT_MULTIPLE] = 1;
    memcpy(after.parents + PARENT_SLOT, n, 16);
    after.parents[PARENT_GENERATION] = 1;
    memcpy(made, after.objects + LFSCK_OBJECT_BYTES, LFSCK_OBJECT_BYTES);
    memcpy(made + OBJECT_SELF, n, 16);
    memcpy(made + OBJECT_CLAIM, p, 16);
    made[OBJECT_FRESH] = 1;
    expect_ran("E4: P's slot 0 names N, and its generation is 1", &in, &after, report);

    in = e4();
    in.parents[PARENT_GENERATION] = in.parents[PARENT_GENERATION + 1] = 0xff;
    after.parents[PARENT_GENERATION] = 0;
    expect_ran("E4 at the last generation: it is 0", &in, &after, report);
}

/* E8: P[A], A absent; C, not fresh, claims (P,0). */
static void test_e8(void)
{
    struct input in = sound();
    struct input after;
    uint64_t report[10] = {4};

    report[LFSCK_REPORT_DANGLING] = report[LFSCK_REPORT_ORPHAN] = 1;
    in.objects[LFSCK_OBJECT_BYTES + OBJECT_SELF + 8] = 0x12;
    in.parents_bytes = LFSCK_PARENT_BYTES;
    in.policy = LFSCK_CREATE | LFSCK_ADOPT;
    after = in;
    after.parents[PARENT_SLOT + 8] = 0x12;
    after.parents[PARENT_GENERATION] = 1;
    memset(after.objects, 0, LFSCK_OBJECT_BYTES);
    expect_ran("E8: slot 0 ends as C, and the generation is 1", &in, &after, report);
}

/* A report of nine places, where there is an index to mend. */
static void test_short_report(void)
{
    struct input in = placed(5, 1);
    struct input before;
    uint64_t report[9] = {99, 99, 99, 99, 99, 99, 99, 99, 99};
    int untouched = 1;

    memcpy(&before, &in, sizeof before);
    check("nine places", run(&in, 9, 3, report, 9) == LFSCK_NO_ROOM);
    for (int i = 0; i < 9; i++)
        untouched = untouched && report[i] == 99;
    check("nothing is written", untouched && memcmp(&in, &before, sizeof in) == 0);
}

static void test_refusals(void)
{
    struct input in = dangling();
    struct input before;
    uint64_t report[10] = {99, 99, 99, 99, 99, 99, 99, 99, 99, 99};
    int untouched = 1;

    in.policy = LFSCK_CREATE;
    memcpy(&before, &in, sizeof before);
    check("a position of two numbers", run(&in, 9, 2, report, 10) == LFSCK_NO_POSITION);
    check("16 before 17", run(&in, 9, 2, report, 9) == LFSCK_NO_POSITION);
    check("a report of nine numbers", run(&in, 9, 3, report, 9) == LFSCK_NO_ROOM);
    in.policy = 4;
    check("policy 4", run(&in, 9, 3, report, 10) == LFSCK_BAD_POLICY);
    in.policy = LFSCK_CREATE;
    in.position[0] = 4;
    check("stage 4", run(&in, 9, 3, report, 10) == LFSCK_NO_POSITION);
    in.position[0] = LFSCK_STAGE_PARENTS;
    in.parents_bytes--;
    check("no whole rows", run(&in, 9, 3, report, 10) == LFSCK_BAD_TABLE);
    in.parents_bytes++;
    for (int i = 0; i < 10; i++)
        untouched = untouched && report[i] == 99;
    check("nothing is written then", untouched && memcmp(&in, &before, sizeof in) == 0);
}

/* Runs of no steps and of many are refused with 13, and nothing is written. */
static int is_refused(const struct input *lent)
{
    uint64_t report[10] = {99, 99, 99, 99, 99, 99, 99, 99, 99, 99};
    uint64_t untouched[10];
    struct input in = *lent;

    memcpy(untouched, report, sizeof report);
    return run(&in, 0, 3, report, 10) == LFSCK_BAD_LAYOUT &&
           run(&in, UINT64_MAX, 3, report, 10) == LFSCK_BAD_LAYOUT &&
           run(&in, 9, 2, report, 10) == LFSCK_BAD_LAYOUT &&
           run(&in, 9, 3, report, 9) == LFSCK_BAD_LAYOUT &&
           memcmp(report, untouched, sizeof report) == 0 && memcmp(&in, lent, sizeof in) == 0;
}

/* Runs of no steps and of many are made, and leave the stripe sizes of both rows. */
static int is_made_with_sizes(const struct input *lent)
{
    uint64_t report[10];
    struct input in = *lent;
    int holds = run(&in, 0, 3, report, 10) == LFSCK_STEPS_USED &&
                run(&in, UINT64_MAX, 3, report, 10) == LFSCK_OK;

    for (size_t row = 0; row < 2; row++) {
        size_t at = LFSCK_PARENT_BYTES * row + PARENT_LAYOUT + 24;

        holds = holds && memcmp(in.parents + at, lent->parents + at, 4) == 0;
    }
    return holds;
}

/* A used row with an object to make, with its slot and with none, and an unused row. */
static void test_stripe_sizes(void)
{
    for (int i = 0; i < SIZES; i++) {
        uint32_t size = sizes[i].bytes;
        int good = sizes[i].answer == LFSCK_OK;
        struct input in = dangling();

        in.policy = LFSCK_CREATE;
        put_size(in.parents + LFSCK_PARENT_BYTES + PARENT_LAYOUT, size);
        check_size("an unused row is no hindrance", size, is_made_with_sizes(&in));
        put_size(in.parents + PARENT_LAYOUT, size);
        check_size(good ? "runs" : "13 before 16 and 17", size,
                   good ? is_made_with_sizes(&in) : is_refused(&in));
        in.parents[PARENT_LENGTH] = 32;
        in.parents[PARENT_COUNT] = 0;
        check_size(good ? "runs, no slots" : "13, no slots", size,
                   good ? is_made_with_sizes(&in) : is_refused(&in));
    }
}

int main(void)
{
    test_dangling();
    test_stop();
    test_redirect();
    test_made_parent();
    test_wrong_ost();
    test_claim_and_index();
    test_e4();
    test_e8();
    test_short_report();
    test_refusals();
    test_stripe_sizes();
    return report_all();
}
