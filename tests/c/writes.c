/* The writes of steps, asked from C. */
#include "report.h"
#include "sample.h"

enum {
    F = LFSCK_TABLE_PARENTS,
    O = LFSCK_TABLE_OBJECTS,
    PARENT_PATTERN = PARENT_LAYOUT + 7, /* the byte in which the hole pattern differs */
    PARENT_OWN_ID = PARENT_LAYOUT + 8
};

static uint32_t writes(const struct input *in, uint64_t *out, size_t out_count)
{
    return lfsck_step_writes(in->parents, in->parents_bytes, in->objects, in->objects_bytes,
                             in->reserve, in->reserve_bytes, in->policy, in->position[0],
                             in->position[1], in->position[2], out, out_count);
}

static void stand(struct input *in, uint64_t stage, uint64_t row, uint64_t part)
{
    in->position[0] = stage;
    in->position[1] = row;
    in->position[2] = part;
}

static uint8_t *row_of(struct input *in, const uint64_t *row)
{
    return row[0] == F ? in->parents + row[1] * LFSCK_PARENT_BYTES
                       : in->objects + row[1] * LFSCK_OBJECT_BYTES;
}

/* The named rows, copied in their order, are the step that a run makes; each of them changes. */
static int make_the_step(const struct input *in, const uint64_t *out)
{
    uint64_t report[LFSCK_REPORT_NUMBERS];
    struct input after = *in;
    struct input stored = *in;
    uint32_t answer;

    answer = lfsck_run(after.parents, after.parents_bytes, after.objects, after.objects_bytes,
                       after.reserve, after.reserve_bytes, after.policy, 1, after.position, 3,
                       report, LFSCK_REPORT_NUMBERS);
    for (uint64_t i = 0; i < out[0]; i++) {
        const uint64_t *row = out + 1 + LFSCK_ROW_NUMBERS * i;
        size_t bytes = row[0] == F ? LFSCK_PARENT_BYTES : LFSCK_OBJECT_BYTES;

        if (memcmp(row_of(&stored, row), row_of(&after, row), bytes) == 0)
            return 0;
        memcpy(row_of(&stored, row), row_of(&after, row), bytes);
    }
    return answer <= LFSCK_STEPS_USED &&
           memcmp(stored.parents, after.parents, sizeof stored.parents) == 0 &&
           memcmp(stored.objects, after.objects, sizeof stored.objects) == 0;
}

/* The step at the position has these writes: how many, and table and row of each. */
static void expect(const char *name, const struct input *in, const uint64_t *wanted)
{
    struct input lent;
    uint64_t out[8] = {99, 99, 99, 99, 99, 99, 99, 99};
    int holds;

    memcpy(&lent, in, sizeof lent);
    holds = writes(&lent, out, 8) == LFSCK_OK;
    holds = holds && memcmp(out, wanted, LFSCK_WRITES_NUMBERS * sizeof *out) == 0 && out[7] == 99;
    holds = holds && memcmp(&lent, in, sizeof lent) == 0;
    check(name, holds && make_the_step(in, out));
}

#define EXPECT(name, in, ...) expect(name, in, (const uint64_t[7]){__VA_ARGS__})

/* P with A, which its slot names on OST 3; A is on this OST and of this user. */
static struct input placed(uint8_t ost, uint8_t user)
{
    struct input in = sound();

    in.objects[LFSCK_OBJECT_BYTES + OBJECT_OST] = ost;
    in.objects[LFSCK_OBJECT_BYTES + OBJECT_UID] = user;
    stand(&in, LFSCK_STAGE_PARENTS, 0, 1);
    return in;
}

static void test_header(void)
{
    struct input in = sound();

    EXPECT("a clean header: none", &in, 0);
    in.parents[PARENT_OWN_ID] = 9;
    EXPECT("SELF: the file", &in, 1, F, 0);
    stand(&in, LFSCK_STAGE_PARENTS, 1, 0);
    EXPECT("an unused row: none", &in, 0);
}

static void test_kept(void)
{
    struct input in = placed(3, 0);
    uint8_t *claim = in.objects + LFSCK_OBJECT_BYTES + OBJECT_CLAIM;

    EXPECT("a clean slot: none", &in, 0);
    in = placed(3, 1);
    EXPECT("OWNER: the object", &in, 1, O, 1);
    in = placed(5, 0);
    EXPECT("WRONG-OST: the file", &in, 1, F, 0);
    in = placed(5, 1);
    EXPECT("WRONG-OST and another owner: the object, the file", &in, 2, O, 1, F, 0);
    claim[12] = 4;
    EXPECT("UNMATCHED on another OST: the object, the file", &in, 2, O, 1, F, 0);
    memset(claim, 0, 16);
    EXPECT("BLANK on another OST: the object, the file", &in, 2, O, 1, F, 0);
    in = placed(3, 0);
    claim[12] = 4;
    EXPECT("UNMATCHED on the slot's OST: the object", &in, 1, O, 1);
    memset(claim, 0, 16);
    EXPECT("BLANK on the slot's OST: the object", &in, 1, O, 1);
}

static void test_dangling(void)
{
    struct input in = placed(3, 0);

    in.objects[LFSCK_OBJECT_BYTES] = 0;
    EXPECT("DANGLING without create: none", &in, 0);
    in.policy = LFSCK_CREATE;
    EXPECT("DANGLING: the new object", &in, 1, O, 0);
    in.objects_bytes = 0;
    check("no row for it", writes(&in, (uint64_t[7]){0}, 7) == LFSCK_NO_OBJECT_ROW);
}

/* Q, a second file that names A, which claims P. */
static struct input shared(void)
{
    struct input in = sound();
    uint8_t *q = in.parents + LFSCK_PARENT_BYTES;

    memcpy(q, in.parents, LFSCK_PARENT_BYTES);
    q[PARENT_SELF + 8] = 2;
    q[PARENT_OWN_ID] = 2;
    in.policy = LFSCK_CREATE;
    stand(&in, LFSCK_STAGE_PARENTS, 1, 1);
    return in;
}

/* A second object in row 0, with this id, which claims slot 0 of Q. */
static uint8_t *put_second(struct input *in, uint8_t id)
{
    memcpy(in->objects, in->objects + LFSCK_OBJECT_BYTES, LFSCK_OBJECT_BYTES);
    in->objects[OBJECT_SELF + 8] = id;
    in->objects[OBJECT_CLAIM + 8] = 2;
    return in->objects;
}

static void test_redirect(void)
{
    struct input in = shared();
    uint64_t out[7];

    EXPECT("MULTIPLE: the new object, the file", &in, 2, O, 0, F, 1);
    in.reserve_bytes = 0;
    check("no reserve", writes(&in, out, 7) == LFSCK_NO_RESERVE);
    put_second(&in, 0x12)[OBJECT_FRESH] = 1;
    EXPECT("an object that waits: the file", &in, 1, F, 1);
    in.objects[OBJECT_UID] = in.objects[OBJECT_OST] = 7;
    EXPECT("one of another owner: the object, the file", &in, 2, O, 0, F, 1);
    in.objects[OBJECT_FRESH] = 0;
    check("one with data is not used", writes(&in, out, 7) == LFSCK_NO_RESERVE);
    in.objects[OBJECT_FRESH] = 1;
    in.objects[OBJECT_CLAIM + 12] = 1;
    check("nor one that claims another slot", writes(&in, out, 7) == LFSCK_NO_RESERVE);
    in = shared();
    put_second(&in, 0x12)[OBJECT_FRESH] = 0;
    check("no row", writes(&in, out, 7) == LFSCK_NO_OBJECT_ROW);
}

/* Two objects that wait, in rows 0 and 2, both of another owner. */
static void test_first(void)
{
    struct input in = shared();
    uint8_t *third = in.objects + 2 * LFSCK_OBJECT_BYTES;

    put_second(&in, 0x12)[OBJECT_FRESH] = 1;
    in.objects[OBJECT_UID] = 7;
    in.objects_bytes = sizeof in.objects;
    memcpy(third, in.objects, LFSCK_OBJECT_BYTES);
    third[OBJECT_SELF + 8] = 0x13;
    EXPECT("the first of two that wait", &in, 2, O, 0, F, 1);

    /* P names the first, too. */
    in.parents[PARENT_LENGTH] = 80;
    in.parents[PARENT_COUNT] = 2;
    memcpy(in.parents + PARENT_SLOT + 24, in.parents + PARENT_SLOT, 24);
    in.parents[PARENT_SLOT + 24 + 8] = 0x12;
    EXPECT("one that a slot names does not wait", &in, 2, O, 2, F, 1);
}

/* The slot that a run gives to an object that waits. */
static void test_reuse(void)
{
    struct input in = shared();
    uint8_t slot[24] = {0};
    uint64_t report[10];

    put_second(&in, 0x12)[OBJECT_FRESH] = 1;
    in.objects[OBJECT_OST] = 7;
    in.parents[LFSCK_PARENT_BYTES + PARENT_SLOT + 16] = 4;
    memcpy(slot, a, 16);
    slot[8] = 0x12;
    slot[20] = 7;
    check("a run uses the object that waits",
          lfsck_run(in.parents, in.parents_bytes, in.objects, in.objects_bytes, in.reserve, 0,
                    in.policy, 1, in.position, 3, report, 10) == LFSCK_STEPS_USED);
    check("its FID, generation 0, its OST",
          memcmp(in.parents + LFSCK_PARENT_BYTES + PARENT_SLOT, slot, 24) == 0);
    check("the file's generation is raised",
          in.parents[LFSCK_PARENT_BYTES + PARENT_GENERATION] == 1);
    check("it is counted as MULTIPLE", report[LFSCK_REPORT_MULTIPLE] == 1);
}

/* An orphan of this user in row 0, which claims a slot of P; A in slot 0 is fresh. */
static struct input adopted(uint8_t index, uint8_t user)
{
    struct input in = sound();
    uint8_t *orphan = put_second(&in, 0x12);

    orphan[OBJECT_CLAIM + 8] = 1;
    orphan[OBJECT_CLAIM + 12] = index;
    orphan[OBJECT_UID] = user;
    in.objects[LFSCK_OBJECT_BYTES + OBJECT_FRESH] = 1;
    in.parents[PARENT_PATTERN] = 0x40;
    in.policy = LFSCK_ADOPT;
    stand(&in, LFSCK_STAGE_OBJECTS, 0, 0);
    return in;
}

static void test_adoption(void)
{
    struct input in = adopted(0, 0);

    EXPECT("a taken place: the file, the destroyed row", &in, 2, F, 0, O, 1);
    in = adopted(0, 6);
    EXPECT("and the orphan between them", &in, 3, F, 0, O, 0, O, 1);
    in.policy = LFSCK_CREATE;
    EXPECT("without adopt: none", &in, 0);
    in = adopted(2, 0);
    EXPECT("a layout that grows: the file", &in, 1, F, 0);
    in = adopted(2, 6);
    EXPECT("and the orphan", &in, 2, F, 0, O, 0);
    in = adopted(0, 6);
    memset(in.parents + PARENT_SLOT, 0, 24);
    EXPECT("a hole: the file, the orphan", &in, 2, F, 0, O, 0);
    in = adopted(0, 6);
    in.objects[OBJECT_CLAIM + 8] = 3;
    EXPECT("an absent file: its row", &in, 1, F, 1);
    in.parents_bytes = LFSCK_PARENT_BYTES;
    check("no row for it", writes(&in, (uint64_t[7]){0}, 7) == LFSCK_NO_PARENT_ROW);
    in.objects[OBJECT_FRESH] = 1;
    EXPECT("EMPTY: the object", &in, 1, O, 0);
}

static void test_refusals(void)
{
    struct input in = shared();
    struct input before;
    uint64_t out[7] = {99, 99, 99, 99, 99, 99, 99};
    int untouched = 1;

    in.reserve_bytes = 0;
    memcpy(&before, &in, sizeof before);
    check("six places, before 21", writes(&in, out, 6) == LFSCK_NO_ROOM);
    stand(&in, LFSCK_STAGE_END, 0, 0);
    check("the end", writes(&in, out, 7) == LFSCK_NO_POSITION);
    check("the end, and six places", writes(&in, out, 6) == LFSCK_NO_POSITION);
    stand(&in, LFSCK_STAGE_PARENTS, 2, 0);
    check("no such row", writes(&in, out, 7) == LFSCK_NO_POSITION);
    in.policy = 4;
    check("policy 4, and no such row", writes(&in, out, 7) == LFSCK_BAD_POLICY);
    in.reserve_bytes = 15;
    check("no whole entry, and policy 4", writes(&in, out, 7) == LFSCK_BAD_TABLE);
    in = before;
    in.reserve_bytes = 16;
    in.reserve[12] = 1;
    check("a bad FID in the reserve", writes(&in, out, 7) == LFSCK_BAD_FID);
    in.parents[PARENT_LENGTH] = 55;
    check("a bad layout", writes(&in, out, 7) == LFSCK_BAD_LAYOUT);
    in = before;
    in.parents[LFSCK_PARENT_BYTES + PARENT_SELF + 8] = 1;
    check("a FID twice", writes(&in, out, 6) == LFSCK_FID_TWICE);
    memcpy(&in, &before, sizeof in);
    check("21", writes(&in, out, 7) == LFSCK_NO_RESERVE);
    for (int i = 0; i < 7; i++)
        untouched = untouched && out[i] == 99;
    check("nothing is written then", untouched && memcmp(&in, &before, sizeof in) == 0);
}

int main(void)
{
    test_header();
    test_kept();
    test_dangling();
    test_redirect();
    test_first();
    test_reuse();
    test_adoption();
    test_refusals();
    return report_all();
}
