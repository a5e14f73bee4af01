/* The check, the start and the number of steps called from C, as the scan tool does. */
#include "report.h"
#include "sample.h"
#include "sizes.h"

/* Q = [0x200000401:2:0]. */
static const uint8_t q[16] = {0x01, 0x04, 0, 0, 0x02, 0, 0, 0, 2};

static uint32_t answer(const struct input *in)
{
    return lfsck_check(in->parents, in->parents_bytes, in->objects, in->objects_bytes,
                       in->reserve, in->reserve_bytes, in->policy,
                       in->position[0], in->position[1], in->position[2]);
}

/* The answer is the one expected, and nothing has changed. */
static void expect(const char *name, const struct input *in, uint32_t expected)
{
    struct input before;

    memcpy(&before, in, sizeof before);
    check(name, answer(in) == expected && memcmp(&before, in, sizeof before) == 0);
}

static void test_tables(void)
{
    struct input in = sound();

    expect("sound tables", &in, LFSCK_OK);
    in.parents_bytes--;
    expect("a cut parent row", &in, LFSCK_BAD_TABLE);

    in = sound();
    in.objects_bytes -= 45;
    expect("a cut object row", &in, LFSCK_BAD_TABLE);

    in = sound();
    in.reserve_bytes = 15;
    expect("a cut reserve entry", &in, LFSCK_BAD_TABLE);

    in = sound();
    in.objects[0] = 2;
    expect("a mark that is neither 0 nor 1", &in, LFSCK_BAD_TABLE);

    in = sound();
    in.parents[PARENT_LENGTH] = 55;
    expect("a layout of 55 bytes", &in, LFSCK_BAD_LAYOUT);

    in = sound();
    in.objects[LFSCK_OBJECT_BYTES + OBJECT_OST + 2] = 1;
    expect("an OST index above 65,535", &in, LFSCK_BAD_FID);

    in = sound();
    memset(in.objects + LFSCK_OBJECT_BYTES + OBJECT_CLAIM, 0, 16);
    expect("an object without claim", &in, LFSCK_OK);
    in.objects[LFSCK_OBJECT_BYTES + OBJECT_FRESH] = 1;
    expect("a fresh object without claim", &in, LFSCK_BAD_FID);

    in = sound();
    in.reserve[12] = 1;
    expect("a version in the reserve", &in, LFSCK_BAD_FID);
}

static void test_twice(void)
{
    struct input in = sound();

    memcpy(in.parents + LFSCK_PARENT_BYTES, in.parents, LFSCK_PARENT_BYTES);
    expect("P twice", &in, LFSCK_FID_TWICE);
    memcpy(in.parents + LFSCK_PARENT_BYTES + PARENT_SELF, q, 16);
    expect("P and Q", &in, LFSCK_OK);
    memcpy(in.objects, in.objects + LFSCK_OBJECT_BYTES, LFSCK_OBJECT_BYTES);
    expect("A twice", &in, LFSCK_FID_TWICE);
    memcpy(in.objects + OBJECT_SELF, p, 16);
    expect("one FID in both tables", &in, LFSCK_OK);
}

static void test_policy_and_position(void)
{
    struct input in = sound();

    in.policy = LFSCK_CREATE + LFSCK_ADOPT;
    expect("both policies", &in, LFSCK_OK);
    in.policy = 4;
    expect("policy 4", &in, LFSCK_BAD_POLICY);

    in = sound();
    in.position[2] = 1;
    expect("P's slot", &in, LFSCK_OK);
    in.position[2] = 2;
    expect("a slot that P has not", &in, LFSCK_NO_POSITION);
    in.position[1] = 1;
    in.position[2] = 0;
    expect("the unused row", &in, LFSCK_OK);
    in.position[2] = 1;
    expect("a slot of the unused row", &in, LFSCK_NO_POSITION);
    in.position[0] = LFSCK_STAGE_END;
    expect("row 1 of the end", &in, LFSCK_NO_POSITION);
    in.position[1] = UINT64_MAX;
    in.position[2] = UINT64_MAX;
    expect("the largest numbers", &in, LFSCK_NO_POSITION);
    in.policy = UINT64_MAX;
    expect("12 before 16", &in, LFSCK_BAD_POLICY);
    in.parents_bytes = 1;
    expect("11 before both", &in, LFSCK_BAD_TABLE);
}

static void test_start_and_steps(void)
{
    struct input in = sound();
    uint64_t numbers[4] = {9, 9, 9, 9};

    check("start", lfsck_start(in.parents, in.parents_bytes, in.objects, in.objects_bytes,
                               numbers, 4) == LFSCK_OK);
    check("the first parent row", numbers[0] == 1 && numbers[1] == 0 && numbers[2] == 0);
    check("the number after it stays", numbers[3] == 9);
    check("steps", lfsck_steps(in.parents, in.parents_bytes, in.objects, in.objects_bytes,
                               numbers, 1) == LFSCK_OK);
    check("two parent rows, a slot, two object rows", numbers[0] == 5);
    check("start without parents", lfsck_start(in.parents, 0, in.objects, in.objects_bytes,
                                               numbers, 3) == LFSCK_OK);
    check("the first object row", numbers[0] == 2 && numbers[1] == 0 && numbers[2] == 0);

    numbers[0] = 9;
    numbers[1] = 9;
    check("no room for the start", lfsck_start(in.parents, in.parents_bytes, in.objects,
                                               in.objects_bytes, numbers, 2) == LFSCK_NO_ROOM);
    in.parents[PARENT_SELF + 12] = 1;
    check("14 before 17", lfsck_start(in.parents, in.parents_bytes, in.objects,
                                      in.objects_bytes, numbers, 2) == LFSCK_BAD_FID);
    check("steps of unsound tables", lfsck_steps(in.parents, in.parents_bytes, in.objects,
                                                 in.objects_bytes, numbers, 1) == LFSCK_BAD_FID);
    check("nothing is handed out then", numbers[0] == 9 && numbers[1] == 9);
}

/* The answers of the three, with room and without; of a refused call nothing is handed out. */
static int answers(const struct input *in, uint32_t expected)
{
    uint64_t numbers[3] = {9, 9, 9};
    uint32_t short_of_room = expected == LFSCK_OK ? LFSCK_NO_ROOM : expected;
    int holds = lfsck_start(in->parents, in->parents_bytes, in->objects, in->objects_bytes, numbers,
                            2) == short_of_room &&
                lfsck_steps(in->parents, in->parents_bytes, in->objects, in->objects_bytes, numbers,
                            0) == short_of_room &&
                numbers[0] == 9 && numbers[1] == 9 && numbers[2] == 9;

    holds = holds && answer(in) == expected &&
            lfsck_start(in->parents, in->parents_bytes, in->objects, in->objects_bytes, numbers,
                        3) == expected &&
            lfsck_steps(in->parents, in->parents_bytes, in->objects, in->objects_bytes, numbers,
                        1) == expected;
    return holds && (expected == LFSCK_OK) == (numbers[0] != 9);
}

/* In P's row, with its slot and with none, and in the unused row. */
static void test_stripe_sizes(void)
{
    for (int i = 0; i < SIZES; i++) {
        uint32_t size = sizes[i].bytes;
        struct input in = sound();

        put_size(in.parents + LFSCK_PARENT_BYTES + PARENT_LAYOUT, size);
        check_size("an unused row", size, answers(&in, LFSCK_OK));
        expect("the same, and nothing written", &in, LFSCK_OK);
        put_size(in.parents + PARENT_LAYOUT, size);
        check_size("a used row", size, answers(&in, sizes[i].answer));
        expect("the same, and nothing written", &in, sizes[i].answer);
        in.position[0] = 4;
        expect("13 before 16", &in,
               sizes[i].answer == LFSCK_OK ? LFSCK_NO_POSITION : sizes[i].answer);
        in.position[0] = LFSCK_STAGE_PARENTS;
        in.parents[PARENT_LENGTH] = 32;
        in.parents[PARENT_COUNT] = 0;
        check_size("a used row, no slots", size, answers(&in, sizes[i].answer));
        expect("the same, and nothing written", &in, sizes[i].answer);
    }
}

/* E1: without rows the start is the end. */
static void test_no_rows(void)
{
    struct input in = sound();
    uint64_t numbers[3] = {9, 9, 9};

    check("E1, start", lfsck_start(in.parents, 0, in.objects, 0, numbers, 3) == LFSCK_OK);
    check("E1, the end", numbers[0] == LFSCK_STAGE_END && numbers[1] == 0 && numbers[2] == 0);
    in.parents_bytes = 0;
    in.objects_bytes = 0;
    in.reserve_bytes = 0;
    expect("no row at 1, 0, 0", &in, LFSCK_NO_POSITION);
    in.position[0] = LFSCK_STAGE_END;
    expect("E1, the end is checked", &in, LFSCK_OK);
}

int main(void)
{
    test_tables();
    test_twice();
    test_policy_and_position();
    test_start_and_steps();
    test_stripe_sizes();
    test_no_rows();
    return report_all();
}
