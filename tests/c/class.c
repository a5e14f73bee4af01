/* Classes asked from C. */
#include "report.h"
#include "sample.h"

static uint32_t ask(const struct input *in, uint64_t stage, uint64_t row, uint64_t part,
                    uint64_t *out, size_t count)
{
    return lfsck_class(in->parents, in->parents_bytes, in->objects, in->objects_bytes,
                       stage, row, part, out, count);
}

/* The class, with zeros after it and the place past it left alone. */
static void expect(const char *name, const struct input *in, uint64_t stage, uint64_t row,
                   uint64_t part, uint64_t expected)
{
    uint64_t out[5] = {99, 99, 99, 99, 99};

    check(name, ask(in, stage, row, part, out, 5) == LFSCK_OK && out[0] == expected &&
                    out[1] == 0 && out[2] == 0 && out[3] == 0 && out[4] == 99);
}

static void test_classes(void)
{
    struct input in = sound();
    uint8_t *object = in.objects + LFSCK_OBJECT_BYTES;

    expect("P's header", &in, 1, 0, 0, LFSCK_CLEAN);
    expect("P's slot", &in, 1, 0, 1, LFSCK_CLEAN);
    expect("the unused parent row", &in, 1, 1, 0, LFSCK_UNUSED);
    expect("the unused object row", &in, 2, 0, 0, LFSCK_UNUSED);
    expect("A", &in, 2, 1, 0, LFSCK_KEPT);

    object[OBJECT_CLAIM - 4] = 1;
    expect("A with another group", &in, 1, 0, 1, LFSCK_OWNER);
    object[OBJECT_OST] = 5;
    expect("A on another OST, with another group", &in, 1, 0, 1, LFSCK_WRONG_OST);
    object[OBJECT_CLAIM - 4] = 0;
    expect("A on another OST", &in, 1, 0, 1, LFSCK_WRONG_OST);
    expect("A is kept all the same", &in, 2, 1, 0, LFSCK_KEPT);
    memset(object + OBJECT_CLAIM, 0, 16);
    expect("A without claim", &in, 1, 0, 1, LFSCK_BLANK);
    object[OBJECT_SELF + 8]++;
    expect("A absent", &in, 1, 0, 1, LFSCK_DANGLING);
    expect("an unnamed object without claim", &in, 2, 1, 0, LFSCK_SPARE);

    in.parents[PARENT_LAYOUT + 8]++;
    expect("another own id", &in, 1, 0, 0, LFSCK_SELF);
}

/* A claims slot 5 of P and stands in slot 0. */
static void test_unmatched(void)
{
    struct input in = sound();
    uint64_t out[4];

    in.objects[LFSCK_OBJECT_BYTES + OBJECT_CLAIM + 12] = 5;
    check("A in another slot", ask(&in, 1, 0, 1, out, 4) == LFSCK_OK && out[0] == LFSCK_UNMATCHED);
    check("the claim is handed out", out[1] == 0x200000401 && out[2] == 1 && out[3] == 5);
    in.objects[LFSCK_OBJECT_BYTES + OBJECT_OST] = 5;
    check("and on another OST", ask(&in, 1, 0, 1, out, 4) == LFSCK_OK && out[0] == LFSCK_UNMATCHED);
}

static void test_refusals(void)
{
    struct input in = sound();
    uint64_t out[4] = {99, 99, 99, 99};

    check("the end has no class", ask(&in, 3, 0, 0, out, 4) == LFSCK_NO_POSITION);
    check("a slot that P has not", ask(&in, 1, 0, 2, out, 4) == LFSCK_NO_POSITION);
    check("16 before 17", ask(&in, 1, 0, 2, out, 3) == LFSCK_NO_POSITION);
    check("three places", ask(&in, 1, 0, 1, out, 3) == LFSCK_NO_ROOM);
    in.objects[0] = 7;
    check("11 before 16", ask(&in, 3, 0, 0, out, 4) == LFSCK_BAD_TABLE);
    check("nothing is handed out then",
          out[0] == 99 && out[1] == 99 && out[2] == 99 && out[3] == 99);
}

/* What a call of lfsck_classes is lent to be written. */
struct told {
    uint64_t position[3];
    uint64_t out[24];
    uint64_t done[2];
};

/* The position, and 99 wherever nothing was written. */
static struct told untold(uint64_t stage, uint64_t row, uint64_t part)
{
    struct told told = {{stage, row, part}, {0}, {99, 99}};
    int i;

    for (i = 0; i < 24; i++)
        told.out[i] = 99;
    return told;
}

static uint32_t list(const struct input *in, struct told *told, size_t position_count,
                     size_t out_count, size_t done_count)
{
    return lfsck_classes(in->parents, in->parents_bytes, in->objects, in->objects_bytes,
                         told->position, position_count, told->out, out_count, told->done,
                         done_count);
}

static int stands(const struct told *told, uint64_t stage, uint64_t row, uint64_t part)
{
    return told->position[0] == stage && told->position[1] == row && told->position[2] == part;
}

/* So many places hold the class that is told of their position alone, and the rest is 99. */
static int tells(const struct input *in, const struct told *told, const uint64_t positions[][3],
                 size_t count)
{
    uint64_t one[4];
    size_t i;

    for (i = 0; i < count; i++)
        if (ask(in, positions[i][0], positions[i][1], positions[i][2], one, 4) != LFSCK_OK ||
            memcmp(one, told->out + 4 * i, sizeof one) != 0)
            return 0;
    for (i = 4 * count; i < 24; i++)
        if (told->out[i] != 99)
            return 0;
    return told->done[0] == count && told->done[1] == 99;
}

/* P's header and slot, the unused parent row, the unused object row, A; P's slot is UNMATCHED. */
static void test_listing(void)
{
    static const uint64_t all[5][3] = {{1, 0, 0}, {1, 0, 1}, {1, 1, 0}, {2, 0, 0}, {2, 1, 0}};
    struct input in = sound();
    struct told told = untold(1, 0, 0);

    in.objects[LFSCK_OBJECT_BYTES + OBJECT_CLAIM + 12] = 5;
    check("all classes", list(&in, &told, 3, 24, 2) == LFSCK_OK && tells(&in, &told, all, 5));
    check("the claim is handed out", told.out[4] == LFSCK_UNMATCHED && told.out[7] == 5);
    check("at the end", stands(&told, 3, 0, 0));

    told = untold(1, 0, 0);
    check("two classes", list(&in, &told, 3, 11, 2) == LFSCK_OK && tells(&in, &told, all, 2));
    check("the third is next", stands(&told, 1, 1, 0));
    told = untold(1, 1, 0);
    check("the others", list(&in, &told, 3, 12, 1) == LFSCK_OK && tells(&in, &told, all + 2, 3));
    check("at the end again", stands(&told, 3, 0, 0));

    told = untold(1, 0, 1);
    check("no whole place", list(&in, &told, 3, 3, 1) == LFSCK_OK && tells(&in, &told, all, 0));
    check("the position stays", stands(&told, 1, 0, 1));
    told = untold(3, 0, 0);
    check("none at the end", list(&in, &told, 3, 24, 1) == LFSCK_OK && tells(&in, &told, all, 0));
    check("and the end stays", stands(&told, 3, 0, 0));
}

/* A refusal, with nothing written. */
static void expect_refused(const char *name, const struct input *in, struct told told,
                           size_t position_count, size_t done_count, uint32_t expected)
{
    struct told lent = told;

    check(name, list(in, &lent, position_count, 24, done_count) == expected &&
                    memcmp(&lent, &told, sizeof told) == 0);
}

static void test_listing_refusals(void)
{
    struct input in = sound();

    expect_refused("no place for done", &in, untold(1, 0, 0), 3, 0, LFSCK_NO_ROOM);
    expect_refused("no such slot", &in, untold(1, 0, 2), 3, 1, LFSCK_NO_POSITION);
    expect_refused("16 before 17", &in, untold(1, 0, 2), 3, 0, LFSCK_NO_POSITION);
    expect_refused("a position of two numbers", &in, untold(1, 0, 0), 2, 1, LFSCK_NO_POSITION);
    in.objects[0] = 7;
    expect_refused("11 before 16", &in, untold(1, 0, 2), 3, 0, LFSCK_BAD_TABLE);
}

int main(void)
{
    test_classes();
    test_unmatched();
    test_refusals();
    test_listing();
    test_listing_refusals();
    return report_all();
}
