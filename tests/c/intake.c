/* The intake functions called from C, on a dump of one file and one object. */
#include <string.h>

#include "lfsck_layout.h"
#include "report.h"
#include "sample.h"

/* P with the layout of E2, then its object A in the older form; and their owners. */
static const char dump[] =
    "# file: mnt/mdt/a b\\012c\n"
    "trusted.link=0xdff1ea11\n"
    "trusted.lma=0x000000000000000001040000020000000100000000000000\n"
    "trusted.lov=0xd00bd10b0100000001000000000000000104000002000000"
    "0000100001000000000400400200000010000000000000000000000003000000\n"
    "\n"
    "# file: mnt/ost/O/0/d16/16\n"
    "trusted.fid=0x01040000020000000100000000000000AABBCCDDEEFF00112233445566778899\n"
    "trusted.lma=0x080000000000000000040040020000001000000000000000\n"
    "\n";
static const char owners[] = "1001 100 0\n1001 100 3";
#define DUMP (sizeof dump - 1)
#define OWNERS (sizeof owners - 1)
/* The bytes of the first entry. */
#define FIRST ((size_t)(strstr(dump, "\n\n") - dump) + 2)

#define MARK UINT64_C(0xabababababababab)

/* What a reading is lent; the state has a byte more than is needed. */
struct reading {
    uint8_t state[LFSCK_INTAKE_STATE + 1];
    uint8_t parents[2 * LFSCK_PARENT_BYTES];
    uint8_t objects[2 * LFSCK_OBJECT_BYTES];
    uint64_t out[2];
};

/* Tables without used rows, full of other bytes. */
static struct reading begun(void)
{
    struct reading r;

    memset(&r, 0, sizeof r);
    memset(r.parents, 0xab, sizeof r.parents);
    memset(r.objects, 0xab, sizeof r.objects);
    for (size_t row = 0; row < 2; row++) {
        r.parents[row * LFSCK_PARENT_BYTES] = 0;
        r.objects[row * LFSCK_OBJECT_BYTES] = 0;
    }
    r.out[0] = r.out[1] = MARK;
    return r;
}

static int same(const struct reading *r, const struct reading *s)
{
    return memcmp(r->state, s->state, sizeof r->state) == 0 &&
           memcmp(r->parents, s->parents, sizeof r->parents) == 0 &&
           memcmp(r->objects, s->objects, sizeof r->objects) == 0 &&
           memcmp(r->out, s->out, sizeof r->out) == 0;
}

static uint32_t feed(struct reading *r, const char *piece, size_t bytes)
{
    return lfsck_intake_feed(r->state, LFSCK_INTAKE_STATE, (const uint8_t *)piece, bytes,
                             (const uint8_t *)owners, OWNERS, r->parents, sizeof r->parents,
                             r->objects, sizeof r->objects, r->out, 2);
}

/* Feeds any number of bytes, in pieces as long as they may be. */
static uint32_t feed_all(struct reading *r, const char *text, size_t bytes)
{
    uint32_t answer = LFSCK_OK;

    while (answer == LFSCK_OK && bytes > LFSCK_PIECE_MAX) {
        answer = feed(r, text, LFSCK_PIECE_MAX);
        text += LFSCK_PIECE_MAX;
        bytes -= LFSCK_PIECE_MAX;
    }
    return answer == LFSCK_OK ? feed(r, text, bytes) : answer;
}

static uint32_t end(struct reading *r)
{
    return lfsck_intake_end(r->state, LFSCK_INTAKE_STATE, r->out, 2);
}

/* The rows that the dump gives, and nothing else changed. */
static int is_whole(const struct reading *r)
{
    struct reading expected = begun();
    uint8_t *parent = expected.parents;
    uint8_t *object = expected.objects;
    static const uint8_t owner[8] = {0xe9, 0x03, 0, 0, 100, 0, 0, 0};

    parent[0] = 1;
    memcpy(parent + PARENT_SELF, p, 16);
    memcpy(parent + PARENT_SELF + 16, owner, 8);
    parent[PARENT_LENGTH] = 56;
    parent[PARENT_LENGTH + 1] = 0;
    memcpy(parent + PARENT_LAYOUT, e2, 56);
    memset(object, 0, LFSCK_OBJECT_BYTES);
    object[0] = 1;
    memcpy(object + OBJECT_SELF, a, 16);
    object[OBJECT_OST] = 3;
    memcpy(object + OBJECT_UID, owner, 8);
    memcpy(object + OBJECT_CLAIM, p, 16);
    return memcmp(r->parents, expected.parents, sizeof r->parents) == 0 &&
           memcmp(r->objects, expected.objects, sizeof r->objects) == 0;
}

static void test_whole(void)
{
    struct reading r = begun();

    check("a dump is taken in", feed(&r, dump, DUMP) == LFSCK_OK);
    check("it fills these rows", is_whole(&r));
    check("it may end", end(&r) == LFSCK_OK);
    check("no line is named", r.out[0] == MARK && r.out[1] == MARK);
    check("the tables pass the check",
          lfsck_check(r.parents, sizeof r.parents, r.objects, sizeof r.objects, p, 0, 0,
                      LFSCK_STAGE_END, 0, 0) == LFSCK_OK);
}

/* Every cut in two pieces, and single bytes. */
static void test_cuts(void)
{
    struct reading single = begun();
    int whole = 1;
    int good = 1;

    for (size_t at = 0; at <= DUMP; at++) {
        struct reading r = begun();

        good = good && feed(&r, dump, at) == LFSCK_OK;
        good = good && feed(&r, dump + at, DUMP - at) == LFSCK_OK;
        good = good && end(&r) == LFSCK_OK;
        whole = whole && is_whole(&r);
    }
    check("two pieces are taken in", good);
    check("two pieces give the same, wherever they are cut", whole);
    for (size_t at = 0; at < DUMP; at++)
        good = good && feed(&single, dump + at, 1) == LFSCK_OK;
    check("single bytes are taken in", good && end(&single) == LFSCK_OK);
    check("single bytes give the same", is_whole(&single));
}

/* Nothing of an entry stands in a table before its closing line. */
static void test_open(void)
{
    struct reading r = begun();
    struct reading before = r;

    check("an open entry", feed(&r, dump, FIRST - 1) == LFSCK_OK);
    check("no row is filled yet",
          memcmp(r.parents, before.parents, sizeof r.parents) == 0 &&
              memcmp(r.objects, before.objects, sizeof r.objects) == 0);
    check("it may not end here", end(&r) == LFSCK_BAD_DUMP && r.out[0] == 1);
    check("but it goes on", feed(&r, dump + FIRST - 1, DUMP - FIRST + 1) == LFSCK_OK);
    check("to the same rows", is_whole(&r));
}

/* A bad line: its number and place, the same with every further call. */
static void test_fault(const char *name, const char *text, uint32_t number, uint64_t line)
{
    struct reading r = begun();
    struct reading after;
    int again;

    check(name,
          feed_all(&r, text, strlen(text)) == number && r.out[0] == line && r.out[1] == MARK);
    after = r;
    again = feed(&r, "", 0) == number && feed(&r, dump, DUMP) == number && end(&r) == number;
    check("and again, with nothing changed", again && same(&r, &after));
}

/* A dump that ends too soon. */
static void test_cut_off(const char *name, const char *text, uint64_t line)
{
    struct reading r = begun();

    check(name, feed(&r, text, strlen(text)) == LFSCK_OK && r.out[0] == MARK &&
                    end(&r) == LFSCK_BAD_DUMP && r.out[0] == line && r.out[1] == MARK);
}

#define LMA "trusted.lma=0x000000000000000001040000020000000100000000000000\n"
#define LOV "trusted.lov=0x\n"
#define FID "trusted.fid=0x01040000020000000100000000000000\n"

/* A layout as long as the room fills the row to its end. */
static void test_full_room(const char *zeros, char *text)
{
    struct reading r = begun();
    struct reading before = r;
    uint8_t *row = before.parents;

    sprintf(text, "# file: a\n" LMA "trusted.lov=0x%s\n\n", zeros);
    check("a layout as long as the room", feed_all(&r, text, strlen(text)) == LFSCK_OK);
    memset(row + PARENT_LAYOUT, 0, LFSCK_LAYOUT_BYTES);
    check("it fills the room",
          r.parents[PARENT_LENGTH] == LFSCK_LAYOUT_BYTES % 256 &&
              r.parents[PARENT_LENGTH + 1] == LFSCK_LAYOUT_BYTES / 256 &&
              memcmp(r.parents + PARENT_LAYOUT, row + PARENT_LAYOUT, LFSCK_LAYOUT_BYTES) == 0);
    check("the next row stays", memcmp(r.parents + LFSCK_PARENT_BYTES, row + LFSCK_PARENT_BYTES,
                                       LFSCK_PARENT_BYTES) == 0);
}

static void test_faults(void)
{
    static char zeros[2 * (LFSCK_LAYOUT_BYTES + 1) + 1];
    static char text[sizeof zeros + 256];

    test_fault("an empty line outside an entry", "\n", LFSCK_BAD_DUMP, 1);
    test_fault("a line of another name space", "# file: a\nuser.x=0x00\n", LFSCK_BAD_DUMP, 2);
    test_fault("an odd digit", "# file: a\ntrusted.lov=0x0\n", LFSCK_BAD_DUMP, 2);
    test_fault("a bad length", "# file: a\ntrusted.fid=0x00\n", LFSCK_BAD_DUMP, 2);
    test_fault("an attribute twice", "# file: a\n" LOV LOV, LFSCK_ATTR_TWICE, 3);
    test_fault("no self FID", "# file: a\n" LOV "\n", LFSCK_NO_SELF, 3);
    test_fault("neither kind", "# file: a\n" LMA "\n", LFSCK_NO_KIND, 3);
    test_fault("both kinds", "# file: a\n" LMA LOV FID "\n", LFSCK_NO_KIND, 5);
    test_fault("no owners line",
               "# file: a\n" LMA LOV "\n# file: b\n" LMA FID "\n# file: c\n" LMA LOV "\n",
               LFSCK_BAD_DUMP, 12);
    memset(zeros, '0', sizeof zeros - 1);
    sprintf(text, "# file: a\n" LMA "trusted.lov=0x%s\n\n", zeros);
    test_fault("a layout that is too long", text, LFSCK_NO_FIT, 4);
    test_full_room(zeros + 2, text);
    test_cut_off("an entry that is not closed", "# file: a\n" LOV, 1);
    test_cut_off("a line that has not ended", "# file", 1);
}

/* Used rows stand, and the first unused one is filled. */
static void test_used(void)
{
    struct input in = sound();
    struct input before = in;
    struct reading r = begun();
    uint32_t answer = lfsck_intake_feed(r.state, LFSCK_INTAKE_STATE, (const uint8_t *)dump, DUMP,
                                        (const uint8_t *)owners, OWNERS, in.parents,
                                        in.parents_bytes, in.objects, in.objects_bytes, r.out, 2);

    check("into tables with used rows", answer == LFSCK_OK);
    check("the used rows stand",
          memcmp(in.parents, before.parents, LFSCK_PARENT_BYTES) == 0 &&
              memcmp(in.objects + LFSCK_OBJECT_BYTES, before.objects + LFSCK_OBJECT_BYTES,
                     LFSCK_OBJECT_BYTES) == 0);
    check("the unused ones are filled",
          in.parents[LFSCK_PARENT_BYTES] == 1 && in.objects[0] == 1 &&
              in.objects[OBJECT_FRESH] == 0);
    check("a FID that stands twice is left to the check",
          lfsck_check(in.parents, in.parents_bytes, in.objects, in.objects_bytes, in.reserve, 0, 0,
                      LFSCK_STAGE_END, 0, 0) == LFSCK_FID_TWICE);
}

/* A row that doesn't fit: as many entries as owners, and fewer rows. */
static void test_no_row(void)
{
    struct reading r = begun();

    r.parents[0] = r.parents[LFSCK_PARENT_BYTES] = 1;
    check("no unused row", feed(&r, dump, DUMP) == LFSCK_NO_FIT && r.out[0] == 5);
    check("nothing is filled then", r.objects[0] == 0);
}

/* Refusals of what is lent, after which reading goes on. */
static void test_refusals(void)
{
    static const uint8_t zeros[LFSCK_PIECE_MAX + 1];
    struct reading r = begun();
    struct reading before;
    const uint8_t *whole = (const uint8_t *)owners;
    uint8_t full[LFSCK_INTAKE_STATE];
    int refused;

    memset(full, 255, sizeof full);
    feed(&r, dump, FIRST);
    before = r;
    refused = feed(&r, (const char *)zeros, sizeof zeros) == LFSCK_BAD_TABLE;
    refused = refused && lfsck_intake_feed(r.state, LFSCK_INTAKE_STATE, zeros, 0, whole, OWNERS,
                                           r.parents, LFSCK_PARENT_BYTES - 1, r.objects, 0, r.out,
                                           2) == LFSCK_BAD_TABLE;
    check("a piece that is too long, and a table that is none", refused);
    refused = lfsck_intake_feed(r.state, LFSCK_INTAKE_STATE + 1, zeros, 0, whole, OWNERS,
                                r.parents, 0, r.objects, 0, r.out, 2) == LFSCK_NO_POSITION;
    refused = refused && lfsck_intake_end(r.state, LFSCK_INTAKE_STATE - 1, r.out, 2) ==
                             LFSCK_NO_POSITION;
    check("a state of another length", refused);
    refused = lfsck_intake_end(full, LFSCK_INTAKE_STATE, r.out, 2) == LFSCK_NO_POSITION;
    check("a state that is none", refused);
    refused = lfsck_intake_feed(r.state, LFSCK_INTAKE_STATE, zeros, 0, whole, 10, r.parents, 0,
                                r.objects, 0, r.out, 2) == LFSCK_NO_POSITION;
    check("owners that are shorter than what was taken", refused);
    refused = lfsck_intake_feed(r.state, LFSCK_INTAKE_STATE, zeros, 0, whole, OWNERS, r.parents, 0,
                                r.objects, 0, r.out, 0) == LFSCK_NO_ROOM;
    refused = refused && lfsck_intake_end(r.state, LFSCK_INTAKE_STATE, r.out, 0) == LFSCK_NO_ROOM;
    check("no place for the line", refused);
    check("nothing is changed then", same(&r, &before));
    check("and reading goes on", feed(&r, dump + FIRST, DUMP - FIRST) == LFSCK_OK);
    check("to the same rows", is_whole(&r) && end(&r) == LFSCK_OK);
}

int main(void)
{
    test_whole();
    test_cuts();
    test_open();
    test_faults();
    test_used();
    test_no_row();
    test_refusals();
    return report_all();
}
