/* The namespace check called from C, on a few entries and children. */
#include <string.h>

#include "lfsck_layout.h"
#include "report.h"

/* Where the fields of a row stand. */
enum {
    ENTRY_PARENT = 0,
    ENTRY_CHILD = 16,
    ENTRY_FID = 20,
    ENTRY_LENGTH = 36,
    ENTRY_TEXT = 38,
    CHILD_SELF = 0,
    CHILD_UP = 16,
    CHILD_LENGTH = 32,
    CHILD_LINK = 34
};

static const uint8_t root[16] = {0x07, 0, 0, 0, 0x02, 0, 0, 0, 1};
/* D = [0x200000401:1:0], F = [0x200000401:2:0] and G = [0x200000401:3:0]. */
static const uint8_t d[16] = {0x01, 0x04, 0, 0, 0x02, 0, 0, 0, 1};
static const uint8_t f[16] = {0x01, 0x04, 0, 0, 0x02, 0, 0, 0, 2};
static const uint8_t g[16] = {0x01, 0x04, 0, 0, 0x02, 0, 0, 0, 3};
static const uint8_t none[16];

#define MARK UINT64_C(0xabababababababab)

enum { ENTRIES = 3, CHILDREN = 3, WORKING = LFSCK_WORKING_BYTES * (ENTRIES + CHILDREN) };

/* What a call is lent; marks, out and report have a number more than is needed. */
struct names {
    uint8_t entries[ENTRIES * LFSCK_ENTRY_BYTES];
    uint8_t children[CHILDREN * LFSCK_CHILD_BYTES];
    size_t entries_bytes;
    size_t children_bytes;
    size_t index_bytes;
    size_t room_bytes;
    uint64_t marks[CHILDREN + 1];
    uint64_t out[ENTRIES * LFSCK_FINDING_NUMBERS + 1];
    uint64_t report[LFSCK_MENDED_NUMBERS + 1];
    size_t marks_count;
    size_t out_count;
    size_t report_count;
};

static uint8_t index_bytes[WORKING];
static uint8_t room_bytes[WORKING];

static uint8_t *entry(struct names *n, size_t row)
{
    return n->entries + row * LFSCK_ENTRY_BYTES;
}

static uint8_t *child(struct names *n, size_t row)
{
    return n->children + row * LFSCK_CHILD_BYTES;
}

static void set_entry(struct names *n, size_t row, const uint8_t *parent, uint8_t at,
                      const uint8_t *fid, const char *name)
{
    uint8_t *to = entry(n, row);

    memcpy(to + ENTRY_PARENT, parent, 16);
    memset(to + ENTRY_CHILD, 0, 4);
    to[ENTRY_CHILD] = at;
    memcpy(to + ENTRY_FID, fid, 16);
    to[ENTRY_LENGTH] = (uint8_t)strlen(name);
    to[ENTRY_LENGTH + 1] = 0;
    memcpy(to + ENTRY_TEXT, name, strlen(name));
}

static void set_child(struct names *n, size_t row, const uint8_t *self, const uint8_t *up)
{
    uint8_t *to = child(n, row);

    memcpy(to + CHILD_SELF, self, 16);
    memcpy(to + CHILD_UP, up, 16);
    memset(to + CHILD_LENGTH, 0, 2);
}

/* Gives a child a linkEA of records in ROOT, with one-letter names. */
static void set_link(struct names *n, size_t row, const char *letters, uint8_t time)
{
    uint8_t *to = child(n, row) + CHILD_LINK;
    size_t count = strlen(letters);
    size_t total = LFSCK_LINK_HEADER + count * (LFSCK_RECORD_BEFORE + 1);
    static const uint8_t head[8] = {0xdf, 0xf1, 0xea, 0x11};
    static const uint8_t before[LFSCK_RECORD_BEFORE] = {0, 19, 0, 0, 0, 2, 0, 0, 0, 7, 0, 0, 0, 1};

    memset(to, 0, LFSCK_LINK_HEADER);
    memcpy(to, head, 8);
    to[4] = (uint8_t)count;
    to[8] = (uint8_t)total;
    to[16] = time;
    for (size_t i = 0; i < count; i++) {
        uint8_t *record = to + LFSCK_LINK_HEADER + i * (LFSCK_RECORD_BEFORE + 1);

        memcpy(record, before, sizeof before);
        record[LFSCK_RECORD_BEFORE] = (uint8_t)letters[i];
    }
    child(n, row)[CHILD_LENGTH] = (uint8_t)total;
    child(n, row)[CHILD_LENGTH + 1] = 0;
}

/*
 * D in ROOT as d, hidden; F in ROOT as f, with a record too many, one twice and another FID in its
 * entry; in D an entry x of a child without self FID. All other bytes are 0xab.
 */
static struct names sample(void)
{
    struct names n;

    memset(&n, 0xab, sizeof n);
    set_child(&n, 0, d, none);
    set_child(&n, 1, f, none);
    set_child(&n, 2, none, none);
    set_link(&n, 1, "gff", 9);
    set_entry(&n, 0, root, 0, none, "d");
    set_entry(&n, 1, root, 1, g, "f");
    set_entry(&n, 2, d, 2, g, "x");
    n.entries_bytes = sizeof n.entries;
    n.children_bytes = sizeof n.children;
    n.index_bytes = n.room_bytes = WORKING;
    n.marks_count = CHILDREN + 1;
    n.out_count = ENTRIES * LFSCK_FINDING_NUMBERS + 1;
    n.report_count = LFSCK_MENDED_NUMBERS + 1;
    return n;
}

static uint32_t judge(struct names *n)
{
    return lfsck_names_judge(n->entries, n->entries_bytes, n->children, n->children_bytes,
                             index_bytes, n->index_bytes, room_bytes, n->room_bytes, n->marks,
                             n->marks_count);
}

static uint32_t find(struct names *n)
{
    return lfsck_names_find(n->entries, n->entries_bytes, n->children, n->children_bytes, n->out,
                            n->out_count);
}

static uint32_t mend(struct names *n, const uint64_t *marks, size_t count)
{
    return lfsck_names_mend(n->entries, n->entries_bytes, n->children, n->children_bytes,
                            index_bytes, n->index_bytes, room_bytes, n->room_bytes, marks, count,
                            n->report, n->report_count);
}

static uint32_t pass(struct names *n)
{
    return lfsck_names_pass(n->entries, n->entries_bytes, n->children, n->children_bytes,
                            index_bytes, n->index_bytes, room_bytes, n->room_bytes, n->marks,
                            n->marks_count, n->report, n->report_count);
}

static int same(const struct names *m, const struct names *n)
{
    return memcmp(m->entries, n->entries, sizeof m->entries) == 0 &&
           memcmp(m->children, n->children, sizeof m->children) == 0 &&
           memcmp(m->marks, n->marks, sizeof m->marks) == 0 &&
           memcmp(m->out, n->out, sizeof m->out) == 0 &&
           memcmp(m->report, n->report, sizeof m->report) == 0;
}

static int same_tables(const struct names *m, const struct names *n)
{
    return memcmp(m->entries, n->entries, sizeof m->entries) == 0 &&
           memcmp(m->children, n->children, sizeof m->children) == 0;
}

/* The numbers, and the one past them left alone. */
static int are(const uint64_t *numbers, const uint64_t *expected, size_t count)
{
    return memcmp(numbers, expected, count * sizeof *numbers) == 0 && numbers[count] == MARK;
}

static void test_judge(void)
{
    struct names n = sample();
    static const uint64_t hidden[CHILDREN] = {LFSCK_MARK_HIDDEN, LFSCK_MARK_VISIBLE,
                                              LFSCK_MARK_NO_FID};

    check("directories are judged", judge(&n) == LFSCK_OK);
    check("without linkEA hidden, with one visible, without self FID none",
          are(n.marks, hidden, CHILDREN));
    memcpy(child(&n, 0) + CHILD_UP, root, 16);
    check("under ROOT visible", judge(&n) == LFSCK_OK && n.marks[0] == LFSCK_MARK_VISIBLE);
    memcpy(child(&n, 0) + CHILD_UP, f, 16);
    check("under a linkEA visible", judge(&n) == LFSCK_OK && n.marks[0] == LFSCK_MARK_VISIBLE);
    memcpy(child(&n, 0) + CHILD_UP, g, 16);
    check("outside hidden", judge(&n) == LFSCK_OK && n.marks[0] == LFSCK_MARK_HIDDEN);
    memcpy(child(&n, 0) + CHILD_UP, d, 16);
    check("in a circle refused", judge(&n) == LFSCK_LONG_CLIMB);
    check("and in a pass", pass(&n) == LFSCK_LONG_CLIMB);
}

static void test_find(void)
{
    struct names n = sample();
    static const uint64_t found[ENTRIES * LFSCK_FINDING_NUMBERS] = {
        LFSCK_FID_NO_DIRENT, LFSCK_RECORD_MISSING, LFSCK_FID_DIFFERS,
        LFSCK_RECORD_CONSISTENT, LFSCK_FID_NO_SELF, LFSCK_RECORD_MISSING,
    };

    check("findings are told", find(&n) == LFSCK_OK);
    check("of each entry, a hidden directory's too",
          are(n.out, found, ENTRIES * LFSCK_FINDING_NUMBERS));
    memcpy(entry(&n, 1) + ENTRY_FID, f, 16);
    memset(entry(&n, 2) + ENTRY_FID, 0, 16);
    check("consistent, and neither", find(&n) == LFSCK_OK && n.out[2] == LFSCK_FID_CONSISTENT &&
                                         n.out[4] == LFSCK_FID_NEITHER);
}

/* The sample after a pass. */
static struct names mended(void)
{
    struct names n = sample();

    set_link(&n, 0, "d", 0);
    memset(child(&n, 0) + CHILD_LINK + 43, 0, LFSCK_LINK_ROOM - 43);
    set_link(&n, 1, "f", 9);
    memset(child(&n, 1) + CHILD_LINK + 43, 0, LFSCK_LINK_ROOM - 43);
    memcpy(entry(&n, 0) + ENTRY_FID, d, 16);
    memcpy(entry(&n, 1) + ENTRY_FID, f, 16);
    return n;
}

static void test_pass(void)
{
    struct names n = sample();
    struct names after = mended();
    struct names again;
    static const uint64_t first[LFSCK_MENDED_NUMBERS] = {0, 2, 1, 2, ENTRIES};
    static const uint64_t second[LFSCK_MENDED_NUMBERS] = {0, 0, 0, 0, ENTRIES};
    uint64_t marks[CHILDREN];

    check("a pass", pass(&n) == LFSCK_OK);
    check("its report", are(n.report, first, LFSCK_MENDED_NUMBERS));
    check("its tables, the room past a changed linkEA zero", same_tables(&n, &after));
    memcpy(marks, n.marks, sizeof marks);
    check("its marks", marks[0] == LFSCK_MARK_HIDDEN && marks[1] == LFSCK_MARK_VISIBLE &&
                           marks[2] == LFSCK_MARK_NO_FID && n.marks[CHILDREN] == MARK);
    again = n;
    check("a second one under its marks", mend(&again, marks, CHILDREN) == LFSCK_OK);
    check("changes nothing",
          same_tables(&again, &n) && are(again.report, second, LFSCK_MENDED_NUMBERS));
    again = sample();
    check("mending under the marks is the same",
          mend(&again, marks, CHILDREN) == LFSCK_OK && same_tables(&again, &after));
}

/* A self FID is taken from the entry once its directory is visible. */
static void test_taken(void)
{
    struct names n = sample();
    static const uint64_t report[LFSCK_MENDED_NUMBERS] = {1, 2, 2, 2, ENTRIES};

    memcpy(child(&n, 0) + CHILD_UP, root, 16);
    check("with D visible", pass(&n) == LFSCK_OK && are(n.report, report, LFSCK_MENDED_NUMBERS));
    check("the self FID is taken", memcmp(child(&n, 2) + CHILD_SELF, g, 16) == 0);
    check("the mark says that it was none", n.marks[2] == LFSCK_MARK_NO_FID);
}

/* Fills the linkEA of F so that so many bytes are left. */
static void fill(struct names *n, size_t left)
{
    uint8_t *link = child(n, 1) + CHILD_LINK;
    size_t total = LFSCK_LINK_ROOM - left;
    size_t length = total - LFSCK_LINK_HEADER;

    set_link(n, 1, "g", 9);
    link[LFSCK_LINK_HEADER] = (uint8_t)(length >> 8);
    link[LFSCK_LINK_HEADER + 1] = (uint8_t)length;
    memset(link + LFSCK_LINK_HEADER + LFSCK_RECORD_BEFORE, 'g', length - LFSCK_RECORD_BEFORE);
    for (size_t i = 0; i < 2; i++)
        child(n, 1)[CHILD_LENGTH + i] = link[8 + i] = (uint8_t)(total >> 8 * i);
}

static void test_full(void)
{
    struct names n = sample();
    struct names before;
    static const uint64_t report[LFSCK_MENDED_NUMBERS] = {0, 2, 1, 0, 1};
    size_t length = LFSCK_RECORD_BEFORE + 1;

    fill(&n, length - 1);
    before = n;
    check("a record outgrows the room", pass(&n) == LFSCK_LINK_FULL);
    check("the report tells in front of which entry", are(n.report, report, LFSCK_MENDED_NUMBERS));
    check("the marks are handed out", n.marks[1] == LFSCK_MARK_VISIBLE);
    check("its child stays",
          memcmp(child(&n, 1), child(&before, 1), 2 * LFSCK_CHILD_BYTES) == 0);
    check("the record before it stands", child(&n, 0)[CHILD_LENGTH] == 43);
    n = sample();
    fill(&n, length);
    check("one that just fits", pass(&n) == LFSCK_OK);
    check("is all that is left", child(&n, 1)[CHILD_LENGTH] == 43);
}

/* A refusal by all four, or by those that see it, with nothing changed. */
static void expect_refused(const char *name, struct names *n, uint32_t expected)
{
    static const uint64_t marks[CHILDREN] = {0, 1, 2};
    struct names before = *n;

    check(name, judge(n) == expected && find(n) == expected && pass(n) == expected &&
                    mend(n, marks, CHILDREN) == expected && same(n, &before));
}

static void test_refusals(void)
{
    struct names n = sample();

    n.index_bytes = n.room_bytes = n.marks_count = n.out_count = n.report_count = 0;
    expect_refused("no places", &n, LFSCK_NO_ROOM);
    child(&n, 1)[CHILD_LINK] ^= 1;
    expect_refused("31 before 17", &n, LFSCK_BAD_LINK);
    child(&n, 1)[CHILD_LINK] ^= 1;
    entry(&n, 2)[ENTRY_TEXT] = '/';
    expect_refused("a slash in a name", &n, LFSCK_BAD_LINK);
    entry(&n, 2)[ENTRY_TEXT] = 0;
    expect_refused("a zero byte in a name", &n, LFSCK_BAD_LINK);
    entry(&n, 2)[ENTRY_LENGTH] = 0;
    expect_refused("a name of no bytes", &n, LFSCK_BAD_LINK);
    entry(&n, 2)[ENTRY_LENGTH + 1] = 1;
    expect_refused("a name of 256 bytes", &n, LFSCK_BAD_LINK);
    entry(&n, 0)[ENTRY_CHILD] = CHILDREN;
    expect_refused("16 before 31", &n, LFSCK_NO_POSITION);
    n.entries_bytes--;
    expect_refused("11 before 16", &n, LFSCK_BAD_TABLE);
    n = sample();
    n.children_bytes--;
    expect_refused("children that are not whole rows", &n, LFSCK_BAD_TABLE);
}

/* Each place too few alone; 17 comes before the 39 of a circle. */
static void test_places(void)
{
    struct names n = sample();
    static const uint64_t marks[CHILDREN] = {0, 1, 2};

    memcpy(child(&n, 2) + CHILD_SELF, g, 16);
    memcpy(child(&n, 2) + CHILD_UP, g, 16);
    n.index_bytes = WORKING - 1;
    check("a short index", judge(&n) == LFSCK_NO_ROOM && pass(&n) == LFSCK_NO_ROOM &&
                               mend(&n, marks, CHILDREN) == LFSCK_NO_ROOM);
    n.index_bytes = WORKING;
    n.room_bytes = WORKING - 1;
    check("a short room", judge(&n) == LFSCK_NO_ROOM && pass(&n) == LFSCK_NO_ROOM &&
                              mend(&n, marks, CHILDREN) == LFSCK_NO_ROOM);
    n.room_bytes = WORKING;
    n.marks_count = CHILDREN - 1;
    check("short marks", judge(&n) == LFSCK_NO_ROOM && pass(&n) == LFSCK_NO_ROOM);
    n.marks_count = CHILDREN;
    n.report_count = LFSCK_MENDED_NUMBERS - 1;
    check("a short report",
          pass(&n) == LFSCK_NO_ROOM && mend(&n, marks, CHILDREN) == LFSCK_NO_ROOM);
    n.out_count = ENTRIES * LFSCK_FINDING_NUMBERS - 1;
    check("too few places for findings", find(&n) == LFSCK_NO_ROOM);
}

/* Marks that are none. */
static void test_marks(void)
{
    struct names n = sample();
    struct names before = n;
    static const uint64_t above[CHILDREN] = {0, 3, 2};
    static const uint64_t of_none[CHILDREN] = {0, 1, 1};
    static const uint64_t many[CHILDREN + 1] = {0, 1, 2, 2};

    check("a mark above 2", mend(&n, above, CHILDREN) == LFSCK_BAD_TABLE);
    check("a directory without self FID", mend(&n, of_none, CHILDREN) == LFSCK_BAD_TABLE);
    check("too few marks", mend(&n, many, CHILDREN - 1) == LFSCK_BAD_TABLE);
    check("too many marks", mend(&n, many, CHILDREN + 1) == LFSCK_BAD_TABLE);
    entry(&n, 0)[ENTRY_CHILD] = CHILDREN;
    check("before 16", mend(&n, above, CHILDREN) == LFSCK_BAD_TABLE);
    entry(&n, 0)[ENTRY_CHILD] = 0;
    check("nothing is changed then", same(&n, &before));
}

static void test_no_rows(void)
{
    struct names n = sample();

    n.entries_bytes = n.children_bytes = n.index_bytes = n.room_bytes = 0;
    n.marks_count = n.out_count = 0;
    check("no rows", judge(&n) == LFSCK_OK && find(&n) == LFSCK_OK && pass(&n) == LFSCK_OK &&
                         n.report[LFSCK_MENDED_STOPPED] == 0 && n.marks[0] == MARK);
}

int main(void)
{
    test_judge();
    test_find();
    test_pass();
    test_taken();
    test_full();
    test_refusals();
    test_places();
    test_marks();
    test_no_rows();
    return report_all();
}
