/* The linkEA functions called from C, on a linkEA of three records. */
#include <string.h>

#include "lfsck_layout.h"
#include "report.h"

#define BYTES 83

/* Three names: a in ROOT, bc in a directory, and .. in one whose FID shows each byte. */
static const uint8_t three[BYTES] = {
    0xdf, 0xf1, 0xea, 0x11, 0x03, 0x00, 0x00, 0x00,
    0x53, 0x00, 0x00, 0x00, 0x00, 0x00, 0x00, 0x00,
    0x78, 0x56, 0x34, 0x12, 0x01, 0x02, 0x03, 0x04,
    /* at 24 */
    0x00, 0x13,
    0x00, 0x00, 0x00, 0x02, 0x00, 0x00, 0x00, 0x07,
    0x00, 0x00, 0x00, 0x01, 0x00, 0x00, 0x00, 0x00,
    0x61,
    /* at 43 */
    0x00, 0x14,
    0x00, 0x00, 0x00, 0x02, 0x00, 0x00, 0x04, 0x01,
    0x00, 0x00, 0x00, 0x0a, 0x00, 0x00, 0x00, 0x05,
    0x62, 0x63,
    /* at 63 */
    0x00, 0x14,
    0x01, 0x23, 0x45, 0x67, 0x89, 0xab, 0xcd, 0xef,
    0x01, 0x02, 0x03, 0x04, 0x05, 0x06, 0x07, 0x08,
    0x2e, 0x2e,
};

/* The same in numbers. */
static const uint64_t fields[4] = {3, 83, 0x12345678, 0x04030201};
static const uint64_t records[3][6] = {
    {0x200000007, 1, 0, 42, 1, 43},
    {0x200000401, 10, 5, 61, 2, 63},
    {0x0123456789abcdef, 0x01020304, 0x05060708, 81, 2, 83},
};
static const uint64_t written[15] = {
    0x200000007, 1, 0, 42, 1,
    0x200000401, 10, 5, 61, 2,
    0x0123456789abcdef, 0x01020304, 0x05060708, 81, 2,
};

/* A header alone. */
static const uint8_t none[24] = {
    0xdf, 0xf1, 0xea, 0x11, 0x00, 0x00, 0x00, 0x00,
    0x18, 0x00, 0x00, 0x00, 0x00, 0x00, 0x00, 0x00,
    0xff, 0xff, 0xff, 0xff, 0xff, 0xff, 0xff, 0xff,
};
static const uint64_t none_fields[4] = {0, 24, 0xffffffff, 0xffffffff};

/* A value that no call hands out here. */
#define MARK UINT64_C(0xabababababababab)

static int all_marked(const uint64_t *numbers, size_t count)
{
    for (size_t i = 0; i < count; i++)
        if (numbers[i] != MARK)
            return 0;
    return 1;
}

static void mark(uint64_t *numbers, size_t count)
{
    for (size_t i = 0; i < count; i++)
        numbers[i] = MARK;
}

static int all_are(uint8_t value, const uint8_t *bytes, size_t count)
{
    for (size_t i = 0; i < count; i++)
        if (bytes[i] != value)
            return 0;
    return 1;
}

static void test_read(void)
{
    uint64_t out[5];

    mark(out, 5);
    check("three records are read", lfsck_link_read(three, BYTES, out, 5) == LFSCK_OK);
    check("their header", memcmp(out, fields, sizeof fields) == 0);
    check("the rest of a longer array stays", out[4] == MARK);
    check("no records are read", lfsck_link_read(none, 24, out, 4) == LFSCK_OK);
    check("the header alone", memcmp(out, none_fields, sizeof none_fields) == 0);

    mark(out, 5);
    check("too few fields", lfsck_link_read(three, BYTES, out, 3) == LFSCK_NO_ROOM);
    check("no fields", lfsck_link_read(three, BYTES, out, 0) == LFSCK_NO_ROOM);
    check("nothing is written then", all_marked(out, 5));
}

/* From the first record each next place leads to the one after it, and the last to the end. */
static void test_walk(void)
{
    uint64_t place = LFSCK_LINK_HEADER;
    uint64_t out[7];
    size_t count = 0;
    int same = 1;

    mark(out, 7);
    while (count < 4 && lfsck_link_record(three, BYTES, place, out, 7) == LFSCK_OK) {
        same = same && count < 3 && memcmp(out, records[count], sizeof records[count]) == 0;
        place = out[5];
        count++;
    }
    check("as many records as the header counts", count == fields[0]);
    check("each as it stands there", same);
    check("the last next place is the total", place == fields[1]);
    check("the number after a record stays", out[6] == MARK);
    check("the name is a part of the linkEA",
          out[3] == 81 && out[4] == 2 && memcmp(three + out[3], "..", 2) == 0);
}

static void test_places(void)
{
    uint64_t out[6];
    int refused = 1;

    mark(out, 6);
    for (uint64_t place = 0; place <= 90; place++)
        if (place != 24 && place != 43 && place != 63)
            refused = refused && lfsck_link_record(three, BYTES, place, out, 6) == LFSCK_NO_POSITION;
    check("no other place has a record", refused);
    check("the end has none", lfsck_link_record(three, BYTES, 83, out, 6) == LFSCK_NO_POSITION);
    check("a place far past it", lfsck_link_record(three, BYTES, UINT64_MAX, out, 6) == LFSCK_NO_POSITION);
    check("a place 2^32 past one",
          lfsck_link_record(three, BYTES, (UINT64_C(1) << 32) + 24, out, 6) == LFSCK_NO_POSITION);
    check("the first place of no records", lfsck_link_record(none, 24, 24, out, 6) == LFSCK_NO_POSITION);
    check("16 before 17", lfsck_link_record(three, BYTES, 25, out, 5) == LFSCK_NO_POSITION);
    check("too few numbers", lfsck_link_record(three, BYTES, 24, out, 5) == LFSCK_NO_ROOM);
    check("a refused record hands nothing out", all_marked(out, 6));
}

/* Both readers refuse these bytes with 31, before 16 and 17, and hand nothing out. */
static void check_bad(const char *name, const uint8_t *bytes, size_t length)
{
    uint64_t out[6];
    int refused;

    mark(out, 6);
    refused = lfsck_link_read(bytes, length, out, 6) == LFSCK_BAD_LINK
        && lfsck_link_read(bytes, length, out, 3) == LFSCK_BAD_LINK
        && lfsck_link_record(bytes, length, 24, out, 6) == LFSCK_BAD_LINK
        && lfsck_link_record(bytes, length, 0, out, 6) == LFSCK_BAD_LINK
        && lfsck_link_record(bytes, length, 25, out, 5) == LFSCK_BAD_LINK;
    check(name, refused && all_marked(out, 6));
}

/* The three records with one byte changed. */
static void check_byte(const char *name, size_t at, uint8_t value)
{
    uint8_t bytes[BYTES];

    memcpy(bytes, three, BYTES);
    bytes[at] = value;
    check_bad(name, bytes, BYTES);
}

/* Bytes cut off or added, also where the header says as much. */
static void test_bad_lengths(void)
{
    uint8_t bytes[BYTES + 2] = {0};

    memcpy(bytes, three, BYTES);
    check_bad("no bytes", bytes, 0);
    check_bad("a byte less", bytes, BYTES - 1);
    check_bad("a byte more", bytes, BYTES + 1);
    check_bad("cut after a record", bytes, 63);
    bytes[8] = BYTES + 1;
    check_bad("a byte more that the total counts", bytes, BYTES + 1);
    bytes[8] = BYTES + 2;
    bytes[BYTES] = 0xff;
    check_bad("a length more that the total counts", bytes, BYTES + 2);
    memcpy(bytes, none, 24);
    bytes[8] = 23;
    check_bad("a header of 23 bytes", bytes, 23);
    bytes[8] = 25;
    bytes[4] = 1;
    bytes[24] = 0;
    check_bad("half of a record's length", bytes, 25);

    memcpy(bytes, three, 42);
    bytes[4] = 1;
    bytes[8] = 42;
    bytes[25] = 18;
    check_bad("a record of 18 bytes, without a name", bytes, 42);
}

static void test_bad_bytes(void)
{
    check_byte("another magic", 0, 0xde);
    check_byte("another magic in its last byte", 3, 0x10);
    check_byte("a count too small", 4, 2);
    check_byte("a count too large", 4, 4);
    check_byte("a count too large by 2^24", 7, 1);
    check_byte("a total too small", 8, 0x52);
    check_byte("a total too large", 8, 0x54);
    check_byte("a total too large by 2^32", 12, 1);
    check_byte("a total too large by 2^56", 15, 1);
    check_byte("a record of 18 bytes", 64, 18);
    check_byte("a record of no bytes", 64, 0);
    check_byte("a record past the end", 64, 21);
    check_byte("a record 256 bytes past the end", 63, 1);
    check_byte("a record that ends within the next", 44, 21);
    check_byte("a slash as a name", 42, '/');
    check_byte("a slash at the end of a name", 82, '/');
    check_byte("a zero byte in a name", 61, 0);
}

/* FIDs, time and padding may be anything. */
static void test_any_bytes(void)
{
    static const size_t anything[] = {16, 19, 20, 23, 26, 33, 34, 37, 38, 41};
    uint64_t out[6];
    int good = 1;

    for (size_t i = 0; i < sizeof anything / sizeof *anything; i++) {
        uint8_t bytes[BYTES];
        memcpy(bytes, three, BYTES);
        bytes[anything[i]] = 0xff;
        good = good && lfsck_link_read(bytes, BYTES, out, 4) == LFSCK_OK
            && lfsck_link_record(bytes, BYTES, 24, out, 6) == LFSCK_OK;
    }
    check("any time, padding and FID", good);
}

/* A destination and a place for the length, each with what is to stay. */
static uint8_t to[BYTES + 5];
static uint8_t untouched[BYTES + 5];
static uint64_t length[2];

static void clear(void)
{
    memset(to, 0xab, sizeof to);
    memset(untouched, 0xab, sizeof untouched);
    mark(length, 2);
}

static int nothing_written(void)
{
    return memcmp(to, untouched, sizeof to) == 0 && all_marked(length, 2);
}

static void test_write(void)
{
    clear();
    check("no room", lfsck_link_write(fields, 4, written, 15, three, BYTES, to, 82, length, 2) == LFSCK_NO_ROOM);
    check("no place for the length",
          lfsck_link_write(fields, 4, written, 15, three, BYTES, to, 88, length, 0) == LFSCK_NO_ROOM);
    check("nothing is written without room", nothing_written());

    check("what was read is written",
          lfsck_link_write(fields, 4, written, 15, three, BYTES, to, 88, length, 2) == LFSCK_OK);
    check("the same bytes", memcmp(to, three, BYTES) == 0);
    check("their length", length[0] == BYTES && length[1] == MARK);
    check("bytes past them stay", memcmp(to + BYTES, untouched, 5) == 0);

    clear();
    check("an exact destination",
          lfsck_link_write(fields, 4, written, 15, three, BYTES, to, 83, length, 1) == LFSCK_OK);
    check("the same bytes there", memcmp(to, three, BYTES) == 0);

    clear();
    check("no records are written",
          lfsck_link_write(none_fields, 4, written, 0, three, 0, to, 88, length, 2) == LFSCK_OK);
    check("a header alone", memcmp(to, none, 24) == 0 && length[0] == 24);
    check("bytes past it stay", memcmp(to + 24, untouched, 64) == 0);
}

/* The writer refuses with 31, before 17, and writes nothing. */
static void check_bad_write(const char *name, const uint64_t *header, size_t header_count,
                            const uint64_t *numbers, size_t count,
                            const uint8_t *names, size_t names_bytes)
{
    int refused;

    clear();
    refused = lfsck_link_write(header, header_count, numbers, count, names, names_bytes,
                               to, 88, length, 2) == LFSCK_BAD_LINK
        && lfsck_link_write(header, header_count, numbers, count, names, names_bytes,
                            to, 20, length, 0) == LFSCK_BAD_LINK;
    check(name, refused && nothing_written());
}

static void check_field(const char *name, size_t at, uint64_t value)
{
    uint64_t header[4];

    memcpy(header, fields, sizeof fields);
    header[at] = value;
    check_bad_write(name, header, 4, written, 15, three, BYTES);
}

/* Another number in the second record, and the total that its name would give. */
static void check_number(const char *name, size_t at, uint64_t value)
{
    uint64_t header[4], numbers[15];

    memcpy(header, fields, sizeof fields);
    memcpy(numbers, written, sizeof written);
    numbers[5 + at] = value;
    header[1] = 81 + numbers[9];
    check_bad_write(name, header, 4, numbers, 15, three, BYTES);
}

static void test_bad_numbers(void)
{
    const uint64_t wide = UINT64_C(1) << 32;
    uint64_t five[5] = {3, 83, 0x12345678, 0x04030201, 0};
    uint64_t sixteen[16] = {0};

    memcpy(sixteen, written, sizeof written);
    check_bad_write("three fields", fields, 3, written, 15, three, BYTES);
    check_bad_write("five fields", five, 5, written, 15, three, BYTES);
    check_bad_write("a number of a record missing", fields, 4, written, 14, three, BYTES);
    check_bad_write("a number too many", fields, 4, sixteen, 16, three, BYTES);
    check_bad_write("a record missing", fields, 4, written, 10, three, BYTES);
    check_field("a count too small to write", 0, 2);
    check_field("a count too large to write", 0, 4);
    check_field("a count 2^32 too large", 0, wide + 3);
    check_field("a total too small to write", 1, 82);
    check_field("a total too large to write", 1, 84);
    check_field("a total 2^32 too large", 1, wide + 83);
    check_field("a time too wide", 2, wide);
    check_field("a padding too wide", 3, wide);
    check_number("an id too wide", 1, wide);
    check_number("a version too wide", 2, wide);
    check_number("a name that ends past the names", 3, 82);
    check_number("a name that starts past the names", 3, 84);
    check_number("a name whose end is past 64 bits", 3, UINT64_MAX);
    check_number("a name as long as all numbers", 4, UINT64_MAX);
    check_number("an empty name", 4, 0);
}

static void test_long_names(void)
{
    static uint8_t names[65518];
    static uint8_t room[65600];
    uint64_t header[4] = {1, 42 + 65518, 0, 0};
    uint64_t record[5] = {0, 0, 0, 0, 65518};

    memset(names, 'n', sizeof names);
    memset(room, 0xab, sizeof room);
    clear();
    check("a name of 65,518 bytes",
          lfsck_link_write(header, 4, record, 5, names, sizeof names, room, sizeof room, length, 2)
              == LFSCK_BAD_LINK);
    check("it is not written", all_marked(length, 2) && all_are(0xab, room, sizeof room));
    header[1] = 42 + 65517;
    record[3] = 1;
    record[4] = LFSCK_NAME_BYTES;
    check("a name of 65,517 bytes",
          lfsck_link_write(header, 4, record, 5, names, sizeof names, room, sizeof room, length, 2)
              == LFSCK_OK);
    check("its record is as long as can be", room[24] == 0xff && room[25] == 0xff && length[0] == 65559);
    check("it is read again", lfsck_link_read(room, 65559, header, 4) == LFSCK_OK);
}

static void test_bad_names(void)
{
    uint8_t names[20];
    const uint64_t header[4] = {1, 44, 0, 0};
    const uint64_t record[5] = {0, 0, 0, 7, 2};

    memset(names, 'n', sizeof names);
    names[8] = '/';
    check_bad_write("a name with a slash", header, 4, record, 5, names, 20);
    names[8] = 0;
    check_bad_write("a name with a zero byte", header, 4, record, 5, names, 20);
    names[8] = '.';
    names[9] = '/';
    check("a slash behind a name",
          lfsck_link_write(header, 4, record, 5, names, 20, to, 88, length, 1) == LFSCK_OK);
}

int main(void)
{
    test_read();
    test_walk();
    test_places();
    test_bad_lengths();
    test_bad_bytes();
    test_any_bytes();
    test_write();
    test_bad_numbers();
    test_long_names();
    test_bad_names();
    return report_all();
}
