/* The deepest stack of the namespace check: a climb of the most levels is a recursion. */
#define _POSIX_C_SOURCE 200809L
#include <pthread.h>
#include <stdlib.h>
#include <string.h>

#include "lfsck_layout.h"
#include "report.h"

enum {
    ROWS = LFSCK_LEVELS_MAX + 1, /* the last of them is the end of the climb */
    STACK = 16 * 1024 * 1024,
    PATTERN = 0xa5,
    MOST = 1024 * 1024 /* what the header says they take */
};

static uint8_t *children;
static uint8_t *working[2];
static uint64_t marks[ROWS];
static uint64_t report[LFSCK_MENDED_NUMBERS];
static uint32_t answer;

/* A good entry row, whose child is row 0: the name "n" in a directory that is not there. */
static uint8_t entry[LFSCK_ENTRY_BYTES];

static void set_fid(uint8_t *to, uint32_t id)
{
    static const uint8_t sequence[8] = {0x01, 0x04, 0, 0, 0x02};
    size_t i;

    memcpy(to, sequence, 8);
    for (i = 0; i < 4; i++)
        to[8 + i] = (uint8_t)(id >> (8 * i));
}

/* Row i is a directory in row i + 1, up to the last, which has no `..`. */
static void set_rows(void)
{
    uint32_t i;

    for (i = 0; i < ROWS; i++) {
        set_fid(children + (size_t)i * LFSCK_CHILD_BYTES, i + 1);
        if (i + 1 < ROWS)
            set_fid(children + (size_t)i * LFSCK_CHILD_BYTES + 16, i + 2);
    }
}

static void *nothing(void *unused)
{
    return unused;
}

static void *judge(void *unused)
{
    answer = lfsck_names_judge(entry, sizeof entry, children, (size_t)ROWS * LFSCK_CHILD_BYTES,
                               working[0], (size_t)LFSCK_WORKING_BYTES * (ROWS + 1), working[1],
                               (size_t)LFSCK_WORKING_BYTES * (ROWS + 1), marks, ROWS);
    return unused;
}

static void *pass(void *unused)
{
    answer = lfsck_names_pass(entry, sizeof entry, children, (size_t)ROWS * LFSCK_CHILD_BYTES,
                              working[0], (size_t)LFSCK_WORKING_BYTES * (ROWS + 1), working[1],
                              (size_t)LFSCK_WORKING_BYTES * (ROWS + 1), marks, ROWS, report,
                              LFSCK_MENDED_NUMBERS);
    return unused;
}

/* How many bytes of a stack of its own a thread has written. */
static size_t used_by(void *(*call)(void *))
{
    uint8_t *stack = aligned_alloc(4096, STACK);
    size_t untouched = 0;
    pthread_attr_t attributes;
    pthread_t thread;

    memset(stack, PATTERN, STACK);
    if (pthread_attr_init(&attributes) || pthread_attr_setstack(&attributes, stack, STACK) ||
        pthread_create(&thread, &attributes, call, NULL) || pthread_join(thread, NULL))
        abort();
    while (untouched < STACK && stack[untouched] == PATTERN)
        untouched++;
    free(stack);
    return STACK - untouched;
}

int main(void)
{
    size_t own, judging, passing;

    children = calloc(ROWS, LFSCK_CHILD_BYTES);
    working[0] = calloc(ROWS + 1, LFSCK_WORKING_BYTES);
    working[1] = calloc(ROWS + 1, LFSCK_WORKING_BYTES);
    entry[36] = 1;
    entry[38] = 'n';
    set_rows();
    own = used_by(nothing);
    judging = used_by(judge);
    check("a chain of the most levels is judged", answer == LFSCK_OK);
    passing = used_by(pass);
    check("and mended", answer == LFSCK_OK);
    printf("stack of a thread %zu bytes, judging %zu bytes more, a pass %zu bytes more\n", own,
           judging - own, passing - own);
    check("judging takes more than a byte a level", judging - own > LFSCK_LEVELS_MAX);
    check("judging takes no more than the header says", judging - own <= MOST);
    check("nor does a pass", passing - own <= MOST);
    return report_all();
}
