/*
 * The program of row_store.h, and tests that kill it.
 *
 *   in_place DIR POLICY  repairs DIR/parents.tbl and DIR/objects.tbl with the FIDs of
 *                        DIR/reserve.tbl
 *   in_place             tests that: kills it at every write of damaged tables, and again in the
 *                        repair after a kill; and shows what loses
 */
#define _XOPEN_SOURCE 700
#include <sys/wait.h>

#include "damaged.h"
#include "report.h"
#include "row_store.h"

enum {
    MOST_WRITES = 3, /* of a step */
    MOST_CUTS = 64,
    STRIDE = 4 /* every fourth write of the repair after a kill is killed, too */
};

/* The kinds of steps, and how many writes they have. */
enum kind {
    SELF,
    RESERVE,
    REUSE,
    DANGLING,
    BLANK,
    UNMATCHED,
    WRONG_OST,
    OWNER,
    EMPTY,
    MADE,
    FILLED,
    GROWN,
    REPLACED,
    KINDS
};

static const struct {
    const char *name;
    uint64_t least;
    uint64_t most;
} kinds[KINDS] = {
    {"SELF", 1, 1},
    {"MULTIPLE with a FID of the reserve", 2, 2},
    {"MULTIPLE with an object that waits", 1, 2},
    {"DANGLING", 1, 1},
    {"BLANK", 1, 2},
    {"UNMATCHED", 1, 2},
    {"WRONG-OST", 1, 2},
    {"OWNER", 1, 1},
    {"EMPTY", 1, 1},
    {"ORPHAN with a new file", 1, 1},
    {"ORPHAN in a hole", 1, 2},
    {"ORPHAN past the count", 1, 2},
    {"ORPHAN for a fresh object", 2, 3},
};

/* A write of the repair without a kill: which one of a step of a kind, and of how many. */
struct cut {
    enum kind kind;
    uint64_t write;
    uint64_t of;
};

static char folder[] = "/tmp/in_place.XXXXXX";
static struct content damaged, repaired, found;
static uint64_t policy;
static struct cut cuts[MOST_CUTS];
static unsigned long writes; /* of the repair without a kill */
static unsigned long kills[KINDS][MOST_WRITES + 1][MOST_WRITES + 1];
static unsigned long second_kills;

static size_t used_rows(const uint8_t *table, size_t bytes, size_t size)
{
    size_t used = 0;

    for (size_t at = 0; at < bytes; at += size)
        used += table[at];
    return used;
}

/* How the number of used rows changes: of files, and of objects. */
static int more_files(const struct content *before, const struct content *after)
{
    return (int)used_rows(after->parents, sizeof after->parents, LFSCK_PARENT_BYTES) -
           (int)used_rows(before->parents, sizeof before->parents, LFSCK_PARENT_BYTES);
}

static int more_objects(const struct content *before, const struct content *after)
{
    return (int)used_rows(after->objects, object_bytes(after), LFSCK_OBJECT_BYTES) -
           (int)used_rows(before->objects, object_bytes(before), LFSCK_OBJECT_BYTES);
}

/* The kind of a step that repairs a class. */
static enum kind kind_of(uint64_t class, const struct content *before, const struct content *after)
{
    switch (class) {
    case LFSCK_SELF: return SELF;
    case LFSCK_MULTIPLE: return more_objects(before, after) ? RESERVE : REUSE;
    case LFSCK_DANGLING: return DANGLING;
    case LFSCK_BLANK: return BLANK;
    case LFSCK_UNMATCHED: return UNMATCHED;
    case LFSCK_WRONG_OST: return WRONG_OST;
    case LFSCK_OWNER: return OWNER;
    case LFSCK_EMPTY: return EMPTY;
    default: break;
    }
    if (more_objects(before, after))
        return REPLACED;
    if (more_files(before, after))
        return MADE;
    return memcmp(before->parents + 25, after->parents + 25, 2) == 0 ? FILLED : GROWN;
}

static void put_reserve(uint8_t reserve[2 * LFSCK_RESERVE_BYTES])
{
    put_object_fid(reserve, N);
    put_object_fid(reserve + LFSCK_RESERVE_BYTES, M);
}

static uint32_t run(struct content *tables, uint64_t most, uint64_t *position)
{
    uint8_t reserve[2 * LFSCK_RESERVE_BYTES];
    uint64_t report[LFSCK_REPORT_NUMBERS];

    put_reserve(reserve);
    return lfsck_run(tables->parents, sizeof tables->parents, tables->objects,
                     object_bytes(tables), reserve, sizeof reserve, policy, most,
                     position, LFSCK_POSITION_NUMBERS, report, LFSCK_REPORT_NUMBERS);
}

static uint64_t class_at(const struct content *tables, const uint64_t *position)
{
    uint64_t class[LFSCK_CLASS_NUMBERS] = {LFSCK_UNUSED};

    lfsck_class(tables->parents, sizeof tables->parents, tables->objects, object_bytes(tables),
                position[0], position[1], position[2], class, LFSCK_CLASS_NUMBERS);
    return class[0];
}

/* Makes the next step in memory and notes its writes. */
static uint32_t foresee_step(struct content *tables, uint64_t *position)
{
    static struct content before;
    uint64_t class = class_at(tables, position);
    uint64_t named[LFSCK_WRITES_NUMBERS];
    uint8_t reserve[2 * LFSCK_RESERVE_BYTES];
    uint32_t answer;

    put_reserve(reserve);
    before = *tables;
    answer = lfsck_step_writes(tables->parents, sizeof tables->parents, tables->objects,
                               object_bytes(tables), reserve, sizeof reserve, policy,
                               position[0], position[1], position[2],
                               named, LFSCK_WRITES_NUMBERS);
    if (answer != LFSCK_OK)
        return answer;
    answer = run(tables, 1, position);
    for (uint64_t i = 0; i < named[0] && writes < MOST_CUTS; i++)
        cuts[writes++] = (struct cut){kind_of(class, &before, tables), i + 1, named[0]};
    return answer;
}

/* Begins with these tables: what the repair without a kill writes, and where it ends. */
static void begin(const char *name, const struct content *tables, uint64_t allowed)
{
    uint64_t position[LFSCK_POSITION_NUMBERS] = {LFSCK_STAGE_PARENTS, 0, 0};
    uint64_t start[LFSCK_POSITION_NUMBERS] = {LFSCK_STAGE_PARENTS, 0, 0};
    uint32_t answer = LFSCK_STEPS_USED;

    damaged = *tables;
    policy = allowed;
    writes = 0;
    repaired = damaged;
    while (answer == LFSCK_STEPS_USED)
        answer = foresee_step(&repaired, position);
    found = damaged;
    check(name, answer == LFSCK_OK && writes > 0 && writes < MOST_CUTS &&
                    run(&found, UINT64_MAX, start) == LFSCK_OK && is_same(&found, &repaired));
}

static void put_bytes(const char *name, const void *bytes, size_t count)
{
    char path[4096];
    int file;

    path_of(path, folder, name);
    file = open(path, O_WRONLY | O_CREAT, 0666);
    if (file < 0 || write(file, bytes, count) != (ssize_t)count ||
        ftruncate(file, (off_t)count) != 0 || close(file) != 0)
        die(path);
}

static void get_bytes(const char *name, void *bytes, size_t count)
{
    struct table table = open_table(folder, name, O_RDONLY);

    if (table.bytes != count) {
        fprintf(stderr, "%s has another length\n", name);
        exit(2);
    }
    memcpy(bytes, table.rows, count);
    close_table(&table);
}

/* The folder with the files of one state and the objects of another. */
static void put_folder(const struct content *files, const struct content *objects)
{
    uint8_t reserve[2 * LFSCK_RESERVE_BYTES];

    put_reserve(reserve);
    put_bytes("parents.tbl", files->parents, sizeof files->parents);
    put_bytes("objects.tbl", objects->objects, object_bytes(objects));
    put_bytes("reserve.tbl", reserve, sizeof reserve);
}

static void get_folder(void)
{
    found.rows = damaged.rows;
    get_bytes("parents.tbl", found.parents, sizeof found.parents);
    get_bytes("objects.tbl", found.objects, object_bytes(&found));
}

static void remove_folder(void)
{
    static const char *const names[] = {"parents.tbl", "objects.tbl", "reserve.tbl"};
    char path[4096];

    for (int i = 0; i < 3; i++) {
        path_of(path, folder, names[i]);
        unlink(path);
    }
    rmdir(folder);
}

/* Repairs the folder in a process of its own. Gives what waitpid tells. */
static int repair_apart(unsigned long kill_at, int last_first)
{
    struct site site = {
        .folder = folder, .policy = policy, .kill_at = kill_at, .last_first = last_first};
    int status = 0;
    pid_t child;

    fflush(stdout);
    child = fork();
    if (child == 0)
        _exit((int)repair(&site));
    if (child < 0 || waitpid(child, &status, 0) != child)
        die("repair");
    return status;
}

static int is_killed(int status)
{
    return WIFSIGNALED(status) && WTERMSIG(status) == SIGKILL;
}

static int answers(int status, uint32_t answer)
{
    return WIFEXITED(status) && WEXITSTATUS(status) == (int)answer;
}

/* Repairs the folder without a kill: to the end. */
static int ends(void)
{
    return answers(repair_apart(0, 0), LFSCK_OK);
}

/* The folder has the tables of the repair without a kill. */
static int is_repaired(void)
{
    get_folder();
    return is_same(&found, &repaired);
}

/* The tables of the folder pass the check. */
static int is_sound(void)
{
    get_folder();
    return lfsck_check(found.parents, sizeof found.parents, found.objects, object_bytes(&found),
                       found.objects, 0, policy, LFSCK_STAGE_PARENTS, 0, 0) == LFSCK_OK;
}

/* Killed at each write, and begun again. */
static void test_kills(void)
{
    char name[128];

    for (unsigned long at = 1; at <= writes; at++) {
        const struct cut *cut = &cuts[at - 1];
        int holds;

        put_folder(&damaged, &damaged);
        holds = is_killed(repair_apart(at, 0)) && is_sound() && ends() && is_repaired();
        snprintf(name, sizeof name, "policy %d, killed at write %lu: %s, %d of %d",
                 (int)policy, at, kinds[cut->kind].name, (int)cut->write, (int)cut->of);
        check(name, holds);
        kills[cut->kind][cut->of][cut->write] += holds;
    }
    put_folder(&damaged, &damaged);
    check("there are no more writes", answers(repair_apart(writes + 1, 0), LFSCK_OK));
}

/* Killed at a write, and at one of the repair after it; whether that one has so many writes. */
static int kill_twice(unsigned long at, unsigned long second, int *holds)
{
    int status;

    put_folder(&damaged, &damaged);
    *holds = is_killed(repair_apart(at, 0));
    status = repair_apart(second, 0);
    if (!is_killed(status)) {
        *holds = *holds && answers(status, LFSCK_OK) && is_repaired();
        return 0;
    }
    second_kills++;
    *holds = *holds && is_sound() && ends() && is_repaired();
    return *holds;
}

static void test_second_kills(void)
{
    char name[64];

    for (unsigned long at = 1; at <= writes; at++) {
        unsigned long second = 1;
        int holds;

        while (kill_twice(at, second, &holds))
            second += STRIDE;
        snprintf(name, sizeof name, "killed at write %lu, and then at %lu others", at,
                 second / STRIDE);
        check(name, holds);
    }
}

/* How often each write of each kind was the last before a kill. */
static void test_seen(void)
{
    char name[128];

    for (int kind = 0; kind < KINDS; kind++)
        for (uint64_t of = kinds[kind].least; of <= kinds[kind].most; of++)
            for (uint64_t at = 1; at <= of; at++) {
                unsigned long count = kills[kind][of][at];

                snprintf(name, sizeof name, "%s, write %d of %d: %lu kills",
                         kinds[kind].name, (int)at, (int)of, count);
                check(name, count > 0);
            }
    snprintf(name, sizeof name, "%lu kills after a kill", second_kills);
    check(name, second_kills > 0);
}

/* P[F]; F, fresh, and C, with data, claim its slot. */
static void begin_taken(void)
{
    static const uint8_t named[1] = {0x10};
    struct content tables;

    put_unused(&tables, 2);
    put_object(&tables, 0, (struct object){0x10, OST, USER, P, 0, 1});
    put_object(&tables, 1, (struct object){0x20, OST, OTHER_USER, P, 0, 0});
    check("a place to be taken", put_file(&tables, P, named, 1));
    begin("C takes it", &tables, LFSCK_ADOPT);
}

/* With the destroyed row first, C is in CONFLICT after a kill. */
static void test_destroyed_first(void)
{
    static const uint64_t orphan[LFSCK_POSITION_NUMBERS] = {LFSCK_STAGE_OBJECTS, 1, 0};

    begin_taken();
    test_kills();
    put_folder(&damaged, &damaged);
    check("the last row first, killed at write 1", is_killed(repair_apart(1, 1)));
    check("begun again, it loses", ends() && !is_repaired());
    check("C is in CONFLICT", class_at(&found, orphan) == LFSCK_CONFLICT);
}

/* A position of before the kill leaves F, and C with another owner. */
static void test_saved_position(void)
{
    uint64_t position[LFSCK_POSITION_NUMBERS] = {LFSCK_STAGE_OBJECTS, 1, 0};

    begin_taken();
    put_folder(&damaged, &damaged);
    check("killed in the step of C", is_killed(repair_apart(1, 0)) && !is_repaired());
    check("taken up at that step, it loses",
          run(&found, UINT64_MAX, position) == LFSCK_OK && !is_same(&found, &repaired));
}

/* P[A,A]; A claims its first slot; there is one unused row. */
static void test_waiting(void)
{
    static const uint8_t named[2] = {0x10, 0x10};
    struct content tables;

    put_unused(&tables, 2);
    put_object(&tables, 0, (struct object){0x10, OST, USER, P, 0, 0});
    check("a slot to be redirected", put_file(&tables, P, named, 2));
    begin("to N, in the last unused row", &tables, LFSCK_CREATE);
    test_kills();
    put_folder(&damaged, &damaged);
    check("killed after N is made", is_killed(repair_apart(1, 0)) && is_sound());
    found.objects[LFSCK_OBJECT_BYTES + 45] = 0;
    put_folder(&found, &found);
    check("were N not used again, there would be no row",
          answers(repair_apart(0, 0), LFSCK_NO_OBJECT_ROW));
}

/* Whole tables, stored one after the other, and killed between the two. */
static void test_whole_tables(void)
{
    static const uint8_t named[1] = {0x10};
    struct content tables;

    begin_taken();
    put_folder(&damaged, &repaired);
    check("whole tables, the objects first, lose", ends() && !is_repaired());

    put_unused(&tables, 2);
    put_object(&tables, 0, (struct object){0x20, OST, USER, P, 0, 0});
    check("an absent object and an orphan", put_file(&tables, P, named, 1));
    begin("a row made and destroyed", &tables, LFSCK_CREATE | LFSCK_ADOPT);
    test_kills();
    put_folder(&repaired, &damaged);
    check("whole tables, the files first, lose", ends() && !is_repaired());
}

static int test(void)
{
    struct content tables;

    if (!mkdtemp(folder))
        die(folder);
    check("a case with damage of every kind", put_damaged(&tables));
    for (uint64_t allowed = 0; allowed <= (LFSCK_CREATE | LFSCK_ADOPT); allowed++) {
        begin("it is repaired in memory", &tables, allowed);
        test_kills();
    }
    test_second_kills();
    test_seen();
    test_destroyed_first();
    test_saved_position();
    test_waiting();
    test_whole_tables();
    remove_folder();
    return report_all();
}

int main(int count, char **words)
{
    struct site site = {0};
    uint32_t answer;

    if (count == 1)
        return test();
    if (count != 3) {
        fprintf(stderr, "in_place DIR POLICY\n");
        return 2;
    }
    site.folder = words[1];
    site.policy = strtoull(words[2], NULL, 10);
    answer = repair(&site);
    printf("%lu rows stored, answer %lu\n", site.stored, (unsigned long)answer);
    return answer != LFSCK_OK;
}
