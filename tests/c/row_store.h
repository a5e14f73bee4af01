/*
 * Tables that are kept in files and repaired there, row by row, as a scan tool would do it: the
 * program may be killed between any two writes, and then begins at the start.
 */
#ifndef ROW_STORE_H
#define ROW_STORE_H

#include <errno.h>
#include <fcntl.h>
#include <signal.h>
#include <stdio.h>
#include <stdlib.h>
#include <string.h>
#include <sys/stat.h>
#include <unistd.h>

#include "lfsck_layout.h"

/* A table in memory, and the file that it is kept in. */
struct table {
    uint8_t *rows;
    size_t bytes;
    int file;
};

/* What a repair works on. */
struct site {
    const char *folder;
    struct table tables[2]; /* by the number of the table */
    struct table reserve;
    uint64_t policy;
    uint64_t position[LFSCK_POSITION_NUMBERS];
    unsigned long stored;  /* the rows stored so far */
    unsigned long kill_at; /* for tests: to be killed after so many; 0 is never */
    int last_first;        /* for tests: a step's rows from the last to the first */
};

static const size_t row_bytes[2] = {LFSCK_PARENT_BYTES, LFSCK_OBJECT_BYTES};

static void die(const char *what)
{
    perror(what);
    exit(2);
}

static void path_of(char path[4096], const char *folder, const char *name)
{
    if (snprintf(path, 4096, "%s/%s", folder, name) >= 4096) {
        errno = ENAMETOOLONG;
        die(folder);
    }
}

/* Reads a whole file, which stays open. */
static struct table open_table(const char *folder, const char *name, int mode)
{
    struct table table = {NULL, 0, -1};
    struct stat stat;
    char path[4096];

    path_of(path, folder, name);
    table.file = open(path, mode);
    if (table.file < 0 || fstat(table.file, &stat) != 0)
        die(path);
    table.bytes = (size_t)stat.st_size;
    table.rows = malloc(table.bytes + 1);
    if (!table.rows || pread(table.file, table.rows, table.bytes, 0) != (ssize_t)table.bytes)
        die(path);
    return table;
}

static void close_table(struct table *table)
{
    close(table->file);
    free(table->rows);
}

/* Stores a row as the memory has it, and waits until it is on the disk. */
static void store_row(struct site *site, uint64_t number, uint64_t row)
{
    const struct table *table = &site->tables[number];
    size_t bytes = row_bytes[number];
    size_t at = bytes * (size_t)row;

    if (pwrite(table->file, table->rows + at, bytes, (off_t)at) != (ssize_t)bytes ||
        fsync(table->file) != 0)
        die("a row");
    if (++site->stored == site->kill_at)
        raise(SIGKILL);
}

/* Stores the rows of a step one after the other, in the order in which they are named. */
static void store_rows(struct site *site, const uint64_t *named)
{
    for (uint64_t i = 0; i < named[0]; i++) {
        uint64_t write = site->last_first ? named[0] - 1 - i : i;
        const uint64_t *row = named + 1 + LFSCK_ROW_NUMBERS * write;

        store_row(site, row[0], row[1]);
    }
}

/* Asks for the writes of the next step, makes it in memory, and stores the rows. */
static uint32_t make_step(struct site *site)
{
    struct table *parents = &site->tables[LFSCK_TABLE_PARENTS];
    struct table *objects = &site->tables[LFSCK_TABLE_OBJECTS];
    uint64_t named[LFSCK_WRITES_NUMBERS];
    uint64_t report[LFSCK_REPORT_NUMBERS];
    uint64_t *position = site->position;
    uint32_t answer;

    answer = lfsck_step_writes(parents->rows, parents->bytes, objects->rows, objects->bytes,
                               site->reserve.rows, site->reserve.bytes, site->policy,
                               position[0], position[1], position[2],
                               named, LFSCK_WRITES_NUMBERS);
    if (answer != LFSCK_OK)
        return answer;
    answer = lfsck_run(parents->rows, parents->bytes, objects->rows, objects->bytes,
                       site->reserve.rows, site->reserve.bytes, site->policy, 1,
                       position, LFSCK_POSITION_NUMBERS, report, LFSCK_REPORT_NUMBERS);
    store_rows(site, named);
    return answer;
}

/* Repairs the tables of a folder, from the start to the end or to a stop. */
static uint32_t repair(struct site *site)
{
    struct table *parents = &site->tables[LFSCK_TABLE_PARENTS];
    struct table *objects = &site->tables[LFSCK_TABLE_OBJECTS];
    uint32_t answer;

    *parents = open_table(site->folder, "parents.tbl", O_RDWR);
    *objects = open_table(site->folder, "objects.tbl", O_RDWR);
    site->reserve = open_table(site->folder, "reserve.tbl", O_RDONLY);
    answer = lfsck_start(parents->rows, parents->bytes, objects->rows, objects->bytes,
                         site->position, LFSCK_POSITION_NUMBERS);
    while (answer <= LFSCK_STEPS_USED && site->position[0] != LFSCK_STAGE_END)
        answer = make_step(site);
    close_table(parents);
    close_table(objects);
    close_table(&site->reserve);
    return answer;
}

#endif
