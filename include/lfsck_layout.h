/*
 * The C interface of the verified layout check. The rules, with the bytes of tables, layouts and
 * linkEAs, when each class applies and what each repair writes, are in docs/RULES.md.
 *
 * Every function answers one of the numbers below. All other numbers are uint64_t. What is lent
 * is a pointer and a count: of bytes for a table, a layout, a pool, a linkEA, names, the piece of
 * a dump, owners, a state or working room, of numbers for an array of numbers. A pointer is not
 * null and, for numbers, aligned, also where its count is 0. What is lent to be written overlaps
 * nothing else that is lent. Nothing is kept after the call.
 *
 * With an answer of 11 to 17, of 31 or of 39, nothing that was lent is changed but working room. Of
 * several answers that apply the lowest is given, but LFSCK_BAD_LINK before all others; the
 * namespace check has an order of its own. An array that is longer than what is handed out keeps
 * its rest.
 */
#ifndef LFSCK_LAYOUT_H
#define LFSCK_LAYOUT_H

#include <stddef.h>
#include <stdint.h>

#ifdef __cplusplus
extern "C" {
#endif

/* Answers. */
enum {
    LFSCK_OK = 0,             /* done; of a run, the end is reached */
    LFSCK_STEPS_USED = 1,     /* the steps are used up and the end is not reached */
    LFSCK_BAD_TABLE = 11,     /* a table is not whole rows or too long, or a mark is none; the piece
                                 of a dump is too long */
    LFSCK_BAD_POLICY = 12,    /* the policy is above 3 */
    LFSCK_BAD_LAYOUT = 13,    /* a layout, its stripe size or a slot is against the rules */
    LFSCK_BAD_FID = 14,       /* a bad FID, object index or claim, or fresh without claim */
    LFSCK_FID_TWICE = 15,     /* a FID twice among used parents, or twice among used objects */
    LFSCK_NO_POSITION = 16,   /* there is no such position, slot, record, state or child */
    LFSCK_NO_ROOM = 17,       /* too few places for what is handed out */
    LFSCK_NO_RESERVE = 21,    /* a slot is to get a new object: no usable FID in the reserve */
    LFSCK_NO_OBJECT_ROW = 22, /* an object is to be made: no unused object row */
    LFSCK_NO_PARENT_ROW = 23, /* a file is to be made: no unused parent row */
    LFSCK_BAD_LINK = 31,      /* a linkEA, a record or a name is against the rules */
    LFSCK_BAD_DUMP = 33,      /* a bad line of a dump or of owners, or a dump that ends too soon */
    LFSCK_ATTR_TWICE = 34,    /* trusted.lov, fid or lma twice in an entry */
    LFSCK_NO_SELF = 35,       /* an entry without self FID */
    LFSCK_NO_KIND = 36,       /* an entry that is neither a file nor an object, or both */
    LFSCK_NO_FIT = 37,        /* an entry whose row doesn't fit */
    LFSCK_LINK_FULL = 38,     /* a record outgrows the room for its child's linkEA */
    LFSCK_LONG_CLIMB = 39     /* a climb from directory to directory is too long or circular */
};

/* Tables: bytes of a row or an entry, and the most of them. */
enum {
    LFSCK_PARENT_BYTES = 48075,
    LFSCK_OBJECT_BYTES = 46,
    LFSCK_RESERVE_BYTES = 16,
    LFSCK_PARENTS_MAX = 1024,
    LFSCK_OBJECTS_MAX = 65536,
    LFSCK_RESERVE_MAX = 65536,
    LFSCK_ENTRY_BYTES = 293,
    LFSCK_CHILD_BYTES = 4130,
    LFSCK_ENTRIES_MAX = 65536,
    LFSCK_CHILDREN_MAX = 65536
};

/* What a policy allows, beside the repairs that are always made; add them for both. */
enum {
    LFSCK_CREATE = 1, /* make objects for slots that have none of their own, or use waiting ones */
    LFSCK_ADOPT = 2   /* put objects that no slot names in their places, destroy empty ones */
};

/* The tables that a step writes, as numbers. */
enum {
    LFSCK_TABLE_PARENTS = 0,
    LFSCK_TABLE_OBJECTS = 1
};

/* The stages of a position. */
enum {
    LFSCK_STAGE_PARENTS = 1, /* part 0 is a row's header, j + 1 its slot j */
    LFSCK_STAGE_OBJECTS = 2, /* part is 0 */
    LFSCK_STAGE_END = 3      /* row and part are 0 */
};

/* Layouts. */
enum {
    LFSCK_SLOTS_MAX = 2000,    /* slots of a layout */
    LFSCK_OST_MAX = 65535,     /* index of an OST */
    LFSCK_HEADER_V1 = 32,      /* bytes before the slots, version 1 */
    LFSCK_HEADER_V3 = 48,      /* bytes before the slots, version 3 */
    LFSCK_POOL_BYTES = 16,     /* bytes of a pool name, version 3 */
    LFSCK_SLOT_BYTES = 24,     /* bytes of a slot */
    LFSCK_LAYOUT_BYTES = 48048 /* bytes of the longest layout: 48 + 24 * 2000 */
};

/* Of what a stripe size is a multiple, 65,536; 0 is no stripe size. */
#define LFSCK_STRIPE_UNIT UINT64_C(0x00010000)

/* The patterns: every slot names an object, or slots may be holes. */
#define LFSCK_PATTERN_PLAIN UINT64_C(0x00000001)
#define LFSCK_PATTERN_HOLES UINT64_C(0x40000001)

/* LinkEAs: the values of trusted.link. */
#define LFSCK_LINK_MAGIC UINT64_C(0x11EAF1DF)
enum {
    LFSCK_LINK_HEADER = 24,   /* bytes before the records, and the place of the first one */
    LFSCK_RECORD_BEFORE = 18, /* bytes of a record before its name */
    LFSCK_NAME_BYTES = 65517  /* bytes of the longest name */
};

/* Intake from attribute dumps. */
enum {
    LFSCK_INTAKE_STATE = 48256, /* bytes of a state: the longest layout and 208 */
    LFSCK_PIECE_MAX = 65536     /* bytes of the longest piece */
};

/* The namespace check. */
enum {
    LFSCK_ENTRY_NAME = 255,  /* bytes of the longest name of an entry */
    LFSCK_LINK_ROOM = 4096,  /* bytes of the longest linkEA of a child */
    LFSCK_LEVELS_MAX = 4096, /* levels of the longest climb */
    LFSCK_WORKING_BYTES = 16 /* bytes of index and of room for each row of either table */
};

/* ROOT, whose version is 0. */
#define LFSCK_ROOT_SEQUENCE UINT64_C(0x200000007)
#define LFSCK_ROOT_ID UINT64_C(0x1)

/* The marks of child rows. */
enum {
    LFSCK_MARK_HIDDEN = 0,  /* a hidden directory */
    LFSCK_MARK_VISIBLE = 1, /* a visible directory */
    LFSCK_MARK_NO_FID = 2   /* no directory: the row has no self FID */
};

/* What is found of an entry's FID. */
enum {
    LFSCK_FID_CONSISTENT = 0, /* FID-in-dirent and self FID are the same */
    LFSCK_FID_NO_DIRENT = 1,  /* there is no FID-in-dirent */
    LFSCK_FID_DIFFERS = 2,    /* they differ */
    LFSCK_FID_NO_SELF = 3,    /* the child has no self FID */
    LFSCK_FID_NEITHER = 4     /* there is neither */
};

/* What is found of an entry's record in the linkEA of its child. */
enum {
    LFSCK_RECORD_CONSISTENT = 0, /* it is there */
    LFSCK_RECORD_MISSING = 1     /* it is missing, or there is no linkEA */
};

/* How many numbers describe a thing. */
enum {
    LFSCK_READ_FIELDS = 8,      /* a header that was read */
    LFSCK_WRITE_FIELDS = 7,     /* a header to be written */
    LFSCK_SLOT_NUMBERS = 5,     /* a slot */
    LFSCK_POSITION_NUMBERS = 3, /* a position: stage, row, part */
    LFSCK_CLASS_NUMBERS = 4,    /* a class and what it carries */
    LFSCK_KEEPER_NUMBERS = 4,   /* a keeper and the slots compared */
    LFSCK_REPORT_NUMBERS = 10,  /* the report of a run */
    LFSCK_WRITES_NUMBERS = 7,   /* the writes of a step: how many, and up to three rows */
    LFSCK_ROW_NUMBERS = 2,      /* a row that is written: table and row */
    LFSCK_LINK_FIELDS = 4,      /* the header of a linkEA */
    LFSCK_RECORD_READ = 6,      /* a record of a linkEA that was read */
    LFSCK_RECORD_WRITE = 5,     /* a record of a linkEA to be written */
    LFSCK_FINDING_NUMBERS = 2,  /* the findings of an entry */
    LFSCK_MENDED_NUMBERS = 5    /* the report of a mending */
};

/* The numbers of a mending's report. */
enum {
    LFSCK_MENDED_TAKEN = 0,    /* self FIDs taken from an entry */
    LFSCK_MENDED_WRITTEN = 1,  /* FID-in-dirents written */
    LFSCK_MENDED_APPENDED = 2, /* records appended */
    LFSCK_MENDED_REMOVED = 3,  /* records removed */
    LFSCK_MENDED_STOPPED = 4   /* the entry it stopped in front of, else the number of entries */
};

/* The numbers of a report: the steps done, and the repairs of each class among them. */
enum {
    LFSCK_REPORT_STEPS = 0,
    LFSCK_REPORT_SELF = 1,
    LFSCK_REPORT_MULTIPLE = 2,
    LFSCK_REPORT_DANGLING = 3,
    LFSCK_REPORT_BLANK = 4,
    LFSCK_REPORT_UNMATCHED = 5,
    LFSCK_REPORT_OWNER = 6,
    LFSCK_REPORT_EMPTY = 7,
    LFSCK_REPORT_ORPHAN = 8,
    LFSCK_REPORT_WRONG_OST = 9
};

/*
 * The classes of a header, a slot and an object. Of a slot the first that applies is its class, in
 * the order HOLE, MULTIPLE, DANGLING, BLANK, UNMATCHED, WRONG_OST, OWNER, CLEAN.
 */
enum {
    LFSCK_CLEAN = 0,     /* a header or a slot with nothing to mend */
    LFSCK_SELF = 1,      /* a header whose own id or sequence is not the file's */
    LFSCK_HOLE = 2,      /* a zero slot */
    LFSCK_MULTIPLE = 3,  /* a slot that is not the keeper of its object */
    LFSCK_DANGLING = 4,  /* a keeper whose object is absent */
    LFSCK_BLANK = 5,     /* a keeper whose object claims nothing */
    LFSCK_UNMATCHED = 6, /* a keeper whose object claims another slot */
    LFSCK_OWNER = 7,     /* a keeper whose object is on the OST it names and has another owner */
    LFSCK_SPARE = 8,     /* an object that no slot names, without claim */
    LFSCK_EMPTY = 9,     /* a fresh object that no slot names */
    LFSCK_ORPHAN = 10,   /* an object that no slot names; its claimed place can be had */
    LFSCK_CONFLICT = 11, /* an object that no slot names; its claimed place cannot be had */
    LFSCK_KEPT = 12,     /* an object that a slot names */
    LFSCK_UNUSED = 13,   /* an unused row */
    LFSCK_WRONG_OST = 14 /* a keeper whose object claims it and is on another OST */
};

/*
 * Checks whether a run may be made with this input. Nothing is written.
 *
 *   parents, objects, reserve  the tables
 *   policy                     0 to 3
 *   stage, row, part           the position
 *
 * LFSCK_OK, or the lowest of LFSCK_BAD_TABLE to LFSCK_NO_POSITION that applies to any of it. The
 * layout of a used row is held to all rules of a layout, that of its stripe size among them; the
 * bytes of an unused row are not examined.
 */
uint32_t lfsck_check(const uint8_t *parents, size_t parents_bytes,
                     const uint8_t *objects, size_t objects_bytes,
                     const uint8_t *reserve, size_t reserve_bytes,
                     uint64_t policy, uint64_t stage, uint64_t row, uint64_t part);

/*
 * Where a run over these tables begins.
 *
 *   parents, objects  the tables
 *   position          3 numbers, written: stage, row, part
 *
 * LFSCK_OK          the position is in the first 3 numbers
 * LFSCK_BAD_TABLE, LFSCK_BAD_LAYOUT, LFSCK_BAD_FID, LFSCK_FID_TWICE
 *                   the tables do not pass the check
 * LFSCK_NO_ROOM     fewer than 3 numbers
 */
uint32_t lfsck_start(const uint8_t *parents, size_t parents_bytes,
                     const uint8_t *objects, size_t objects_bytes,
                     uint64_t *position, size_t position_count);

/*
 * How many steps an uncut run over these tables takes: one for each parent row, slot and
 * object row.
 *
 *   parents, objects  the tables
 *   out               1 number, written
 *
 * The answers are those of lfsck_start, LFSCK_NO_ROOM where out has no place.
 */
uint32_t lfsck_steps(const uint8_t *parents, size_t parents_bytes,
                     const uint8_t *objects, size_t objects_bytes,
                     uint64_t *out, size_t out_count);

/*
 * The class at a position, in the tables as they stand.
 *
 *   parents, objects  the tables
 *   stage, row, part  the position; the end has no class
 *   out               4 numbers, written: the class; then, where it is LFSCK_UNMATCHED, the
 *                     sequence, id and index that the object claims, else zeros
 *
 * LFSCK_OK           the class is in the first 4 numbers
 * LFSCK_BAD_TABLE, LFSCK_BAD_LAYOUT, LFSCK_BAD_FID, LFSCK_FID_TWICE
 *                    the tables do not pass the check
 * LFSCK_NO_POSITION  there is no such position, or it is the end
 * LFSCK_NO_ROOM      fewer than 4 numbers
 */
uint32_t lfsck_class(const uint8_t *parents, size_t parents_bytes,
                     const uint8_t *objects, size_t objects_bytes,
                     uint64_t stage, uint64_t row, uint64_t part,
                     uint64_t *out, size_t out_count);

/*
 * The classes from a position on, in the order of a run's steps, with one check for all of them:
 * as many as out has whole places for, or fewer where the end comes first.
 *
 *   parents, objects  the tables
 *   position          exactly 3 numbers, changed: where to begin, then the first position whose
 *                     class was not told, or the end
 *   out               4 numbers a position, written: as lfsck_class
 *   done              1 number, written: how many classes were told; at the end it is 0
 *
 * LFSCK_OK           the classes are in the first numbers of out
 * LFSCK_BAD_TABLE, LFSCK_BAD_LAYOUT, LFSCK_BAD_FID, LFSCK_FID_TWICE
 *                    the tables do not pass the check
 * LFSCK_NO_POSITION  there is no such position; fewer or more than 3 numbers are none
 * LFSCK_NO_ROOM      done has no place
 *
 * From the position that lfsck_start hands out, 4 numbers for each step that lfsck_steps counts
 * are enough for all classes.
 */
uint32_t lfsck_classes(const uint8_t *parents, size_t parents_bytes,
                       const uint8_t *objects, size_t objects_bytes,
                       uint64_t *position, size_t position_count,
                       uint64_t *out, size_t out_count,
                       uint64_t *done, size_t done_count);

/*
 * The keeper of an object, the one slot that counts as naming it, and how many slots were compared
 * to find it. Three cases are taken in turn, each up to its first hit, and none after a hit: the
 * claimed slot, if the claimed file has it; the slots of the claimed file from slot 0 on; all
 * slots, file by file in the order of their rows. Without object, claim or claimed file there
 * is the last alone. A hole is compared like any other slot, and a slot that was compared before
 * counts again: 1 where the claimed slot names the object, and at most twice all slots plus 1.
 *
 *   parents, objects  the tables
 *   sequence, id      the object's FID, whose version is 0; it may be absent
 *   out               4 numbers, written: 1 where a slot names the object, its parent row and its
 *                     slot, or 0, 0 and 0 where none does; then the slots compared
 *
 * LFSCK_OK           the keeper is in the first 4 numbers
 * LFSCK_BAD_TABLE, LFSCK_BAD_LAYOUT, LFSCK_BAD_FID, LFSCK_FID_TWICE
 *                    the tables do not pass the check; LFSCK_BAD_FID also where the FID that is
 *                    asked for is not good, or its id above 32 bits
 * LFSCK_NO_ROOM      fewer than 4 numbers
 */
uint32_t lfsck_keeper(const uint8_t *parents, size_t parents_bytes,
                      const uint8_t *objects, size_t objects_bytes,
                      uint64_t sequence, uint64_t id,
                      uint64_t *out, size_t out_count);

/*
 * Checks the input as lfsck_check does, then repairs in place, step by step. A step that changes a
 * slot of a file that was there before it, or the number of its slots, raises the generation of
 * that file's layout by one, 65,535 going to 0; no other step changes a generation. A file that a
 * step makes begins at 0.
 *
 * With LFSCK_CREATE a slot that is LFSCK_MULTIPLE gets the first object that is fresh, claims this
 * very slot and is named by no slot; only without one a new object, under a FID of the reserve, in
 * an unused row. Editions before 2026-09 always made a new one.
 *
 *   parents, objects  the tables, changed
 *   reserve           FIDs for new objects, 16 bytes each
 *   policy            0 to 3
 *   most              the greatest number of steps
 *   position          exactly 3 numbers, changed: where to begin, then where the run stands
 *   report            10 numbers, written: the steps done, then the repairs of SELF, MULTIPLE,
 *                     DANGLING, BLANK, UNMATCHED, OWNER, EMPTY, ORPHAN and WRONG-OST
 *
 * LFSCK_OK           the end is reached
 * LFSCK_STEPS_USED   the steps are used up before the end; the next step was not looked at
 * LFSCK_NO_RESERVE, LFSCK_NO_OBJECT_ROW, LFSCK_NO_PARENT_ROW
 *                    the position rests on a step that could not be made; tables and report
 *                    are those after the steps before it
 * LFSCK_BAD_TABLE to LFSCK_NO_POSITION
 *                    as lfsck_check; a position of fewer or more than 3 numbers is none
 * LFSCK_NO_ROOM      fewer than 10 numbers for the report
 */
uint32_t lfsck_run(uint8_t *parents, size_t parents_bytes,
                   uint8_t *objects, size_t objects_bytes,
                   const uint8_t *reserve, size_t reserve_bytes,
                   uint64_t policy, uint64_t most,
                   uint64_t *position, size_t position_count,
                   uint64_t *report, size_t report_count);

/*
 * The writes of the step at a position: which rows of the tables as they stand the step changes,
 * and in which order they are to be stored. A row is written whole, a file with its layout. Where
 * an orphan takes a place the order is its file, the orphan where its owner changes, and the row
 * that is destroyed; in every other step it is the object and then the file. Rows that stay as they
 * are are left out, so a step that repairs nothing has no writes. Nothing lent is changed but out.
 *
 *   parents, objects  the tables
 *   reserve           as lfsck_run
 *   policy            0 to 3
 *   stage, row, part  the position; the end has no step
 *   out               7 numbers, written: how many writes, at most 3; then table and row of each in
 *                     their order; zeros in the places that are not used
 *
 * LFSCK_OK           the writes are in the first 7 numbers
 * LFSCK_BAD_TABLE to LFSCK_FID_TWICE
 *                    as lfsck_check
 * LFSCK_NO_POSITION  there is no such position, or it is the end
 * LFSCK_NO_ROOM      fewer than 7 numbers
 * LFSCK_NO_RESERVE, LFSCK_NO_OBJECT_ROW, LFSCK_NO_PARENT_ROW
 *                    the step cannot be made, as lfsck_run would answer; nothing is written
 *
 * A program that keeps its tables elsewhere, on disks say, repairs them so that it may be cut off
 * between any two writes (tests/c/row_store.h does it with files):
 *
 *   1. Read the tables, and take the start from lfsck_start.
 *   2. Until the position is the end: ask for the writes of its step; make the step on the copy in
 *      memory, lfsck_run with most 1; store the rows that were named, one after the other in that
 *      order, each as the copy now has it, and each surely stored (fsync) before the next.
 *   3. After a cut, begin again at 1, with the same policy and reserve. A position that was saved
 *      before the cut is thrown away: a run that is taken up there may end with other tables.
 *
 * One row must be stored whole or not at all. Then the tables pass the check after every write, and
 * a run from the start over them ends with the tables of the run without a cut, byte for byte, if
 * that one answers LFSCK_OK and the steps are enough: as many as lfsck_steps counts after the cut,
 * or more. The counts in the report may differ. Nothing is promised where the run without a cut
 * stops, nor where whole tables are stored one after the other in place of rows.
 */
uint32_t lfsck_step_writes(const uint8_t *parents, size_t parents_bytes,
                           const uint8_t *objects, size_t objects_bytes,
                           const uint8_t *reserve, size_t reserve_bytes,
                           uint64_t policy, uint64_t stage, uint64_t row, uint64_t part,
                           uint64_t *out, size_t out_count);

/*
 * A header is version (1 or 3), pattern, own id, own sequence, stripe size, stripe count and
 * generation, in this order; one that was read ends with the place where the slots start.
 *
 * The stripe size is not 0 and a multiple of LFSCK_STRIPE_UNIT, also where a layout has no slots.
 * Any other is LFSCK_BAD_LAYOUT, before LFSCK_NO_POSITION and LFSCK_NO_ROOM: in these four
 * functions, and in every call that checks tables with such a layout in a used row. Editions before
 * 2026-08 took any stripe size: their callers may have layouts that are LFSCK_BAD_LAYOUT here. Own
 * id, own sequence, generations and pool name may be anything.
 *
 * A slot is five numbers: 1, sequence, id, generation and OST index where it names an object,
 * and five zeros where it is a hole.
 */

/*
 * Reads a layout's header.
 *
 *   layout  the layout, exactly its bytes
 *   fields  8 numbers, written
 *
 * LFSCK_OK          the header is in the first 8 fields
 * LFSCK_BAD_LAYOUT  the bytes are no layout, or its stripe size is none; also with no slots
 * LFSCK_NO_ROOM     fewer than 8 fields
 */
uint32_t lfsck_layout_read(const uint8_t *layout, size_t layout_bytes,
                           uint64_t *fields, size_t fields_count);

/*
 * Reads one slot of a layout.
 *
 *   layout  the layout, exactly its bytes
 *   index   which slot, from 0
 *   out     5 numbers, written
 *
 * LFSCK_OK           the slot is in the first 5 numbers
 * LFSCK_BAD_LAYOUT   the bytes are no layout, or its stripe size is none, whatever the index
 * LFSCK_NO_POSITION  the index is not below the stripe count
 * LFSCK_NO_ROOM      fewer than 5 numbers
 */
uint32_t lfsck_layout_slot(const uint8_t *layout, size_t layout_bytes,
                           uint64_t index,
                           uint64_t *out, size_t out_count);

/*
 * Writes a layout.
 *
 *   fields       exactly 7 numbers
 *   pool         the pool name: 16 bytes with version 3, none with version 1
 *   slots        5 numbers for each slot, as many slots as the stripe count
 *   destination  takes the layout; bytes past it stay
 *   out          1 number, written: the bytes of the layout
 *
 * LFSCK_OK          the layout is in the destination and its length in out
 * LFSCK_BAD_LAYOUT  another amount of anything that is handed in, a number that does not fit
 *                   its field, a stripe size that is none, also with no slots, or a layout
 *                   against the other rules; whatever the room
 * LFSCK_NO_ROOM     the destination is shorter than the layout, or out has no place
 */
uint32_t lfsck_layout_write(const uint64_t *fields, size_t fields_count,
                            const uint8_t *pool, size_t pool_bytes,
                            const uint64_t *slots, size_t slots_count,
                            uint8_t *destination, size_t destination_bytes,
                            uint64_t *out, size_t out_count);

/*
 * Puts another slot in the place of one of a layout's, and raises the layout's generation by one,
 * 65,535 going to 0: that slot's 24 bytes and the generation's 2 change and no others. Where the
 * slot has these numbers already, no byte changes.
 *
 *   layout  the layout, exactly its bytes
 *   index   which slot, from 0
 *   slot    exactly 5 numbers
 *
 * LFSCK_OK           the slot has these numbers
 * LFSCK_BAD_LAYOUT   the bytes are no layout, its stripe size is none, or the slot is none that its
 *                    pattern allows; whatever the index
 * LFSCK_NO_POSITION  the index is not below the stripe count
 */
uint32_t lfsck_slot_rewrite(uint8_t *layout, size_t layout_bytes,
                            uint64_t index,
                            const uint64_t *slot, size_t slot_count);

/*
 * The header of a linkEA is record count, total length, overflow time and padding, in this order.
 *
 * A record is five numbers: the parent's sequence, id and version, the place where the name starts
 * and the name's length; one that was read ends with the next place. A place counts bytes from the
 * start of the linkEA: the first record is at LFSCK_LINK_HEADER, and the place after the last one
 * is the total length. The name of a record that was read is those bytes of the linkEA.
 */

/*
 * Reads a linkEA's header, after a look at all of it.
 *
 *   link    the linkEA, exactly its bytes
 *   fields  4 numbers, written
 *
 * LFSCK_OK        the header is in the first 4 fields
 * LFSCK_BAD_LINK  the bytes are no linkEA
 * LFSCK_NO_ROOM   fewer than 4 fields
 */
uint32_t lfsck_link_read(const uint8_t *link, size_t link_bytes,
                         uint64_t *fields, size_t fields_count);

/*
 * Reads the record at a place of a linkEA.
 *
 *   link   the linkEA, exactly its bytes
 *   place  LFSCK_LINK_HEADER, or a next place that was handed out
 *   out    6 numbers, written
 *
 * LFSCK_OK           the record is in the first 6 numbers
 * LFSCK_BAD_LINK     the bytes are no linkEA
 * LFSCK_NO_POSITION  no record begins there; none does at the end
 * LFSCK_NO_ROOM      fewer than 6 numbers
 *
 * LFSCK_BAD_LINK is of all of the linkEA, whatever the place. From LFSCK_LINK_HEADER on, each next
 * place leads to a record until the total length is reached: as many as the header counts.
 */
uint32_t lfsck_link_record(const uint8_t *link, size_t link_bytes,
                           uint64_t place,
                           uint64_t *out, size_t out_count);

/*
 * Writes a linkEA.
 *
 *   fields       exactly 4 numbers, as they are read
 *   records      5 numbers for each record, as many records as the count; a name starts at a
 *                place of names
 *   names        bytes in which the names lie: the linkEA that was read, or any others
 *   destination  takes the linkEA; bytes past it stay
 *   out          1 number, written: the bytes of the linkEA
 *
 * LFSCK_OK        the linkEA is in the destination and its length in out
 * LFSCK_BAD_LINK  another amount of anything that is handed in, a count or total that is not
 *                 that of the records, a number that does not fit its field, or a name that is
 *                 empty, too long, not within names, or has a slash or a zero byte
 * LFSCK_NO_ROOM   the destination is shorter than the linkEA, or out has no place
 */
uint32_t lfsck_link_write(const uint64_t *fields, size_t fields_count,
                          const uint64_t *records, size_t records_count,
                          const uint8_t *names, size_t names_bytes,
                          uint8_t *destination, size_t destination_bytes,
                          uint64_t *out, size_t out_count);

/*
 * A dump is what getfattr -d -m '^trusted\.' -e hex prints: entries of a line that begins with
 * "# file:", lines of attributes and an empty line, each line ended by a newline. Of an entry
 * trusted.lov, trusted.fid and trusted.lma are taken, all other attributes are skipped. One with
 * trusted.lov is a file, one with trusted.fid an object.
 *
 * The owners file has a line for each entry, in their order: uid, gid and OST index in decimal,
 * with one space between. The index is needed of files too, and not used.
 *
 * docs/RULES.md says which lines are good.
 */

/*
 * Reads the next piece of a dump, and fills a row of its table for each entry that a line in it
 * closes: the first unused row. Whatever the pieces, the tables, the answer and the line are those
 * of the whole that they make.
 *
 *   state             LFSCK_INTAKE_STATE bytes, changed: all zero for a new dump, then as the last
 *                     call left them
 *   piece             at most LFSCK_PIECE_MAX bytes; a line may go on in the next piece
 *   owners            the owners file, whole, the same with each piece
 *   parents, objects  the tables, changed
 *   out               1 number, written with LFSCK_BAD_DUMP to LFSCK_NO_FIT alone: the first
 *                     line at fault, counted from 1
 *
 * LFSCK_OK           every line that ends in the piece is good
 * LFSCK_BAD_TABLE    a table is not whole rows or too long, a mark is not 0 or 1, or the piece is
 *                    too long
 * LFSCK_NO_POSITION  the state is none: of another length, of bytes that fail its own test, which
 *                    every state of a reading passes, or with more taken of the owners than is
 *                    lent
 * LFSCK_NO_ROOM      out has no place
 * LFSCK_BAD_DUMP, LFSCK_ATTR_TWICE, LFSCK_NO_SELF, LFSCK_NO_KIND, LFSCK_NO_FIT
 *                    reading stops at this line, the lowest of them is given, and the rows of the
 *                    entries before it stand. Every further call gives the same answer and line,
 *                    and changes nothing
 *
 * With LFSCK_BAD_TABLE, LFSCK_NO_POSITION and LFSCK_NO_ROOM nothing is changed, the state neither,
 * and the piece can be handed over again.
 */
uint32_t lfsck_intake_feed(uint8_t *state, size_t state_bytes,
                           const uint8_t *piece, size_t piece_bytes,
                           const uint8_t *owners, size_t owners_bytes,
                           uint8_t *parents, size_t parents_bytes,
                           uint8_t *objects, size_t objects_bytes,
                           uint64_t *out, size_t out_count);

/*
 * Whether the dump may end after what was fed. Nothing but out is written, so reading can go on.
 *
 *   state  the state, as the last call of lfsck_intake_feed left it
 *   out    1 number, written with LFSCK_BAD_DUMP to LFSCK_NO_FIT alone: the line
 *
 * LFSCK_OK           no entry is open, and the last line has ended
 * LFSCK_NO_POSITION  the state is of another length, or of bytes that fail its test
 * LFSCK_NO_ROOM      out has no place
 * LFSCK_BAD_DUMP     an entry is open, at its first line; or else a line has not ended
 * LFSCK_BAD_DUMP to LFSCK_NO_FIT
 *                    where reading stopped, the same answer and line
 */
uint32_t lfsck_intake_end(const uint8_t *state, size_t state_bytes,
                          uint64_t *out, size_t out_count);

/*
 * The namespace check compares the entries of directories with the children that they name. Two
 * tables are lent, and zero stands where there is no FID.
 *
 * An entry row is the directory's FID, 16 bytes; the child's row in the other table, 4; the
 * FID-in-dirent, 16; the length of the name, 2; and 255 bytes of room for it. A child row is the
 * self FID, 16 bytes; the FID of "..", 16; the length of the linkEA, 2, or 0 where there is none;
 * and 4,096 bytes of room for it. The record of an entry has its directory's FID and its name.
 *
 * A directory is known by its FID, and is the first child row with that self FID. It is visible
 * if it is ROOT, whatever its row says and where it has none, or if its row has a linkEA. Else
 * ".." is followed upward to the first directory that is visible, or that has no row, or has
 * neither linkEA nor "..", and so is hidden.
 *
 * Of the answers of these functions the first that applies is given, in the order
 * LFSCK_BAD_TABLE, LFSCK_NO_POSITION, LFSCK_BAD_LINK, LFSCK_NO_ROOM, LFSCK_LONG_CLIMB,
 * LFSCK_LINK_FULL. Index and room are working room: what they hold after a call, a refused one
 * too, is not said.
 *
 * A climb is a recursion, a level of the stack for each level: judging and a pass take less than
 * 1 MiB of stack.
 */

/*
 * Which directories are visible.
 *
 *   entries, children  the tables
 *   index, room        LFSCK_WORKING_BYTES each for each entry row and each child row
 *   marks              1 number a child row, written
 *
 * LFSCK_OK           the marks are in the first numbers. Rows with the same self FID have the same
 *                    mark
 * LFSCK_BAD_TABLE    a table is not whole rows or too long
 * LFSCK_NO_POSITION  an entry's child is at or past the child rows
 * LFSCK_BAD_LINK     a name of no bytes or more than 255, with a slash or a zero byte, or a linkEA
 *                    that is none or longer than its room
 * LFSCK_NO_ROOM      index, room or marks are too short
 * LFSCK_LONG_CLIMB   from a child row with a self FID, named by an entry or not, more than
 *                    LFSCK_LEVELS_MAX levels are to be climbed; in a circle that is always so
 */
uint32_t lfsck_names_judge(const uint8_t *entries, size_t entries_bytes,
                           const uint8_t *children, size_t children_bytes,
                           uint8_t *index, size_t index_bytes,
                           uint8_t *room, size_t room_bytes,
                           uint64_t *marks, size_t marks_count);

/*
 * What each entry shows, in the tables as they are lent; entries of hidden directories too.
 *
 *   entries, children  the tables
 *   out                2 numbers an entry, written: what is found of its FID and of its record
 *
 * LFSCK_OK       the findings are in the first numbers
 * LFSCK_BAD_TABLE, LFSCK_NO_POSITION, LFSCK_BAD_LINK
 *                as lfsck_names_judge
 * LFSCK_NO_ROOM  out is too short
 */
uint32_t lfsck_names_find(const uint8_t *entries, size_t entries_bytes,
                          const uint8_t *children, size_t children_bytes,
                          uint64_t *out, size_t out_count);

/*
 * Mends under marks, in four sweeps, each finished before the next. Entries of hidden directories
 * are left out, and their records stay.
 *
 *   1. A child without self FID takes the FID-in-dirent of its first entry that has one.
 *   2. Each entry gets the self FID of its child.
 *   3. In the order of the entries, a child that lacks an entry's record gets it, behind the
 *      others; one without linkEA gets a linkEA with time and padding 0.
 *   4. A child's records without entry of that child go, and so do repeats behind the first.
 *
 * A child that has no self FID after the first sweep stays as it is, with its entries. The room
 * past a linkEA that is changed becomes zero. A second mending under the same marks, after a
 * finished one, changes nothing.
 *
 *   entries, children  the tables, changed
 *   index, room        as lfsck_names_judge
 *   marks              exactly 1 number a child row, as they were handed out. A row marked
 *                      LFSCK_MARK_NO_FID is no directory, also where it has a self FID since
 *   report             5 numbers, written
 *
 * LFSCK_OK         all four sweeps are finished
 * LFSCK_BAD_TABLE  as lfsck_names_judge; or the marks are not one for each child row, one is
 *                  none, or one is another than LFSCK_MARK_NO_FID at a row without self FID
 * LFSCK_NO_POSITION, LFSCK_BAD_LINK
 *                  as lfsck_names_judge
 * LFSCK_NO_ROOM    index, room or report are too short
 * LFSCK_LINK_FULL  the third sweep stops in front of an entry whose record outgrows the room.
 *                  What was done before it stands, no record is removed, and the report tells the
 *                  entry
 */
uint32_t lfsck_names_mend(uint8_t *entries, size_t entries_bytes,
                          uint8_t *children, size_t children_bytes,
                          uint8_t *index, size_t index_bytes,
                          uint8_t *room, size_t room_bytes,
                          const uint64_t *marks, size_t marks_count,
                          uint64_t *report, size_t report_count);

/*
 * Judges the tables as they are lent, then mends them under the marks.
 *
 *   entries, children  the tables, changed
 *   index, room        as lfsck_names_judge
 *   marks              1 number a child row, written, with LFSCK_LINK_FULL too
 *   report             5 numbers, written, with LFSCK_LINK_FULL too
 *
 * The answers are those of lfsck_names_judge, with LFSCK_NO_ROOM also where report is too short,
 * and LFSCK_LINK_FULL as lfsck_names_mend.
 */
uint32_t lfsck_names_pass(uint8_t *entries, size_t entries_bytes,
                          uint8_t *children, size_t children_bytes,
                          uint8_t *index, size_t index_bytes,
                          uint8_t *room, size_t room_bytes,
                          uint64_t *marks, size_t marks_count,
                          uint64_t *report, size_t report_count);

#ifdef __cplusplus
}
#endif

#endif
