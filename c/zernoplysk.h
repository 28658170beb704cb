/* Zernoplysk for C: every call of the proved library, on numbers and lent memory (docs/BOUNDARY.md).
 *
 * A slice crosses as a pointer and a length in elements; a null pointer with length 0 is an empty slice. The memory of
 * a pointer without `const` may be written as far as its length, and must not overlap what another argument lends.
 * Nothing is kept after the call, nothing is allocated, and every call ends and is safe for any contents and lengths.
 *
 * A task crosses as ZP_TASK_WORDS words, in the order of the ZP_AT_ places. Any 668 words are a task, well formed or
 * not; a step above 255 counts as 255. Another number of words is refused with 12, place 0, as the task of zeros. Runs
 * are counted from 0.
 * zp_apply, zp_edit and zp_add_run change the task in the words that it is lent in; a refused call leaves them exactly as
 * they were, whatever they were and however many.
 *
 * An answer crosses as words in `answer`: the number (0, or the refusal of 01's table and of 02) and the place first,
 * then what the call gives. One rule: if `answer` has fewer words than the call's answer, nothing is called:
 * ZP_ANSWER_TOO_SHORT is returned and nothing of what was lent is touched, `answer` included. Otherwise the call is made,
 * its words are written from the first on, nothing beside, and the first of them is returned. The answer's words are the
 * one thing that a refused call writes.
 */
#ifndef ZERNOPLYSK_H
#define ZERNOPLYSK_H

#include <stddef.h>
#include <stdint.h>

#ifdef __cplusplus
extern "C" {
#endif

enum {
    ZP_ACTIONS = 32,
    ZP_STEPS = 64,                                /* of each run */
    ZP_RUNS = 8,

    /* Where the parts of a task stand among its words. */
    ZP_AT_FACTS = 0,
    ZP_AT_ACTIONS = 1,
    ZP_AT_LIMIT = 2,
    ZP_AT_NEEDS = 3,                              /* a mask of facts for each of the 32 actions */
    ZP_AT_ADDS = ZP_AT_NEEDS + ZP_ACTIONS,
    ZP_AT_DELETES = ZP_AT_ADDS + ZP_ACTIONS,
    ZP_AT_LOCKS = ZP_AT_DELETES + ZP_ACTIONS,     /* of its needs, those that no list drops (02, request 6) */
    ZP_AT_MANY = ZP_AT_LOCKS + ZP_ACTIONS,        /* how many runs, 1 to 8; everything for unused ones is zero */
    ZP_AT_STARTS = ZP_AT_MANY + 1,                /* a mask of facts for each of the 8 runs */
    ZP_AT_GOALS = ZP_AT_STARTS + ZP_RUNS,         /* a mask of facts for each run */
    ZP_AT_COUNTS = ZP_AT_GOALS + ZP_RUNS,         /* how many steps each run has */
    ZP_AT_STEPS = ZP_AT_COUNTS + ZP_RUNS,         /* 64 places a run; run i's from ZP_STEPS * i on: an action for each */
    ZP_TASK_WORDS = ZP_AT_STEPS + ZP_STEPS * ZP_RUNS,

    /* The one number that is not of the papers: `answer` is too short, and nothing was called. */
    ZP_ANSWER_TOO_SHORT = 255,

    /* How many words each kind of answer has. */
    ZP_CHANGED_WORDS = 2,                         /* number, place; the task is changed where it is lent */
    ZP_REPLY_WORDS = 3,                           /* number, place, length */
    ZP_PROBLEM_WORDS = 4,                         /* number, place, start, goal */
    ZP_CHECKED_WORDS = 5,                         /* number, place, total, step, fact */
    ZP_RECORD_WORDS = 6,                          /* number, place, kind, start, length, next */
    ZP_TASK_ANSWER_WORDS = 2 + ZP_TASK_WORDS,     /* number, place, task */

    /* A session table, the longest file and list, and room for every listing. */
    ZP_TABLE_NUMBERS = 448,
    ZP_FILE_BYTES = 27660,
    ZP_LIST_NUMBERS = 6,
    ZP_LISTING_BYTES = 986,

    /* Room for every domain text, and for every problem text. */
    ZP_DOMAIN_BYTES = 76178,
    ZP_PROBLEM_BYTES = 1334,

    /* The kinds of cell that an edit names; any other kind is refused with 14. */
    ZP_NEED = 0,
    ZP_ADD = 1,
    ZP_DELETE = 2,
    ZP_START = 3,
    ZP_GOAL = 4,
    ZP_LOCK = 5
};

/* The record at a place of the file. Its body is `length` bytes of the file from `start` on. Answer: ZP_RECORD_WORDS. */
size_t zp_record(const uint8_t *file, size_t file_len, size_t at, uint64_t *answer, size_t answer_len);

/* The task of a file; the place of a refusal is the byte that is wrong (02, request 2), or the file's length where its end is
 * missing; of 18, a lock on a cell that isn't a need (02, request 6), the record's first. Answer: ZP_TASK_ANSWER_WORDS. */
size_t zp_read(const uint8_t *file, size_t file_len, uint64_t *answer, size_t answer_len);

/* The task's file into `room`; ZP_FILE_BYTES are always enough. Answer: ZP_REPLY_WORDS. */
size_t zp_write(const uint64_t *task, size_t task_len, uint8_t *room, size_t room_len, uint64_t *answer,
                size_t answer_len);

/* The run check of the run with this number; 14 if the task has no such run. It follows the controller (02, request 3): a step
 * that can't run does nothing, and the next is tried. Answer: ZP_CHECKED_WORDS. */
size_t zp_check(const uint64_t *task, size_t task_len, size_t run, uint64_t *answer, size_t answer_len);

/* A list of repair numbers applied at once to the task, in its words; 15 also where it drops a locked need. Answer:
 * ZP_CHANGED_WORDS. */
size_t zp_apply(uint64_t *task, size_t task_len, const uint16_t *list, size_t list_len, uint64_t *answer,
                size_t answer_len);

/* The least repair list into `room`; ZP_LIST_NUMBERS are always enough. Answer: ZP_REPLY_WORDS. */
size_t zp_solve(const uint64_t *task, size_t task_len, uint16_t *room, size_t room_len, uint64_t *answer,
                size_t answer_len);

/* A session table opened for the task: ZP_TABLE_NUMBERS numbers. Answer: ZP_REPLY_WORDS. */
size_t zp_open(const uint64_t *task, size_t task_len, uint16_t *table, size_t table_len, uint64_t *answer,
               size_t answer_len);

/* One cell set to absent (0) or present (any other number) in the task's words, and its fact's row of the table written
 * afresh. `whose` is the action of a need, an add, a delete or a lock, and the run of a start or a goal; 14 if the task has
 * no such action, run or fact; then 18 for a lock set on a cell that isn't a need, or a need cleared under a lock (02, request
 * 6). Answer: ZP_CHANGED_WORDS. */
size_t zp_edit(uint64_t *task, size_t task_len, size_t kind, size_t whose, size_t fact, size_t present,
               uint16_t *table, size_t table_len, uint64_t *answer, size_t answer_len);

/* The list of a session table into `room`; ZP_LIST_NUMBERS are always enough. Answer: ZP_REPLY_WORDS. */
size_t zp_list(const uint64_t *task, size_t task_len, const uint16_t *table, size_t table_len, uint16_t *room,
               size_t room_len, uint64_t *answer, size_t answer_len);

/* The listing text of an input into `room`; ZP_LISTING_BYTES are always enough. Answer: ZP_REPLY_WORDS. */
size_t zp_listing(const uint8_t *input, size_t input_len, uint8_t *room, size_t room_len, uint64_t *answer,
                  size_t answer_len);

/* The table as PDDL (02, request 4; docs/PDDL.md). The texts carry neither the limit nor any steps, which are passed beside
 * them, nor locks: what is read has none. */

/* The task's domain text into `room`; ZP_DOMAIN_BYTES are always enough. Answer: ZP_REPLY_WORDS. */
size_t zp_write_domain(const uint64_t *task, size_t task_len, uint8_t *room, size_t room_len, uint64_t *answer,
                       size_t answer_len);

/* The problem text of the run with this number into `room`; 14 if the task has no such run. ZP_PROBLEM_BYTES are always
 * enough. Answer: ZP_REPLY_WORDS. */
size_t zp_write_problem(const uint64_t *task, size_t task_len, size_t run, uint8_t *room, size_t room_len,
                        uint64_t *answer, size_t answer_len);

/* The table of a domain text, with this limit, as a task that has no run yet: zp_add_run puts the runs to it, and until
 * there is one every other call refuses it with 12. Any text outside the layout gets 17; its place is how many bytes at
 * the beginning still are the beginning of some domain text. Answer: ZP_TASK_ANSWER_WORDS. */
size_t zp_read_domain(const uint8_t *text, size_t text_len, size_t limit, uint64_t *answer, size_t answer_len);

/* The start and the goal of a problem text over so many facts, those of the domain; 4 if they are not 1 to 64, and 17 as
 * above, of the problem texts over so many facts. Answer: ZP_PROBLEM_WORDS. */
size_t zp_read_problem(const uint8_t *text, size_t text_len, size_t facts, uint64_t *answer, size_t answer_len);

/* One run more, after those that the task has, in the task's words: its start and its goal as masks of facts, and an action
 * for each of its steps. 12 unless the task is then well formed. Answer: ZP_CHANGED_WORDS. */
size_t zp_add_run(uint64_t *task, size_t task_len, uint64_t start, uint64_t goal, const uint8_t *steps, size_t steps_len,
                  uint64_t *answer, size_t answer_len);

#ifdef __cplusplus
}
#endif

#endif
