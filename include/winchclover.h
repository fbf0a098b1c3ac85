/* Winchclover: a versioned store of ink tables. C99 and C++.
 *
 * The store lives in a pool: a slice of 32-bit words that the caller lends to each call. A table has N cells and never changes: setting a cell
 * gives a new table. A table is named by the public number of its handle. Work is done by tasks; each winch_step makes one atomic step of one
 * task, in an order that the caller chooses.
 *
 * Slices. A slice is a pointer and then its number of words. The pointer may be null where that number is 0.
 *
 * Answers. Every function returns the refusal number, 0 for none. The numbers of the answer go to the first 16 words of the slice `answer`, the
 * rest of those 16 are set to 0, and later words are left. Under 16 words the call is refused 15 before all else, and the slice stays as it is.
 * A refusal but 10 gives 16 zeros and changes no word of the pool. Where several refusals apply, the first of 15, 1, 3, 4, 5 or 6, 7, 8, 9, 11,
 * 12 is given; 2 comes where the bad place is first read.
 *
 * What the caller owes. The two slices of a call do not overlap. One call at a time is made on one pool, from any thread. Pools that do not
 * overlap are independent. Whatever the words of a pool are, a call ends and stays inside the two slices; the promises on tables and counts are
 * for a kept store: one opened here and changed by nothing but these calls.
 */
#ifndef WINCHCLOVER_H
#define WINCHCLOVER_H

#include <stddef.h>
#include <stdint.h>

#ifdef __cplusplus
extern "C" {
#endif

/* ---- sizes */

#define WINCH_MOST_CELLS 4096
#define WINCH_MOST_HANDLES 256
#define WINCH_MOST_TASKS 16
#define WINCH_MOST_BLOCKS 256

/* the least number of words of an answer slice */
#define WINCH_ANSWER_WORDS 16

/* the words of the control area, of one block, and of a pool with room for so many blocks */
#define WINCH_CONTROL_WORDS(handles, tasks) ((size_t)16 + (size_t)4 * (handles) + (size_t)32 * (tasks))
#define WINCH_BLOCK_WORDS(cells) ((size_t)20 * (cells) + (size_t)16)
#define WINCH_POOL_WORDS(cells, handles, tasks, blocks) \
    (WINCH_CONTROL_WORDS(handles, tasks) + (size_t)(blocks) * WINCH_BLOCK_WORDS(cells))

/* ---- codes */

enum winch_refusal {
    WINCH_ACCEPTED = 0,
    WINCH_NO_STORE = 1,      /* the pool's first words do not describe it */
    WINCH_DAMAGED = 2,       /* a row, block or log that has to be read is not sound; never on a kept store */
    WINCH_BAD_SIZES = 3,     /* open: a size beyond its limits, a pool above 4,294,967,295 words, or no room for one block */
    WINCH_NO_TASK = 4,       /* the task number is T or above */
    WINCH_TASK_BUSY = 5,     /* start: the task is busy */
    WINCH_TASK_IDLE = 6,     /* step: the task is idle */
    WINCH_NO_HANDLE = 7,     /* no live handle has this public number */
    WINCH_NO_CELL = 8,       /* the cell is N or above; page: count 0, or from + count above N */
    WINCH_NO_SLOT = 9,       /* new, set: no slot to reserve */
    WINCH_NO_BLOCK = 10,     /* step: no free block to take; this ends the task, and its step count is answered */
    WINCH_IN_USE = 11,       /* release: a busy task names the handle */
    WINCH_NOT_SHOWN = 12,    /* look: no live handle stands on the block, or there is no such cell or entry */
    WINCH_SHORT_ANSWER = 15  /* the answer slice has under 16 words */
};

enum winch_operation {
    WINCH_OPERATION_IDLE = 0,
    WINCH_OPERATION_NEW = 1,
    WINCH_OPERATION_GET = 2,
    WINCH_OPERATION_SET = 3,
    WINCH_OPERATION_PAGE = 4
};

/* what the next step of a task does */
enum winch_stage {
    WINCH_STAGE_IDLE = 0,
    WINCH_STAGE_TAKE = 1,     /* take a block */
    WINCH_STAGE_FILL = 2,     /* fill the cell in hand */
    WINCH_STAGE_GUESS = 3,    /* read the cell, the guess */
    WINCH_STAGE_VERSION = 4,  /* read V */
    WINCH_STAGE_LENGTH = 5,   /* read the log's length */
    WINCH_STAGE_PROBE = 6,    /* read one entry */
    WINCH_STAGE_EXCHANGE = 7, /* raise V if it is the handle's number */
    WINCH_STAGE_READ = 8,     /* read the old value */
    WINCH_STAGE_APPEND = 9,   /* append it to the log */
    WINCH_STAGE_WRITE = 10,   /* write the cell */
    WINCH_STAGE_PUT = 11      /* a copy's last: write the value at the cell */
};

/* what an accepted step says in its first answer word */
enum winch_said {
    WINCH_SAID_NOTHING = 0,
    WINCH_SAID_CELL = 1,         /* a page hands out a cell */
    WINCH_SAID_END = 2,          /* the task has ended */
    WINCH_SAID_CELL_AND_END = 3  /* a page hands out its last cell and has ended */
};

/* where a step's answer has its numbers; what does not apply is 0 */
enum winch_step_word {
    WINCH_STEP_SAID = 0,
    WINCH_STEP_STEPS = 1,  /* where the task ends: the steps that it took */
    WINCH_STEP_HANDLE = 2, /* where a new or a set ends: the new handle's public number */
    WINCH_STEP_CELL = 3,   /* where a get ends or a page hands out: the cell and its value */
    WINCH_STEP_VALUE = 4
};

/* ---- a store */

/* Opens a store of `cells` cells a table, `handles` handles and `tasks` tasks; it has as many blocks as the pool has room for, at most 256.
 * Answer: the number of blocks. Refusals: 15, 3. Every handle and task of a store that was there is forgotten. */
uint32_t winch_open(uint32_t *pool, size_t pool_words, uint32_t cells, uint32_t handles, uint32_t tasks, uint32_t *answer, size_t answer_words);

/* ---- starting a task: no step is made yet, and nothing is answered */

/* A new table, every cell `value`. N + 1 steps. Refusals: 15, 1, 4, 5, 9, 2. */
uint32_t winch_start_new(uint32_t *pool, size_t pool_words, uint32_t task, uint32_t value, uint32_t *answer, size_t answer_words);

/* The value of one cell. At most 3 steps plus the binary digits of N. Refusals: 15, 1, 4, 5, 7, 8, 2. */
uint32_t winch_start_get(uint32_t *pool, size_t pool_words, uint32_t task, uint32_t handle, uint32_t cell, uint32_t *answer, size_t answer_words);

/* A new table: the handle's, with `value` at `cell`. 4 steps in place, or at most 5N + 3 with a copy. Refusals: 15, 1, 4, 5, 7, 8, 9, 2. */
uint32_t winch_start_set(uint32_t *pool, size_t pool_words, uint32_t task, uint32_t handle, uint32_t cell, uint32_t value, uint32_t *answer,
                         size_t answer_words);

/* The values of `count` cells from cell `from` on, each handed out by the step that settles it. Refusals: 15, 1, 4, 5, 7, 8, 2. */
uint32_t winch_start_page(uint32_t *pool, size_t pool_words, uint32_t task, uint32_t handle, uint32_t from, uint32_t count, uint32_t *answer,
                          size_t answer_words);

/* ---- one step of a task */

/* Answer: what the step says, steps, new handle, cell, value (enum winch_step_word). Refusals: 15, 1, 4, 6, 2, 10.
 * Refusal 10 answers 2 (the task has ended) and the steps; the task is idle, its slot is free, every table stays. */
uint32_t winch_step(uint32_t *pool, size_t pool_words, uint32_t task, uint32_t *answer, size_t answer_words);

/* ---- giving a version back */

/* The handle's public number names nothing from now on. Nothing is answered. Refusals: 15, 1, 7, 11, 2. */
uint32_t winch_release(uint32_t *pool, size_t pool_words, uint32_t handle, uint32_t *answer, size_t answer_words);

/* ---- looking inside: no word of the pool changes */

/* Answer: V. Refusals: 15, 1, 12, 2. */
uint32_t winch_look_version(const uint32_t *pool, size_t pool_words, uint32_t block, uint32_t *answer, size_t answer_words);

/* Answer: the cell as it stands in the block. Refusals: 15, 1, 12, 2. */
uint32_t winch_look_cell(const uint32_t *pool, size_t pool_words, uint32_t block, uint32_t cell, uint32_t *answer, size_t answer_words);

/* Answer: the length of the cell's log. Refusals: 15, 1, 12, 2. */
uint32_t winch_look_log(const uint32_t *pool, size_t pool_words, uint32_t block, uint32_t cell, uint32_t *answer, size_t answer_words);

/* Answer: version and old value of one entry of the cell's log, the oldest at index 0. Refusals: 15, 1, 12, 2. */
uint32_t winch_look_entry(const uint32_t *pool, size_t pool_words, uint32_t block, uint32_t cell, uint32_t index, uint32_t *answer,
                          size_t answer_words);

/* Answer: operation, stage, cell in hand, lo, hi, guess, candidate, whether there is one (1 or 0); zeros for an idle task.
 * Refusals: 15, 1, 4, 2. */
uint32_t winch_look_task(const uint32_t *pool, size_t pool_words, uint32_t task, uint32_t *answer, size_t answer_words);

/* Answer: live handles; the different blocks on which they stand. Refusals: 15, 1, 2. */
uint32_t winch_report(const uint32_t *pool, size_t pool_words, uint32_t *answer, size_t answer_words);

/* The whole-store check, of any content of the pool. Answer: 0 where every rule holds, else the number of the first that is broken (1 to 7; docs/LAYOUT.md
 * has rule 7). Refusal: 15 alone. */
uint32_t winch_check(const uint32_t *pool, size_t pool_words, uint32_t *answer, size_t answer_words);

#ifdef __cplusplus
}
#endif

#endif
