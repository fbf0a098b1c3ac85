/* A small store for the tests that go word by word, and what is expected of one call on it. */
#ifndef WINCH_TESTS_SMALL_H
#define WINCH_TESTS_SMALL_H

#include "harness.h"

/* N = 2, H = 2, T = 2, B = 2: handle rows at 16 and 20, task rows at 24 and 56, blocks at 88 and 144 */
enum { WORDS = 200, SLOT_0 = 16, SLOT_1 = 20, TASK_0 = 24, TASK_1 = 56, BLOCK_0 = 88, BLOCK_1 = 144, ROOM = 20, LEFT = 77 };
enum { CELLS = 16, LENGTHS = 18, DIRECTORY = 20, ARENA = 46 }; /* in a block of 2 cells */

/* the pool, the pool before the last call, and the answer slice */
extern uint32_t pool[WORDS], was[WORDS], answer[ROOM];

/* ---- one call */

struct call call_of(const uint32_t *x);
uint32_t ask_with(struct call k, size_t words, size_t room);

int same_pool(void);
/* the first words of the answer, zeros up to 16, and what was there after that */
int answered(const uint32_t *words, int count);
int untouched(void);

/* ---- what is expected of it */

struct change {
    uint32_t at, to;
};

void refuses(struct call k, uint32_t refusal);
void answers(struct call k, const uint32_t *words, int count);
void quiet(struct call k);
void steps(uint32_t task, int count);
/* the pool is as before the last call but for these words */
void changed(const struct change *list, int count);

#define CALL(...) call_of((const uint32_t[5]){__VA_ARGS__}) /* the function, then its arguments; what is left out is 0 */
#define ANSWERS(call, ...) answers(call, (const uint32_t[]){__VA_ARGS__}, (int)(sizeof((uint32_t[]){__VA_ARGS__}) / sizeof(uint32_t)))
#define CHANGED(...) changed((const struct change[]){__VA_ARGS__}, (int)(sizeof((struct change[]){__VA_ARGS__}) / sizeof(struct change)))

/* ---- stores to call on */

void open_store(void);
/* 256 stands on block 0 with every cell 7 */
void one_table(void);
/* and task 0 is busy with a new, which has reserved the last slot */
void no_slot(void);
/* 256 and 257, its cell 0 set to 9 */
void two_tables(void);

#endif
