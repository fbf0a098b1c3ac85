/* A small store with words overwritten: the rule that the check names, and refusal 2. */
#include "small.h"

/* ---- the check: the first broken rule */

static void broken(uint32_t at, uint32_t to, uint32_t rule) {
    uint32_t kept = pool[at];
    pool[at] = to;
    if (EXPECT(ask_with(CALL(CHECK), WORDS, ROOM) == 0))
        if (!EXPECT(answered(&rule, 1))) printf("  word %u to %u: rule %u, not %u\n", at, to, answer[0], rule);
    EXPECT(same_pool());
    pool[at] = kept;
}

static void first_rules(void) {
    begin_case("the check: rules 1 and 2");
    two_tables();
    ANSWERS(CALL(CHECK), 0);
    broken(0, 0, 1);
    broken(5, 7, 1);
    broken(SLOT_0 + 2, 2, 2);
    broken(SLOT_0 + 2, UINT32_MAX, 2);
    broken(SLOT_1 + 3, 2, 2);
    broken(SLOT_1 + 3, 3, 2);
    broken(BLOCK_0, 0, 2);
    broken(BLOCK_0, 4, 2);
    end_case();
}

/* cell 0 of block 0 has the entries (0, 7) and (1, 9) at places 0 and 1; cell 1 may have one more at place 3 */
static void logs_and_rows(void) {
    begin_case("the check: rules 3 to 7");
    memset(pool, 0, sizeof pool);
    one_table();
    quiet(CALL(START_SET, 0, 256, 0, 9));
    steps(0, 3);
    ANSWERS(CALL(STEP, 0), 2, 4, 257);
    quiet(CALL(RELEASE, 256));
    quiet(CALL(START_SET, 0, 257, 0, 4));
    steps(0, 3);
    ANSWERS(CALL(STEP, 0), 2, 4, 512);
    ANSWERS(CALL(CHECK), 0);
    broken(BLOCK_0 + ARENA, 2, 3);             /* not below V */
    broken(BLOCK_0 + ARENA + 2, 0, 3);         /* not rising */
    broken(BLOCK_0 + LENGTHS, 3, 3);           /* more entries than versions */
    broken(BLOCK_0 + DIRECTORY + 1, 4, 3);     /* outside the arena */
    broken(BLOCK_0 + DIRECTORY + 1, UINT32_MAX, 3);
    broken(BLOCK_0 + DIRECTORY + 1, 0, 3);     /* one entry twice */
    broken(SLOT_1 + 3, 2, 5);                  /* two handles at one number */
    broken(BLOCK_0 + 1, 2, 7);                 /* the bump is not the number of places held */
    broken(BLOCK_0 + 1, 4, 7);
    pool[BLOCK_0] = 3;
    pool[BLOCK_0 + LENGTHS + 1] = 1;
    pool[BLOCK_0 + DIRECTORY + 13] = 3;
    broken(BLOCK_0 + ARENA + 6, 1, 3);         /* one version in two logs */
    broken(BLOCK_0 + ARENA + 6, 2, 4);         /* three entries in a block of two cells */
    pool[BLOCK_0 + LENGTHS + 1] = 0;
    pool[BLOCK_0 + LENGTHS] = 3;
    broken(BLOCK_0 + ARENA + 4, 2, 4);         /* the same in one log */
    broken(BLOCK_0 + ARENA + 4, 3, 3);
    end_case();
    begin_case("the check: rule 6");
    no_slot();
    broken(SLOT_1 + 1, 0, 6);                  /* a task's slot that is not reserved */
    broken(TASK_0, 0, 6);                      /* a reserved slot without its task */
    quiet(CALL(START_GET, 1, 256, 0));
    broken(TASK_1 + 1, 1, 6);                  /* a task's handle that is not live */
    steps(0, 1);
    ANSWERS(CALL(CHECK), 0);
    broken(TASK_0 + 8, 0, 6);                  /* a block being filled with a live handle */
    end_case();
}

static void layout_rules(void) {
    begin_case("the check: rule 7");
    one_table();
    broken(SLOT_0, 0, 7);                      /* a live slot that has carried no handle */
    broken(SLOT_0, 16777216, 7);
    broken(SLOT_1 + 1, 3, 7);                  /* no status */
    broken(SLOT_1 + 2, 1, 7);                  /* a free slot with a block */
    broken(TASK_0, 60, 7);                     /* no code */
    broken(TASK_0 + 5, 1, 7);                  /* an idle task with a value */
    quiet(CALL(START_SET, 0, 256, 0, 9));
    broken(TASK_0 + 4, 2, 7);                  /* no such cell */
    broken(TASK_0 + 16, 1, 7);                 /* a step too many */
    broken(SLOT_1, 16777215, 7);               /* the slot that it has reserved is spent */
    steps(0, 1);
    broken(BLOCK_0, 2, 7);                     /* V is not one above its number */
    quiet(CALL(START_GET, 1, 256, 0));
    steps(1, 2);
    ANSWERS(CALL(CHECK), 0);
    broken(TASK_1 + 13, 1, 7);                 /* a candidate before the search */
    steps(0, 2);
    steps(1, 1);
    ANSWERS(CALL(CHECK), 0);
    broken(TASK_1 + 12, 2, 7);                 /* hi beyond the log */
    broken(TASK_1 + 11, 1, 7);                 /* lo is not below hi */
    end_case();
}

/* ---- refusal 2: the proved archive alone tests what it reads */

#ifndef WINCH_IS_PLAIN
static void damaged(uint32_t at, uint32_t to, struct call k) {
    uint32_t kept = pool[at];
    pool[at] = to;
    refuses(k, 2);
    EXPECT(ask_with(CALL(CHECK), WORDS, ROOM) == 0 && answer[0] != 0);
    pool[at] = kept;
}

static void damaged_rows(void) {
    begin_case("2 of a row");
    two_tables();
    quiet(CALL(START_GET, 1, 256, 0));
    damaged(TASK_1, 60, CALL(STEP, 1));
    damaged(TASK_1, 1, CALL(STEP, 1));
    damaged(TASK_1 + 2, 2, CALL(STEP, 1));
    damaged(TASK_1 + 9, 2, CALL(STEP, 1));
    damaged(TASK_1, 60, CALL(LOOK_TASK, 1));
    damaged(TASK_1, 60, CALL(START_GET, 1, 256, 0));
    damaged(TASK_1, 60, CALL(RELEASE, 257));
    damaged(SLOT_0 + 1, 3, CALL(START_GET, 0, 256, 0));
    damaged(SLOT_0 + 2, 2, CALL(START_GET, 0, 256, 0));
    damaged(SLOT_0 + 2, 2, CALL(START_SET, 0, 256, 0, 1));
    damaged(SLOT_0 + 2, 2, CALL(START_PAGE, 0, 256, 0, 1));
    damaged(SLOT_0 + 2, UINT32_MAX, CALL(RELEASE, 256));
    damaged(SLOT_0 + 3, 3, CALL(START_GET, 0, 256, 0));
    damaged(SLOT_0 + 3, UINT32_MAX, CALL(RELEASE, 256));
    damaged(SLOT_0 + 1, 3, CALL(START_NEW, 0, 1));
    damaged(SLOT_0 + 1, 3, CALL(REPORT));
    damaged(SLOT_0 + 1, 3, CALL(LOOK_VERSION, 0));
    end_case();
}

/* a number of a task that points outside is met where a step goes by it: a block, a cell, a slot */
static void damaged_numbers(void) {
    begin_case("2 of a number that points outside");
    one_table();
    quiet(CALL(START_SET, 0, 256, 0, 1));
    damaged(TASK_0 + 2, 2, CALL(STEP, 0));
    steps(0, 1);
    damaged(TASK_0 + 4, 2, CALL(STEP, 0));
    steps(0, 2);
    damaged(TASK_0 + 7, UINT32_MAX, CALL(STEP, 0));
    damaged(TASK_0 + 4, UINT32_MAX, CALL(STEP, 0));
    ANSWERS(CALL(STEP, 0), 2, 4, 257);
    end_case();
}

static void damaged_logs(void) {
    begin_case("2 of a log");
    two_tables();
    damaged(BLOCK_0 + LENGTHS, 3, CALL(LOOK_LOG, 0, 0));
    damaged(BLOCK_0 + LENGTHS, 3, CALL(LOOK_ENTRY, 0, 0, 0));
    damaged(BLOCK_0 + DIRECTORY, 4, CALL(LOOK_ENTRY, 0, 0, 0));
    quiet(CALL(START_GET, 1, 256, 0));
    steps(1, 2);
    damaged(BLOCK_0 + LENGTHS, UINT32_MAX, CALL(STEP, 1));
    steps(1, 1);
    damaged(BLOCK_0 + DIRECTORY, UINT32_MAX, CALL(STEP, 1));
    damaged(BLOCK_0 + LENGTHS, 0, CALL(STEP, 1));
    ANSWERS(CALL(STEP, 1), 2, 4, 0, 0, 7);
    end_case();
}
#endif

int main(void) {
    first_rules();
    logs_and_rows();
    layout_rules();
#ifndef WINCH_IS_PLAIN
    damaged_rows();
    damaged_numbers();
    damaged_logs();
#endif
    return summary();
}
