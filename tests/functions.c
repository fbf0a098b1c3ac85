/* Every function through the header: every refusal number in the table's order, every answer word, every word of the pool. */
#include "small.h"

/* ---- refusals 15 and 1 of every function; null slices */

static struct call any_call(int kind) {
    struct call k = {(enum kind)kind, 99, 99, 99, 99};
    return k;
}

static void short_answers(void) {
    for (int kind = 0; kind < KINDS; kind++) {
        begin_case("15 before all else");
        one_table();
        pool[0] = 1; /* 1 would apply too */
        for (size_t room = 0; room < WINCH_ANSWER_WORDS; room++) {
            EXPECT(ask_with(any_call(kind), WORDS, room) == 15);
            EXPECT(untouched() && same_pool());
        }
        EXPECT(ask_with(any_call(kind), WORDS, WINCH_ANSWER_WORDS) != 15);
        end_case();
    }
}

/* refusal 1, or for the check its answer 1 */
static void not_described(struct call k, size_t words) {
    static const uint32_t one[] = {1};
    uint32_t got = ask_with(k, words, ROOM);
    EXPECT(k.kind == CHECK ? got == 0 && answered(one, 1) : got == 1 && answered(NULL, 0));
    EXPECT(same_pool());
}

static void wrong_header(int kind) {
    static const struct change wrong[] = {{0, 0x00494B57}, {0, 0}, {1, 0}, {1, 4097}, {1, UINT32_MAX}, {2, 0}, {2, 257}, {2, UINT32_MAX},
                                          {3, 0}, {3, 17}, {3, UINT32_MAX}, {4, 199}, {4, 201}, {5, 0}, {5, 2}, {2, 256}, {3, 16}, {1, 4096}};
    begin_case("1 of a header that does not describe the pool");
    for (size_t j = 0; j < sizeof wrong / sizeof wrong[0]; j++) {
        one_table();
        pool[wrong[j].at] = wrong[j].to;
        not_described(any_call(kind), WORDS);
    }
    end_case();
}

static void wrong_length(int kind) {
    begin_case("1 of a pool of another length");
    one_table();
    for (size_t words = 0; words < WORDS; words++) not_described(any_call(kind), words);
    pool[4] = 15;
    not_described(any_call(kind), 15);
    pool[4] = BLOCK_0 + 55;
    not_described(any_call(kind), BLOCK_0 + 55);
    end_case();
}

static void not_a_store(void) {
    for (int kind = START_NEW; kind < KINDS; kind++) {
        wrong_header(kind);
        wrong_length(kind);
    }
}

/* a null pointer with the number 0: as a pool, as an answer slice, as both */
static void null_slices(void) {
    static const uint32_t one[] = {1};
    for (int kind = 0; kind < KINDS; kind++) {
        struct call k = kind == OPEN ? CALL(OPEN, 2, 2, 2) : any_call(kind);
        begin_case("null slices of 0 words");
        one_table();
        for (int j = 0; j < ROOM; j++) answer[j] = LEFT;
        memcpy(was, pool, sizeof pool);
        EXPECT(make_call(k, NULL, 0, NULL, 0) == 15);
        EXPECT(make_call(k, pool, WORDS, NULL, 0) == 15);
        EXPECT(untouched() && same_pool());
        EXPECT(make_call(k, NULL, 0, answer, ROOM) == (kind == OPEN ? 3u : kind == CHECK ? 0u : 1u));
        EXPECT(answered(one, kind == CHECK));
        EXPECT(same_pool());
        end_case();
    }
}

/* ---- each function: its refusals in order, each with all that come after it also due; then it is accepted */

static void opening(void) {
    begin_case("open: 3");
    one_table();
    refuses(CALL(OPEN, 0, 2, 2), 3);
    refuses(CALL(OPEN, 4097, 2, 2), 3);
    refuses(CALL(OPEN, 2, 0, 2), 3);
    refuses(CALL(OPEN, 2, 257, 2), 3);
    refuses(CALL(OPEN, 2, 2, 0), 3);
    refuses(CALL(OPEN, 2, 2, 17), 3);
    refuses(CALL(OPEN, 100, 2, 2), 3);
    refuses(CALL(OPEN, UINT32_MAX, UINT32_MAX, UINT32_MAX), 3);
    end_case();
    begin_case("open: the control area is written, the blocks stay");
    for (int i = 0; i < WORDS; i++) pool[i] = 1000 + (uint32_t)i;
    ANSWERS(CALL(OPEN, 2, 2, 2), 2);
    for (int i = 6; i < BLOCK_0; i++) was[i] = 0;
    CHANGED({0, 0x00494B56}, {1, 2}, {2, 2}, {3, 2}, {4, WORDS}, {5, 1});
    end_case();
}

static void starting_new(void) {
    begin_case("start_new");
    no_slot();
    refuses(CALL(START_NEW, 2, 7), 4);
    refuses(CALL(START_NEW, UINT32_MAX, 7), 4);
    refuses(CALL(START_NEW, 0, 7), 5);
    refuses(CALL(START_NEW, 1, 7), 9);
    open_store();
    quiet(CALL(START_NEW, 1, 7));
    CHANGED({SLOT_0 + 1, 1}, {TASK_1, 13}, {TASK_1 + 5, 7});
    end_case();
}

static void starting_get(void) {
    begin_case("start_get");
    no_slot();
    refuses(CALL(START_GET, 2, 255, 2), 4);
    refuses(CALL(START_GET, 0, 255, 2), 5);
    refuses(CALL(START_GET, 1, 255, 2), 7);
    refuses(CALL(START_GET, 1, 0, 0), 7);
    refuses(CALL(START_GET, 1, 512, 0), 7);
    refuses(CALL(START_GET, 1, 257, 0), 7);
    refuses(CALL(START_GET, 1, 1, 0), 7);
    refuses(CALL(START_GET, 1, 258, 0), 7);
    refuses(CALL(START_GET, 1, UINT32_MAX, 0), 7);
    refuses(CALL(START_GET, 1, 256, 2), 8);
    refuses(CALL(START_GET, 1, 256, UINT32_MAX), 8);
    quiet(CALL(START_GET, 1, 256, 1));
    CHANGED({TASK_1, 27}, {TASK_1 + 4, 1}, {TASK_1 + 9, 1});
    end_case();
}

static void starting_set(void) {
    begin_case("start_set");
    no_slot();
    refuses(CALL(START_SET, 2, 255, 2, 9), 4);
    refuses(CALL(START_SET, 0, 255, 2, 9), 5);
    refuses(CALL(START_SET, 1, 255, 2, 9), 7);
    refuses(CALL(START_SET, 1, 256, 2, 9), 8);
    refuses(CALL(START_SET, 1, 256, 1, 9), 9);
    one_table();
    quiet(CALL(START_SET, 1, 256, 1, 9));
    CHANGED({SLOT_1 + 1, 1}, {TASK_1, 43}, {TASK_1 + 4, 1}, {TASK_1 + 5, 9}, {TASK_1 + 7, 1}, {TASK_1 + 9, 1});
    end_case();
}

static void starting_page(void) {
    begin_case("start_page");
    no_slot();
    refuses(CALL(START_PAGE, 2, 255, 0, 0), 4);
    refuses(CALL(START_PAGE, 0, 255, 0, 0), 5);
    refuses(CALL(START_PAGE, 1, 255, 0, 0), 7);
    refuses(CALL(START_PAGE, 1, 256, 0, 0), 8);
    refuses(CALL(START_PAGE, 1, 256, 0, 3), 8);
    refuses(CALL(START_PAGE, 1, 256, 1, 2), 8);
    refuses(CALL(START_PAGE, 1, 256, UINT32_MAX, 1), 8);
    refuses(CALL(START_PAGE, 1, 256, 1, UINT32_MAX), 8);
    quiet(CALL(START_PAGE, 1, 256, 1, 1));
    CHANGED({TASK_1, 51}, {TASK_1 + 4, 1}, {TASK_1 + 6, 2}, {TASK_1 + 9, 1});
    end_case();
}

static void stepping(void) {
    begin_case("step: 4 and 6");
    one_table();
    refuses(CALL(STEP, 2), 4);
    refuses(CALL(STEP, UINT32_MAX), 4);
    refuses(CALL(STEP, 0), 6);
    refuses(CALL(STEP, 1), 6);
    end_case();
}

static void stepping_a_new(void) {
    begin_case("the steps of a new");
    open_store();
    pool[BLOCK_0] = 3;
    pool[BLOCK_0 + 1] = 4;
    pool[BLOCK_0 + LENGTHS] = 1;
    pool[BLOCK_0 + LENGTHS + 1] = 2;
    quiet(CALL(START_NEW, 0, 7));
    quiet(CALL(STEP, 0));
    CHANGED({TASK_0, 14}, {TASK_0 + 16, 1}, {BLOCK_0, 0}, {BLOCK_0 + 1, 0});
    quiet(CALL(STEP, 0));
    CHANGED({TASK_0 + 9, 1}, {TASK_0 + 16, 2}, {BLOCK_0 + CELLS, 7}, {BLOCK_0 + LENGTHS, 0});
    ANSWERS(CALL(STEP, 0), 2, 3, 256);
    CHANGED({TASK_0, 0}, {TASK_0 + 5, 0}, {TASK_0 + 9, 0}, {TASK_0 + 16, 0}, {SLOT_0, 1}, {SLOT_0 + 1, 2}, {BLOCK_0 + CELLS + 1, 7},
            {BLOCK_0 + LENGTHS + 1, 0});
    end_case();
}

static void stepping_a_set(void) {
    begin_case("the steps of a set in place");
    one_table();
    quiet(CALL(START_SET, 1, 256, 1, 9));
    quiet(CALL(STEP, 1));
    CHANGED({TASK_1, 44}, {TASK_1 + 16, 1}, {BLOCK_0, 1});
    quiet(CALL(STEP, 1));
    CHANGED({TASK_1, 45}, {TASK_1 + 16, 2}, {TASK_1 + 10, 7});
    quiet(CALL(STEP, 1));
    CHANGED({TASK_1, 46}, {TASK_1 + 16, 3}, {BLOCK_0 + 1, 1}, {BLOCK_0 + LENGTHS + 1, 1}, {BLOCK_0 + DIRECTORY + 13, 0}, {BLOCK_0 + ARENA, 0},
            {BLOCK_0 + ARENA + 1, 7});
    ANSWERS(CALL(LOOK_TASK, 1), 3, 10, 1, 0, 0, 7, 0, 0);
    ANSWERS(CALL(STEP, 1), 2, 4, 257);
    for (int i = TASK_1; i < BLOCK_0; i++) was[i] = 0;
    CHANGED({SLOT_1, 1}, {SLOT_1 + 1, 2}, {SLOT_1 + 2, 0}, {SLOT_1 + 3, 1}, {BLOCK_0 + CELLS + 1, 9});
    end_case();
}

static void stepping_gets(void) {
    begin_case("the steps of gets");
    two_tables();
    quiet(CALL(START_GET, 0, 257, 0));
    quiet(CALL(STEP, 0));
    CHANGED({TASK_0, 28}, {TASK_0 + 10, 9}, {TASK_0 + 16, 1});
    ANSWERS(CALL(STEP, 0), 2, 2, 0, 0, 9);
    quiet(CALL(START_GET, 0, 256, 0));
    steps(0, 2);
    CHANGED({TASK_0, 29}, {TASK_0 + 16, 2});
    ANSWERS(CALL(LOOK_TASK, 0), 2, 5, 0, 0, 0, 9, 0, 0);
    quiet(CALL(STEP, 0));
    CHANGED({TASK_0, 30}, {TASK_0 + 12, 1}, {TASK_0 + 16, 3});
    ANSWERS(CALL(LOOK_TASK, 0), 2, 6, 0, 0, 1, 9, 0, 0);
    ANSWERS(CALL(STEP, 0), 2, 4, 0, 0, 7);
    quiet(CALL(START_GET, 0, 256, 1));
    steps(0, 2);
    ANSWERS(CALL(STEP, 0), 2, 3, 0, 1, 7);
    end_case();
}

static void stepping_a_page(void) {
    begin_case("the steps of a page");
    two_tables();
    quiet(CALL(START_PAGE, 1, 256, 0, 2));
    steps(1, 3);
    ANSWERS(CALL(STEP, 1), 1, 0, 0, 0, 7);
    CHANGED({TASK_1, 51}, {TASK_1 + 9, 1}, {TASK_1 + 10, 0}, {TASK_1 + 12, 0}, {TASK_1 + 16, 4});
    steps(1, 2);
    ANSWERS(CALL(STEP, 1), 3, 7, 0, 1, 7);
    refuses(CALL(STEP, 1), 6);
    end_case();
}

/* a later set: it copies block 0 into block 1, and shows its gets */
static void stepping_a_copy(void) {
    begin_case("the steps of a copying set");
    memset(pool, 0, sizeof pool);
    ANSWERS(CALL(OPEN, 1, 4, 2), 2);
    quiet(CALL(START_NEW, 0, 7));
    steps(0, 1);
    ANSWERS(CALL(STEP, 0), 2, 2, 256);
    quiet(CALL(START_SET, 0, 256, 0, 9));
    steps(0, 3);
    ANSWERS(CALL(STEP, 0), 2, 4, 257);
    quiet(CALL(START_SET, 0, 256, 0, 5));
    ANSWERS(CALL(LOOK_TASK, 0), 3, 7);
    steps(0, 1);
    ANSWERS(CALL(LOOK_TASK, 0), 3, 1);
    steps(0, 1);
    ANSWERS(CALL(LOOK_TASK, 0), 3, 3);
    refuses(CALL(LOOK_VERSION, 1), 12);
    steps(0, 1);
    ANSWERS(CALL(LOOK_TASK, 0), 3, 4, 0, 0, 0, 9);
    steps(0, 2);
    ANSWERS(CALL(LOOK_TASK, 0), 3, 6, 0, 0, 1, 9);
    steps(0, 1);
    ANSWERS(CALL(LOOK_TASK, 0), 3, 2, 0, 0, 0, 9, 7, 1);
    steps(0, 1);
    ANSWERS(CALL(LOOK_TASK, 0), 3, 11);
    ANSWERS(CALL(STEP, 0), 2, 8, 258);
    ANSWERS(CALL(LOOK_CELL, 1, 0), 5);
    ANSWERS(CALL(LOOK_VERSION, 1), 0);
    ANSWERS(CALL(REPORT), 3, 2);
    end_case();
}

/* 10 ends its task: idle, its slot free, no serial raised, its steps answered */
static void no_block(void) {
    begin_case("step: 10");
    memset(pool, 0, sizeof pool);
    EXPECT(winch_open(pool, 144, 2, 2, 2, answer, ROOM) == 0 && answer[0] == 1);
    for (int i = 0; i < 4; i++) EXPECT((i ? winch_step(pool, 144, 0, answer, ROOM) : winch_start_new(pool, 144, 0, 7, answer, ROOM)) == 0);
    EXPECT(winch_start_new(pool, 144, 1, 8, answer, ROOM) == 0);
    EXPECT(ask_with(CALL(STEP, 1), 144, ROOM) == 10);
    EXPECT(answered((const uint32_t[]){2, 1}, 2));
    CHANGED({SLOT_1 + 1, 0}, {TASK_1, 0}, {TASK_1 + 5, 0}, {TASK_1 + 7, 0});
    end_case();
}

static void releasing(void) {
    begin_case("release");
    two_tables();
    quiet(CALL(START_GET, 1, 256, 0));
    refuses(CALL(RELEASE, 255), 7);
    refuses(CALL(RELEASE, 512), 7);
    refuses(CALL(RELEASE, 258), 7);
    refuses(CALL(RELEASE, UINT32_MAX), 7);
    refuses(CALL(RELEASE, 256), 11);
    quiet(CALL(RELEASE, 257));
    CHANGED({SLOT_1 + 1, 0}, {SLOT_1 + 3, 0});
    refuses(CALL(RELEASE, 257), 7);
    steps(1, 3);
    ANSWERS(CALL(STEP, 1), 2, 4, 0, 0, 7);
    quiet(CALL(RELEASE, 256));
    ANSWERS(CALL(REPORT), 0, 0);
    refuses(CALL(LOOK_VERSION, 0), 12);
    end_case();
}

/* a set and a page keep their handle in use too; a new names none */
static void in_use(void) {
    begin_case("handles in use");
    one_table();
    quiet(CALL(START_NEW, 1, 5));
    quiet(CALL(START_PAGE, 0, 256, 0, 2));
    refuses(CALL(RELEASE, 256), 11);
    one_table();
    quiet(CALL(START_SET, 0, 256, 0, 9));
    for (int i = 0; i < 3; i++) {
        refuses(CALL(RELEASE, 256), 11);
        steps(0, 1);
    }
    refuses(CALL(RELEASE, 256), 11);
    ANSWERS(CALL(STEP, 0), 2, 4, 257);
    quiet(CALL(RELEASE, 256));
    end_case();
}

static void looking(void) {
    begin_case("the looks");
    two_tables();
    ANSWERS(CALL(LOOK_VERSION, 0), 1);
    refuses(CALL(LOOK_VERSION, 1), 12);
    refuses(CALL(LOOK_VERSION, 2), 12);
    refuses(CALL(LOOK_VERSION, UINT32_MAX), 12);
    ANSWERS(CALL(LOOK_CELL, 0, 0), 9);
    ANSWERS(CALL(LOOK_CELL, 0, 1), 7);
    refuses(CALL(LOOK_CELL, 0, 2), 12);
    refuses(CALL(LOOK_CELL, 1, 0), 12);
    ANSWERS(CALL(LOOK_LOG, 0, 0), 1);
    ANSWERS(CALL(LOOK_LOG, 0, 1), 0);
    refuses(CALL(LOOK_LOG, 0, 2), 12);
    refuses(CALL(LOOK_LOG, 2, 0), 12);
    ANSWERS(CALL(LOOK_ENTRY, 0, 0, 0), 0, 7);
    refuses(CALL(LOOK_ENTRY, 0, 0, 1), 12);
    refuses(CALL(LOOK_ENTRY, 0, 1, 0), 12);
    refuses(CALL(LOOK_ENTRY, 0, 2, 0), 12);
    refuses(CALL(LOOK_ENTRY, 1, 0, 0), 12);
    refuses(CALL(LOOK_TASK, 2), 4);
    ANSWERS(CALL(LOOK_TASK, 1), 0);
    ANSWERS(CALL(REPORT), 2, 1);
    ANSWERS(CALL(CHECK), 0);
    end_case();
}

int main(void) {
    short_answers();
    not_a_store();
    null_slices();
    opening();
    starting_new();
    starting_get();
    starting_set();
    starting_page();
    stepping();
    stepping_a_new();
    stepping_a_set();
    stepping_gets();
    stepping_a_page();
    stepping_a_copy();
    no_block();
    releasing();
    in_use();
    looking();
    return summary();
}
