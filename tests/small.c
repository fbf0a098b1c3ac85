#include "small.h"

uint32_t pool[WORDS], was[WORDS], answer[ROOM];

/* ---- one call */

struct call call_of(const uint32_t *x) {
    struct call k = {(enum kind)x[0], x[1], x[2], x[3], x[4]};
    return k;
}

uint32_t ask_with(struct call k, size_t words, size_t room) {
    for (int j = 0; j < ROOM; j++) answer[j] = LEFT;
    memcpy(was, pool, sizeof pool);
    return make_call(k, pool, words, answer, room);
}

int same_pool(void) { return memcmp(was, pool, sizeof pool) == 0; }

int answered(const uint32_t *words, int count) {
    for (int j = 0; j < ROOM; j++)
        if (answer[j] != (j >= WINCH_ANSWER_WORDS ? (uint32_t)LEFT : j < count ? words[j] : 0)) return 0;
    return 1;
}

int untouched(void) {
    for (int j = 0; j < ROOM; j++)
        if (answer[j] != LEFT) return 0;
    return 1;
}

static void report_call(struct call k, uint32_t got) {
    printf("  %s(%u, %u, %u, %u) gave %u:", kind_name(k.kind), k.a, k.b, k.c, k.d, got);
    for (int j = 0; j < 8; j++) printf(" %u", answer[j]);
    printf("\n");
}

/* ---- what is expected of it */

void refuses(struct call k, uint32_t refusal) {
    uint32_t got = ask_with(k, WORDS, ROOM);
    if (!EXPECT(got == refusal)) report_call(k, got);
    EXPECT(answered(NULL, 0));
    EXPECT(same_pool());
}

void answers(struct call k, const uint32_t *words, int count) {
    uint32_t got = ask_with(k, WORDS, ROOM);
    if (!EXPECT(got == 0 && answered(words, count))) report_call(k, got);
    if (k.kind >= LOOK_VERSION) EXPECT(same_pool());
}

void quiet(struct call k) { answers(k, NULL, 0); }

void steps(uint32_t task, int count) {
    while (count--) quiet(CALL(STEP, task));
}

void changed(const struct change *list, int count) {
    for (int j = 0; j < count; j++) was[list[j].at] = list[j].to;
    for (uint32_t i = 0; i < WORDS; i++)
        if (!EXPECT(pool[i] == was[i])) printf("  word %u is %u, not %u\n", i, pool[i], was[i]);
}

/* ---- stores to call on */

void open_store(void) {
    memset(pool, 0, sizeof pool);
    ANSWERS(CALL(OPEN, 2, 2, 2), 2);
}

void one_table(void) {
    open_store();
    quiet(CALL(START_NEW, 0, 7));
    steps(0, 2);
    ANSWERS(CALL(STEP, 0), 2, 3, 256);
}

void no_slot(void) {
    one_table();
    quiet(CALL(START_NEW, 0, 5));
}

void two_tables(void) {
    one_table();
    quiet(CALL(START_SET, 0, 256, 0, 9));
    steps(0, 3);
    ANSWERS(CALL(STEP, 0), 2, 4, 257);
}
