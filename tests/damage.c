/* Damaged pools: random words of a store at work are overwritten, then every call is made. Guard pages lie on both sides of the pool and of the
 * answer slice, so that a read or a write outside them ends the program. The optional argument is the most words that are overwritten at a time;
 * with 0 the test tries itself on kept stores. */
#define _DEFAULT_SOURCE
#include "harness.h"

#include <sys/mman.h>
#include <unistd.h>

enum { MOST_WORDS = 8192, LEFT = 77, KEPT_HANDLES = 32 };

struct plan {
    uint32_t n, h, t;
    size_t words; /* whole pages, so that the guards touch the pool on both sides */
};

static struct plan d;
static uint32_t blocks;
static uint32_t *pool, was[MOST_WORDS], *answer;
static size_t room, page_words;
static uint32_t handles[KEPT_HANDLES];
static uint64_t calls, met[16];

/* ---- memory between guards */

static uint32_t *guarded(size_t words) {
    size_t page = page_words * sizeof(uint32_t), size = (words * sizeof(uint32_t) + page - 1) / page * page;
    char *at = mmap(NULL, size + 2 * page, PROT_READ | PROT_WRITE, MAP_PRIVATE | MAP_ANONYMOUS, -1, 0);
    if (at == MAP_FAILED || mprotect(at, page, PROT_NONE) || mprotect(at + page + size, page, PROT_NONE)) {
        perror("guard pages");
        exit(2);
    }
    return (uint32_t *)(void *)(at + page);
}

static void release_guarded(uint32_t *at, size_t words) {
    size_t page = page_words * sizeof(uint32_t), size = (words * sizeof(uint32_t) + page - 1) / page * page;
    munmap((char *)(void *)at - page, size + 2 * page);
}

/* the answer slice: a whole page, or 16 words at either end of one */
static void place_answer(uint32_t *page) {
    uint32_t way = below(3);
    room = way == 0 ? page_words : WINCH_ANSWER_WORDS;
    answer = way == 1 ? page + page_words - WINCH_ANSWER_WORDS : page;
    for (size_t j = 0; j < page_words; j++) page[j] = LEFT;
}

/* ---- what must hold of every call */

/* document 01's refusal 1, of the words as they are now */
static int describes(void) {
    uint32_t n = was[1], h = was[2], t = was[3];
    return was[0] == 0x00494B56 && was[4] == d.words && was[5] == 1 && n >= 1 && n <= 4096 && h >= 1 && h <= 256 && t >= 1 && t <= 16 &&
           d.words >= WINCH_POOL_WORDS(n, h, t, 1);
}

static int zeros(void) {
    for (int j = 0; j < WINCH_ANSWER_WORDS; j++)
        if (answer[j]) return 0;
    return 1;
}

static int rest_left(void) {
    for (size_t j = WINCH_ANSWER_WORDS; j < room; j++)
        if (answer[j] != LEFT) return 0;
    return 1;
}

static uint32_t broken_rule(void) {
    uint32_t a[WINCH_ANSWER_WORDS];
    return winch_check(was, d.words, a, WINCH_ANSWER_WORDS) ? UINT32_MAX : a[0];
}

static int known(uint32_t refusal) { return refusal <= 12 && refusal != 3; }

static uint32_t ask(struct call k) {
    memcpy(was, pool, d.words * sizeof *pool);
    uint32_t refusal = make_call(k, pool, d.words, answer, room);
    calls++;
    if (refusal < 16) met[refusal]++;
    EXPECT(known(refusal) || (k.kind == OPEN && refusal == 3));
    EXPECT(rest_left());
    if (refusal && refusal != 10) EXPECT(zeros());
    if ((refusal && refusal != 10) || k.kind >= LOOK_VERSION) EXPECT(memcmp(was, pool, d.words * sizeof *pool) == 0);
    if (k.kind != OPEN && k.kind != CHECK) EXPECT((refusal == 1) == !describes());
    if (k.kind == CHECK) EXPECT(refusal == 0 && answer[0] <= 7 && (answer[0] == 1) == !describes());
    if (refusal == 2) EXPECT(broken_rule() != 0);
    if (case_failed()) printf("  in %s(%u, %u, %u, %u): %u\n", kind_name(k.kind), k.a, k.b, k.c, k.d, refusal);
    return refusal;
}

/* ---- calls with arguments that are mostly good */

static uint32_t odd(uint32_t good) { return one_in(12) ? draw() : good; }

static uint32_t some_handle(void) { return handles[below(KEPT_HANDLES)]; }

static struct call some_call(enum kind kind) {
    struct call k = {kind, 0, 0, 0, 0};
    k.a = odd(below(kind == LOOK_TASK || kind <= STEP ? d.t : blocks));
    if (kind == OPEN) k.a = 0; /* refused: an accepted one would mend the store */
    if (kind == RELEASE) k.a = odd(some_handle());
    k.b = odd(kind >= LOOK_CELL || kind == START_NEW ? below(d.n) : some_handle());
    k.c = odd(below(d.n));
    k.d = odd(kind == START_PAGE ? 1 + below(d.n) : draw());
    return k;
}

static void remember(uint32_t handle) {
    if (handle) handles[below(KEPT_HANDLES)] = handle;
}

static void make(enum kind kind) {
    if (ask(some_call(kind)) == 0 && kind == STEP) remember(answer[WINCH_STEP_HANDLE]);
}

/* ---- a store at work */

static void work(int count) {
    for (int i = 0; i < 4; i++) make(START_NEW);
    while (count--) {
        uint32_t x = below(40);
        make(x < 2 ? RELEASE : x < 3 ? START_NEW : x < 8 ? START_SET : x < 11 ? START_GET : x < 13 ? START_PAGE : STEP);
    }
}

static void open_store(void) {
    struct call k = {OPEN, d.n, d.h, d.t, 0};
    for (size_t i = 0; i < d.words; i++) pool[i] = draw();
    for (int j = 0; j < KEPT_HANDLES; j++) handles[j] = 256;
    EXPECT(ask(k) == 0);
    blocks = answer[0];
}

static void passes(void) {
    struct call k = {CHECK, 0, 0, 0, 0};
    EXPECT(ask(k) == 0 && answer[0] == 0);
}

/* every call at least once, steps more often */
static void every_call(void) {
    for (int kind = 0; kind < KINDS; kind++) make((enum kind)kind);
    for (int i = 0; i < 30; i++) make(STEP);
    for (int i = 0; i < 20; i++) make((enum kind)below(KINDS));
}

static void run(const struct plan *plan, uint32_t number, uint32_t most) {
    static char name[80];
    uint32_t *page = guarded(page_words);
    snprintf(name, sizeof name, "run %u: N = %u, H = %u, T = %u, %u words", number, plan->n, plan->h, plan->t, (unsigned)plan->words);
    plant(number);
    begin_case(name);
    d = *plan;
    pool = guarded(d.words);
    place_answer(page);
    for (int round = 0; round < 8 && !case_failed(); round++) {
        open_store();
        work(40 + (int)below(300));
        passes();
        for (int i = 0; i < 4 && !case_failed(); i++) {
            damage(pool, (struct sizes){d.n, d.h, d.t, blocks}, most);
            every_call();
        }
    }
    release_guarded(pool, d.words);
    release_guarded(page, page_words);
    end_case();
}

/* ---- pools above 4,294,967,295 words: only the first page of one is there */

static void too_long(size_t words, uint32_t *page, uint32_t *at) {
    uint32_t control[WINCH_CONTROL_WORDS(4, 2)];
    d = (struct plan){2, 4, 2, 208};
    blocks = 2;
    EXPECT(winch_open(at, d.words, d.n, d.h, d.t, page, WINCH_ANSWER_WORDS) == 0);
    memcpy(control, at, sizeof control);
    EXPECT(winch_open(at, words, d.n, d.h, d.t, page, WINCH_ANSWER_WORDS) == 3);
    for (int kind = START_NEW; kind < CHECK; kind++) EXPECT(make_call(some_call((enum kind)kind), at, words, page, WINCH_ANSWER_WORDS) == 1);
    EXPECT(winch_check(at, words, page, WINCH_ANSWER_WORDS) == 0 && page[0] == 1);
    EXPECT(memcmp(control, at, sizeof control) == 0);
}

static void above_the_most(void) {
    static const size_t over[] = {0, 1, 208, 4096};
    size_t most = (size_t)UINT32_MAX + 1, size = (most + 8192) * sizeof(uint32_t);
    char *at = mmap(NULL, size, PROT_NONE, MAP_PRIVATE | MAP_ANONYMOUS | MAP_NORESERVE, -1, 0);
    uint32_t *page = guarded(page_words);
    begin_case("pools above 4,294,967,295 words");
    if (EXPECT(at != MAP_FAILED) && EXPECT(mprotect(at, page_words * sizeof(uint32_t), PROT_READ | PROT_WRITE) == 0))
        for (int j = 0; j < 4; j++) too_long(most + over[j], page, (uint32_t *)(void *)at);
    end_case();
}

/* 1 and 2 come of damage alone */
static void every_refusal(uint32_t most) {
    begin_case("every refusal is met");
    for (int r = 3; r <= 12; r++) EXPECT(met[r] > 100);
    EXPECT(most ? met[1] > 100 && met[2] > 100 : met[1] == 0 && met[2] == 0);
    end_case();
}

static void print_met(void) {
    printf("%lu calls; refused", (unsigned long)calls);
    for (int r = 1; r < 16; r++)
        if (met[r]) printf(" %d: %lu", r, (unsigned long)met[r]);
    printf("\n");
}

int main(int count, char **arguments) {
    static const struct plan plans[] = {{2, 4, 2, 1024}, {16, 20, 4, 2048}, {5, 256, 16, 4096}, {100, 8, 3, 8192}, {1, 1, 1, 1024}, {33, 9, 5, 4096}};
    uint32_t most = count > 1 ? (uint32_t)strtoul(arguments[1], NULL, 10) : 8;
    page_words = (size_t)sysconf(_SC_PAGESIZE) / sizeof(uint32_t);
    for (uint32_t number = 0; number < 180; number++) run(&plans[number % 6], number, most);
    above_the_most();
    every_refusal(most);
    print_met();
    return summary();
}
