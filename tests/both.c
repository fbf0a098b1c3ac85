/* The proved archive beside the C by hand in bench/: the same random calls on two pools. Every refusal, every answer word and every word of the
 * pools is the same after every call. Of damaged copies both checks name the same rule. */
#include "harness.h"

#include "layout.h"

enum { ROOM = 18, KEPT_HANDLES = 24 };

uint32_t make_plain_call(struct call k, uint32_t *pool, size_t words, uint32_t *answer, size_t room);

static uint32_t n, h, t, b, *pool, *plain, *damaged, handles[KEPT_HANDLES];
static uint32_t answer[ROOM], plain_answer[ROOM];
static size_t words;
static uint64_t calls, met[16], broken[8];

static uint32_t ask(struct call k) {
    memset(answer, 77, sizeof answer);
    memset(plain_answer, 77, sizeof plain_answer);
    uint32_t refusal = make_call(k, pool, words, answer, ROOM), second = make_plain_call(k, plain, words, plain_answer, ROOM);
    calls++;
    if (refusal < 16) met[refusal]++;
    EXPECT(refusal == second);
    EXPECT(memcmp(answer, plain_answer, sizeof answer) == 0);
    EXPECT(memcmp(pool, plain, words * sizeof *pool) == 0);
    if (case_failed()) printf("  in %s(%u, %u, %u, %u): %u and %u\n", kind_name(k.kind), k.a, k.b, k.c, k.d, refusal, second);
    return refusal;
}

/* A block with V = N + 1 has N entries: one more, of version N, breaks rule 4 and none before it, which random words hardly do. It is put at
 * the arena's last place, which no log holds, and in a log of 0 or 1 entries, where it opens a chunk. */
static void add_entries(void) {
    for (uint32_t k = 0; k < b; k++) {
        uint32_t *block = block_at(damaged, k), i = 0;
        while (i + 1 < n && *length_at(block, n, i) > 1) i++;
        uint32_t m = *length_at(block, n, i);
        if (block[0] != n + 1 || m > 1) continue;
        *length_at(block, n, i) = m + 1;
        *base_at(block, n, i, chunk_of(m)) = 2 * n - 1;
        place_at(block, n, 2 * n - 1)->version = n;
    }
}

/* a copy of the pool with up to three words overwritten, or with entries added; what the archive's check says of it, the one by hand says too */
static void compare_checks(void) {
    struct call k = {CHECK, 0, 0, 0, 0};
    memcpy(damaged, pool, words * sizeof *pool);
    if (one_in(8))
        add_entries();
    else
        damage(damaged, (struct sizes){n, h, t, b}, 3);
    uint32_t refusal = make_call(k, damaged, words, answer, ROOM), second = make_plain_call(k, damaged, words, plain_answer, ROOM);
    EXPECT(refusal == 0 && second == 0 && answer[0] < 8);
    if (!EXPECT(answer[0] == plain_answer[0])) {
        printf("  rule %u, and by hand %u; words overwritten:", answer[0], plain_answer[0]);
        for (size_t i = 0; i < words; i++)
            if (damaged[i] != pool[i]) printf(" %u from %u to %u", (unsigned)i, pool[i], damaged[i]);
        printf("\n");
    }
    broken[answer[0] % 8]++;
}

/* ---- arguments that are mostly good */

static uint32_t odd(uint32_t good) { return one_in(30) ? draw() % (good + 3) : good; }

static uint32_t some_handle(void) { return odd(handles[below(KEPT_HANDLES)]); }

/* a task that is busy, for a step, or idle, for a start, where there is one; a task's row begins with 0 where it is idle */
static uint32_t some_task(int busy) {
    uint32_t k = below(t);
    for (uint32_t i = 0; i < t && (pool[16 + 4 * h + 32 * k] != 0) != busy; i++) k = (k + 1) % t;
    return odd(k);
}

static struct call some_call(enum kind kind) {
    uint32_t task = some_task(kind == STEP), handle = some_handle(), cell = odd(below(n));
    struct call k = {kind, task, handle, cell, draw()};
    if (kind == RELEASE) k.a = k.b;
    if (kind >= LOOK_VERSION && kind <= LOOK_ENTRY) k.a = odd(below(b));
    if (kind >= LOOK_CELL) k.b = k.c;
    if (kind == LOOK_ENTRY) k.c = below(4);
    if (kind == START_PAGE) k.d = odd(1 + below(n));
    if (kind == OPEN) k.b = 0; /* refused: the store goes on */
    return k;
}

/* another one takes its places, where there is another */
static void forget(uint32_t handle) {
    uint32_t other = handle;
    for (int j = 0; j < KEPT_HANDLES; j++)
        if (handles[j] != handle) other = handles[j];
    for (int j = 0; j < KEPT_HANDLES; j++)
        if (handles[j] == handle) handles[j] = other;
}

/* whether it was accepted */
static int make(enum kind kind) {
    struct call k = some_call(kind);
    uint32_t refusal = ask(k);
    if (refusal == WINCH_NO_HANDLE || (kind == RELEASE && refusal == 0)) forget(k.b);
    if (refusal) return 0;
    if (kind == STEP && answer[WINCH_STEP_HANDLE]) handles[below(KEPT_HANDLES)] = answer[WINCH_STEP_HANDLE];
    return 1;
}

static void some_calls(void) {
    uint32_t x = below(100), count;
    if (x < 46)
        for (count = 1 + below(8); count && make(STEP); count--) continue;
    else if (x < 54)
        make(START_NEW);
    else if (x < 74)
        make(START_SET);
    else if (x < 82)
        make(START_GET);
    else if (x < 88)
        make(START_PAGE);
    else if (x < 93)
        make(RELEASE);
    else
        make((enum kind)below(KINDS));
}

static void open_store(void) {
    struct call k = {OPEN, n, h, t, 0};
    words = WINCH_POOL_WORDS(n, h, t, b) + below(20);
    pool = malloc(words * sizeof *pool);
    plain = malloc(words * sizeof *plain);
    damaged = malloc(words * sizeof *damaged);
    for (size_t i = 0; i < words; i++) pool[i] = plain[i] = draw();
    for (int j = 0; j < KEPT_HANDLES; j++) handles[j] = 256;
    EXPECT(ask(k) == 0);
}

static void run(uint32_t number, uint32_t count) {
    static const uint32_t cells[] = {1, 2, 3, 5, 8, 16, 33}, slots[] = {2, 5, 20, 64}, tasks[] = {1, 2, 4, 16}, blocks[] = {1, 2, 3, 8};
    static char name[80];
    plant(5000 + number);
    n = cells[number % 7];
    h = slots[below(4)];
    t = tasks[below(4)];
    b = blocks[below(4)];
    snprintf(name, sizeof name, "run %u: N = %u, H = %u, T = %u, B = %u", number, n, h, t, b);
    begin_case(name);
    open_store();
    while (count-- && !case_failed()) {
        some_calls();
        if (count % 3 == 0) compare_checks();
    }
    free(pool);
    free(plain);
    free(damaged);
    end_case();
}

int main(void) {
    for (uint32_t number = 0; number < 70; number++) run(number, 3000);
    begin_case("every refusal that a kept store can give, and every answer of the check");
    for (int r = 3; r <= 12; r++) EXPECT(met[r] > 100);
    EXPECT(met[1] == 0 && met[2] == 0 && met[15] == 0);
    for (int r = 0; r < 8; r++) EXPECT(broken[r] > 50);
    end_case();
    printf("%lu calls; refused", (unsigned long)calls);
    for (int r = 1; r < 16; r++)
        if (met[r]) printf(" %d: %lu", r, (unsigned long)met[r]);
    printf("\ndamaged copies; the check says");
    for (int r = 0; r < 8; r++) printf(" %d: %lu", r, (unsigned long)broken[r]);
    printf("\n");
    return summary();
}
