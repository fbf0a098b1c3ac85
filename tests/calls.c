/* A call by its struct. */
#include "harness.h"

uint32_t make_call(struct call k, uint32_t *pool, size_t words, uint32_t *answer, size_t room) {
    switch (k.kind) {
    case OPEN: return winch_open(pool, words, k.a, k.b, k.c, answer, room);
    case START_NEW: return winch_start_new(pool, words, k.a, k.b, answer, room);
    case START_GET: return winch_start_get(pool, words, k.a, k.b, k.c, answer, room);
    case START_SET: return winch_start_set(pool, words, k.a, k.b, k.c, k.d, answer, room);
    case START_PAGE: return winch_start_page(pool, words, k.a, k.b, k.c, k.d, answer, room);
    case STEP: return winch_step(pool, words, k.a, answer, room);
    case RELEASE: return winch_release(pool, words, k.a, answer, room);
    case LOOK_VERSION: return winch_look_version(pool, words, k.a, answer, room);
    case LOOK_CELL: return winch_look_cell(pool, words, k.a, k.b, answer, room);
    case LOOK_LOG: return winch_look_log(pool, words, k.a, k.b, answer, room);
    case LOOK_ENTRY: return winch_look_entry(pool, words, k.a, k.b, k.c, answer, room);
    case LOOK_TASK: return winch_look_task(pool, words, k.a, answer, room);
    case REPORT: return winch_report(pool, words, answer, room);
    case CHECK: return winch_check(pool, words, answer, room);
    default: abort();
    }
}
