/* What a C library would give: the program's beginning and end, and its output. */
#include "bench.h"

void bench_main(void);
void bench_write(const char *text, size_t length);
void bench_start(void);

static long call_system(long number, long a, long b, long c) {
    long result;
    __asm__ volatile("syscall" : "=a"(result) : "a"(number), "D"(a), "S"(b), "d"(c) : "rcx", "r11", "memory");
    return result;
}

void bench_write(const char *text, size_t length) { call_system(1, 1, (long)text, (long)length); }

void bench_start(void) {
    bench_main();
    for (;;) call_system(60, 0, 0, 0);
}

__asm__(".globl _start\n"
        ".type _start, @function\n"
        "_start:\n"
        "    xor %ebp, %ebp\n"
        "    and $-16, %rsp\n"
        "    call bench_start\n"
        ".size _start, . - _start\n");
