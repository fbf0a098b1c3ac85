/* The mark: one instruction, and the border in the program's text behind which the measured code lies. */
__asm__(".text\n"
        ".globl bench_mark\n"
        ".type bench_mark, @function\n"
        "bench_mark:\n"
        "    ret\n"
        ".size bench_mark, . - bench_mark\n");
