/* Linux in the place of a board, on x86-64 and aarch64: the way in, a stack of the board's own, and two bare system calls. On a real board
 * `_start` is what the reset vector leads to, `say` writes to a serial line, and `leave` waits for ever. */
#include <stddef.h>

#include "board.h"

/* A finding takes most: up to 33,600 bytes (ventorupo.h); main.c and an interrupt want some too. */
#define STACK_BYTES 40960
#define TEXT_OF(macro) TEXT(macro)
#define TEXT(number) #number

enum { PAINTED = 256, PAINT = 0xA5 };

_Alignas(16) uint8_t board_stack[STACK_BYTES];

void board_start(void);

#if defined(__x86_64__)

enum { WRITE = 1, EXIT = 60 };

__asm__(".pushsection .text\n"
        ".globl _start\n"
        "_start:\n"
        "    leaq board_stack + " TEXT_OF(STACK_BYTES) "(%rip), %rsp\n"
        "    xorl %ebp, %ebp\n"
        "    call board_start\n"
        ".popsection\n");

static long call(long number, long a, const void *b, size_t c)
{
    long answer;
    __asm__ volatile("syscall" : "=a"(answer) : "a"(number), "D"(a), "S"(b), "d"(c) : "rcx", "r11", "memory");
    return answer;
}

#elif defined(__aarch64__)

enum { WRITE = 64, EXIT = 93 };

__asm__(".pushsection .text\n"
        ".globl _start\n"
        "_start:\n"
        "    adrp x0, board_stack + " TEXT_OF(STACK_BYTES) "\n"
        "    add x0, x0, :lo12:board_stack + " TEXT_OF(STACK_BYTES) "\n"
        "    mov sp, x0\n"
        "    mov x29, xzr\n"
        "    mov x30, xzr\n"
        "    bl board_start\n"
        ".popsection\n");

static long call(long number, long a, const void *b, size_t c)
{
    register long x8 __asm__("x8") = number;
    register long x0 __asm__("x0") = a;
    register const void *x1 __asm__("x1") = b;
    register size_t x2 __asm__("x2") = c;
    __asm__ volatile("svc #0" : "+r"(x0) : "r"(x8), "r"(x1), "r"(x2) : "memory");
    return x0;
}

#else
#error "write a start.c for this processor"
#endif

static void leave(int status)
{
    for (;;) call(EXIT, status, NULL, 0);
}

void say(const char *text)
{
    size_t n = 0;
    while (text[n] != '\0') n++;
    if (call(WRITE, 1, text, n) != (long)n) leave(1);
}

void say_number(uint32_t number)
{
    char digits[11] = {0};
    int at = 10;
    do digits[--at] = (char)('0' + number % 10);
    while ((number /= 10) != 0);
    say(digits + at);
}

/* The stack's far end is painted, and is to stay so. */
static int stack_was_enough(void)
{
    int kept = 0;
    while (kept < PAINTED && ((volatile uint8_t *)board_stack)[kept] == PAINT) kept++;
    return kept == PAINTED;
}

void board_start(void)
{
    for (int i = 0; i < PAINTED; i++) ((volatile uint8_t *)board_stack)[i] = PAINT;
    int status = board_main();
    say(stack_was_enough() ? "stack: enough\n" : "stack: too small\n");
    leave(status != 0 || !stack_was_enough());
}
