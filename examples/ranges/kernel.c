/* A kernel in two ranges of text: the entry stands in a boot page, and all else in .text. It prints a line. */

enum { PUT_BYTE = 1, SHUT_DOWN = 8 };

void put(char byte)
{
    register long a0 asm("a0") = byte;
    register long a7 asm("a7") = PUT_BYTE;
    asm volatile("ecall" : "+r"(a0) : "r"(a7) : "memory");
}

void say(const char *line)
{
    while (*line)
        put(*line++);
}

void halt(void)
{
    register long a7 asm("a7") = SHUT_DOWN;
    asm volatile("ecall" : : "r"(a7) : "memory");
}

void kernel_main(void)
{
    say("Two.\n");
    halt();
}
