/* A kernel of four vCPUs that add to one number and signal one another. The last that is done writes the sum. None waits for another. */

enum { VCPUS = 4, SIGNALS = 5, ADDITIONS = 10 };

enum { CALL_PUT = 1, CALL_SHUTDOWN = 8, CALL_SIGNAL = 0x735049 };

enum { SOFTWARE_INTERRUPTS = 1 << 1, INTERRUPTS = 1 << 1 };

static unsigned long sum;
static unsigned long taken;
static unsigned long done;

static long firmware(unsigned long call, unsigned long first, unsigned long second)
{
    register unsigned long a0 __asm__("a0") = first;
    register unsigned long a1 __asm__("a1") = second;
    register unsigned long a6 __asm__("a6") = 0;
    register unsigned long a7 __asm__("a7") = call;
    __asm__ volatile("ecall" : "+r"(a0), "+r"(a1) : "r"(a6), "r"(a7) : "memory");
    return (long)a0;
}

static void put_char(char c)
{
    firmware(CALL_PUT, (unsigned char)c, 0);
}

static void put_text(const char *text)
{
    for (; *text; text++)
        put_char(*text);
}

static void put_number(unsigned long n)
{
    if (n >= 10)
        put_number(n / 10);
    put_char("0123456789"[n % 10]);
}

static unsigned long add_one(unsigned long *number)
{
    return __atomic_fetch_add(number, 1, __ATOMIC_SEQ_CST);
}

/* What a signalled vCPU does: takes the signal away, and counts it. */
void on_signal(void)
{
    __asm__ volatile("csrc sip, %0" : : "r"((unsigned long)SOFTWARE_INTERRUPTS));
    add_one(&taken);
}

/* Itself too, so that each vCPU takes a signal at once. */
static void signal_all(void)
{
    firmware(CALL_SIGNAL, (1 << VCPUS) - 1, 0);
}

static void work(void)
{
    for (int n = 0; n < ADDITIONS; n++)
        add_one(&sum);
}

static void finish(void)
{
    put_text("sum: ");
    put_number(sum);
    put_char('\n');
    firmware(CALL_SHUTDOWN, 0, 0);
}

void kernel_main(void)
{
    __asm__ volatile("csrw sie, %0" : : "r"((unsigned long)SOFTWARE_INTERRUPTS));
    __asm__ volatile("csrs sstatus, %0" : : "r"((unsigned long)INTERRUPTS));
    for (int round = 0; round < SIGNALS; round++) {
        work();
        signal_all();
    }
    if (add_one(&done) == VCPUS - 1)
        finish();
    for (;;)
        ;
}
