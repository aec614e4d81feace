/* A kernel of two tasks: `shell` answers keys, `clock` tells each second tick of the timer. switch_to goes from one to the other. */

enum { KEPT_REGISTERS = 6, STACK_BYTES = 4096, TASKS = 2, TICKS_TO_RUN = 6 };

enum { CALL_PUT = 1, CALL_KEY = 2, CALL_SHUTDOWN = 8, CALL_TIME = 0x54494D45 };

enum { TICK_STEPS = 400, TIMER_INTERRUPTS = 1 << 5 };

/* What switch_to keeps of a task, and behind it the task's name: the monitor reads it there (name_at is 48). */
struct task {
    unsigned long kept[KEPT_REGISTERS];
    char name[16];
};

enum { SHELL, CLOCK };

static struct task tasks[TASKS] = {{.name = "shell"}, {.name = "clock"}};
static struct task boot_task;
static unsigned char stacks[TASKS][STACK_BYTES] __attribute__((aligned(16)));
static volatile unsigned long ticks;

void switch_to(struct task *from, struct task *to);
void task_start(void);

static long firmware(unsigned long call, unsigned long argument)
{
    register unsigned long a0 __asm__("a0") = argument;
    register unsigned long a6 __asm__("a6") = 0;
    register unsigned long a7 __asm__("a7") = call;
    __asm__ volatile("ecall" : "+r"(a0) : "r"(a6), "r"(a7) : "a1", "memory");
    return (long)a0;
}

static void put_char(char c)
{
    firmware(CALL_PUT, (unsigned char)c);
}

static void put_text(const char *text)
{
    for (; *text; text++)
        put_char(*text);
}

static void put_number(unsigned long n)
{
    if (n >= 10)
        put_number(n / 10);
    put_char("0123456789"[n % 10]);
}

static void arm_timer(void)
{
    unsigned long now;
    __asm__ volatile("csrr %0, time" : "=r"(now));
    firmware(CALL_TIME, now + TICK_STEPS);
}

void on_trap(unsigned long cause)
{
    (void)cause; /* the timer alone is let in */
    ticks++;
    arm_timer();
}

static void yield_to(int next)
{
    switch_to(&tasks[!next], &tasks[next]);
}

static void print_version(void)
{
    put_text("shell: version ");
    put_number(1);
    put_char('\n');
}

static void print_help(void)
{
    put_text("shell: v tells the version\n");
}

static void answer_key(long key)
{
    if (key == 'v')
        print_version();
    else
        print_help();
}

static void shell(void)
{
    put_text("shell: ready\n");
    while (ticks < TICKS_TO_RUN) {
        long key = firmware(CALL_KEY, 0);
        if (key >= 0)
            answer_key(key);
        yield_to(CLOCK);
    }
    put_text("shell: bye\n");
    firmware(CALL_SHUTDOWN, 0);
}

static void clock(void)
{
    unsigned long told = 0;
    for (;;) {
        if (ticks >= told + 2) {
            told = ticks;
            put_text("clock: ");
            put_number(told);
            put_char('\n');
        }
        yield_to(SHELL);
    }
}

static void make_task(int number, void (*function)(void))
{
    struct task *task = &tasks[number];
    task->kept[0] = (unsigned long)(stacks[number] + STACK_BYTES);
    task->kept[1] = (unsigned long)task_start;
    task->kept[2] = 0;
    task->kept[3] = (unsigned long)function;
}

void kernel_main(void)
{
    make_task(SHELL, shell);
    make_task(CLOCK, clock);
    __asm__ volatile("csrw sie, %0" : : "r"((unsigned long)TIMER_INTERRUPTS));
    arm_timer();
    switch_to(&boot_task, &tasks[SHELL]);
}
