# A small kernel: it prints a line, waits for two timer ticks, prints another line and shuts down.
# Every function has a type and a size, so that it counts as a function of its own. Those that call others keep a frame:
# the return address at s0 - 8 and the caller's s0 at s0 - 16, from which the log takes the call chain.

        .set    STEPS_TO_TICK, 300
        .set    TICKS, 2
        .set    CALL_PUTCHAR, 1
        .set    CALL_SHUTDOWN, 8
        .set    CALL_TIME, 0x54494D45

        .macro  function name
        .globl  \name
        .type   \name, @function
\name:
        .endm

        .macro  end name
        .size   \name, . - \name
        .endm

        .text

# The entry. s0 is 0 here: the chain ends at the frame of main.
function _start
        la      sp, stack_top
        la      t0, trap
        csrw    stvec, t0
        call    main
1:      j       1b
end _start

function main
        addi    sp, sp, -16
        sd      ra, 8(sp)
        sd      s0, 0(sp)
        addi    s0, sp, 16
        la      a0, hello
        call    puts
        call    wait
        la      a0, bye
        call    puts
        call    shutdown
        ld      ra, 8(sp)
        ld      s0, 0(sp)
        addi    sp, sp, 16
        ret
end main

# a0: a text that ends in a zero byte
function puts
        addi    sp, sp, -32
        sd      ra, 24(sp)
        sd      s0, 16(sp)
        sd      s1, 8(sp)
        addi    s0, sp, 32
        mv      s1, a0
1:      lbu     a0, 0(s1)
        beqz    a0, 2f
        call    putchar
        addi    s1, s1, 1
        j       1b
2:      ld      ra, 24(sp)
        ld      s0, 16(sp)
        ld      s1, 8(sp)
        addi    sp, sp, 32
        ret
end puts

# a0: a byte for the console
function putchar
        li      a7, CALL_PUTCHAR
        ecall
        ret
end putchar

# Waits for the ticks, with interrupts on.
function wait
        addi    sp, sp, -16
        sd      ra, 8(sp)
        sd      s0, 0(sp)
        addi    s0, sp, 16
        call    arm_timer
        li      t0, 1 << 5
        csrs    sie, t0
        csrsi   sstatus, 1 << 1
1:      ld      t0, ticks
        li      t1, TICKS
        bltu    t0, t1, 1b
        csrci   sstatus, 1 << 1
        ld      ra, 8(sp)
        ld      s0, 0(sp)
        addi    sp, sp, 16
        ret
end wait

# Asks for a timer interrupt some steps ahead, and runs on into set_timer. Its last instruction has 4 bytes and its last
# halfword the low bits 11, as if one more instruction began there: so the two functions are joined in one group.
function arm_timer
        rdtime  t1
        addi    a0, t1, STEPS_TO_TICK
end arm_timer

# a0: the clock from which on the timer is due
function set_timer
        li      a7, CALL_TIME
        li      a6, 0
        ecall
        ret
end set_timer

# The handler of traps. The timer's interrupt is the only one that is on.
        .balign 4
function trap
        addi    sp, sp, -80
        sd      ra, 72(sp)
        sd      s0, 64(sp)
        addi    s0, sp, 80
        sd      t0, 56(sp)
        sd      t1, 48(sp)
        sd      a0, 40(sp)
        sd      a1, 32(sp)
        sd      a6, 24(sp)
        sd      a7, 16(sp)
        call    tick
        ld      a7, 16(sp)
        ld      a6, 24(sp)
        ld      a1, 32(sp)
        ld      a0, 40(sp)
        ld      t1, 48(sp)
        ld      t0, 56(sp)
        ld      s0, 64(sp)
        ld      ra, 72(sp)
        addi    sp, sp, 80
        sret
end trap

# Counts a tick and asks for the next one.
function tick
        addi    sp, sp, -16
        sd      ra, 8(sp)
        sd      s0, 0(sp)
        addi    s0, sp, 16
        la      t0, ticks
        ld      t1, 0(t0)
        addi    t1, t1, 1
        sd      t1, 0(t0)
        call    arm_timer
        ld      ra, 8(sp)
        ld      s0, 0(sp)
        addi    sp, sp, 16
        ret
end tick

# Ends the run. It does not return.
function shutdown
        li      a7, CALL_SHUTDOWN
        ecall
1:      j       1b
end shutdown

        .section .rodata
hello:  .asciz  "Hello.\n"
bye:    .asciz  "Two ticks later: bye.\n"

        .data
        .balign 8
ticks:  .dword  0

        .bss
        .balign 16
        .space  4096
stack_top:
