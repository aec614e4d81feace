# The entry and the trap handler of the kernel in kernel.c.
# Every function has a type and a size, so that it counts as a function of its own.

        .set    STACK_BYTES, 4096
        .set    VCPUS, 4

        .macro  function name
        .globl  \name
        .type   \name, @function
\name:
        .endm

        .macro  end name
        .size   \name, . - \name
        .endm

        .text

# The entry of each vCPU; a0 is its number. Each takes a stack of its own. s0 is 0 here: call chains end at this frame.
function _start
        la      sp, boot_stacks
        li      t0, STACK_BYTES
        addi    t1, a0, 1
        mul     t0, t0, t1
        add     sp, sp, t0
        li      s0, 0
        la      t0, trap
        csrw    stvec, t0
        call    kernel_main
1:      j       1b
end _start

# A trap: the registers that a call may change are kept on the stack, with a frame for call chains. stvec holds a
# multiple of 4.
        .balign 4
function trap
        addi    sp, sp, -144
        sd      ra, 136(sp)
        sd      s0, 128(sp)
        addi    s0, sp, 144
        sd      t0, 0(sp)
        sd      t1, 8(sp)
        sd      t2, 16(sp)
        sd      t3, 24(sp)
        sd      t4, 32(sp)
        sd      t5, 40(sp)
        sd      t6, 48(sp)
        sd      a0, 56(sp)
        sd      a1, 64(sp)
        sd      a2, 72(sp)
        sd      a3, 80(sp)
        sd      a4, 88(sp)
        sd      a5, 96(sp)
        sd      a6, 104(sp)
        sd      a7, 112(sp)
        call    on_signal
        ld      t0, 0(sp)
        ld      t1, 8(sp)
        ld      t2, 16(sp)
        ld      t3, 24(sp)
        ld      t4, 32(sp)
        ld      t5, 40(sp)
        ld      t6, 48(sp)
        ld      a0, 56(sp)
        ld      a1, 64(sp)
        ld      a2, 72(sp)
        ld      a3, 80(sp)
        ld      a4, 88(sp)
        ld      a5, 96(sp)
        ld      a6, 104(sp)
        ld      a7, 112(sp)
        ld      ra, 136(sp)
        ld      s0, 128(sp)
        addi    sp, sp, 144
        sret
end trap

        .bss
        .balign 16
boot_stacks:
        .space  VCPUS * STACK_BYTES
