# The boot page: a stack, s0 = 0, at which the call chain ends, and the call of the kernel in its own range of text.
        .section .boot, "ax"
        .globl  _start
        .type   _start, @function
_start:
        la      sp, stack_top
        li      s0, 0
        call    kernel_main
1:      j       1b
        .size   _start, . - _start

        .bss
        .balign 16
        .space  4096
stack_top:
