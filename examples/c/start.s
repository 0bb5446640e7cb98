# Where a part begins: a stack at the end of its region of 1024 bytes, then main, then the end of the
# part with what main answers in x10.
    .section .text.start, "ax"
    .globl _start
_start:
    li   sp, 1024
    call main
    ecall
