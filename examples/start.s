# The start of a guest: calls main and exits with what it returns.
    .globl _start
_start:
    call main
    li a7, 93
    ecall
