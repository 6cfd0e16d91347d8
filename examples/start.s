# Stands at address 0: calls main, then stops by ECALL with main's answer in x10. There is no stack.
    .section .text.start
    .globl _start
_start:
    jal     ra, main
    ecall
