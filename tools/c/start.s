# Calls main on a stack at the end of the data, 4,096. Then it clears the stack and the link register: an address of code,
# which depends on where the code stands, must not be left in registers or data. Ends by ECALL with main's answer in a0.
    .section .text.start
    .globl _start
_start:
    lui     sp, 1
    call    main
    addi    t0, sp, -1024
clear:
    sw      zero, 0(t0)
    addi    t0, t0, 4
    bne     t0, sp, clear
    mv      ra, zero
    ecall
