# Loads and stores of all sizes over 16 KB of data: 600 passes, about 20 million steps.
# s0 is the data's address. At the end a write of the data and an exit as Linux has them, of which the model sees the
# first ECALL only.
        .option norvc
        .text
        .globl  _start
_start:
        li      s1, 600
        li      t6, 16384
        add     s2, s0, t6
pass:
        mv      a0, s0
next:
        lw      t0, 0(a0)
        lh      t1, 4(a0)
        add     t0, t0, t1
        sw      t0, 0(a0)
        lhu     t2, 6(a0)
        add     t1, t1, t2
        sh      t1, 4(a0)
        lb      t3, 6(a0)
        lbu     t4, 7(a0)
        xor     t3, t3, t4
        sb      t3, 6(a0)
        lbu     t5, 3(a0)
        add     t5, t5, t4
        sb      t5, 7(a0)
        addi    a0, a0, 8
        bne     a0, s2, next
        addi    s1, s1, -1
        bne     s1, zero, pass
        li      a7, 64
        li      a0, 1
        mv      a1, s0
        li      a2, 16384
        ecall
        li      a7, 93
        li      a0, 0
        ecall
