# Arithmetic, shifts, comparisons, branches and a call: 620,000 rounds, about 20 million steps.
# s0 is the data's address. The last four words of state go to the data; then a write of the data and an exit as Linux
# has them, of which the model sees the first ECALL only.
        .option norvc
        .text
        .globl  _start
_start:
        li      s1, 620000
        li      s2, 0x12345678
        li      s3, 0
        li      s4, 0
        li      s5, -1
round:
        mv      a0, s2
        jal     ra, mix
        mv      s2, a0
        add     s3, s3, a0
        slt     t0, a0, s3
        sltu    t1, s3, a0
        add     s4, s4, t0
        sub     s5, s5, t1
        srai    t2, a0, 7
        andi    t3, a0, 31
        sll     t4, s3, t3
        srl     t5, s4, t3
        sra     t6, a0, t3
        or      t4, t4, t5
        and     t6, t6, t2
        blt     a0, zero, negative
        ori     t4, t4, 1
        xori    s5, s5, 0x55
        bgeu    s3, s2, joined
        slti    t5, t2, 100
        add     s4, s4, t5
        jal     zero, joined
negative:
        sltiu   t5, t4, 1000
        sub     s4, s4, t5
        bltu    t3, s4, joined
        auipc   t5, 0
        lui     t5, 0x12345
        xor     s4, s4, t5
joined:
        xor     s5, s5, t4
        add     s3, s3, t6
        bge     s5, s3, next
        addi    s3, s3, 17
next:
        beq     s2, zero, done
        addi    s1, s1, -1
        bne     s1, zero, round
done:
        sw      s2, 0(s0)
        sw      s3, 4(s0)
        sw      s4, 8(s0)
        sw      s5, 12(s0)
        li      a7, 64
        li      a0, 1
        mv      a1, s0
        li      a2, 16384
        ecall
        li      a7, 93
        li      a0, 0
        ecall
mix:
        slli    t0, a0, 13
        xor     a0, a0, t0
        srli    t0, a0, 17
        xor     a0, a0, t0
        slli    t0, a0, 5
        xor     a0, a0, t0
        jalr    zero, 0(ra)
