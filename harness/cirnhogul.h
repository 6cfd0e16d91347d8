/* Cirnhogul for C and C++: schedules replayed on a RISC-V core with stealable physical registers, and instruction words
   encoded. Link with crates/cirnhogul/out/libcirnhogul.a, which `rt lib` makes in crates/cirnhogul.

   A buffer is a pointer and its length in bytes. An empty buffer's pointer may be anything, null too. A pointer that is null,
   or leads to fewer bytes than the length says, is the caller's mistake where the length is above 0, and no call can find it
   out. Buffers that are passed together must not overlap. Any bytes, lengths and numbers are taken: a call answers or
   refuses. */
#ifndef CIRNHOGUL_H
#define CIRNHOGUL_H

#include <stddef.h>
#include <stdint.h>

/* The version of this header and its library. The first number rises when a layout, a number or a function below changes:
   who calls has to look again. The second rises when one is added and those before stay; it falls to 0 with the first. */
#define CIRNHOGUL_VERSION_MAJOR 3
#define CIRNHOGUL_VERSION_MINOR 0

#ifdef __cplusplus
extern "C" {
#endif

/* Lengths in bytes. A program has a multiple of 4, a schedule a multiple of 8, data any number of them. */
enum cirnhogul_length {
    CIRNHOGUL_PROGRAM_LEAST = 4,
    CIRNHOGUL_PROGRAM_MOST = 16384,
    CIRNHOGUL_DATA_MOST = 16384,
    CIRNHOGUL_RECORD = 8,
    CIRNHOGUL_SCHEDULE_MOST = 65536,
    CIRNHOGUL_RESULT = 156
};

/* Document 01's refusals that C can meet. Replay looks for them in the order 3, 4, 26, 20, 21, 1, 2, then along the chain,
   record after record, 22 and 23 for the index that leads to it and 24 and 25 for itself. */
enum cirnhogul_refusal {
    CIRNHOGUL_ACCEPTED = 0,
    CIRNHOGUL_WINDOW = 1,           /* W out of range (1 to 64) */
    CIRNHOGUL_REGISTERS = 2,        /* N out of range (32 to 95) */
    CIRNHOGUL_PROGRAM_LENGTH = 3,   /* program length */
    CIRNHOGUL_DATA_LENGTH = 4,      /* data length */
    CIRNHOGUL_SCHEDULE_LENGTH = 20, /* length 0, above 65,536 or no multiple of 8 */
    CIRNHOGUL_RECORD_0 = 21,        /* record 0 malformed */
    CIRNHOGUL_NEXT_BEYOND = 22,     /* next beyond the file */
    CIRNHOGUL_REACHED_TWICE = 23,   /* a record reached twice, record 0 aside */
    CIRNHOGUL_UNKNOWN_KIND = 24,    /* unknown kind */
    CIRNHOGUL_NOT_ZERO = 25,        /* a must-be-zero field is not */
    CIRNHOGUL_RESULT_LENGTH = 26,   /* result buffer not 156 bytes */
    CIRNHOGUL_ENCODING = 30         /* operation number or field out of range, or a field that the operation lacks not 0 */
};

/* Kinds of records. A record has 8 bytes, little endian:
       kind, position, next index (2 bytes), guess (4 bytes)
   Position is zero in decode and commit; guess is zero in all but decode. Next index 0 ends the chain. Record 0 is the
   header: kind 0, W, index of the first event (2 bytes), N, three zeros. */
enum cirnhogul_kind {
    CIRNHOGUL_HEADER = 0,
    CIRNHOGUL_DECODE = 1,
    CIRNHOGUL_ISSUE = 2,
    CIRNHOGUL_COMPLETE = 3,
    CIRNHOGUL_COMMIT = 4
};

/* Where the words of a result stand: word i is bytes 4 * i to 4 * i + 3, little endian. */
enum cirnhogul_word {
    CIRNHOGUL_COUNT_ACCEPTED = 0,
    CIRNHOGUL_COUNT_REFUSED = 1,
    CIRNHOGUL_COUNT_COMMITTED = 2,  /* commits without a halt */
    CIRNHOGUL_COUNT_STEALS = 3,
    CIRNHOGUL_COUNT_DROPPED = 4,    /* entries dropped; the halting entry is not one */
    CIRNHOGUL_RATE = 5,             /* committed * 1000 / accepted to the nearest whole number, an exact half to
                                       the even neighbour; 0 if none accepted */
    CIRNHOGUL_HALT = 6,             /* the halt cause, 0 none */
    CIRNHOGUL_NEXT = 7,             /* the next address */
    CIRNHOGUL_X1 = 8,               /* x1 to x31 are words 8 to 38 */
    CIRNHOGUL_WORDS = 39
};

/* C before 2011 has no such test. */
#if defined(__cplusplus)
static_assert(CIRNHOGUL_RESULT == 4 * CIRNHOGUL_WORDS, "a result has 4 bytes a word");
#elif defined(__STDC_VERSION__) && __STDC_VERSION__ >= 201112L
_Static_assert(CIRNHOGUL_RESULT == 4 * CIRNHOGUL_WORDS, "a result has 4 bytes a word");
#endif

/* Causes of a halt. */
enum cirnhogul_cause {
    CIRNHOGUL_NO_HALT = 0,
    CIRNHOGUL_ILLEGAL = 1,
    CIRNHOGUL_ECALL = 2,
    CIRNHOGUL_EBREAK = 3,
    CIRNHOGUL_FETCH = 4,            /* fetch address outside the program or not a multiple of 4 */
    CIRNHOGUL_TARGET = 5,           /* taken branch or jump to a target not a multiple of 4 */
    CIRNHOGUL_LOAD = 6,             /* address no multiple of its size, or bytes that leave the data */
    CIRNHOGUL_STORE = 7             /* the same of a store */
};

/* Makes the events of a schedule on a fresh machine. Data are changed as its stores change them, and the result gets its 39
   words. Returns 0, or a refusal, which leaves data and result as they were. An event that the machine refuses is counted in
   the result, and the replay goes on. */
uint32_t cirnhogul_replay(const uint8_t *program, size_t program_length, uint8_t *data, size_t data_length,
                          const uint8_t *schedule, size_t schedule_length, uint8_t *result, size_t result_length);

/* The library takes no null pointer, and the pointer of an empty std::vector may be null. So an empty buffer gets the address
   of a byte here, which nothing reads or writes. The library's symbol keeps its name, for dlsym and for other languages; where
   this header is included the name means the function below, also where its address is taken. */
static inline uint32_t cirnhogul_replay_taking_null(const uint8_t *program, size_t program_length, uint8_t *data,
                                                    size_t data_length, const uint8_t *schedule, size_t schedule_length,
                                                    uint8_t *result, size_t result_length)
{
    uint8_t none = 0;
    return cirnhogul_replay(program_length == 0 ? &none : program, program_length,
                            data_length == 0 ? &none : data, data_length,
                            schedule_length == 0 ? &none : schedule, schedule_length,
                            result_length == 0 ? &none : result, result_length);
}
#define cirnhogul_replay cirnhogul_replay_taking_null

/* The word of an instruction in the low 32 bits, and 0 or refusal 30 in the high 32 bits; the word is 0 at a refusal.
   Operations, in the order of the manual's RV32I listing, FENCE last:
        1 LUI     2 AUIPC   3 JAL     4 JALR    5 BEQ     6 BNE     7 BLT     8 BGE     9 BLTU   10 BGEU
       11 LB     12 LH     13 LW     14 LBU    15 LHU    16 SB     17 SH     18 SW     19 ADDI   20 SLTI
       21 SLTIU  22 XORI   23 ORI    24 ANDI   25 SLLI   26 SRLI   27 SRAI   28 ADD    29 SUB    30 SLL
       31 SLT    32 SLTU   33 XOR    34 SRL    35 SRA    36 OR     37 AND    38 ECALL  39 EBREAK 40 FENCE
   A field that the operation lacks must be 0. Registers are 0 to 31. The constant of a branch (-4,096 to 4,094) and of JAL
   (-1,048,576 to 1,048,574) is the distance in bytes, even; that of a shift the amount (0 to 31); that of LUI and AUIPC bits 31
   to 12 as a number from 0 (to 1,048,575). All other constants are -2,048 to 2,047; that of FENCE is its bits 31 to 20, and FENCE
   may have any rd and rs1, which it neither writes nor reads. */
uint64_t cirnhogul_encode(uint32_t operation, uint32_t rd, uint32_t rs1, uint32_t rs2, int32_t constant);

#ifdef __cplusplus
}
#endif

#endif
