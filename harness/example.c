/* A theft, replayed from C. Two ADDI run in a window of 2 with 32 physical registers, of which a fresh machine has one
   free. The younger takes it first, the older steals it and commits, and the younger is issued again. */
#include "cirnhogul.h"

#include <inttypes.h>
#include <stdio.h>

enum { ADDI = 19, WINDOW = 2, REGISTERS = 32, INSTRUCTIONS = 2, EVENTS = 10 };

struct event {
    uint8_t kind;
    uint8_t position;
};

static const struct event events[EVENTS] = {
    {CIRNHOGUL_DECODE, 0},
    {CIRNHOGUL_DECODE, 0},
    {CIRNHOGUL_ISSUE, 1},
    {CIRNHOGUL_COMPLETE, 1}, /* takes the free register, 32 */
    {CIRNHOGUL_ISSUE, 0},
    {CIRNHOGUL_COMPLETE, 0}, /* none is free: steals 32 from position 1 */
    {CIRNHOGUL_COMMIT, 0},   /* frees 1; the robbed entry moves to position 0 */
    {CIRNHOGUL_ISSUE, 0},
    {CIRNHOGUL_COMPLETE, 0}, /* takes 1 */
    {CIRNHOGUL_COMMIT, 0},
};

static void put_word(uint8_t *bytes, uint32_t word)
{
    for (int i = 0; i < 4; i++)
        bytes[i] = (uint8_t)(word >> (8 * i));
}

static uint32_t word_at(const uint8_t *bytes)
{
    return (uint32_t)bytes[0] | (uint32_t)bytes[1] << 8 | (uint32_t)bytes[2] << 16 | (uint32_t)bytes[3] << 24;
}

/* The word of ADDI rd, x0, constant goes to the program; 0, or the refusal. */
static uint32_t put_addi(uint8_t *program, uint32_t rd, int32_t constant)
{
    uint64_t encoded = cirnhogul_encode(ADDI, rd, 0, 0, constant);
    put_word(program, (uint32_t)encoded);
    return (uint32_t)(encoded >> 32);
}

/* `last` is the guess, or the number of registers in record 0. */
static void put_record(uint8_t *record, uint8_t kind, uint8_t position, size_t next, uint32_t last)
{
    record[0] = kind;
    record[1] = position;
    record[2] = (uint8_t)(next % 256);
    record[3] = (uint8_t)(next / 256);
    put_word(record + 4, last);
}

/* Record 0, then the events in their order; the last one leads to 0, which ends the chain. */
static void put_schedule(uint8_t *schedule)
{
    put_record(schedule, CIRNHOGUL_HEADER, WINDOW, 1, REGISTERS);
    for (size_t i = 1; i <= EVENTS; i++) {
        size_t next = i < EVENTS ? i + 1 : 0;
        put_record(schedule + i * CIRNHOGUL_RECORD, events[i - 1].kind, events[i - 1].position, next, 0);
    }
}

static void print_fields(const uint8_t *result)
{
    static const char *const names[] = {"accepted", "refused", "committed", "steals", "dropped", "rate", "halt"};
    for (size_t i = CIRNHOGUL_COUNT_ACCEPTED; i <= CIRNHOGUL_HALT; i++)
        printf("%s %" PRIu32 "\n", names[i], word_at(result + 4 * i));
    printf("next %08" PRIx32 "\n", word_at(result + 4 * CIRNHOGUL_NEXT));
}

static void print_registers(const uint8_t *result)
{
    for (size_t i = CIRNHOGUL_X1; i < CIRNHOGUL_WORDS; i++) {
        uint32_t value = word_at(result + 4 * i);
        if (value != 0)
            printf("x%zu %08" PRIx32 "\n", i - CIRNHOGUL_NEXT, value);
    }
}

int main(void)
{
    uint8_t program[4 * INSTRUCTIONS];
    uint8_t data[4] = {0};
    uint8_t schedule[CIRNHOGUL_RECORD * (1 + EVENTS)];
    uint8_t result[CIRNHOGUL_RESULT];

    if (put_addi(program, 1, 5) != 0 || put_addi(program + 4, 2, -7) != 0) {
        puts("an instruction is refused");
        return 1;
    }
    put_schedule(schedule);
    uint32_t refusal = cirnhogul_replay(program, sizeof program, data, sizeof data, schedule, sizeof schedule, result,
                                        sizeof result);
    if (refusal != CIRNHOGUL_ACCEPTED) {
        printf("refused by %" PRIu32 "\n", refusal);
        return 1;
    }
    print_fields(result);
    print_registers(result);
    return 0;
}
