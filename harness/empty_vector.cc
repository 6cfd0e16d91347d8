/* Empty buffers from C++, whose pointers are null: document 01's example without data, then without program, schedule or
   result. Fails if an answer is another than document 01's, or a null pointer reaches the library: `--wrap` of the linker
   leads its calls through the function that looks. */
#include "cirnhogul.h"

#include <cinttypes>
#include <cstdio>
#include <vector>

using Bytes = std::vector<uint8_t>;
using Replay = uint32_t (*)(const uint8_t *, size_t, uint8_t *, size_t, const uint8_t *, size_t, uint8_t *, size_t);

static bool failed = false;

static void expect(const char *what, uint32_t found, uint32_t expected)
{
    if (found != expected) {
        std::printf("%s: %" PRIu32 ", not %" PRIu32 "\n", what, found, expected);
        failed = true;
    }
}

extern "C" uint32_t __real_cirnhogul_replay(const uint8_t *, size_t, uint8_t *, size_t, const uint8_t *, size_t, uint8_t *,
                                            size_t);

extern "C" uint32_t __wrap_cirnhogul_replay(const uint8_t *program, size_t program_length, uint8_t *data, size_t data_length,
                                            const uint8_t *schedule, size_t schedule_length, uint8_t *result,
                                            size_t result_length)
{
    expect("null pointers at the library", !program + !data + !schedule + !result, 0);
    return __real_cirnhogul_replay(program, program_length, data, data_length, schedule, schedule_length, result,
                                   result_length);
}

static uint32_t replayed(Replay replay, const Bytes &program, Bytes data, const Bytes &schedule, Bytes &result)
{
    return replay(program.data(), program.size(), data.data(), data.size(), schedule.data(), schedule.size(), result.data(),
                  result.size());
}

static uint32_t word_at(const Bytes &bytes, size_t i)
{
    return uint32_t(bytes[4 * i]) | uint32_t(bytes[4 * i + 1]) << 8 | uint32_t(bytes[4 * i + 2]) << 16 |
           uint32_t(bytes[4 * i + 3]) << 24;
}

int main()
{
    const Bytes program = {0x93, 0x00, 0x50, 0x00, 0x73, 0x00, 0x00, 0x00};
    const Bytes schedule = {
        CIRNHOGUL_HEADER,   2, 1, 0, 32, 0, 0, 0, /* W 2, N 32 */
        CIRNHOGUL_DECODE,   0, 2, 0, 0,  0, 0, 0,
        CIRNHOGUL_DECODE,   0, 3, 0, 0,  0, 0, 0,
        CIRNHOGUL_ISSUE,    0, 4, 0, 0,  0, 0, 0,
        CIRNHOGUL_COMPLETE, 0, 5, 0, 0,  0, 0, 0,
        CIRNHOGUL_COMMIT,   0, 6, 0, 0,  0, 0, 0,
        CIRNHOGUL_COMMIT,   0, 0, 0, 0,  0, 0, 0,
    };
    /* accepted, refused, committed, steals, dropped, rate, halt, next, x1 */
    const uint32_t words[] = {6, 0, 1, 0, 0, 167, CIRNHOGUL_ECALL, 4, 5};
    Bytes result(CIRNHOGUL_RESULT, 0xa5);
    Bytes none;

    /* else nothing below would be tried */
    expect("pointers of empty vectors that are not null", none.data() != nullptr, 0);
    expect("without data", replayed(cirnhogul_replay, program, none, schedule, result), CIRNHOGUL_ACCEPTED);
    for (size_t i = 0; i < CIRNHOGUL_WORDS; i++)
        expect("a word of the result", word_at(result, i), i <= CIRNHOGUL_X1 ? words[i] : 0);
    expect("without program", replayed(cirnhogul_replay, none, none, schedule, result), CIRNHOGUL_PROGRAM_LENGTH);
    expect("without schedule", replayed(cirnhogul_replay, program, none, none, result), CIRNHOGUL_SCHEDULE_LENGTH);
    expect("without result", replayed(cirnhogul_replay, program, none, schedule, none), CIRNHOGUL_RESULT_LENGTH);
    return failed;
}
