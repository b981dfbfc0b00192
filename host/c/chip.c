/* The chip from C: a note is set going, run, and looked at. Exit status 0 where every answer is as expected. */
#include <stdio.h>
#include <string.h>

#include "perchpulley.h"

static int wrong;

static void expect(const char *what, uint64_t answer, uint64_t expected)
{
    if (answer != expected) {
        printf("%s: %llx, not %llx\n", what, (unsigned long long)answer, (unsigned long long)expected);
        wrong = 1;
    }
}

int main(void)
{
    static uint8_t memory[PERCH_MEMORY_SIZE];
    uint8_t state[PERCH_STATE_SIZE], kept[PERCH_STATE_SIZE];
    uint32_t words[65], counts[PERCH_COUNTS] = {0};
    uint64_t answer;

    expect("size", perch_state_size(), sizeof state);
    expect("power-on", perch_power_on(state, sizeof state, PERCH_NTSC), PERCH_DONE);
    expect("in range", perch_in_range(state, sizeof state), 256);
    expect("level at power-on", PERCH_VALUE(perch_level(state, sizeof state)), 8074);

    /* An access gives the byte read, the level after, and whether it differs from before. */
    answer = perch_access(state, sizeof state, 0, 0x4011, 0x40);
    expect("the level after a write", PERCH_LEVEL_AFTER(answer), 16620);
    expect("it differs", PERCH_DIFFERS(answer), 1);
    answer = perch_access(state, sizeof state, 1, 0, 0);
    expect("the byte read", PERCH_BYTE(answer), 0x00);
    expect("the level after a read", PERCH_LEVEL_AFTER(answer), 16620);
    expect("it doesn't differ", PERCH_DIFFERS(answer), 0);
    perch_access(state, sizeof state, 0, 0x4011, 0x00);

    /* A triangle of the shortest period: a record for each clock, but where the shape turns. */
    perch_access(state, sizeof state, 0, 0x4015, 0x04);
    perch_access(state, sizeof state, 0, 0x4008, 0xff);
    perch_access(state, sizeof state, 0, 0x400b, 0x00);
    perch_access(state, sizeof state, 0, 0x4017, 0x80);
    answer = perch_run(state, sizeof state, memory, sizeof memory, 1000, words, 65, counts, PERCH_COUNTS);
    expect("number", PERCH_NUMBER(answer), PERCH_DONE);
    expect("clocks done", PERCH_CLOCKS(answer), 34);
    expect("records", PERCH_RECORDS(answer), 32);
    expect("the last record's clock", words[62], 34);
    expect("the clocks at DMC level 0", counts[0], 34);
    expect("status", PERCH_BYTE(perch_access(state, sizeof state, 1, 0, 0)), 0x04);
    expect("line", perch_interrupt_line(state, sizeof state), 0);
    expect("one clock", perch_clock(state, sizeof state, memory, sizeof memory), PERCH_DONE);
    expect("plain", perch_run_plain(state, sizeof state, memory, sizeof memory, 0, words, 0, counts, PERCH_COUNTS), PERCH_DONE);
    expect("float", (uint64_t)(PERCH_LEVEL_FRACTION(perch_level(state, sizeof state)) * 32768.0f),
           PERCH_VALUE(perch_level(state, sizeof state)));

    /* The frame flag after a frame of mode 0, and none while its interrupt is disabled. */
    perch_power_on(state, sizeof state, PERCH_NTSC);
    perch_run(state, sizeof state, memory, sizeof memory, 30000, words, 0, counts, PERCH_COUNTS);
    expect("the frame flag asserts the line", PERCH_VALUE(perch_interrupt_line(state, sizeof state)), 1);
    perch_access(state, sizeof state, 0, 0x4017, 0x40);
    expect("cleared by bit 6", PERCH_VALUE(perch_interrupt_line(state, sizeof state)), 0);
    perch_run(state, sizeof state, memory, sizeof memory, 30000, words, 0, counts, PERCH_COUNTS);
    expect("not set while disabled", PERCH_BYTE(perch_access(state, sizeof state, 1, 0, 0)), 0x00);

    /* When it rises next: the flag is set by clock 29829 of a frame of mode 0, and no sample is under way. */
    perch_power_on(state, sizeof state, PERCH_NTSC);
    answer = perch_next_interrupt(state, sizeof state, memory, sizeof memory, PERCH_MOST_CLOCKS, PERCH_LINE);
    expect("it rises", PERCH_RISES(answer), 1);
    expect("after so many clocks", PERCH_RISE_CLOCKS(answer), 29829);
    expect("the flag too", perch_next_interrupt(state, sizeof state, memory, sizeof memory, 29829, PERCH_FRAME_FLAG), answer);
    expect("not before", perch_next_interrupt(state, sizeof state, memory, sizeof memory, 29828, PERCH_LINE), PERCH_DONE);
    expect("no sample", PERCH_RISES(perch_next_interrupt(state, sizeof state, memory, sizeof memory, 1000, PERCH_DMC_FLAG)), 0);

    /* A PAL frame is longer: the flag is set after 33253 clocks. */
    expect("PAL", perch_power_on(state, sizeof state, PERCH_PAL), PERCH_DONE);
    expect("the machine's byte", state[PERCH_STATE_SIZE - 1], PERCH_PAL);
    perch_run(state, sizeof state, memory, sizeof memory, 33252, words, 0, counts, PERCH_COUNTS);
    expect("before the flag", PERCH_VALUE(perch_interrupt_line(state, sizeof state)), 0);
    perch_clock(state, sizeof state, memory, sizeof memory);
    expect("the flag", PERCH_VALUE(perch_interrupt_line(state, sizeof state)), 1);

    /* Refusals, the lowest number first; the state stays. */
    memcpy(kept, state, sizeof state);
    expect("memory", perch_run(state, sizeof state, memory, 5, 2000000, words, 65, counts, PERCH_COUNTS), PERCH_REFUSED_MEMORY);
    expect("state", perch_run(state, 5, memory, sizeof memory, 2000000, words, 65, counts, PERCH_COUNTS), PERCH_REFUSED_STATE);
    expect("clocks", perch_run(state, sizeof state, memory, sizeof memory, 2000000, words, 65, counts, PERCH_COUNTS), PERCH_REFUSED_CLOCKS);
    expect("counts", perch_run(state, sizeof state, memory, sizeof memory, 1, words, 65, counts, 5), PERCH_REFUSED_COUNTS);
    expect("register", perch_access(state, sizeof state, 0, 0x4014, 0), PERCH_REFUSED_REGISTER);
    expect("no machine", perch_power_on(state, sizeof state, 2), PERCH_REFUSED_STATE);
    expect("kept", (uint64_t)memcmp(kept, state, sizeof state), 0);

    /* A count that would pass its limit stops a run before that clock; beyond the limit it is refused. */
    counts[0] = PERCH_MOST_COUNT - 7;
    expect("seven clocks", PERCH_CLOCKS(perch_run(state, sizeof state, memory, sizeof memory, 50, words, 65, counts, PERCH_COUNTS)), 7);
    expect("the count", counts[0], PERCH_MOST_COUNT);
    counts[127] = PERCH_MOST_COUNT + 1;
    expect("beyond", perch_run(state, sizeof state, memory, sizeof memory, 50, words, 65, counts, PERCH_COUNTS), PERCH_REFUSED_COUNTS);
    puts(wrong ? "chip: wrong" : "chip: as expected");
    return wrong;
}
