/* Perchpulley: a proved player of 2A03 sound logs.
 *
 * NO POINTER MAY BE NULL, also where the length behind it is 0.
 *
 * Every function here answers for any bytes and any numbers, and changes nothing but what it says. Each may be called from
 * any thread: nothing is kept between two calls but the bytes that the caller keeps.
 *
 * A slice is a pointer and then a length, in items. The pointer is valid for that many items; slices lent to one call
 * don't overlap, and nobody else writes them meanwhile.
 *
 * An answer is one 64-bit number: its low 8 bits are the answer's number, PERCH_DONE or a refusal, and the bits above
 * are its value. A refused call answers its number, about a log its place too, with value 0, and leaves all that was
 * lent to it as it was. Where several refusals hold the lowest is given; in a log 5 comes before 4, and of 4, 7, 8 and
 * 14 to 19 the first line at fault wins, before 9 to 12; a VGM file has an order of its own (RECORDINGS).
 *
 *   answer of            bits 8 and up
 *   access               8..15 PERCH_BYTE, 16..31 PERCH_LEVEL_AFTER, 32 PERCH_DIFFERS
 *   next_interrupt       8 PERCH_RISES, 32..63 PERCH_RISE_CLOCKS
 *   run, run_plain       8..31 PERCH_CLOCKS, 32..63 PERCH_RECORDS
 *   outputs              8..11 PERCH_SQUARE1, 12..15 PERCH_SQUARE2, 16..19 PERCH_TRIANGLE, 20..23 PERCH_NOISE,
 *                        24..30 PERCH_DMC
 *   meter, meter_records 8..15 PERCH_CASE, 16..31 PERCH_LOWEST, 32..47 PERCH_HIGHEST
 *   check                8..31 PERCH_PLACE, 32..62 PERCH_LOG_CLOCKS, 63 PERCH_LOG_MACHINE
 *   turns, items, fold,
 *   state_at, wav_begin  8..31 PERCH_PLACE, 32..63 PERCH_LOG_VALUE
 *   item, cursor_next    8..31 PERCH_PLACE, 32..55 PERCH_HELD, 56..63 PERCH_KIND
 *   body                 8..31 PERCH_PLACE, 32..47 PERCH_START, 48..63 PERCH_LENGTH
 *   salvage              8..31 PERCH_PLACE, 32..47 PERCH_REPAIRED_LENGTH, 48..63 PERCH_REPAIRED_ENTRIES
 *   begin                8..31 PERCH_PLACE
 *   play_on, wav_on      8 PERCH_OVER, 32..63 PERCH_WRITTEN; refused 8..31 PERCH_PLACE
 *   refusal_text, reason 32..63 PERCH_WRITTEN
 *   any other            8..63 PERCH_VALUE
 *
 * A call takes 12 KB of stack at most, measured, and no heap.
 *
 * A state is PERCH_STATE_SIZE bytes: the fields in the order in which document 01, "State, ranges and power-on", names
 * them, then the machine. Period, timer, shift register, address, remaining and clock number take two bytes, low first,
 * every other field one; a flag is 0 or 1, the machine PERCH_NTSC or PERCH_PAL. Bytes of another length, or with a flag
 * above 1, or with no machine, or with a field outside its range on that machine, or with disable and the frame's
 * interrupt both set, are no state in range (PERCH_REFUSED_STATE).
 *
 *   byte   0  square 1: duty, loop, constant, n, sweep enable, negate, P, S, sweep-written, sweep divider, period (2),
 *             timer (2), half, position, envelope start, envelope divider, envelope counter, length, enabled
 *         21  square 2: the same
 *         42  triangle: control, reload, linear, linear-halt, period (2), timer (2), position, length, enabled
 *         53  noise: loop, constant, n, envelope start, envelope divider, envelope counter, length, enabled, mode,
 *             index, timer (2), shift register (2)
 *         67  DMC: interrupt enable, loop, index, timer (2), level, address byte, length byte, address (2),
 *             remaining (2), buffer, full, shift byte, bits, silence, interrupt
 *         85  frame: mode, disable, clock number (2), interrupt
 *         90  machine
 */
#ifndef PERCHPULLEY_H
#define PERCHPULLEY_H

#include <stddef.h>
#include <stdint.h>

#ifdef __cplusplus
extern "C" {
#endif

#define PERCH_VERSION 12           /* of this header; perch_version() is the library's */
#define PERCH_STATE_SIZE 91        /* bytes of a state; perch_state_size() at run time */
#define PERCH_MEMORY_SIZE 32768    /* bytes of sample memory, $8000 to $FFFF */
#define PERCH_MOST_CLOCKS 1000000  /* clocks that one run may be asked for */
#define PERCH_MOST_SHEET 4081      /* bytes that one sheet may be asked for */
#define PERCH_MOST_VGM 524288      /* bytes of the longest VGM file that is a recording */
#define PERCH_PLAYER_SIZE 198      /* bytes of a player; perch_player_size() at run time */
#define PERCH_PLAYER_TIME 5        /* the first of the four bytes of a player that tell its time */
#define PERCH_CURSOR_SIZE 88       /* bytes of a cursor; perch_cursor_size() at run time */
#define PERCH_WAV_SIZE 224         /* bytes of a WAV file under way; perch_wav_size() at run time */
#define PERCH_LONGEST_LINE 23      /* bytes of the longest line that a player writes, with its line feed */
#define PERCH_REFUSAL_SIZE 40      /* bytes in which the text of any refusal fits */

#define PERCH_NTSC 0 /* the machines */
#define PERCH_PAL 1

#define PERCH_DONE 0
#define PERCH_REFUSED_MEMORY 1    /* sample memory isn't PERCH_MEMORY_SIZE bytes */
#define PERCH_REFUSED_STATE 2     /* the bytes are no state in range, no player, no cursor or no WAV file under way */
#define PERCH_REFUSED_CLOCKS 3    /* a run of more than PERCH_MOST_CLOCKS */
#define PERCH_REFUSED_REGISTER 4  /* register not among $4000..$4013, $4015, $4017 */
#define PERCH_REFUSED_LONG 5      /* log longer than 60,000 bytes, or VGM file longer than PERCH_MOST_VGM */
#define PERCH_REFUSED_DEPTH 7     /* a ninth loop opened inside eight */
#define PERCH_REFUSED_UNMATCHED 8 /* `done` with no loop open, or `stop` with one open */
#define PERCH_REFUSED_TOTALS 9    /* over 2,000,000,000 clocks or 1,000,000 turns in all */
#define PERCH_REFUSED_STOP 10     /* `stop` differs from the clocks in all */
#define PERCH_REFUSED_ITEM 11     /* item k asked for and the log has k or fewer */
#define PERCH_REFUSED_LOOP 12     /* no loop line begins at the offset asked for */
#define PERCH_REFUSED_COUNTS 13   /* of a run: a count above PERCH_MOST_COUNT, or counts that are not PERCH_COUNTS */
#define PERCH_REFUSED_KEY 14      /* a line's key is unknown, or not allowed where it stands */
#define PERCH_REFUSED_SHAPE 15    /* a line's value is not of its shape */
#define PERCH_REFUSED_RANGE 16    /* a line's value is outside its range */
#define PERCH_REFUSED_FEED 17     /* the log ends in a line that could go on: its line feed is missing */
#define PERCH_REFUSED_NO_STOP 18  /* the log ends without `stop` */
#define PERCH_REFUSED_BEHIND 19   /* something stands behind `stop` */
#define PERCH_REFUSED_SHEET_LEVEL 20 /* of a sheet: level above 127 */
#define PERCH_REFUSED_SHEET_ADDRESS 21 /* of a sheet: address outside 32768..65535 */
#define PERCH_REFUSED_SHEET_LENGTH 22 /* of a sheet: length above PERCH_MOST_SHEET */
#define PERCH_REFUSED_SHEET_BUFFER 23 /* of a sheet: buffer shorter than the length */
#define PERCH_REFUSED_CHANNEL 24  /* a channel that is no square and not the noise */
#define PERCH_REFUSED_COMMAND 25  /* a VGM command that isn't known */
#define PERCH_REFUSED_VGM_REGISTER 26 /* the register of a VGM command not among $00..$13, $15, $17 */
#define PERCH_REFUSED_STREAM_END 27 /* a VGM stream ends before its $66 */
#define PERCH_REFUSED_ROOM 28     /* the log is longer than the buffer lent for it, or than 60,000 bytes */
#define PERCH_REFUSED_LEVEL 29    /* a level above 32,767 */
#define PERCH_REFUSED_REPAIRED 30 /* the repaired log is longer than the buffer lent for it, or than 60,000 bytes */
#define PERCH_REFUSED_LIST 31     /* the list of what was done to repair a log has no room */
#define PERCH_REFUSED_FOLD_ROOM 32 /* the buffer is shorter than the log to be folded */
#define PERCH_REFUSED_RATE 33     /* of a WAV file: rate outside 8000..192000 */
#define PERCH_REFUSED_SAMPLE_BLOCK 34 /* a VGM sample block without an address, or outside $8000..$FFFF */
#define PERCH_REFUSED_HEADER 35   /* a VGM file whose header is cut short, or points out of the file */
#define PERCH_REFUSED_TWO_CHIPS 36 /* a VGM file for two chips */

/* The number of an answer, and its value. */
#define PERCH_NUMBER(answer) ((unsigned)((answer) & 0xff))
#define PERCH_VALUE(answer) ((uint64_t)(answer) >> 8)

/* Of a run's answer: the clocks done, and the records written. */
#define PERCH_CLOCKS(answer) ((uint32_t)((answer) >> 8 & 0xffffff))
#define PERCH_RECORDS(answer) ((uint32_t)((uint64_t)(answer) >> 32))

/* The library's version. Every change of a size, a layout or a function raises it: where it isn't PERCH_VERSION, this header
 * isn't the library's, and nothing else here holds. */
uint32_t perch_version(void);

/* How many bytes a state is. */
size_t perch_state_size(void);

/* Makes the n bytes the state of a machine at power-on, whatever they held; no access changes the machine. Refused: n isn't
 * the size of a state, or the machine is neither PERCH_NTSC nor PERCH_PAL (2). */
uint64_t perch_power_on(uint8_t *state, size_t n, uint8_t machine);

/* Value 1 where the bytes are a state in range, else 0. It refuses nothing. */
uint64_t perch_in_range(const uint8_t *state, size_t n);

/* One bus access. Where read is 0 it writes the value to the register; else it reads $4015, which clears the frame flag,
 * and register and value are ignored. The answer is number + 2^8 x the byte read (0 for a write) + 2^16 x the level after
 * + 2^32 x whether the level differs from before (1 or 0). Refused: 2; a write also 4. */
uint64_t perch_access(uint8_t *state, size_t n, uint8_t read, uint16_t reg, uint8_t value);
#define PERCH_BYTE(answer) ((uint8_t)((answer) >> 8 & 0xff))
#define PERCH_LEVEL_AFTER(answer) ((uint16_t)((answer) >> 16 & 0xffff))
#define PERCH_DIFFERS(answer) ((unsigned)((uint64_t)(answer) >> 32 & 1))

/* Value 1 where the interrupt line is asserted. Refused: 2. */
uint64_t perch_interrupt_line(const uint8_t *state, size_t n);

/* The mixed level, 0..32767. Refused: 2. */
uint64_t perch_level(const uint8_t *state, size_t n);

/* What the five channels give the mixer, the DMC 0..127 and each other 0..15. The value is square 1 + 2^4 x square 2 +
 * 2^8 x triangle + 2^12 x noise + 2^16 x DMC. Refused: 2. */
uint64_t perch_outputs(const uint8_t *state, size_t n);
#define PERCH_SQUARE1(answer) ((unsigned)((answer) >> 8 & 0xf))
#define PERCH_SQUARE2(answer) ((unsigned)((answer) >> 12 & 0xf))
#define PERCH_TRIANGLE(answer) ((unsigned)((answer) >> 16 & 0xf))
#define PERCH_NOISE(answer) ((unsigned)((answer) >> 20 & 0xf))
#define PERCH_DMC(answer) ((unsigned)((answer) >> 24 & 0x7f))

/* The byte that a read of $4015 would give; nothing is cleared, where perch_access would clear the frame flag. Refused: 2. */
uint64_t perch_status(const uint8_t *state, size_t n);

/* Works one clock with the m bytes of sample memory. Refused: 1, 2. */
uint64_t perch_clock(uint8_t *state, size_t n, const uint8_t *memory, size_t m);

/* Why a channel is silent: 0 is square 1, 1 square 2, 3 the noise. The value is the first reason below that is true, or
 * PERCH_WHY_SOUNDS + the number, 1 to 15, that the channel gives the mixer. The two reasons of the sweep hold whether it is
 * enabled or not, and are never the noise's. Refused: 2, 24. */
uint64_t perch_why(const uint8_t *state, size_t n, uint64_t channel);
#define PERCH_WHY_DISABLED 1 /* not enabled; its length is 0 too */
#define PERCH_WHY_LENGTH 2   /* length is 0 */
#define PERCH_WHY_PERIOD 3   /* a square's period is below 8 */
#define PERCH_WHY_TARGET 4   /* a square's sweep target is above 2047 */
#define PERCH_WHY_STEP 5     /* a square's duty step is low, or bit 0 of the noise is set */
#define PERCH_WHY_VOLUME 6   /* volume is 0 */
#define PERCH_WHY_SOUNDS 16  /* and the number, 1 to 15 */

/* A sheet for a sample in the m bytes of sample memory: from a level and an address on, the level after each of length bytes
 * into the buffer of b bytes, one byte a level. After 65535 comes address 32768. The value is how many levels were written;
 * bytes behind them stay. Refused, also for length 0: 1, 20, 21, 22, 23. */
uint64_t perch_sheet(const uint8_t *memory, size_t m, uint64_t level, uint64_t address, uint64_t length,
                     uint8_t *buffer, size_t b);

/* The least number of clocks, from 0 to count, after which the interrupt line is asserted, with no access between; with
 * PERCH_FRAME_FLAG or PERCH_DMC_FLAG for the line, after which that flag is set. No clock is worked. The answer is number +
 * 2^8 x PERCH_RISES, 1 where there is such a clock and 0 where there is none within the count, + 2^32 x PERCH_RISE_CLOCKS.
 * From there on it stays until an access clears it. Refused: 1, 2, 3. */
uint64_t perch_next_interrupt(const uint8_t *state, size_t n, const uint8_t *memory, size_t m, uint64_t count,
                              uint8_t which);
#define PERCH_LINE 0
#define PERCH_FRAME_FLAG 1
#define PERCH_DMC_FLAG 2
#define PERCH_RISES(answer) ((unsigned)((answer) >> 8 & 1))
#define PERCH_RISE_CLOCKS(answer) ((unsigned)((answer) >> 32))

/* Works count clocks, leaping where nothing changes. For each clock whose level differs from that before it writes a
 * record of two words: the clock's number in the run, from 1, and the level. After each clock done it adds one to the count
 * at the DMC level's place, of c counts, which are PERCH_COUNTS. It ends early exactly before a clock that needs a record
 * where w / 2 records stand, and before one whose count would pass PERCH_MOST_COUNT; words behind the last record stay.
 * Refused: 1, 2, 3, 13. */
#define PERCH_COUNTS 128            /* as many counts as the DMC level has values */
#define PERCH_MOST_COUNT 4000000000 /* the most that a count may be */
uint64_t perch_run(uint8_t *state, size_t n, const uint8_t *memory, size_t m, uint64_t count, uint32_t *words,
                   size_t w, uint32_t *counts, size_t c);

/* The same, clock by clock. */
uint64_t perch_run_plain(uint8_t *state, size_t n, const uint8_t *memory, size_t m, uint64_t count, uint32_t *words,
                         size_t w, uint32_t *counts, size_t c);

/* METERS. What a stretch of levels is: no levels; silent, all are 0; steady, all are equal and not 0; moving, anything
 * else. The answer is number + 2^8 x case + 2^16 x lowest + 2^32 x highest; of a refusal and of no levels all but the
 * number is 0. The lowest and the highest occur among the levels and bound them. */
#define PERCH_METER_NONE 0
#define PERCH_METER_SILENT 1
#define PERCH_METER_STEADY 2
#define PERCH_METER_MOVING 3
#define PERCH_CASE(answer) ((unsigned)((answer) >> 8 & 0xff))
#define PERCH_LOWEST(answer) ((uint16_t)((answer) >> 16 & 0xffff))
#define PERCH_HIGHEST(answer) ((uint16_t)((uint64_t)(answer) >> 32))

/* Over the n levels. Refused: a level above 32,767 (29). */
uint64_t perch_meter(const uint32_t *levels, size_t n);

/* Over the levels of count records from record start on, of those that are there in the w words of a run, and over the
 * level before them; PERCH_NO_LEVEL, as any number of more than 32 bits, where that doesn't count. Refused: 29. */
#define PERCH_NO_LEVEL UINT64_MAX
uint64_t perch_meter_records(const uint32_t *words, size_t w, uint64_t start, uint64_t count, uint64_t before);

/* A level over 32,768, exact; also of a number above 32,767. The level of a state as a float is
 * PERCH_LEVEL_FRACTION(perch_level(state, n)), where the answer's number is 0. */
float perch_level_fraction(uint16_t level);
#define PERCH_LEVEL_FRACTION(answer) perch_level_fraction((uint16_t)PERCH_VALUE(answer))

/* LOGS. An answer about a log is number + 2^8 x place + 2^32 x value. The place is 0 where the number is 0; else the start
 * of the faulty line for 4, 7 and 8; for 14 and 15 the first byte that can't belong to any right line allowed there with
 * that beginning; for 16 the value's first digit; for 17 and 18 the log's length; for 19 the first byte behind `stop`; the
 * `stop` line for 9 and 10; and 0 otherwise. docs/LOG.md has an example of each. */
#define PERCH_PLACE(answer) ((uint32_t)((answer) >> 8 & 0xffffff))
#define PERCH_LOG_VALUE(answer) ((uint32_t)((uint64_t)(answer) >> 32))

/* Checks a log of n bytes. The value is the clocks in all + 2^31 x the machine: PERCH_PAL where the log's second line is
 * `machine=pal`, else PERCH_NTSC. Refused: 4, 5, 7 to 10, 14 to 19. */
uint64_t perch_check(const uint8_t *log, size_t n);
#define PERCH_LOG_CLOCKS(answer) ((uint32_t)((answer) >> 32 & 0x7fffffff))
#define PERCH_LOG_MACHINE(answer) ((unsigned)((uint64_t)(answer) >> 63))

/* The same, but the value is the turns in all: 1 for a wait, write or read; N times (1 + body) for a loop. */
uint64_t perch_turns(const uint8_t *log, size_t n);

/* The same, but the value is how many items the log stands for: its waits, writes and reads, its loops unrolled. */
uint64_t perch_items(const uint8_t *log, size_t n);

/* Item k, from 0, of the waits, writes and reads that the log stands for, its loops unrolled. The value is
 * kind x 2^24 + what it holds: of a wait its clocks; of a write 256 x register + value; of a read 0. Refused: as the
 * log, then 11. */
uint64_t perch_item(const uint8_t *log, size_t n, uint64_t k);
#define PERCH_WAIT 1
#define PERCH_WRITE 2
#define PERCH_READ 3
#define PERCH_KIND(answer) ((unsigned)((uint64_t)(answer) >> 56))
#define PERCH_HELD(answer) ((uint32_t)((uint64_t)(answer) >> 32 & 0xffffff))

/* The bytes between the loop line that begins at the offset and its `done`, as a part of the log: the value is where
 * they start + 2^16 x how many they are. Refused: as the log, then 12. */
uint64_t perch_body(const uint8_t *log, size_t n, uint64_t offset);
#define PERCH_START(answer) ((uint32_t)((uint64_t)(answer) >> 32 & 0xffff))
#define PERCH_LENGTH(answer) ((uint32_t)((uint64_t)(answer) >> 48))

/* RECORDINGS. A recording is a log, or a VGM file, which begins with the four bytes `Vgm `. perch_state_at, perch_begin,
 * perch_play_on, perch_wav_begin and perch_wav_on take a recording; every other function that takes a log takes no other.
 *
 * A VGM file stands for the acts of its commands as perch_import has them, on its own machine, and of any length: each write
 * at the clock floor(S x f / 44100) where S samples stand before it, f the machine's clocks a second, and the clocks between
 * in waits of 1,000,000, then the rest. The machine is PAL where the low 30 bits of the NES clock at $84 are 1,662,607, else
 * NTSC; a header of a version below $161, or one that ends before $88, has no such clock. Data blocks ($67 $66) in front of
 * the commands are passed over; perch_samples has what the sample blocks among them hold.
 *
 * A VGM file is refused, with the place in the file: at 0, longer than PERCH_MOST_VGM (5), or with a header that is cut short
 * or points out of the file (35); at $84, for two chips (36); at its first byte, a sample block in front of the commands
 * without an address, or with its address or a byte outside $8000..$FFFF (34); at the first byte at fault of the commands 25,
 * 26 or, at the file's end, 27; then, at 0, 9. That is their order. Below, "as the log" is as the recording. */

/* Makes the n bytes, whatever they held, the state at a clock of the recording of ln bytes: after exactly so many clocks from
 * power-on on its machine, accesses stamped with that clock done; at its end where that comes before. So a program stops at
 * any clock, looks at the state, and goes on from it. The value is the clock reached. Refused, and the bytes stay: 1; n isn't
 * the size of a state (2); as the log. */
uint64_t perch_state_at(uint8_t *state, size_t n, const uint8_t *log, size_t ln, const uint8_t *memory, size_t m,
                        uint64_t clock);

/* CURSORS. A cursor goes through a log's items one behind the other, where perch_item would begin anew for each. It is
 * PERCH_CURSOR_SIZE bytes that the caller keeps between two calls, every number low byte first; a copy of them is a bookmark.
 *
 *   byte   0  the place of the line that comes next (8)
 *          8  how many loops are open (8)
 *         16  where the body of each starts, from the outermost on (8 times 8)
 *         80  how many turns each has left behind this one (8 times 1)
 *
 * Any such bytes are a cursor; one that says that more than eight loops are open counts as having none open. */

/* How many bytes a cursor is. */
size_t perch_cursor_size(void);

/* Makes the c bytes a cursor at a log's beginning, whatever they held. Refused: c isn't the size of a cursor (2). */
uint64_t perch_cursor_start(uint8_t *cursor, size_t c);

/* The next item, as perch_item has it, and the cursor moves behind it. At the log's end the kind is PERCH_END and the cursor
 * stays at the `stop` line. Of a log that passes the check, call k, from 0, behind a start gives item k, and behind the last
 * item every call the end. The log isn't checked: one that doesn't pass is gone through as far as its lines are right. Where
 * 2,000,002 lines in a row gave no item the kind is PERCH_MOVED and the cursor is behind them; a log that passes never comes to
 * that. Refused: c isn't the size of a cursor (2); 5; as the line that the cursor comes to, with the loops open that it
 * says: 4, 7, 8, 14 to 18. */
uint64_t perch_cursor_next(uint8_t *cursor, size_t c, const uint8_t *log, size_t n);
#define PERCH_END 0
#define PERCH_MOVED 4

/* Rewrites a log over the front of the text with its repeats as loops. From the left, at each wait, write or read outside
 * a loop, it takes the fewest lines, 1 to 16, all of these kinds, that are followed by equal copies of themselves and come
 * out shorter as a loop, with as many copies as stand there, 255 at most; not where the turns in all would pass 1,000,000.
 * All else is copied. The folded log passes perch_check with the same answer, stands for the same items and isn't longer.
 * The value is its length; bytes behind it stay. Refused: as the log, then t is less than n (32, at 0). */
uint64_t perch_fold(const uint8_t *log, size_t n, uint8_t *text, size_t t);

/* Repairs a damaged log, any n bytes, over the front of the text. `log=1` is added in front where it isn't the first line;
 * each line is judged against those kept before it, and the right ones are kept; a ninth loop line goes with its `done`, its
 * body stays; a `stop` stays only as the last line, with no loop open and a right number; at the end a `done` is added for
 * each open loop and, if none stayed, a right `stop`. Over the front of the list's w words, two an entry, goes what was done,
 * in its order: a line dropped, where it began in the log and why (4, 7, 8, 10, 14 to 17, 19); a line added, its place in the
 * text and 0. The repaired log passes perch_check; a log that passes comes back byte for byte with no entry. The value is
 * PERCH_REPAIRED_LENGTH and PERCH_REPAIRED_ENTRIES; bytes and words behind them stay. Refused, at 0: n is above 60,000 (5);
 * the repaired log is over the totals (9), longer than the text or 60,000 bytes (30); the list has no room (31).
 * So `log=1`, `loop=2`, `wait=09`, `wait=9`, each with its line feed, become `log=1`, `loop=2`, `wait=9`, `done=loop`, `stop=18`,
 * and the list is 13, 15 (the third line went by 15), 20, 0 and 30, 0 (the last two were added): PERCH_REPAIRED_ENTRIES is 3. */
uint64_t perch_salvage(const uint8_t *log, size_t n, uint8_t *text, size_t t, uint32_t *list, size_t w);
#define PERCH_REPAIRED_LENGTH(answer) ((unsigned)((answer) >> 32 & 0xffff))
#define PERCH_REPAIRED_ENTRIES(answer) ((unsigned)((answer) >> 48))

/* WHAT OTHER PLAYERS WROTE. Brings a VGM stream, the n bytes behind a VGM file's header, in as a log over the front of the
 * text. Commands: $B4 register value; the waits $61, $62, $63 and $70..$7F, in samples at 44,100 a second; $66 the end,
 * behind which nothing is read. The log passes perch_check and stands for exactly those writes, each at the clock
 * floor(S x 1789773 / 44100) where S samples stand before it. The value is the log's length; bytes behind the log stay.
 *
 * Refused: at the first byte at fault 25, 26 or, at n, 27; then, at 0, 9, then 28. Here the value of a refusal is its
 * place (the low 56 bits of it). */
uint64_t perch_import(const uint8_t *stream, size_t n, uint8_t *text, size_t t);

/* The same for a machine, PERCH_NTSC or PERCH_PAL: for PAL a log whose second line is `machine=pal`, each write at the clock
 * floor(S x 1662607 / 44100). Refused: a machine that is neither (2), then as above. */
uint64_t perch_import_for(const uint8_t *stream, size_t n, uint8_t machine, uint8_t *text, size_t t);

/* Makes the m bytes the sample memory that a VGM stream, as above, brings with it: what the sample blocks in front of its
 * commands hold ($67 $66 $C2, the size in four bytes, an address in two, then the bytes for it), each over those before, and
 * 0 elsewhere. Blocks of other types are passed over. The value is how many sample blocks there are. Refused, and the memory
 * stays: m isn't PERCH_MEMORY_SIZE (1, at 0); 34 at the block's first byte. Here too the value of a refusal is its place. */
uint64_t perch_samples(const uint8_t *stream, size_t n, uint8_t *memory, size_t m);

/* THE PLAYER IN PIECES. A player is PERCH_PLAYER_SIZE bytes that the caller keeps between two pieces.
 *
 * A copy of them is a bookmark: kept and played on later, with the same recording and memory, it gives the same lines again.
 * The bytes hold no pointers, so that they can be written to a file too, for a library of the same version. The four bytes
 * from PERCH_PLAYER_TIME on, low byte first, are the time in clocks up to which the player has come: that of its last line or
 * later, and not past its next line. */

/* How many bytes a player is. */
size_t perch_player_size(void);

/* Makes the p bytes a player at the beginning of the recording, on its machine, whatever they held. The answer is one about
 * a log, with value 0. Refused: 1; p isn't the size of a player (2); as the log. */
uint64_t perch_begin(uint8_t *player, size_t p, const uint8_t *log, size_t n, const uint8_t *memory, size_t m);

/* Writes the player's next lines to the text, whole lines only, and moves the player behind them. Recording and memory are
 * those that the player began with; then the pieces joined are what the player program writes, and no piece is
 * refused. A text of PERCH_LONGEST_LINE bytes or more gets one line at least until the player is over; how many more is
 * free; a shorter one may get none, and then the player stays. Bytes behind the lines stay; no line goes behind the
 * first 4,294,967,295 bytes. The answer is 2^8 x over + 2^32 x bytes written; refused it is an answer about a log.
 *
 * Refused: 1; the bytes are no player, or their state is out of range (2). A player that its log didn't lead to may be
 * refused with 3 (a wait of more than PERCH_MOST_CLOCKS), with 9 (a time above 2,000,000,000) or as the line or the
 * command that it comes to, and PERCH_PLACE has its place. */
uint64_t perch_play_on(uint8_t *player, size_t p, const uint8_t *log, size_t n, const uint8_t *memory, size_t m,
                       uint8_t *text, size_t t);
#define PERCH_OVER(answer) ((unsigned)((answer) >> 8 & 1))
#define PERCH_WRITTEN(answer) ((size_t)((uint64_t)(answer) >> 32))

/* Writes the text of a refusal, `play=1` and `refused=NUMBER:PLACE`, or nothing where the text is too short for it. Of a
 * place of more than ten digits it writes the last ten. The answer is 2^32 x bytes written. */
uint64_t perch_refusal_text(uint8_t number, uint64_t place, uint8_t *text, size_t t);

/* Writes a refusal's number in words, such as "value outside its range", with nothing behind them, or nothing where the text is
 * too short for them: 60 bytes hold any. A number that has no words of its own is "refused". The answer is 2^32 x bytes
 * written. */
uint64_t perch_reason(uint8_t number, uint8_t *text, size_t t);

/* A RECORDING AS A WAV FILE, IN PIECES: RIFF, PCM, 16 bits, one channel; a head of 44 bytes, then two bytes a sample, low
 * byte first.
 * Sample n, from 0, is the mean, rounded down, of the levels after the clocks floor(n x f / rate) + 1 to
 * floor((n + 1) x f / rate), where f is 1,789,773, or 1,662,607 on a PAL machine, and the rate is in samples a second: 0..32767,
 * and nothing is filtered. An access changes the levels of the clocks behind it only. The samples are those whose last clock
 * the recording has.
 *
 * A WAV file under way is PERCH_WAV_SIZE bytes that the caller keeps between two pieces, every number low byte first; a copy of
 * them is a bookmark, as a player's is.
 *
 *   byte   0  whether the head is written, 0 or 1
 *          1  the rate (4)
 *          5  the samples in all (4)
 *          9  the clocks of a wait that are still to be worked (4)
 *         13  the number of the sample under way (8)
 *         21  its levels so far, added up (8)
 *         29  the clocks done (8)
 *         37  a cursor
 *        125  of a VGM file the samples before its place, 44,100 a second (4), of a log 0
 *        129  and the clocks that were given as waits (4), of a log 0
 *        133  a state */

/* How many bytes a WAV file under way is. */
size_t perch_wav_size(void);

/* Makes the w bytes the recording's WAV file at its beginning, whatever they held. The value is the size of the whole file in
 * bytes: 44 + 2 x its samples. Refused, and the bytes stay: 1; w isn't the size of a WAV file under way (2); as the log; the rate is
 * outside 8000..192000 (33, at 0). */
uint64_t perch_wav_begin(uint8_t *wav, size_t w, const uint8_t *log, size_t n, const uint8_t *memory, size_t m,
                         uint32_t rate);

/* Writes the next bytes of the file to the front of `out`, and moves the file behind them: first the head alone, into 44
 * bytes or more, and into fewer nothing; behind it whole samples, as many as fit, into less than two bytes none. Recording and
 * memory are those that the file began with; then the pieces joined are the whole file, and no piece is refused. A piece
 * with room for a sample gets one at least, or says over; one that says over may have written the last samples. Bytes behind
 * those written stay; none goes behind the first 4,294,967,295. The answer is 2^8 x over + 2^32 x bytes written; refused it is
 * an answer about a log.
 *
 * Refused, and nothing is written, and the file stays: 1; the bytes are no WAV file under way, or their state is out of range
 * (2). One that its log didn't lead to may be refused, in this order, with 3 (a wait of more than PERCH_MOST_CLOCKS), 9 (a
 * time, with the wait's clocks, above 2,000,000,000), 33, 2 (a sample under way that doesn't have the clock, or a sum above
 * 65,535 for each of its clocks done), or as the line or the command that it comes to before any sample of this piece, and
 * PERCH_PLACE has its place. */
uint64_t perch_wav_on(uint8_t *wav, size_t w, const uint8_t *log, size_t n, const uint8_t *memory, size_t m, uint8_t *out,
                      size_t o);

#ifdef __cplusplus
}
#endif

#endif
