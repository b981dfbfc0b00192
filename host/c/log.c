/* The whole header from C, every macro and every refusal of it: what is asked of a log, its items by a cursor, the player, a
 * log folded, one repaired, a VGM stream brought in, a WAV file, the chip, why a channel is silent, what the channels give, the state at a clock, a sample's sheet, a meter. Exit status 0 where every answer is as
 * expected. */
#include <stdio.h>
#include <string.h>

#include "perchpulley.h"

static int wrong;

static void expect(const char *what, uint64_t answer, uint64_t expected)
{
    if (answer != expected) {
        printf("%s: %llx, not %llx\n", what, (unsigned long long)answer, (unsigned long long)expected);
        wrong = 1;
    }
}

static uint64_t check(const char *log)
{
    return perch_check((const uint8_t *)log, strlen(log));
}

static const char song[] = "log=1\nwrite=4011:40\nloop=3\nwait=10\nread=4015\ndone=loop\nstop=30\n";

static void sizes(void)
{
    expect("the version", perch_version(), PERCH_VERSION);
    expect("a state", perch_state_size(), PERCH_STATE_SIZE);
    expect("a player", perch_player_size(), PERCH_PLAYER_SIZE);
    expect("a cursor", perch_cursor_size(), PERCH_CURSOR_SIZE);
    expect("a WAV file under way", perch_wav_size(), PERCH_WAV_SIZE);
}

static void logs(void)
{
    static uint8_t longest[60001];
    const char *log = song;
    const uint8_t *bytes = (const uint8_t *)log;
    uint64_t answer = check(log);

    expect("a log that passes", PERCH_NUMBER(answer), PERCH_DONE);
    expect("its clocks", PERCH_LOG_CLOCKS(answer), 30);
    expect("its machine", PERCH_LOG_MACHINE(answer), PERCH_NTSC);
    expect("its turns", perch_turns(bytes, strlen(log)), (uint64_t)10 << 32);
    expect("its items", perch_items(bytes, strlen(log)), (uint64_t)7 << 32);
    answer = perch_item(bytes, strlen(log), 0);
    expect("item 0", PERCH_KIND(answer), PERCH_WRITE);
    expect("what it holds", PERCH_HELD(answer), 0x401140);
    expect("item 5, a wait", PERCH_KIND(perch_item(bytes, strlen(log), 5)), PERCH_WAIT);
    expect("item 6, a read", PERCH_KIND(perch_item(bytes, strlen(log), 6)), PERCH_READ);
    expect("no item 7", PERCH_NUMBER(perch_item(bytes, strlen(log), 7)), PERCH_REFUSED_ITEM);
    answer = perch_body(bytes, strlen(log), 20);
    expect("a body's start", PERCH_START(answer), 27);
    expect("a body's length", PERCH_LENGTH(answer), 18);
    expect("no loop at 6", PERCH_NUMBER(perch_body(bytes, strlen(log), 6)), PERCH_REFUSED_LOOP);

    expect("60,001 bytes", perch_check(longest, sizeof longest), PERCH_REFUSED_LONG);
    expect("60,000 bytes", PERCH_NUMBER(perch_check(longest, sizeof longest - 1)), PERCH_REFUSED_KEY);
    expect("nine loops", PERCH_NUMBER(check("log=1\nloop=2\nloop=2\nloop=2\nloop=2\nloop=2\nloop=2\nloop=2\nloop=2\nloop=2\n")),
           PERCH_REFUSED_DEPTH);
    expect("too many turns", PERCH_NUMBER(check("log=1\nloop=255\nloop=255\nloop=255\ndone=loop\ndone=loop\ndone=loop\nstop=0\n")),
           PERCH_REFUSED_TOTALS);
    answer = check("log=1\nmachine=pal\nwait=10\nstop=10\n");
    expect("a PAL log's clocks", PERCH_LOG_CLOCKS(answer), 10);
    expect("a PAL log's machine", PERCH_LOG_MACHINE(answer), PERCH_PAL);
    answer = check("log=1\nwait=10\nmachine=pal\nstop=10\n");
    expect("the machine too late", PERCH_NUMBER(answer), PERCH_REFUSED_KEY);
    expect("its place", PERCH_PLACE(answer), 14);
    answer = check("log=1\nmachine=ntsc\nstop=0\n");
    expect("another machine", PERCH_NUMBER(answer), PERCH_REFUSED_SHAPE);
    expect("its place", PERCH_PLACE(answer), 14);

    answer = check("log=1\nwait=1000001\nstop=0\n");
    expect("a wait too long", PERCH_NUMBER(answer), PERCH_REFUSED_RANGE);
    expect("its place", PERCH_PLACE(answer), 11);
    expect("an unknown key", PERCH_NUMBER(check("log=1\nwaits=5\n")), PERCH_REFUSED_KEY);
    expect("a leading zero", PERCH_NUMBER(check("log=1\nwait=05\n")), PERCH_REFUSED_SHAPE);
    expect("no line feed", PERCH_NUMBER(check("log=1\nstop=0")), PERCH_REFUSED_FEED);
    expect("no stop", PERCH_NUMBER(check("log=1\n")), PERCH_REFUSED_NO_STOP);
    expect("behind stop", PERCH_NUMBER(check("log=1\nstop=0\n\n")), PERCH_REFUSED_BEHIND);
    expect("no register", PERCH_NUMBER(check("log=1\nwrite=4014:00\nstop=0\n")), PERCH_REFUSED_REGISTER);
    expect("done too many", PERCH_NUMBER(check("log=1\ndone=loop\nstop=0\n")), PERCH_REFUSED_UNMATCHED);
    expect("another stop", PERCH_NUMBER(check("log=1\nstop=1\n")), PERCH_REFUSED_STOP);
}

/* The items one behind the other, and what a cursor says that its log didn't lead to. */
static void cursors(void)
{
    static const char spin[] = "log=1\nloop=255\nloop=255\nloop=255\ndone=loop\ndone=loop\ndone=loop\nstop=0\n";
    const uint8_t *log = (const uint8_t *)song;
    uint8_t cursor[PERCH_CURSOR_SIZE], mark[PERCH_CURSOR_SIZE];
    const size_t c = sizeof cursor, n = strlen(song);
    uint64_t k, answer;

    memset(cursor, 0xff, c);
    expect("a start", perch_cursor_start(cursor, c), PERCH_DONE);
    for (k = 0; k < PERCH_LOG_VALUE(perch_items(log, n)); k++)
        expect("the cursor's item", perch_cursor_next(cursor, c, log, n), perch_item(log, n, k));
    memcpy(mark, cursor, c);
    expect("the end", PERCH_KIND(perch_cursor_next(cursor, c, log, n)), PERCH_END);
    memcpy(cursor, mark, c);
    expect("the end again", perch_cursor_next(cursor, c, log, n), PERCH_DONE);
    expect("less than a cursor", perch_cursor_start(cursor, c - 1), PERCH_REFUSED_STATE);
    expect("no place to step from", perch_cursor_next(cursor, c - 1, log, n), PERCH_REFUSED_STATE);

    perch_cursor_start(cursor, c);
    cursor[0] = 1;
    memcpy(mark, cursor, c);
    answer = perch_cursor_next(cursor, c, log, n);
    expect("in mid-line", PERCH_NUMBER(answer), PERCH_REFUSED_KEY);
    expect("its place", PERCH_PLACE(answer), 1);
    expect("the cursor stays", (uint64_t)memcmp(cursor, mark, c), 0);
    perch_cursor_start(cursor, c);
    expect("many turns of nothing", PERCH_KIND(perch_cursor_next(cursor, c, (const uint8_t *)spin, strlen(spin))), PERCH_MOVED);
}

/* The player's lines, from a bookmark too. */
static void players(void)
{
    static uint8_t memory[PERCH_MEMORY_SIZE];
    static const char expected[] = "play=1\nlevel=0:8074\nlevel=0:16620\nread=10:00\nread=20:00\nread=30:00\nstop=30\n";
    const uint8_t *log = (const uint8_t *)song;
    uint8_t player[PERCH_PLAYER_SIZE], mark[PERCH_PLAYER_SIZE];
    uint8_t text[100], refusal[PERCH_REFUSAL_SIZE], words[60];
    const size_t n = strlen(song), m = sizeof memory, p = sizeof player;
    size_t written = 0;
    uint64_t answer = perch_begin(player, p, log, n, memory, m);
    int pieces = 0;

    expect("a beginning", answer, PERCH_DONE);
    do {
        if (pieces == 1)
            memcpy(mark, player, p);
        answer = perch_play_on(player, p, log, n, memory, m, text + written, PERCH_LONGEST_LINE);
        expect("a piece", PERCH_NUMBER(answer), PERCH_DONE);
        written += PERCH_WRITTEN(answer);
    } while (!PERCH_OVER(answer) && ++pieces < 20);
    expect("the text's length", written, strlen(expected));
    expect("the text", (uint64_t)memcmp(text, expected, strlen(expected)), 0);
    expect("its time", player[PERCH_PLAYER_TIME], 30);
    expect("and above", player[PERCH_PLAYER_TIME + 1] | player[PERCH_PLAYER_TIME + 2] | player[PERCH_PLAYER_TIME + 3], 0);
    answer = perch_play_on(mark, p, log, n, memory, m, text, sizeof text);
    written = PERCH_WRITTEN(answer);
    expect("from the bookmark", (uint64_t)memcmp(text, expected + strlen(expected) - written, written), 0);
    expect("some lines", written > 0 && written < strlen(expected), 1);
    expect("less memory", perch_begin(player, p, log, n, memory, m - 1), PERCH_REFUSED_MEMORY);
    expect("less than a player", perch_begin(player, p - 1, log, n, memory, m), PERCH_REFUSED_STATE);

    answer = perch_refusal_text(255, UINT64_MAX, refusal, sizeof refusal);
    expect("a refusal's text", PERCH_WRITTEN(answer), strlen("play=1\nrefused=255:3709551615\n"));
    expect("the last ten digits", (uint64_t)memcmp(refusal, "play=1\nrefused=255:3709551615\n", PERCH_WRITTEN(answer)), 0);
    answer = perch_reason(PERCH_REFUSED_RANGE, words, sizeof words);
    expect("a refusal in words", PERCH_WRITTEN(answer), strlen("value outside its range"));
    expect("its words", (uint64_t)memcmp(words, "value outside its range", PERCH_WRITTEN(answer)), 0);
    expect("no room for them", perch_reason(PERCH_REFUSED_RANGE, words, 22), 0);
}

/* A WAV file's head and its samples, from a bookmark too. At 192,000 samples a second the first ends at clock 9, the second at 18. */
static void wavs(void)
{
    static uint8_t memory[PERCH_MEMORY_SIZE];
    static const char text[] = "log=1\nwait=4\nwrite=4011:40\nwait=16\nstop=20\n";
    const uint8_t *log = (const uint8_t *)text;
    uint8_t wav[PERCH_WAV_SIZE], mark[PERCH_WAV_SIZE], out[100];
    const size_t n = strlen(text), m = sizeof memory, w = sizeof wav;
    uint64_t answer;

    memset(wav, 0xff, w);
    memcpy(mark, wav, w);
    expect("no memory", perch_wav_begin(wav, w - 1, log, n - 1, memory, m - 1, 0), PERCH_REFUSED_MEMORY);
    expect("less than a file", perch_wav_begin(wav, w - 1, log, n - 1, memory, m, 0), PERCH_REFUSED_STATE);
    answer = perch_wav_begin(wav, w, log, n - 1, memory, m, 0);
    expect("no line feed", PERCH_NUMBER(answer), PERCH_REFUSED_FEED);
    expect("its place", PERCH_PLACE(answer), n - 1);
    expect("a rate too low", perch_wav_begin(wav, w, log, n, memory, m, 7999), PERCH_REFUSED_RATE);
    expect("a rate too high", perch_wav_begin(wav, w, log, n, memory, m, 192001), PERCH_REFUSED_RATE);
    expect("no file under way", perch_wav_on(wav, w, log, n, memory, m, out, sizeof out), PERCH_REFUSED_STATE);
    expect("the bytes stay", (uint64_t)memcmp(wav, mark, w), 0);

    answer = perch_wav_begin(wav, w, log, n, memory, m, 192000);
    expect("a beginning", PERCH_NUMBER(answer), PERCH_DONE);
    expect("the file's size", PERCH_LOG_VALUE(answer), 44 + 2 * 2);
    expect("no room for the head", perch_wav_on(wav, w, log, n, memory, m, out, 43), 0);
    expect("the head", PERCH_WRITTEN(perch_wav_on(wav, w, log, n, memory, m, out, sizeof out)), 44);
    expect("of a RIFF file", (uint64_t)memcmp(out, "RIFF\x28\0\0\0WAVEfmt ", 16), 0);
    memcpy(mark, wav, w);
    answer = perch_wav_on(wav, w, log, n, memory, m, out, 3);
    expect("one sample", PERCH_WRITTEN(answer), 2);
    expect("four clocks of 8074 and five of 16620", out[0] | out[1] << 8, 12821);
    expect("it isn't over", PERCH_OVER(answer), 0);
    answer = perch_wav_on(wav, w, log, n, memory, m, out, sizeof out);
    expect("the other", PERCH_WRITTEN(answer), 2);
    expect("nine of 16620", out[0] | out[1] << 8, 16620);
    expect("and over", PERCH_OVER(perch_wav_on(wav, w, log, n, memory, m, out, 2)), 1);
    answer = perch_wav_on(mark, w, log, n, memory, m, out, sizeof out);
    expect("from the bookmark", PERCH_WRITTEN(answer), 4);
}

static void chips(void)
{
    static uint8_t memory[PERCH_MEMORY_SIZE];
    uint8_t state[PERCH_STATE_SIZE];
    uint32_t words[2], counts[PERCH_COUNTS] = {0};
    const size_t n = sizeof state, m = sizeof memory;
    uint64_t answer;

    perch_power_on(state, n, PERCH_NTSC);
    expect("no such register", perch_access(state, n, 0, 0x4014, 0), PERCH_REFUSED_REGISTER);
    expect("a run too long", perch_run(state, n, memory, m, PERCH_MOST_CLOCKS + 1, words, 2, counts, PERCH_COUNTS), PERCH_REFUSED_CLOCKS);
    answer = perch_run(state, n, memory, m, PERCH_MOST_CLOCKS, words, 2, counts, PERCH_COUNTS);
    expect("the longest run", PERCH_CLOCKS(answer), PERCH_MOST_CLOCKS);
    expect("no records", PERCH_RECORDS(answer), 0);
    expect("the level as a float", (uint64_t)(PERCH_LEVEL_FRACTION(perch_level(state, n)) * 32768.0f), 8074);
}

static void folds(void)
{
    const char *log = "log=1\nwait=9\nwait=9\nwait=9\nwait=9\nwait=9\nstop=45\n";
    const char *folded = "log=1\nloop=5\nwait=9\ndone=loop\nstop=45\n";
    uint8_t text[60];
    uint64_t answer = perch_fold((const uint8_t *)log, strlen(log), text, sizeof text);

    expect("a log that folds", PERCH_NUMBER(answer), PERCH_DONE);
    expect("its length", PERCH_LOG_VALUE(answer), strlen(folded));
    expect("the folded log", (uint64_t)memcmp(text, folded, strlen(folded)), 0);
    expect("a buffer one short", perch_fold((const uint8_t *)log, strlen(log), text, strlen(log) - 1),
           PERCH_REFUSED_FOLD_ROOM);
    expect("a log at fault", PERCH_NUMBER(perch_fold((const uint8_t *)log, 5, text, 0)), PERCH_REFUSED_FEED);
}

static void salvages(void)
{
    const char *log = "log=1\nloop=2\nwait=09\nwait=9\n";
    const char *repaired = "log=1\nloop=2\nwait=9\ndone=loop\nstop=18\n";
    const uint32_t done[] = {13, PERCH_REFUSED_SHAPE, 20, 0, 30, 0};
    uint8_t text[60];
    uint32_t list[8];
    uint64_t answer = perch_salvage((const uint8_t *)log, strlen(log), text, sizeof text, list, 8);

    expect("a damaged log", PERCH_NUMBER(answer), PERCH_DONE);
    expect("the repaired log's length", PERCH_REPAIRED_LENGTH(answer), strlen(repaired));
    expect("what was done", PERCH_REPAIRED_ENTRIES(answer), 3);
    expect("the repaired log", (uint64_t)memcmp(text, repaired, strlen(repaired)), 0);
    expect("its list", (uint64_t)memcmp(list, done, sizeof done), 0);
    expect("a text one short", perch_salvage((const uint8_t *)log, strlen(log), text, strlen(repaired) - 1, list, 8),
           PERCH_REFUSED_REPAIRED);
    expect("a list one short", perch_salvage((const uint8_t *)log, strlen(log), text, sizeof text, list, 5),
           PERCH_REFUSED_LIST);
}

static void streams(void)
{
    const uint8_t stream[] = {0xb4, 0x11, 0x40, 0x62, 0x66};
    const uint8_t block[] = {0x67, 0x66, 0xc2};
    const uint8_t wrong_register[] = {0xb4, 0x14, 0x00};
    const char *expected = "log=1\nwrite=4011:40\nwait=29829\nstop=29829\n";
    uint8_t text[60];
    uint64_t answer = perch_import(stream, sizeof stream, text, sizeof text);

    expect("a stream", PERCH_NUMBER(answer), PERCH_DONE);
    expect("its log's length", PERCH_VALUE(answer), strlen(expected));
    expect("its log", (uint64_t)memcmp(text, expected, strlen(expected)), 0);
    expect("no such register", PERCH_NUMBER(perch_import(wrong_register, 3, text, sizeof text)), PERCH_REFUSED_VGM_REGISTER);
    expect("no end", PERCH_NUMBER(perch_import(stream, 4, text, sizeof text)), PERCH_REFUSED_STREAM_END);
    expect("a data block", perch_import(block, sizeof block, text, sizeof text), PERCH_REFUSED_COMMAND);
    expect("no room", perch_import(stream, sizeof stream, text, 5), PERCH_REFUSED_ROOM);
}

/* Puts a number of four bytes, low byte first. */
static void put_word(uint8_t *file, size_t at, uint32_t word)
{
    size_t i;

    for (i = 0; i < 4; i++)
        file[at + i] = (uint8_t)(word >> 8 * i);
}

/* A VGM file of a PAL machine with a sample block: its samples, its log and its text, and what is refused. */
static void vgm_files(void)
{
    static uint8_t file[PERCH_MOST_VGM + 1], memory[PERCH_MEMORY_SIZE];
    static const uint8_t stream[] = {0x67, 0x66, 0xc2, 4, 0, 0, 0, 0x00, 0xc0, 0x55, 0xaa, 0xb4, 0x11, 0x40, 0x62, 0x66};
    static const char log[] = "log=1\nmachine=pal\nwrite=4011:40\nwait=27710\nstop=27710\n";
    static const char lines[] = "play=1\nlevel=0:8074\nlevel=0:16620\nstop=27710\n";
    const size_t start = 0x88, n = start + sizeof stream, m = sizeof memory, p = PERCH_PLAYER_SIZE;
    uint8_t player[PERCH_PLAYER_SIZE], text[100];
    uint64_t answer;

    memcpy(file, "Vgm ", 4);
    put_word(file, 0x08, 0x161);
    put_word(file, 0x34, (uint32_t)(start - 0x34));
    put_word(file, 0x84, 1662607);
    memcpy(file + start, stream, sizeof stream);
    answer = perch_samples(stream, sizeof stream, memory, m);
    expect("sample blocks", PERCH_NUMBER(answer), PERCH_DONE);
    expect("one", PERCH_VALUE(answer), 1);
    expect("its bytes", memory[0x4000] | memory[0x4001] << 8, 0xaa55);
    expect("and zeros", memory[0x3fff] | memory[0x4002], 0);
    answer = perch_import_for(stream + 11, sizeof stream - 11, PERCH_PAL, text, sizeof text);
    expect("a PAL log", PERCH_VALUE(answer), strlen(log));
    expect("its text", (uint64_t)memcmp(text, log, strlen(log)), 0);
    expect("no machine", perch_import_for(stream, 1, 2, text, sizeof text), PERCH_REFUSED_STATE);
    expect("a file's beginning", perch_begin(player, p, file, n, memory, m), PERCH_DONE);
    answer = perch_play_on(player, p, file, n, memory, m, text, sizeof text);
    expect("its lines", PERCH_WRITTEN(answer), strlen(lines));
    expect("as they are", (uint64_t)memcmp(text, lines, strlen(lines)), 0);

    expect("too long a file", perch_begin(player, p, file, sizeof file, memory, m), PERCH_REFUSED_LONG);
    expect("a header cut short", perch_begin(player, p, file, 0x3f, memory, m), PERCH_REFUSED_HEADER);
    file[0x87] |= 0x40;
    answer = perch_begin(player, p, file, n, memory, m);
    expect("two chips", PERCH_NUMBER(answer), PERCH_REFUSED_TWO_CHIPS);
    expect("at the clock", PERCH_PLACE(answer), 0x84);
    file[0x87] = 0;
    file[start + 8] = 0x7f;
    answer = perch_begin(player, p, file, n, memory, m);
    expect("a low address", PERCH_NUMBER(answer), PERCH_REFUSED_SAMPLE_BLOCK);
    expect("at the block", PERCH_PLACE(answer), start);
    expect("so its samples", perch_samples(file + start, sizeof stream, memory, m), PERCH_REFUSED_SAMPLE_BLOCK);
    expect("the memory stays", memory[0x4000], 0x55);
    expect("less memory", perch_samples(stream, sizeof stream, memory, m - 1), PERCH_REFUSED_MEMORY);
}

static void channels(void)
{
    uint8_t state[PERCH_STATE_SIZE];

    perch_power_on(state, sizeof state, PERCH_NTSC);
    expect("not enabled", PERCH_VALUE(perch_why(state, sizeof state, 0)), PERCH_WHY_DISABLED);
    perch_access(state, sizeof state, 0, 0x4015, 0x0f);
    expect("no length", PERCH_VALUE(perch_why(state, sizeof state, 3)), PERCH_WHY_LENGTH);
    perch_access(state, sizeof state, 0, 0x4000, 0xff);
    perch_access(state, sizeof state, 0, 0x4003, 0x08);
    expect("a low period", PERCH_VALUE(perch_why(state, sizeof state, 0)), PERCH_WHY_PERIOD);
    perch_access(state, sizeof state, 0, 0x4002, 0x20);
    perch_access(state, sizeof state, 0, 0x4003, 0x0f);
    expect("a high target", PERCH_VALUE(perch_why(state, sizeof state, 0)), PERCH_WHY_TARGET);
    perch_access(state, sizeof state, 0, 0x4003, 0x08);
    perch_access(state, sizeof state, 0, 0x4000, 0x3f);
    expect("a low step", PERCH_VALUE(perch_why(state, sizeof state, 0)), PERCH_WHY_STEP);
    perch_access(state, sizeof state, 0, 0x4000, 0xf0);
    expect("no volume", PERCH_VALUE(perch_why(state, sizeof state, 0)), PERCH_WHY_VOLUME);
    perch_access(state, sizeof state, 0, 0x4000, 0xff);
    expect("sounds", PERCH_VALUE(perch_why(state, sizeof state, 0)), PERCH_WHY_SOUNDS + 15);
    expect("the triangle", perch_why(state, sizeof state, 2), PERCH_REFUSED_CHANNEL);
}

/* What the channels give, the status with nothing cleared, and the state at a clock of a log. */
static void moments(void)
{
    static uint8_t memory[PERCH_MEMORY_SIZE];
    static const char log[] = "log=1\nwrite=4015:0b\nwrite=4000:ff\nwrite=4002:fd\nwrite=4003:08\nwrite=4004:f7\nwrite=4006:fd\n"
                              "write=4007:08\nwrite=4011:40\nwait=29829\nwrite=4011:05\nstop=29829\n";
    const uint8_t *bytes = (const uint8_t *)log;
    uint8_t state[PERCH_STATE_SIZE], kept[PERCH_STATE_SIZE];
    const size_t n = sizeof state, ln = strlen(log), m = sizeof memory;
    uint64_t answer;

    expect("at clock 0", perch_state_at(state, n, bytes, ln, memory, m, 0), 0);
    answer = perch_outputs(state, n);
    expect("square 1", PERCH_SQUARE1(answer), 15);
    expect("square 2", PERCH_SQUARE2(answer), 7);
    expect("triangle", PERCH_TRIANGLE(answer), 15);
    expect("noise", PERCH_NOISE(answer), 0);
    expect("DMC", PERCH_DMC(answer), 64);
    expect("status", PERCH_VALUE(perch_status(state, n)), 0x03);

    expect("a clock before the end", PERCH_LOG_VALUE(perch_state_at(state, n, bytes, ln, memory, m, 29828)), 29828);
    expect("going on from there", perch_clock(state, n, memory, m), PERCH_DONE);
    expect("the frame flag", PERCH_VALUE(perch_status(state, n)), 0x43);
    expect("nothing was cleared", PERCH_VALUE(perch_status(state, n)), 0x43);
    perch_access(state, n, 0, 0x4011, 0x05);
    expect("the end", PERCH_LOG_VALUE(perch_state_at(kept, n, bytes, ln, memory, m, UINT64_MAX)), 29829);
    expect("the same state", (uint64_t)memcmp(state, kept, n), 0);

    expect("no memory", perch_state_at(state, n - 1, bytes, ln, memory, m - 1, 0), PERCH_REFUSED_MEMORY);
    expect("no state", perch_state_at(state, n - 1, bytes, ln - 1, memory, m, 0), PERCH_REFUSED_STATE);
    answer = perch_state_at(state, n, bytes, ln - 1, memory, m, 0);
    expect("no line feed", PERCH_NUMBER(answer), PERCH_REFUSED_FEED);
    expect("its place", PERCH_PLACE(answer), ln - 1);
    expect("the state stays", (uint64_t)memcmp(state, kept, n), 0);
    expect("outputs of no state", perch_outputs(state, n - 1), PERCH_REFUSED_STATE);
    expect("status of no state", perch_status(state, n - 1), PERCH_REFUSED_STATE);
}

static void samples(void)
{
    static uint8_t memory[PERCH_MEMORY_SIZE];
    uint8_t levels[3] = {9, 9, 9};

    memory[0x4000] = 0xff;
    memory[0x4001] = 0x01;
    expect("a sheet", perch_sheet(memory, sizeof memory, 64, 0xc000, 2, levels, sizeof levels), 2 << 8);
    expect("after eight ones", levels[0], 80);
    expect("after a one and seven zeros", levels[1], 68);
    expect("behind them", levels[2], 9);
    expect("an address too low", perch_sheet(memory, sizeof memory, 64, 0x7fff, 2, levels, 3), PERCH_REFUSED_SHEET_ADDRESS);
    expect("too long a sheet", perch_sheet(memory, sizeof memory, 64, 0xc000, PERCH_MOST_SHEET + 1, levels, 3),
           PERCH_REFUSED_SHEET_LENGTH);
    expect("too short a buffer", perch_sheet(memory, sizeof memory, 64, 0xc000, 4, levels, 3), PERCH_REFUSED_SHEET_BUFFER);
    expect("a level of 128", perch_sheet(memory, sizeof memory, 128, 0xc000, 2, levels, 3), PERCH_REFUSED_SHEET_LEVEL);
}

static void meters(void)
{
    const uint32_t levels[] = {8074, 16620, 8074};
    const uint32_t records[] = {1, 16620, 5, 8074};
    const uint32_t silence[] = {0, 0}, high[] = {32768};
    uint64_t answer = perch_meter(levels, 3);

    expect("moving", PERCH_CASE(answer), PERCH_METER_MOVING);
    expect("lowest", PERCH_LOWEST(answer), 8074);
    expect("highest", PERCH_HIGHEST(answer), 16620);
    expect("steady", PERCH_CASE(perch_meter(levels, 1)), PERCH_METER_STEADY);
    expect("silent", PERCH_CASE(perch_meter(silence, 2)), PERCH_METER_SILENT);
    expect("no level", perch_meter(high, 1), PERCH_REFUSED_LEVEL);
    expect("none", PERCH_CASE(perch_meter(levels, 0)), PERCH_METER_NONE);
    expect("records", perch_meter_records(records, 4, 0, 2, PERCH_NO_LEVEL), answer);
    expect("with the level before", PERCH_LOWEST(perch_meter_records(records, 4, 0, 1, 8074)), 8074);
    expect("half of full scale", (uint64_t)(perch_level_fraction(16384) * 2), 1);
}

int main(void)
{
    sizes();
    logs();
    folds();
    salvages();
    cursors();
    players();
    wavs();
    chips();
    streams();
    vgm_files();
    channels();
    moments();
    samples();
    meters();
    puts(wrong ? "log: not as expected" : "log: as expected");
    return wrong;
}
