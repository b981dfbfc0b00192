/* The player from C: plays document 01's example, or the log and the sample memory in the two files named. Status 0: the text is
 * whole, and its last line is `stop=` or `refused=`; 1: a file couldn't be read or the text couldn't be written; 2: wrong words. */
#include <stdio.h>

#include "perchpulley.h"

static const char example[] = "log=1\nwrite=4011:40\nwait=10\nread=4015\nstop=10\n";

/* Reads up to `most` bytes of a file: one more than a log may have is enough to refuse it. 0 where that fails. */
static int read_file(const char *name, uint8_t *bytes, size_t most, size_t *count)
{
    FILE *file = fopen(name, "rb");
    int failed;

    if (!file) {
        perror(name);
        return 0;
    }
    *count = fread(bytes, 1, most, file);
    failed = ferror(file);
    if (failed)
        perror(name);
    fclose(file);
    return !failed;
}

/* Writes bytes to standard output; 0 where that fails. */
static int put(const uint8_t *bytes, size_t n)
{
    return fwrite(bytes, 1, n, stdout) == n;
}

int main(int count, char **words)
{
    static uint8_t memory[PERCH_MEMORY_SIZE + 1], file[PERCH_MOST_VGM + 1], text[4096];
    uint8_t player[PERCH_PLAYER_SIZE];
    const uint8_t *log = (const uint8_t *)example;
    size_t n = sizeof example - 1, m = PERCH_MEMORY_SIZE, p = sizeof player;
    uint64_t answer;
    int written = 1;

    if (perch_version() != PERCH_VERSION) {
        fprintf(stderr, "play: the library is of version %u, its header of version %u\n", (unsigned)perch_version(), (unsigned)PERCH_VERSION);
        return 1;
    }
    if (count != 1 && count != 3) {
        fprintf(stderr, "usage: play [LOG MEMORY]\n");
        return 2;
    }
    if (count == 3) {
        if (!read_file(words[1], file, sizeof file, &n) || !read_file(words[2], memory, sizeof memory, &m))
            return 1;
        log = file;
    }
    answer = perch_begin(player, p, log, n, memory, m);
    while (written && PERCH_NUMBER(answer) == PERCH_DONE && !PERCH_OVER(answer)) {
        answer = perch_play_on(player, p, log, n, memory, m, text, sizeof text);
        if (PERCH_NUMBER(answer) == PERCH_DONE)
            written = put(text, PERCH_WRITTEN(answer));
    }
    if (PERCH_NUMBER(answer) != PERCH_DONE) {
        answer = perch_refusal_text((uint8_t)PERCH_NUMBER(answer), PERCH_PLACE(answer), text, sizeof text);
        written = put(text, PERCH_WRITTEN(answer));
    }
    /* What stands in the buffer is written only here: a disk may be full up to the last byte. */
    if (!written || fflush(stdout)) {
        perror("play: standard output");
        return 1;
    }
    return 0;
}
