/* A log as a WAV file from C: writes the file of the log and the sample memory named, at a rate or 44,100 samples a second, to standard
 * output, in pieces; of a log that is refused a line `refused=NUMBER:PLACE`. Status 0: what is written is whole; 1: a file couldn't be read,
 * the sound couldn't be written or isn't as long as the beginning said; 2: wrong words. */
#include <stdio.h>
#include <stdlib.h>

#include "perchpulley.h"

/* Reads up to `most` bytes of a file: one more than a log may have is enough to refuse it. 0 where that fails. */
static int read_file(const char *name, uint8_t *bytes, size_t most, size_t *count)
{
    FILE *file = fopen(name, "rb");
    int failed;

    if (!file) {
        perror(name);
        return 0;
    }
    *count = fread(bytes, 1, most, file);
    failed = ferror(file);
    if (failed)
        perror(name);
    fclose(file);
    return !failed;
}

/* The rate that a word says: digits alone; 0, which is refused, for any that is too high. */
static int read_rate(const char *word, uint32_t *rate)
{
    char *end;
    unsigned long number = strtoul(word, &end, 10);

    *rate = number > UINT32_MAX ? 0 : (uint32_t)number;
    return *word >= '0' && *word <= '9' && !*end;
}

int main(int count, char **words)
{
    static uint8_t memory[PERCH_MEMORY_SIZE + 1], log[PERCH_MOST_VGM + 1], out[4096];
    uint8_t wav[PERCH_WAV_SIZE];
    size_t n, m, w = sizeof wav;
    uint32_t rate = 44100, left;
    uint64_t answer;

    if ((count != 3 && count != 4) || (count == 4 && !read_rate(words[3], &rate))) {
        fprintf(stderr, "usage: wav LOG MEMORY [RATE]\n");
        return 2;
    }
    if (!read_file(words[1], log, sizeof log, &n) || !read_file(words[2], memory, sizeof memory, &m))
        return 1;
    answer = perch_wav_begin(wav, w, log, n, memory, m, rate);
    left = PERCH_LOG_VALUE(answer);
    while (PERCH_NUMBER(answer) == PERCH_DONE && !PERCH_OVER(answer)) {
        answer = perch_wav_on(wav, w, log, n, memory, m, out, sizeof out);
        left -= (uint32_t)PERCH_WRITTEN(answer);
        if (fwrite(out, 1, PERCH_WRITTEN(answer), stdout) != PERCH_WRITTEN(answer))
            break;
    }
    if (PERCH_NUMBER(answer) != PERCH_DONE)
        printf("refused=%u:%u\n", PERCH_NUMBER(answer), (unsigned)PERCH_PLACE(answer));
    /* What stands in the buffer is written only here: a disk may be full up to the last byte. */
    if (fflush(stdout) || ferror(stdout)) {
        perror("wav: standard output");
        return 1;
    }
    if (left) {
        fprintf(stderr, "wav: %u bytes are missing\n", (unsigned)left);
        return 1;
    }
    return 0;
}
