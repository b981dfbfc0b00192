/* gme NSF SECONDS [WAV]: plays the first track of an NSF by libgme, which is loaded where it is installed (libgme.so.0), and tells the
 * processor time of its calls, as `bench --gme` reads it. The energy tells that something was heard. With WAV its left channel is written there. */
#define _GNU_SOURCE
#include <dlfcn.h>
#include <stdio.h>
#include <stdlib.h>
#include <string.h>
#include <time.h>

enum { RATE = 44100, PIECE = 4096 };

static double now(void)
{
    struct timespec t;

    clock_gettime(CLOCK_THREAD_CPUTIME_ID, &t);
    return (double)t.tv_sec + (double)t.tv_nsec / 1e9;
}

static void *function(void *library, const char *name)
{
    void *found = library ? dlsym(library, name) : NULL;

    if (!found) {
        fprintf(stderr, "gme: %s\n", dlerror());
        exit(1);
    }
    return found;
}

/* Ends the program where libgme tells of a fault. */
static void held(const char *fault)
{
    if (fault) {
        fprintf(stderr, "gme: %s\n", fault);
        exit(1);
    }
}

/* libgme's: treble in dB, the lowest frequency, and room. */
struct equalizer {
    double treble, bass, room[8];
};

/* A number of so many bytes, the low one first. */
static void put(unsigned char *at, unsigned long number, int bytes)
{
    for (; bytes--; number >>= 8)
        *at++ = (unsigned char)number;
}

/* The head of a WAV file with so many samples of one channel. */
static void head(FILE *file, unsigned long samples)
{
    unsigned char bytes[44] = "RIFF....WAVEfmt ....";

    put(bytes + 4, 36 + 2 * samples, 4);
    put(bytes + 16, 16, 4);
    put(bytes + 20, 1, 2);
    put(bytes + 22, 1, 2);
    put(bytes + 24, RATE, 4);
    put(bytes + 28, 2 * RATE, 4);
    put(bytes + 32, 2, 2);
    put(bytes + 34, 16, 2);
    memcpy(bytes + 36, "data", 4);
    put(bytes + 40, 2 * samples, 4);
    fwrite(bytes, 1, sizeof bytes, file);
}

/* Every other sample of a piece. */
static void left(FILE *file, const short *sound)
{
    unsigned char bytes[2];
    int i;

    for (i = 0; i < PIECE; i += 2) {
        put(bytes, (unsigned short)sound[i], 2);
        fwrite(bytes, 1, 2, file);
    }
}

int main(int count, char **words)
{
    static short sound[PIECE];
    FILE *file = count == 4 ? fopen(words[3], "wb") : NULL;
    void *library = dlopen("libgme.so.0", RTLD_NOW), *player;
    const char *(*open_file)(const char *, void **, int), *(*start_track)(void *, int), *(*play)(void *, int, short *);
    void (*ignore_silence)(void *, int), (*set_equalizer)(void *, const struct equalizer *);
    /* treble as it is, and bass from 1 Hz on: as flat as it goes, since levels have no filter */
    static const struct equalizer flat = { 0, 1, { 0 } };
    double seconds = count == 3 || file ? atof(words[2]) : 0, time = 0, energy = 0;
    long samples = (long)(seconds * RATE) * 2, done;
    int i;

    if (samples <= 0) {
        fprintf(stderr, "usage: gme NSF SECONDS [WAV], a file that can be written\n");
        return 2;
    }
    if (file)
        head(file, (unsigned long)((samples + PIECE - 1) / PIECE) * (PIECE / 2));
    *(void **)&open_file = function(library, "gme_open_file");
    *(void **)&start_track = function(library, "gme_start_track");
    *(void **)&play = function(library, "gme_play");
    *(void **)&ignore_silence = function(library, "gme_ignore_silence");
    held(open_file(words[1], &player, RATE));
    ignore_silence(player, 1);
    if (file) {
        *(void **)&set_equalizer = function(library, "gme_set_equalizer");
        set_equalizer(player, &flat);
    }
    held(start_track(player, 0));
    for (done = 0; done < samples; done += PIECE) {
        double begun = now();

        held(play(player, PIECE, sound));
        time += now() - begun;
        for (i = 0; i < PIECE; i++)
            energy += (double)sound[i] * sound[i];
        if (file)
            left(file, sound);
    }
    if (file && fclose(file)) {
        fprintf(stderr, "gme: %s can't be written\n", words[3]);
        return 1;
    }
    printf("%.1f s of sound in %.4f s, energy %.0f\n", seconds, time, energy / (double)done);
    return 0;
}
