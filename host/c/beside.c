/* Two or more builds of the library beside each other, in one process: each scene is played by each build in turn, the least
 * time of several is kept, and what they give must be the same.
 *
 *   beside [-t TRIES] [-l LOG] [-n NSF] BUILD.so BUILD.so ..
 *
 * With -l a log that passes is played by the runs of its waits, and as text; with -n libgme, where it is installed, plays the same tune
 * beside it.
 * host/beside makes the builds from archives. */
#define _GNU_SOURCE
#include <dlfcn.h>
#include <stdint.h>
#include <stdio.h>
#include <stdlib.h>
#include <string.h>
#include <time.h>

#include "perchpulley.h"

enum { MOST_BUILDS = 8, MOST_ACTS = 1000000, WORDS = 32768, TEXT = 65536 };

struct build {
    const char *name;
    uint64_t (*power_on)(uint8_t *, size_t, uint8_t);
    uint64_t (*access)(uint8_t *, size_t, uint8_t, uint16_t, uint8_t);
    uint64_t (*run)(uint8_t *, size_t, const uint8_t *, size_t, uint64_t, uint32_t *, size_t, uint32_t *, size_t);
    uint64_t (*begin)(uint8_t *, size_t, const uint8_t *, size_t, const uint8_t *, size_t);
    uint64_t (*play_on)(uint8_t *, size_t, const uint8_t *, size_t, const uint8_t *, size_t, uint8_t *, size_t);
    size_t size, player_size;
    /* NULL in builds from before the cursor */
    uint64_t (*check)(const uint8_t *, size_t);
    uint64_t (*cursor_start)(uint8_t *, size_t);
    uint64_t (*cursor_next)(uint8_t *, size_t, const uint8_t *, size_t);
    size_t (*cursor_size)(void);
};

struct act {
    int kind; /* PERCH_WAIT, PERCH_WRITE or PERCH_READ */
    uint32_t held;
};

struct scene {
    const char *name;
    const struct act *acts;
    size_t count;
    uint8_t machine;
};

/* What a scene came to: a build that gives anything else is at fault. */
struct played {
    uint64_t clocks, records, sum;
};

static uint8_t memory[PERCH_MEMORY_SIZE];
static uint32_t words[WORDS], counts[PERCH_COUNTS];
static uint8_t text[TEXT];

static double now(void)
{
    struct timespec t;

    clock_gettime(CLOCK_THREAD_CPUTIME_ID, &t);
    return (double)t.tv_sec + (double)t.tv_nsec / 1e9;
}

static void *found(void *build, const char *name)
{
    void *f = dlsym(build, name);

    if (!f) {
        fprintf(stderr, "%s\n", dlerror());
        exit(2);
    }
    return f;
}

static struct build loaded(const char *name)
{
    struct build b;
    void *build = dlmopen(LM_ID_NEWLM, name, RTLD_NOW);

    if (!build) {
        fprintf(stderr, "%s\n", dlerror());
        exit(2);
    }
    b.name = name;
    *(void **)&b.power_on = found(build, "perch_power_on");
    *(void **)&b.access = found(build, "perch_access");
    *(void **)&b.run = found(build, "perch_run");
    *(void **)&b.begin = found(build, "perch_begin");
    *(void **)&b.play_on = found(build, "perch_play_on");
    b.size = ((size_t(*)(void))found(build, "perch_state_size"))();
    b.player_size = ((size_t(*)(void))found(build, "perch_player_size"))();
    *(void **)&b.check = dlsym(build, "perch_check");
    *(void **)&b.cursor_start = dlsym(build, "perch_cursor_start");
    *(void **)&b.cursor_next = dlsym(build, "perch_cursor_next");
    *(void **)&b.cursor_size = dlsym(build, "perch_cursor_size");
    return b;
}

static void wait(const struct build *b, uint8_t *state, uint64_t left, struct played *p, int summed)
{
    while (left) {
        uint64_t answer = b->run(state, b->size, memory, sizeof memory, left, words, WORDS, counts, PERCH_COUNTS);
        uint64_t done = PERCH_CLOCKS(answer), records = PERCH_RECORDS(answer), k;

        if (PERCH_NUMBER(answer) != PERCH_DONE) {
            fprintf(stderr, "%s: a run is refused with %u\n", b->name, PERCH_NUMBER(answer));
            exit(2);
        }
        for (k = 0; summed && k < records; k++)
            p->sum = p->sum * 31 + ((p->clocks + words[2 * k]) << 16) + words[2 * k + 1];
        p->clocks += done;
        p->records += records;
        left -= done;
    }
}

/* A scene's clocks and records; and the sum of records and counts where it is asked for. */
static struct played play(const struct build *b, const struct scene *s, int summed)
{
    struct played p = {0, 0, 0};
    uint8_t state[256];
    size_t i;

    memset(counts, 0, sizeof counts);
    b->power_on(state, b->size, s->machine);
    for (i = 0; i < s->count; i++) {
        uint32_t held = s->acts[i].held;

        if (s->acts[i].kind == PERCH_WAIT)
            wait(b, state, held, &p, summed);
        else if (s->acts[i].kind == PERCH_WRITE)
            b->access(state, b->size, 0, (uint16_t)(held >> 8), (uint8_t)held);
        else
            p.sum += PERCH_BYTE(b->access(state, b->size, 1, 0, 0));
    }
    for (i = 0; summed && i < PERCH_COUNTS; i++)
        p.sum = p.sum * 31 + counts[i];
    return p;
}

/* A log's bytes. */
struct bytes {
    uint8_t *bytes;
    size_t size;
};

static struct bytes read_log(const char *name)
{
    struct bytes log = {malloc(TEXT), 0};
    FILE *file = fopen(name, "rb");

    if (!file || !log.bytes) {
        perror(name);
        exit(2);
    }
    log.size = fread(log.bytes, 1, TEXT, file);
    if (ferror(file)) {
        perror(name);
        exit(2);
    }
    fclose(file);
    return log;
}

/* The acts of a log, its loops unrolled, by the last build that has a cursor; the program ends where the log doesn't pass there. */
static struct scene log_scene(const struct build *builds, int n, const char *name, const struct bytes *log)
{
    struct scene s = {"the log", NULL, 0, PERCH_NTSC};
    struct act *acts = malloc(sizeof *acts * MOST_ACTS);
    uint8_t cursor[256];
    uint64_t answer;

    while (n > 0 && !(builds[n - 1].check && builds[n - 1].cursor_start && builds[n - 1].cursor_next && builds[n - 1].cursor_size))
        n--;
    if (n == 0 || !acts) {
        fprintf(stderr, n == 0 ? "no build has a cursor to go through the log with\n" : "no memory for the log\n");
        exit(2);
    }
    builds += n - 1;
    answer = builds->check(log->bytes, log->size);
    if (PERCH_NUMBER(answer) != PERCH_DONE) {
        fprintf(stderr, "%s: refused=%u:%u\n", name, PERCH_NUMBER(answer), (unsigned)PERCH_PLACE(answer));
        exit(2);
    }
    s.machine = (uint8_t)PERCH_LOG_MACHINE(answer);
    builds->cursor_start(cursor, builds->cursor_size());
    while (s.count < MOST_ACTS) {
        answer = builds->cursor_next(cursor, builds->cursor_size(), log->bytes, log->size);
        if (PERCH_NUMBER(answer) != PERCH_DONE || PERCH_KIND(answer) == PERCH_END)
            break;
        acts[s.count].kind = (int)PERCH_KIND(answer);
        acts[s.count++].held = PERCH_HELD(answer);
    }
    s.acts = acts;
    return s;
}

/* A log's text, piece by piece into one buffer: its bytes, and their sum where it is asked for. */
static struct played tell(const struct build *b, const struct bytes *log, int summed)
{
    struct played p = {0, 0, 0};
    uint8_t player[256];
    uint64_t answer = b->begin(player, b->player_size, log->bytes, log->size, memory, sizeof memory), k;

    while (PERCH_NUMBER(answer) == PERCH_DONE) {
        answer = b->play_on(player, b->player_size, log->bytes, log->size, memory, sizeof memory, text, TEXT);
        p.records += PERCH_WRITTEN(answer);
        for (k = 0; summed && k < PERCH_WRITTEN(answer); k++)
            p.sum = p.sum * 31 + text[k];
        if (PERCH_OVER(answer))
            break;
    }
    return p;
}

/* The same tune by libgme, in seconds of processor time; 0 where it can't be had. */
static double by_gme(const char *nsf, double seconds)
{
    static short sound[4096];
    void *gme = dlopen("libgme.so.0", RTLD_NOW), *emu;
    const char *(*open_file)(const char *, void **, int), *(*start_track)(void *, int), *(*next)(void *, int, short *);
    void (*close_file)(void *), (*ignore_silence)(void *, int);
    long left = (long)(seconds * 44100) * 2;
    double t;

    if (!gme)
        return 0;
    *(void **)&open_file = found(gme, "gme_open_file");
    *(void **)&start_track = found(gme, "gme_start_track");
    *(void **)&next = found(gme, "gme_play");
    *(void **)&close_file = found(gme, "gme_delete");
    *(void **)&ignore_silence = found(gme, "gme_ignore_silence");
    if (open_file(nsf, &emu, 44100))
        return 0;
    ignore_silence(emu, 1);
    start_track(emu, 0);
    t = now();
    for (; left > 0; left -= 4096)
        next(emu, 4096, sound);
    t = now() - t;
    close_file(emu);
    return t;
}

#define W(reg, value) {PERCH_WRITE, (uint32_t)(reg) << 8 | (value)}
#define TEN {PERCH_WAIT, 1000000}, {PERCH_WAIT, 1000000}, {PERCH_WAIT, 1000000}, {PERCH_WAIT, 1000000}, {PERCH_WAIT, 1000000}, \
            {PERCH_WAIT, 1000000}, {PERCH_WAIT, 1000000}, {PERCH_WAIT, 1000000}, {PERCH_WAIT, 1000000}, {PERCH_WAIT, 1000000}
#define COUNT(acts) (sizeof(acts) / sizeof *(acts))

static const struct act quiet[] = {TEN};
static const struct act slow_noise[] = {W(0x400e, 0x0f), TEN};
static const struct act one_square[] = {W(0x4015, 1), W(0x4000, 0xbf), W(0x4001, 8), W(0x4002, 0xfd), W(0x4003, 0), TEN};
static const struct act audible[] = {W(0x4015, 0x0f), W(0x4000, 0xbf), W(0x4001, 8), W(0x4002, 0xfd), W(0x4003, 0), W(0x4004, 0x7a),
    W(0x4005, 8), W(0x4006, 0x80), W(0x4007, 1), W(0x4008, 0xff), W(0x400a, 0x40), W(0x400b, 1), W(0x400c, 0x3a), W(0x400e, 5),
    W(0x400f, 0), W(0x4010, 0x4e), W(0x4013, 0xff), W(0x4015, 0x1f), TEN};
static const struct act shortest[] = {W(0x4015, 0x0f), W(0x4000, 0xbf), W(0x4001, 8), W(0x4002, 8), W(0x4003, 0), W(0x4004, 0x7f),
    W(0x4005, 8), W(0x4006, 8), W(0x4007, 0), W(0x4008, 0xff), W(0x400a, 0), W(0x400b, 0), W(0x400c, 0x3f), W(0x400e, 0), W(0x400f, 0),
    W(0x4010, 0x4f), W(0x4013, 0xff), W(0x4015, 0x1f), W(0x4017, 0x80), {PERCH_WAIT, 1000000}, {PERCH_WAIT, 1000000}};

/* One scene by every build; 1 where one differs from the first. What they give is summed in a first try, whose time isn't taken, of libgme
 * neither. */
static int beside(const struct build *builds, int n, const struct scene *s, int tries, const char *nsf)
{
    struct played first = {0, 0, 0};
    double least[MOST_BUILDS], gme = 0, t;
    int i, j;

    for (i = 0; i <= tries; i++) {
        for (j = 0; j < n; j++) {
            struct played p;

            t = now();
            p = play(&builds[j], s, i == 0);
            t = now() - t;
            if (i <= 1 || t < least[j])
                least[j] = t;
            if (i == 0 && j == 0)
                first = p;
            if (p.clocks != first.clocks || p.records != first.records || (i == 0 && p.sum != first.sum)) {
                printf("%s: %s gives something else than %s\n", s->name, builds[j].name, builds[0].name);
                return 1;
            }
        }
        t = nsf ? by_gme(nsf, (double)first.clocks / (s->machine == PERCH_PAL ? 1662607 : 1789773)) : 0;
        if (t > 0 && (i <= 1 || t < gme))
            gme = t;
    }
    printf("| %s | %llu | %llu |", s->name, (unsigned long long)first.clocks, (unsigned long long)first.records);
    for (j = 0; j < n; j++)
        printf(" %.2f ms, %.2f |", least[j] * 1e3, least[j] / least[0]);
    if (gme > 0)
        printf(" libgme %.2f ms: the last is %.2f of it |", gme * 1e3, least[n - 1] / gme);
    printf("\n");
    return 0;
}

/* A log's text by every build, each with its time over that of its own runs; 1 where one differs from the first. */
static int told_beside(const struct build *builds, int n, const struct scene *s, const struct bytes *log, int tries)
{
    struct played first = tell(&builds[0], log, 1);
    double told[MOST_BUILDS], ran[MOST_BUILDS], t;
    int i, j;

    for (j = 1; j < n; j++) {
        struct played p = tell(&builds[j], log, 1);

        if (p.records != first.records || p.sum != first.sum) {
            printf("%s as text: %s gives something else than %s\n", s->name, builds[j].name, builds[0].name);
            return 1;
        }
    }
    for (i = 0; i < tries; i++)
        for (j = 0; j < n; j++) {
            t = now();
            play(&builds[j], s, 0);
            t = now() - t;
            if (i == 0 || t < ran[j])
                ran[j] = t;
            t = now();
            tell(&builds[j], log, 0);
            t = now() - t;
            if (i == 0 || t < told[j])
                told[j] = t;
        }
    printf("| %s as text, %llu bytes | | |", s->name, (unsigned long long)first.records);
    for (j = 0; j < n; j++)
        printf(" %.2f ms, %.2f, %.2f of its runs |", told[j] * 1e3, told[j] / told[0], told[j] / ran[j]);
    printf("\n");
    return 0;
}

int main(int argc, char **argv)
{
    struct build builds[MOST_BUILDS];
    struct scene scenes[6] = {{"quiet from power-on", quiet, COUNT(quiet), PERCH_NTSC},
        {"quiet after $400E:0f", slow_noise, COUNT(slow_noise), PERCH_NTSC},
        {"one square, 440 Hz", one_square, COUNT(one_square), PERCH_NTSC},
        {"all channels, audible", audible, COUNT(audible), PERCH_NTSC},
        {"all channels, shortest periods", shortest, COUNT(shortest), PERCH_NTSC}};
    struct bytes log = {NULL, 0};
    const char *nsf = NULL, *name = NULL;
    int n = 0, count = 5, tries = 9, wrong = 0, i;

    for (i = 1; i < argc; i++) {
        if (!strcmp(argv[i], "-t") && i + 1 < argc)
            tries = atoi(argv[++i]);
        else if (!strcmp(argv[i], "-l") && i + 1 < argc)
            name = argv[++i];
        else if (!strcmp(argv[i], "-n") && i + 1 < argc)
            nsf = argv[++i];
        else if (n < MOST_BUILDS)
            builds[n++] = loaded(argv[i]);
    }
    if (n == 0 || tries < 1) {
        fprintf(stderr, "beside [-t TRIES] [-l LOG] [-n NSF] BUILD.so ..\n");
        return 2;
    }
    for (i = 0; i < PERCH_MEMORY_SIZE; i++)
        memory[i] = (uint8_t)(i * 73 >> 3);
    if (name) {
        log = read_log(name);
        scenes[count++] = log_scene(builds, n, name, &log);
    }
    printf("| scene | clocks | records | each build: time, of the first |\n|---|---|---|---|\n");
    for (i = 0; i < count; i++)
        wrong |= beside(builds, n, &scenes[i], tries, i == 5 ? nsf : NULL);
    if (log.bytes)
        wrong |= told_beside(builds, n, &scenes[5], &log, tries);
    return wrong;
}
