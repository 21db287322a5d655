/* A minute boundary of several archives in one program, in turns over the same records: what a change made of it. `speed/beside` builds
 * and runs it. Arguments: a name and a shared library for each archive. Output: a table in Markdown. */
#include "spritgrommet.h"
#include <dlfcn.h>
#include <stdio.h>
#include <stdlib.h>
#include <string.h>
#include <time.h>

enum { ROUNDS = 41, MOST_ARCHIVES = 8, LARGEST = 1 << 20, LINE = 64 };

/* An archive: its name, the function that is timed, and limits for it. */
struct archive {
    const char *name;
    __typeof__(spritgrommet_pass) *pass;
    struct spritgrommet_limits limits;
};

/* How many records, how many in a thousand are marked, and whether the table is out of the caches at each boundary. */
struct trial {
    size_t records;
    int marked;
    int is_cold;
};

static const struct trial TRIALS[] = {
    {16, 0, 0},        {16, 500, 0},       {16, 1000, 0},     {4096, 0, 0},      {4096, 10, 0},      {4096, 200, 0},
    {4096, 500, 0},    {4096, 1000, 0},    {LARGEST, 0, 0},   {LARGEST, 1, 0},   {LARGEST, 5, 0},    {LARGEST, 10, 0},
    {LARGEST, 50, 0},  {LARGEST, 200, 0},  {LARGEST, 500, 0}, {LARGEST, 800, 0}, {LARGEST, 1000, 0}, {LARGEST, 0, 1},
    {LARGEST, 1, 1},   {LARGEST, 5, 1},    {LARGEST, 10, 1},  {LARGEST, 50, 1},  {LARGEST, 200, 1},  {LARGEST, 500, 1},
    {LARGEST, 800, 1}, {LARGEST, 1000, 1},
};

static double seconds(void) {
    struct timespec now;
    clock_gettime(CLOCK_MONOTONIC, &now);
    return (double)now.tv_sec + 1e-9 * (double)now.tv_nsec;
}

static int by_size(const void *a, const void *b) {
    double x = *(const double *)a, y = *(const double *)b;
    return (x > y) - (x < y);
}

/* Marked records with ages 0 to 62, and the rest 0. */
static void fill(uint8_t *records, const struct trial *trial) {
    srandom(3);
    for (size_t slot = 0; slot < trial->records; slot++)
        records[slot] = random() % 1000 < trial->marked ? (uint8_t)(64 * (1 + random() % 3) + random() % 63) : 0;
}

/* So many minute boundaries, one to a call. */
static void pass_minutes(const struct archive *by, uint8_t *records, size_t length, uint32_t *clock, int minutes) {
    const struct spritgrommet_placing placing = {0}; /* no boundary looks at it */
    uint32_t tags[4] = {0};
    int16_t counts[4] = {-32768, -32768, -32768, -32768};
    for (int minute = 0; minute < minutes; minute++)
        if (by->pass(placing, records, length, tags, 4, counts, 4, clock, by->limits, *clock + 60) != 0) {
            fprintf(stderr, "beside: %s refuses a boundary: is it of this header?\n", by->name);
            exit(1);
        }
}

/* Nanoseconds a record: of warm ones over all boundaries, of cold ones over each by itself. */
static double round_of(const struct archive *by, uint8_t *records, const struct trial *trial) {
    const int minutes = trial->records < 65536 ? 32 : 8, at_once = trial->is_cold ? 1 : minutes;
    uint32_t clock = 0;
    double taken = 0;
    for (int minute = 0; minute < minutes; minute += at_once) {
        for (size_t slot = 0; trial->is_cold && slot < trial->records; slot += LINE) __builtin_ia32_clflush(records + slot);
        __builtin_ia32_mfence();
        double start = seconds();
        pass_minutes(by, records, trial->records, &clock, at_once);
        taken += seconds() - start;
    }
    return taken / minutes / (double)trial->records * 1e9;
}

static void put_rows(const struct trial *trial, int count, const struct archive *archives) {
    static double times[MOST_ARCHIVES][ROUNDS];
    static _Alignas(LINE) uint8_t before[LARGEST], records[LARGEST], first[LARGEST];
    fill(before, trial);
    for (int turn = 0; turn < ROUNDS; turn++) {
        for (int which = 0; which < count; which++) {
            memcpy(records, before, trial->records);
            times[which][turn] = round_of(&archives[which], records, trial);
            if (which == 0) memcpy(first, records, trial->records);
            if (memcmp(first, records, trial->records) != 0) exit((fprintf(stderr, "%s leaves other records\n", archives[which].name), 1));
        }
    }
    for (int which = 0; which < count; which++) qsort(times[which], ROUNDS, sizeof(double), by_size);
    for (int which = 0; which < count; which++)
        printf("| %zu | %.1f %% | %s | %s | %.4f (%.4f to %.4f) | %.2f |\n", trial->records, trial->marked / 10.0,
               trial->is_cold ? "cold" : "warm", archives[which].name, times[which][ROUNDS / 2], times[which][0],
               times[which][ROUNDS - 1], times[which][ROUNDS / 2] / times[0][ROUNDS / 2]);
}

/* A shared library's function, and the factory's limits but for the largest Dmiss and Dconn. */
static int is_opened(struct archive *archive, const char *name, const char *library_name) {
    void *library = dlopen(library_name, RTLD_NOW | RTLD_LOCAL);
    __typeof__(spritgrommet_factory) *factory;
    archive->name = name;
    *(void **)&archive->pass = library ? dlsym(library, "spritgrommet_pass") : NULL;
    *(void **)&factory = library ? dlsym(library, "spritgrommet_factory") : NULL;
    if (!archive->pass || !factory) return 0;
    archive->limits = factory().limits;
    archive->limits.dmiss = 3600;
    archive->limits.dconn = 62;
    return 1;
}

int main(int count, char **words) {
    struct archive archives[MOST_ARCHIVES];
    int number = (count - 1) / 2;
    if (number > MOST_ARCHIVES) return fprintf(stderr, "at most %d archives\n", MOST_ARCHIVES), 1;
    for (int which = 0; which < number; which++)
        if (!is_opened(&archives[which], words[1 + 2 * which], words[2 + 2 * which])) return fprintf(stderr, "%s\n", dlerror()), 1;
    puts("| records | marked | caches | archive | ns a record | by the first |\n|---|---|---|---|---|---|");
    for (size_t at = 0; at < sizeof TRIALS / sizeof *TRIALS; at++) put_rows(&TRIALS[at], number, archives);
    return 0;
}
