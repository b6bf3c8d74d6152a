/*
 * Reads a file of walk-self (modules with their sections, and a sample) and prints how many walks it makes in a second
 * of processor time.
 *
 *   walks-a-second SAMPLES
 */
#define _POSIX_C_SOURCE 200809L
#include <stdio.h>
#include <stdlib.h>
#include <time.h>

#include "kiblawen.h"

enum { MOST_MODULES = 64, MOST_FRAMES = 64, WALKS = 200000 };

/* Returns the file's next bytes, which are never freed. */
static const uint8_t *take(FILE *file, size_t len)
{
    uint8_t *bytes = malloc(len + 1);
    if (!bytes || fread(bytes, 1, len, file) != len) {
        fputs("the file is truncated\n", stderr);
        exit(2);
    }
    return bytes;
}

static double now(void)
{
    struct timespec time;
    clock_gettime(CLOCK_PROCESS_CPUTIME_ID, &time);
    return (double)time.tv_sec + (double)time.tv_nsec / 1e9;
}

int main(int argc, char **argv)
{
    struct kiblawen_module modules[MOST_MODULES];
    struct kiblawen_sample sample;
    struct kiblawen_frame frames[MOST_FRAMES];
    struct kiblawen_stop stop;
    size_t count = 0, listed = 0;
    uint64_t place;
    FILE *file = argc == 2 ? fopen(argv[1], "rb") : NULL;
    if (!file)
        return 2;
    while (count < MOST_MODULES && fread(&modules[count], sizeof modules[0], 1, file) == 1 && modules[count].size) {
        struct kiblawen_module *module = &modules[count++];
        size_t len = module->section.len;
        uint64_t at = module->section.at;
        module->section = (struct kiblawen_section)KIBLAWEN_CLOSED;
        if (kiblawen_open(&module->section, take(file, len), len, at, &place))
            return 2;
    }
    if (fread(&sample, sizeof sample, 1, file) != 1)
        return 2;
    sample.stack = take(file, sample.stack_len);
    fclose(file);
    if (!kiblawen_in_order(modules, count))
        return 2;

    double start = now();
    for (int i = 0; i < WALKS; i++)
        listed += kiblawen_walk_modules(modules, count, &sample, frames, MOST_FRAMES, &stop);
    double seconds = now() - start;
    printf("%.0f walks a second, of %zu frames each: %.0f ns a frame\n", WALKS / seconds, listed / WALKS,
           seconds * 1e9 / (double)listed);
    return 0;
}
