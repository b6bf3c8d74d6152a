/*
 * Times the C library on a made section of 100,000 functions of AMD64: a look-up, and a frame of a walk 60 calls deep.
 * Beside them the same look-ups by bsearch() over the functions' starts, and by sframe_find_fre() of libsframe where the
 * machine has it (that of binutils 2.40 reads Version 1, so the same functions are written as that). Each time is the
 * least of seven.
 */
#define _GNU_SOURCE
#include <dlfcn.h>
#include <stdio.h>
#include <stdlib.h>
#include <string.h>
#include <time.h>

#include "kiblawen.h"

enum { FUNCTIONS = 100000, SIZE = 64, FIRST = 0x10000, AT = 0x10000000, LOOKUPS = 1 << 20, DEPTH = 60, TIMES = 7 };

/* push rbp; mov rbp, rsp; .. pop rbp: start, info, offsets. */
static const uint8_t rows[15] = "\x00\x03\x08\x01\x05\x10\xf0\x04\x04\x10\xf0\x3f\x05\x08\xf0";

static uint8_t *put(uint8_t *to, uint32_t number, int bytes)
{
    for (int i = 0; i < bytes; i++)
        *to++ = (uint8_t)(number >> 8 * i);
    return to;
}

/* The section. Version 1 has entries of 17 bytes, and starts that count from the section. */
static uint8_t *section(int version, size_t *len)
{
    uint32_t entry = version == 1 ? 17 : 20;
    uint8_t *bytes = malloc(28 + (size_t)FUNCTIONS * (entry + sizeof rows)), *to = bytes;
    if (!bytes)
        exit(2);
    to = put(to, 0xdee2, 2);
    to = put(to, (uint32_t)version, 1);
    to = put(to, version == 1 ? 1 : 5, 1);
    to = put(to, 3, 1);
    to = put(to, 0, 1);
    to = put(to, 0xf8, 1);
    to = put(to, 0, 1);
    to = put(to, FUNCTIONS, 4);
    to = put(to, FUNCTIONS * 4, 4);
    to = put(to, FUNCTIONS * sizeof rows, 4);
    to = put(to, 0, 4);
    to = put(to, FUNCTIONS * entry, 4);
    for (uint32_t i = 0; i < FUNCTIONS; i++) {
        uint32_t field = AT + (version == 1 ? 0 : 28 + i * entry);
        to = put(to, FIRST + i * SIZE - field, 4);
        to = put(to, SIZE, 4);
        to = put(to, i * sizeof rows, 4);
        to = put(to, 4, 4);
        to = put(to, 0, version == 1 ? 1 : 4);
    }
    for (uint32_t i = 0; i < FUNCTIONS; i++, to += sizeof rows)
        memcpy(to, rows, sizeof rows);
    *len = (size_t)(to - bytes);
    return bytes;
}

static uint32_t addresses[LOOKUPS];
static uint64_t starts[FUNCTIONS];
static struct kiblawen_section table = KIBLAWEN_CLOSED;
static volatile uint64_t sink;

static double now(void)
{
    struct timespec time;
    clock_gettime(CLOCK_PROCESS_CPUTIME_ID, &time);
    return (double)time.tv_sec * 1e9 + (double)time.tv_nsec;
}

static uint64_t by_library(void)
{
    struct kiblawen_row row;
    uint64_t sum = 0;
    for (int i = 0; i < LOOKUPS; i++)
        if (kiblawen_find(&table, addresses[i], &row))
            sum += row.function_start + row.row_start;
    return sum;
}

static int starts_by(const void *key, const void *member)
{
    uint64_t pc = *(const uint64_t *)key, start = *(const uint64_t *)member;
    return pc < start ? -1 : pc >= start + SIZE;
}

static uint64_t by_bsearch(void)
{
    uint64_t sum = 0;
    for (int i = 0; i < LOOKUPS; i++) {
        uint64_t pc = addresses[i];
        const uint64_t *start = bsearch(&pc, starts, FUNCTIONS, sizeof starts[0], starts_by);
        if (start)
            sum += *start;
    }
    return sum;
}

/* As binutils 2.40 has them. */
typedef struct { uint32_t start; unsigned char offsets[12], info; } __attribute__((packed)) frame_row;
static void *(*decode)(const char *bytes, size_t len, int *error);
static int (*find_row)(void *decoder, int32_t pc, frame_row *row);
static void *decoder;

static uint64_t by_libsframe(void)
{
    frame_row row;
    uint64_t sum = 0;
    for (int i = 0; i < LOOKUPS; i++)
        if (find_row(decoder, (int32_t)(addresses[i] - AT), &row) == 0)
            sum += row.start;
    return sum;
}

static struct kiblawen_sample sample;
static uint64_t stack[2 * DEPTH];

static uint64_t by_walk(void)
{
    struct kiblawen_frame frames[DEPTH];
    struct kiblawen_stop stop;
    uint64_t sum = 0;
    for (int i = 0; i < LOOKUPS / DEPTH; i++)
        sum += kiblawen_walk(&table, &sample, frames, DEPTH, &stop);
    return sum;
}

static double least(uint64_t (*work)(void))
{
    double best = 0;
    for (int i = 0; i < TIMES; i++) {
        double start = now();
        sink = work();
        double took = now() - start;
        if (i == 0 || took < best)
            best = took;
    }
    return best;
}

int main(void)
{
    size_t len;
    uint64_t place, state = 1;
    uint8_t *bytes = section(2, &len);
    double start = now();
    uint32_t fault = kiblawen_open(&table, bytes, len, AT, &place);
    double opening = now() - start;
    if (fault) {
        printf("fault %u at %llu\n", fault, (unsigned long long)place);
        return 1;
    }
    for (int i = 0; i < FUNCTIONS; i++)
        starts[i] = FIRST + (uint64_t)i * SIZE;
    for (int i = 0; i < LOOKUPS; i++) {
        state = state * 6364136223846793005u + 1442695040888963407u;
        addresses[i] = FIRST + (uint32_t)((state >> 33) % ((uint64_t)FUNCTIONS * SIZE));
    }
    for (int i = 0; i < DEPTH; i++) {
        stack[2 * i] = (uint64_t)(uintptr_t)&stack[2 * i + 2];
        stack[2 * i + 1] = addresses[i] / SIZE * SIZE + 5;
    }
    sample.pc = FIRST + 4;
    sample.fp = sample.stack_start = (uint64_t)(uintptr_t)stack;
    sample.sp = sample.fp - 16;
    sample.stack = (const uint8_t *)stack;
    sample.stack_len = sizeof stack;

    double find = least(by_library) / LOOKUPS, plain = least(by_bsearch) / LOOKUPS;
    double step = least(by_walk) / (LOOKUPS / DEPTH * DEPTH);
    printf("A section of %d functions, %zu bytes\n", FUNCTIONS, len);
    printf("open                    %8.2f ms\n", opening / 1e6);
    printf("kiblawen_find           %8.0f ns\n", find);
    printf("kiblawen_walk, a frame  %8.0f ns\n", step);
    printf("bsearch of the starts   %8.0f ns; kiblawen_find takes %.1f times that, a frame %.1f\n", plain, find / plain,
           step / plain);
    void *library = dlopen("libsframe.so.0", RTLD_NOW);
    if (library) {
        size_t old_len;
        int error = 0;
        *(void **)&decode = dlsym(library, "sframe_decode");
        *(void **)&find_row = dlsym(library, "sframe_find_fre");
        char *old = (char *)section(1, &old_len);
        decoder = decode && find_row ? decode(old, old_len, &error) : NULL;
    }
    if (decoder && by_libsframe() > 0) {
        double theirs = least(by_libsframe) / LOOKUPS;
        printf("sframe_find_fre         %8.0f ns; kiblawen_find takes %.1f times that\n", theirs, find / theirs);
    } else
        printf("No libsframe that reads this section.\n");
    return 0;
}
