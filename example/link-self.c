/*
 * Walks its own stack, from within qsort(), with tables that it makes of each file that it has mapped.
 *
 *     cc -g -o link-self link-self.c -pthread $(pkg-config --cflags --libs kiblawen-link)
 *
 * Prints the frames beside the frames of _Unwind_Backtrace(). The status is 1 if they differ. For AMD64.
 */
#define _GNU_SOURCE
#include <pthread.h>
#include <stdio.h>
#include <stdlib.h>
#include <string.h>
#include <time.h>
#include <ucontext.h>
#include <unistd.h>
#include <unwind.h>

#include "kiblawen-link.h"

enum { MOST_MODULES = 256, MOST_FRAMES = 64, PATH_ROOM = 4096 };

static struct kiblawen_module modules[MOST_MODULES];
static size_t module_count;
static unsigned char copy[1 << 20];

static uint8_t *read_file(const char *path, size_t *len)
{
    FILE *file = fopen(path, "rb");
    long size = file && !fseek(file, 0, SEEK_END) ? ftell(file) : -1;
    uint8_t *bytes = size > 0 ? malloc((size_t)size) : NULL;
    *len = bytes && !fseek(file, 0, SEEK_SET) ? fread(bytes, 1, (size_t)size, file) : 0;
    if (file)
        fclose(file);
    return bytes;
}

/* Makes the table of a file at its load address, and opens it. Its bytes are kept for good. */
static void make_table(struct kiblawen_section *section, const struct kiblawen_input *input, uint64_t at)
{
    struct kiblawen_omission none[1];
    struct kiblawen_linked linked;
    uint64_t place;
    /* A table is much shorter than its file; if it isn't, the call says how long it is. */
    size_t room = input->len / 2;
    uint8_t *table = malloc(room);
    uint32_t answer = kiblawen_link(input, 1, at, table, room, none, 0, &linked);
    if (answer == KIBLAWEN_NO_ROOM) {
        table = realloc(table, linked.len);
        answer = kiblawen_link(input, 1, at, table, linked.len, none, 0, &linked);
    }
    if (answer != KIBLAWEN_MADE || kiblawen_open(section, realloc(table, linked.len), linked.len, at, &place) != KIBLAWEN_OK)
        printf("no table: answer %u, group %u, number %u\n", answer, linked.why.group, linked.why.number);
}

/* Adds the file of an executable mapping. */
static void add_file(const char *path, uint64_t start, uint64_t offset)
{
    struct kiblawen_placed place;
    struct kiblawen_input input = {NULL, 0, 0, KIBLAWEN_ELF};
    uint8_t *bytes = read_file(path, &input.len);
    if (bytes && kiblawen_place(bytes, input.len, (uint64_t)sysconf(_SC_PAGESIZE), start, offset, &place) == KIBLAWEN_MADE && place.has_load) {
        struct kiblawen_module *module = &modules[module_count++];
        *module = (struct kiblawen_module){place.load + place.first, place.after - place.first, KIBLAWEN_CLOSED};
        input.bytes = bytes;
        input.base = place.load;
        make_table(&module->section, &input, place.load + place.after);
        printf("%s at 0x%llx\n", path, (unsigned long long)place.load);
    }
    free(bytes);
}

static void read_maps(void)
{
    FILE *maps = fopen("/proc/self/maps", "r");
    char line[PATH_ROOM + 128], path[PATH_ROOM], rights[8];
    unsigned long long start, offset;
    while (maps && fgets(line, sizeof line, maps))
        if (sscanf(line, "%llx-%*x %7s %llx %*s %*s %4095s", &start, rights, &offset, path) == 4 && strchr(rights, 'x')
            && *path == '/' && module_count < MOST_MODULES)
            add_file(path, start, offset);
    if (maps)
        fclose(maps);
}

static uint64_t stack_end(void)
{
    pthread_attr_t attributes;
    void *base = NULL;
    size_t size = 0;
    pthread_getattr_np(pthread_self(), &attributes);
    pthread_attr_getstack(&attributes, &base, &size);
    pthread_attr_destroy(&attributes);
    return (uint64_t)base + size;
}

struct traced {
    uint64_t pcs[MOST_FRAMES];
    size_t count;
};

static _Unwind_Reason_Code trace(struct _Unwind_Context *context, void *into)
{
    struct traced *traced = into;
    if (traced->count < MOST_FRAMES)
        traced->pcs[traced->count++] = _Unwind_GetIP(context);
    return _URC_NO_REASON;
}

/* Walks from here. Returns whether the other unwinder lists the same callers. */
static __attribute__((noinline)) int walk_from_here(void)
{
    struct kiblawen_sample sample = {.stack = copy};
    struct kiblawen_frame frames[MOST_FRAMES];
    struct kiblawen_stop stop;
    struct traced traced = {.count = 0};
    ucontext_t context;
    getcontext(&context);
    sample.pc = (uint64_t)context.uc_mcontext.gregs[REG_RIP];
    sample.sp = sample.stack_start = (uint64_t)context.uc_mcontext.gregs[REG_RSP];
    sample.fp = (uint64_t)context.uc_mcontext.gregs[REG_RBP];
    sample.stack_len = stack_end() - sample.sp < sizeof copy ? stack_end() - sample.sp : sizeof copy;
    memcpy(copy, (const void *)sample.sp, sample.stack_len);
    size_t count = kiblawen_walk_modules(modules, module_count, &sample, frames, MOST_FRAMES, &stop);
    _Unwind_Backtrace(trace, &traced);
    int same = count > 8;
    for (size_t i = 0; i < count; i++) {
        uint64_t other = i < traced.count ? traced.pcs[i] : 0;
        same = same && (i == 0 || frames[i].pc == other);
        printf("%2zu 0x%llx, _Unwind_Backtrace() 0x%llx\n", i, (unsigned long long)frames[i].pc, (unsigned long long)other);
    }
    printf("%zu frames, stop %u 0x%llx\n", count, stop.kind, (unsigned long long)stop.value);
    return same;
}

static volatile int is_same;

static int compare(const void *a, const void *b)
{
    static int is_done;
    if (!is_done) {
        is_done = 1;
        is_same = walk_from_here();
    }
    return *(const int *)a - *(const int *)b;
}

static __attribute__((noinline)) int deep(int n)
{
    int two[] = {2, 1};
    volatile char room[n % 8 + 1];
    room[n % 8] = 0;
    if (n > 0)
        return deep(n - 1) + room[n % 8];
    qsort(two, 2, sizeof two[0], compare);
    return is_same;
}

int main(void)
{
    clock_t before = clock();
    read_maps();
    printf("%zu tables in %.1f ms\n", module_count, (double)(clock() - before) * 1e3 / CLOCKS_PER_SEC);
    return kiblawen_in_order(modules, module_count) && deep(6) ? 0 : 1;
}
