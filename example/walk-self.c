/*
 * Walks its own stack with SFrame sections, and prints each frame beside the frame that backtrace() lists.
 *
 *   walk-self FOLDER [SAMPLES]
 *
 * FOLDER has a section FILE.sframe for a loaded file of that name, as `sf_tool link FILE.sframe@AT FILE@0x0` makes it,
 * where AT is the page after the file's last loaded byte. With SAMPLES the registers and the copy of the stack are
 * written there, for walks-a-second. The status is 1 if the two disagree, and 2 if the stack's end isn't known, which glibc
 * reads from /proc/self/maps.
 */
#define _GNU_SOURCE
#include <execinfo.h>
#include <link.h>
#include <pthread.h>
#include <stdio.h>
#include <stdlib.h>
#include <string.h>
#include <ucontext.h>

#include "kiblawen.h"

enum { MOST_MODULES = 64, MOST_FRAMES = 64, MOST_BYTES = 1 << 24, PAGE = 4096 };

static const char *folder, *samples;
static struct kiblawen_module modules[MOST_MODULES];
static size_t module_count;
static unsigned char copy[1 << 20];

/* A loaded file is a module. Its section is opened where the folder has one, and its bytes are kept for good. */
static int add_module(struct dl_phdr_info *info, size_t size, void *unused)
{
    struct kiblawen_module module = {info->dlpi_addr, 0, KIBLAWEN_CLOSED};
    const char *slash = strrchr(info->dlpi_name, '/');
    char path[4096];
    uint64_t place;
    (void)size, (void)unused;
    for (int i = 0; i < info->dlpi_phnum; i++)
        if (info->dlpi_phdr[i].p_type == PT_LOAD)
            module.size = (info->dlpi_phdr[i].p_vaddr + info->dlpi_phdr[i].p_memsz + PAGE - 1) / PAGE * PAGE;
    snprintf(path, sizeof path, "%s/%s.sframe", folder, slash ? slash + 1 : "walk-self");
    FILE *file = fopen(path, "rb");
    uint8_t *bytes = file ? malloc(MOST_BYTES) : NULL;
    if (bytes) {
        size_t len = fread(bytes, 1, MOST_BYTES, file);
        uint32_t fault = kiblawen_open(&module.section, bytes, len, module.start + module.size, &place);
        if (fault)
            printf("%s: fault %u at 0x%llx\n", path, fault, (unsigned long long)place);
    }
    if (file)
        fclose(file);
    if (module_count < MOST_MODULES)
        modules[module_count++] = module;
    return 0;
}

static int by_start(const void *a, const void *b)
{
    const struct kiblawen_module *one = a, *other = b;
    return (one->start > other->start) - (one->start < other->start);
}

/* Returns the address after this thread's stack, or 0 if it isn't known. */
static uint64_t stack_end(void)
{
    pthread_attr_t attributes;
    void *base = NULL;
    size_t size = 0;
    int fault = pthread_getattr_np(pthread_self(), &attributes);
    if (fault) {
        fprintf(stderr, "walk-self: the stack's end is not known: %s\n", strerror(fault));
        return 0;
    }
    pthread_attr_getstack(&attributes, &base, &size);
    pthread_attr_destroy(&attributes);
    return (uint64_t)base + size;
}

/* A samples file is the modules with open sections (addresses as they are, bytes after each), and the sample. */
static void save(const struct kiblawen_sample *sample)
{
    FILE *file = fopen(samples, "wb");
    for (size_t i = 0; file && i < module_count; i++)
        if (modules[i].section.is_open) {
            fwrite(&modules[i], sizeof modules[i], 1, file);
            fwrite(modules[i].section.bytes, 1, modules[i].section.len, file);
        }
    if (file) {
        fwrite(&(struct kiblawen_module){0, 0, KIBLAWEN_CLOSED}, sizeof modules[0], 1, file);
        fwrite(sample, sizeof *sample, 1, file);
        fwrite(sample->stack, 1, sample->stack_len, file);
        fclose(file);
    }
}

/* Takes its own registers, copies the stack from its stack pointer on, and walks that. */
static __attribute__((noinline)) int here(void)
{
    static const char *const why[] = {"the room is full:", "no row at", "not in the copy:", "signed:"};
    struct kiblawen_sample sample = {.stack = copy};
    struct kiblawen_frame frames[MOST_FRAMES];
    struct kiblawen_stop stop;
    void *traced[MOST_FRAMES];
    ucontext_t context;
    volatile int differ = 0;
    uint64_t end = stack_end();
    if (end == 0)
        return 2;
    getcontext(&context);
#if defined(__x86_64__)
    sample.pc = (uint64_t)context.uc_mcontext.gregs[REG_RIP];
    sample.sp = (uint64_t)context.uc_mcontext.gregs[REG_RSP];
    sample.fp = (uint64_t)context.uc_mcontext.gregs[REG_RBP];
#else
    sample.pc = context.uc_mcontext.pc;
    sample.sp = context.uc_mcontext.sp;
    sample.fp = context.uc_mcontext.regs[29];
    sample.lr = context.uc_mcontext.regs[30];
#endif
    sample.stack_start = sample.sp;
    sample.stack_len = end - sample.sp;
    if (sample.stack_len > sizeof copy)
        sample.stack_len = sizeof copy;
    memcpy(copy, (const void *)sample.sp, sample.stack_len);

    size_t count = kiblawen_walk_modules(modules, module_count, &sample, frames, MOST_FRAMES, &stop);
    size_t traces = (size_t)backtrace(traced, MOST_FRAMES);
    for (size_t i = 0; i < count; i++) {
        uint64_t other = i < traces ? (uint64_t)traced[i] : 0;
        const char *note = i == 0 ? "this function" : frames[i].pc == other ? "same" : "differs";
        differ |= i > 0 && frames[i].pc != other;
        printf("%2zu pc 0x%llx cfa 0x%llx, backtrace() 0x%llx: %s\n", i, (unsigned long long)frames[i].pc,
               (unsigned long long)frames[i].cfa, (unsigned long long)other, note);
    }
    printf("%zu frames, %zu of backtrace(); %s 0x%llx\n", count, traces, why[stop.kind], (unsigned long long)stop.value);
    if (samples)
        save(&sample);
    return differ || count < 8;
}

static __attribute__((noinline)) int deep(int n)
{
    volatile char room[n % 8 + 1];
    room[n % 8] = 0;
    return n == 0 ? here() : deep(n - 1) + room[n % 8];
}

int main(int argc, char **argv)
{
    folder = argc > 1 ? argv[1] : ".";
    samples = argc > 2 ? argv[2] : NULL;
    dl_iterate_phdr(add_module, NULL);
    qsort(modules, module_count, sizeof modules[0], by_start);
    return kiblawen_in_order(modules, module_count) ? deep(6) : 2;
}
