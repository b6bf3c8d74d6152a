/*
 * Times walks of one stack of some 70 frames, a third of them in qsort() of the C library: by the library, also with a cache that
 * is warm or cleared before each walk, by backtrace() of glibc, by unw_backtrace() of libunwind where the machine has it, and by
 * frame pointers, with which this program is built. The stack has few different addresses. So the cache is also timed on a stack
 * of as many functions as frames, each with an address of its own.
 * Each time is the least of seven. Where the C library is built without frame pointers, the last walk ends there.
 *
 *   walkers STORE
 *
 * STORE has the tables of this program and of the files that it loads.
 */
#define _GNU_SOURCE
#include <dlfcn.h>
#include <execinfo.h>
#include <link.h>
#include <pthread.h>
#include <time.h>
#include <ucontext.h>

#include "../example/store.h"

enum { MOST_MODULES = 64, MOST_FRAMES = 128, ENTRIES = 2048, DEPTH = 36, WALKS = 2000, TIMES = 7 };

static const char *store;
static struct kiblawen_module modules[MOST_MODULES];
static size_t module_count;
static uint64_t stack_end;
static int (*unw_backtrace)(void **buffer, int size);
static void *frames_of_others[MOST_FRAMES];
static struct kiblawen_frame frames[MOST_FRAMES];
static struct kiblawen_module_frame module_frames[MOST_FRAMES];
static size_t order[MOST_MODULES];
static struct kiblawen_cache cache[ENTRIES];

static int add_module(struct dl_phdr_info *info, size_t size, void *unused)
{
    struct kiblawen_module module = {info->dlpi_addr, size_in_memory(info->dlpi_phdr, info->dlpi_phnum), KIBLAWEN_CLOSED};
    char name[STORE_NAME];
    (void)size, (void)unused;
    for (int i = 0; i < info->dlpi_phnum; i++) {
        const Elf64_Phdr *header = &info->dlpi_phdr[i];
        const uint8_t *notes = (const uint8_t *)(info->dlpi_addr + header->p_vaddr);
        if (header->p_type == PT_NOTE && name_table(name, store, notes, header->p_memsz))
            open_table(&module.section, name, module.start + module.size);
    }
    if (module_count < MOST_MODULES)
        modules[module_count++] = module;
    return 0;
}

static int by_start(const void *a, const void *b)
{
    const struct kiblawen_module *one = a, *other = b;
    return (one->start > other->start) - (one->start < other->start);
}

/* Returns this thread's registers and its stack as it is. The functions above the caller don't change it meanwhile. */
static inline __attribute__((always_inline)) struct kiblawen_sample here(void)
{
    struct kiblawen_sample sample = {0};
#if defined(__x86_64__)
    __asm__ volatile("lea (%%rip), %0; mov %%rsp, %1; mov %%rbp, %2" : "=r"(sample.pc), "=r"(sample.sp), "=r"(sample.fp));
#else
    __asm__ volatile("adr %0, .; mov %1, sp; mov %2, x29; mov %3, x30" : "=r"(sample.pc), "=r"(sample.sp), "=r"(sample.fp), "=r"(sample.lr));
#endif
    sample.stack = (const uint8_t *)sample.sp;
    sample.stack_start = sample.sp;
    sample.stack_len = stack_end - sample.sp;
    return sample;
}

static __attribute__((noinline)) size_t by_library(void)
{
    struct kiblawen_sample sample = here();
    struct kiblawen_stop stop;
    return kiblawen_walk_modules(modules, module_count, &sample, frames, MOST_FRAMES, &stop);
}

static inline __attribute__((always_inline)) size_t by_cache(size_t entries)
{
    struct kiblawen_modules process = {modules, module_count, order, module_count};
    struct kiblawen_sample sample = here();
    struct kiblawen_state state = KIBLAWEN_START(sample);
    struct kiblawen_stop stop;
    return kiblawen_walk_on(&process, cache, entries, &sample, &state, module_frames, MOST_FRAMES, &stop);
}

static __attribute__((noinline)) size_t by_no_cache(void)
{
    return by_cache(0);
}

static __attribute__((noinline)) size_t by_warm_cache(void)
{
    return by_cache(ENTRIES);
}

static __attribute__((noinline)) size_t by_cleared_cache(void)
{
    kiblawen_cache_clear(cache, ENTRIES);
    return by_cache(ENTRIES);
}

static __attribute__((noinline)) size_t by_glibc(void)
{
    return (size_t)backtrace(frames_of_others, MOST_FRAMES);
}

static __attribute__((noinline)) size_t by_libunwind(void)
{
    return (size_t)unw_backtrace(frames_of_others, MOST_FRAMES);
}

static __attribute__((noinline)) size_t by_frame_pointers(void)
{
    const uint64_t *frame = __builtin_frame_address(0);
    size_t count = 0;
    while (count < MOST_FRAMES && (uint64_t)frame + 16 <= stack_end && frame[0] > (uint64_t)frame) {
        frames_of_others[count++] = (void *)frame[1];
        frame = (const uint64_t *)frame[0];
    }
    return count;
}

static void measure(const char *name, size_t (*walk)(void))
{
    double best = 0;
    size_t count = walk();
    for (int i = 0; i < TIMES; i++) {
        struct timespec start, end;
        clock_gettime(CLOCK_PROCESS_CPUTIME_ID, &start);
        for (int j = 0; j < WALKS; j++)
            walk();
        clock_gettime(CLOCK_PROCESS_CPUTIME_ID, &end);
        double took = (double)(end.tv_sec - start.tv_sec) * 1e9 + (double)(end.tv_nsec - start.tv_nsec);
        if (i == 0 || took < best)
            best = took;
    }
    printf("%-32s %8.1f ns a frame, %zu frames\n", name, best / (double)(WALKS * (count ? count : 1)), count);
}

static void measure_all(void)
{
    measure("kiblawen_walk_modules", by_library);
    measure("kiblawen_walk_on, no cache", by_no_cache);
    measure("kiblawen_walk_on, warm cache", by_warm_cache);
    measure("kiblawen_walk_on, cleared cache", by_cleared_cache);
    measure("backtrace() of glibc", by_glibc);
    if (unw_backtrace)
        measure("unw_backtrace()", by_libunwind);
    else
        puts("No libunwind.");
    measure("frame pointers", by_frame_pointers);
}

static int measure_different(int number)
{
    puts("50 functions more, each once:");
    measure("kiblawen_walk_modules", by_library);
    measure("kiblawen_walk_on, warm cache", by_warm_cache);
    measure("backtrace() of glibc", by_glibc);
    if (unw_backtrace)
        measure("unw_backtrace()", by_libunwind);
    return number;
}

/* Fifty functions, each of which calls the next one. */
#define ONE(name, next)                                                                                               \
    static __attribute__((noinline)) int name(int number)                                                             \
    {                                                                                                                 \
        volatile int sum = number + 1;                                                                                \
        sum += next(sum);                                                                                             \
        return sum;                                                                                                   \
    }
#define FIVE(name, next) ONE(name##4, next) ONE(name##3, name##4) ONE(name##2, name##3) ONE(name##1, name##2) ONE(name##0, name##1)
#define FIFTEEN(name, next) FIVE(name##c, next) FIVE(name##b, name##c0) FIVE(name##a, name##b0)
FIVE(z, measure_different)
FIFTEEN(y, z0)
FIFTEEN(x, ya0)
FIFTEEN(w, xa0)

static int depth;

static int go_down(const void *one, const void *other);

static __attribute__((noinline)) int deep(void)
{
    int numbers[2] = {1, 2};
    if (depth++ == DEPTH) {
        measure_all();
        numbers[0] += wa0(0);
    } else if (depth % 4 == 0)
        qsort(numbers, 2, sizeof *numbers, go_down);
    else
        numbers[0] += deep();
    return numbers[0];
}

static int go_down(const void *one, const void *other)
{
    (void)one, (void)other;
    return deep();
}

int main(int argc, char **argv)
{
    pthread_attr_t attributes;
    void *base = NULL;
    size_t size = 0;
    store = argc > 1 ? argv[1] : "";
    void *library = dlopen("libunwind.so.8", RTLD_NOW);
    if (library)
        *(void **)&unw_backtrace = dlsym(library, "unw_backtrace");
    dl_iterate_phdr(add_module, NULL);
    qsort(modules, module_count, sizeof modules[0], by_start);
    kiblawen_cache_clear(cache, ENTRIES);
    if (!kiblawen_index(modules, module_count, order, module_count) || pthread_getattr_np(pthread_self(), &attributes))
        return 2;
    pthread_attr_getstack(&attributes, &base, &size);
    pthread_attr_destroy(&attributes);
    stack_end = (uint64_t)base + size;
    return deep() < 0;
}
