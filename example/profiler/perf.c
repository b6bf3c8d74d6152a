/* Samples of another process by perf_event_open(2): its registers and a copy of its stack, whenever a thread has run for a while. */
#define _GNU_SOURCE
#include <asm/perf_regs.h>
#include <dirent.h>
#include <errno.h>
#include <linux/perf_event.h>
#include <poll.h>
#include <signal.h>
#include <stdio.h>
#include <stdlib.h>
#include <string.h>
#include <sys/ioctl.h>
#include <sys/mman.h>
#include <sys/syscall.h>
#include <sys/wait.h>
#include <time.h>
#include <unistd.h>

#include "profiler.h"

enum { STACK_BYTES = 32768, MOST_RECORD = 1 << 16 };

/* The registers of a sample come in the order of their numbers. */
#if defined(__x86_64__)
enum { FP = PERF_REG_X86_BP, SP = PERF_REG_X86_SP, PC = PERF_REG_X86_IP };
static const uint64_t REGISTERS = 1ull << FP | 1ull << SP | 1ull << PC;
#else
enum { FP = PERF_REG_ARM64_X29, LR = PERF_REG_ARM64_LR, SP = PERF_REG_ARM64_SP, PC = PERF_REG_ARM64_PC };
static const uint64_t REGISTERS = 1ull << FP | 1ull << LR | 1ull << SP | 1ull << PC;
#endif

/* The records of one processor. */
struct ring {
    struct perf_event_mmap_page *page;
    size_t size;
    int event;
    uint64_t head;
};

static volatile sig_atomic_t is_stopped;

static void stop(int number)
{
    (void)number;
    is_stopped = 1;
}

static int open_event(pid_t thread, int processor, unsigned hertz, bool on_exec)
{
    struct perf_event_attr attributes = {
        .type = PERF_TYPE_SOFTWARE,
        .size = sizeof attributes,
        .config = PERF_COUNT_SW_CPU_CLOCK,
        .sample_freq = hertz,
        .freq = 1,
        .sample_type = PERF_SAMPLE_TID | PERF_SAMPLE_REGS_USER | PERF_SAMPLE_STACK_USER,
        .sample_regs_user = REGISTERS,
        .sample_stack_user = STACK_BYTES,
        .inherit = 1,
        .inherit_thread = 1, /* threads, and no processes that it starts */
        .exclude_kernel = 1,
        .exclude_hv = 1,
        .mmap = 1,
        .mmap2 = 1,
        .disabled = on_exec,
        .enable_on_exec = on_exec,
        .wakeup_events = 8,
    };
    return (int)syscall(SYS_perf_event_open, &attributes, thread, processor, -1, PERF_FLAG_FD_CLOEXEC);
}

/* Opens an event of a thread for a processor. The first one of a processor has the ring, to which the others write. */
static bool open_ring(struct ring *ring, pid_t thread, int processor, unsigned hertz, bool on_exec)
{
    int event = open_event(thread, processor, hertz, on_exec);
    if (event < 0)
        return false;
    if (ring->page)
        return ioctl(event, PERF_EVENT_IOC_SET_OUTPUT, ring->event) == 0;
    /* Without the rights of root, a process may have 512 KiB and a page for each processor. */
    ring->size = geteuid() == 0 ? 1 << 24 : 1 << 19;
    void *page = mmap(NULL, page_size() + ring->size, PROT_READ | PROT_WRITE, MAP_SHARED, event, 0);
    ring->event = event;
    ring->page = page == MAP_FAILED ? NULL : page;
    return ring->page != NULL;
}

/* Opens the events of all threads that a process has. */
static bool open_all(struct ring *rings, int processors, pid_t pid, unsigned hertz, bool on_exec)
{
    char name[64];
    snprintf(name, sizeof name, "/proc/%d/task", pid);
    DIR *threads = opendir(name);
    bool is_open = threads != NULL;
    for (struct dirent *it; is_open && (it = readdir(threads)) != NULL;)
        for (int i = 0; is_open && *it->d_name != '.' && i < processors; i++)
            is_open = open_ring(&rings[i], atoi(it->d_name), i, hertz, on_exec) || errno == ESRCH;
    if (threads)
        closedir(threads);
    return is_open;
}

/* Copies a record out of a ring, in which it may go on at the beginning. */
static const struct perf_event_header *record_at(const struct ring *ring, uint64_t place, uint8_t *room)
{
    const uint8_t *bytes = (const uint8_t *)ring->page + page_size();
    struct perf_event_header header;
    for (size_t i = 0; i < sizeof header; i++)
        ((uint8_t *)&header)[i] = bytes[(place + i) % ring->size];
    for (size_t i = 0; i < header.size; i++)
        room[i] = bytes[(place + i) % ring->size];
    return (const struct perf_event_header *)room;
}

/* Adds the file of a record of type PERF_RECORD_MMAP2. */
static void take_mapping(struct process *process, const uint8_t *record)
{
    struct {
        struct perf_event_header header;
        uint32_t pid, tid;
        uint64_t start, size, offset, device, inode, generation;
        uint32_t rights, flags;
    } mapping;
    memcpy(&mapping, record, sizeof mapping);
    if ((pid_t)mapping.pid == process->pid)
        add_mapping(process, mapping.start, mapping.offset, (const char *)record + sizeof mapping);
}

/* Takes the next number of a record. */
static uint64_t next(const uint8_t **at)
{
    uint64_t number;
    memcpy(&number, *at, sizeof number);
    *at += sizeof number;
    return number;
}

/* Walks the stack of a record of type PERF_RECORD_SAMPLE: the thread, the registers, and the stack. */
static void take_sample(struct process *process, const uint8_t *record)
{
    const uint8_t *at = record + sizeof(struct perf_event_header);
    struct kiblawen_sample sample = {0};
    uint32_t pid = (uint32_t)next(&at);
    uint64_t abi = next(&at);
    if ((pid_t)pid != process->pid)
        return;
    for (int i = 0; abi == PERF_SAMPLE_REGS_ABI_64 && i < 64; i++) {
        if (!(REGISTERS >> i & 1))
            continue;
        uint64_t number = next(&at);
        *(i == FP ? &sample.fp : i == SP ? &sample.sp : i == PC ? &sample.pc : &sample.lr) = number;
    }
    uint64_t room = abi == PERF_SAMPLE_REGS_ABI_64 ? next(&at) : 0;
    if (room == 0) {
        process->without_stack++;
        return;
    }
    sample.stack = at;
    sample.stack_start = sample.sp;
    at += room;
    sample.stack_len = next(&at);
    add_stack(process, &sample);
}

/* Takes the records that a ring has up to its head: the mappings or the samples. */
static uint64_t take_records(struct process *process, struct ring *ring, uint32_t type)
{
    static uint8_t room[MOST_RECORD + 8];
    uint64_t lost = 0;
    for (uint64_t place = ring->page->data_tail; place < ring->head;) {
        const struct perf_event_header *header = record_at(ring, place, room);
        if (header->type == type && type == PERF_RECORD_MMAP2)
            take_mapping(process, room);
        else if (header->type == type)
            take_sample(process, room);
        else if (header->type == PERF_RECORD_LOST && type == PERF_RECORD_SAMPLE)
            lost += *(const uint64_t *)(room + sizeof *header + 8);
        place += header->size;
    }
    return lost;
}

/* Takes all records: what was mapped comes first, since a ring may have the samples of files that another one names. */
static uint64_t take_all(struct process *process, struct ring *rings, int count)
{
    uint64_t lost = 0;
    for (int i = 0; i < count; i++)
        rings[i].head = __atomic_load_n(&rings[i].page->data_head, __ATOMIC_ACQUIRE);
    for (int i = 0; i < count; i++)
        take_records(process, &rings[i], PERF_RECORD_MMAP2);
    for (int i = 0; i < count; i++) {
        lost += take_records(process, &rings[i], PERF_RECORD_SAMPLE);
        __atomic_store_n(&rings[i].page->data_tail, rings[i].head, __ATOMIC_RELEASE);
    }
    return lost;
}

static double now(void)
{
    struct timespec time;
    clock_gettime(CLOCK_MONOTONIC, &time);
    return (double)time.tv_sec + (double)time.tv_nsec / 1e9;
}

/* Takes records until the process ends, the time is over, or a signal comes. */
static uint64_t take_until_end(struct process *process, const struct options *options, struct ring *rings, int count)
{
    double start = now();
    uint64_t lost = 0;
    for (bool is_over = false; !is_over;) {
        process->has_ended = kill(process->pid, 0) != 0 || waitpid(process->pid, NULL, WNOHANG) == process->pid;
        is_over = process->has_ended || is_stopped || (options->seconds > 0 && now() - start >= options->seconds);
        lost += take_all(process, rings, count);
        poll(NULL, 0, is_over ? 0 : 5);
    }
    return lost;
}

/* Samples a process. For a command that waits for it, `begin` is the pipe whose end begins the command, and else -1. */
bool sample_by_perf(struct process *process, const struct options *options, int begin)
{
    int processors = (int)sysconf(_SC_NPROCESSORS_CONF), count = 0;
    struct ring *rings = calloc((size_t)processors, sizeof *rings);
    if (!rings || !open_all(rings, processors, process->pid, options->hertz, begin >= 0)) {
        fprintf(stderr, "profiler: perf events of process %d can't be opened: %s\n", process->pid, strerror(errno));
        free(rings);
        return false;
    }
    for (int i = 0; i < processors; i++)
        if (rings[i].page)
            rings[count++] = rings[i];
    signal(SIGINT, stop);
    signal(SIGTERM, stop);
    if (begin >= 0)
        close(begin);
    else
        read_maps(process);
    uint64_t lost = take_until_end(process, options, rings, count);
    if (lost)
        fprintf(stderr, "profiler: %llu samples were lost\n", (unsigned long long)lost);
    free(rings);
    return true;
}
