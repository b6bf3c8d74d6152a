/* Samples of the profiler's own process by a timer: the signal's handler takes the registers, and copies the stack. */
#define _GNU_SOURCE
#include <pthread.h>
#include <signal.h>
#include <stdio.h>
#include <stdlib.h>
#include <string.h>
#include <sys/time.h>
#include <time.h>
#include <ucontext.h>
#include <unistd.h>

#include "profiler.h"

enum { MOST_SAMPLES = 2048, STACK_ROOM = 8192, NUMBERS = 4096 };

/* What the handler has taken. */
static struct kiblawen_sample samples[MOST_SAMPLES];
static uint8_t stacks[MOST_SAMPLES][STACK_ROOM];
static volatile sig_atomic_t sample_count;
static uint64_t stack_end;

static void take(int number, siginfo_t *info, void *given)
{
    const ucontext_t *context = given;
    (void)number, (void)info;
    if (sample_count == MOST_SAMPLES)
        return;
    struct kiblawen_sample *sample = &samples[sample_count];
#if defined(__x86_64__)
    sample->pc = (uint64_t)context->uc_mcontext.gregs[REG_RIP];
    sample->sp = (uint64_t)context->uc_mcontext.gregs[REG_RSP];
    sample->fp = (uint64_t)context->uc_mcontext.gregs[REG_RBP];
#else
    sample->pc = context->uc_mcontext.pc;
    sample->sp = context->uc_mcontext.sp;
    sample->fp = context->uc_mcontext.regs[29];
    sample->lr = context->uc_mcontext.regs[30];
#endif
    sample->stack = stacks[sample_count];
    sample->stack_start = sample->sp;
    sample->stack_len = stack_end - sample->sp < STACK_ROOM ? stack_end - sample->sp : STACK_ROOM;
    memcpy(stacks[sample_count], (const void *)sample->sp, sample->stack_len);
    sample_count++;
}

static int less(const void *one, const void *other)
{
    int a = *(const int *)one, b = *(const int *)other;
    return (a > b) - (a < b);
}

static __attribute__((noinline)) unsigned long sort_numbers(unsigned seed)
{
    static int numbers[NUMBERS];
    for (int i = 0; i < NUMBERS; i++)
        numbers[i] = (int)(seed = seed * 1103515245u + 12345u);
    qsort(numbers, NUMBERS, sizeof *numbers, less);
    return (unsigned long)numbers[0];
}

static __attribute__((noinline)) unsigned long count_primes(unsigned last)
{
    unsigned long count = 0;
    for (unsigned it = 2; it < last; it++) {
        bool is_prime = true;
        for (unsigned by = 2; by * by <= it && is_prime; by++)
            is_prime = it % by != 0;
        count += is_prime;
    }
    return count;
}

static __attribute__((noinline)) unsigned long work(double seconds)
{
    unsigned long sum = 0;
    clock_t end = clock() + (clock_t)(seconds * CLOCKS_PER_SEC);
    for (unsigned i = 0; clock() < end; i++)
        sum += i % 2 ? sort_numbers(i) : count_primes(3000);
    return sum;
}

static bool find_stack_end(void)
{
    pthread_attr_t attributes;
    void *base = NULL;
    size_t size = 0;
    if (pthread_getattr_np(pthread_self(), &attributes))
        return false;
    pthread_attr_getstack(&attributes, &base, &size);
    pthread_attr_destroy(&attributes);
    stack_end = (uint64_t)base + size;
    return true;
}

/* Samples the profiler's own process while it sorts numbers and counts primes. Returns the status of the program. */
int sample_by_timer(struct process *process, const struct options *options)
{
    struct sigaction action = {.sa_sigaction = take, .sa_flags = SA_SIGINFO | SA_RESTART};
    suseconds_t step = (suseconds_t)(1000000 / (options->hertz > 1 ? options->hertz : 2));
    struct itimerval often = {{0, step}, {0, step}}, never = {{0, 0}, {0, 0}};
    process->pid = getpid();
    read_maps(process);
    if (!find_stack_end() || sigaction(SIGPROF, &action, NULL) || setitimer(ITIMER_PROF, &often, NULL)) {
        fputs("profiler: there is no timer, or the end of the stack is not known\n", stderr);
        return 1;
    }
    unsigned long sum = work(options->seconds > 0 ? options->seconds : 2);
    setitimer(ITIMER_PROF, &never, NULL);
    for (int i = 0; i < sample_count; i++)
        add_stack(process, &samples[i]);
    print_folded(process);
    return sum == 0;
}
