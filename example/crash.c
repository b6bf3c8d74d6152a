/*
 * Prints its own stack when it crashes. The handler runs on an alternate stack, allocates nothing and prints by write(2).
 *
 *   crash STORE [callback|call|overflow]
 *
 * STORE has the tables of the files that it loads (`kiblawen-add --into-store STORE FILE ..`). They are opened at the start,
 * before anything is wrong. Then it crashes: in a function that the C library's qsort() calls, by a call of a null pointer, or
 * by runaway recursion. Each line has a frame's address, its file, and the address in the file. The signal then ends
 * the process, as it would without a handler.
 */
#define _GNU_SOURCE
#include <link.h>
#include <pthread.h>
#include <signal.h>
#include <sys/uio.h>
#include <ucontext.h>
#include <unistd.h>

#include "store.h"

enum { MOST_MODULES = 256, MOST_FRAMES = 64, MOST_STACK = 1 << 18, HANDLER_STACK = 1 << 16 };

static const char *store;
static struct kiblawen_module modules[MOST_MODULES];
static const char *names[MOST_MODULES];
static size_t module_count;
static uint64_t stack_end;
static uint8_t copy[MOST_STACK], handler_stack[HANDLER_STACK];

/* Adds a loaded file, in the order of addresses. */
static int add_module(struct dl_phdr_info *info, size_t size, void *program)
{
    struct kiblawen_module module = {info->dlpi_addr, size_in_memory(info->dlpi_phdr, info->dlpi_phnum), KIBLAWEN_CLOSED};
    char name[STORE_NAME];
    (void)size;
    for (int i = 0; i < info->dlpi_phnum; i++) {
        const Elf64_Phdr *header = &info->dlpi_phdr[i];
        const uint8_t *notes = (const uint8_t *)(info->dlpi_addr + header->p_vaddr);
        if (header->p_type == PT_NOTE && name_table(name, store, notes, header->p_memsz))
            open_table(&module.section, name, module.start + module.size);
    }
    if (module_count == MOST_MODULES)
        return 1;
    size_t at = module_count++;
    for (; at > 0 && modules[at - 1].start > module.start; at--)
        modules[at] = modules[at - 1], names[at] = names[at - 1];
    modules[at] = module;
    names[at] = *info->dlpi_name ? info->dlpi_name : program;
    return 0;
}

static void print(const char *text)
{
    if (write(STDERR_FILENO, text, strlen(text)) < 0)
        _exit(2);
}

static void print_hex(uint64_t number)
{
    char digits[19];
    char *at = &digits[18];
    *at = 0;
    do
        *--at = "0123456789abcdef"[number % 16];
    while (number /= 16);
    *--at = 'x';
    *--at = '0';
    print(at);
}

static void print_frame(uint64_t pc)
{
    print("  ");
    print_hex(pc);
    for (size_t i = 0; i < module_count; i++)
        if (pc - modules[i].start < modules[i].size) {
            print(" ");
            print(names[i]);
            print("+");
            print_hex(pc - modules[i].start);
        }
    print("\n");
}

/* Copies the stack from the stack pointer on, page by page. Unreadable pages at its beginning are skipped. */
static void copy_stack(struct kiblawen_sample *sample)
{
    uint64_t at = sample->sp;
    sample->stack = copy;
    sample->stack_start = at;
    while (at < stack_end && sample->stack_len < MOST_STACK) {
        size_t len = STORE_PAGE - at % STORE_PAGE, room = MOST_STACK - sample->stack_len;
        struct iovec to = {copy + sample->stack_len, len < room ? len : room}, from = {(void *)at, to.iov_len};
        if (process_vm_readv(getpid(), &to, 1, &from, 1, 0) == (ssize_t)to.iov_len)
            sample->stack_len += to.iov_len;
        else if (sample->stack_len > 0)
            break;
        else
            sample->stack_start = at + to.iov_len;
        at += to.iov_len;
    }
}

/* Takes the registers of the interrupted code. */
static struct kiblawen_sample interrupted(const ucontext_t *context)
{
    struct kiblawen_sample sample = {0};
#if defined(__x86_64__)
    sample.pc = (uint64_t)context->uc_mcontext.gregs[REG_RIP];
    sample.sp = (uint64_t)context->uc_mcontext.gregs[REG_RSP];
    sample.fp = (uint64_t)context->uc_mcontext.gregs[REG_RBP];
#else
    sample.pc = context->uc_mcontext.pc;
    sample.sp = context->uc_mcontext.sp;
    sample.fp = context->uc_mcontext.regs[29];
    sample.lr = context->uc_mcontext.regs[30];
#endif
    copy_stack(&sample);
    return sample;
}

/*
 * Goes back to the caller if the pc is in no file, as after a call of a null pointer: nothing has been pushed since the call.
 * The caller's pc is then the address before its return address.
 */
static void return_from_nowhere(struct kiblawen_sample *sample)
{
    for (size_t i = 0; i < module_count; i++)
        if (sample->pc - modules[i].start < modules[i].size)
            return;
    print_frame(sample->pc);
#if defined(__x86_64__)
    if (sample->stack_start != sample->sp || sample->stack_len < 8)
        return;
    memcpy(&sample->pc, sample->stack, 8);
    sample->sp += 8;
#else
    sample->pc = sample->lr;
#endif
    sample->pc--;
}

static void handle(int number, siginfo_t *info, void *context)
{
    static const char *const why[] = {"more frames", "no row", "not in the copied stack", "a signed return address"};
    struct kiblawen_frame frames[MOST_FRAMES];
    struct kiblawen_stop stop;
    struct kiblawen_sample sample = interrupted(context);
    print(number == SIGSEGV ? "SIGSEGV, address " : "a signal, address ");
    print_hex((uint64_t)info->si_addr);
    print("\n");
    return_from_nowhere(&sample);
    size_t count = kiblawen_walk_modules(modules, module_count, &sample, frames, MOST_FRAMES, &stop);
    for (size_t i = 0; i < count; i++)
        print_frame(frames[i].pc);
    print("  ");
    print(why[stop.kind]);
    print(" ");
    print_hex(stop.value);
    print("\n");
}

/* Makes the handler ready: the tables, the end of this thread's stack, and a stack for the handler. */
static int prepare(char *program)
{
    pthread_attr_t attributes;
    stack_t stack = {.ss_sp = handler_stack, .ss_size = sizeof handler_stack};
    /* The signal comes again when the handler returns, and then ends the process. */
    struct sigaction action = {.sa_sigaction = handle, .sa_flags = SA_SIGINFO | SA_ONSTACK | (int)SA_RESETHAND};
    void *base = NULL;
    size_t size = 0;
    dl_iterate_phdr(add_module, program);
    if (pthread_getattr_np(pthread_self(), &attributes))
        return 0;
    pthread_attr_getstack(&attributes, &base, &size);
    pthread_attr_destroy(&attributes);
    stack_end = (uint64_t)base + size;
    return kiblawen_in_order(modules, module_count) && !sigaltstack(&stack, NULL) && !sigaction(SIGSEGV, &action, NULL);
}

static int *volatile nowhere;
static void (*volatile no_function)(void);

static int less(const void *one, const void *other)
{
    (void)one;
    return *nowhere + *(const int *)other;
}

static __attribute__((noinline)) int callback(void)
{
    int numbers[8] = {8, 7, 6, 5, 4, 3, 2, 1};
    qsort(numbers, 8, sizeof *numbers, less);
    return numbers[0];
}

static __attribute__((noinline)) int call(void)
{
    no_function();
    return (int)module_count;
}

static __attribute__((noinline)) int overflow(int depth)
{
    volatile char room[1000];
    room[depth % 1000] = 1;
    return depth < 0 ? 0 : overflow(depth + 1) + room[depth % 1000];
}

int main(int argc, char **argv)
{
    const char *how = argc > 2 ? argv[2] : "callback";
    store = argc > 1 ? argv[1] : "/usr/lib/sframe";
    if (!prepare(argv[0])) {
        fputs("crash: the handler can't be made ready\n", stderr);
        return 2;
    }
    return *how == 'o' ? overflow(0) : strcmp(how, "call") ? callback() : call();
}
