/*
 * Tries the C library: opening and its faults, look-ups, recoveries and walks with their ends, by one section and by
 * modules; walks that go on, with an index of modules and a cache; that what lies after a room stays; that nothing
 * allocates; several threads and a signal handler at once.
 * Prints what was wrong, and a line with the counts. `.ci/c-library` builds it, with malloc and its like wrapped.
 */
#define _GNU_SOURCE
#include <pthread.h>
#include <signal.h>
#include <stdio.h>
#include <stdlib.h>
#include <string.h>
#include <sys/time.h>

#include "kiblawen.h"

static unsigned tried, wrong;
static volatile unsigned long allocations;

#define CHECK(test)                                                                                                   \
    do {                                                                                                              \
        tried++;                                                                                                      \
        if (!(test))                                                                                                  \
            wrong++, printf("c-library: line %d: %s\n", __LINE__, #test);                                             \
    } while (0)

/* Linked with --wrap, so that each call of these by the library or by this file comes here. */
void *__real_malloc(size_t size);
void *__real_calloc(size_t count, size_t size);
void *__real_realloc(void *at, size_t size);
void *__wrap_malloc(size_t size) { return allocations++, __real_malloc(size); }
void *__wrap_calloc(size_t count, size_t size) { return allocations++, __real_calloc(count, size); }
void *__wrap_realloc(void *at, size_t size) { return allocations++, __real_realloc(at, size); }

/* An AMD64 function at 0x1000 that pushes its frame pointer, for a section at 0x3000. */
static const uint8_t pushing[63] =
    "\xe2\xde\x02\x05\x03\x00\xf8\x00\x01\x00\x00\x00\x04\x00\x00\x00\x0f\x00\x00\x00\x00\x00\x00\x00"
    "\x14\x00\x00\x00\xe4\xdf\xff\xff\x06\x00\x00\x00\x00\x00\x00\x00\x04\x00\x00\x00\x00\x00\x00\x00"
    "\x00\x03\x08\x01\x05\x10\xf0\x04\x04\x10\xf0\x05\x05\x08\xf0";

/* An AArch64 function at 0x1000 that signs its return address, for a section at 0x3000. */
static const uint8_t signing[65] =
    "\xe2\xde\x02\x05\x02\x00\x00\x00\x01\x00\x00\x00\x05\x00\x00\x00\x11\x00\x00\x00\x00\x00\x00\x00"
    "\x14\x00\x00\x00\xe4\xdf\xff\xff\x1c\x00\x00\x00\x00\x00\x00\x00\x05\x00\x00\x00\x20\x00\x00\x00"
    "\x00\x03\x00\x04\x83\x00\x08\x87\x20\xe8\xe0\x14\x83\x00\x18\x03\x00";

/* Two frames of the first function at 0x7000: a saved frame pointer and a return address, and then zeros. */
static const uint8_t stack[32] = "\x10\x70\0\0\0\0\0\0\x05\x10\0\0\0\0\0\0";

/* A frame of the second function at 0x7000, whose return address has a signature in bits 48 to 54. */
static const uint8_t signed_stack[16] = "\x11\x11\0\0\0\0\0\0\x14\x10\0\0\0\0\x2a";

static struct kiblawen_section amd64 = KIBLAWEN_CLOSED, aarch64 = KIBLAWEN_CLOSED;

static const struct kiblawen_sample sample = {
    .pc = 0x1004, .sp = 0x6ff0, .fp = 0x7000, .stack = stack, .stack_len = 32, .stack_start = 0x7000};

static bool walk_is(const struct kiblawen_section *section, const struct kiblawen_sample *s, size_t room,
                    const struct kiblawen_frame *expected, size_t count, uint32_t kind, uint64_t value)
{
    const struct kiblawen_frame guard = {0x5555, 0xaaaa};
    struct kiblawen_frame frames[8] = {guard, guard, guard, guard, guard, guard, guard, guard};
    struct kiblawen_stop stop = {9, 9};
    if (kiblawen_walk(section, s, frames, room, &stop) != count || stop.kind != kind || stop.value != value)
        return false;
    for (size_t i = 0; i < 8; i++) {
        const struct kiblawen_frame *frame = i < count ? &expected[i] : &guard;
        if (frames[i].pc != frame->pc || frames[i].cfa != frame->cfa)
            return false;
    }
    return true;
}

static void opening(void)
{
    struct kiblawen_section section = KIBLAWEN_CLOSED;
    struct kiblawen_row row;
    uint8_t bytes[63];
    uint64_t place = 1;
    CHECK(kiblawen_open(&section, pushing, 63, 0x3000, &place) == KIBLAWEN_OK && place == 0);
    CHECK(kiblawen_find(&section, 0x1000, &row) && kiblawen_most_rows(&section) == 4);
    static const struct { uint8_t at, byte, fault; uint64_t place; } cases[] = {
        {0, 0, KIBLAWEN_MAGIC, 0},          {2, 1, KIBLAWEN_VERSION, 2},         {3, 13, KIBLAWEN_FLAGS, 3},
        {4, 1, KIBLAWEN_ABI, 4},            {5, 1, KIBLAWEN_FIXED_OFFSET, 5},    {20, 16, KIBLAWEN_LAYOUT, 20},
        {12, 5, KIBLAWEN_COUNT, 12},        {44, 3, KIBLAWEN_ROW_TYPE, 28},      {44, 64, KIBLAWEN_RESERVED, 28},
        {44, 16, KIBLAWEN_REPEAT_ZERO, 28}, {49, 0x63, KIBLAWEN_OFFSET_SIZE, 48}, {49, 1, KIBLAWEN_OFFSET_COUNT, 48},
        {55, 1, KIBLAWEN_ROW_ORDER, 55},    {11, 1, KIBLAWEN_TOO_MANY_FUNCTIONS, 8},
    };
    for (size_t i = 0; i < sizeof cases / sizeof cases[0]; i++) {
        memcpy(bytes, pushing, 63);
        bytes[cases[i].at] = cases[i].byte;
        CHECK(kiblawen_open(&section, bytes, 63, 0x3000, &place) == cases[i].fault && place == cases[i].place);
        CHECK(!kiblawen_find(&section, 0x1000, &row));
    }
    CHECK(kiblawen_open(&section, pushing, 27, 0x3000, &place) == KIBLAWEN_SHORT && place == 27);
    CHECK(kiblawen_open(&section, KIBLAWEN_NOTHING, 0, 0, &place) == KIBLAWEN_SHORT && place == 0);
    CHECK(kiblawen_open(&section, pushing, 63, 0x1fff, &place) == KIBLAWEN_ADDRESS_RANGE && place == 28);
    CHECK(kiblawen_open(&section, pushing, 63, 0x3000, &place) == KIBLAWEN_OK);
    kiblawen_close(&section);
    CHECK(!kiblawen_find(&section, 0x1000, &row) && kiblawen_most_rows(&section) == 0);
    CHECK(walk_is(&section, &sample, 8, &(struct kiblawen_frame){0x1004, 0}, 1, KIBLAWEN_STOP_OUTSIDE, 0x1004));
}

static void finding(void)
{
    struct kiblawen_row row = {.key = 77};
    CHECK(!kiblawen_find(&amd64, 0xfff, &row) && !kiblawen_find(&amd64, 0x1006, &row) && row.key == 77);
    CHECK(kiblawen_find(&amd64, 0x1004, &row));
    CHECK(row.function_start == 0x1000 && row.function_size == 6 && row.block_size == 0 && row.row_start == 4);
    CHECK(row.base == KIBLAWEN_FP && row.cfa_offset == 16 && row.ra_saved == 1 && row.ra_offset == -8);
    CHECK(row.fp_saved == 1 && row.fp_offset == -16 && row.key == KIBLAWEN_UNSIGNED);
    CHECK(kiblawen_find(&aarch64, 0x1004, &row) && row.ra_saved == 0 && row.ra_offset == 0 && row.key == KIBLAWEN_KEY_B);
    CHECK(kiblawen_find(&aarch64, 0x1008, &row) && row.row_start == 8 && row.ra_saved == 1 && row.ra_offset == -24);
    CHECK(row.fp_saved == 1 && row.fp_offset == -32 && row.cfa_offset == 32);
}

static void recovering(void)
{
    struct kiblawen_caller caller;
    struct kiblawen_sample outside = sample, bare = sample;
    CHECK(kiblawen_recover(&amd64, &sample, &caller));
    CHECK(caller.cfa == 0x7010 && caller.ra == 0x1005 && caller.fp == 0x7010);
    CHECK(caller.ra_known == 1 && caller.fp_known == 1 && caller.key == KIBLAWEN_UNSIGNED);
    outside.pc = 0x2000;
    CHECK(!kiblawen_recover(&amd64, &outside, &caller) && caller.cfa == 0x7010);
    bare.stack = KIBLAWEN_NOTHING;
    bare.stack_len = 0;
    CHECK(kiblawen_recover(&amd64, &bare, &caller));
    CHECK(caller.cfa == 0x7010 && caller.ra == 0 && caller.fp == 0 && caller.ra_known == 0 && caller.fp_known == 0);
}

static void walking(void)
{
    static const struct kiblawen_frame frames[] = {{0x1004, 0x7010}, {0x1005, 0x7020}, {0, 0}};
    static const struct kiblawen_frame last[] = {{0x1004, 8}};
    static const struct kiblawen_frame unsaved[] = {{0x1008, 0x7020}, {0x1014, 0x7040}};
    struct kiblawen_sample s = sample;
    CHECK(walk_is(&amd64, &s, 8, frames, 3, KIBLAWEN_STOP_OUTSIDE, UINT64_MAX));
    CHECK(walk_is(&amd64, &s, 3, frames, 3, KIBLAWEN_STOP_OUTSIDE, UINT64_MAX));
    CHECK(walk_is(&amd64, &s, 2, frames, 2, KIBLAWEN_STOP_ROOM, 0));
    CHECK(walk_is(&amd64, &s, 0, frames, 0, KIBLAWEN_STOP_ROOM, 0));
    s.stack_len = 15;
    CHECK(walk_is(&amd64, &s, 8, frames, 1, KIBLAWEN_STOP_UNREADABLE, 0x7008));
    s.stack_start = 0x7008, s.stack = stack + 8, s.stack_len = 24;
    CHECK(walk_is(&amd64, &s, 8, frames, 1, KIBLAWEN_STOP_UNREADABLE, 0x7000));
    /* A copy that would go on past the last address: what lies at 0 and after it is in no copy. */
    s.fp = UINT64_MAX - 7, s.stack_start = UINT64_MAX - 7, s.stack = stack, s.stack_len = 32;
    CHECK(walk_is(&amd64, &s, 8, last, 1, KIBLAWEN_STOP_UNREADABLE, 0));
    s = (struct kiblawen_sample){.pc = 0x1008, .sp = 0x7000, .mask = 0x7f000000000000, .has_mask = 1,
                                 .stack = signed_stack, .stack_len = 16, .stack_start = 0x7000};
    CHECK(walk_is(&aarch64, &s, 8, unsaved, 2, KIBLAWEN_STOP_UNREADABLE, 0x7028));
    s.has_mask = 0;
    CHECK(walk_is(&aarch64, &s, 8, unsaved, 1, KIBLAWEN_STOP_SIGNED, 0x2a000000001014));
}

static void crossing(void)
{
    /* The return address 0x1005 as one of the first module's, and 0x11005 as one of the second's. */
    uint8_t far[32];
    struct kiblawen_module modules[2] = {{0x1000, 0x1000, amd64}, {0x11000, 0x1000, KIBLAWEN_CLOSED}};
    struct kiblawen_frame frames[8];
    struct kiblawen_stop stop;
    struct kiblawen_sample s = sample;
    uint64_t place;
    memcpy(far, stack, 32);
    far[10] = 1;
    s.stack = far;
    CHECK(kiblawen_open(&modules[1].section, pushing, 63, 0x13000, &place) == KIBLAWEN_OK);
    CHECK(kiblawen_in_order(modules, 2) && kiblawen_in_order(modules, 0));
    CHECK(kiblawen_walk_modules(modules, 2, &s, frames, 8, &stop) == 3);
    CHECK(frames[1].pc == 0x11005 && frames[1].cfa == 0x7020 && frames[2].pc == 0 && frames[2].cfa == 0);
    CHECK(stop.kind == KIBLAWEN_STOP_OUTSIDE && stop.value == UINT64_MAX);
    CHECK(kiblawen_walk_modules(modules, 1, &s, frames, 8, &stop) == 2);
    CHECK(stop.kind == KIBLAWEN_STOP_OUTSIDE && stop.value == 0x11004 && frames[1].cfa == 0);
    modules[1].start = 0x1fff;
    CHECK(!kiblawen_in_order(modules, 2));
    modules[1].start = 0xfff;
    CHECK(!kiblawen_in_order(modules, 2));
    modules[1].start = 0x1000, modules[1].size = 5, modules[0].start = 0x1005;
    CHECK(!kiblawen_in_order(modules, 2));
    /* The address 0x1004 is not in this module's range. */
    CHECK(kiblawen_walk_modules(modules, 1, &sample, frames, 8, &stop) == 1 && stop.value == 0x1004);
}

enum { MODULES = 3, ENTRIES = 16 };

/* Three modules that are in no order: 0x11000 to 0x12000, 0x5000 to 0x5000, 0x1000 to 0x2000. */
static struct kiblawen_module unsorted[MODULES] = {
    {0x11000, 0x1000, KIBLAWEN_CLOSED}, {0x5000, 0, KIBLAWEN_CLOSED}, {0x1000, 0x1000, KIBLAWEN_CLOSED}};
static size_t order[MODULES];
static const struct kiblawen_modules process = {unsorted, MODULES, order, MODULES};

static void indexing(void)
{
    enum { MANY = 1000 };
    static struct kiblawen_module many[MANY];
    static size_t places[MANY];
    struct kiblawen_module two[2] = {{0x2000, 0x1000, KIBLAWEN_CLOSED}, {0x1000, 0x1000, KIBLAWEN_CLOSED}};
    uint64_t place;
    size_t room[3] = {7, 7, 7};
    CHECK(kiblawen_open(&unsorted[0].section, pushing, 63, 0x13000, &place) == KIBLAWEN_OK);
    unsorted[2].section = amd64;
    CHECK(kiblawen_index(unsorted, MODULES, order, MODULES) && order[0] == 2 && order[1] == 1 && order[2] == 0);
    CHECK(kiblawen_index(unsorted, 0, room, 0) && !kiblawen_index(two, 2, room, 3) && !kiblawen_index(two, 2, room, 1));
    CHECK(room[0] == 7 && kiblawen_index(two, 2, room, 2) && room[0] == 1 && room[1] == 0 && room[2] == 7);
    two[1].size = 0x1001;
    CHECK(!kiblawen_index(two, 2, room, 2) && room[0] == 1 && room[1] == 0);
    two[1].start = UINT64_MAX - 5;
    CHECK(kiblawen_index(two, 2, room, 2) && room[0] == 0 && room[1] == 1);
    /* Empty modules in each order: where another module starts, where it ends, and within it. */
    for (size_t i = 0; i < 3; i++) {
        struct kiblawen_module three[3] = {{5, 0, KIBLAWEN_CLOSED}, {5, 0, KIBLAWEN_CLOSED}, {5, 0, KIBLAWEN_CLOSED}};
        three[i].size = 10;
        CHECK(kiblawen_index(three, 3, room, 3) && room[2] == i);
        three[(i + 1) % 3].start = 15;
        CHECK(kiblawen_index(three, 3, room, 3) && room[1] == i && room[2] == (i + 1) % 3);
        three[(i + 1) % 3].start = 14;
        CHECK(!kiblawen_index(three, 3, room, 3));
        three[(i + 1) % 3] = (struct kiblawen_module){5, 1, KIBLAWEN_CLOSED};
        CHECK(!kiblawen_index(three, 3, room, 3));
    }
    for (size_t i = 0; i < MANY; i++)
        many[i] = (struct kiblawen_module){0x1000 * (1 + i * 377 % MANY), 0x1000, KIBLAWEN_CLOSED};
    CHECK(kiblawen_index(many, MANY, places, MANY));
    for (size_t i = 0; i < MANY; i++)
        if (many[places[i]].start != 0x1000 * (1 + i))
            wrong++;
    many[5].size++;
    CHECK(!kiblawen_index(many, MANY, places, MANY));
}

/* What a walk has to give. */
struct expected {
    struct kiblawen_module_frame frames[4];
    size_t count;
    uint32_t kind;
    uint64_t value;
    struct kiblawen_state state;
};

static bool same_frame(const struct kiblawen_module_frame *one, const struct kiblawen_module_frame *other)
{
    return one->pc == other->pc && one->cfa == other->cfa && one->module == other->module;
}

static bool same_state(const struct kiblawen_state *one, const struct kiblawen_state *other)
{
    return one->pc == other->pc && one->sp == other->sp && one->fp == other->fp && one->lr == other->lr
        && one->fp_unknown == other->fp_unknown && one->returned == other->returned;
}

/* Walks on from a state by frames of at most `room` at a time. */
static bool goes_on(const struct kiblawen_modules *modules, struct kiblawen_cache *cache, size_t entries,
                    const struct kiblawen_sample *s, struct kiblawen_state state, size_t room, const struct expected *expected)
{
    const struct kiblawen_module_frame guard = {0x5555, 0xaaaa, 77};
    struct kiblawen_module_frame frames[8] = {guard, guard, guard, guard, guard, guard, guard, guard};
    struct kiblawen_stop stop = {9, 9};
    size_t count = 0, more;
    do {
        more = kiblawen_walk_on(modules, cache, entries, s, &state, frames + count, room, &stop);
        count += more;
    } while (stop.kind == KIBLAWEN_STOP_ROOM && more > 0 && count + room < 8);
    if (count != expected->count || stop.kind != expected->kind || stop.value != expected->value || !same_state(&state, &expected->state))
        return false;
    for (size_t i = 0; i < 8; i++)
        if (!same_frame(&frames[i], i < count ? &expected->frames[i] : &guard))
            return false;
    return true;
}

/* The walk with all that may not matter: no cache, caches of several sizes, cold and warm, and some frames at a time. */
static bool walks_on(const struct kiblawen_sample *s, struct kiblawen_state state, const struct expected *expected)
{
    struct kiblawen_cache cache[ENTRIES];
    bool is_right = true;
    for (size_t entries = 0; entries <= ENTRIES; entries = entries ? 2 * entries : 1) {
        memset(cache, 0x55, sizeof cache);
        kiblawen_cache_clear(cache, entries);
        for (size_t room = 1; room < 7; room++)
            is_right &= goes_on(&process, cache, entries, s, state, room, expected);
    }
    return is_right;
}

static void going_on(void)
{
    struct kiblawen_sample s = sample;
    struct kiblawen_cache cache[ENTRIES];
    struct kiblawen_module_frame frames[2] = {{1, 2, 3}, {1, 2, 3}};
    struct kiblawen_stop stop;
    uint8_t far[32];
    memcpy(far, stack, 32);
    far[10] = 1;
    s.stack = far;
    struct kiblawen_state start = KIBLAWEN_START(s);
    /* Two frames of two modules, and one of none. */
    CHECK(walks_on(&s, start, &(struct expected){{{0x1004, 0x7010, 2}, {0x11005, 0x7020, 0}, {0, 0, MODULES}}, 3,
        KIBLAWEN_STOP_OUTSIDE, UINT64_MAX, {0, 0x7020, 0, 0, 0, 1}}));
    /* At the end of the function the frame pointer's place is below the stack pointer, and in no sample. It is unknown, and the */
    /* caller's row counts from it. */
    start = (struct kiblawen_state){0x1001, 0x7000, 0x1234, 0, 0, 0};
    s.stack_start = 0x7008, s.stack = far + 8, s.stack_len = 24;
    CHECK(walks_on(&s, start, &(struct expected){{{0x1001, 0x7010, 2}, {0x11005, 0, 0}}, 2,
        KIBLAWEN_STOP_UNREADABLE, 0x7000, {0x11005, 0x7010, 0x7000, 0x11005, 1, 1}}));
    /* It is unknown, and the caller's rows count from the stack pointer: its first row, and then outside. */
    far[8] = 1;
    CHECK(walks_on(&s, start, &(struct expected){{{0x1001, 0x7010, 2}, {0x11001, 0x7018, 0}, {0, 0, MODULES}}, 3,
        KIBLAWEN_STOP_OUTSIDE, UINT64_MAX, {0, 0x7018, 0x7000, 0, 1, 1}}));
    /* The walk that stops there has one frame. */
    s.pc = 0x1001, s.sp = 0x7000, s.fp = 0x1234;
    CHECK(walk_is(&amd64, &s, 8, &(struct kiblawen_frame){0x1001, 0x7010}, 1, KIBLAWEN_STOP_UNREADABLE, 0x7000));
    /* A frame pointer that is unknown from the start. */
    start = (struct kiblawen_state){0x1004, 0x6ff0, 0x4321, 0, 1, 0};
    CHECK(walks_on(&s, start, &(struct expected){{{0x1004, 0, 2}}, 1, KIBLAWEN_STOP_UNREADABLE, 0x4321, start}));
    /* A program counter to which a call returns is looked up at the address before: 0x1000 at 0xfff. */
    start = (struct kiblawen_state){0x1000, 0x7000, 0, 0, 0, 7};
    CHECK(walks_on(&s, start, &(struct expected){{{0x1000, 0, MODULES}}, 1, KIBLAWEN_STOP_OUTSIDE, 0xfff, {0x1000, 0x7000, 0, 0, 0, 1}}));
    /* No room: nothing is written but the state and why. */
    CHECK(kiblawen_walk_on(&process, cache, 0, &s, &start, frames, 0, &stop) == 0 && stop.kind == KIBLAWEN_STOP_ROOM && stop.value == 0);
    CHECK(frames[0].pc == 1 && start.pc == 0x1000 && start.returned == 1);
    /* A cache keeps what it found, until it is cleared: here the section is closed meanwhile, which no caller may do. */
    kiblawen_cache_clear(cache, ENTRIES);
    start = (struct kiblawen_state)KIBLAWEN_START(sample);
    CHECK(kiblawen_walk_on(&process, cache, ENTRIES, &sample, &start, frames, 1, &stop) == 1 && frames[0].cfa == 0x7010);
    kiblawen_close(&unsorted[2].section);
    start = (struct kiblawen_state)KIBLAWEN_START(sample);
    CHECK(kiblawen_walk_on(&process, cache, ENTRIES, &sample, &start, frames, 1, &stop) == 1 && frames[0].cfa == 0x7010);
    kiblawen_cache_clear(cache, ENTRIES);
    start = (struct kiblawen_state)KIBLAWEN_START(sample);
    CHECK(kiblawen_walk_on(&process, cache, ENTRIES, &sample, &start, frames, 1, &stop) == 1 && frames[0].cfa == 0);
    unsorted[2].section = amd64;
}

static void going_on_signed(void)
{
    struct kiblawen_module module = {0x1000, 0x1000, aarch64};
    size_t first = 9;
    const struct kiblawen_modules one = {&module, 1, &first, 1};
    struct kiblawen_cache cache[1];
    struct kiblawen_sample s = {.pc = 0x1008, .sp = 0x7000, .mask = 0x7f000000000000, .has_mask = 1,
                                .stack = signed_stack, .stack_len = 16, .stack_start = 0x7000};
    struct kiblawen_state start = KIBLAWEN_START(s);
    CHECK(kiblawen_index(&module, 1, &first, 1) && first == 0);
    kiblawen_cache_clear(cache, 1);
    CHECK(goes_on(&one, cache, 1, &s, start, 3, &(struct expected){{{0x1008, 0x7020, 0}, {0x1014, 0x7040, 0}}, 2,
        KIBLAWEN_STOP_UNREADABLE, 0x7028, {0x1014, 0x7020, 0x1111, 0x2a000000001014, 0, 1}}));
    s.has_mask = 0;
    CHECK(goes_on(&one, cache, 1, &s, start, 3, &(struct expected){{{0x1008, 0x7020, 0}}, 1,
        KIBLAWEN_STOP_SIGNED, 0x2a000000001014, start}));
    /* Return addresses that nothing signed: they are taken up to 48 bits, where kiblawen_walk stops. */
    static const struct { uint64_t address; bool goes_on; } returns[] = {{0x1014, true}, {0xffffffffffff, true}, {0x1000000000000, false}};
    for (size_t i = 0; i < sizeof returns / sizeof returns[0]; i++) {
        uint64_t plain[2] = {0x1111, returns[i].address};
        struct kiblawen_module_frame frames[2];
        struct kiblawen_state state = start;
        struct kiblawen_stop stop;
        s.stack = (const uint8_t *)plain;
        CHECK(kiblawen_walk_on(&one, cache, 1, &s, &state, frames, 2, &stop) == 1u + returns[i].goes_on);
        CHECK(returns[i].goes_on ? frames[1].pc == returns[i].address : stop.kind == KIBLAWEN_STOP_SIGNED && stop.value == returns[i].address);
        CHECK(walk_is(&aarch64, &s, 8, &(struct kiblawen_frame){0x1008, 0x7020}, 1, KIBLAWEN_STOP_SIGNED, returns[i].address));
        /* A mask of 0 clears nothing and stops nowhere. */
        s.has_mask = 1, s.mask = 0, state = start;
        CHECK(kiblawen_walk_on(&one, cache, 1, &s, &state, frames, 2, &stop) == 2 && frames[1].pc == returns[i].address);
        s.has_mask = 0;
    }
}

static bool works(void)
{
    static const struct kiblawen_frame frames[] = {{0x1004, 0x7010}, {0x1005, 0x7020}, {0, 0}};
    struct kiblawen_row row;
    return kiblawen_find(&amd64, 0x1001, &row) && row.row_start == 1 && !kiblawen_find(&amd64, 0x1006, &row)
        && walk_is(&amd64, &sample, 8, frames, 3, KIBLAWEN_STOP_OUTSIDE, UINT64_MAX);
}

/* The walk that goes on, with a cache of the caller's. */
static bool works_on(struct kiblawen_cache *cache)
{
    static const struct expected expected = {{{0x1004, 0x7010, 2}, {0x1005, 0x7020, 2}, {0, 0, MODULES}}, 3,
                                             KIBLAWEN_STOP_OUTSIDE, UINT64_MAX, {0, 0x7020, 0, 0, 0, 1}};
    const struct kiblawen_state start = KIBLAWEN_START(sample);
    return goes_on(&process, cache, ENTRIES, &sample, start, 2, &expected);
}

static volatile sig_atomic_t handled, handled_wrong;
/* Two threads may be in the handler at once. */
static _Thread_local struct kiblawen_cache handlers[ENTRIES];
static _Thread_local bool is_cleared;

static void handler(int number)
{
    (void)number;
    handled++;
    if (!is_cleared)
        kiblawen_cache_clear(handlers, ENTRIES);
    is_cleared = true;
    if (!works() || !works_on(handlers))
        handled_wrong++;
}

static void *thread(void *failures)
{
    struct kiblawen_cache cache[ENTRIES];
    kiblawen_cache_clear(cache, ENTRIES);
    for (int i = 0; i < 100000; i++)
        if (!works() || !works_on(cache))
            ++*(unsigned *)failures;
    return NULL;
}

static void at_once(void)
{
    enum { THREADS = 4 };
    pthread_t threads[THREADS];
    unsigned failures[THREADS + 1] = {0};
    struct itimerval often = {{0, 500}, {0, 500}}, never = {{0, 0}, {0, 0}};
    struct kiblawen_cache cache[ENTRIES];
    kiblawen_cache_clear(cache, ENTRIES);
    signal(SIGPROF, handler);
    setitimer(ITIMER_PROF, &often, NULL);
    for (int i = 0; i < THREADS; i++)
        CHECK(pthread_create(&threads[i], NULL, thread, &failures[i]) == 0);
    for (int i = 0; i < 100000 || handled < 10; i++)
        failures[THREADS] += !works() || !works_on(cache);
    for (int i = 0; i < THREADS; i++)
        CHECK(pthread_join(threads[i], NULL) == 0 && failures[i] == 0);
    setitimer(ITIMER_PROF, &never, NULL);
    CHECK(failures[THREADS] == 0 && handled >= 10 && handled_wrong == 0);
}

int main(void)
{
    uint64_t place;
    char *volatile one = malloc(1);
    CHECK(one && allocations == 1); /* calls are counted */
    CHECK(kiblawen_open(&amd64, pushing, 63, 0x3000, &place) == KIBLAWEN_OK);
    CHECK(kiblawen_open(&aarch64, signing, 65, 0x3000, &place) == KIBLAWEN_OK);
    opening();
    finding();
    recovering();
    walking();
    crossing();
    indexing();
    going_on();
    going_on_signed();
    CHECK(allocations == 1); /* nothing was allocated, opening included */
    at_once();
    free(one);
    printf("c-library: %u tried, %u wrong, %d calls in a signal handler\n", tried, wrong, (int)handled);
    return wrong != 0;
}
