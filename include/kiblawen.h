/*
 * kiblawen: SFrame Version 2 sections, for programs that walk stacks.
 *
 * Open a section's bytes once. Then look up addresses, recover a caller's frame, or walk a sample: registers and a copy of
 * part of the stack. Link with libkiblawen (pkg-config kiblawen). C11 and C++11.
 *
 * Nothing allocates, and only kiblawen_index is recursive. Results are proved for all sections, registers and memory, if
 * the caller meets the conditions at each call, and these four:
 *
 *   1. Pointers are aligned and not null (for no bytes use KIBLAWEN_NOTHING), and point to the stated number of elements.
 *   2. The bytes of an open section don't change: copy a mapped file that others may write.
 *   3. Memory that a call writes overlaps nothing else that it is given, and nobody else uses it meanwhile.
 *   4. Only the library reads and writes the fields of a section. It frees nothing.
 *
 * kiblawen_open and kiblawen_close need their section to themselves. Other calls only read sections, samples and modules, so
 * threads and signal handlers may share these (tested, not proved).
 */
#ifndef KIBLAWEN_H
#define KIBLAWEN_H

#include <stdbool.h>
#include <stddef.h>
#include <stdint.h>

/* The version of this header. KIBLAWEN_VERSION, below, is a fault. */
#define KIBLAWEN_VERSION_MAJOR 0
#define KIBLAWEN_VERSION_MINOR 1
#define KIBLAWEN_VERSION_PATCH 0
#define KIBLAWEN_VERSION_STRING "0.1.0"

#if defined(__GNUC__)
#define KIBLAWEN_NONNULL __attribute__((nonnull))
#else
#define KIBLAWEN_NONNULL
#endif

#ifdef __cplusplus
extern "C" {
#endif

/* A pointer to no bytes. */
#ifdef __cplusplus
#define KIBLAWEN_NOTHING (reinterpret_cast<const uint8_t *>(""))
#else
#define KIBLAWEN_NOTHING ((const uint8_t *) "")
#endif

/* A section. While it is closed it has no functions. */
struct kiblawen_section {
    const uint8_t *bytes;
    size_t len;
    uint64_t at;
    bool is_open;
};

/* Initializes a section: struct kiblawen_section section = KIBLAWEN_CLOSED; */
#define KIBLAWEN_CLOSED { KIBLAWEN_NOTHING, 0, 0, false }

/* Why a section is refused: docs/messages.md explains each in the group `section`. */
enum kiblawen_fault {
    KIBLAWEN_OK = 0,
    KIBLAWEN_SHORT = 1,
    KIBLAWEN_MAGIC = 2,
    KIBLAWEN_VERSION = 3,             /* not 2 */
    KIBLAWEN_FLAGS = 4,
    KIBLAWEN_ABI = 5,
    KIBLAWEN_FIXED_OFFSET = 6,
    KIBLAWEN_LAYOUT = 7,
    KIBLAWEN_COUNT = 8,
    KIBLAWEN_ROW_TYPE = 9,
    KIBLAWEN_RESERVED = 10,
    KIBLAWEN_REPEAT_ZERO = 11,
    KIBLAWEN_OFFSET_COUNT = 12,
    KIBLAWEN_OFFSET_SIZE = 13,
    KIBLAWEN_ROW_ORDER = 14,
    KIBLAWEN_UNSORTED = 15,
    KIBLAWEN_OVERLAP = 16,
    KIBLAWEN_ADDRESS_RANGE = 17,
    KIBLAWEN_TOO_MANY_FUNCTIONS = 18, /* more than 2^21 */
    KIBLAWEN_TOO_MANY_ROWS = 19       /* more than 2^24 */
};

/*
 * Checks `len` bytes that are loaded at the address `at` (or would be), and opens the section if nothing is wrong. Returns
 * 0 or the first fault, and writes the fault's place in the section, or 0, to `place`. After a fault the section is closed,
 * even if it was open before. The time is linear in the length, and in the functions and rows, which functions may share.
 *
 * Condition: `section` was initialized, by KIBLAWEN_CLOSED or by an earlier call.
 */
uint32_t kiblawen_open(struct kiblawen_section *section, const uint8_t *bytes, size_t len, uint64_t at,
                       uint64_t *place) KIBLAWEN_NONNULL;

/* Closes a section. The caller may then change and free its bytes. */
void kiblawen_close(struct kiblawen_section *section) KIBLAWEN_NONNULL;

/* Returns the largest number of rows of any function, or 0. Look-ups and walks read a function's rows one by one. */
uint32_t kiblawen_most_rows(const struct kiblawen_section *section) KIBLAWEN_NONNULL;

/* The register that a canonical frame address (CFA) counts from. */
enum kiblawen_base {
    KIBLAWEN_FP = 0, /* rbp, or x29 */
    KIBLAWEN_SP = 1  /* rsp, or sp */
};

/* The key that signs a return address (AArch64). */
enum kiblawen_key {
    KIBLAWEN_UNSIGNED = 0,
    KIBLAWEN_KEY_A = 1,
    KIBLAWEN_KEY_B = 2
};

/* A function, and its row that holds at an address: the CFA is the base register's value plus cfa_offset. */
struct kiblawen_row {
    uint64_t function_start;
    uint32_t function_size; /* in bytes */
    uint32_t block_size;    /* the bytes after which its rows repeat, or 0 */
    uint32_t row_start;     /* the row's first offset, from the start of the function or of a block */
    uint32_t base;          /* enum kiblawen_base */
    int32_t cfa_offset;
    uint32_t ra_saved;      /* 1: at the CFA plus ra_offset; 0: in the link register */
    int32_t ra_offset;      /* 0 if it isn't saved */
    uint32_t fp_saved;      /* 1: at the CFA plus fp_offset; 0: unchanged */
    int32_t fp_offset;      /* 0 if it isn't saved */
    uint32_t key;           /* enum kiblawen_key */
};

/*
 * Returns whether a row holds at an address. If so, writes the function and the row; otherwise `row` is unchanged. The
 * first function that contains the address decides.
 */
bool kiblawen_find(const struct kiblawen_section *section, uint64_t pc, struct kiblawen_row *row) KIBLAWEN_NONNULL;

/*
 * A stopped thread, and a copy of part of its stack: `stack_len` bytes from the address `stack_start` on. A value that is
 * not wholly in the copy can't be read. Without pointer authentication (AArch64) nothing is signed: has_mask = 1, mask = 0.
 */
struct kiblawen_sample {
    uint64_t pc;
    uint64_t sp;         /* rsp, or sp */
    uint64_t fp;         /* rbp, or x29 */
    uint64_t lr;         /* x30; not read on AMD64 */
    uint64_t mask;       /* the signature's bits, cleared in signed return addresses */
    uint32_t has_mask;   /* 0 if the mask isn't known, as on AMD64 */
    const uint8_t *stack; /* KIBLAWEN_NOTHING without a copy */
    size_t stack_len;
    uint64_t stack_start;
};

/* A caller's frame. */
struct kiblawen_caller {
    uint64_t cfa;      /* the caller's stack pointer */
    uint64_t ra;       /* the return address, with its signature; 0 if it can't be read */
    uint64_t fp;       /* 0 if it can't be read */
    uint32_t ra_known; /* 0 if it can't be read, else 1 */
    uint32_t fp_known;
    uint32_t key;      /* enum kiblawen_key */
};

/*
 * Recovers the caller's frame from the row that holds at the sample's pc. Returns whether there is one; if not, `caller` is
 * unchanged. For the next caller, look up the address before the return address, as walks do.
 */
bool kiblawen_recover(const struct kiblawen_section *section, const struct kiblawen_sample *sample,
                      struct kiblawen_caller *caller) KIBLAWEN_NONNULL;

/* A frame of a walk. */
struct kiblawen_frame {
    uint64_t pc;  /* the sample's own, or the previous frame's return address */
    uint64_t cfa; /* 0 if no row holds: this frame is the last */
};

/* Why a walk stopped. */
enum kiblawen_stop_kind {
    KIBLAWEN_STOP_ROOM = 0,       /* the array is full (the value is 0) */
    KIBLAWEN_STOP_OUTSIDE = 1,    /* no row holds at this address: the pc, or for a caller the address before its pc */
    KIBLAWEN_STOP_UNREADABLE = 2, /* a value is saved at this address, and its eight bytes are not all in the copy */
    KIBLAWEN_STOP_SIGNED = 3      /* this return address is signed, and the sample has no mask */
};

struct kiblawen_stop {
    uint32_t kind; /* enum kiblawen_stop_kind */
    uint64_t value;
};

/*
 * Walks a sample. Writes at most `room` frames, innermost first, and why the walk stopped. Returns the number of frames; the
 * rest of `frames` is unchanged.
 */
size_t kiblawen_walk(const struct kiblawen_section *section, const struct kiblawen_sample *sample,
                     struct kiblawen_frame *frames, size_t room, struct kiblawen_stop *stop) KIBLAWEN_NONNULL;

/* A module of a process (the program, or a shared object): its `size` addresses from `start` on, and its section. */
struct kiblawen_module {
    uint64_t start;
    uint64_t size;
    struct kiblawen_section section;
};

/* Returns whether each module ends at or before the start of the next one. */
bool kiblawen_in_order(const struct kiblawen_module *modules, size_t count) KIBLAWEN_NONNULL;

/*
 * Walks a sample as kiblawen_walk does. Each frame is looked up in the section of the module that has its address.
 *
 * Condition: the modules are in order (kiblawen_in_order).
 */
size_t kiblawen_walk_modules(const struct kiblawen_module *modules, size_t count, const struct kiblawen_sample *sample,
                             struct kiblawen_frame *frames, size_t room, struct kiblawen_stop *stop) KIBLAWEN_NONNULL;

/* Modules in any order, and their indices by address, which kiblawen_index writes. */
struct kiblawen_modules {
    const struct kiblawen_module *list;
    size_t count;
    const size_t *order;
    size_t order_count; /* equal to count */
};

/*
 * Writes the indices of modules to `order`, sorted by start, an empty module before another at the same start. Returns
 * whether no two modules overlap: then `order` is an index. An empty module overlaps a module that begins before it and ends
 * after it. If order_count isn't count, returns false. Not proved: it takes n log n comparisons, and recurses 2 log n deep.
 */
bool kiblawen_index(const struct kiblawen_module *modules, size_t count, size_t *order,
                    size_t order_count) KIBLAWEN_NONNULL;

/* An entry of a cache, a caller-supplied array whose length is a power of two. Only the library uses the fields. */
struct kiblawen_cache {
    uint64_t address;
    size_t module;
    int32_t cfa_offset;
    int32_t ra_offset;
    int32_t fp_offset;
    bool is_used;
    bool has_row;
    bool counts_from_fp;
    bool ra_saved;
    bool fp_saved;
    bool is_signed;
};

/*
 * Clears a cache. Condition of a cache: since it was cleared, it was only used with these very modules, none of whose
 * sections was opened or closed, and by one thread or signal handler.
 */
void kiblawen_cache_clear(struct kiblawen_cache *cache, size_t entries) KIBLAWEN_NONNULL;

/* Where a walk is. */
struct kiblawen_state {
    uint64_t pc;
    uint64_t sp;
    uint64_t fp;         /* or the address where it was to be read */
    uint64_t lr;         /* x30; not read on AMD64 */
    uint32_t fp_unknown; /* 0: fp is the frame pointer */
    uint32_t returned;   /* 0: the row is looked up at pc; 1: a call returns to pc, and it is looked up one byte before */
};

/* The state of a sample: struct kiblawen_state state = KIBLAWEN_START(sample); */
#define KIBLAWEN_START(sample) { (sample).pc, (sample).sp, (sample).fp, (sample).lr, 0, 0 }

/* A frame of kiblawen_walk_on. */
struct kiblawen_module_frame {
    uint64_t pc;
    uint64_t cfa;  /* 0 if it isn't known: this frame is the last */
    size_t module; /* the index of the module that has the address that was looked up, or `count` */
};

/*
 * Walks on from a state, with the memory and mask of a sample, whose registers are not read. It lists the first frames of
 * the walk by the whole memory: the frames of kiblawen_walk_modules, and more where that stops
 * - at a frame pointer that can't be read, as at a `ret` after `leave` or `pop`: the walk stops (unreadable) only at a row
 *   that counts from it, with the address where it is saved;
 * - at a signed row without a mask: a return address below 2^48 is taken as it is, others stop it (signed).
 *
 * Writes at most `room` frames, the state's own first, and why the walk stopped. Returns the number of frames; the rest of
 * `frames` is unchanged. Writes the next frame's state if the room is full, else the last frame's: a walk of n frames and one
 * of m from its state give a walk of n + m. The result is the same with any cache, also with 0 entries.
 *
 * Conditions: `modules` has an index of its list (kiblawen_index returned true), and the cache meets its own.
 */
size_t kiblawen_walk_on(const struct kiblawen_modules *modules, struct kiblawen_cache *cache, size_t entries,
                        const struct kiblawen_sample *sample, struct kiblawen_state *state,
                        struct kiblawen_module_frame *frames, size_t room, struct kiblawen_stop *stop) KIBLAWEN_NONNULL;

#ifdef __cplusplus
}
#endif

#endif
