/*
 * kiblawen-link: makes, merges, shortens and verifies SFrame Version 2 sections, for programs that walk stacks by kiblawen.h.
 * Link with libkiblawen_link and libkiblawen (pkg-config kiblawen-link). C11 and C++11.
 *
 * The calls give what sf_tool's commands of these names give. All but kiblawen_place allocate, and free that before they return.
 * Results are proved for all files and sections, if the caller meets the conditions of kiblawen.h, and these two:
 *
 *   5. malloc, realloc and free are one allocator, and align as C requires. They may fail at any time.
 *   6. The bytes of files and sections don't change during a call.
 *
 * Only kiblawen_place may be called in a signal handler, or in the child of a multithreaded process after fork(). Tested, not
 * proved: several threads may call at once, and a call takes less than 32 kB of stack.
 */
#ifndef KIBLAWEN_LINK_H
#define KIBLAWEN_LINK_H

#include "kiblawen.h"

#ifdef __cplusplus
extern "C" {
#endif

/* The kind of an input. */
enum kiblawen_kind {
    KIBLAWEN_ELF = 0,             /* a relocatable object, a program or a shared object */
    KIBLAWEN_EH_FRAME_AMD64 = 1,  /* a bare .eh_frame section, as it is in memory */
    KIBLAWEN_EH_FRAME_AARCH64 = 2
};

/* An input: all its bytes, and its load address (for a bare section, its first byte's address). */
struct kiblawen_input {
    const uint8_t *bytes;
    size_t len;
    uint64_t base;
    uint32_t kind; /* enum kiblawen_kind */
};

/* An omitted function, as in the line `omit` (docs/omissions.md). */
struct kiblawen_omission {
    uint64_t start;
    uint64_t size;
    uint32_t input;      /* from 0 on */
    uint32_t section;    /* its .eh_frame's number, 0 for a bare one */
    uint32_t place;      /* its record's offset in that section */
    uint32_t reason;     /* enum kiblawen_reason */
    uint32_t has_offset; /* 0 if the reason is the whole function's */
    uint32_t offset;     /* the first offset in the function at which it holds */
};

/* Why a function is omitted. */
enum kiblawen_reason {
    KIBLAWEN_EMPTY_RANGE = 1,
    KIBLAWEN_SIZE_TOO_LARGE = 2,
    KIBLAWEN_RETURN_COLUMN = 3,
    KIBLAWEN_SIGNAL_FRAME = 4,
    KIBLAWEN_NO_CFA = 5,
    KIBLAWEN_CFA_EXPRESSION = 6,
    KIBLAWEN_CFA_REGISTER = 7,
    KIBLAWEN_CFA_OFFSET = 8,
    KIBLAWEN_SP_RULE = 9,
    KIBLAWEN_RA_RULE = 10,
    KIBLAWEN_RA_OFFSET = 11,
    KIBLAWEN_FP_RULE = 12,
    KIBLAWEN_FP_OFFSET = 13,
    KIBLAWEN_FP_WITHOUT_RA = 14,
    KIBLAWEN_SIGN_STATE = 15
};

/* A procedure linkage table, as in the line `plt`. */
struct kiblawen_plt {
    uint64_t start;
    uint64_t size;
    uint32_t input;
    uint32_t section;
    uint32_t place;
};

/* The first fault, as in the line `refused` (docs/messages.md), or zeros. For kiblawen_verify item 0 is the section. */
struct kiblawen_refusal {
    uint32_t group;     /* 1 elf, 2 place, 3 reloc, 4 record, 5 insn, 6 machine, 7 section, 10 link */
    uint32_t number;    /* of the fault in its group, from 1 on */
    uint32_t has_input; /* 0 if it concerns no single item */
    uint32_t input;     /* the item's number */
    uint64_t values[4]; /* as printed, then zeros */
};

/* The answer of a call. After any but KIBLAWEN_MADE the room for the section is unchanged. */
enum kiblawen_answer {
    KIBLAWEN_MADE = 0,           /* or the section agrees, or the file is loaded */
    KIBLAWEN_NO_ROOM = 1,        /* `len` is the section's length */
    KIBLAWEN_DIFFERS = 1,        /* kiblawen_verify */
    KIBLAWEN_NOT_LOADED = 1,     /* kiblawen_place: no segment is loaded, or one reaches into the last page */
    KIBLAWEN_REFUSED = 2,        /* `why` has the fault */
    KIBLAWEN_OVER_FUNCTIONS = 3, /* more than 2^21 */
    KIBLAWEN_OVER_ROWS = 4,      /* more than 2^24 */
    KIBLAWEN_NO_MEMORY = 5,      /* malloc or realloc failed */
    KIBLAWEN_UNFIT = 6           /* an unfit argument: each call says which */
};

/* What was made; all zeros, but for `why`, if nothing was. */
struct kiblawen_linked {
    size_t len;         /* of the section, in bytes */
    uint32_t functions; /* kept ones */
    size_t omitted;     /* functions */
    size_t plts;        /* procedure linkage tables, two functions of the section each; 0 by kiblawen_link */
    struct kiblawen_refusal why;
};

/*
 * Links 1 to 512 inputs. Writes their section, for the address `at`, to the first `len` bytes of `out`, and the omitted
 * functions to `omitted`, by rising start, as many as there is room for (0 is enough). The rest of both is unchanged.
 * KIBLAWEN_UNFIT: no input or more than 512, one of 2^32 bytes or more, or an unknown kind.
 */
uint32_t kiblawen_link(const struct kiblawen_input *inputs, size_t count, uint64_t at, uint8_t *out, size_t room,
                       struct kiblawen_omission *omitted, size_t omitted_room,
                       struct kiblawen_linked *linked) KIBLAWEN_NONNULL;

/* The same with rows for plain lazy procedure linkage tables of AMD64, which are written to `plts`. */
uint32_t kiblawen_linkplt(const struct kiblawen_input *inputs, size_t count, uint64_t at, uint8_t *out, size_t room,
                          struct kiblawen_omission *omitted, size_t omitted_room, struct kiblawen_plt *plts,
                          size_t plts_room, struct kiblawen_linked *linked) KIBLAWEN_NONNULL;

/* The same of a section that is made of sections. */
struct kiblawen_made {
    size_t len;
    uint32_t functions;
    uint32_t rows;
    struct kiblawen_refusal why;
};

/* Makes the section that recovers the same as an open one, without redundant rows. KIBLAWEN_UNFIT: it is closed. */
uint32_t kiblawen_slim(const struct kiblawen_section *section, uint64_t at, uint8_t *out, size_t room,
                       struct kiblawen_made *slimmed) KIBLAWEN_NONNULL;

/*
 * Makes one section of 1 to 512 open ones, whose functions are within 2 GiB of it. KIBLAWEN_UNFIT: no section or more than
 * 512, or one is closed.
 */
uint32_t kiblawen_merge(const struct kiblawen_section *sections, size_t count, uint64_t at, uint8_t *out, size_t room,
                        struct kiblawen_made *merged) KIBLAWEN_NONNULL;

/* A row's content: the fields of `struct kiblawen_row`. */
struct kiblawen_content {
    uint32_t is_known; /* 0 if there is none; all is 0 then */
    uint32_t base;
    int32_t cfa_offset;
    uint32_t ra_saved;
    int32_t ra_offset;
    uint32_t fp_saved;
    int32_t fp_offset;
    uint32_t is_signed; /* 1 if the return address is signed */
};

/* A verdict: the numbers if the section agrees, or the first address at which it differs, with both contents. */
struct kiblawen_verdict {
    uint32_t checked; /* plain functions, which agree */
    uint32_t missing; /* functions that SFrame can express and the section lacks */
    uint32_t repeats; /* functions of repeated blocks, which aren't compared */
    uint64_t pc;
    struct kiblawen_content section;
    struct kiblawen_content dwarf; /* of the call frame information, if it can be expressed */
    struct kiblawen_refusal why;
};

/*
 * Compares an open section with 1 to 512 inputs. It agrees if the inputs recover the same wherever a plain function of the
 * section has a row. KIBLAWEN_UNFIT: as for kiblawen_link, or the section is closed.
 */
uint32_t kiblawen_verify(const struct kiblawen_section *section, const struct kiblawen_input *inputs, size_t count,
                         struct kiblawen_verdict *verdict) KIBLAWEN_NONNULL;

/* Where a file is loaded, and which build it is. */
struct kiblawen_placed {
    uint64_t first;      /* the page of the first loaded segment, in the file's own addresses: 0 in most files */
    uint64_t after;      /* the first page after the last loaded byte, where its table can be */
    uint64_t load;       /* what is added to the file's addresses: the base of an input; or 0 */
    uint32_t has_load;   /* 1 if exactly one executable segment can be mapped so */
    uint64_t build_id;   /* the offset in the file of its build identifier (NT_GNU_BUILD_ID) */
    size_t build_id_len; /* 0 if it has none */
    struct kiblawen_refusal why;
};

/*
 * Finds where an ELF file is loaded, from the size of a page, sysconf(_SC_PAGESIZE), and an executable mapping: its first address
 * and its offset in the file (the first and third field of a line of /proc/PID/maps). The file is at `load + first` to before
 * `load + after`. A segment can be mapped so if its pages have the byte at `offset`: then load + p_vaddr + (offset - p_offset)
 * is `start`, modulo 2^64. For a program that isn't position-independent, load is 0.
 *
 * KIBLAWEN_UNFIT: a page of 0 bytes, or a file of 2^32 bytes or more.
 */
uint32_t kiblawen_place(const uint8_t *bytes, size_t len, uint64_t page, uint64_t start, uint64_t offset,
                        struct kiblawen_placed *place) KIBLAWEN_NONNULL;

#ifdef __cplusplus
}
#endif

#endif
