/*
 * Tries the library that makes tables on a file: writes what each call makes, for a comparison with the program; rooms that
 * are short; what lies after a room; arguments that can't be taken; refusals; each allocation failing; several threads; the
 * stack that a call takes; and where the files of its own process are loaded.
 *
 *     c-library-link FILE OTHER FOLDER
 *
 * FILE and OTHER are shared objects. Writes FOLDER/link, linkplt, slim, merge and verify, each with its report, prints what
 * was wrong, and a line with the counts. `.ci/c-library-link` builds it, with malloc and its like wrapped.
 */
#define _GNU_SOURCE
#include <link.h>
#include <pthread.h>
#include <stdio.h>
#include <stdlib.h>
#include <string.h>
#include <unistd.h>

#include "kiblawen-link.h"

enum { AT = 0x4000000, OTHER_BASE = 0x2000000, MOST = 1 << 16, PAGE = 4096 };

/* The stack of a thread that calls, and less than that what a call takes of it. */
enum { STACK = 64 * 1024, MOST_STACK = 32 * 1024 };

/* About how many of a call's allocations are made to fail, if it has many. */
#ifdef SANITIZED
enum { FAILING = 20 };
#else
enum { FAILING = 200 };
#endif

static unsigned tried, wrong;

#define CHECK(test)                                                                                                   \
    do {                                                                                                              \
        tried++;                                                                                                      \
        if (!(test))                                                                                                  \
            wrong++, printf("c-library-link: line %d: %s\n", __LINE__, #test);                                        \
    } while (0)

/* Linked with --wrap, so that each call of these by the library or by this file comes here. */
void *__real_malloc(size_t size);
void *__real_realloc(void *at, size_t size);
void __real_free(void *at);

/* While allocations are counted: how many there were, which one fails, and how many blocks aren't freed. */
static bool is_counting;
static long allocations, failing, blocks;

static bool fails(void)
{
    return is_counting && allocations++ == failing;
}

void *__wrap_malloc(size_t size)
{
    if (fails())
        return NULL;
    if (is_counting)
        blocks++;
    return __real_malloc(size);
}

void *__wrap_realloc(void *at, size_t size)
{
    if (fails())
        return NULL;
    if (is_counting && !at)
        blocks++;
    return __real_realloc(at, size);
}

void __wrap_free(void *at)
{
    if (is_counting && at)
        blocks--;
    __real_free(at);
}

static struct kiblawen_input file, other;
static uint8_t *out;
static size_t room;
static struct kiblawen_omission omitted[MOST];
static struct kiblawen_plt plts[16];

static struct kiblawen_input read_input(const char *path, uint64_t base)
{
    FILE *from = fopen(path, "rb");
    struct kiblawen_input input = {NULL, 0, base, KIBLAWEN_ELF};
    if (!from || fseek(from, 0, SEEK_END))
        exit(2);
    input.len = (size_t)ftell(from);
    rewind(from);
    uint8_t *bytes = malloc(input.len + 1);
    if (!bytes || fread(bytes, 1, input.len, from) != input.len)
        exit(2);
    fclose(from);
    input.bytes = bytes;
    return input;
}

static FILE *create(const char *folder, const char *name)
{
    char path[4096];
    snprintf(path, sizeof path, "%s/%s", folder, name);
    FILE *to = fopen(path, "wb");
    if (!to)
        exit(2);
    return to;
}

static void write_out(const char *folder, const char *name, size_t len)
{
    FILE *to = create(folder, name);
    if (fwrite(out, 1, len, to) != len)
        exit(2);
    fclose(to);
}

/* Writes the report as sf_tool prints it: both kinds of lines by rising start. */
static void write_report(const char *folder, const char *name, const struct kiblawen_linked *linked, bool has_plts)
{
    static const char *const reasons[] = {"", "EmptyRange", "SizeTooLarge", "ReturnColumn", "SignalFrame", "NoCfa", "CfaExpression",
        "CfaRegister", "CfaOffset", "SpRule", "RaRule", "RaOffset", "FpRule", "FpOffset", "FpWithoutRa", "SignState"};
    FILE *to = create(folder, name);
    size_t k = 0;
    for (size_t i = 0; i <= linked->omitted; i++) {
        const struct kiblawen_omission *it = &omitted[i];
        for (; k < linked->plts && (i == linked->omitted || plts[k].start < it->start); k++)
            fprintf(to, "plt 0x%llx size %llu input %u section %u fde 0x%x\n", (unsigned long long)plts[k].start,
                    (unsigned long long)plts[k].size, plts[k].input, plts[k].section, plts[k].place);
        if (i == linked->omitted)
            break;
        fprintf(to, "omit 0x%llx size %llu input %u section %u fde 0x%x %s", (unsigned long long)it->start,
                (unsigned long long)it->size, it->input, it->section, it->place, reasons[it->reason]);
        if (it->has_offset)
            fprintf(to, " at %u", it->offset);
        fputc('\n', to);
    }
    fprintf(to, "kept %u omitted %zu", linked->functions, linked->omitted);
    if (has_plts)
        fprintf(to, " plt %zu", linked->plts);
    fputc('\n', to);
    fclose(to);
}

/* Makes all that can be made of the files, and writes it for the comparison. Returns the section of FILE, opened. */
static struct kiblawen_section make_all(const char *folder)
{
    static uint8_t *kept, *kept_other;
    struct kiblawen_section sections[2] = {KIBLAWEN_CLOSED, KIBLAWEN_CLOSED};
    struct kiblawen_linked linked;
    struct kiblawen_made made;
    struct kiblawen_verdict verdict;
    uint64_t place;
    CHECK(kiblawen_linkplt(&file, 1, AT, out, room, omitted, MOST, plts, 16, &linked) == KIBLAWEN_MADE);
    write_out(folder, "linkplt", linked.len);
    write_report(folder, "linkplt.report", &linked, true);
    CHECK(kiblawen_link(&other, 1, AT, out, room, omitted, MOST, &linked) == KIBLAWEN_MADE);
    kept_other = memcpy(malloc(linked.len), out, linked.len);
    CHECK(kiblawen_open(&sections[1], kept_other, linked.len, AT, &place) == KIBLAWEN_OK);
    CHECK(kiblawen_link(&file, 1, AT, out, room, omitted, MOST, &linked) == KIBLAWEN_MADE && linked.plts == 0);
    write_out(folder, "link", linked.len);
    write_report(folder, "link.report", &linked, false);
    kept = memcpy(malloc(linked.len), out, linked.len);
    CHECK(kiblawen_open(&sections[0], kept, linked.len, AT, &place) == KIBLAWEN_OK);
    CHECK(kiblawen_slim(&sections[0], AT, out, room, &made) == KIBLAWEN_MADE);
    write_out(folder, "slim", made.len);
    FILE *to = create(folder, "slim.report");
    fprintf(to, "slim %zu %zu functions %u rows %u\n", linked.len, made.len, made.functions, made.rows);
    fclose(to);
    CHECK(kiblawen_merge(sections, 2, AT, out, room, &made) == KIBLAWEN_MADE);
    write_out(folder, "merge", made.len);
    to = create(folder, "merge.report");
    fprintf(to, "merged %u functions %u rows\n", made.functions, made.rows);
    fclose(to);
    CHECK(kiblawen_verify(&sections[0], &file, 1, &verdict) == KIBLAWEN_MADE && verdict.pc == 0 && !verdict.section.is_known);
    to = create(folder, "verify.report");
    fprintf(to, "agrees checked %u missing %u repeats %u\n", verdict.checked, verdict.missing, verdict.repeats);
    fclose(to);
    return sections[0];
}

/* A section with a changed byte: the answer has the address and both contents, as the program prints them. */
static void differ(const char *folder, const struct kiblawen_section *section)
{
    struct kiblawen_section changed = KIBLAWEN_CLOSED;
    struct kiblawen_verdict verdict;
    struct kiblawen_row row;
    uint64_t place;
    uint8_t *bytes = memcpy(malloc(section->len), section->bytes, section->len);
    bytes[section->len - 1] ^= 8;
    CHECK(kiblawen_open(&changed, bytes, section->len, AT, &place) == KIBLAWEN_OK);
    CHECK(kiblawen_verify(&changed, &file, 1, &verdict) == KIBLAWEN_DIFFERS && verdict.checked == 0);
    CHECK(kiblawen_find(&changed, verdict.pc, &row) && verdict.section.is_known == 1 && verdict.section.base == row.base);
    CHECK(verdict.section.cfa_offset == row.cfa_offset && verdict.section.fp_saved == row.fp_saved);
    CHECK(verdict.section.fp_offset == row.fp_offset && verdict.section.ra_saved == row.ra_saved);
    CHECK(verdict.section.ra_offset == row.ra_offset && verdict.section.is_signed == 0);
    CHECK(kiblawen_find(section, verdict.pc, &row) && verdict.dwarf.is_known == 1 && verdict.dwarf.base == row.base);
    CHECK(verdict.dwarf.cfa_offset == row.cfa_offset && verdict.dwarf.fp_saved == row.fp_saved);
    CHECK(verdict.dwarf.fp_offset == row.fp_offset && verdict.dwarf.ra_saved == row.ra_saved);
    FILE *to = create(folder, "differs");
    fwrite(bytes, 1, section->len, to);
    fclose(to);
    to = create(folder, "differs.report");
    fprintf(to, "differs 0x%llx\n", (unsigned long long)verdict.pc);
    fclose(to);
    free(bytes);
}

static void rooms(const struct kiblawen_section *section)
{
    struct kiblawen_linked linked;
    struct kiblawen_made made;
    struct kiblawen_omission few[3];
    size_t len = section->len;
    memset(out, 0x5a, room);
    memset(few, 0xaa, sizeof few);
    CHECK(kiblawen_link(&file, 1, AT, out, len, few, 2, &linked) == KIBLAWEN_MADE && linked.len == len);
    CHECK(!memcmp(out, section->bytes, len) && out[len] == 0x5a && few[2].start == 0xaaaaaaaaaaaaaaaa);
    CHECK(linked.omitted < 2 || (few[0].start <= few[1].start && few[1].input == 0));
    memset(out, 0x5a, room);
    CHECK(kiblawen_link(&file, 1, AT, out, len - 1, few, 0, &linked) == KIBLAWEN_NO_ROOM && linked.len == len);
    CHECK(kiblawen_link(&file, 1, AT, out, 0, few, 0, &linked) == KIBLAWEN_NO_ROOM && linked.len == len);
    CHECK(kiblawen_linkplt(&file, 1, AT, out, 0, few, 0, plts, 0, &linked) == KIBLAWEN_NO_ROOM && linked.len >= len);
    CHECK(kiblawen_slim(section, AT, out, 0, &made) == KIBLAWEN_NO_ROOM && made.len > 0);
    CHECK(kiblawen_merge(section, 1, AT, out, len - 1, &made) == KIBLAWEN_NO_ROOM && made.len == len);
    CHECK(out[0] == 0x5a && out[len - 2] == 0x5a);
}

static void unfit(const struct kiblawen_section *section)
{
    static struct kiblawen_input many[513];
    static struct kiblawen_section closed[513];
    struct kiblawen_linked linked = {9, 9, 9, 9, {9, 9, 9, 9, {9, 9, 9, 9}}};
    struct kiblawen_made made = {.len = 9};
    struct kiblawen_verdict verdict = {.pc = 9};
    struct kiblawen_placed placed = {.load = 9};
    struct kiblawen_input input = file;
    CHECK(kiblawen_link(&file, 0, AT, out, room, omitted, MOST, &linked) == KIBLAWEN_UNFIT);
    CHECK(linked.len == 0 && linked.functions == 0 && linked.omitted == 0 && linked.plts == 0 && linked.why.group == 0);
    for (size_t i = 0; i < 513; i++)
        many[i] = file, closed[i] = *section;
    CHECK(kiblawen_link(many, 513, AT, out, room, omitted, MOST, &linked) == KIBLAWEN_UNFIT);
    input.kind = 3;
    CHECK(kiblawen_link(&input, 1, AT, out, room, omitted, MOST, &linked) == KIBLAWEN_UNFIT);
    CHECK(kiblawen_linkplt(&input, 1, AT, out, room, omitted, MOST, plts, 16, &linked) == KIBLAWEN_UNFIT);
    CHECK(kiblawen_verify(section, &input, 1, &verdict) == KIBLAWEN_UNFIT && verdict.pc == 0);
    CHECK(kiblawen_merge(closed, 513, AT, out, room, &made) == KIBLAWEN_UNFIT && made.len == 0);
    closed[1] = (struct kiblawen_section)KIBLAWEN_CLOSED;
    CHECK(kiblawen_merge(closed, 2, AT, out, room, &made) == KIBLAWEN_UNFIT);
    CHECK(kiblawen_merge(closed, 0, AT, out, room, &made) == KIBLAWEN_UNFIT);
    CHECK(kiblawen_slim(&closed[1], AT, out, room, &made) == KIBLAWEN_UNFIT);
    CHECK(kiblawen_verify(&closed[1], &file, 1, &verdict) == KIBLAWEN_UNFIT);
    CHECK(kiblawen_place(file.bytes, file.len, 0, 0, 0, &placed) == KIBLAWEN_UNFIT && placed.load == 0);
}

static bool why_is(const struct kiblawen_refusal *why, uint32_t group, uint32_t number, int input, uint64_t first, uint64_t third)
{
    return why->group == group && why->number == number && why->has_input == (input >= 0) && why->input == (input >= 0 ? (uint32_t)input : 0)
        && why->values[0] == first && why->values[2] == third;
}

/* Refusals, by the numbers of docs/messages.md. */
static void refusals(const struct kiblawen_section *section)
{
    static const uint8_t ends[4] = {0};
    struct kiblawen_section sections[2] = {*section, *section};
    struct kiblawen_input inputs[2] = {file, file};
    struct kiblawen_linked linked;
    struct kiblawen_made made;
    struct kiblawen_verdict verdict;
    struct kiblawen_placed placed;
    memset(out, 0x5a, room);
    CHECK(kiblawen_link(inputs, 2, AT, out, room, omitted, MOST, &linked) == KIBLAWEN_REFUSED && linked.len == 0);
    CHECK(why_is(&linked.why, 10, 2, -1, linked.why.values[0], linked.why.values[0]) && linked.why.values[3] == 1);
    inputs[1].base = 1ull << 44;
    CHECK(kiblawen_linkplt(inputs, 2, AT, out, room, omitted, MOST, plts, 16, &linked) == KIBLAWEN_REFUSED);
    CHECK(why_is(&linked.why, 10, 3, -1, linked.why.values[0], 0) && linked.why.values[0] > inputs[1].base);
    inputs[1] = (struct kiblawen_input){file.bytes, 40, 0, KIBLAWEN_ELF};
    CHECK(kiblawen_link(inputs, 2, AT, out, room, omitted, MOST, &linked) == KIBLAWEN_REFUSED && why_is(&linked.why, 1, 1, 1, 40, 0));
    CHECK(kiblawen_verify(section, inputs, 2, &verdict) == KIBLAWEN_REFUSED && why_is(&verdict.why, 1, 1, 2, 40, 0));
    inputs[1] = (struct kiblawen_input){file.bytes + 1, 64, 0, KIBLAWEN_ELF};
    CHECK(kiblawen_link(inputs, 2, AT, out, room, omitted, MOST, &linked) == KIBLAWEN_REFUSED && why_is(&linked.why, 1, 2, 1, 0, 0));
    inputs[1] = (struct kiblawen_input){ends, 4, 0, KIBLAWEN_EH_FRAME_AARCH64};
    CHECK(kiblawen_link(inputs, 2, AT, out, room, omitted, MOST, &linked) == KIBLAWEN_REFUSED && why_is(&linked.why, 10, 1, -1, 0, 0));
    inputs[1].kind = KIBLAWEN_EH_FRAME_AMD64;
    CHECK(kiblawen_merge(sections, 2, AT, out, room, &made) == KIBLAWEN_REFUSED && made.why.group == 10 && made.why.number == 2);
    CHECK(kiblawen_merge(sections, 1, 1ull << 44, out, room, &made) == KIBLAWEN_REFUSED && made.why.number == 3);
    CHECK(kiblawen_slim(section, 1ull << 44, out, room, &made) == KIBLAWEN_REFUSED && made.why.group == 10 && made.why.number == 3);
    CHECK(kiblawen_place(file.bytes, 40, PAGE, 0, 0, &placed) == KIBLAWEN_REFUSED && why_is(&placed.why, 1, 1, 0, 40, 0));
    CHECK(out[0] == 0x5a && out[room - 1] == 0x5a);
    CHECK(kiblawen_link(inputs, 2, AT, out, room, omitted, MOST, &linked) == KIBLAWEN_MADE && !memcmp(out, section->bytes, section->len));
}

/* Runs a call with each of its allocations failing in turn. */
static void failing_calls(const char *name, uint32_t (*call)(const struct kiblawen_section *), const struct kiblawen_section *section)
{
    long count, answers = 0;
    is_counting = true;
    failing = -1;
    allocations = blocks = 0;
    CHECK(call(section) == KIBLAWEN_MADE && blocks == 0);
    count = allocations;
    for (long step = count > 2 * FAILING ? count / FAILING : 1, i = 0; i < count; i += step, answers++) {
        failing = i;
        allocations = blocks = 0;
        out[0] = 0x11;
        uint32_t answer = call(section);
        is_counting = false;
        CHECK(answer == KIBLAWEN_NO_MEMORY && blocks == 0 && out[0] == 0x11);
        is_counting = true;
    }
    is_counting = false;
    printf("c-library-link: %s: %ld allocations, %ld made to fail\n", name, count, answers);
}

static struct kiblawen_linked linked_then;
static uint32_t call_link(const struct kiblawen_section *section)
{
    (void)section;
    return kiblawen_link(&file, 1, AT, out, room, omitted, MOST, &linked_then);
}

static uint32_t call_linkplt(const struct kiblawen_section *section)
{
    (void)section;
    return kiblawen_linkplt(&file, 1, AT, out, room, omitted, MOST, plts, 16, &linked_then);
}

static struct kiblawen_made made_then;
static uint32_t call_slim(const struct kiblawen_section *section)
{
    return kiblawen_slim(section, AT, out, room, &made_then);
}

static uint32_t call_merge(const struct kiblawen_section *section)
{
    return kiblawen_merge(section, 1, AT, out, room, &made_then);
}

static uint32_t call_verify(const struct kiblawen_section *section)
{
    struct kiblawen_verdict verdict;
    return kiblawen_verify(section, &file, 1, &verdict);
}

static uint32_t call_place(const struct kiblawen_section *section)
{
    struct kiblawen_placed placed;
    (void)section;
    return kiblawen_place(file.bytes, file.len, PAGE, 0, 0, &placed);
}

static const struct {
    const char *name;
    uint32_t (*call)(const struct kiblawen_section *);
} calls[] = {{"link", call_link}, {"linkplt", call_linkplt}, {"slim", call_slim}, {"merge", call_merge}, {"verify", call_verify}, {"place", call_place}};

struct job {
    const struct kiblawen_section *section;
    uint32_t (*call)(const struct kiblawen_section *);
    unsigned failures;
};

static void *link_often(void *given)
{
    struct job *job = given;
    uint8_t *own = malloc(job->section->len);
    for (int i = 0; i < 8; i++) {
        struct kiblawen_linked linked;
        struct kiblawen_omission none[1];
        job->failures += kiblawen_link(&file, 1, AT, own, job->section->len, none, 0, &linked) != KIBLAWEN_MADE
            || memcmp(own, job->section->bytes, job->section->len);
    }
    free(own);
    return NULL;
}

static void threads(const struct kiblawen_section *section)
{
    enum { THREADS = 4 };
    pthread_t ids[THREADS];
    struct job jobs[THREADS];
    for (int i = 0; i < THREADS; i++) {
        jobs[i] = (struct job){section, NULL, 0};
        CHECK(pthread_create(&ids[i], NULL, link_often, &jobs[i]) == 0);
    }
    for (int i = 0; i < THREADS; i++)
        CHECK(pthread_join(ids[i], NULL) == 0 && jobs[i].failures == 0);
}

#ifndef SANITIZED
static void *call_once(void *given)
{
    struct job *job = given;
    job->failures = job->call(job->section) != KIBLAWEN_MADE;
    return NULL;
}

/* The stack that each call takes, with what the thread itself takes, by what it leaves of a small stack that was painted. */
static void stacks(const struct kiblawen_section *section)
{
    static _Alignas(PAGE) uint8_t stack[STACK];
    for (size_t i = 0; i < sizeof calls / sizeof calls[0]; i++) {
        struct job job = {section, calls[i].call, 0};
        pthread_attr_t attributes;
        pthread_t id;
        size_t left = 0;
        memset(stack, 0xa5, sizeof stack);
        pthread_attr_init(&attributes);
        if (pthread_attr_setstack(&attributes, stack, sizeof stack) || pthread_create(&id, &attributes, call_once, &job))
            exit(2);
        CHECK(pthread_join(id, NULL) == 0 && job.failures == 0);
        while (left < sizeof stack && stack[left] == 0xa5)
            left++;
        printf("c-library-link: %s takes %zu bytes of stack\n", calls[i].name, sizeof stack - left);
        CHECK(sizeof stack - left < MOST_STACK);
    }
}
#endif

static int check_place(struct dl_phdr_info *info, size_t size, void *data)
{
    const uint64_t page = (uint64_t)sysconf(_SC_PAGESIZE);
    struct kiblawen_placed placed = {0};
    char path[4096] = "/proc/self/exe";
    (void)size, (void)data;
    if (*info->dlpi_name)
        snprintf(path, sizeof path, "%s", info->dlpi_name);
    if (path[0] != '/')
        return 0;
    struct kiblawen_input input = read_input(path, 0);
    uint64_t first = UINT64_MAX, end = 0;
    for (int i = 0; i < info->dlpi_phnum; i++) {
        const ElfW(Phdr) *it = &info->dlpi_phdr[i];
        if (it->p_type != PT_LOAD)
            continue;
        first = first < it->p_vaddr / page * page ? first : it->p_vaddr / page * page;
        end = it->p_vaddr + it->p_memsz;
        if (it->p_flags & PF_X) {
            uint64_t offset = it->p_offset / page * page, start = info->dlpi_addr + it->p_vaddr / page * page;
            CHECK(kiblawen_place(input.bytes, input.len, page, start, offset, &placed) == KIBLAWEN_MADE);
            CHECK(placed.has_load == 1 && placed.load == info->dlpi_addr);
        }
    }
    CHECK(placed.first == first && placed.after == (end + page - 1) / page * page);
    CHECK(placed.build_id_len == 0 || (placed.build_id_len == 20 && placed.build_id + 20 <= input.len));
    CHECK(kiblawen_place(input.bytes, input.len, page, 0, input.len, &placed) == KIBLAWEN_MADE && placed.has_load == 0 && placed.load == 0);
    free((void *)input.bytes);
    return 0;
}

/* Mappings of a file with two executable segments, as lld packs them: .text, and a segment that is writable too. */
static void check_segments(void)
{
    enum { TEXT = 1, OTHER = 2, FIRST = 0x17a0, SECOND = 0x2990 };
    static const struct { uint32_t executable; uint64_t page, start, offset, load; bool has_load; } mappings[] = {
        /* The page at 0 has bytes of both: only one of them is executable, or it isn't known which one is mapped. */
        {TEXT, 4096, 0x5000, 0, 0x4000, true},        {OTHER, 4096, 0x5000, 0, 0x3000, true},
        {TEXT | OTHER, 4096, 0x5000, 0, 0, false},    {0, 4096, 0x5000, 0, 0, false},
        /* The last byte of that page, and the first one after it. */
        {TEXT, 4096, 0x5fff, 0xfff, 0x4000, true},    {TEXT | OTHER, 4096, 0x5fff, 0xfff, 0, false},
        {TEXT, 4096, 0x6000, 0x1000, 0, false},       {OTHER, 4096, 0x6000, 0x1000, 0, false},
        /* With pages of one byte each segment has its own, from p_offset to before p_offset + p_filesz. */
        {TEXT | OTHER, 1, 0x57a0, 0x7a0, 0x4000, true}, {TEXT | OTHER, 1, 0x598f, 0x98f, 0x4000, true},
        {TEXT | OTHER, 1, 0x6990, 0x990, 0x4000, true}, {TEXT | OTHER, 1, 0x6998, 0x998, 0x4000, true},
        {TEXT | OTHER, 1, 0x6999, 0x999, 0, false},   {TEXT | OTHER, 1, 0x579f, 0x79f, 0, false},
        /* At fixed addresses, below them (modulo 2^64), and in a page of 64 KiB. */
        {TEXT, 4096, 0x1000, 0, 0, true},             {TEXT, 4096, 0, 0, -0x1000ull, true},
        {OTHER, 4096, 0x1000, 0, -0x1000ull, true},   {TEXT, 65536, 0x20000, 0, 0x1f000, true},
        {TEXT | OTHER, 65536, 0x20000, 0, 0, false},
    };
    for (size_t i = 0; i < sizeof mappings / sizeof mappings[0]; i++) {
        struct { ElfW(Ehdr) header; ElfW(Phdr) segments[2]; } made = {
            {.e_ident = ELFMAG "\2\1\1", .e_type = ET_DYN, .e_machine = EM_X86_64, .e_version = 1, .e_phoff = sizeof made.header,
             .e_ehsize = sizeof made.header, .e_phentsize = sizeof made.segments[0], .e_phnum = 2},
            {{PT_LOAD, mappings[i].executable & TEXT ? PF_R | PF_X : PF_R, 0x7a0, FIRST, FIRST, 0x1f0, 0x1f0, 4096},
             {PT_LOAD, mappings[i].executable & OTHER ? PF_R | PF_W | PF_X : PF_R, 0x990, SECOND, SECOND, 9, 9, 4096}}};
        struct kiblawen_placed placed;
        uint32_t answer = kiblawen_place((const uint8_t *)&made, sizeof made, mappings[i].page, mappings[i].start, mappings[i].offset, &placed);
        CHECK(answer == KIBLAWEN_MADE && placed.has_load == mappings[i].has_load && placed.load == mappings[i].load);
    }
}

static void print_build_id(const char *folder)
{
    struct kiblawen_placed placed;
    FILE *to = create(folder, "build-id");
    CHECK(kiblawen_place(file.bytes, file.len, PAGE, 0, 0, &placed) == KIBLAWEN_MADE);
    for (size_t i = 0; i < placed.build_id_len; i++)
        fprintf(to, "%02x", file.bytes[placed.build_id + i]);
    fputc('\n', to);
    fclose(to);
    to = create(folder, "after");
    fprintf(to, "0x%llx\n", (unsigned long long)placed.after);
    fclose(to);
}

int main(int argc, char **argv)
{
    if (argc != 4)
        return 2;
    file = read_input(argv[1], 0);
    other = read_input(argv[2], OTHER_BASE);
    room = file.len + other.len;
    out = malloc(room);
    struct kiblawen_section section = make_all(argv[3]);
    differ(argv[3], &section);
    rooms(&section);
    unfit(&section);
    refusals(&section);
    for (size_t i = 0; i + 1 < sizeof calls / sizeof calls[0]; i++)
        failing_calls(calls[i].name, calls[i].call, &section);
    is_counting = true;
    allocations = 0, failing = -1;
    CHECK(call_place(&section) == KIBLAWEN_MADE && allocations == 0);
    is_counting = false;
    threads(&section);
#ifndef SANITIZED
    stacks(&section);
#endif
    dl_iterate_phdr(check_place, NULL);
    check_segments();
    print_build_id(argv[3]);
    printf("c-library-link: %u tried, %u wrong\n", tried, wrong);
    return wrong != 0;
}
