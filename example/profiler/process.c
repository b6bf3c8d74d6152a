/* The files that a process has mapped, and their tables, which are made here. */
#define _GNU_SOURCE
#include <elf.h>
#include <fcntl.h>
#include <stdio.h>
#include <stdlib.h>
#include <string.h>
#include <sys/auxv.h>
#include <sys/mman.h>
#include <sys/stat.h>
#include <unistd.h>

#include "kiblawen-link.h"
#include "profiler.h"

/* A process may have put anything where a file was: no more than this is read of it. */
enum { MOST_BYTES = 1 << 28 };

uint64_t page_size(void)
{
    return (uint64_t)sysconf(_SC_PAGESIZE);
}

/* Reads a regular file. Its bytes are the caller's to free, or NULL. To open a FIFO doesn't wait for a writer. */
uint8_t *read_file(const char *path, size_t *len)
{
    struct stat state;
    int file = open(path, O_RDONLY | O_NONBLOCK | O_NOCTTY | O_CLOEXEC);
    bool is_fit = file >= 0 && !fstat(file, &state) && S_ISREG(state.st_mode) && state.st_size > 0 && state.st_size <= MOST_BYTES;
    size_t size = is_fit ? (size_t)state.st_size : 0;
    uint8_t *bytes = is_fit ? malloc(size) : NULL;
    ssize_t more = 1;
    *len = 0;
    while (bytes && *len < size && more > 0) {
        more = read(file, bytes + *len, size - *len);
        *len += more > 0 ? (size_t)more : 0;
    }
    if (file >= 0)
        close(file);
    return bytes;
}

/* Makes the index of the modules anew. The cache belongs to other modules from now on, so it is cleared. */
static void index_files(struct process *process)
{
    if (!kiblawen_index(process->modules, process->count, process->order, process->count))
        fputs("profiler: two files are at the same addresses\n", stderr), exit(2);
    kiblawen_cache_clear(process->cache, ENTRIES);
}

/* Returns whether two ranges share an address. Their ends may be 2^64. */
static bool share(uint64_t start, uint64_t size, uint64_t other, uint64_t other_size)
{
    return start - other < other_size || other - start < size;
}

/* Returns the file whose addresses are among these, or NULL; with a path, of the files that have it. */
static struct file *file_among(struct process *process, uint64_t start, uint64_t size, const char *path)
{
    for (size_t i = 0; i < process->count; i++)
        if (share(start, size, process->modules[i].start, process->modules[i].size)
            && (!path || !strcmp(process->files[i].path, path)))
            return &process->files[i];
    return NULL;
}

/* Removes a file. The last one takes its place. */
static void remove_file(struct process *process, size_t at)
{
    size_t last = --process->count;
    kiblawen_close(&process->modules[at].section);
    free(process->files[at].table);
    free(process->files[at].path);
    free(process->files[at].symbols.list);
    free(process->files[at].symbols.names);
    process->modules[at] = process->modules[last];
    process->files[at] = process->files[last];
}

/*
 * Adds a file. Other files that were at its addresses have been unmapped. One of its own path stays, and so does each file if its
 * addresses would go on past the last one.
 */
static void add_file(struct process *process, const char *path, const struct kiblawen_placed *place)
{
    uint64_t start = place->load + place->first, size = place->after - place->first;
    char *copy = start <= UINT64_MAX - size && !file_among(process, start, size, path) ? strdup(path) : NULL;
    if (!copy)
        return;
    for (struct file *it; (it = file_among(process, start, size, NULL)) != NULL;)
        remove_file(process, (size_t)(it - process->files));
    if (process->count < MOST_MODULES) {
        process->modules[process->count] = (struct kiblawen_module){start, size, KIBLAWEN_CLOSED};
        process->files[process->count++] = (struct file){.path = copy, .load = place->load};
    } else {
        free(copy);
    }
    process->is_changed = true;
}

/* Returns the name of a file in memory that has the vDSO, which no other file has. It is the profiler's own: the kernel is the same. */
static const char *vdso_path(void)
{
    static char path[64];
    const uint8_t *bytes = (const uint8_t *)getauxval(AT_SYSINFO_EHDR);
    if (*path || !bytes)
        return path;
    const Elf64_Ehdr *header = (const Elf64_Ehdr *)bytes;
    size_t size = header->e_shoff + (size_t)header->e_shnum * header->e_shentsize;
    int file = memfd_create("vdso", MFD_CLOEXEC);
    if (file >= 0 && write(file, bytes, size) == (ssize_t)size)
        snprintf(path, sizeof path, "/proc/self/fd/%d", file);
    return path;
}

/* Adds the file of an executable mapping, which begins at this offset of the file, unless it was added by another mapping. */
void add_mapping(struct process *process, uint64_t start, uint64_t offset, const char *path)
{
    struct kiblawen_placed place;
    size_t len;
    if (!strcmp(path, "[vdso]"))
        path = vdso_path();
    if (*path != '/' || file_among(process, start, 1, path))
        return;
    uint8_t *bytes = read_file(path, &len);
    bool is_read = bytes && kiblawen_place(bytes, len, page_size(), start, offset, &place) == KIBLAWEN_MADE;
    free(bytes);
    if (is_read && place.has_load)
        add_file(process, path, &place);
    else if (is_read)
        fprintf(stderr, "profiler: no table of %s: not exactly one of its segments can be at 0x%llx\n", path, (unsigned long long)start);
}

/* Adds the files that a process has mapped. */
void read_maps(struct process *process)
{
    char name[64], line[PATH_ROOM + 128];
    snprintf(name, sizeof name, "/proc/%d/maps", process->pid);
    FILE *file = fopen(name, "r");
    while (file && fgets(line, sizeof line, file)) {
        unsigned long start, offset;
        char rights[8];
        int at = 0;
        if (sscanf(line, "%lx-%*x %7s %lx %*s %*s %n", &start, rights, &offset, &at) < 3 || !strchr(rights, 'x'))
            continue;
        line[strcspn(line, "\n")] = 0;
        add_mapping(process, start, offset, line + at);
    }
    if (file)
        fclose(file);
}

/* Makes the table of a file at its load address, and opens it. */
static void make_table(struct kiblawen_module *module, struct file *file)
{
    struct kiblawen_input input = {KIBLAWEN_NOTHING, 0, file->load, KIBLAWEN_ELF};
    struct kiblawen_omission omitted[1];
    struct kiblawen_plt plts[1];
    struct kiblawen_linked linked = {0};
    uint64_t at = module->start + module->size, place;
    uint8_t *bytes = read_file(file->path, &input.len);
    uint32_t answer = KIBLAWEN_NO_ROOM;
    if (bytes)
        input.bytes = bytes;
    /* A table is much shorter than its file. If it isn't, the first call says how long it is. */
    for (size_t room = input.len / 2 + 1; answer == KIBLAWEN_NO_ROOM && room > 0; room = room == linked.len ? 0 : linked.len) {
        free(file->table);
        file->table = malloc(room);
        answer = file->table ? kiblawen_linkplt(&input, 1, at, file->table, room, omitted, 0, plts, 0, &linked) : KIBLAWEN_NO_MEMORY;
    }
    free(bytes);
    if (answer != KIBLAWEN_MADE || kiblawen_open(&module->section, file->table, linked.len, at, &place) != KIBLAWEN_OK)
        fprintf(stderr, "profiler: no table of %s: answer %u, fault %u of group %u\n", file->path, answer, linked.why.number,
                linked.why.group);
}

/* Makes the tables of the files that were added. */
void open_tables(struct process *process)
{
    if (!process->is_changed)
        return;
    process->is_changed = false;
    for (size_t i = 0; i < process->count; i++) {
        if (!process->files[i].is_linked)
            make_table(&process->modules[i], &process->files[i]);
        process->files[i].is_linked = true;
    }
    index_files(process);
}
