/* A sampling profiler over kiblawen.h: what its parts have in common. */
#ifndef PROFILER_H
#define PROFILER_H

#include <stdbool.h>
#include <stddef.h>
#include <stdint.h>
#include <sys/types.h>

#include "kiblawen.h"

enum { MOST_MODULES = 1024, MOST_FRAMES = 128, ENTRIES = 2048, PATH_ROOM = 4096 };

/* What the command line asks for. */
struct options {
    unsigned hertz;
    double seconds; /* or 0: until the process ends */
};

/* Symbols of a file, by address in the file. */
struct symbol {
    uint64_t start, size;
    const char *name;
};

struct symbols {
    struct symbol *list;
    char *names;
    size_t count;
    bool is_read;
};

/* A mapped file. It has the index of its `struct kiblawen_module`. */
struct file {
    char *path;
    uint64_t load;
    uint8_t *table;
    bool is_linked; /* its table was made, or can't be */
    struct symbols symbols;
};

/* The files of a process, in the order in which they came, and what the walks of its samples ended with. */
struct process {
    pid_t pid;
    struct kiblawen_module modules[MOST_MODULES];
    size_t order[MOST_MODULES]; /* the index of the modules, and the cache that belongs to them */
    struct kiblawen_cache cache[ENTRIES];
    struct file files[MOST_MODULES];
    size_t count;
    bool is_changed; /* files have been added since tables were made */
    bool has_ended;
    uint64_t samples, frames, stops[4], without_fp, without_stack;
};

/* process.c */
uint64_t page_size(void);
uint8_t *read_file(const char *path, size_t *len);
void add_mapping(struct process *process, uint64_t start, uint64_t offset, const char *path);
void read_maps(struct process *process);
void open_tables(struct process *process);

/* symbols.c */
void read_symbols(struct symbols *symbols, const char *path);
const char *symbol_at(const struct symbols *symbols, uint64_t address);

/* folded.c */
void add_stack(struct process *process, const struct kiblawen_sample *sample);
void print_folded(struct process *process);

/* perf.c: samples a process with all its threads. Returns false, with a line, if perf events aren't allowed. */
bool sample_by_perf(struct process *process, const struct options *options, int begin);

/* timer.c: samples work of the profiler's own. */
int sample_by_timer(struct process *process, const struct options *options);

#endif
