/* Stacks as text: a line for each sample, from the outermost function on, in the form that flame graphs are drawn from. */
#define _GNU_SOURCE
#include <stdio.h>
#include <stdlib.h>
#include <string.h>

#include "profiler.h"

static char **lines;
static size_t line_count, line_room;

static void append(char **line, size_t *len, const char *text)
{
    size_t more = strlen(text);
    char *longer = realloc(*line, *len + more + 2);
    if (!longer)
        return;
    *line = longer;
    if (*len > 0)
        longer[(*len)++] = ';';
    memcpy(longer + *len, text, more + 1);
    /* A semicolon or a line feed within a name would end it, and a terminal would obey other bytes below a blank. */
    for (size_t i = *len; i < *len + more; i++)
        if (longer[i] == ';' || (unsigned char)longer[i] < ' ' || longer[i] == 0x7f)
            longer[i] = ':';
    *len += more;
}

/* Appends the name of the function at an address of a file: its symbol, or else the file. */
static void append_name(struct process *process, char **line, size_t *len, uint64_t pc, size_t module)
{
    char text[PATH_ROOM + 32];
    if (module == process->count) {
        snprintf(text, sizeof text, "[0x%llx]", (unsigned long long)pc);
        append(line, len, text);
        return;
    }
    struct file *file = &process->files[module];
    read_symbols(&file->symbols, file->path);
    const char *name = symbol_at(&file->symbols, pc - file->load), *slash = strrchr(file->path, '/');
    if (!name) {
        snprintf(text, sizeof text, "[%s]", slash ? slash + 1 : file->path);
        name = text;
    }
    append(line, len, name);
}

/*
 * Walks a sample. Only the innermost function may be at its end, where the saved frame pointer is below the stack pointer and so
 * in no sample. Walks that continue from there are counted.
 */
static size_t walk(struct process *process, const struct kiblawen_sample *sample, struct kiblawen_module_frame *frames)
{
    const struct kiblawen_modules modules = {process->modules, process->count, process->order, process->count};
    struct kiblawen_state state = KIBLAWEN_START(*sample);
    struct kiblawen_stop stop;
    size_t count = kiblawen_walk_on(&modules, process->cache, ENTRIES, sample, &state, frames, 1, &stop);
    if (stop.kind == KIBLAWEN_STOP_ROOM) {
        process->without_fp += state.fp_unknown;
        count += kiblawen_walk_on(&modules, process->cache, ENTRIES, sample, &state, frames + 1, MOST_FRAMES - 1, &stop);
    }
    process->samples++;
    process->frames += count;
    process->stops[stop.kind]++;
    return count;
}

/* Walks a sample, and adds its stack as a line. */
void add_stack(struct process *process, const struct kiblawen_sample *sample)
{
    struct kiblawen_module_frame frames[MOST_FRAMES];
    char *line = NULL;
    size_t len = 0;
    open_tables(process);
    size_t count = walk(process, sample, frames);
    /* A return address may be the start of the next function, so a caller is named by the address before. */
    for (size_t i = count; i > 0; i--)
        append_name(process, &line, &len, frames[i - 1].pc - (i > 1), frames[i - 1].module);
    if (line_count == line_room) {
        line_room = 2 * line_room + 1024;
        char **more = realloc(lines, line_room * sizeof *lines);
        if (!more)
            exit(2);
        lines = more;
    }
    if (line)
        lines[line_count++] = line;
}

static int by_text(const void *one, const void *other)
{
    return strcmp(*(char *const *)one, *(char *const *)other);
}

/* Prints each stack with the number of its samples, and what the walks ended with. */
void print_folded(struct process *process)
{
    static const char *const why[] = {"room", "no row", "unreadable", "signed"};
    if (line_count)
        qsort(lines, line_count, sizeof *lines, by_text);
    for (size_t i = 0, next; i < line_count; i = next) {
        for (next = i + 1; next < line_count && !strcmp(lines[i], lines[next]);)
            next++;
        printf("%s %zu\n", lines[i], next - i);
    }
    fprintf(stderr, "profiler: %llu samples, %llu frames; stopped by", (unsigned long long)process->samples,
            (unsigned long long)process->frames);
    for (int i = 0; i < 4; i++)
        fprintf(stderr, "%s %s %llu", i ? "," : "", why[i], (unsigned long long)process->stops[i]);
    fprintf(stderr, "; %llu went on without their frame pointer; without a stack %llu\n", (unsigned long long)process->without_fp,
            (unsigned long long)process->without_stack);
}
