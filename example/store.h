/*
 * Finds the table of a loaded file in a store, by the file's build identifier: STORE/xx/yyyy.sframe, as
 * `kiblawen-add --into-store STORE FILE ..` writes it. A table in a store is for the first page after the file's last loaded
 * byte, counted from its load address.
 */
#ifndef STORE_H
#define STORE_H

#include <elf.h>
#include <stdio.h>
#include <stdlib.h>
#include <string.h>

#include "kiblawen.h"

enum { STORE_PAGE = 4096, STORE_NAME = 4096 };

/* Returns the first page at or after an address. */
static uint64_t page_at_or_after(uint64_t address)
{
    return (address + STORE_PAGE - 1) / STORE_PAGE * STORE_PAGE;
}

/* Returns how many bytes a file takes in memory, in whole pages, by its program headers. */
static uint64_t size_in_memory(const Elf64_Phdr *headers, size_t count)
{
    uint64_t end = 0;
    for (size_t i = 0; i < count; i++)
        if (headers[i].p_type == PT_LOAD && headers[i].p_vaddr + headers[i].p_memsz > end)
            end = headers[i].p_vaddr + headers[i].p_memsz;
    return page_at_or_after(end);
}

/* Writes the name of a table, by the build identifier in a file's notes. Returns whether there is one. */
static int name_table(char name[STORE_NAME], const char *store, const uint8_t *notes, size_t len)
{
    for (size_t at = 0; at + sizeof(Elf64_Nhdr) <= len;) {
        Elf64_Nhdr note;
        memcpy(&note, notes + at, sizeof note);
        size_t named = at + sizeof note, content = named + (note.n_namesz + 3) / 4 * 4;
        if (content > len || note.n_descsz > len - content)
            return 0;
        if (note.n_type == NT_GNU_BUILD_ID && note.n_namesz == 4 && !memcmp(notes + named, "GNU", 4) && note.n_descsz > 1) {
            int used = snprintf(name, STORE_NAME, "%s/%02x/", store, notes[content]);
            for (size_t i = 1; i < note.n_descsz && used < STORE_NAME; i++)
                used += snprintf(name + used, STORE_NAME - (size_t)used, "%02x", notes[content + i]);
            return used + snprintf(name + used, used < STORE_NAME ? STORE_NAME - (size_t)used : 0, ".sframe") < STORE_NAME;
        }
        at = content + (note.n_descsz + 3) / 4 * 4;
    }
    return 0;
}

/* Opens the table of this name for an address. Its bytes are kept for good. Returns whether the section is open. */
static int open_table(struct kiblawen_section *section, const char *name, uint64_t at)
{
    FILE *file = fopen(name, "rb");
    uint8_t *bytes = NULL;
    uint64_t place;
    long len = file && !fseek(file, 0, SEEK_END) ? ftell(file) : -1;
    if (len > 0 && !fseek(file, 0, SEEK_SET))
        bytes = malloc((size_t)len);
    int is_read = bytes && fread(bytes, 1, (size_t)len, file) == (size_t)len;
    if (file)
        fclose(file);
    if (is_read && kiblawen_open(section, bytes, (size_t)len, at, &place) == KIBLAWEN_OK)
        return 1;
    free(bytes);
    return 0;
}

#endif
