/* Names of addresses, from a file's symbol table, or else from its dynamic one. */
#include <elf.h>
#include <stdlib.h>
#include <string.h>

#include "profiler.h"

static int by_start(const void *one, const void *other)
{
    const struct symbol *a = one, *b = other;
    return (a->start > b->start) - (a->start < b->start);
}

/* Returns whether a file has these bytes. */
static bool has(size_t size, uint64_t offset, uint64_t len)
{
    return offset <= size && len <= size - offset;
}

/* Returns the section header of this type, or NULL. */
static const Elf64_Shdr *section_of(const uint8_t *bytes, size_t size, uint32_t type)
{
    const Elf64_Ehdr *header = (const Elf64_Ehdr *)bytes;
    const Elf64_Shdr *sections = (const Elf64_Shdr *)(bytes + header->e_shoff);
    if (header->e_shoff % 8 || !has(size, header->e_shoff, header->e_shnum * sizeof *sections))
        return NULL;
    for (int i = 0; i < header->e_shnum; i++) {
        const Elf64_Shdr *it = &sections[i];
        if (it->sh_type == type && it->sh_offset % 8 == 0 && has(size, it->sh_offset, it->sh_size) && it->sh_link < header->e_shnum
            && has(size, sections[it->sh_link].sh_offset, sections[it->sh_link].sh_size) && sections[it->sh_link].sh_size > 0
            && bytes[sections[it->sh_link].sh_offset + sections[it->sh_link].sh_size - 1] == 0)
            return it;
    }
    return NULL;
}

/* Takes the functions of a symbol table, and a copy of their names. */
static void take(struct symbols *symbols, const uint8_t *bytes, const Elf64_Shdr *table)
{
    const Elf64_Shdr *texts = (const Elf64_Shdr *)(bytes + ((const Elf64_Ehdr *)bytes)->e_shoff) + table->sh_link;
    const Elf64_Sym *list = (const Elf64_Sym *)(bytes + table->sh_offset);
    size_t count = table->sh_size / sizeof *list;
    symbols->list = calloc(count + 1, sizeof *symbols->list);
    symbols->names = malloc(texts->sh_size);
    if (!symbols->list || !symbols->names)
        return;
    memcpy(symbols->names, bytes + texts->sh_offset, texts->sh_size);
    for (size_t i = 0; i < count; i++) {
        int type = ELF64_ST_TYPE(list[i].st_info);
        if ((type == STT_FUNC || type == STT_GNU_IFUNC) && list[i].st_shndx != SHN_UNDEF && list[i].st_name < texts->sh_size)
            symbols->list[symbols->count++] = (struct symbol){list[i].st_value, list[i].st_size, symbols->names + list[i].st_name};
    }
    if (symbols->count)
        qsort(symbols->list, symbols->count, sizeof *symbols->list, by_start);
}

/* Reads the symbols of a file, once. A file that stayed mapped could be truncated by its owner, which ends whoever reads it. */
void read_symbols(struct symbols *symbols, const char *path)
{
    size_t size;
    uint8_t *bytes = symbols->is_read ? NULL : read_file(path, &size);
    symbols->is_read = true;
    if (!bytes)
        return;
    if (size >= sizeof(Elf64_Ehdr) && memcmp(bytes, ELFMAG "\2\1", 6) == 0) {
        const Elf64_Shdr *table = section_of(bytes, size, SHT_SYMTAB);
        if (!table)
            table = section_of(bytes, size, SHT_DYNSYM);
        if (table)
            take(symbols, bytes, table);
    }
    free(bytes);
}

/* Returns the name of the function at an address, or NULL. */
const char *symbol_at(const struct symbols *symbols, uint64_t address)
{
    size_t first = 0, last = symbols->count;
    while (first < last) {
        size_t middle = first + (last - first) / 2;
        if (symbols->list[middle].start <= address)
            first = middle + 1;
        else
            last = middle;
    }
    /* Of several names at one address, and of a function that an empty symbol follows, the one that holds the address counts. */
    for (size_t i = first; i > 0 && first - i < 8; i--)
        if (address - symbols->list[i - 1].start < symbols->list[i - 1].size)
            return symbols->list[i - 1].name;
    return NULL;
}
