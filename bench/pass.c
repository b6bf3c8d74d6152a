/*
 * Reads an SFrame section (Version 2, AMD64, no auxiliary header) and goes over it once, in plain C: it makes the tests
 * that a look-up makes of each function descriptor entry and each row, and fewer of the header. It finds no row.
 *
 *   pass FILE AT
 *
 * The status is 0 where each test holds, and else 1.
 */
#include <fcntl.h>
#include <stdint.h>
#include <stdio.h>
#include <stdlib.h>
#include <string.h>
#include <sys/stat.h>
#include <unistd.h>

enum { HEADER = 28, ENTRY = 20 };

static uint32_t number(const uint8_t *from, int width)
{
    uint8_t one;
    uint16_t two;
    uint32_t four;
    switch (width) {
    case 0:
        memcpy(&one, from, 1);
        return one;
    case 1:
        memcpy(&two, from, 2);
        return two;
    default:
        memcpy(&four, from, 4);
        return four;
    }
}

/* The rows of a function: each has its bytes, starts above the one before, and has as many offsets as it may. */
static int rows_hold(const uint8_t *rows, uint64_t len, uint64_t place, uint32_t count, int width)
{
    uint64_t least = 0;
    for (; count; count--) {
        uint64_t info_place = place + (1u << width);
        if (info_place + 1 > len)
            return 0;
        uint8_t info = rows[info_place];
        int offsets = info >> 1 & 15, offset_width = info >> 5 & 3;
        uint64_t end = info_place + 1 + ((uint64_t)offsets << offset_width);
        if (offset_width > 2 || offsets < 1 || offsets > 2 || end > len || info & 0x80)
            return 0;
        uint64_t start = number(rows + place, width);
        if (start < least)
            return 0;
        least = start + 1;
        place = end;
    }
    return 1;
}

static int section_holds(const uint8_t *bytes, uint64_t len, uint64_t at)
{
    if (len < HEADER || number(bytes, 1) != 0xdee2 || bytes[2] != 2 || bytes[3] > 7 || bytes[4] != 3 || bytes[7])
        return 0;
    uint32_t count = number(bytes + 8, 2), rows_len = number(bytes + 16, 2);
    uint64_t functions = HEADER + (uint64_t)number(bytes + 20, 2), rows = HEADER + (uint64_t)number(bytes + 24, 2);
    if (functions + (uint64_t)count * ENTRY > len || rows + rows_len > len)
        return 0;
    uint64_t sum = 0;
    __int128 end_before = 0;
    for (uint32_t i = 0; i < count; i++) {
        uint64_t place = functions + (uint64_t)i * ENTRY;
        const uint8_t *entry = bytes + place;
        uint8_t info = entry[16];
        uint32_t size = number(entry + 4, 2);
        __int128 start = (__int128)at + (bytes[3] & 4 ? place : 0) + (int32_t)number(entry, 2), end = start + size;
        if ((info & 15) > 2 || info & 0xe0 || (info & 16 && !entry[17]) || start < 0 || end > (__int128)1 << 64)
            return 0;
        if (bytes[3] & 1 && start < end_before)
            return 0;
        end_before = end;
        uint32_t rows_count = number(entry + 12, 2);
        if (!rows_hold(bytes + rows, rows_len, number(entry + 8, 2), rows_count, info & 15))
            return 0;
        sum += rows_count;
    }
    return sum == number(bytes + 12, 2);
}

int main(int argc, char **argv)
{
    struct stat it;
    if (argc != 3)
        return 1;
    int file = open(argv[1], O_RDONLY);
    if (file < 0 || fstat(file, &it))
        return 1;
    uint64_t len = (uint64_t)it.st_size, got = 0;
    uint8_t *bytes = malloc(len + 1);
    while (bytes && got < len) {
        ssize_t more = read(file, bytes + got, len - got);
        if (more <= 0)
            return 1;
        got += (uint64_t)more;
    }
    return !(bytes && section_holds(bytes, len, strtoull(argv[2], 0, 16)));
}
