/*
 * What the program calls of its host beside the C library: the heap, the words of its command line, and the error number.
 * The toolchain has these functions in two archives. They are written again here, for a program that is built from its
 * LLVM module. Nothing of this is proved.
 */
#include <errno.h>
#include <stdbool.h>
#include <stddef.h>
#include <stdint.h>
#include <stdlib.h>
#include <string.h>

/* Whether there is memory, and where it is. If there is none, `at` is the address of a byte to which nobody writes. */
struct tried {
    bool ok;
    uint8_t *at;
};

static uint8_t nothing;
static size_t count;
static char **words;

static struct tried tried(uint8_t *at)
{
    return at ? (struct tried){true, at} : (struct tried){false, &nothing};
}

/* The heap's blocks are aligned to 16 bytes, and `align` divides 16. A block of no bytes gets an address of its own. */
struct tried rattle_alloc(size_t len, size_t align)
{
    return tried(malloc(len ? len : align));
}

/* The first `kept` bytes of the block stay as they are. */
struct tried rattle_realloc(uint8_t *at, size_t kept, size_t len, size_t align)
{
    (void)kept;
    return tried(realloc(at, len ? len : align));
}

void rattle_dealloc(uint8_t *at)
{
    free(at);
}

/* glibc calls this before main, with the arguments of main. */
__attribute__((constructor)) static void keep(int argc, char **argv)
{
    count = (size_t)argc;
    words = argv;
}

/* Copies a word. Returns its length, -1 if there is no such word, or -2 if the room is full and the word goes on. */
ptrdiff_t rattle_arg(size_t number, uint8_t *to, size_t room)
{
    if (number >= count)
        return -1;
    size_t len = strlen(words[number]);
    memcpy(to, words[number], len < room ? len : room);
    return len <= room ? (ptrdiff_t)len : -2;
}

int rattle_errno(void)
{
    return errno;
}

void rattle_set_errno(int error)
{
    errno = error;
}
