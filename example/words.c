/*
 * Counts the words of a text and sorts them, a thousand times over: a program to profile. Its profile in docs/profile.svg
 * has functions that call one another, and the C library's qsort(), which keeps no frame pointers.
 *
 *   words <TEXT
 */
#include <ctype.h>
#include <stdio.h>
#include <stdlib.h>
#include <string.h>

/* Each function has its own box in a flame graph. */
#define FUNCTION static __attribute__((noinline))
enum { ROOM = 1 << 16 };
struct word { char text[24]; int count; } words[ROOM], *list[ROOM];

/* Returns the index at which a word is looked for first. */
FUNCTION unsigned hash(const char *text)
{
    unsigned sum = 0;
    while (*text)
        sum = sum * 31 + (unsigned char)*text++;
    return sum % ROOM;
}

/* Returns a word's entry, or a free one. */
FUNCTION struct word *find(const char *text)
{
    unsigned i = hash(text);
    while (words[i].count && strcmp(words[i].text, text))
        i = (i + 1) % ROOM;
    return &words[i];
}

/* Reads the next word, in small letters. Returns its length, 0 at the end. */
FUNCTION int read_word(FILE *file, char *text)
{
    int c, len = 0;
    while ((c = getc(file)) != EOF && (isalpha(c) || len == 0))
        if (isalpha(c) && len < 23)
            text[len++] = (char)tolower(c);
    text[len] = 0;
    return len;
}

FUNCTION void count_words(FILE *file)
{
    char text[24];
    memset(words, 0, sizeof words);
    for (rewind(file); read_word(file, text);) {
        struct word *word = find(text);
        strcpy(word->text, text);
        word->count++;
    }
}

FUNCTION int by_text(const void *one, const void *other)
{
    return strcmp((*(struct word *const *)one)->text, (*(struct word *const *)other)->text);
}

/* Lists the words in order. Returns how many there are. */
FUNCTION size_t sort_words(void)
{
    size_t count = 0;
    for (int i = 0; i < ROOM; i++)
        if (words[i].count > 0)
            list[count++] = &words[i];
    qsort(list, count, sizeof *list, by_text);
    return count;
}

int main(void)
{
    size_t count = 0;
    for (int round = 0; round < 1000; round++) {
        count_words(stdin);
        count = sort_words();
    }
    if (count == 0)
        return puts("no words: the text has to be a file") > 0;
    return printf("%zu words, from %s to %s\n", count, list[0]->text, list[count - 1]->text) < 0;
}
