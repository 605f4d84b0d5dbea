/* Counts the words of standard input, and prints them in the order of their letters. */
#include <ctype.h>
#include <stdio.h>
#include <stdlib.h>
#include <string.h>

#include "../region.h"

#define STACK 512

struct word {
    char *text;
    int count;
};
static struct word *words;
static int length, room;

static void *some(void *memory) {
    if (memory) return memory;
    fprintf(stderr, "no memory\n");
    exit(1);
}

static void add(const char *text) {
    for (int at = 0; at < length; at++)
        if (strcmp(words[at].text, text) == 0) {
            words[at].count++;
            return;
        }
    if (length == room) {
        room = 2 * room + 8;
        words = some(realloc(words, room * sizeof *words));
    }
    words[length].text = strcpy(some(malloc(strlen(text) + 1)), text);
    words[length++].count = 1;
}

/* The original: a sort by selection. Each version answers something, so that a0 has one value. */
static int by_selection(struct word *list, int size) {
    for (int from = 0; from < size; from++)
        for (int at = from + 1; at < size; at++)
            if (strcmp(list[at].text, list[from].text) < 0) {
                struct word least = list[at];
                list[at] = list[from];
                list[from] = least;
            }
    return size;
}

/* The fast version: the library's sort. No two words are the same, so there is one order. */
static int order(const void *a, const void *b) { return strcmp(((struct word *)a)->text, ((struct word *)b)->text); }
static int by_library(struct word *list, int size) {
    qsort(list, size, sizeof *list, order);
    return size;
}

REGION(sort, by_selection, by_library, STACK);

/* Wrong: the order is right, but what `malloc` and `free` keep differs afterwards. */
static int by_copy(struct word *list, int size) {
    struct word *copy = some(malloc(size * sizeof *copy));
    memcpy(copy, list, size * sizeof *copy);
    by_library(copy, size);
    memcpy(list, copy, size * sizeof *copy);
    free(copy);
    return size;
}
REGION(sort_copy, by_selection, by_copy, STACK);

int main(void) {
    char line[200];
    while (fgets(line, sizeof line, stdin))
        for (char *text = strtok(line, " .,\n"); text; text = strtok(NULL, " .,\n")) {
            for (char *letter = text; *letter; letter++) *letter = tolower((unsigned char)*letter);
            add(text);
        }
    sort_copy(words, length);
    sort(words, length);
    for (int at = 0; at < length; at++) printf("%4d %s\n", words[at].count, words[at].text);
    printf("%d words\n", length);
    return 0;
}
