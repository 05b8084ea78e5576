/* stack TABLE FILLING: how deep a stack the library needs. Both calls run on a stack of their own, painted beforehand: a check of the table, and the filling of its
 * goal 0. The depth is what was painted over. Prints the answers and the depths. The status is 1 where a depth is above the header's number, or
 * where the script is not such a one: not accepted, or not deep. */
#include <pthread.h>
#include <stdio.h>
#include <stdlib.h>
#include <string.h>

#include "sporekettle.h"

#define PAINT 0x5a
#define STACK (1 << 20)
#define DEEP (1 << 14)

static uint8_t stack[STACK] __attribute__((aligned(4096)));
static uint8_t table[65536], filling[65536];
static size_t table_length, filling_length;
static uint8_t tree[SPOREKETTLE_TREE], goals[SPOREKETTLE_GOALS], propositions[SPOREKETTLE_PROPOSITIONS], work[SPOREKETTLE_WORK];
static uint8_t edited[SPOREKETTLE_EDITED], answer[SPOREKETTLE_ANSWER];

static void *nothing(void *given)
{
    return given;
}

static void *check(void *given)
{
    sporekettle_check(table, table_length, tree, sizeof tree, goals, sizeof goals, propositions, sizeof propositions, work, sizeof work, answer, sizeof answer);
    return given;
}

static void *fill(void *given)
{
    sporekettle_fill(table, table_length, 0, filling, filling_length, tree, sizeof tree, goals, sizeof goals, propositions, sizeof propositions,
                     work, sizeof work, edited, sizeof edited, answer, sizeof answer);
    return given;
}

/* The depth of the stack on which a thread did this. */
static size_t depth(void *(*what)(void *))
{
    pthread_attr_t attributes;
    pthread_t thread;
    size_t untouched = 0;
    memset(stack, PAINT, sizeof stack);
    if (pthread_attr_init(&attributes) || pthread_attr_setstack(&attributes, stack, sizeof stack) || pthread_create(&thread, &attributes, what, NULL) ||
        pthread_join(thread, NULL)) {
        fprintf(stderr, "stack: no thread\n");
        exit(2);
    }
    while (untouched < sizeof stack && stack[untouched] == PAINT)
        untouched++;
    return sizeof stack - untouched;
}

/* A call's depth, without what a thread needs that does nothing. */
static int tell(const char *name, void *(*what)(void *))
{
    size_t deep = depth(what) - depth(nothing);
    if (answer[0] == SPOREKETTLE_ACCEPTED)
        printf("%s: accepted", name);
    else
        printf("%s: refused %u", name, answer[1]);
    printf(", %zu bytes of stack\n", deep);
    return answer[0] != SPOREKETTLE_ACCEPTED || deep < DEEP || deep > SPOREKETTLE_STACK;
}

static size_t read_file(const char *path, uint8_t *bytes, size_t size)
{
    FILE *file = fopen(path, "rb");
    size_t length = 0;
    if (!file || (length = fread(bytes, 1, size, file), ferror(file))) {
        perror(path);
        exit(2);
    }
    fclose(file);
    return length;
}

int main(int argc, char **argv)
{
    int above;
    if (argc != 3) {
        fprintf(stderr, "usage: stack TABLE FILLING\n");
        return 2;
    }
    table_length = read_file(argv[1], table, sizeof table);
    filling_length = read_file(argv[2], filling, sizeof filling);
    above = tell("check", check);
    return tell("fill", fill) | above;
}
