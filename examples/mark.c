/* mark FILE: the mark of a proof table from C, in the lines that the program `mark` prints.
 *
 *     tools/library
 *     cc -I include examples/mark.c crates/export/out/libexport.a -o mark */
#include <stdio.h>

#include "sporekettle.h"

/* Longer than any table that passes; a longer file is refused for its length all the same. */
static uint8_t table[65536];
static uint8_t tree[SPOREKETTLE_TREE];
static uint8_t goals[SPOREKETTLE_GOALS];
static uint8_t propositions[SPOREKETTLE_PROPOSITIONS];
static uint8_t work[SPOREKETTLE_WORK];
static uint8_t answer[SPOREKETTLE_ANSWER];

static unsigned word(const uint8_t *at)
{
    return at[0] + 256u * at[1];
}

static void print_serial(unsigned serial)
{
    if (serial == SPOREKETTLE_NO_SERIAL)
        printf(" -");
    else
        printf(" %u", serial);
}

/* Rule, term, both serials, premises. */
static void print_record(const uint8_t *record)
{
    printf("%u %u", record[0], word(record + 2));
    print_serial(word(record + 6));
    print_serial(word(record + 8));
    printf(" %u\n", word(record + 10));
}

static void print_acceptance(void)
{
    unsigned records = word(answer + 8), count = word(answer + 10);
    printf("accepted %u %u\n", records, count);
    for (unsigned i = 0; i < records; i++)
        print_record(tree + SPOREKETTLE_TREE_RECORD * i);
    for (unsigned i = 0; i < count; i++) {
        const uint8_t *goal = goals + SPOREKETTLE_GOAL_RECORD * i;
        printf("goal %u %u\n", word(goal), word(goal + 4));
    }
}

int main(int argc, char **argv)
{
    if (argc != 2) {
        fprintf(stderr, "usage: mark FILE\n");
        return 2;
    }
    FILE *file = fopen(argv[1], "rb");
    if (!file) {
        perror(argv[1]);
        return 2;
    }
    size_t length = fread(table, 1, sizeof table, file);
    int failed = ferror(file);
    fclose(file);
    if (failed) {
        fprintf(stderr, "%s: cannot be read\n", argv[1]);
        return 2;
    }
    sporekettle_check(table, length, tree, sizeof tree, goals, sizeof goals, propositions, sizeof propositions, work, sizeof work, answer, sizeof answer);
    if (answer[0] == SPOREKETTLE_ACCEPTED)
        print_acceptance();
    else
        printf("refused %u %u\n", answer[1], word(answer + 2));
    return 0;
}
