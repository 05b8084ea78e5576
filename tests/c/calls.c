/* Calls every function of the library. `calls tables`, `calls scripts` and `calls fillings` read the stored tests from the standard input and print the answers
 * in the lines of `replay_tables`, `trace` and `trace_fill`, but for the propositions; `calls short` lends rooms that are too short. After each call every byte
 * of every room is looked at that is not part of a tree, of goals, of propositions or of an edited table. */
#include <stdio.h>
#include <stdlib.h>
#include <string.h>

#include "sporekettle.h"

#define DIRT 0xa5 /* in all rooms before a call */
#define SPARE 40  /* bytes behind each room's listed size, lent with it */

enum { TREE, GOALS, PROPOSITIONS, WORK, EDITED, ROOMS };

static const size_t listed[ROOMS] = {SPOREKETTLE_TREE, SPOREKETTLE_GOALS, SPOREKETTLE_PROPOSITIONS, SPOREKETTLE_WORK, SPOREKETTLE_EDITED};
static uint8_t room[ROOMS][SPOREKETTLE_WORK + SPARE];
static size_t lent[ROOMS]; /* the length that a call gets */
static uint8_t answer[SPOREKETTLE_ANSWER + SPARE];

struct table {
    uint8_t *bytes;
    size_t length;
};

static void fail(const char *what)
{
    fflush(stdout);
    fprintf(stderr, "calls: %s\n", what);
    exit(1);
}

static unsigned word(const uint8_t *at)
{
    return at[0] + 256u * at[1];
}

static void soil(void)
{
    memset(room, DIRT, sizeof room);
    memset(answer, DIRT, sizeof answer);
    for (int i = 0; i < ROOMS; i++)
        lent[i] = listed[i] + SPARE;
}

static void all(const uint8_t *bytes, size_t from, size_t to, int value, const char *what)
{
    for (size_t i = from; i < to; i++)
        if (bytes[i] != value)
            fail(what);
}

/* Zeros behind the used bytes, up to the room's size or its end; then nothing was written. */
static void look(int i, size_t used, size_t size)
{
    size_t end = lent[i] < size ? lent[i] : size;
    all(room[i], used, end, 0, "a room's rest is not zeros");
    all(room[i], end, sizeof room[i], DIRT, "bytes behind a room were written");
}

static void look_at_answer(uint32_t returned)
{
    if (returned != SPOREKETTLE_ANSWERED)
        fail("a call returned that its answer has no room");
    all(answer, SPOREKETTLE_ANSWER, sizeof answer, DIRT, "bytes behind the answer were written");
    all(answer, 6, 8, 0, "the answer's bytes 6 and 7 are not 0");
    if (answer[0] == SPOREKETTLE_ACCEPTED)
        all(answer, 1, 8, 0, "an acceptance has a number, a place or a table");
    else if (answer[0] == SPOREKETTLE_REFUSED)
        all(answer, 8, SPOREKETTLE_ANSWER, 0, "a refusal has counts");
    else
        fail("an answer is neither an acceptance nor a refusal");
}

static uint32_t check(struct table t, size_t answer_length)
{
    return sporekettle_check(t.bytes, t.length, room[TREE], lent[TREE], room[GOALS], lent[GOALS], room[PROPOSITIONS], lent[PROPOSITIONS],
                             room[WORK], lent[WORK], answer, answer_length);
}

static uint32_t fill(struct table old, uint16_t goal, struct table filling, size_t answer_length)
{
    return sporekettle_fill(old.bytes, old.length, goal, filling.bytes, filling.length, room[TREE], lent[TREE], room[GOALS], lent[GOALS],
                            room[PROPOSITIONS], lent[PROPOSITIONS], room[WORK], lent[WORK], room[EDITED], lent[EDITED], answer, answer_length);
}

static uint32_t test(struct table t, int filling, size_t answer_length)
{
    return (filling ? sporekettle_test_filling : sporekettle_test_table)(t.bytes, t.length, room[WORK], lent[WORK], answer, answer_length);
}

/* The four rooms of a check of table t, which was answered. */
static void look_at_rooms(const uint8_t *t)
{
    int accepted = answer[0] == SPOREKETTLE_ACCEPTED;
    look(TREE, SPOREKETTLE_TREE_RECORD * word(answer + 8), listed[TREE]);
    look(GOALS, SPOREKETTLE_GOAL_RECORD * word(answer + 10), listed[GOALS]);
    look(PROPOSITIONS, accepted ? 16 * (word(t + 6) + word(answer + 14)) : 0, listed[PROPOSITIONS]);
    look(WORK, 0, listed[WORK]);
}

static void look_at_edited(void)
{
    const uint8_t *e = room[EDITED];
    look(EDITED, answer[0] == SPOREKETTLE_ACCEPTED ? 16 + 16 * (word(e + 6) + word(e + 8)) : 0, listed[EDITED]);
}

static void print_serial(unsigned serial)
{
    if (serial == SPOREKETTLE_NO_SERIAL)
        printf(" -");
    else
        printf(" %u", serial);
}

static void print_acceptance(void)
{
    printf("accepted %u %u\n", word(answer + 8), word(answer + 10));
    for (unsigned i = 0; i < word(answer + 8); i++) {
        const uint8_t *r = room[TREE] + SPOREKETTLE_TREE_RECORD * i;
        printf("%u %u", r[0], word(r + 2));
        print_serial(word(r + 6));
        print_serial(word(r + 8));
        printf(" %u\n", word(r + 10));
    }
    for (unsigned i = 0; i < word(answer + 10); i++) {
        const uint8_t *g = room[GOALS] + SPOREKETTLE_GOAL_RECORD * i;
        printf("goal %u %u\n", word(g), word(g + 4));
    }
    printf("counts serials %u made %u\n", word(answer + 12), word(answer + 14));
}

static void print_answer(const char *passes)
{
    if (answer[0] == SPOREKETTLE_REFUSED)
        printf("refused %u %u\n", answer[1], word(answer + 2));
    else if (passes)
        printf("%s\n", passes);
    else
        print_acceptance();
}

/* 32 bits, low byte first; 0 at the input's end. */
static size_t next_word(void)
{
    uint8_t four[4] = {0};
    if (fread(four, 1, sizeof four, stdin) < sizeof four)
        return 0;
    return word(four) + 65536u * word(four + 2);
}

static struct table next_table(size_t length)
{
    struct table t = {malloc(length + 1), length};
    if (!t.bytes || fread(t.bytes, 1, length, stdin) < length)
        fail("a stored table cannot be read");
    return t;
}

static void next_test(void)
{
    size_t length = next_word();
    int filling = getchar();
    struct table t = next_table(length);
    soil();
    look_at_answer(test(t, filling, sizeof answer));
    look(WORK, 0, SPOREKETTLE_TEST_WORK);
    print_answer("passes");
    free(t.bytes);
}

static void tables(void)
{
    for (size_t left = next_word(); left; left--)
        next_test();
}

static void scripts(void)
{
    size_t length;
    for (unsigned n = 0; (length = next_word()); n++) {
        struct table t = next_table(length);
        soil();
        look_at_answer(check(t, sizeof answer));
        look_at_rooms(t.bytes);
        printf("table %u\n", n);
        print_answer(NULL);
        printf("\n");
        free(t.bytes);
    }
}

static void fillings(void)
{
    static const char *const name[] = {"old", "filling", "edited"};
    size_t length;
    for (unsigned n = 0; (length = next_word()); n++) {
        struct table old = next_table(length);
        size_t goal = next_word();
        struct table filling = next_table(next_word());
        soil();
        look_at_answer(fill(old, goal < 65535 ? goal : 65535, filling, sizeof answer));
        look_at_rooms(room[EDITED]);
        look_at_edited();
        printf("table %u\n", n);
        print_answer(NULL);
        if (answer[0] == SPOREKETTLE_REFUSED)
            printf("where %s\n", name[word(answer + 4)]);
        printf("\n");
        free(old.bytes);
        free(filling.bytes);
    }
}

static void refused_1(uint32_t returned)
{
    look_at_answer(returned);
    if (answer[0] != SPOREKETTLE_REFUSED || answer[1] != 1 || word(answer + 2) != 0 || word(answer + 4) != 0)
        fail("a short room is not refusal 1");
}

/* Each room a byte too short, and of no length at all. */
static void short_room(struct table t, int i, size_t length)
{
    if (i < EDITED) {
        soil();
        lent[i] = length;
        refused_1(check(t, sizeof answer));
        look_at_rooms(t.bytes);
    }
    soil();
    lent[i] = length;
    refused_1(fill(t, 0, t, sizeof answer));
    look_at_rooms(room[EDITED]);
    look_at_edited();
}

static void nothing_done(uint32_t returned)
{
    if (returned != SPOREKETTLE_NO_ROOM)
        fail("a short answer room is not told");
    all(answer, 0, sizeof answer, DIRT, "a short answer room was written");
    for (int i = 0; i < ROOMS; i++)
        all(room[i], 0, sizeof room[i], DIRT, "a room was written, though there was no room for the answer");
}

static void short_answer(struct table t, size_t length)
{
    soil();
    nothing_done(check(t, length));
    nothing_done(fill(t, 0, t, length));
    nothing_done(test(t, 0, length));
    nothing_done(test(t, 1, length));
}

static void short_test(struct table t, int filling, size_t length)
{
    soil();
    lent[WORK] = length;
    refused_1(test(t, filling, sizeof answer));
    look(WORK, 0, SPOREKETTLE_TEST_WORK);
}

static void short_rooms(void)
{
    struct table t = next_table(next_word());
    for (int i = 0; i < ROOMS; i++) {
        short_room(t, i, listed[i] - 1);
        short_room(t, i, 0);
    }
    for (int filling = 0; filling < 2; filling++) {
        short_test(t, filling, SPOREKETTLE_TEST_WORK - 1);
        short_test(t, filling, 0);
    }
    for (size_t length = 0; length < SPOREKETTLE_ANSWER; length++)
        short_answer(t, length);
    soil();
    look_at_answer(check(t, SPOREKETTLE_ANSWER));
    free(t.bytes);
}

int main(int argc, char **argv)
{
    const char *what = argc == 2 ? argv[1] : "";
    if (!strcmp(what, "tables"))
        tables();
    else if (!strcmp(what, "scripts"))
        scripts();
    else if (!strcmp(what, "fillings"))
        fillings();
    else if (!strcmp(what, "short"))
        short_rooms();
    else
        fail("usage: calls tables|scripts|fillings|short");
    return 0;
}
