/*
 * The story of examples/letter.story, told by the calls: how it begins, what Ada's action leaves, who knows of it, who has a
 * reason for what, and the shortest ending.
 *
 *     cc -Iinclude examples/c/letter.c target/staticlib/libpirwodd.a -o letter && ./letter examples/letter.pack
 *
 * examples/c/letter.txt is what it prints.
 */
#include <pirwodd.h>

#include <stdio.h>
#include <stdlib.h>

/* The story's names, in the order of its numbers. */
enum { ADA, COUSIN };
enum { LETTER };
static const char *const actions[] = {
    "Ada moves the letter to the drawer",
    "the cousin comes home",
    "the cousin breaks the desk open",
    "the cousin takes the letter from the desk",
};
static const char *const places[] = {"in the desk", "in the drawer", "with the cousin"};

/* A name by its number; another pack may have more. */
#define NAME(names, number) ((number) < sizeof names / sizeof *names ? names[number] : "something else")

/* What the calls are lent, kept from one to the next. */
static uint8_t pack[8193], work[PIRWODD_WORK];
static size_t pack_length;
static uint64_t report[PIRWODD_REPORT];

struct chart {
    uint8_t bytes[PIRWODD_CHART];
    size_t length;
};

/* Ends the program where a call gives no answer. */
static void must(uint32_t number) {
    if (number != PIRWODD_ANSWERED) {
        printf("refused %u at %llu\n", (unsigned)number, (unsigned long long)report[0]);
        exit(1);
    }
}

static struct chart start(void) {
    struct chart chart;
    must(pirwodd_start(pack, pack_length, chart.bytes, sizeof chart.bytes, work, sizeof work, report, PIRWODD_REPORT));
    chart.length = (size_t)report[0];
    return chart;
}

static struct chart step(const struct chart *from, uint64_t action) {
    struct chart left;
    must(pirwodd_step(pack, pack_length, from->bytes, from->length, action, left.bytes, sizeof left.bytes, work, sizeof work,
                      report, PIRWODD_REPORT));
    left.length = (size_t)report[0];
    return left;
}

/* Where the letter is, by a chain of beliefs. */
static const char *letter(const struct chart *chart, const uint8_t *chain, size_t length) {
    must(pirwodd_query(pack, pack_length, chart->bytes, chart->length, chain, length, LETTER, work, sizeof work, report,
                       PIRWODD_REPORT));
    return NAME(places, report[0]);
}

static void tell_letter(const struct chart *chart) {
    const uint8_t cousin[] = {COUSIN}, ada_of_cousin[] = {ADA, COUSIN};
    printf("  The letter is %s.\n", letter(chart, cousin, 0));
    printf("  The cousin believes it %s.\n", letter(chart, cousin, 1));
    printf("  Ada believes that the cousin believes it %s.\n", letter(chart, ada_of_cousin, 2));
}

static void tell_reason(const struct chart *chart, const char *name, uint64_t character, uint64_t action) {
    must(pirwodd_explained(pack, pack_length, chart->bytes, chart->length, character, action, 3, 2, work, sizeof work, report,
                           PIRWODD_REPORT));
    printf("  %s has %s reason for: %s.\n", name, report[0] == 1 ? "a" : "no", NAME(actions, action));
}

static void tell_ending(void) {
    uint8_t list[PIRWODD_LIST];
    uint64_t i;
    uint32_t number = pirwodd_search(pack, pack_length, 4, 3, 2, list, sizeof list, work, sizeof work, report, PIRWODD_REPORT);
    if (number == PIRWODD_NO_ENDING) {
        printf("There is no ending of up to 4 actions.\n");
        return;
    }
    must(number);
    printf("The shortest ending:\n");
    for (i = 0; i < report[0]; i++) {
        printf("  %u. %s\n", (unsigned)i + 1, NAME(actions, list[i]));
    }
    printf("  The author goes from %u to %u.\n", (unsigned)report[1], (unsigned)report[2]);
}

int main(int count, char **words) {
    struct chart before, after;
    FILE *file = count == 2 ? fopen(words[1], "rb") : NULL;
    if (file == NULL) {
        fprintf(stderr, "letter FILE: the pack of examples/letter.story\n");
        return 2;
    }
    pack_length = fread(pack, 1, sizeof pack, file);
    fclose(file);

    before = start();
    printf("At the start:\n");
    tell_letter(&before);
    tell_reason(&before, "Ada", ADA, 0);
    tell_reason(&before, "The cousin", COUSIN, 1);
    tell_reason(&before, "The cousin", COUSIN, 0);

    after = step(&before, 0);
    printf("After this: %s.\n", actions[0]);
    tell_letter(&after);
    tell_reason(&after, "The cousin", COUSIN, 1);

    tell_ending();
    return 0;
}
