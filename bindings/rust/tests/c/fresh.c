/*
 * The calls with memory that nobody has written to: all that is lent to a call comes anew from malloc, and what the call
 * has written is looked at afterwards. Run by valgrind, a value that is read before it is written is an error.
 */
#include <pirwodd.h>

#include <stdio.h>
#include <stdlib.h>

static uint8_t pack[8193];
static size_t pack_length;

/* What is lent to one call, and how many calls there were. */
static uint8_t *work, *result;
static uint64_t *report;
static unsigned calls;

/* A sum of all that was looked at: where it has a part that was never written, so it is. */
static uint64_t seen;

static void *fresh(size_t length) {
    void *memory = malloc(length);
    if (memory == NULL) {
        exit(2);
    }
    return memory;
}

static void lend(void) {
    work = fresh(PIRWODD_WORK);
    result = fresh(PIRWODD_CHART);
    report = fresh(PIRWODD_REPORT * sizeof *report);
}

/* Takes what was lent back; after an answer, and after 10 to 13, the work buffer is 0. */
static uint32_t over(uint32_t number) {
    size_t i;
    calls += 1;
    if (number == PIRWODD_ANSWERED || (number >= PIRWODD_CONDITION && number <= PIRWODD_NO_ENDING)) {
        for (i = 0; i < PIRWODD_WORK; i += 1) {
            if (work[i] != 0) {
                printf("the work buffer has %u at %u\n", (unsigned)work[i], (unsigned)i);
                exit(1);
            }
        }
    }
    seen += report[0];
    free(work);
    free(result);
    free(report);
    return number;
}

/* The chart of the start, and its length. */
static uint8_t chart[PIRWODD_CHART];
static size_t chart_length;

static void begin(void) {
    size_t i;
    uint32_t number;
    lend();
    number = pirwodd_start(pack, pack_length, result, PIRWODD_CHART, work, PIRWODD_WORK, report, PIRWODD_REPORT);
    if (number != PIRWODD_ANSWERED) {
        exit(2);
    }
    chart_length = (size_t)report[0];
    for (i = 0; i < chart_length; i += 1) {
        chart[i] = result[i];
    }
    over(number);
}

static uint32_t step(uint64_t action) {
    size_t i;
    uint32_t number;
    lend();
    number = pirwodd_step(pack, pack_length, chart, chart_length, action, result, PIRWODD_CHART, work, PIRWODD_WORK, report,
                          PIRWODD_REPORT);
    for (i = 0; number == PIRWODD_ANSWERED && i < report[0]; i += 1) {
        seen += result[i];
    }
    return over(number);
}

static uint32_t explained(uint64_t character, uint64_t action) {
    lend();
    return over(pirwodd_explained(pack, pack_length, chart, chart_length, character, action, 3, 2, work, PIRWODD_WORK, report,
                                  PIRWODD_REPORT));
}

static void others(void) {
    static const uint8_t chain[] = {0};
    lend();
    over(pirwodd_query(pack, pack_length, chart, chart_length, chain, 1, 0, work, PIRWODD_WORK, report, PIRWODD_REPORT));
    lend();
    over(pirwodd_compare(pack, pack_length, chart, chart_length, chart, chart_length, result, PIRWODD_CHAIN, work, PIRWODD_WORK,
                         report, PIRWODD_REPORT));
    lend();
    over(pirwodd_search(pack, pack_length, 4, 3, 2, result, PIRWODD_LIST, work, PIRWODD_WORK, report, PIRWODD_REPORT));
}

/* Every action of the pack, and for every character. */
int main(int count, char **words) {
    uint64_t action, character;
    FILE *file = count == 2 ? fopen(words[1], "rb") : NULL;
    if (file == NULL) {
        return 2;
    }
    pack_length = fread(pack, 1, sizeof pack, file);
    fclose(file);
    begin();
    for (action = 0; step(action) != PIRWODD_RANGE; action += 1) {
        for (character = 0; explained(character, action) != PIRWODD_RANGE; character += 1) {
        }
    }
    others();
    printf("%u calls, %llu\n", calls, (unsigned long long)seen);
    return 0;
}
