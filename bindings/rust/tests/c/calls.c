/*
 * The calls from C: every row and reading of document 01 that is theirs, short buffers, the stories of examples/, and after every
 * call what all that was lent holds. The one argument is the folder examples/. Prints what fails and, as the last line,
 * `N checks, F failed`.
 */
#include <pirwodd.h>

#include <stdio.h>
#include <string.h>

static unsigned checks, failures;

#define CHECK(what) check((what) != 0, #what, __LINE__)

static void check(int holds, const char *what, int line) {
    checks++;
    if (!holds) {
        failures++;
        printf("line %d: not so: %s\n", line, what);
    }
}

/* The pack P of document 01, with room to change it. */
static const uint8_t P[42] = {1, 2, 1, 3, 1, 0, 1, 1, 1, 1, 1, 0, 0, 0, 0, 1, 0, 0, 1, 1, 0,
                              1, 0, 0, 0, 1, 1, 1, 0, 0, 0, 1, 5, 1, 1, 1, 0, 0, 0, 1, 5, 0};
static const uint8_t BEGUN[4] = {1, 0, 1, 1}, KNOWN[4] = {1, 1, 1, 1}, LIT[7] = {2, 1, 1, 2, 0, 2, 2};

/* The buffers that are written, each between margins. They are filled anew before each call and judged after it. */
enum { MARGIN = 16, LONGER = 32 };
static uint8_t result_room[MARGIN + PIRWODD_CHART + LONGER + MARGIN], *const result = result_room + MARGIN;
static uint8_t work_room[MARGIN + PIRWODD_WORK + LONGER + MARGIN], *const work = work_room + MARGIN;
static uint64_t report_room[2 + PIRWODD_REPORT + 2], *const report = report_room + 2;

static uint8_t noise(size_t i) { return (uint8_t)(i * 14 + 1) | 1; }

static void fill(void) {
    size_t i;
    for (i = 0; i < sizeof result_room; i++) result_room[i] = noise(i);
    for (i = 0; i < sizeof work_room; i++) work_room[i] = noise(i);
    for (i = 0; i < 2 + PIRWODD_REPORT + 2; i++) report_room[i] = 1000 + i;
}

/* Whether the bytes outside from .. to are as they were filled, and those within are 0 if `cleared`. */
static int kept(const uint8_t *room, size_t length, size_t from, size_t to, int cleared) {
    size_t i;
    for (i = 0; i < length; i++) {
        int within = from <= i && i < to;
        if (within ? cleared && room[i] != 0 : room[i] != noise(i)) return 0;
    }
    return 1;
}

/* Whether, after a call that handed back `number`, exactly so many bytes of the result and entries of the report are written. */
static int left(uint32_t number, size_t filled, size_t told) {
    size_t i, cleared = number == 0 || (number >= 10 && number <= 13) ? PIRWODD_WORK : 0;
    for (i = 0; i < 2 + PIRWODD_REPORT + 2; i++) {
        if ((i < 2 || i >= 2 + told) && report_room[i] != 1000 + i) return 0;
    }
    return kept(result_room, sizeof result_room, MARGIN, MARGIN + filled, 0) &&
           kept(work_room, sizeof work_room, MARGIN, MARGIN + cleared, 1);
}

/* Lengths that are lent, as they are needed; a test makes one of them shorter and back. */
static size_t work_length = PIRWODD_WORK, report_length = PIRWODD_REPORT;
static size_t chart_length = PIRWODD_CHART, chain_length = PIRWODD_CHAIN, list_length = PIRWODD_LIST;

#define WORK work, work_length, report, report_length

static uint32_t start(const uint8_t *pack, size_t length) {
    fill();
    return pirwodd_start(pack, length, result, chart_length, WORK);
}

static uint32_t query(const uint8_t *chart, size_t length, const char *chain, uint64_t fluent) {
    uint8_t characters[100];
    size_t i, count = strlen(chain);
    for (i = 0; i < count; i++) characters[i] = (uint8_t)(chain[i] - '0');
    fill();
    return pirwodd_query(P, sizeof P, chart, length, characters, count, fluent, WORK);
}

static uint32_t compare(const uint8_t *first, size_t first_length, const uint8_t *second, size_t second_length) {
    fill();
    return pirwodd_compare(P, sizeof P, first, first_length, second, second_length, result, chain_length, WORK);
}

static uint32_t step_of(const uint8_t *pack, size_t pack_length, const uint8_t *chart, size_t length, uint64_t action) {
    fill();
    return pirwodd_step(pack, pack_length, chart, length, action, result, chart_length, WORK);
}

static uint32_t step(const uint8_t *chart, size_t length, uint64_t action) {
    return step_of(P, sizeof P, chart, length, action);
}

static uint32_t explained(uint64_t character, uint64_t action, uint64_t foresight, uint64_t nesting) {
    fill();
    return pirwodd_explained(P, sizeof P, BEGUN, sizeof BEGUN, character, action, foresight, nesting, WORK);
}

static uint32_t search(const uint8_t *pack, size_t length, uint64_t story, uint64_t foresight, uint64_t nesting) {
    fill();
    return pirwodd_search(pack, length, story, foresight, nesting, result, list_length, WORK);
}

/* Whether a call refused with the number and place, and left all as it must. */
static int refused(uint32_t number, uint32_t expected, uint64_t place) {
    return number == expected && report[0] == place && left(number, 0, 1);
}

/* Whether a call answered with just one number told. */
static int told(uint32_t number, uint64_t value) { return number == 0 && report[0] == value && left(number, 0, 1); }

/* Whether a call wrote a chart. */
static int charted(uint32_t number, const uint8_t *chart, size_t length) {
    return number == 0 && report[0] == length && memcmp(result, chart, length) == 0 && left(number, length, 1);
}

static uint8_t changed[100];

/* P, with one byte replaced by some. Gives the length. */
static size_t change(size_t at, const uint8_t *bytes, size_t count) {
    memcpy(changed, P, at);
    memcpy(changed + at, bytes, count);
    memcpy(changed + at + count, P + at + 1, sizeof P - at - 1);
    return sizeof P - 1 + count;
}

static void packs(void) {
    const uint8_t form[2] = {0x81, 0}, version[1] = {2}, absent[1] = {2}, blank[1] = {0}, two[2] = {2, 0}, more[2] = {0, 0};
    const uint8_t largest[3] = {0xff, 0xff, 3}, larger[3] = {0xff, 0xff, 4}, last[1] = {2}, none[1] = {3};
    static uint8_t too_long[8193];
    CHECK(charted(start(P, sizeof P), BEGUN, sizeof BEGUN));
    CHECK(refused(start(P, 0), PIRWODD_ENDS, 0));
    CHECK(refused(start(P, 41), PIRWODD_ENDS, 41));
    CHECK(refused(start(form, 2), PIRWODD_FORM, 0));
    CHECK(refused(start(version, 1), PIRWODD_LIMIT, 0));
    CHECK(refused(start(too_long, sizeof too_long), PIRWODD_LIMIT, 0));
    CHECK(refused(start(changed, change(6, absent, 1)), PIRWODD_ABSENT, 6));
    CHECK(refused(start(changed, change(6, blank, 1)), PIRWODD_BLANK, 6));
    CHECK(refused(start(changed, change(19, two, 2)), PIRWODD_ORDER, 21));
    CHECK(refused(start(changed, change(41, more, 2)), PIRWODD_AFTER, 42));
    CHECK(start(changed, change(32, largest, 3)) == PIRWODD_ANSWERED);
    CHECK(refused(start(changed, change(32, larger, 3)), PIRWODD_FORM, 32));
    CHECK(start(changed, change(5, last, 1)) == PIRWODD_ANSWERED);
    CHECK(refused(start(changed, change(5, none, 1)), PIRWODD_ABSENT, 5));
}

static void charts(void) {
    const uint8_t form[2] = {0x81, 0}, limit[1] = {0}, absent[4] = {1, 3, 1, 1}, blank[4] = {1, 0, 0, 1};
    const uint8_t after[5] = {1, 0, 1, 1, 0};
    CHECK(told(query(LIT, sizeof LIT, "", 0), 1));
    CHECK(told(query(LIT, sizeof LIT, "0", 0), 1));
    CHECK(told(query(LIT, sizeof LIT, "001", 0), 0));
    CHECK(told(query(LIT, sizeof LIT, "0000000000000000000000000000000000000000000000000000000000000000000000001", 0), 0));
    CHECK(refused(query(LIT, 3, "", 0), PIRWODD_CHART_ENDS, 3));
    CHECK(refused(query(form, 2, "", 0), PIRWODD_CHART_FORM, 0));
    CHECK(refused(query(limit, 1, "", 0), PIRWODD_CHART_LIMIT, 0));
    CHECK(refused(query(absent, 4, "", 0), PIRWODD_CHART_ABSENT, 1));
    CHECK(refused(query(blank, 4, "", 0), PIRWODD_CHART_BLANK, 2));
    CHECK(refused(query(after, 5, "", 0), PIRWODD_CHART_AFTER, 4));
    CHECK(refused(query(LIT, sizeof LIT, "02", 0), PIRWODD_RANGE, 0));
    CHECK(refused(query(LIT, sizeof LIT, "", 1), PIRWODD_RANGE, 0));
    CHECK(refused(query(LIT, sizeof LIT, "", (uint64_t)1 << 32), PIRWODD_RANGE, 0));
}

static void comparing(void) {
    const uint8_t twice[7] = {2, 0, 2, 2, 0, 1, 1};
    uint32_t number = compare(LIT, sizeof LIT, KNOWN, sizeof KNOWN);
    CHECK(number == 0 && report[0] == 1 && report[1] == 1 && report[2] == 0 && result[0] == 1 && left(number, 1, 3));
    number = compare(BEGUN, sizeof BEGUN, KNOWN, sizeof KNOWN);
    CHECK(number == 0 && report[0] == 1 && report[1] == 0 && report[2] == 0 && left(number, 0, 3));
    CHECK(told(compare(BEGUN, sizeof BEGUN, twice, sizeof twice), 0));
    CHECK(refused(compare(LIT, 6, KNOWN, 3), PIRWODD_CHART_ENDS, 6));
    CHECK(refused(compare(LIT, sizeof LIT, KNOWN, 3), PIRWODD_CHART_ENDS, 3));
}

/* Thirty-two states in a ring, and an action that nobody sees and that gives the first a new value. */
static size_t crowd(uint8_t *pack) {
    const uint8_t head[4] = {1, 1, 1, 33}, rest[12] = {1, 1, 0, 1, 0, 0, 32, 0, 0, 0, 0, 0};
    size_t i;
    memcpy(pack, head, 4);
    pack[4] = 32;
    for (i = 0; i < 32; i++) {
        pack[5 + 2 * i] = (uint8_t)i;
        pack[6 + 2 * i] = (uint8_t)((i + 1) % 32 + 1);
    }
    memcpy(pack + 69, rest, 12);
    return 81;
}

static void stepping(void) {
    const uint8_t restless[4] = {1, 1, 0, 0};
    uint8_t crowded[81];
    size_t length;
    CHECK(charted(step(BEGUN, sizeof BEGUN, 0), LIT, sizeof LIT));
    CHECK(refused(step(KNOWN, sizeof KNOWN, 0), PIRWODD_CONDITION, 0));
    CHECK(refused(step(BEGUN, sizeof BEGUN, 1), PIRWODD_RANGE, 0));
    CHECK(refused(step(BEGUN, sizeof BEGUN, (uint64_t)1 << 32), PIRWODD_RANGE, 0));
    CHECK(refused(step(BEGUN, 3, 1), PIRWODD_CHART_ENDS, 3));
    length = change(24, restless, 4);
    CHECK(refused(step_of(changed, length, BEGUN, sizeof BEGUN, 0), PIRWODD_ROUNDS, 0));
    length = crowd(crowded);
    /* What Start writes of it is its own nodes. */
    CHECK(charted(start(crowded, length), crowded + 4, 65));
    CHECK(refused(step_of(crowded, length, crowded + 4, 65, 0), PIRWODD_STATES, 0));
}

static void explaining(void) {
    CHECK(told(explained(0, 0, 1, 1), 1));
    CHECK(told(explained(1, 0, 1, 1), 0));
    CHECK(told(explained(0, 0, 1, 0), 0));
    CHECK(refused(explained(2, 0, 1, 1), PIRWODD_RANGE, 0));
    CHECK(refused(explained(0, 1, 1, 1), PIRWODD_RANGE, 0));
    CHECK(refused(explained(0, 0, 0, 1), PIRWODD_RANGE, 0));
    CHECK(refused(explained(0, 0, 7, 1), PIRWODD_RANGE, 0));
    CHECK(refused(explained(0, 0, 1, 4), PIRWODD_RANGE, 0));
}

static void searching(void) {
    uint32_t number = search(P, sizeof P, 1, 1, 1);
    CHECK(number == 0 && report[0] == 1 && report[1] == 0 && report[2] == 5 && result[0] == 0 && left(number, 1, 3));
    CHECK(refused(search(P, sizeof P, 1, 1, 0), PIRWODD_NO_ENDING, 0));
    CHECK(refused(search(P, 41, 1, 1, 0), PIRWODD_ENDS, 41));
    CHECK(refused(search(P, sizeof P, 0, 1, 1), PIRWODD_RANGE, 0));
    CHECK(refused(search(P, sizeof P, 9, 1, 1), PIRWODD_RANGE, 0));
    CHECK(refused(search(P, sizeof P, 1, 0, 1), PIRWODD_RANGE, 0));
    CHECK(refused(search(P, sizeof P, 1, 7, 1), PIRWODD_RANGE, 0));
    CHECK(refused(search(P, sizeof P, 1, 1, 4), PIRWODD_RANGE, 0));
}

/* Each call, where something that it is lent is too short. Other numbers are out of range too, which comes after 8. */
static void all_short(void) {
    CHECK(refused(query(LIT, sizeof LIT, "", 1), PIRWODD_SHORT, 0));
    CHECK(refused(explained(2, 0, 1, 1), PIRWODD_SHORT, 0));
    CHECK(refused(start(P, sizeof P), PIRWODD_SHORT, 0));
    CHECK(refused(compare(LIT, sizeof LIT, KNOWN, sizeof KNOWN), PIRWODD_SHORT, 0));
    CHECK(refused(step(BEGUN, sizeof BEGUN, 1), PIRWODD_SHORT, 0));
    CHECK(refused(search(P, sizeof P, 0, 1, 1), PIRWODD_SHORT, 0));
    CHECK(refused(start(P, 41), PIRWODD_ENDS, 41));
    CHECK(refused(query(LIT, 3, "", 0), PIRWODD_CHART_ENDS, 3));
}

static void short_buffers(void) {
    work_length--;
    all_short();
    work_length = 0;
    all_short();
    work_length = PIRWODD_WORK;
    report_length = 2;
    all_short();
    report_length = 1;
    all_short();
    report_length = 0;
    CHECK(start(P, sizeof P) == PIRWODD_SHORT && left(PIRWODD_SHORT, 0, 0));
    CHECK(start(P, 41) == PIRWODD_ENDS && left(PIRWODD_ENDS, 0, 0));
    report_length = PIRWODD_REPORT;
    chart_length--;
    CHECK(refused(start(P, sizeof P), PIRWODD_SHORT, 0));
    CHECK(refused(step(BEGUN, sizeof BEGUN, 0), PIRWODD_SHORT, 0));
    chart_length++;
    chain_length--;
    CHECK(refused(compare(LIT, sizeof LIT, KNOWN, sizeof KNOWN), PIRWODD_SHORT, 0));
    chain_length++;
    list_length--;
    CHECK(refused(search(P, sizeof P, 1, 1, 1), PIRWODD_SHORT, 0));
    list_length++;
    /* Longer ones are as good. */
    work_length += LONGER;
    chart_length += LONGER;
    CHECK(charted(start(P, sizeof P), BEGUN, sizeof BEGUN));
    work_length -= LONGER;
    chart_length -= LONGER;
}

/* A file of the folder. Gives its length, or `room` where it isn't there or is longer. */
static size_t contents(const char *folder, const char *name, const char *suffix, void *bytes, size_t room) {
    char path[1000];
    FILE *file;
    size_t length;
    snprintf(path, sizeof path, "%s/%s%s", folder, name, suffix);
    file = fopen(path, "rb");
    if (file == NULL) return room;
    length = fread(bytes, 1, room, file);
    fclose(file);
    return length;
}

/* The stories: Search finds what their .out say, which is as the program `ending` prints it. */
static void stories(const char *folder) {
    static const char *const names[] = {"alice", "letter", "lie",     "market",  "necklace",
                                        "p",     "safe",   "shoes", "thornby", "will"};
    size_t i, j;
    for (i = 0; i < sizeof names / sizeof *names; i++) {
        uint8_t pack[8193];
        char expected[200], found[200];
        size_t length = contents(folder, names[i], ".pack", pack, sizeof pack), printed = 0;
        size_t wanted = contents(folder, names[i], ".out", expected, sizeof expected);
        uint32_t number = search(pack, length, 4, 3, 2);
        if (number == 0) {
            for (j = 0; j < report[0]; j++) {
                printed += (size_t)snprintf(found + printed, sizeof found - printed, "%u %u\n", (unsigned)j + 1, result[j]);
            }
            printed += (size_t)snprintf(found + printed, sizeof found - printed, "author %u %u\n", (unsigned)report[1],
                                        (unsigned)report[2]);
        } else {
            printed = (size_t)snprintf(found, sizeof found, "refused %u at %u\n", (unsigned)number, (unsigned)report[0]);
        }
        check(wanted < sizeof expected && printed == wanted && memcmp(found, expected, wanted) == 0, names[i], __LINE__);
    }
}

int main(int count, char **words) {
    packs();
    charts();
    comparing();
    stepping();
    explaining();
    searching();
    short_buffers();
    if (count == 2) stories(words[1]);
    printf("%u checks, %u failed\n", checks, failures);
    return failures > 0;
}
