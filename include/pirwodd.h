/*
 * The six calls of Pirwodd, for C.
 *
 * `./archives` makes the archive target/staticlib/libpirwodd.a; a program is linked with it and with nothing else:
 *
 *     cc -Iinclude program.c target/staticlib/libpirwodd.a
 *
 * docs/PACK.md says what packs and charts are, byte by byte; crates/pirwodd/specs/Exports.antt states what is proved of these
 * functions, for any bytes, numbers and lengths.
 *
 * LENT MEMORY. Each slice is a pointer and then its length, in bytes (for a report: in numbers). Pointers are not NULL, even
 * where the length is 0; a report is aligned as uint64_t is. What is written to must not overlap with anything else that is
 * lent. Nothing else is asked of the caller: longer buffers than needed are as good, shorter ones are refused as 8, and numbers
 * may be of any size.
 *
 *     pack     the story pack's bytes, at most 8,192; only read
 *     chart    a chart's bytes, of any length; only read (but pirwodd_start's is its result)
 *     work     PIRWODD_WORK bytes; they may hold anything at first
 *     report   PIRWODD_REPORT numbers; they may hold anything at first
 *
 * No memory is allocated, and nothing is kept from one call to the next, so threads may call with buffers of their own.
 *
 * AFTER AN ANSWER the call hands back 0. The report's first numbers are what the call's comment says, the result buffer's
 * first bytes are the result, and the work buffer's first 49,152 bytes are 0. All other bytes and numbers are as they were.
 *
 * AFTER A REFUSAL the call hands back the refusal's number. The report's first number is the place; the result buffer is as it
 * was. A report of fewer than 3 numbers is itself refused, as 8, unless the pack or a chart is refused before it; if it has no
 * number at all, the place is told nowhere: lend 3 to see it. After 1 to 9 and 21 to 27 so is the work buffer; after 10 to 13 its first 49,152 bytes are 0.
 * All else is as it was. The place is, for 2 to 7 and 22 to 27, where the first byte of the number at fault is, in the pack or
 * in the chart (for a pack above 8,192 bytes it is 0); for 1 and 21 the length of the pack or of the chart; for 8 to 13 it is 0.
 *
 * The checks come in the order pack, first chart, second chart, 8, 9, the rest; the first that fails is told. Within a pack or a
 * chart it is that of the first number at fault.
 */
#ifndef PIRWODD_H
#define PIRWODD_H

#include <stddef.h>
#include <stdint.h>

#ifdef __cplusplus
extern "C" {
#endif

/* How long a lent buffer must be: in bytes, for a report in numbers. */
#define PIRWODD_WORK 49152
#define PIRWODD_CHART 961
#define PIRWODD_CHAIN 62
#define PIRWODD_LIST 8
#define PIRWODD_REPORT 3

/* The numbers handed back. */
enum {
    PIRWODD_ANSWERED = 0,
    /* the pack is refused: */
    PIRWODD_ENDS = 1,   /* its bytes end in a number of which fewer than three are there */
    PIRWODD_FORM = 2,   /* a number that is not in its shortest form, above 65,535, or longer than three bytes */
    PIRWODD_LIMIT = 3,  /* version, count, domain size or chain length outside its limits; more than 8,192 bytes */
    PIRWODD_ABSENT = 4, /* a character, fluent, value, node, whom or kind that isn't there */
    PIRWODD_BLANK = 5,  /* a blank belief */
    PIRWODD_ORDER = 6,  /* consenters that don't rise */
    PIRWODD_AFTER = 7,  /* bytes after the end */
    /* a chart is refused, as a pack is by 1 to 5 and 7; a chart has no limit of length and no consenters: */
    PIRWODD_CHART_ENDS = 21,
    PIRWODD_CHART_FORM = 22,
    PIRWODD_CHART_LIMIT = 23,
    PIRWODD_CHART_ABSENT = 24,
    PIRWODD_CHART_BLANK = 25,
    PIRWODD_CHART_AFTER = 27,
    /* the call is refused: */
    PIRWODD_SHORT = 8,      /* a lent buffer is too short */
    PIRWODD_RANGE = 9,      /* an action, character, fluent or limit is out of range */
    PIRWODD_CONDITION = 10, /* the action's condition fails */
    PIRWODD_ROUNDS = 11,    /* a trigger holds after round 16 */
    PIRWODD_STATES = 12,    /* over 32 different states */
    PIRWODD_NO_ENDING = 13  /* there is no ending */
};

/*
 * Start: the state that the pack's node 0 means, as a chart.
 *
 * Lent to be written: chart, PIRWODD_CHART bytes. Answer: report[0] is the chart's length, and so many first bytes of chart
 * are the chart. Two states are written as equal charts exactly when they are the same.
 * Refusals: 1 to 7; 8 (chart, work or report).
 */
uint32_t pirwodd_start(const uint8_t *pack, size_t pack_length,
                       uint8_t *chart, size_t chart_length,
                       uint8_t *work, size_t work_length,
                       uint64_t *report, size_t report_length);

/*
 * Query: the value of a fluent where a chain of characters leads in a chart. Nobody in the chain: what is so; character 0 alone:
 * what 0 believes; 0 and then 1: what 0 believes that 1 believes; and so on.
 *
 * Lent to be read: chain, one byte a character, of any length. Answer: report[0] is the value.
 * Refusals: 1 to 7; 21 to 25, 27; 8 (work or report); 9 (the fluent, or a character of the chain).
 */
uint32_t pirwodd_query(const uint8_t *pack, size_t pack_length,
                       const uint8_t *chart, size_t chart_length,
                       const uint8_t *chain, size_t chain_length,
                       uint64_t fluent,
                       uint8_t *work, size_t work_length,
                       uint64_t *report, size_t report_length);

/*
 * Compare: whether two charts mean the same state, or else the shortest chain that leads to a difference, the earliest by
 * character numbers among those, and the lowest fluent that differs there.
 *
 * Lent to be written: chain, PIRWODD_CHAIN bytes. Answer: report[0] is 0 for the same, and no other number of the report and
 * no byte of chain is written; or it is 1, report[1] the chain's length, report[2] the fluent, and so many first bytes of chain
 * are the characters.
 * Refusals: 1 to 7; 21 to 25, 27 (of the first chart, then of the second); 8 (chain, work or report).
 */
uint32_t pirwodd_compare(const uint8_t *pack, size_t pack_length,
                         const uint8_t *first, size_t first_length,
                         const uint8_t *second, size_t second_length,
                         uint8_t *chain, size_t chain_length,
                         uint8_t *work, size_t work_length,
                         uint64_t *report, size_t report_length);

/*
 * Step: what an action and the triggers after it leave of the state that a chart means.
 *
 * Lent to be written: result, PIRWODD_CHART bytes. Answer: report[0] is the length of the chart of what is left, and so many
 * first bytes of result are that chart.
 * Refusals: 1 to 7; 21 to 25, 27; 8 (result, work or report); 9 (the action); 10, 11, 12.
 */
uint32_t pirwodd_step(const uint8_t *pack, size_t pack_length,
                      const uint8_t *chart, size_t chart_length,
                      uint64_t action,
                      uint8_t *result, size_t result_length,
                      uint8_t *work, size_t work_length,
                      uint64_t *report, size_t report_length);

/*
 * Explained: whether a character has a reason for an action in the state that a chart means, under the foresight limit K (1 to
 * 6 actions) and the nesting limit E (0 to 3).
 *
 * Answer: report[0] is 1 for yes, 0 for no.
 * Refusals: 1 to 7; 21 to 25, 27; 8 (work or report); 9 (the character, the action, or a limit).
 */
uint32_t pirwodd_explained(const uint8_t *pack, size_t pack_length,
                           const uint8_t *chart, size_t chart_length,
                           uint64_t character,
                           uint64_t action,
                           uint64_t foresight,
                           uint64_t nesting,
                           uint8_t *work, size_t work_length,
                           uint64_t *report, size_t report_length);

/*
 * Search: the shortest ending from the pack's start, of those the earliest by action numbers, under the story limit T (1 to 8
 * actions), the foresight limit K (1 to 6) and the nesting limit E (0 to 3).
 *
 * Lent to be written: list, PIRWODD_LIST bytes. Answer: report[0] is the ending's length, report[1] and report[2] are the author's
 * worth at the start and at its end, and so many first bytes of list are its actions.
 * Refusals: 1 to 7; 8 (list, work or report); 9 (a limit); 13, which says that no list of actions is an ending.
 */
uint32_t pirwodd_search(const uint8_t *pack, size_t pack_length,
                        uint64_t story,
                        uint64_t foresight,
                        uint64_t nesting,
                        uint8_t *list, size_t list_length,
                        uint8_t *work, size_t work_length,
                        uint64_t *report, size_t report_length);

#ifdef __cplusplus
}
#endif

#endif
