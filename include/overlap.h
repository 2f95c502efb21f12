/* The overlap desk, for a C program: whether two live rules can meet.
 *
 * A rule is a pattern and an action; the pattern is the words of one term, as
 * in a question, without an end mark. Words are passed as bytes, the low byte
 * first. What desk.h says of pointers, slices and threads holds here too. A call
 * needs about 310 kilobytes of stack: docs/BENCH.md has the figure.
 */
#ifndef OVERLAP_H
#define OVERLAP_H

#include <stddef.h>
#include <stdint.h>

#ifdef __cplusplus
extern "C" {
#endif

/* What overlap_pair gives where it does not refuse. */
#define OVERLAP_CANNOT_MEET 100 /* no complete report matches both */
#define OVERLAP_NOT_SETTLED 101 /* all lines of the solver's answer are open */
#define OVERLAP_CAN_MEET 200    /* and the report's length in words */

/* Two rules have more blanks of one kind together than a question may: 128. */
#define OVERLAP_TOO_MANY_BLANKS 25

/* A sheet has more than OVERLAP_RULES rules. */
#define OVERLAP_TOO_MANY_RULES 24

/* Whether two rules can meet. word_0 is word 0 of a question: how many symbols
 * the rules' sheet declares, and 256 times how many of these, the last, are
 * unordered; a number that is no word counts as too many. The blanks of a pattern
 * are those that stand in it, and those of the second are kept apart from the
 * first's.
 *
 * OVERLAP_CANNOT_MEET: no complete report matches both patterns.
 * OVERLAP_NOT_SETTLED: the solver left only open lines.
 * OVERLAP_CAN_MEET + n: the room's first n words are a report that both match,
 * without an end mark; it is the first pattern, filled by the example of the
 * first settled line. The rest of the room stays.
 *
 * Else it is why not, and the room is untouched, in this order: 25; 2 and 3 of
 * desk.h for the question of the two; 5 where a pattern is not exactly one term,
 * or has an odd count of bytes; 6; 7 to 10 and 21 of the run; 16 where the
 * example is longer than a filling may be, or the report than the room. */
uint32_t overlap_pair(uint32_t word_0,
                      const uint8_t *first, size_t first_len,
                      const uint8_t *second, size_t second_len,
                      uint8_t *room, size_t room_len);

/* What is done with a report that matches a rule. */
enum overlap_action { OVERLAP_KEEP = 0, OVERLAP_DROP = 1, OVERLAP_FORWARD = 2 };

/* The most rules of a sheet; how many pairs n rules have; the words of a row with
 * room for a report of so many words, and the bytes of a room for all rows. */
#define OVERLAP_RULES 32
#define OVERLAP_PAIRS(n) ((n) * ((n)-1) / 2)
#define OVERLAP_ROW(report) ((report) + 4)
#define OVERLAP_SHEET_BYTES(n, report) (2 * OVERLAP_PAIRS(n) * OVERLAP_ROW(report))

/* The table of all pairs of a sheet's rules. Gives 0, or why not, and then the
 * room is untouched: 24 where the sheet counts more than OVERLAP_RULES rules, 4
 * where it is none, 1 where the room has not all rows.
 *
 * A sheet is word_0 of all its rules, their number, and of each rule its action,
 * the number of its pattern's words, and the pattern; nothing stands behind the
 * last rule. An odd count of bytes, a rule or its pattern that breaks off and an
 * action that is none of the three make it no sheet; whether a pattern is one term
 * is asked of each pair.
 *
 * After 0 the room begins with a row for each pair, of OVERLAP_ROW(report_words)
 * words: the first rule with each later one, then the second, and so on. A row is
 * the action of the first rule and of the second, the number that overlap_pair
 * gives for the two in a room of report_words words, as two words with the low one
 * first, and the report, if there is one. The words behind it, up to the next row,
 * and the bytes behind the last row stay. */
uint32_t overlap_sheet(const uint8_t *sheet, size_t sheet_len, uint32_t report_words,
                       uint8_t *room, size_t room_len);

#ifdef __cplusplus
}
#endif

#endif
