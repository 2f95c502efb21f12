/* The desk, for a C program.
 *
 * A question, an answer and a filling are 16-bit words. They are passed as
 * bytes, the low byte of each word first: word w is the bytes w % 256, w / 256.
 *
 * Every call is defined for every input. None keeps a pointer, allocates memory,
 * reads or writes a file, or writes to any byte but those it says. The slices
 * lent to one call must not overlap. A slice of length 0 may have any pointer.
 * Calls from several threads at once are independent of each other.
 *
 * A call needs some stack, up to about 1.7 megabytes: docs/BENCH.md has the figures.
 */
#ifndef DESK_H
#define DESK_H

#include <stddef.h>
#include <stdint.h>

#ifdef __cplusplus
extern "C" {
#endif

/* Why a call refuses. A refusal comes back as its number, 1 to 23 or 26 to 29. */
enum desk_refusal {
    DESK_SHORT_SLICE = 1,      /* the answer, or a step's room, has under DESK_ANSWER_BYTES bytes */
    DESK_QUESTION_LENGTH = 2,  /* question: an odd count of bytes, under 6 or over 4,096 words */
    DESK_COUNT_RANGE = 3,      /* question: a count out of range */
    DESK_BAD_OFFSET = 4,       /* question: an offset missing or out of place */
    DESK_NOT_LITERALS = 5,     /* question: a conjunction is not exactly literals; desk_place says where */
    DESK_UNDECLARED = 6,       /* question: a number that is not declared; desk_place says where */
    DESK_LONG_RESULT = 7,      /* run: a step's result passes 4,096 words */
    DESK_LONG_WAITING = 8,     /* run: the waiting conjunctions, two words more each, pass 16,384 */
    DESK_LINE_ROOM = 9,        /* run: a 513th line, or a line past the answer's end */
    DESK_STEP_LIMIT = 10,      /* run: 10,000 steps made and a rule still applies */
    DESK_FILLING_LAYOUT = 11,  /* filling: an odd count of bytes, its length, count or offsets */
    DESK_FILLING_VALUE = 12,   /* filling: a value of the wrong form, or an undeclared symbol */
    DESK_LONG_LITERAL = 13,    /* filling: a literal, filled in, passes 8,192 words */
    DESK_NO_SUCH_LINE = 14,    /* example: no such line; the first is 0 */
    DESK_OPEN_LINE = 15,       /* example: the line is open */
    DESK_LONG_EXAMPLE = 16,    /* example: longer than the room lent or than 4,096 words */
    DESK_NOT_TEXT = 17,        /* reading a text: it is none */
    DESK_MANY_NAMES = 18,      /* reading a text: over 128 names of one sort, or over 16 lines */
    DESK_LONG_TEXT = 19,       /* reading a text: over 4,096 words or past the room; writing one: past the room */
    DESK_OTHER_NUMBERS = 20,   /* writing a text: the question is numbered or counted otherwise than a text is */
    DESK_LONG_WALK = 21,       /* run: two shape tests of one variable lead to over 4,096 pairs of expressions */
    DESK_SHEET_LAYOUT = 22,    /* day: an odd count of bytes, over 64 questions, or an offset out of place */
    DESK_LONG_ANSWERS = 23,    /* day: the answers do not fit the room lent */
    DESK_BAD_STEP = 26,        /* replay, step: the step that is named does not apply */
    DESK_SHORT_TRAIL = 27,     /* replay: the trail ends early, or within a step */
    DESK_LONG_TRAIL = 28,      /* replay: the trail goes on after the end */
    DESK_TRAIL_ROOM = 29       /* run: the trail passes the room lent for it */
};

/* Bytes of an answer, of the longest question and of the longest filling. */
#define DESK_ANSWER_BYTES 32768
#define DESK_QUESTION_BYTES 8192
#define DESK_FILLING_BYTES 8192

/* Solves a question. Gives 0, or why not: 1 to 10, in this order, or 21, which
 * comes before 10.
 *
 * After 0 the first DESK_ANSWER_BYTES bytes of the answer hold it: word 0 the
 * number of lines, word 1 how many of them are open, words 2 to 514 where each
 * line begins and the last one ends, and from word 515 the lines, each a mark
 * (1 settled, 2 open), the number of the alternative that it comes from, the
 * first being 0, and its literals; then zeros. No line means that nothing meets
 * the question; a filling meets alternative n exactly when it meets a line of
 * that number. After 1 to 6 the answer is unchanged; after 7 to 10 and 21
 * its first DESK_ANSWER_BYTES bytes are zeros. Later bytes are never touched. */
uint32_t desk_solve(const uint8_t *question, size_t question_len,
                    uint8_t *answer, size_t answer_len);

/* Where the mistake is for which a question is refused, as a word of the question,
 * the first being 0. For 5 it is the first word that cannot continue a literal,
 * or, where a conjunction breaks off, its end; for 6 the first number that is not
 * declared. For a question that is refused with any other number, or with none,
 * it is 0. This call itself refuses nothing. */
uint32_t desk_place(const uint8_t *question, size_t question_len);

/* What desk_try gives where it does not refuse. */
#define DESK_NO 100
#define DESK_YES 101

/* Whether a filling meets a question: DESK_YES or DESK_NO, or why it cannot be
 * told: 2 to 6, 11, 12, 13, in this order. */
uint32_t desk_try(const uint8_t *question, size_t question_len,
                  const uint8_t *filling, size_t filling_len);

/* desk_example gives this and the filling's length in words: DESK_SHOWN + 2 or
 * more. Every number below is a refusal. */
#define DESK_SHOWN 100

/* Writes the example of a settled line, the first being line 0, as a filling to
 * the start of the room, and gives DESK_SHOWN plus its length in words; or why
 * not: 2 to 10 or 21, 14, 15, 16, in this order. After a refusal the room is
 * unchanged; bytes behind the filling are never touched. A room of
 * DESK_FILLING_BYTES is never too short for an example that the desk shows.
 *
 * A blank for a part or a name that may be anything takes the last declared
 * symbol where old_sheets is 0, and symbol 0 where it is any other number, as
 * on old training sheets. The example meets its line either way. */
uint32_t desk_example(const uint8_t *question, size_t question_len, uint32_t line,
                      uint32_t old_sheets, uint8_t *room, size_t room_len);

/* Bytes of a room that no trail is too long for: three words for each step. */
#define DESK_TRAIL_BYTES 60000

/* desk_solve_trail gives this and the number of steps. Every number below is a
 * refusal. */
#define DESK_STEPS 100

/* Solves a question as desk_solve does, and writes its trail to the start of a
 * room: three words for each step, the rule's place in the list, the literal's
 * place in its conjunction, both from 0, and 1 where the sides were swapped, else
 * 0. Gives DESK_STEPS plus the number of steps, or why not: 1 to 10 or 21, as
 * desk_solve does, or 29, which comes after 8 in a step.
 *
 * The answer is as desk_solve leaves it. Bytes behind the trail are not touched.
 * After 1 to 6 the room is unchanged as well; after 7 to 10, 21 and 29 the first
 * DESK_ANSWER_BYTES bytes of the answer and all words of the room are zeros. An
 * odd last byte of the room is never touched. */
uint32_t desk_solve_trail(const uint8_t *question, size_t question_len,
                          uint8_t *answer, size_t answer_len,
                          uint8_t *trail, size_t trail_len);

/* Follows a trail, whoever wrote it, on a question, and builds the lines itself.
 * Gives 0, or why not: 1 to 6 as desk_solve, and then 7, 8, 9, 21, 26, 27 or 28.
 * Whether any rule applies is tested first, so that 21 comes before 26 to 28. A
 * step is accepted wherever the rule that it names applies, first or not, and a
 * trail only when no rule applies any more. An odd count of trail bytes ends
 * within a step.
 *
 * After 0 the answer has the layout of desk_solve's, and the same is true of its
 * lines: no line means that nothing meets the question, and a filling meets
 * alternative n exactly when it meets a line of that number. The trail that
 * desk_solve_trail wrote is accepted and gives the same answer. After 1 to 6 the
 * answer is unchanged; after all others its first DESK_ANSWER_BYTES bytes are
 * zeros. Later bytes are never touched. */
uint32_t desk_replay(const uint8_t *question, size_t question_len,
                     const uint8_t *trail, size_t trail_len,
                     uint8_t *answer, size_t answer_len);

/* As desk_example, of a line to which a trail leads: it replays the trail instead
 * of solving. Gives DESK_SHOWN plus the filling's length in words; or why not:
 * 2 to 9, 21 or 26 to 28, as desk_replay, and then 14, 15, 16. What it shows
 * meets the question, whoever wrote the trail. */
uint32_t desk_example_trail(const uint8_t *question, size_t question_len,
                            const uint8_t *trail, size_t trail_len,
                            uint32_t line, uint32_t old_sheets,
                            uint8_t *room, size_t room_len);

/* Makes one named step of a question of one alternative. The rule is its place in
 * the list of rules, the literal its place in the alternative, both from 0, and
 * the side is 1 for an equation taken with its sides swapped, else 0: the three
 * words of a step in a trail. So a walk through an answer is drawn step by step:
 * what waits first is asked, as a question of its own, for the trail's next step.
 *
 * Gives DESK_SHOWN plus the word of the room where the results begin; or why not:
 * 1 to 6 as desk_solve, 3 too where there is not one alternative, and then 26
 * where the named rule does not apply there, 21 where it is the last rule and
 * two shape tests lead too far, 7 or 8. The rule need not be the first to apply.
 *
 * After a step the first DESK_ANSWER_BYTES bytes of the room are zeros and then,
 * up to their end, the results in their order, each in a frame: its length in
 * words, the number that the call was given, and the words of its literals. At
 * the word where the results begin stands the first one's length; the next frame
 * stands right behind its literals. Where there is no result, since nothing meets
 * the alternative, they begin at the end: DESK_SHOWN + DESK_ANSWER_BYTES / 2. A
 * result of length 0 has no literals: everything meets it. After 1 to 6 the room
 * is unchanged; after 7, 8, 21 and 26 its first DESK_ANSWER_BYTES bytes are
 * zeros. Later bytes are never touched.
 *
 * A number that is no word, over 65,535, counts as 65,535: in the frames it stands
 * so, and no rule, no literal and no side is that: 26. A result of over 4,089 words
 * can wait in a run and is no question with its header: 2. */
uint32_t desk_step(const uint8_t *question, size_t question_len, uint32_t number,
                   uint32_t rule, uint32_t literal, uint32_t side,
                   uint8_t *room, size_t room_len);

/* The most questions of a day, the words before the first of n questions or
 * answers, and the bytes of a room that the answers of n questions always fit. */
#define DESK_DAY_QUESTIONS 64
#define DESK_DAY_HEADER(n) (2 * (n) + 3)
#define DESK_DAY_BYTES(n) (2 * DESK_DAY_HEADER(n) + (n) * (DESK_ANSWER_BYTES + 2))

/* Answers a day's questions. Gives 0, or why not: 22 and then 23.
 *
 * A sheet is the number n of its questions, n + 1 offsets of two words each, the
 * low word first, and the questions: the first offset is DESK_DAY_HEADER(n), none
 * is less than the one before it, the last is the number of words. Question i
 * stands from its offset to the next.
 *
 * After 0 the room begins with the answers in the same layout, each a refusal
 * number and, after 0, the answer's words as desk_solve writes them, up to the
 * end of the last line: 515 words where there is no line. Each is what
 * desk_solve gives for that question by itself. A question that is refused does
 * not keep the others from an answer. Later bytes are never touched. After 22,
 * which is given before any solving, the room is unchanged; after 23 each of its
 * words is 0, and an odd last byte is unchanged. */
uint32_t desk_day(const uint8_t *sheet, size_t sheet_len, uint8_t *room, size_t room_len);

/* desk_write_text gives this and the text's length in bytes, desk_read_text this
 * and the question's length in words. Every number below is a refusal. A room of
 * DESK_TEXT_BYTES is never too short for a text, and one of DESK_QUESTION_BYTES
 * never for a question. docs/TEXT.md says what a text is. */
#define DESK_TEXT 100
#define DESK_TEXT_BYTES 53296

/* Writes a question as a text to the start of the room, and gives DESK_TEXT plus
 * its length in bytes; or why not: 2 to 6, then 20 where its numbers are not in
 * the order of first appearance, or it declares something that does not appear or
 * a symbol as unordered, then 19 where the text is longer than the room. The room
 * takes plain bytes, with no 0 behind them. After a refusal it is unchanged; bytes
 * behind the text are never touched. */
uint32_t desk_write_text(const uint8_t *question, size_t question_len,
                         uint8_t *room, size_t room_len);

/* Reads a text, of plain bytes and of any length, and writes the words of its
 * question to the start of the room. Gives DESK_TEXT plus their number; or why
 * not: 17 where it is not a text, then 18 where it has more names of one sort or
 * more lines than a question can have, then 19 where the words are more than a
 * question can have or than the room. After a refusal the room is unchanged; bytes
 * behind the words, and an odd last byte, are never touched. The words are a
 * question that no call refuses with 2 to 6. What desk_write_text wrote is read
 * back as the same words. */
uint32_t desk_read_text(const uint8_t *text, size_t text_len,
                        uint8_t *room, size_t room_len);

#ifdef __cplusplus
}
#endif

#endif
