/* Calls the proved desk for a program on the other side of a pipe.
 *
 * Standard input is requests, one after another: a letter, then a question as
 * its length and its bytes, and then
 *   s  the answer's length
 *   t  a filling, as its length and its bytes
 *   e  the line, the flag for old sheets (taken from request 8 on) and the
 *      room's length
 *   p  nothing more
 *   o  the second pattern, as its length and its bytes, word 0 and the room's
 *      length; the first pattern stands for the question
 *   O  the words of room for a report, and the room's length; a sheet of live
 *      rules stands for the question
 *   r  the room's length; a text stands for the question
 *   w  the room's length
 *   d  the room's length; a day's sheet stands for the question
 *   S  the answer's and the trail's length
 *   R  a trail, as its length and its bytes, and the answer's length
 *   E  a trail, the line, the flag and the room's length
 *   N  the number of the results, the rule, the literal, the side and the room's
 *      length
 * Numbers are 32 bits, low byte first. Bytes are lent full of LENT. Each answer
 * is the number that came back and then every byte that was lent, in the order
 * of the call.
 *
 *     bridge [TIMES]    makes each call so often: once, if it is not said
 *
 * A measurement takes off what a run takes that makes each call 0 times.
 */
#include <stdio.h>
#include <stdlib.h>
#include <string.h>

#include "desk.h"

#define LENT 0xA5

/* The requests that the proved desk has learnt, a line for each, in the order in
 * which they landed. The second desk is compared as the one that knows these. */
#define LANDED_12
#define LANDED_3
#define LANDED_5
#define LANDED_8
#define LANDED_1
#define LANDED_4
#define LANDED_6
#define LANDED_9
#define LANDED_7
#define LANDED_10
#define LANDED_11
#define LANDED_2

#ifdef LANDED_10
#include "overlap.h"
#endif

static void need(int done)
{
    if (!done)
        exit(EXIT_FAILURE);
}

static uint32_t number_in(void)
{
    uint8_t b[4];
    need(fread(b, 1, 4, stdin) == 4);
    return b[0] | (uint32_t)b[1] << 8 | (uint32_t)b[2] << 16 | (uint32_t)b[3] << 24;
}

static void number_out(uint32_t n)
{
    uint8_t b[4] = { (uint8_t)n, (uint8_t)(n >> 8), (uint8_t)(n >> 16), (uint8_t)(n >> 24) };
    need(fwrite(b, 1, 4, stdout) == 4);
}

/* A block of exactly this length, so that a byte past it is not the desk's. */
static uint8_t *block(size_t length)
{
    uint8_t *bytes = malloc(length > 0 ? length : 1);
    need(bytes != NULL);
    memset(bytes, LENT, length);
    return bytes;
}

static uint8_t *bytes_in(size_t *length)
{
    *length = number_in();
    uint8_t *bytes = block(*length);
    need(fread(bytes, 1, *length, stdin) == *length);
    return bytes;
}

static void lent_out(uint8_t *bytes, size_t length)
{
    need(fwrite(bytes, 1, length, stdout) == length);
    free(bytes);
}

/* Makes the call of one request. */
static void answer_request(int letter, long times)
{
    size_t question_len, filling_len;
    uint8_t *question = bytes_in(&question_len);
    uint32_t number = 0;
    if (letter == 's') {
        size_t length = number_in();
        uint8_t *answer = block(length);
        for (long i = 0; i < times; i++)
            number = desk_solve(question, question_len, answer, length);
        number_out(number);
        lent_out(answer, length);
    } else if (letter == 't') {
        uint8_t *filling = bytes_in(&filling_len);
        for (long i = 0; i < times; i++)
            number = desk_try(question, question_len, filling, filling_len);
        number_out(number);
        free(filling);
#ifdef LANDED_1
    } else if (letter == 'p') {
        for (long i = 0; i < times; i++)
            number = desk_place(question, question_len);
        number_out(number);
#endif
#ifdef LANDED_11
    } else if (letter == 'S') {
        size_t length = number_in(), trail_len = number_in();
        uint8_t *answer = block(length), *trail = block(trail_len);
        for (long i = 0; i < times; i++)
            number = desk_solve_trail(question, question_len, answer, length, trail, trail_len);
        number_out(number);
        lent_out(answer, length);
        lent_out(trail, trail_len);
    } else if (letter == 'R') {
        size_t trail_len;
        uint8_t *trail = bytes_in(&trail_len);
        size_t length = number_in();
        uint8_t *answer = block(length);
        for (long i = 0; i < times; i++)
            number = desk_replay(question, question_len, trail, trail_len, answer, length);
        number_out(number);
        lent_out(answer, length);
        free(trail);
    } else if (letter == 'E') {
        size_t trail_len;
        uint8_t *trail = bytes_in(&trail_len);
        uint32_t line = number_in(), old_sheets = number_in();
        size_t length = number_in();
        uint8_t *room = block(length);
        for (long i = 0; i < times; i++)
            number = desk_example_trail(question, question_len, trail, trail_len, line, old_sheets, room, length);
        number_out(number);
        lent_out(room, length);
        free(trail);
    } else if (letter == 'N') {
        uint32_t results = number_in(), rule = number_in(), literal = number_in(), side = number_in();
        size_t length = number_in();
        uint8_t *room = block(length);
        for (long i = 0; i < times; i++)
            number = desk_step(question, question_len, results, rule, literal, side, room, length);
        number_out(number);
        lent_out(room, length);
#endif
#ifdef LANDED_9
    } else if (letter == 'd') {
        size_t length = number_in();
        uint8_t *room = block(length);
        for (long i = 0; i < times; i++)
            number = desk_day(question, question_len, room, length);
        number_out(number);
        lent_out(room, length);
#endif
#ifdef LANDED_10
    } else if (letter == 'o') {
        size_t second_len;
        uint8_t *second = bytes_in(&second_len);
        uint32_t word_0 = number_in();
        size_t length = number_in();
        uint8_t *room = block(length);
        for (long i = 0; i < times; i++)
            number = overlap_pair(word_0, question, question_len, second, second_len, room, length);
        number_out(number);
        lent_out(room, length);
        free(second);
    } else if (letter == 'O') {
        uint32_t report = number_in();
        size_t length = number_in();
        uint8_t *room = block(length);
        for (long i = 0; i < times; i++)
            number = overlap_sheet(question, question_len, report, room, length);
        number_out(number);
        lent_out(room, length);
#endif
#ifdef LANDED_2
    } else if (letter == 'r' || letter == 'w') {
        size_t length = number_in();
        uint8_t *room = block(length);
        for (long i = 0; i < times; i++)
            number = letter == 'r' ? desk_read_text(question, question_len, room, length)
                                   : desk_write_text(question, question_len, room, length);
        number_out(number);
        lent_out(room, length);
#endif
    } else {
        uint32_t line = number_in(), old_sheets = number_in();
        size_t length = number_in();
        uint8_t *room = block(length);
        for (long i = 0; i < times; i++)
#ifdef LANDED_8
            number = desk_example(question, question_len, line, old_sheets, room, length);
#else
            number = desk_example(question, question_len, line, room, length);
        (void)old_sheets;
#endif
        number_out(number);
        lent_out(room, length);
    }
    free(question);
}

int main(int argc, char **argv)
{
    long times = argc > 1 ? atol(argv[1]) : 1;
    int letter;
    while ((letter = getchar()) != EOF) {
        answer_request(letter, times);
        fflush(stdout);
    }
    return EXIT_SUCCESS;
}
