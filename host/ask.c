/* Asks the desk one question and prints what comes back. A start to copy from.
 *
 *     ask FILE    FILE holds the question's words in decimal; # begins a remark
 */
#include <stdio.h>
#include <stdlib.h>

#include "desk.h"
#include "words.h"

static void print_words(const uint8_t *bytes, size_t from, size_t to)
{
    for (size_t i = from; i < to; i++)
        printf(" %u", word(bytes, i));
    printf("\n");
}

/* The example of a settled line, and what the desk says when it is tried. */
static void print_example(const uint8_t *question, size_t question_len, uint32_t line)
{
    uint8_t room[DESK_FILLING_BYTES];
    uint32_t shown = desk_example(question, question_len, line, 0, room, sizeof room);
    if (shown < DESK_SHOWN) {
        printf("  no example, number %u\n", shown);
        return;
    }
    size_t words = shown - DESK_SHOWN;
    printf("  example:");
    print_words(room, 0, words);
    uint32_t tried = desk_try(question, question_len, room, 2 * words);
    if (tried == DESK_YES)
        printf("  tried: yes\n");
    else if (tried == DESK_NO)
        printf("  tried: no\n");
    else
        printf("  tried: number %u\n", tried);
}

int main(int argc, char **argv)
{
    static uint8_t question[DESK_QUESTION_BYTES + 2], answer[DESK_ANSWER_BYTES];
    FILE *file = argc == 2 ? fopen(argv[1], "r") : NULL;
    if (file == NULL) {
        fprintf(stderr, "usage: ask FILE\n");
        return EXIT_FAILURE;
    }
    size_t length = read_words(file, question, sizeof question);
    fclose(file);

    uint32_t refusal = desk_solve(question, length, answer, sizeof answer);
    if (refusal != 0) {
        uint32_t place = desk_place(question, length);
        printf("refused, number %u", refusal);
        if (place != 0)
            printf(", at word %u", place);
        printf("\n");
        return EXIT_SUCCESS;
    }
    uint16_t lines = word(answer, 0);
    printf("lines: %u, open: %u\n", lines, word(answer, 1));
    for (uint16_t i = 0; i < lines; i++) {
        size_t from = word(answer, 2 + i), to = word(answer, 3 + i);
        int settled = word(answer, from) == 1;
        printf("line %u, %s, of alternative %u:", i, settled ? "settled" : "open", word(answer, from + 1));
        print_words(answer, from + 2, to);
        if (settled)
            print_example(question, length, i);
    }
    return EXIT_SUCCESS;
}
