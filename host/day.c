/* Asks the desk a day's questions in one call and prints a row for each. A start
 * to copy from.
 *
 *     day FILE..    each FILE holds a question's words in decimal; # begins a remark
 */
#include <stdio.h>
#include <stdlib.h>

#include "desk.h"
#include "words.h"

static void put_word(uint8_t *bytes, size_t i, size_t value)
{
    bytes[2 * i] = (uint8_t)value;
    bytes[2 * i + 1] = (uint8_t)(value >> 8);
}

/* Offset i of a sheet or of its answers: two words, the low one first. */
static void put_offset(uint8_t *bytes, size_t i, size_t value)
{
    put_word(bytes, 1 + 2 * i, value);
    put_word(bytes, 2 + 2 * i, value >> 16);
}

static size_t offset(const uint8_t *bytes, size_t i)
{
    return word(bytes, 1 + 2 * i) | (size_t)word(bytes, 2 + 2 * i) << 16;
}

/* Reads the files and lays their questions out as a sheet. Gives its count of
 * bytes, or 0 where a file cannot be opened. */
static size_t read_sheet(int count, char **files, uint8_t *sheet)
{
    size_t end = DESK_DAY_HEADER(count);
    put_word(sheet, 0, (size_t)count);
    for (int i = 0; i < count; i++) {
        FILE *file = fopen(files[i], "r");
        if (file == NULL) {
            fprintf(stderr, "day: cannot open %s\n", files[i]);
            return 0;
        }
        put_offset(sheet, (size_t)i, end);
        /* a word more than a question may have, so that one too long is refused */
        end += read_words(file, sheet + 2 * end, DESK_QUESTION_BYTES + 2) / 2;
        fclose(file);
    }
    put_offset(sheet, (size_t)count, end);
    return 2 * end;
}

int main(int argc, char **argv)
{
    static uint8_t sheet[2 * DESK_DAY_HEADER(DESK_DAY_QUESTIONS) + DESK_DAY_QUESTIONS * (DESK_QUESTION_BYTES + 2)];
    static uint8_t room[DESK_DAY_BYTES(DESK_DAY_QUESTIONS)];
    int count = argc - 1;
    if (count < 1 || count > DESK_DAY_QUESTIONS) {
        fprintf(stderr, "usage: day FILE.., at most %d\n", DESK_DAY_QUESTIONS);
        return EXIT_FAILURE;
    }
    size_t length = read_sheet(count, argv + 1, sheet);
    if (length == 0)
        return EXIT_FAILURE;
    uint32_t refusal = desk_day(sheet, length, room, sizeof room);
    if (refusal != 0) {
        printf("refused, number %u\n", refusal);
        return EXIT_SUCCESS;
    }
    for (int i = 0; i < count; i++) {
        size_t at = offset(room, (size_t)i);
        printf("%s: ", argv[i + 1]);
        if (word(room, at) != 0)
            printf("refused, number %u\n", word(room, at));
        else
            printf("lines: %u, open: %u\n", word(room, at + 1), word(room, at + 2));
    }
    printf("%zu words of answers\n", offset(room, (size_t)count));
    return EXIT_SUCCESS;
}
