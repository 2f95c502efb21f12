/* Asks the overlap desk for the table of a sheet of live rules and prints a row
 * for each pair that can meet or is not settled. A start to copy from.
 *
 *     overlap FILE    FILE holds a sheet's words in decimal; # begins a remark
 */
#include <stdio.h>
#include <stdlib.h>

#include "overlap.h"
#include "words.h"

/* The most words of a sheet that is read, and of a report that is shown. */
#define SHEET_WORDS 65536
#define REPORT_WORDS 512

static const char *const actions[] = { "keep", "drop", "forward" };

static void print_row(const uint8_t *row, size_t i, size_t j)
{
    uint32_t number = word(row, 2) | (uint32_t)word(row, 3) << 16;
    if (number == OVERLAP_CANNOT_MEET)
        return;
    printf("%zu %s, %zu %s: ", i, actions[word(row, 0)], j, actions[word(row, 1)]);
    if (number == OVERLAP_NOT_SETTLED) {
        printf("not settled\n");
    } else if (number < OVERLAP_CANNOT_MEET) {
        printf("refused, number %u\n", number);
    } else {
        printf("can meet, by");
        for (uint32_t k = 0; k < number - OVERLAP_CAN_MEET; k++)
            printf(" %u", word(row, 4 + k));
        printf("\n");
    }
}

int main(int argc, char **argv)
{
    static uint8_t sheet[2 * SHEET_WORDS];
    static uint8_t room[OVERLAP_SHEET_BYTES(OVERLAP_RULES, REPORT_WORDS)];
    FILE *file = argc == 2 ? fopen(argv[1], "r") : NULL;
    if (file == NULL) {
        fprintf(stderr, "usage: overlap FILE\n");
        return EXIT_FAILURE;
    }
    size_t length = read_words(file, sheet, sizeof sheet);
    fclose(file);
    uint32_t refusal = overlap_sheet(sheet, length, REPORT_WORDS, room, sizeof room);
    if (refusal != 0) {
        printf("refused, number %u\n", refusal);
        return EXIT_SUCCESS;
    }
    size_t count = word(sheet, 1), rows = 0;
    for (size_t i = 0; i < count; i++)
        for (size_t j = i + 1; j < count; j++)
            print_row(room + 2 * OVERLAP_ROW(REPORT_WORDS) * rows++, i, j);
    printf("%zu pairs\n", rows);
    return EXIT_SUCCESS;
}
