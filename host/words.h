/* Words in bytes, and words in a text, for the programs beside this file. */
#ifndef WORDS_H
#define WORDS_H

#include <stdint.h>
#include <stdio.h>

/* Word i of these bytes, low byte first. */
static inline uint16_t word(const uint8_t *bytes, size_t i)
{
    return (uint16_t)(bytes[2 * i] | bytes[2 * i + 1] << 8);
}

/* Reads decimal words and packs them, low byte first. Gives the count of bytes;
 * reading ends at the first thing that is no word, or where the bytes are full. */
static inline size_t read_words(FILE *file, uint8_t *bytes, size_t most)
{
    size_t length = 0;
    unsigned value;
    int c;
    while ((c = fgetc(file)) != EOF) {
        if (c == '#') {
            while (c != '\n' && c != EOF)
                c = fgetc(file);
            continue;
        }
        if (c == ' ' || c == '\t' || c == '\r' || c == '\n')
            continue;
        ungetc(c, file);
        if (fscanf(file, "%u", &value) != 1 || value > 65535 || length + 2 > most)
            break;
        bytes[length++] = (uint8_t)(value % 256);
        bytes[length++] = (uint8_t)(value / 256);
    }
    return length;
}

#endif
