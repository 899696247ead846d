/* Hex text as `t5250` takes it: blanks, tabs and line ends anywhere. */
#ifndef HEX_H
#define HEX_H

#include <stdint.h>
#include <stdio.h>
#include <stdlib.h>

static inline int hex_digit(int text)
{
    if (text >= '0' && text <= '9')
        return text - '0';
    if (text >= 'a' && text <= 'f')
        return text - 'a' + 10;
    if (text >= 'A' && text <= 'F')
        return text - 'A' + 10;
    return -1;
}

/* The next byte of a hex text: EOF at its end, and -2 where it is no hex text. */
static inline int hex_byte(FILE *file)
{
    int value = 0;
    for (int digits = 0; digits < 2;) {
        int text = fgetc(file);
        if (text == EOF)
            return digits == 0 ? EOF : -2;
        if (text == ' ' || text == '\t' || text == '\r' || text == '\n')
            continue;
        if (hex_digit(text) < 0)
            return -2;
        value = value * 16 + hex_digit(text);
        digits += 1;
    }
    return value;
}

/* All bytes of a file of hex text, to be freed; a null pointer where it can't be read or is no hex text. */
static inline uint8_t *hex_file(const char *name, size_t *count)
{
    FILE *file = fopen(name, "rb");
    size_t room = 4096;
    uint8_t *bytes = file == NULL ? NULL : malloc(room);
    int byte = EOF;
    *count = 0;
    while (bytes != NULL && (byte = hex_byte(file)) >= 0) {
        if (*count == room) {
            uint8_t *more = realloc(bytes, room *= 2);
            if (more == NULL)
                break;
            bytes = more;
        }
        bytes[(*count)++] = (uint8_t)byte;
    }
    if (file != NULL)
        fclose(file);
    if (bytes != NULL && byte != EOF) {
        free(bytes);
        bytes = NULL;
    }
    return bytes;
}

#endif
