/* The characters of code pages in UTF-8: those below U+0100, of one byte or two, and the euro sign, of three. */
#ifndef UTF8_H
#define UTF8_H

#include <stddef.h>
#include <stdint.h>
#include <string.h>

enum { EURO = 0x20ac };

/* Puts such a character into a text, and tells of how many bytes. */
static inline size_t put_utf8(uint32_t character, char *text)
{
    if (character < 0x80) {
        text[0] = (char)character;
        return 1;
    }
    if (character == EURO) {
        memcpy(text, "\xe2\x82\xac", 3);
        return 3;
    }
    text[0] = (char)(0xc0 | character >> 6);
    text[1] = (char)(0x80 | (character & 0x3f));
    return 2;
}

/* Takes such a character off the front of a text, and tells of how many bytes; 0 where another stands there. */
static inline size_t take_utf8(const char *text, size_t size, uint32_t *character)
{
    uint8_t first = (uint8_t)text[0];
    if (first < 0x80) {
        *character = first;
        return 1;
    }
    if (size >= 3 && memcmp(text, "\xe2\x82\xac", 3) == 0) {
        *character = EURO;
        return 3;
    }
    if ((first != 0xc2 && first != 0xc3) || size < 2 || ((uint8_t)text[1] & 0xc0) != 0x80)
        return 0;
    *character = (uint32_t)(first & 0x03) << 6 | ((uint8_t)text[1] & 0x3f);
    return 2;
}

#endif
