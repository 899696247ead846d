/* Code pages: the proved functions give a character for a byte and a byte for a character; here texts are made of them, in
 * UTF-8. Their characters lie below U+0100, but for the euro sign. */
#include "ribbonscarp.h"

#include "exports.h"
#include "utf8.h"

enum { US = 37 };

/* Each page has a blank. */
static bool is_page(uint16_t page)
{
    uint32_t blank;
    return ws_c_from_page(page, 0x40, &blank) == RIBBON_DONE;
}

ribbon_status ribbon_from_page(uint16_t page, uint8_t byte, uint32_t *character)
{
    if (character == NULL)
        return RIBBON_NULL;
    return ws_c_from_page(page, byte, character);
}

ribbon_status ribbon_to_page(uint16_t page, uint32_t character, uint8_t *byte)
{
    if (byte == NULL)
        return RIBBON_NULL;
    return ws_c_to_page(page, character, byte);
}

/* Where the text has room for so many characters, puts those of `count` bytes there. */
static ribbon_status put_text(uint16_t page, const uint8_t *bytes, size_t count, char *text, size_t characters,
                              ribbon_told *told)
{
    if (told != NULL)
        *told = (ribbon_told){0, 0, 0};
    if (text == NULL || told == NULL || (bytes == NULL && count > 0))
        return RIBBON_NULL;
    if (!is_page(page))
        return RIBBON_BAD_ARGUMENT;
    if (characters < count)
        return RIBBON_NO_ROOM;
    for (size_t at = 0; at < count; at++) {
        uint32_t character;
        if (ws_c_from_page(page, bytes[at], &character) != RIBBON_DONE) {
            told->place = at;
            return RIBBON_BAD_ARGUMENT;
        }
        told->length += put_utf8(character, text + told->length);
    }
    return RIBBON_DONE;
}

ribbon_status ribbon_text_from_page(uint16_t page, const uint8_t *bytes, size_t count, char *text, size_t room,
                                    ribbon_told *told)
{
    return put_text(page, bytes, count, text, room / RIBBON_PAGE_CHARACTER_ROOM, told);
}

ribbon_status ribbon_text_to_page(uint16_t page, const char *text, size_t size, uint8_t *bytes, size_t room,
                                  ribbon_told *told)
{
    if (told != NULL)
        *told = (ribbon_told){0, 0, 0};
    if (bytes == NULL || told == NULL || (text == NULL && size > 0))
        return RIBBON_NULL;
    if (!is_page(page))
        return RIBBON_BAD_ARGUMENT;
    if (room < size)
        return RIBBON_NO_ROOM;
    for (size_t at = 0; at < size;) {
        uint32_t character;
        uint8_t byte;
        size_t taken = take_utf8(text + at, size - at, &character);
        if (taken == 0 || ws_c_to_page(page, character, &byte) != RIBBON_DONE) {
            told->place = at;
            return RIBBON_BAD_ARGUMENT;
        }
        bytes[told->length++] = byte;
        at += taken;
    }
    return RIBBON_DONE;
}

ribbon_status ribbon_from_037(uint8_t byte, uint32_t *character)
{
    return ribbon_from_page(US, byte, character);
}

ribbon_status ribbon_to_037(uint32_t character, uint8_t *byte)
{
    return ribbon_to_page(US, character, byte);
}

ribbon_status ribbon_text_from_037(const uint8_t *bytes, size_t count, char *text, size_t room, ribbon_told *told)
{
    return put_text(US, bytes, count, text, room / RIBBON_CHARACTER_ROOM, told);
}

ribbon_status ribbon_text_to_037(const char *text, size_t size, uint8_t *bytes, size_t room, ribbon_told *told)
{
    return ribbon_text_to_page(US, text, size, bytes, room, told);
}
