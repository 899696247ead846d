/* Bodies of records, element by element (SC30-3533, commands and orders): each call appends one, as the proved library
 * spells it, or a text. Whether each may stand where it does is checked by ribbon_host_send. */
#include "ribbonscarp.h"

#include "exports.h"
#include "utf8.h"

#include <string.h>

/* The first call that fails is told by all further ones. */
static ribbon_status fails(ribbon_body *body, ribbon_status status)
{
    body->status = status;
    return status;
}

static ribbon_status append(ribbon_body *body, const uint8_t *bytes, size_t count)
{
    if (body == NULL)
        return RIBBON_NULL;
    if (body->status != RIBBON_DONE)
        return body->status;
    if (body->bytes == NULL && body->room > 0)
        return fails(body, RIBBON_NULL);
    if (body->room < body->size || body->room - body->size < count)
        return fails(body, RIBBON_NO_ROOM);
    if (count > 0)
        memcpy(body->bytes + body->size, bytes, count);
    body->size += count;
    return RIBBON_DONE;
}

/* Bytes that aren't to be appended: the first failure stands. */
static ribbon_status refuse(ribbon_body *body, ribbon_status status)
{
    if (body == NULL)
        return RIBBON_NULL;
    return body->status != RIBBON_DONE ? body->status : fails(body, status);
}

/* An element is spelled by the proved function, and then appended. `list` is what a header or an erase has of bytes. */
static ribbon_status append_element(ribbon_body *body, ribbon_element element, const uint8_t *list, size_t count)
{
    static const uint8_t none[1] = {0};
    uint8_t spelled[SPELLED_ROOM];
    ribbon_told told;
    ribbon_status status = ws_c_spell(&element, list != NULL ? list : none, count, spelled, sizeof spelled, &told);
    return status == RIBBON_DONE ? append(body, spelled, told.length) : refuse(body, status);
}

#define APPEND(body, ...) append_element((body), (ribbon_element){__VA_ARGS__}, NULL, 0)

void ribbon_body_begin(ribbon_body *body, uint8_t *bytes, size_t room)
{
    if (body != NULL)
        *body = (ribbon_body){bytes, room, 0, RIBBON_DONE};
}

ribbon_status ribbon_body_clear_unit(ribbon_body *body)
{
    return APPEND(body, .kind = ELEMENT_CLEAR_UNIT);
}

ribbon_status ribbon_body_clear_format(ribbon_body *body)
{
    return APPEND(body, .kind = ELEMENT_CLEAR_FORMAT);
}

ribbon_status ribbon_body_write(ribbon_body *body, uint8_t cc1, uint8_t cc2)
{
    return APPEND(body, .kind = ELEMENT_WRITE, .cc1 = cc1, .cc2 = cc2);
}

ribbon_status ribbon_body_read(ribbon_body *body, uint8_t read, uint8_t cc1, uint8_t cc2)
{
    static const uint32_t kinds[] = {
        [RIBBON_READ_INPUT] = ELEMENT_READ_INPUT,
        [RIBBON_READ_MDT] = ELEMENT_READ_MDT,
        [RIBBON_READ_MDT_ALTERNATE] = ELEMENT_READ_MDT_ALTERNATE,
    };
    uint32_t kind = read < sizeof kinds / sizeof kinds[0] ? kinds[read] : ELEMENT_NONE;
    return APPEND(body, .kind = kind, .cc1 = cc1, .cc2 = cc2);
}

ribbon_status ribbon_body_header(ribbon_body *body, const uint8_t *header, size_t count)
{
    if (header == NULL && count > 0)
        return refuse(body, RIBBON_NULL);
    return append_element(body, (ribbon_element){.kind = ELEMENT_HEADER}, header, count);
}

ribbon_status ribbon_body_address(ribbon_body *body, uint8_t row, uint8_t column)
{
    return APPEND(body, .kind = ELEMENT_SET_ADDRESS, .row = row, .column = column);
}

ribbon_status ribbon_body_insert_cursor(ribbon_body *body, uint8_t row, uint8_t column)
{
    return APPEND(body, .kind = ELEMENT_INSERT_CURSOR, .row = row, .column = column);
}

ribbon_status ribbon_body_move_cursor(ribbon_body *body, uint8_t row, uint8_t column)
{
    return APPEND(body, .kind = ELEMENT_MOVE_CURSOR, .row = row, .column = column);
}

ribbon_status ribbon_body_repeat(ribbon_body *body, uint8_t row, uint8_t column, uint8_t byte)
{
    return APPEND(body, .kind = ELEMENT_REPEAT, .row = row, .column = column, .byte = byte);
}

ribbon_status ribbon_body_erase(ribbon_body *body, uint8_t row, uint8_t column)
{
    static const uint8_t all[] = {0xff};
    ribbon_element element = {.kind = ELEMENT_ERASE, .row = row, .column = column};
    return append_element(body, element, all, sizeof all);
}

ribbon_status ribbon_body_field(ribbon_body *body, uint16_t format, uint8_t attribute, uint16_t length)
{
    return APPEND(body, .kind = ELEMENT_FIELD, .format = format, .byte = attribute, .length = length);
}

ribbon_status ribbon_body_output_field(ribbon_body *body, uint8_t attribute, uint16_t length)
{
    return APPEND(body, .kind = ELEMENT_OUTPUT_FIELD, .byte = attribute, .length = length);
}

ribbon_status ribbon_body_attribute(ribbon_body *body, uint8_t attribute)
{
    return APPEND(body, .kind = ELEMENT_ATTRIBUTE, .byte = attribute);
}

/* The text's characters are counted first, so that all of it is appended or nothing. */
ribbon_status ribbon_body_text(ribbon_body *body, const char *text, size_t size)
{
    uint32_t character;
    uint8_t byte;
    size_t count = 0;
    if (body == NULL)
        return RIBBON_NULL;
    if (body->status != RIBBON_DONE)
        return body->status;
    if (text == NULL && size > 0)
        return fails(body, RIBBON_NULL);
    for (size_t at = 0, taken; at < size; at += taken, count++) {
        taken = take_utf8(text + at, size - at, &character);
        if (taken == 0 || ws_c_to_page(37, character, &byte) != RIBBON_DONE)
            return fails(body, RIBBON_BAD_ARGUMENT);
    }
    if (body->room < body->size || body->room - body->size < count)
        return fails(body, RIBBON_NO_ROOM);
    for (size_t at = 0, taken; at < size; at += taken) {
        taken = take_utf8(text + at, size - at, &character);
        ws_c_to_page(37, character, &byte);
        append(body, &byte, 1);
    }
    return body->status;
}

ribbon_status ribbon_body_bytes(ribbon_body *body, const uint8_t *bytes, size_t count)
{
    return bytes == NULL && count > 0 ? refuse(body, RIBBON_NULL) : append(body, bytes, count);
}
