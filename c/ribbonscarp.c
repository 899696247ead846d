/* What a program calls: null pointers are told here, and all else by the proved function behind each. */
#include "ribbonscarp.h"

#include "exports.h"

#include <string.h>

/* An output that isn't null is zero where a pointer beside it is null. */
#define CLEAR(output)                                                                                                  \
    do {                                                                                                               \
        if ((output) != NULL)                                                                                          \
            memset((output), 0, sizeof *(output));                                                                     \
    } while (0)

/* A slice's pointer isn't null, not even that of an empty one. */
static const uint8_t *slice(const uint8_t *bytes)
{
    static const uint8_t empty[1] = {0};
    return bytes != NULL ? bytes : empty;
}

ribbon_status ribbon_station_new(ribbon_station *station, const char *terminal)
{
    if (station == NULL || terminal == NULL)
        return RIBBON_NULL;
    ribbon_status status = ws_c_station_new(&station->handle, (const uint8_t *)terminal, strlen(terminal));
    if (status == RIBBON_DONE)
        memset(station->seen, 0, sizeof station->seen);
    return status;
}

ribbon_status ribbon_station_new_extended(ribbon_station *station, const char *terminal)
{
    if (station == NULL || terminal == NULL)
        return RIBBON_NULL;
    ribbon_status status = ws_c_station_new_extended(&station->handle, (const uint8_t *)terminal, strlen(terminal));
    if (status == RIBBON_DONE)
        memset(station->seen, 0, sizeof station->seen);
    return status;
}

/* A name that crosses: none where its pointer is null. */
static size_t size_of_name(const char *name)
{
    return name != NULL ? strlen(name) : 0;
}

ribbon_status ribbon_station_new_live(ribbon_station *station, const char *terminal, const ribbon_identity *identity)
{
    ribbon_identity named = identity != NULL ? *identity : (ribbon_identity){NULL, NULL, 0};
    if (station == NULL || terminal == NULL)
        return RIBBON_NULL;
    if (identity != NULL && named.code_page == 0)
        named.code_page = 37;
    ribbon_status status = ws_c_station_new_live(&station->handle, (const uint8_t *)terminal, strlen(terminal),
                                                 named.code_page, slice((const uint8_t *)named.device),
                                                 size_of_name(named.device), slice((const uint8_t *)named.keyboard),
                                                 size_of_name(named.keyboard));
    if (status == RIBBON_DONE)
        memset(station->seen, 0, sizeof station->seen);
    return status;
}

void ribbon_station_free(ribbon_station *station)
{
    if (station != NULL)
        ws_c_station_free(&station->handle);
}

ribbon_status ribbon_station_push(ribbon_station *station, const uint8_t *bytes, size_t count, uint8_t *reply,
                                  size_t room, ribbon_pushed *pushed)
{
    CLEAR(pushed);
    if (station == NULL || reply == NULL || pushed == NULL || (bytes == NULL && count > 0))
        return RIBBON_NULL;
    return ws_c_station_push(&station->handle, slice(bytes), count, reply, room, pushed);
}

ribbon_status ribbon_station_key(ribbon_station *station, uint32_t kind, uint32_t value, uint8_t *answer, size_t room,
                                 ribbon_told *told)
{
    CLEAR(told);
    if (station == NULL || answer == NULL || told == NULL)
        return RIBBON_NULL;
    return ws_c_station_key(&station->handle, kind, value, answer, room, told);
}

ribbon_status ribbon_station_missing(ribbon_station *station, uint8_t refusal, uint16_t *field)
{
    CLEAR(field);
    if (station == NULL || field == NULL)
        return RIBBON_NULL;
    return ws_c_station_missing(&station->handle, refusal, field);
}

ribbon_status ribbon_station_move_cursor(ribbon_station *station, uint8_t row, uint8_t column, ribbon_told *told)
{
    CLEAR(told);
    if (station == NULL || told == NULL)
        return RIBBON_NULL;
    return ws_c_station_move_cursor(&station->handle, row, column, told);
}

ribbon_status ribbon_station_new_line(ribbon_station *station, ribbon_told *told)
{
    CLEAR(told);
    if (station == NULL || told == NULL)
        return RIBBON_NULL;
    return ws_c_station_new_line(&station->handle, told);
}

ribbon_status ribbon_station_erase_eof(ribbon_station *station, ribbon_told *told)
{
    CLEAR(told);
    if (station == NULL || told == NULL)
        return RIBBON_NULL;
    return ws_c_station_erase_eof(&station->handle, told);
}

ribbon_status ribbon_station_state(ribbon_station *station, ribbon_state *state)
{
    CLEAR(state);
    if (station == NULL || state == NULL)
        return RIBBON_NULL;
    return ws_c_station_state(&station->handle, state);
}

ribbon_status ribbon_station_cell(ribbon_station *station, uint8_t row, uint8_t column, uint8_t *byte)
{
    CLEAR(byte);
    if (station == NULL || byte == NULL)
        return RIBBON_NULL;
    return ws_c_station_cell(&station->handle, row, column, byte);
}

ribbon_status ribbon_station_cells(ribbon_station *station, uint8_t first_row, uint8_t last_row, ribbon_cell *cells,
                                   size_t room)
{
    if (station == NULL || cells == NULL)
        return RIBBON_NULL;
    return ws_c_station_cells(&station->handle, first_row, last_row, cells, room);
}

/* Whether a row shows something else than when it was seen last; it is seen now. An attribute is kept without its 20, so
 * that an empty screen is of zero bytes. */
static bool sees_another(uint8_t seen[RIBBON_COLUMNS][2], const ribbon_cell *cells)
{
    bool is_another = false;
    for (size_t column = 0; column < RIBBON_COLUMNS; column++) {
        uint8_t attribute = cells[column].attribute ^ 0x20;
        is_another |= seen[column][0] != cells[column].byte || seen[column][1] != attribute;
        seen[column][0] = cells[column].byte;
        seen[column][1] = attribute;
    }
    return is_another;
}

ribbon_status ribbon_station_changed(ribbon_station *station, uint32_t *rows)
{
    enum { SOME = 8 }; /* rows at a time, for the stack's sake */
    ribbon_cell cells[SOME][RIBBON_COLUMNS];
    CLEAR(rows);
    if (station == NULL || rows == NULL)
        return RIBBON_NULL;
    for (uint8_t first = 0; first < RIBBON_ROWS; first += SOME) {
        ribbon_status status = ws_c_station_cells(&station->handle, (uint8_t)(first + 1), (uint8_t)(first + SOME), cells[0],
                                                  SOME * RIBBON_COLUMNS);
        if (status != RIBBON_DONE)
            return status;
        for (uint8_t row = 0; row < SOME; row++)
            if (sees_another(station->seen[first + row], cells[row]))
                *rows |= 1u << (first + row);
    }
    return RIBBON_DONE;
}

ribbon_status ribbon_station_row(ribbon_station *station, uint8_t row, char *text, size_t room, ribbon_told *told)
{
    CLEAR(told);
    if (station == NULL || text == NULL || told == NULL)
        return RIBBON_NULL;
    return ws_c_station_row(&station->handle, row, (uint8_t *)text, room, told);
}

ribbon_status ribbon_station_field(ribbon_station *station, size_t index, ribbon_field *field)
{
    CLEAR(field);
    if (station == NULL || field == NULL)
        return RIBBON_NULL;
    return ws_c_station_field(&station->handle, index, field);
}

ribbon_status ribbon_station_field_text(ribbon_station *station, size_t index, char *text, size_t room,
                                        ribbon_told *told)
{
    CLEAR(told);
    if (station == NULL || text == NULL || told == NULL)
        return RIBBON_NULL;
    return ws_c_station_field_text(&station->handle, index, (uint8_t *)text, room, told);
}

ribbon_status ribbon_host_new(ribbon_host *host, uint8_t *opening, size_t room, ribbon_told *told)
{
    CLEAR(told);
    if (host == NULL || opening == NULL || told == NULL)
        return RIBBON_NULL;
    return ws_c_host_new(&host->handle, opening, room, told);
}

void ribbon_host_free(ribbon_host *host)
{
    if (host != NULL)
        ws_c_host_free(&host->handle);
}

ribbon_status ribbon_host_push(ribbon_host *host, const uint8_t *bytes, size_t count, uint8_t *reply, size_t room,
                               ribbon_pushed *pushed, ribbon_event *event)
{
    CLEAR(pushed);
    CLEAR(event);
    if (host == NULL || reply == NULL || pushed == NULL || event == NULL || (bytes == NULL && count > 0))
        return RIBBON_NULL;
    return ws_c_host_push(&host->handle, slice(bytes), count, reply, room, pushed, event);
}

ribbon_status ribbon_host_send(ribbon_host *host, uint8_t opcode, const uint8_t *body, size_t size, ribbon_told *told)
{
    CLEAR(told);
    if (host == NULL || told == NULL || (body == NULL && size > 0))
        return RIBBON_NULL;
    return ws_c_host_send(&host->handle, opcode, slice(body), size, told);
}

ribbon_status ribbon_host_sent(ribbon_host *host, uint8_t *record, size_t room, ribbon_told *told)
{
    CLEAR(told);
    if (host == NULL || record == NULL || told == NULL)
        return RIBBON_NULL;
    return ws_c_host_sent(&host->handle, record, room, told);
}

ribbon_status ribbon_host_cancel(ribbon_host *host, uint8_t *record, size_t room, ribbon_told *told)
{
    CLEAR(told);
    if (host == NULL || record == NULL || told == NULL)
        return RIBBON_NULL;
    return ws_c_host_cancel(&host->handle, record, room, told);
}

ribbon_status ribbon_host_answer(ribbon_host *host, ribbon_answer *answer)
{
    CLEAR(answer);
    if (host == NULL || answer == NULL)
        return RIBBON_NULL;
    return ws_c_host_answer(&host->handle, answer);
}

ribbon_status ribbon_host_answer_field(ribbon_host *host, size_t index, uint8_t *content, size_t room,
                                       ribbon_read_field *field)
{
    CLEAR(field);
    if (host == NULL || content == NULL || field == NULL)
        return RIBBON_NULL;
    return ws_c_host_answer_field(&host->handle, index, content, room, field);
}

ribbon_status ribbon_host_state(ribbon_host *host, ribbon_state *state)
{
    CLEAR(state);
    if (host == NULL || state == NULL)
        return RIBBON_NULL;
    return ws_c_host_state(&host->handle, state);
}

ribbon_status ribbon_host_cells(ribbon_host *host, uint8_t first_row, uint8_t last_row, ribbon_cell *cells, size_t room)
{
    if (host == NULL || cells == NULL)
        return RIBBON_NULL;
    return ws_c_host_cells(&host->handle, first_row, last_row, cells, room);
}

ribbon_status ribbon_host_field(ribbon_host *host, size_t index, ribbon_field *field)
{
    CLEAR(field);
    if (host == NULL || field == NULL)
        return RIBBON_NULL;
    return ws_c_host_field(&host->handle, index, field);
}

ribbon_status ribbon_decoder_new(ribbon_decoder *decoder)
{
    if (decoder == NULL)
        return RIBBON_NULL;
    return ws_c_decoder_new(&decoder->handle);
}

ribbon_status ribbon_decoder_new_extended(ribbon_decoder *decoder)
{
    if (decoder == NULL)
        return RIBBON_NULL;
    return ws_c_decoder_new_extended(&decoder->handle);
}

void ribbon_decoder_free(ribbon_decoder *decoder)
{
    if (decoder != NULL)
        ws_c_decoder_free(&decoder->handle);
}

ribbon_status ribbon_decoder_push(ribbon_decoder *decoder, const uint8_t *bytes, size_t count, uint8_t *unit,
                                  size_t room, ribbon_step *step)
{
    CLEAR(step);
    if (decoder == NULL || unit == NULL || step == NULL || (bytes == NULL && count > 0))
        return RIBBON_NULL;
    return ws_c_decoder_push(&decoder->handle, slice(bytes), count, unit, room, step);
}

ribbon_status ribbon_decoder_finish(ribbon_decoder *decoder, uint64_t *place)
{
    CLEAR(place);
    if (decoder == NULL || place == NULL)
        return RIBBON_NULL;
    return ws_c_decoder_finish(&decoder->handle, place);
}

ribbon_status ribbon_attribute_look(uint8_t attribute, bool is_color, ribbon_look *look)
{
    if (look == NULL)
        return RIBBON_NULL;
    return ws_c_attribute_look(attribute, is_color, look);
}

/* A byte brings at most RIBBON_REPLY_ROOM bytes, and so many are to be left before each. A command of 3 bytes or more
 * brings at most three for each of its own, so the first of `count` bytes, which may end a command that began before,
 * brings 17, and each further at most 3. */
size_t ribbon_reply_room(size_t count)
{
    if (count > (SIZE_MAX - 2 * RIBBON_REPLY_ROOM) / 3)
        return SIZE_MAX;
    return 3 * count + 2 * RIBBON_REPLY_ROOM;
}
