#include "moves.h"

#include "label.h"

static ribbon_status press(ribbon_station *station, uint32_t kind, uint8_t *refusal)
{
    uint8_t answer[RIBBON_ANSWER_ROOM];
    ribbon_told told;
    ribbon_status status = ribbon_station_key(station, kind, 0, answer, sizeof answer, &told);
    *refusal = status == RIBBON_KEY_REFUSED ? told.reason : 0;
    return status;
}

static unsigned place_of(uint8_t row, uint8_t column)
{
    return (row - 1U) * RIBBON_COLUMNS + column - 1U;
}

static uint8_t row_of(unsigned place)
{
    return (uint8_t)(place / RIBBON_COLUMNS + 1);
}

static uint8_t column_of(unsigned place)
{
    return (uint8_t)(place % RIBBON_COLUMNS + 1);
}

/* What a call of the library answered that presses several keys. */
static ribbon_status several(ribbon_status status, const ribbon_told *told, uint8_t *refusal)
{
    *refusal = status == RIBBON_KEY_REFUSED ? told->reason : 0;
    return status;
}

ribbon_status moves_to(ribbon_station *station, uint8_t row, uint8_t column, uint8_t *refusal)
{
    ribbon_told told;
    return several(ribbon_station_move_cursor(station, row, column, &told), &told, refusal);
}

ribbon_status moves_new_line(ribbon_station *station, uint8_t *refusal)
{
    ribbon_told told;
    return several(ribbon_station_new_line(station, &told), &told, refusal);
}

ribbon_status moves_erase_eof(ribbon_station *station, uint8_t *refusal)
{
    ribbon_told told;
    return several(ribbon_station_erase_eof(station, &told), &told, refusal);
}

/* The state, the cursor's field, and the cursor's place in it; false where it stands in none. */
static bool has_field(ribbon_station *station, ribbon_state *state, ribbon_field *field, unsigned *offset)
{
    if (ribbon_station_state(station, state) != RIBBON_DONE
        || ribbon_station_field(station, state->cursor_field, field) != RIBBON_DONE)
        return false;
    *offset = place_of(state->cursor_row, state->cursor_column) - place_of(field->row, field->column);
    return true;
}

ribbon_status moves_field_begin(ribbon_station *station, uint8_t *refusal)
{
    ribbon_state state;
    ribbon_field field;
    unsigned offset;
    *refusal = 0;
    if (!has_field(station, &state, &field, &offset))
        return RIBBON_DONE;
    return moves_to(station, field.row, field.column, refusal);
}

/* How many cells of a field stand before its trailing empty ones and blanks. */
static ribbon_status text_length(ribbon_station *station, const ribbon_field *field, unsigned *length)
{
    ribbon_status status = RIBBON_DONE;
    unsigned first = place_of(field->row, field->column);
    for (*length = field->length; *length > 0; *length -= 1) {
        unsigned place = first + *length - 1;
        uint8_t byte;
        status = ribbon_station_cell(station, row_of(place), column_of(place), &byte);
        if (status != RIBBON_DONE || (byte != 0x00 && byte != 0x40))
            break;
    }
    return status;
}

ribbon_status moves_field_end(ribbon_station *station, uint8_t *refusal)
{
    ribbon_state state;
    ribbon_field field;
    unsigned offset, length;
    *refusal = 0;
    if (!has_field(station, &state, &field, &offset))
        return RIBBON_DONE;
    ribbon_status status = text_length(station, &field, &length);
    if (status != RIBBON_DONE)
        return status;
    if (length == field.length)
        length--;
    unsigned place = place_of(field.row, field.column) + length;
    return moves_to(station, row_of(place), column_of(place), refusal);
}

/* The place of a field's first empty cell; its first where none is. */
static unsigned empty_place(ribbon_station *station, const ribbon_field *field)
{
    unsigned first = place_of(field->row, field->column);
    for (unsigned place = first; place < first + field->length; place++) {
        uint8_t byte = 0;
        (void)ribbon_station_cell(station, row_of(place), column_of(place), &byte); /* all are on the screen */
        if (byte == 0x00)
            return place;
    }
    return first;
}

void moves_to_missing(ribbon_station *station, uint8_t refusal)
{
    ribbon_field field;
    uint8_t refused;
    if (!label_missing(station, refusal, &field))
        return;
    unsigned place = refusal == RIBBON_KEY_MANDATORY_FILL ? empty_place(station, &field)
                                                          : place_of(field.row, field.column);
    (void)moves_to(station, row_of(place), column_of(place), &refused); /* where it is refused the cursor stays */
}

bool moves_has_next(ribbon_station *station)
{
    ribbon_state state;
    ribbon_field field;
    if (ribbon_station_state(station, &state) != RIBBON_DONE)
        return false;
    unsigned cursor = place_of(state.cursor_row, state.cursor_column);
    for (size_t at = 0; ribbon_station_field(station, at, &field) == RIBBON_DONE; at++)
        if ((field.format & RIBBON_FORMAT_BYPASS) == 0 && place_of(field.row, field.column) > cursor)
            return true;
    return false;
}

ribbon_status moves_backspace(ribbon_station *station, uint8_t *refusal, bool *at_begin)
{
    ribbon_state state;
    ribbon_field field;
    unsigned offset = 1;
    *refusal = 0;
    *at_begin = false;
    if (!has_field(station, &state, &field, &offset) || (field.format & RIBBON_FORMAT_BYPASS) != 0)
        return press(station, RIBBON_KEY_DELETE, refusal); /* It is refused, by the reason of Backspace. */
    if (state.is_full)
        return press(station, RIBBON_KEY_DELETE, refusal);
    *at_begin = offset == 0;
    if (*at_begin)
        return RIBBON_DONE;
    ribbon_status status = press(station, RIBBON_KEY_LEFT, refusal);
    return status == RIBBON_DONE ? press(station, RIBBON_KEY_DELETE, refusal) : status;
}
