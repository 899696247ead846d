#include "look.h"

look look_of(uint8_t attribute, bool has_colors)
{
    ribbon_look told;
    look l = {.color = LOOK_GREEN};
    if (ribbon_attribute_look(attribute, has_colors, &told) != RIBBON_DONE)
        return l; /* no cell has such an attribute */
    if (told.color != RIBBON_COLOR_NONE)
        l.color = (look_color)(told.color - RIBBON_COLOR_GREEN); /* both name the colours in one order */
    l.is_hidden = told.is_hidden;
    l.is_reversed = told.is_reversed;
    l.is_intense = told.is_intense;
    l.is_underscored = told.is_underscored;
    l.is_blinking = told.is_blinking;
    l.has_separators = told.has_separators;
    return l;
}

bool look_hides(ribbon_station *station)
{
    ribbon_state state;
    ribbon_cell cells[RIBBON_COLUMNS];
    if (ribbon_station_state(station, &state) != RIBBON_DONE
        || ribbon_station_cells(station, state.cursor_row, state.cursor_row, cells, RIBBON_COLUMNS) != RIBBON_DONE)
        return false;
    return look_of(cells[state.cursor_column - 1].attribute, true).is_hidden;
}
