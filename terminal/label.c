#include "label.h"

#include <stdio.h>
#include <wchar.h>

static bool is_leader(const ribbon_cell *cell)
{
    uint32_t shown = cell->character;
    return cell->field == RIBBON_NO_FIELD && (shown == ' ' || shown == '.' || shown == ':');
}

static bool is_attribute(const ribbon_cell *cell)
{
    return cell->byte >= 0x20 && cell->byte <= 0x3f;
}

/* Where the text begins that ends before a cell. */
static size_t begin_of(const ribbon_cell *cells, size_t end)
{
    size_t begin = end;
    while (begin > 0 && cells[begin - 1].field == RIBBON_NO_FIELD && !is_attribute(&cells[begin - 1])
           && !(cells[begin - 1].character == ' ' && (begin < 2 || cells[begin - 2].character == ' ')))
        begin--;
    return begin;
}

bool label_of(ribbon_station *station, const ribbon_field *field, char text[LABEL_ROOM])
{
    ribbon_cell cells[RIBBON_COLUMNS];
    if (ribbon_station_cells(station, field->row, field->row, cells, RIBBON_COLUMNS) != RIBBON_DONE)
        return false;
    size_t end = field->column - 1U, had = 0;
    while (end > 0 && is_leader(&cells[end - 1]))
        end--;
    size_t begin = begin_of(cells, end);
    if (begin == end || end - begin > LABEL_LONGEST)
        return false;
    for (size_t at = begin; at < end; at++) {
        int length = snprintf(text + had, LABEL_ROOM - had, "%lc", (wint_t)cells[at].character);
        if (length < 0) /* the locale can't show it */
            return false;
        had += (size_t)length;
    }
    return true;
}

/* At a station of the profile, which doesn't tell it (SC30-3533, mandatory enter). */
static bool is_unentered(ribbon_station *station, ribbon_field *field)
{
    enum { DECIDING = RIBBON_FORMAT_BYPASS | RIBBON_FORMAT_MANDATORY_ENTER | RIBBON_FORMAT_MODIFIED };
    for (size_t at = 0; ribbon_station_field(station, at, field) == RIBBON_DONE; at++)
        if ((field->format & DECIDING) == RIBBON_FORMAT_MANDATORY_ENTER)
            return true;
    return false;
}

bool label_missing(ribbon_station *station, uint8_t refusal, ribbon_field *field)
{
    uint16_t index;
    if (ribbon_station_missing(station, refusal, &index) == RIBBON_DONE)
        return ribbon_station_field(station, index, field) == RIBBON_DONE;
    return refusal == RIBBON_KEY_MANDATORY_ENTER && is_unentered(station, field);
}
