#include "status.h"

#include <stdio.h>
#include <stdlib.h>
#include <string.h>

enum { SIGNS_ROOM = 48 };

/* The signs that are on, with a blank before each. */
static void put_signs(const status_parts *parts, char text[SIGNS_ROOM])
{
    (void)snprintf(text, SIGNS_ROOM, "%s%s%s%s%s%s%s", parts->security, parts->is_message_lit ? " MW" : "",
                   parts->is_inserting ? " INS" : "", parts->is_recording ? " REC" : "", parts->is_macro ? " MAC" : "",
                   parts->waits ? " T" : "", parts->has_refused ? " refused" : "");
}

size_t status_room(const status_parts *parts)
{
    char signs[SIGNS_ROOM];
    put_signs(parts, signs);
    return STATUS_COLUMNS - 1 - strlen(signs);
}

/* What stands at the right; the way on, the field's length and the cursor's place only where a long sentence leaves
 * room for them, and the signs unless it is whole without them. */
static void put_right(const status_parts *parts, size_t left_needs, char *text, size_t room)
{
    char signs[SIGNS_ROOM], place[12], way[40], field[24] = "";
    put_signs(parts, signs);
    (void)snprintf(place, sizeof place, "  %02u/%03u ", parts->row % 100, parts->column % 1000);
    (void)snprintf(way, sizeof way, "  %s", parts->way);
    if (parts->field_length > 0)
        (void)snprintf(field, sizeof field, "  field %u%s", parts->field_length, parts->is_full ? " full" : "");
    size_t least = left_needs + (parts->is_way_out ? strlen(way) : 0);
    if (parts->note[0] != 0 && least <= STATUS_COLUMNS && least + strlen(signs) > STATUS_COLUMNS)
        signs[0] = 0;
    size_t needs = left_needs + strlen(signs), with_way = needs + strlen(way), with_place = needs + strlen(place);
    bool has_way = parts->is_way_out || with_way + strlen(place) <= STATUS_COLUMNS;
    bool has_place = (parts->is_way_out ? with_way + strlen(place) : with_place) <= STATUS_COLUMNS;
    bool has_field = with_way + strlen(place) + strlen(field) <= STATUS_COLUMNS;
    (void)snprintf(text, room, "%s%s%s%s", signs, has_way ? way : "", has_field ? field : "", has_place ? place : "");
}

/* Fills the line's front with a text; where it is cut, two full stops say so. */
static void put_left(const wchar_t *text, size_t length, wchar_t *line, size_t room)
{
    line[0] = L' ';
    for (size_t at = 1; at < room; at++)
        line[at] = at - 1 < length ? text[at - 1] : L' ';
    if (length + 1 > room)
        line[room - 1] = line[room - 2] = L'.';
}

void status_line(const status_parts *parts, wchar_t line[STATUS_COLUMNS + 1])
{
    char left[600], right[2 * STATUS_COLUMNS];
    wchar_t wide[600];
    if (parts->note[0] != 0)
        (void)snprintf(left, sizeof left, "%s", parts->note);
    else
        (void)snprintf(left, sizeof left, "%s%s%s", parts->turn, parts->turn[0] != 0 ? "  " : "", parts->where);
    size_t length = mbstowcs(wide, left, sizeof wide / sizeof wide[0] - 1);
    if (length == (size_t)-1)
        length = 0;
    put_right(parts, length + 1, right, sizeof right);
    size_t room = STATUS_COLUMNS - strlen(right); /* it has 79 characters at most */
    put_left(wide, length, line, room);
    for (size_t at = room; at < STATUS_COLUMNS; at++)
        line[at] = (wchar_t)right[at - room];
    line[STATUS_COLUMNS] = 0;
}

void status_title(const status_parts *parts, char *text, size_t room)
{
    char signs[SIGNS_ROOM];
    put_signs(parts, signs);
    (void)snprintf(text, room, "%s%s%s%s%s - term5250", parts->where, parts->turn[0] != 0 ? ": " : "", parts->turn,
                   signs[0] != 0 ? ":" : "", signs);
}
