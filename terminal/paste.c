#include "paste.h"

#include <stdio.h>

void paste_begin(paste *p)
{
    p->is_on = true;
    p->is_dropped = p->was_return = false;
}

action paste_character(paste *p, uint32_t character)
{
    bool was_return = p->was_return;
    p->was_return = character == '\r';
    if (character == '\n' && was_return)
        return (action){ACTION_NOTHING, 0};
    if (character == '\r' || character == '\n' || character == '\t')
        return (action){ACTION_PASTED_END, 0};
    return (action){ACTION_PASTED, character};
}

bool paste_is_part(action_kind kind)
{
    return kind == ACTION_PASTE_BEGINS || kind == ACTION_PASTED || kind == ACTION_PASTED_END
           || kind == ACTION_PASTE_ENDS;
}

void paste_start(paste *p)
{
    p->is_full = p->is_last = p->is_over = p->is_sent = false;
    p->count = p->total = 0;
    p->why[0] = 0;
}

bool paste_takes(paste *p)
{
    p->total++;
    if (p->is_sent)
        paste_stop(p, "Its field has sent the screen.");
    if (p->is_full)
        paste_stop(p, "The field is full.");
    if (p->is_over)
        paste_stop(p, "There is no field below.");
    return p->why[0] == 0;
}

void paste_went_in(paste *p, bool has_moved_on, bool is_below)
{
    p->count++;
    p->is_full = has_moved_on;
    p->is_last = has_moved_on && !is_below;
}

void paste_has_sent(paste *p)
{
    p->is_sent = true;
}

bool paste_line_ends(paste *p, bool has_below)
{
    bool moves = !p->is_full && !p->is_over && !p->is_sent && has_below && p->why[0] == 0;
    p->is_over = p->is_over || (p->is_full ? p->is_last : !has_below);
    p->is_full = false;
    return moves;
}

void paste_stop(paste *p, const char *why)
{
    if (p->why[0] == 0)
        (void)snprintf(p->why, sizeof p->why, "%s", why);
}

bool paste_told(const paste *p, char *text, size_t room)
{
    if (p->count > 0)
        (void)snprintf(text, room, "%zu of %zu pasted. %s", p->count, p->total, p->why);
    else
        (void)snprintf(text, room, "Nothing pasted. %s", p->why);
    return p->why[0] != 0;
}
