#include "ahead.h"

#include "paste.h"

bool ahead_put(ahead *a, action key)
{
    a->is_full = a->is_full || a->count == AHEAD_ROOM;
    if (a->is_full)
        return false;
    a->keys[(a->first + a->count) % AHEAD_ROOM] = key;
    a->count++;
    return true;
}

bool ahead_take(ahead *a, action *key)
{
    bool is_there = a->count > 0;
    if (is_there) {
        *key = a->keys[a->first];
        a->first = (a->first + 1) % AHEAD_ROOM;
        a->count--;
    }
    a->is_full = a->is_full && a->count > 0;
    return is_there;
}

size_t ahead_drop(ahead *a)
{
    size_t dropped = 0;
    for (action key; ahead_take(a, &key);)
        dropped += key.kind != ACTION_PASTE_BEGINS && key.kind != ACTION_PASTE_ENDS;
    return dropped;
}

action ahead_first(const ahead *a)
{
    return a->count > 0 ? a->keys[a->first] : (action){ACTION_NOTHING, 0};
}

action ahead_last(const ahead *a)
{
    return a->count > 0 ? a->keys[(a->first + a->count - 1) % AHEAD_ROOM] : (action){ACTION_NOTHING, 0};
}

void ahead_drop_paste(ahead *a)
{
    action last = ahead_last(a);
    while (paste_is_part(last.kind)) {
        a->count--;
        last = last.kind == ACTION_PASTE_BEGINS ? (action){ACTION_NOTHING, 0} : ahead_last(a);
    }
}
