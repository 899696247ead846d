/* What is typed ahead: keys that wait, in order, until the keyboard is free. */
#ifndef AHEAD_H
#define AHEAD_H

#include "action.h"

enum { AHEAD_ROOM = 4096 };

typedef struct {
    action keys[AHEAD_ROOM];
    size_t first, count;
    bool is_full; /* a key had no room: none has before those that wait have been taken */
} ahead;

/* Puts a key after those that wait; false, and nothing is put, where there is no room, or was none before. */
bool ahead_put(ahead *a, action key);

/* Takes the key that has waited longest; false where none waits. */
bool ahead_take(ahead *a, action *key);

/* Drops all keys, and tells how many; the marks of pastes are none. */
size_t ahead_drop(ahead *a);

/* Drops those of the paste that was put last. */
void ahead_drop_paste(ahead *a);

/* The key that has waited longest, and that was put last; ACTION_NOTHING where none waits. */
action ahead_first(const ahead *a);
action ahead_last(const ahead *a);

#endif
