/* A macro: keys that were pressed, to be pressed again, and the file that keeps them. */
#ifndef MACRO_H
#define MACRO_H

#include "action.h"

#include <stdio.h>

enum { MACRO_ROOM = 4096 };

typedef struct {
    enum { MACRO_RESTS, MACRO_RECORDS, MACRO_PLAYS } state;
    action keys[MACRO_ROOM];
    size_t count;
    size_t next; /* of them, while it plays */
} macro;

/* Begins to record, or to play what is there. */
void macro_record(macro *m);
void macro_play(macro *m);

/* Records a key; false where there is no room. ACTION_HIDDEN, which stands for what isn't recorded, only once in a
 * row. */
bool macro_add(macro *m, action key);

/* The key that is played next; false where none is left, and it rests. */
bool macro_next(const macro *m, action *key);
void macro_went_on(macro *m);

/* Stops what plays, and tells how many keys are left. */
size_t macro_stop(macro *m);

/* Writes the keys, a line each: its action's name, `text WORDS` or `inserted WORDS` for characters in a row, `cursor
 * ROW COLUMN` for a click, `hidden` for ACTION_HIDDEN. False, by errno, where that can't be. */
bool macro_write(const macro *m, FILE *file);

/* Reads such a file, in which lines that begin with # say nothing. False, with a sentence that names the line, where it
 * is none. */
bool macro_read(macro *m, FILE *file, char *why, size_t room);

#endif
