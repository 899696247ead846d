/* The status line's words, and those of the window's title. */
#ifndef STATUS_H
#define STATUS_H

#include <stdbool.h>
#include <stddef.h>
#include <wchar.h>

enum { STATUS_COLUMNS = 80 };

typedef struct {
    const char *turn;  /* whose it is, in words, or nothing */
    const char *where; /* HOST:PORT */
    const char *note;  /* a sentence, or nothing; it stands in place of the two above, and is cut where it is long */
    const char *way;   /* the key that goes on from here, in words */
    const char *security; /* the sign of the line, with a blank before it, or nothing */
    bool is_way_out;   /* no other key does: it is never left out */
    bool is_message_lit, is_inserting, is_recording, is_macro, waits, has_refused;
    bool is_full; /* the cursor's field: a key has to leave it */
    unsigned field_length, row, column; /* the length is 0 where the cursor stands in no field */
} status_parts;

/* The columns of a sentence that is whole beside the signs. */
size_t status_room(const status_parts *parts);

/* The line, of 80 characters. */
void status_line(const status_parts *parts, wchar_t line[STATUS_COLUMNS + 1]);

/* A title: where, whose turn it is, and the signs that are on. */
void status_title(const status_parts *parts, char *text, size_t room);

#endif
