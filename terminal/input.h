/* What comes from the keyboard, as curses reads it. */
#ifndef INPUT_H
#define INPUT_H

#include "stroke.h"

#include <wchar.h>

typedef enum {
    INPUT_STROKE,
    INPUT_CHARACTER, /* one to type; between the marks of a paste every one */
    INPUT_CLICK,
    INPUT_PASTE_BEGINS,
    INPUT_PASTE_ENDS,
    INPUT_UNKNOWN /* a key that nobody knows */
} input_kind;

typedef struct {
    input_kind kind;
    stroke key;             /* of a stroke or a character */
    unsigned row, column; /* of a click, from 0 */
} input;

typedef struct {
    mbstate_t state; /* of a character that has come in part */
    bool is_escaped; /* Esc came, and what it stands before is still to come */
    bool is_pasting;
    bool is_broken; /* bytes came that are no character; who tells it sets it back */
    uint64_t heard; /* when something came last, in milliseconds; the caller's */
    bool is_late;   /* that was longer ago than a window takes for a sequence; the caller's too */
    /* One that nobody knows, and that is left. */
    enum { SEQUENCE_NONE, SEQUENCE_BEGUN, SEQUENCE_CONTROL, SEQUENCE_STRING } sequence;
} input_reader;

/* Tells curses of keys that its description of the terminal may lack. */
void input_begin(void);

/* Gives the next input; false where none has come. */
bool input_next(input_reader *r, input *i);

#endif
