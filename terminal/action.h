/* What keys do: a key of the station, several of them, or what the terminal does by itself. */
#ifndef ACTION_H
#define ACTION_H

#include <stdbool.h>
#include <stddef.h>
#include <stdint.h>

typedef enum {
    ACTION_NOTHING,
    ACTION_CHARACTER, /* its value is a Unicode scalar value, as of ACTION_INSERTED and ACTION_PASTED */
    ACTION_INSERTED,
    ACTION_PASTE_BEGINS, /* a paste, whose parts are the next three */
    ACTION_PASTED,
    ACTION_PASTED_END, /* the end of a pasted line */
    ACTION_PASTE_ENDS,
    ACTION_MOVE_TO,    /* its value is a cell's place, counted from 0 in screen order */
    ACTION_AID,        /* its value is RIBBON_AID_... */
    ACTION_LEFT,
    ACTION_RIGHT,
    ACTION_UP,
    ACTION_DOWN,
    ACTION_HOME,
    ACTION_TAB,
    ACTION_BACK_TAB,
    ACTION_NEW_LINE,
    ACTION_FIELD_BEGIN,
    ACTION_FIELD_END,
    ACTION_FIELD_EXIT,
    ACTION_FIELD_PLUS,
    ACTION_FIELD_MINUS,
    ACTION_DUP,
    ACTION_DELETE,
    ACTION_BACKSPACE,
    ACTION_ERASE_EOF,
    ACTION_ERASE_INPUT,
    ACTION_ATTENTION,
    ACTION_SYSTEM_REQUEST,
    /* What is no key of the station's: */
    ACTION_ITSELF, /* the character that the key types */
    ACTION_HIDDEN, /* what a macro leaves to whoever plays it */
    ACTION_RESET,
    ACTION_INSERT_MODE,
    ACTION_REDRAW,
    ACTION_STATUS,
    ACTION_MENU
} action_kind;

typedef struct {
    action_kind kind;
    uint32_t value;
} action;

/* An action that a keys file can name. */
typedef struct {
    const char *name;  /* in a keys file */
    const char *words; /* in the menu; nothing where it isn't there */
    action does;
} named_action;

/* The actions with names, in the order of the menu; F1 to F24 (`f1` to `f24`) aren't among them. */
extern const named_action action_names[];
extern const size_t action_name_count;

/* The action of a name; false where none has it. */
bool action_by_name(const char *name, action *found);

/* The name of an action that has one, also of a function key's; gives `text`, which is empty where it has none. */
const char *action_name(action does, char *text, size_t room);

bool action_is(action one, action other);

/* The action of a function key, 1 to 24. */
action action_of_function(unsigned number);

#endif
