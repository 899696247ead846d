/* Keys of the keyboard, by numbers of their own: a character is its Unicode scalar value, and what isn't one has a
 * number above all characters. */
#ifndef STROKE_H
#define STROKE_H

#include <stdbool.h>
#include <stddef.h>
#include <stdint.h>

typedef uint32_t stroke;

enum {
    STROKE_TAB = 0x09,
    STROKE_ENTER = 0x0d,
    STROKE_ESCAPE = 0x1b,
    STROKE_MENU = 0x1d, /* ^], which no keys file takes away */
    STROKE_FIRST_NAMED = 0x200000,
    STROKE_LEFT = STROKE_FIRST_NAMED,
    STROKE_RIGHT,
    STROKE_UP,
    STROKE_DOWN,
    STROKE_HOME,
    STROKE_END,
    STROKE_INSERT,
    STROKE_DELETE,
    STROKE_PAGE_UP,
    STROKE_PAGE_DOWN,
    STROKE_BACK_TAB,
    STROKE_BACKSPACE,
    STROKE_KEYPAD_ENTER,
    STROKE_KEYPAD_0,
    STROKE_KEYPAD_9 = STROKE_KEYPAD_0 + 9,
    STROKE_KEYPAD_PLUS,
    STROKE_KEYPAD_MINUS,
    STROKE_KEYPAD_STAR,
    STROKE_KEYPAD_SLASH,
    STROKE_KEYPAD_POINT,
    STROKE_KEYPAD_COMMA,
    STROKE_KEYPAD_EQUAL,
    STROKE_WHEEL_UP, /* of the mouse */
    STROKE_WHEEL_DOWN,
    STROKE_F1,
    STROKE_F24 = STROKE_F1 + 23,
    STROKE_LAST_NAMED = STROKE_F24,
    STROKE_ESCAPED = 0x400000 /* is added where Esc was pressed before it */
};

/* The stroke of a name: `^A` to `^Z`, `^]` and its like, also as `Ctrl-A`; `Tab`, `Enter`, `Left`, `F1` to `F24`,
 * `Shift-F1` to `Shift-F12` for F13 on, `Keypad0` and others of the table in stroke.c; with `Esc `, `Esc-` or `Alt-`
 * before it that behind Esc, where a character may stand by itself too. Letters of names in either case. False where
 * there is none of the name. */
bool stroke_by_name(const char *name, stroke *found);

/* The name, as stroke_by_name takes it; gives `text`. */
const char *stroke_name(stroke s, char *text, size_t room);

/* The number of a function key, 1 to 24, in digits that begin with no 0. False for any other text. */
bool function_key_number(const char *digits, unsigned *number);

/* The character that a key of the numeric keypad types, 0 where it isn't one. */
uint32_t stroke_keypad_character(stroke s);

#endif
