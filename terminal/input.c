#define _XOPEN_SOURCE_EXTENDED 1
#include "input.h"

#include <curses.h>
#include <stdlib.h>
#include <string.h>
#include <wctype.h>

/* Codes of our own, behind those of curses and those that it gives to keys of extended descriptions. */
enum { OWN = 0x2000, OWN_PASTE_BEGINS = OWN, OWN_PASTE_ENDS, OWN_STROKES };

enum { REPLACEMENT = 0xfffd /* Unicode, for what is no character */ };

/* What the numeric keypad sends as long as it is in its application mode (DEC VT100 and its kin). Descriptions lack it,
 * or name its keys by their place. */
static const struct {
    char final;
    stroke key;
} keypad_keys[] = {
    {'M', STROKE_KEYPAD_ENTER}, {'X', STROKE_KEYPAD_EQUAL}, {'j', STROKE_KEYPAD_STAR}, {'k', STROKE_KEYPAD_PLUS},
    {'l', STROKE_KEYPAD_COMMA}, {'m', STROKE_KEYPAD_MINUS}, {'n', STROKE_KEYPAD_POINT}, {'o', STROKE_KEYPAD_SLASH},
    {'p', STROKE_KEYPAD_0}, {'q', STROKE_KEYPAD_0 + 1}, {'r', STROKE_KEYPAD_0 + 2}, {'s', STROKE_KEYPAD_0 + 3},
    {'t', STROKE_KEYPAD_0 + 4}, {'u', STROKE_KEYPAD_0 + 5}, {'v', STROKE_KEYPAD_0 + 6}, {'w', STROKE_KEYPAD_0 + 7},
    {'x', STROKE_KEYPAD_0 + 8}, {'y', STROKE_KEYPAD_9},
};

/* What terminals send for keys in addition to what their descriptions say. */
static const struct {
    const char *sequence;
    stroke key;
} more_keys[] = {
    {"\033[A", STROKE_UP}, {"\033[B", STROKE_DOWN}, {"\033[C", STROKE_RIGHT}, {"\033[D", STROKE_LEFT},
    {"\033OA", STROKE_UP}, {"\033OB", STROKE_DOWN}, {"\033OC", STROKE_RIGHT}, {"\033OD", STROKE_LEFT},
    {"\033[H", STROKE_HOME}, {"\033[F", STROKE_END}, {"\033OH", STROKE_HOME}, {"\033OF", STROKE_END},
    {"\033[1~", STROKE_HOME}, {"\033[4~", STROKE_END}, {"\033[7~", STROKE_HOME}, {"\033[8~", STROKE_END},
    {"\033[2~", STROKE_INSERT}, {"\033[3~", STROKE_DELETE}, {"\033[5~", STROKE_PAGE_UP}, {"\033[6~", STROKE_PAGE_DOWN},
    {"\033[Z", STROKE_BACK_TAB}, {"\033OP", STROKE_F1}, {"\033OQ", STROKE_F1 + 1}, {"\033OR", STROKE_F1 + 2},
    {"\033OS", STROKE_F1 + 3}, {"\033[11~", STROKE_F1}, {"\033[12~", STROKE_F1 + 1}, {"\033[13~", STROKE_F1 + 2},
    {"\033[14~", STROKE_F1 + 3}, {"\033[15~", STROKE_F1 + 4}, {"\033[17~", STROKE_F1 + 5}, {"\033[18~", STROKE_F1 + 6},
    {"\033[19~", STROKE_F1 + 7}, {"\033[20~", STROKE_F1 + 8}, {"\033[21~", STROKE_F1 + 9}, {"\033[23~", STROKE_F1 + 10},
    {"\033[24~", STROKE_F1 + 11}, {"\033[25~", STROKE_F1 + 12}, {"\033[26~", STROKE_F1 + 13},
    {"\033[28~", STROKE_F1 + 14}, {"\033[29~", STROKE_F1 + 15}, {"\033[31~", STROKE_F1 + 16},
    {"\033[32~", STROKE_F1 + 17}, {"\033[33~", STROKE_F1 + 18}, {"\033[34~", STROKE_F1 + 19},
    {"\033[1;2P", STROKE_F1 + 12}, {"\033[1;2Q", STROKE_F1 + 13}, {"\033[1;2R", STROKE_F1 + 14},
    {"\033[1;2S", STROKE_F1 + 15}, {"\033O1;2P", STROKE_F1 + 12}, {"\033O1;2Q", STROKE_F1 + 13},
    {"\033O1;2R", STROKE_F1 + 14}, {"\033O1;2S", STROKE_F1 + 15}, {"\033[11;2~", STROKE_F1 + 12},
    {"\033[12;2~", STROKE_F1 + 13}, {"\033[13;2~", STROKE_F1 + 14}, {"\033[14;2~", STROKE_F1 + 15},
    {"\033[15;2~", STROKE_F1 + 16}, {"\033[17;2~", STROKE_F1 + 17}, {"\033[18;2~", STROKE_F1 + 18},
    {"\033[19;2~", STROKE_F1 + 19}, {"\033[20;2~", STROKE_F1 + 20}, {"\033[21;2~", STROKE_F1 + 21},
    {"\033[23;2~", STROKE_F1 + 22}, {"\033[24;2~", STROKE_F1 + 23},
    {"\033[[A", STROKE_F1}, {"\033[[B", STROKE_F1 + 1}, {"\033[[C", STROKE_F1 + 2}, {"\033[[D", STROKE_F1 + 3},
    {"\033[[E", STROKE_F1 + 4},
};

/* F1 to F12 with Alt, and the first of their codes, by the descriptions that have them. */
static const char *const alt_keys[] = {"\033[1;3P", "\033[1;3Q", "\033[1;3R", "\033[1;3S", "\033[15;3~", "\033[17;3~",
                                       "\033[18;3~", "\033[19;3~", "\033[20;3~", "\033[21;3~", "\033[23;3~",
                                       "\033[24;3~"};
enum { ALT_F1 = KEY_F(49) };

/* Codes of curses and their strokes. */
static const struct {
    int code;
    stroke key;
} curses_keys[] = {
    {KEY_LEFT, STROKE_LEFT}, {KEY_RIGHT, STROKE_RIGHT}, {KEY_UP, STROKE_UP}, {KEY_DOWN, STROKE_DOWN},
    {KEY_HOME, STROKE_HOME}, {KEY_END, STROKE_END}, {KEY_IC, STROKE_INSERT}, {KEY_DC, STROKE_DELETE},
    {KEY_PPAGE, STROKE_PAGE_UP}, {KEY_NPAGE, STROKE_PAGE_DOWN}, {KEY_BTAB, STROKE_BACK_TAB},
    {KEY_BACKSPACE, STROKE_BACKSPACE}, {KEY_ENTER, STROKE_KEYPAD_ENTER}, {KEY_A1, STROKE_HOME},
    {KEY_A3, STROKE_PAGE_UP}, {KEY_C1, STROKE_END}, {KEY_C3, STROKE_PAGE_DOWN},
};

void input_begin(void)
{
    (void)define_key("\033[200~", OWN_PASTE_BEGINS); /* what can't be defined is a key that nobody knows */
    (void)define_key("\033[201~", OWN_PASTE_ENDS);
    for (size_t at = 0; at < sizeof keypad_keys / sizeof keypad_keys[0]; at++) {
        const char sequence[] = {STROKE_ESCAPE, 'O', keypad_keys[at].final, 0};
        (void)define_key(sequence, (int)(OWN_STROKES + keypad_keys[at].key - STROKE_FIRST_NAMED));
    }
    for (size_t at = 0; at < sizeof more_keys / sizeof more_keys[0]; at++)
        if (key_defined(more_keys[at].sequence) == 0)
            (void)define_key(more_keys[at].sequence, (int)(OWN_STROKES + more_keys[at].key - STROKE_FIRST_NAMED));
    for (int at = 0; at < 12; at++)
        if (key_defined(alt_keys[at]) == 0)
            (void)define_key(alt_keys[at], ALT_F1 + at);
}

/* A click, or a step of the wheel, which curses has as buttons of its own. */
static void read_mouse(input *i)
{
    MEVENT event;
    i->kind = INPUT_UNKNOWN;
    if (getmouse(&event) != OK || event.y < 0 || event.x < 0)
        return;
    if ((event.bstate & (BUTTON4_PRESSED | BUTTON5_PRESSED)) != 0) {
        i->kind = INPUT_STROKE;
        i->key = (event.bstate & BUTTON4_PRESSED) != 0 ? STROKE_WHEEL_UP : STROKE_WHEEL_DOWN;
        return;
    }
    i->kind = INPUT_CLICK;
    i->row = (unsigned)event.y;
    i->column = (unsigned)event.x;
}

/* A key that has a code. */
static void read_coded(input_reader *r, int code, input *i)
{
    bool is_escaped = r->is_escaped;
    r->is_escaped = false;
    i->kind = INPUT_UNKNOWN;
    if (code == OWN_PASTE_BEGINS || code == OWN_PASTE_ENDS) {
        r->is_pasting = code == OWN_PASTE_BEGINS;
        i->kind = r->is_pasting ? INPUT_PASTE_BEGINS : INPUT_PASTE_ENDS;
        return;
    }
    if (r->is_pasting) { /* Escape sequences in pasted text are no keys. */
        *i = (input){.kind = INPUT_CHARACTER, .key = STROKE_ESCAPE};
        return;
    }
    if (code == KEY_MOUSE) {
        read_mouse(i);
        return;
    }
    if (code >= OWN_STROKES && code <= OWN_STROKES + STROKE_LAST_NAMED - STROKE_FIRST_NAMED)
        *i = (input){.kind = INPUT_STROKE, .key = STROKE_FIRST_NAMED + (stroke)(code - OWN_STROKES)};
    else if (code >= KEY_F(1) && code <= KEY_F(24))
        *i = (input){.kind = INPUT_STROKE, .key = STROKE_F1 + (stroke)(code - KEY_F(1))};
    else if (code >= ALT_F1 && code < ALT_F1 + 12)
        *i = (input){.kind = INPUT_STROKE, .key = STROKE_ESCAPED | (STROKE_F1 + (stroke)(code - ALT_F1))};
    for (size_t at = 0; at < sizeof curses_keys / sizeof curses_keys[0]; at++)
        if (curses_keys[at].code == code)
            *i = (input){.kind = INPUT_STROKE, .key = curses_keys[at].key};
    if (is_escaped)
        i->key |= STROKE_ESCAPED;
}

/* A character of a sequence that nobody knows. It is told, so that whoever typed its begin by hand hears of it; a
 * letter that was typed after that is a letter. */
static void read_sequence(input_reader *r, wchar_t character, input *i)
{
    bool is_end = r->sequence == SEQUENCE_STRING ? character == '\\' || character == 0x9c : character >= 0x40;
    bool is_typed = r->sequence == SEQUENCE_BEGUN && r->is_late && iswalpha((wint_t)character);
    if (!is_typed)
        i->kind = INPUT_UNKNOWN;
    if (r->sequence == SEQUENCE_BEGUN)
        r->sequence = SEQUENCE_CONTROL;
    if (is_end || character < 0x20)
        r->sequence = SEQUENCE_NONE;
}

/* What stands behind Esc. */
static bool read_escaped(input_reader *r, wchar_t character, input *i)
{
    r->is_escaped = false;
    if (character == '[' || character == ']' || character == 'O') {
        r->sequence = character == ']' ? SEQUENCE_STRING : SEQUENCE_BEGUN;
        r->is_late = false; /* what has come with it */
        return false;
    }
    *i = (input){.kind = INPUT_STROKE, .key = (stroke)character | STROKE_ESCAPED};
    return true;
}

/* A character; false where it only begins something. */
static bool read_character(input_reader *r, wchar_t character, input *i)
{
    *i = (input){.kind = INPUT_CHARACTER, .key = (stroke)character};
    if (r->is_pasting)
        return true;
    if (r->sequence != SEQUENCE_NONE) {
        read_sequence(r, character, i);
        return true;
    }
    if (r->is_escaped)
        return read_escaped(r, character, i);
    r->is_escaped = character == STROKE_ESCAPE;
    if (character == 0x7f || character == 0x08)
        i->key = STROKE_BACKSPACE;
    if (character < 0x20 || character == 0x7f)
        i->kind = INPUT_STROKE;
    return !r->is_escaped;
}

/* Bytes that are no character: of a paste they are one that no host has. What has come after a character's begin, and
 * isn't a part of it, is read anew. */
static bool read_broken(input_reader *r, int code, bool is_begun, input *i)
{
    memset(&r->state, 0, sizeof r->state);
    if (is_begun)
        (void)ungetch(code); /* it has just been taken from there */
    *i = (input){.kind = INPUT_CHARACTER, .key = REPLACEMENT};
    r->is_broken = r->is_broken || !r->is_pasting;
    return r->is_pasting;
}

/* What stands for a code; false where it is none by itself. */
static bool read_code(input_reader *r, int code, input *i)
{
    char byte = (char)code;
    wchar_t character = 0;
    bool is_begun = !mbsinit(&r->state);
    if (code > 0xff && !is_begun) {
        read_coded(r, code, i);
        return true;
    }
    size_t length = code > 0xff ? (size_t)-1 : mbrtowc(&character, &byte, 1, &r->state);
    if (length == (size_t)-1)
        return read_broken(r, code, is_begun, i);
    return length != (size_t)-2 && read_character(r, character, i);
}

bool input_next(input_reader *r, input *i)
{
    for (int code; (code = getch()) != ERR;)
        if (code != KEY_RESIZE && read_code(r, code, i))
            return true;
    return false;
}
