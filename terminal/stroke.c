#include "stroke.h"

#include <stdio.h>
#include <stdlib.h>
#include <string.h>
#include <strings.h>
#include <wchar.h>

static const struct {
    const char *name;
    stroke code;
} names[] = {
    {"Tab", STROKE_TAB}, {"Enter", STROKE_ENTER}, {"Left", STROKE_LEFT}, {"Right", STROKE_RIGHT}, {"Up", STROKE_UP},
    {"Down", STROKE_DOWN}, {"Home", STROKE_HOME}, {"End", STROKE_END}, {"Insert", STROKE_INSERT},
    {"Delete", STROKE_DELETE}, {"PageUp", STROKE_PAGE_UP}, {"PageDown", STROKE_PAGE_DOWN}, {"BackTab", STROKE_BACK_TAB},
    {"Backspace", STROKE_BACKSPACE}, {"KeypadEnter", STROKE_KEYPAD_ENTER}, {"KeypadPlus", STROKE_KEYPAD_PLUS},
    {"KeypadMinus", STROKE_KEYPAD_MINUS}, {"KeypadStar", STROKE_KEYPAD_STAR}, {"KeypadSlash", STROKE_KEYPAD_SLASH},
    {"KeypadPoint", STROKE_KEYPAD_POINT}, {"KeypadComma", STROKE_KEYPAD_COMMA}, {"KeypadEqual", STROKE_KEYPAD_EQUAL},
    {"WheelUp", STROKE_WHEEL_UP}, {"WheelDown", STROKE_WHEEL_DOWN}, {"Esc", STROKE_ESCAPE},
    /* The names of other programs, which no key is told by: */
    {"Return", STROKE_ENTER}, {"PgUp", STROKE_PAGE_UP}, {"PgDn", STROKE_PAGE_DOWN}, {"Shift-Tab", STROKE_BACK_TAB},
};

enum { NAMES = sizeof names / sizeof names[0] };

bool function_key_number(const char *digits, unsigned *number)
{
    if (digits[0] < '1' || digits[0] > '9')
        return false;
    char *end = NULL;
    unsigned long value = strtoul(digits, &end, 10);
    if (*end != 0 || value > 24)
        return false;
    *number = (unsigned)value;
    return true;
}

/* What stands behind one of the fronts; null where none of them begins the name. */
static const char *behind(const char *name, const char *const *fronts)
{
    for (; *fronts != NULL; fronts++)
        if (strncasecmp(name, *fronts, strlen(*fronts)) == 0)
            return name + strlen(*fronts);
    return NULL;
}

/* `F1` to `F24`, `Shift-F1` to `Shift-F12`, `Keypad0` to `Keypad9`. */
static bool by_number(const char *name, stroke *found)
{
    static const char *const keypad[] = {"Keypad", NULL}, *const shifted[] = {"Shift-F", NULL};
    static const char *const plain[] = {"F", NULL};
    const char *digit = behind(name, keypad), *upper = behind(name, shifted), *lower = behind(name, plain);
    unsigned number;
    if (digit != NULL && digit[0] >= '0' && digit[0] <= '9' && digit[1] == 0) {
        *found = STROKE_KEYPAD_0 + (stroke)(digit[0] - '0');
        return true;
    }
    if (upper != NULL && function_key_number(upper, &number) && number <= 12)
        number += 12;
    else if (lower == NULL || !function_key_number(lower, &number))
        return false;
    *found = STROKE_F1 + (stroke)number - 1;
    return true;
}

/* `^A` or `Ctrl-A` and its like. */
static bool by_control(const char *name, stroke *found)
{
    static const char *const fronts[] = {"^", "Ctrl-", NULL};
    const char *letters = behind(name, fronts);
    if (letters == NULL || letters[0] == 0 || letters[1] != 0)
        return false;
    stroke letter = (stroke)(unsigned char)letters[0];
    if (letter >= 'a' && letter <= 'z')
        letter -= 'a' - 'A';
    if (letter == '?' || letter == 'H')
        *found = STROKE_BACKSPACE;
    else if (letter >= '@' && letter <= '_')
        *found = letter & 0x1f;
    else
        return false;
    return true;
}

static bool plain_by_name(const char *name, stroke *found)
{
    for (size_t at = 0; at < NAMES; at++)
        if (strcasecmp(names[at].name, name) == 0) {
            *found = names[at].code;
            return true;
        }
    return by_control(name, found) || by_number(name, found);
}

bool stroke_by_name(const char *name, stroke *found)
{
    static const char *const fronts[] = {"Esc ", "Esc-", "Alt-", NULL};
    const char *rest = behind(name, fronts);
    if (rest == NULL)
        return plain_by_name(name, found) && *found != STROKE_ESCAPE;
    rest += strspn(rest, " ");
    wchar_t character = 0;
    mbstate_t state = {0};
    size_t length = mbrtowc(&character, rest, strlen(rest) + 1, &state);
    if (length > 0 && length < (size_t)-2 && rest[length] == 0)
        *found = (stroke)character;
    else if (!plain_by_name(rest, found))
        return false;
    *found |= STROKE_ESCAPED;
    return true;
}

static void plain_name(stroke s, char *text, size_t room)
{
    for (size_t at = 0; at < NAMES; at++)
        if (names[at].code == s) {
            snprintf(text, room, "%s", names[at].name);
            return;
        }
    if (s >= STROKE_F1 && s <= STROKE_F24)
        snprintf(text, room, "F%u", (unsigned)(s - STROKE_F1 + 1));
    else if (s >= STROKE_KEYPAD_0 && s <= STROKE_KEYPAD_9)
        snprintf(text, room, "Keypad%u", (unsigned)(s - STROKE_KEYPAD_0));
    else if (s < 0x20)
        snprintf(text, room, "^%c", (int)(s + '@'));
    else
        snprintf(text, room, "%lc", (wint_t)s);
}

const char *stroke_name(stroke s, char *text, size_t room)
{
    char plain[24];
    plain_name(s & ~(stroke)STROKE_ESCAPED, plain, sizeof plain);
    snprintf(text, room, "%s%s", s & STROKE_ESCAPED ? "Esc " : "", plain);
    return text;
}

uint32_t stroke_keypad_character(stroke s)
{
    static const char characters[] = "0123456789+-*/.,=";
    return s >= STROKE_KEYPAD_0 && s <= STROKE_KEYPAD_EQUAL ? (uint32_t)characters[s - STROKE_KEYPAD_0] : 0;
}
