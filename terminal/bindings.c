#include "bindings.h"

#include "ribbonscarp.h"

#include <string.h>

#define CONTROL(letter) ((letter) & 0x1f)
#define ESCAPED(key) ((key) | STROKE_ESCAPED)

typedef struct {
    stroke key;
    action does;
} binding;

/* In the order in which the menu names the keys of an action. */
static const binding first[] = {
    {STROKE_ENTER, {ACTION_AID, RIBBON_AID_ENTER}},
    {STROKE_KEYPAD_ENTER, {ACTION_AID, RIBBON_AID_ENTER}},
    {CONTROL('R'), {ACTION_RESET, 0}},
    {ESCAPED(STROKE_ESCAPE), {ACTION_RESET, 0}},
    {STROKE_TAB, {ACTION_TAB, 0}},
    {STROKE_BACK_TAB, {ACTION_BACK_TAB, 0}},
    {CONTROL('J'), {ACTION_NEW_LINE, 0}},
    {STROKE_END, {ACTION_FIELD_EXIT, 0}},
    {CONTROL('X'), {ACTION_FIELD_EXIT, 0}},
    {CONTROL('F'), {ACTION_FIELD_PLUS, 0}},
    {STROKE_KEYPAD_PLUS, {ACTION_FIELD_PLUS, 0}},
    {CONTROL('N'), {ACTION_FIELD_MINUS, 0}},
    {STROKE_KEYPAD_MINUS, {ACTION_FIELD_MINUS, 0}},
    {CONTROL('D'), {ACTION_DUP, 0}},
    {CONTROL('K'), {ACTION_ERASE_EOF, 0}},
    {ESCAPED('e'), {ACTION_ERASE_INPUT, 0}},
    {STROKE_HOME, {ACTION_HOME, 0}},
    {STROKE_LEFT, {ACTION_LEFT, 0}},
    {STROKE_RIGHT, {ACTION_RIGHT, 0}},
    {STROKE_UP, {ACTION_UP, 0}},
    {STROKE_DOWN, {ACTION_DOWN, 0}},
    {CONTROL('A'), {ACTION_FIELD_BEGIN, 0}},
    {CONTROL('E'), {ACTION_FIELD_END, 0}},
    {STROKE_DELETE, {ACTION_DELETE, 0}},
    {STROKE_BACKSPACE, {ACTION_BACKSPACE, 0}},
    {STROKE_INSERT, {ACTION_INSERT_MODE, 0}},
    {CONTROL('O'), {ACTION_INSERT_MODE, 0}},
    {STROKE_PAGE_UP, {ACTION_AID, RIBBON_AID_ROLL_DOWN}},
    {STROKE_WHEEL_UP, {ACTION_AID, RIBBON_AID_ROLL_DOWN}},
    {STROKE_PAGE_DOWN, {ACTION_AID, RIBBON_AID_ROLL_UP}},
    {STROKE_WHEEL_DOWN, {ACTION_AID, RIBBON_AID_ROLL_UP}},
    {ESCAPED('a'), {ACTION_ATTENTION, 0}},
    {CONTROL('T'), {ACTION_SYSTEM_REQUEST, 0}},
    {ESCAPED('s'), {ACTION_SYSTEM_REQUEST, 0}},
    {ESCAPED('c'), {ACTION_AID, RIBBON_AID_CLEAR}},
    {CONTROL('G'), {ACTION_AID, RIBBON_AID_HELP}},
    {ESCAPED('h'), {ACTION_AID, RIBBON_AID_HELP}},
    {CONTROL('P'), {ACTION_AID, RIBBON_AID_PRINT}},
    {ESCAPED('b'), {ACTION_AID, RIBBON_AID_RECORD_BACKSPACE}},
    {CONTROL('L'), {ACTION_REDRAW, 0}},
    {CONTROL('S'), {ACTION_STATUS, 0}},
    {STROKE_MENU, {ACTION_MENU, 0}},
};

static const binding tn5250[] = {
    {CONTROL('A'), {ACTION_ATTENTION, 0}},
    {CONTROL('B'), {ACTION_AID, RIBBON_AID_ROLL_DOWN}},
    {CONTROL('C'), {ACTION_SYSTEM_REQUEST, 0}},
    {CONTROL('D'), {ACTION_AID, RIBBON_AID_ROLL_UP}},
    {CONTROL('E'), {ACTION_ERASE_INPUT, 0}},
    {CONTROL('F'), {ACTION_AID, RIBBON_AID_ROLL_UP}},
    {CONTROL('G'), {ACTION_ITSELF, 0}}, /* there it stands before a function key's number */
    {CONTROL('K'), {ACTION_FIELD_EXIT, 0}},
    {CONTROL('O'), {ACTION_HOME, 0}},
    {CONTROL('Q'), {ACTION_MENU, 0}},
    {CONTROL('T'), {ACTION_ITSELF, 0}}, /* Test Request, which isn't here */
    {CONTROL('U'), {ACTION_AID, RIBBON_AID_ROLL_DOWN}},
    {ESCAPED('d'), {ACTION_DUP, 0}},
    {ESCAPED('i'), {ACTION_INSERT_MODE, 0}},
    {ESCAPED('l'), {ACTION_REDRAW, 0}},
    {ESCAPED('m'), {ACTION_FIELD_MINUS, 0}},
    {ESCAPED('p'), {ACTION_AID, RIBBON_AID_PRINT}},
    {ESCAPED('r'), {ACTION_RESET, 0}},
    {ESCAPED('x'), {ACTION_FIELD_EXIT, 0}},
    {ESCAPED(STROKE_ENTER), {ACTION_NEW_LINE, 0}},
};

bool bindings_set(bindings *b, stroke key, action does)
{
    size_t at = 0;
    while (at < b->count && b->rows[at].key != key)
        at++;
    if (at == BINDINGS)
        return false;
    b->rows[at].key = key;
    b->rows[at].does = does;
    if (at == b->count)
        b->count++;
    return true;
}

void bindings_begin(bindings *b)
{
    static const char digits[] = "1234567890-=", above[] = "!@#$%^&*()_+";
    b->count = 0;
    b->is_tn5250 = false;
    for (size_t at = 0; at < sizeof first / sizeof first[0]; at++)
        (void)bindings_set(b, first[at].key, first[at].does); /* there is room for all */
    for (unsigned number = 1; number <= 24; number++)
        (void)bindings_set(b, STROKE_F1 + number - 1, action_of_function(number));
    for (unsigned number = 1; number <= 12; number++) {
        (void)bindings_set(b, ESCAPED((stroke)digits[number - 1]), action_of_function(number));
        (void)bindings_set(b, ESCAPED((stroke)above[number - 1]), action_of_function(number + 12));
        (void)bindings_set(b, ESCAPED(STROKE_F1 + number - 1), action_of_function(number + 12));
    }
}

void bindings_tn5250(bindings *b)
{
    b->is_tn5250 = true;
    for (size_t at = 0; at < sizeof tn5250 / sizeof tn5250[0]; at++)
        (void)bindings_set(b, tn5250[at].key, tn5250[at].does); /* there is room for all */
}

bool bindings_find(const bindings *b, stroke key, action *does)
{
    for (size_t at = 0; at < b->count; at++)
        if (b->rows[at].key == key) {
            *does = b->rows[at].does;
            return true;
        }
    bool is_capital = key >= ESCAPED((stroke)'A') && key <= ESCAPED((stroke)'Z');
    return is_capital && bindings_find(b, key + 'a' - 'A', does);
}

void bindings_keys(const bindings *b, action does, char *text, size_t room)
{
    size_t had = 0;
    text[0] = 0;
    for (size_t at = 0; at < b->count; at++) {
        char name[32], more[36];
        if (!action_is(b->rows[at].does, does))
            continue;
        int length = snprintf(more, sizeof more, "%s%s", had > 0 ? ", " : "",
                              stroke_name(b->rows[at].key, name, sizeof name));
        if (length < 0 || had + (size_t)length >= room)
            return;
        memcpy(text + had, more, (size_t)length + 1);
        had += (size_t)length;
    }
}
