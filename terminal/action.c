#include "action.h"

#include "ribbonscarp.h"
#include "stroke.h"

#include <stdio.h>
#include <string.h>

const named_action action_names[] = {
    {"enter", "Enter", {ACTION_AID, RIBBON_AID_ENTER}},
    {"reset", "Reset", {ACTION_RESET, 0}},
    {"tab", "Next field", {ACTION_TAB, 0}},
    {"back-tab", "Field before", {ACTION_BACK_TAB, 0}},
    {"new-line", "New Line", {ACTION_NEW_LINE, 0}},
    {"field-exit", "Field Exit", {ACTION_FIELD_EXIT, 0}},
    {"field-plus", "Field Plus", {ACTION_FIELD_PLUS, 0}},
    {"field-minus", "Field Minus", {ACTION_FIELD_MINUS, 0}},
    {"dup", "Dup", {ACTION_DUP, 0}},
    {"erase-eof", "Erase EOF", {ACTION_ERASE_EOF, 0}},
    {"erase-input", "Erase Input", {ACTION_ERASE_INPUT, 0}},
    {"home", "Home", {ACTION_HOME, 0}},
    {"left", "Left", {ACTION_LEFT, 0}},
    {"right", "Right", {ACTION_RIGHT, 0}},
    {"up", "Up", {ACTION_UP, 0}},
    {"down", "Down", {ACTION_DOWN, 0}},
    {"field-begin", "Field's begin", {ACTION_FIELD_BEGIN, 0}},
    {"field-end", "Text's end", {ACTION_FIELD_END, 0}},
    {"delete", "Delete", {ACTION_DELETE, 0}},
    {"backspace", "Backspace", {ACTION_BACKSPACE, 0}},
    {"insert", "Insert mode", {ACTION_INSERT_MODE, 0}},
    {"page-up", "Roll Down", {ACTION_AID, RIBBON_AID_ROLL_DOWN}},
    {"page-down", "Roll Up", {ACTION_AID, RIBBON_AID_ROLL_UP}},
    {"attention", "Attention", {ACTION_ATTENTION, 0}},
    {"system-request", "System Req.", {ACTION_SYSTEM_REQUEST, 0}},
    {"clear", "Clear", {ACTION_AID, RIBBON_AID_CLEAR}},
    {"help", "Help", {ACTION_AID, RIBBON_AID_HELP}},
    {"print", "Print", {ACTION_AID, RIBBON_AID_PRINT}},
    {"record-backspace", "Record Bksp", {ACTION_AID, RIBBON_AID_RECORD_BACKSPACE}},
    {"redraw", "Draw again", {ACTION_REDRAW, 0}},
    {"status", "Status line", {ACTION_STATUS, 0}},
    {"menu", "Menu", {ACTION_MENU, 0}},
    {"character", "", {ACTION_ITSELF, 0}},
    {"nothing", "", {ACTION_NOTHING, 0}},
};

const size_t action_name_count = sizeof action_names / sizeof action_names[0];

action action_of_function(unsigned number)
{
    return (action){ACTION_AID, number <= 12 ? RIBBON_AID_F1 - 1 + number : RIBBON_AID_F13 - 13 + number};
}

bool action_is(action one, action other)
{
    return one.kind == other.kind && one.value == other.value;
}

const char *action_name(action does, char *text, size_t room)
{
    text[0] = 0;
    for (size_t at = 0; at < action_name_count; at++)
        if (action_is(action_names[at].does, does))
            (void)snprintf(text, room, "%s", action_names[at].name);
    for (unsigned number = 1; number <= 24; number++)
        if (action_is(action_of_function(number), does))
            (void)snprintf(text, room, "f%u", number);
    return text;
}

bool action_by_name(const char *name, action *found)
{
    for (size_t at = 0; at < action_name_count; at++)
        if (strcmp(action_names[at].name, name) == 0) {
            *found = action_names[at].does;
            return true;
        }
    unsigned number;
    if (name[0] != 'f' || !function_key_number(name + 1, &number))
        return false;
    *found = action_of_function(number);
    return true;
}
