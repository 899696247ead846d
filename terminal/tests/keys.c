/* Names of keys and actions, what each key does from the first on, and keys files. */
#include "../../c/tests/check.h"
#include "bindings.h"
#include "ribbonscarp.h"

#include <locale.h>

static bindings bound;

static const struct {
    const char *name;
    stroke key;
} keys[] = {
    {"^A", 1}, {"^a", 1}, {"^Z", 26}, {"^]", 0x1d}, {"^_", 0x1f}, {"Tab", 9}, {"^I", 9}, {"enter", 13}, {"^M", 13},
    {"Left", STROKE_LEFT}, {"PageDown", STROKE_PAGE_DOWN}, {"backtab", STROKE_BACK_TAB}, {"^H", STROKE_BACKSPACE},
    {"^?", STROKE_BACKSPACE}, {"F1", STROKE_F1}, {"f24", STROKE_F24}, {"F12", STROKE_F1 + 11},
    {"Keypad0", STROKE_KEYPAD_0}, {"keypad9", STROKE_KEYPAD_9}, {"KeypadPlus", STROKE_KEYPAD_PLUS},
    {"KeypadEnter", STROKE_KEYPAD_ENTER}, {"Esc a", 'a' | STROKE_ESCAPED}, {"Esc A", 'A' | STROKE_ESCAPED},
    {"esc F3", (STROKE_F1 + 2) | STROKE_ESCAPED}, {"Esc =", '=' | STROKE_ESCAPED},
    {"Esc Esc", STROKE_ESCAPE | STROKE_ESCAPED}, {"Esc \xc3\xa9", 0xe9 | STROKE_ESCAPED},
    {"Ctrl-B", 2}, {"ctrl-b", 2}, {"Ctrl-]", 0x1d}, {"Ctrl-H", STROKE_BACKSPACE}, {"Shift-F1", STROKE_F1 + 12},
    {"shift-f12", STROKE_F24}, {"Shift-Tab", STROKE_BACK_TAB}, {"Alt-a", 'a' | STROKE_ESCAPED},
    {"Alt-F1", STROKE_F1 | STROKE_ESCAPED}, {"Esc-a", 'a' | STROKE_ESCAPED}, {"Esc--", '-' | STROKE_ESCAPED},
    {"Esc -", '-' | STROKE_ESCAPED}, {"PgUp", STROKE_PAGE_UP}, {"PgDn", STROKE_PAGE_DOWN}, {"pgdn", STROKE_PAGE_DOWN},
    {"Return", STROKE_ENTER}, {"Esc Return", STROKE_ENTER | STROKE_ESCAPED}, {"WheelUp", STROKE_WHEEL_UP},
    {"WheelDown", STROKE_WHEEL_DOWN},
};

static const char *const no_keys[] = {"", "a", "F0", "F25", "F1x", "^", "^AB", "Keypad", "Keypad10", "Left2", "Esc",
                                      "Esc ", "Esc ab", "Esc F25", "Hyper", "=", "^1", "Ctrl-", "Ctrl-AB",
                                      "Ctrl-1", "Shift-F13", "Shift-F0", "Shift-A", "Shift-", "Alt-", "Alt-ab", "Esc-"};

static void keys_have_names(void)
{
    char text[40];
    stroke found, again;
    for (size_t at = 0; at < sizeof keys / sizeof keys[0]; at++) {
        CHECK(stroke_by_name(keys[at].name, &found) && found == keys[at].key);
        CHECK(stroke_by_name(stroke_name(found, text, sizeof text), &again) && again == found);
    }
    for (size_t at = 0; at < sizeof no_keys / sizeof no_keys[0]; at++) {
        if (stroke_by_name(no_keys[at], &found))
            printf("a key's name: `%s`\n", no_keys[at]);
        CHECK(!stroke_by_name(no_keys[at], &found));
    }
    for (unsigned digit = 0; digit < 10; digit++)
        CHECK(stroke_keypad_character(STROKE_KEYPAD_0 + digit) == '0' + digit);
    CHECK(stroke_keypad_character(STROKE_KEYPAD_PLUS) == '+' && stroke_keypad_character(STROKE_KEYPAD_MINUS) == '-');
    CHECK(stroke_keypad_character(STROKE_KEYPAD_STAR) == '*' && stroke_keypad_character(STROKE_KEYPAD_SLASH) == '/');
    CHECK(stroke_keypad_character(STROKE_KEYPAD_POINT) == '.' && stroke_keypad_character(STROKE_KEYPAD_COMMA) == ',');
    CHECK(stroke_keypad_character(STROKE_KEYPAD_EQUAL) == '=' && stroke_keypad_character(STROKE_KEYPAD_ENTER) == 0);
    CHECK(stroke_keypad_character(STROKE_F1) == 0 && stroke_keypad_character('5') == 0);
}

static void actions_have_names(void)
{
    action found;
    for (size_t at = 0; at < action_name_count; at++)
        CHECK(action_by_name(action_names[at].name, &found) && action_is(found, action_names[at].does));
    CHECK(action_by_name("f1", &found) && found.kind == ACTION_AID && found.value == RIBBON_AID_F1);
    CHECK(action_by_name("f12", &found) && found.value == RIBBON_AID_F12);
    CHECK(action_by_name("f13", &found) && found.value == RIBBON_AID_F13);
    CHECK(action_by_name("f24", &found) && found.value == RIBBON_AID_F24);
    CHECK(!action_by_name("f0", &found) && !action_by_name("f25", &found) && !action_by_name("", &found));
    CHECK(!action_by_name("f1 ", &found) && !action_by_name("Enter", &found) && !action_by_name("quit", &found));
}

static bool does(const char *name, action_kind kind, uint32_t value)
{
    stroke key;
    action found;
    return stroke_by_name(name, &key) && bindings_find(&bound, key, &found) && found.kind == kind
           && found.value == value;
}

static void keys_do_from_the_first_on(void)
{
    static const char *const digits = "1234567890-=", *const above = "!@#$%^&*()_+";
    char name[16];
    bindings_begin(&bound);
    CHECK(does("^A", ACTION_FIELD_BEGIN, 0) && does("^E", ACTION_FIELD_END, 0) && does("^R", ACTION_RESET, 0));
    CHECK(does("Esc Esc", ACTION_RESET, 0) && does("^K", ACTION_ERASE_EOF, 0) && does("^J", ACTION_NEW_LINE, 0));
    CHECK(does("Esc a", ACTION_ATTENTION, 0) && does("Esc e", ACTION_ERASE_INPUT, 0));
    CHECK(does("^T", ACTION_SYSTEM_REQUEST, 0) && does("^F", ACTION_FIELD_PLUS, 0) && does("^]", ACTION_MENU, 0));
    CHECK(does("KeypadEnter", ACTION_AID, RIBBON_AID_ENTER) && does("PageUp", ACTION_AID, RIBBON_AID_ROLL_DOWN));
    CHECK(does("WheelUp", ACTION_AID, RIBBON_AID_ROLL_DOWN) && does("WheelDown", ACTION_AID, RIBBON_AID_ROLL_UP));
    CHECK(does("KeypadPlus", ACTION_FIELD_PLUS, 0) && does("KeypadMinus", ACTION_FIELD_MINUS, 0));
    CHECK(does("^S", ACTION_STATUS, 0));
    CHECK(does("Esc A", ACTION_ATTENTION, 0) && !does("Esc Z", ACTION_NOTHING, 0));
    for (unsigned number = 1; number <= 24; number++) {
        (void)snprintf(name, sizeof name, "F%u", number);
        CHECK(does(name, ACTION_AID, action_of_function(number).value));
    }
    for (unsigned number = 1; number <= 12; number++) {
        (void)snprintf(name, sizeof name, "Esc %c", digits[number - 1]);
        CHECK(does(name, ACTION_AID, RIBBON_AID_F1 - 1 + number));
        (void)snprintf(name, sizeof name, "Esc %c", above[number - 1]);
        CHECK(does(name, ACTION_AID, RIBBON_AID_F13 - 1 + number));
        (void)snprintf(name, sizeof name, "Esc F%u", number);
        CHECK(does(name, ACTION_AID, RIBBON_AID_F13 - 1 + number));
    }
    char text[20];
    bindings_keys(&bound, (action){ACTION_RESET, 0}, text, sizeof text);
    CHECK(strcmp(text, "^R, Esc Esc") == 0);
    bindings_keys(&bound, (action){ACTION_RESET, 0}, text, 10);
    CHECK(strcmp(text, "^R") == 0);
}

static void keys_of_tn5250(void)
{
    char text[20];
    bindings_begin(&bound);
    CHECK(!bound.is_tn5250);
    bindings_tn5250(&bound);
    CHECK(bound.is_tn5250 && does("^A", ACTION_ATTENTION, 0) && does("^C", ACTION_SYSTEM_REQUEST, 0));
    CHECK(does("^B", ACTION_AID, RIBBON_AID_ROLL_DOWN) && does("^U", ACTION_AID, RIBBON_AID_ROLL_DOWN));
    CHECK(does("^F", ACTION_AID, RIBBON_AID_ROLL_UP) && does("^D", ACTION_AID, RIBBON_AID_ROLL_UP));
    CHECK(does("^K", ACTION_FIELD_EXIT, 0) && does("^X", ACTION_FIELD_EXIT, 0) && does("Esc M", ACTION_FIELD_MINUS, 0));
    CHECK(does("^E", ACTION_ERASE_INPUT, 0) && does("^O", ACTION_HOME, 0) && does("^T", ACTION_ITSELF, 0));
    CHECK(does("Esc R", ACTION_RESET, 0) && does("^R", ACTION_RESET, 0) && does("F3", ACTION_AID, RIBBON_AID_F3));
    CHECK(does("^Q", ACTION_MENU, 0) && does("^]", ACTION_MENU, 0) && does("Esc D", ACTION_DUP, 0));
    bindings_keys(&bound, (action){ACTION_ATTENTION, 0}, text, sizeof text);
    CHECK(strcmp(text, "^A, Esc a") == 0);
}

static bool reads(const char *text, char *why, size_t room)
{
    FILE *file = tmpfile();
    bindings_begin(&bound);
    CHECK(file != NULL);
    if (file == NULL)
        return false;
    CHECK(fputs(text, file) >= 0);
    rewind(file);
    bool is_right = keys_file_read(&bound, file, "keys", why, room);
    CHECK(fclose(file) == 0);
    return is_right;
}

static const struct {
    const char *text, *why;
} wrong_files[] = {
    {"^A = attention\n\nF3 = nowhere\n", "keys, line 3: `nowhere` is no action"},
    {"Hyper = tab\n", "keys, line 1: `Hyper` is no key's name"},
    {"# fine\nF3\n", "keys, line 2: `F3` isn't KEY = ACTION"},
    {"= tab\n", "keys, line 1: `= tab` isn't KEY = ACTION"},
    {"^A =\n", "keys, line 1: `` is no action"},
    {"^] = tab\n", "keys, line 1: `^]` stays the way to the menu"},
    {"a = tab\n", "keys, line 1: `a` is no key's name"},
};

static void keys_files_are_read(void)
{
    char why[200] = "", longest[600];
    CHECK(reads("", why, sizeof why) && does("^A", ACTION_FIELD_BEGIN, 0));
    CHECK(reads("# mine\n  \n^A = attention\r\nKeypadPlus=field-plus\n Esc = = f20\n^] = menu", why, sizeof why));
    CHECK(does("^A", ACTION_ATTENTION, 0) && does("KeypadPlus", ACTION_FIELD_PLUS, 0));
    CHECK(does("Esc =", ACTION_AID, RIBBON_AID_F20) && does("^E", ACTION_FIELD_END, 0) && does("^]", ACTION_MENU, 0));
    CHECK(reads("^B = nothing", why, sizeof why) && does("^B", ACTION_NOTHING, 0));
    CHECK(reads("Esc A = dup", why, sizeof why) && does("Esc A", ACTION_DUP, 0) && does("Esc a", ACTION_ATTENTION, 0));
    for (size_t at = 0; at < sizeof wrong_files / sizeof wrong_files[0]; at++) {
        CHECK(!reads(wrong_files[at].text, why, sizeof why));
        if (strcmp(why, wrong_files[at].why) != 0)
            printf("%s\n", why);
        CHECK(strcmp(why, wrong_files[at].why) == 0);
    }
    memset(longest, '#', sizeof longest);
    longest[sizeof longest - 1] = 0;
    CHECK(!reads(longest, why, sizeof why) && strstr(why, "keys, line 1: it has more than") != NULL);
}

static void there_is_an_end_of_keys(void)
{
    bindings_begin(&bound);
    stroke key = 0x100 | STROKE_ESCAPED;
    bool is_set = true;
    while (is_set && bound.count < BINDINGS)
        is_set = bindings_set(&bound, key++, (action){ACTION_TAB, 0});
    CHECK(is_set && !bindings_set(&bound, key, (action){ACTION_TAB, 0}));
    CHECK(bindings_set(&bound, key - 1, (action){ACTION_HOME, 0}));
}

int main(void)
{
    CHECK(setlocale(LC_ALL, "C.UTF-8") != NULL);
    keys_have_names();
    actions_have_names();
    keys_do_from_the_first_on();
    keys_of_tn5250();
    keys_files_are_read();
    there_is_an_end_of_keys();
    return check_end();
}
