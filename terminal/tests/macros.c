/* Macros and their files: what is recorded is read again, and what is none is told by its line. */
#include "../../c/tests/check.h"
#include "macro.h"
#include "ribbonscarp.h"

#include <locale.h>

static macro made, again; /* Of the stack they would be a large part. */

static bool reads(const char *text, char *why, size_t room)
{
    FILE *file = tmpfile();
    CHECK(file != NULL);
    if (file == NULL)
        return false;
    CHECK(fputs(text, file) >= 0);
    rewind(file);
    bool is_right = macro_read(&again, file, why, room);
    CHECK(fclose(file) == 0);
    return is_right;
}

static bool is_same(void)
{
    bool is = made.count == again.count;
    for (size_t at = 0; at < made.count && is; at++)
        is = action_is(made.keys[at], again.keys[at]);
    return is;
}

static void what_is_written_is_read(void)
{
    static const action keys[] = {
        {ACTION_CHARACTER, 'a'}, {ACTION_CHARACTER, ' '}, {ACTION_CHARACTER, 0xe9}, {ACTION_INSERTED, '#'},
        {ACTION_INSERTED, ' '}, {ACTION_CHARACTER, 0x20ac}, {ACTION_MOVE_TO, 0}, {ACTION_MOVE_TO, RIBBON_CELLS - 1},
        {ACTION_HIDDEN, 0}, {ACTION_TAB, 0}, {ACTION_AID, RIBBON_AID_ENTER}, {ACTION_AID, RIBBON_AID_F24},
        {ACTION_AID, RIBBON_AID_ROLL_UP}, {ACTION_FIELD_MINUS, 0}, {ACTION_ATTENTION, 0}, {ACTION_CHARACTER, 'z'},
    };
    static const char text[] = "text a \xc3\xa9\ninserted # \ntext \xe2\x82\xac\ncursor 1 1\ncursor 24 80\nhidden\ntab\n"
                               "enter\nf24\npage-down\nfield-minus\nattention\ntext z\n";
    char why[200], file_text[400];
    macro_record(&made);
    for (size_t at = 0; at < sizeof keys / sizeof keys[0]; at++)
        CHECK(macro_add(&made, keys[at]));
    CHECK(macro_add(&made, (action){ACTION_HIDDEN, 0}) && macro_add(&made, (action){ACTION_HIDDEN, 0}));
    CHECK(made.count == sizeof keys / sizeof keys[0] + 1);
    made.count--;
    FILE *file = tmpfile();
    CHECK(file != NULL && macro_write(&made, file));
    if (file == NULL)
        return;
    rewind(file);
    file_text[fread(file_text, 1, sizeof file_text - 1, file)] = 0;
    CHECK(fclose(file) == 0 && strcmp(file_text, text) == 0);
    CHECK(reads(text, why, sizeof why) && is_same() && again.state == MACRO_RESTS);
}

static void each_action_has_a_line(void)
{
    char name[24], line[40], why[200];
    for (size_t at = 0; at < action_name_count; at++) {
        bool is_own = action_names[at].does.kind == ACTION_NOTHING || action_names[at].does.kind >= ACTION_ITSELF;
        (void)snprintf(line, sizeof line, "%s\n", action_name(action_names[at].does, name, sizeof name));
        CHECK(strcmp(name, action_names[at].name) == 0 && reads(line, why, sizeof why) == !is_own);
    }
    for (unsigned number = 1; number <= 24; number++) {
        (void)snprintf(line, sizeof line, "f%u", number);
        CHECK(strcmp(action_name(action_of_function(number), name, sizeof name), line) == 0);
        CHECK(reads(line, why, sizeof why) && action_is(again.keys[0], action_of_function(number)));
    }
    CHECK(action_name((action){ACTION_CHARACTER, 'x'}, name, sizeof name)[0] == 0);
}

static const struct {
    const char *text, *why;
} wrong_files[] = {
    {"", "it has no keys"}, {"# mine\n\n", "it has no keys"}, {"tab\nnowhere\n", "line 2: `nowhere` is no line of a macro"},
    {"reset\n", "line 1: `reset` is no line of a macro"}, {"insert\n", "line 1: `insert` is no line of a macro"},
    {"quit\n", "line 1: `quit` is no line of a macro"}, {"character\n", "line 1: `character` is no line of a macro"},
    {"cursor 0 1\n", "line 1: `cursor 0 1` is no line of a macro"},
    {"cursor 25 1\n", "line 1: `cursor 25 1` is no line of a macro"},
    {"cursor 1 81\n", "line 1: `cursor 1 81` is no line of a macro"},
    {"cursor 1 2 3\n", "line 1: `cursor 1 2 3` is no line of a macro"},
    {"text \xff\n", "line 1: `text \xff` has no characters of this locale"},
    {" tab\n", "line 1: ` tab` is no line of a macro"},
};

static void other_files_are_told(void)
{
    static char longest[4 * MACRO_ROOM];
    char why[200];
    for (size_t at = 0; at < sizeof wrong_files / sizeof wrong_files[0]; at++) {
        CHECK(!reads(wrong_files[at].text, why, sizeof why));
        if (strcmp(why, wrong_files[at].why) != 0)
            printf("%s\n", why);
        CHECK(strcmp(why, wrong_files[at].why) == 0);
    }
    memset(longest, 'x', sizeof longest - 1);
    CHECK(!reads(longest, why, sizeof why) && strstr(why, "is too long") != NULL);
    longest[0] = 0;
    for (size_t at = 0; at <= MACRO_ROOM; at++)
        memcpy(longest + 3 * at, "f1\n", 4);
    CHECK(!reads(longest, why, sizeof why) && strcmp(why, "line 4097: `f1` is one key too many") == 0);
}

static void keys_are_played_in_order(void)
{
    action key;
    macro_record(&made);
    CHECK(!macro_next(&made, &key) && macro_stop(&made) == 0 && made.state == MACRO_RECORDS);
    macro_play(&made);
    CHECK(made.state == MACRO_RESTS); /* It has none. */
    for (uint32_t at = 0; at < 3; at++)
        CHECK(macro_add(&made, (action){ACTION_CHARACTER, at}));
    for (unsigned round = 0; round < 2; round++) {
        macro_play(&made);
        for (uint32_t at = 0; at < 3; at++) {
            CHECK(macro_next(&made, &key) && key.value == at && macro_next(&made, &key) && key.value == at);
            macro_went_on(&made);
        }
        CHECK(!macro_next(&made, &key) && made.state == MACRO_RESTS);
    }
    macro_play(&made);
    macro_went_on(&made);
    CHECK(macro_stop(&made) == 2 && !macro_next(&made, &key));
    for (made.count = 0; made.count < MACRO_ROOM;)
        if (!macro_add(&made, (action){ACTION_TAB, 0}))
            break;
    CHECK(made.count == MACRO_ROOM && !macro_add(&made, (action){ACTION_TAB, 0}));
}

int main(void)
{
    CHECK(setlocale(LC_ALL, "C.UTF-8") != NULL);
    what_is_written_is_read();
    each_action_has_a_line();
    other_files_are_told();
    keys_are_played_in_order();
    return check_end();
}
