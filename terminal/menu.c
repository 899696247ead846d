#include "menu.h"

#include "connecting.h"
#include "draw.h"
#include "macros.h"
#include "press.h"
#include "window.h"

#include <errno.h>
#include <string.h>

enum { KEY_ROWS = 11, KEY_COLUMN = 27, NAME_COLUMN = 40, NAMES_SHOWN = 36 };

#define RECORDING_NAME "term5250.rec"
#define SCREEN_NAME "term5250.txt"

/* ---- What is saved ---- */

static void switch_recording(session *s)
{
    if (s->recording.file != NULL) {
        bool is_whole = recording_end(&s->recording);
        session_report(s, is_whole ? "Recorded in %s." : "The end of %s couldn't be written.",
                       file_shown(s->recording.name));
    } else if (recording_begin(&s->recording, s->asked->record != NULL ? s->asked->record : RECORDING_NAME, &s->kept)) {
        session_report(s, "Recording in %s. It holds passwords.", file_shown(s->recording.name));
    } else {
        session_report(s, "%s can't be written: %s.", file_shown(s->recording.name), strerror(errno));
    }
}

static void save_kept(session *s)
{
    recording saved = {.file = NULL};
    if (!recording_begin(&saved, RECORDING_NAME, &s->kept) || !recording_end(&saved))
        session_report(s, "%s can't be written: %s.", saved.name, strerror(errno));
    else
        session_report(s, "Saved in %s. It holds passwords.", saved.name);
}

static bool write_screen(session *s, FILE *file)
{
    char text[RIBBON_ROW_ROOM];
    ribbon_told told;
    for (uint8_t row = 1; row <= RIBBON_ROWS; row++) {
        if (ribbon_station_row(&s->station, row, text, sizeof text, &told) != RIBBON_DONE)
            return false;
        while (told.length > 0 && text[told.length - 1] == ' ')
            told.length--;
        if (fprintf(file, "%.*s\n", (int)told.length, text) < 0)
            return false;
    }
    return true;
}

static void print_screen(session *s)
{
    char name[FILE_NAME_ROOM] = SCREEN_NAME;
    FILE *file = file_made(SCREEN_NAME, name, sizeof name);
    bool is_written = file != NULL && write_screen(s, file);
    if (file != NULL && fclose(file) != 0)
        is_written = false;
    if (is_written)
        session_report(s, "The screen is in %s.", name);
    else
        session_report(s, "%s can't be written: %s.", name, strerror(errno));
}

/* ---- Macros ---- */

/* Begins a macro; of one that is recorded, asks for a name. */
static void switch_macro(session *s)
{
    if (s->macro.state == MACRO_PLAYS) {
        session_report(s, "A macro plays: Reset stops it.");
    } else if (s->macro.state == MACRO_RESTS) {
        macro_record(&s->macro);
        session_report(s, "Keys are recorded; m in the menu keeps them by a name.");
    } else if (s->macro.count == 0) {
        s->macro.state = MACRO_RESTS;
        session_report(s, "No key was pressed: no macro is kept.");
    } else {
        s->asks = ASKS_TO_KEEP;
    }
}

static void ask_to_play(session *s)
{
    if (s->phase == PHASE_OVER)
        session_report(s, "The session is over: c in the menu connects again.");
    else if (s->macro.state != MACRO_RESTS)
        session_report(s, s->macro.state == MACRO_PLAYS ? "A macro plays: Reset stops it."
                                                         : "A macro is recorded: m in the menu keeps it.");
    else
        s->asks = ASKS_TO_PLAY;
}

static void close_menu(session *s)
{
    s->is_menu_open = false;
    s->asks = ASKS_NOTHING;
    s->macro_name[0] = 0;
}

/* A key of a macro's name. */
static void take_name(session *s, uint32_t character)
{
    size_t length = strlen(s->macro_name);
    const char more[] = {character < 0x80 ? (char)character : ' ', 0};
    if (character == STROKE_ESCAPE || (character & STROKE_ESCAPED) != 0) {
        close_menu(s);
    } else if (character == STROKE_BACKSPACE && length > 0) {
        s->macro_name[length - 1] = 0;
    } else if ((character == STROKE_ENTER || character == STROKE_KEYPAD_ENTER) && length > 0) {
        (s->asks == ASKS_TO_KEEP ? macros_keep : macros_play)(s, s->macro_name);
        close_menu(s);
    } else if (macros_is_name(more) && length + 1 < sizeof s->macro_name) {
        memcpy(s->macro_name + length, more, sizeof more);
    } else {
        s->rings = true;
    }
}

void menu_key(session *s, uint32_t character)
{
    s->draws_all = true;
    s->note[0] = 0;
    if (s->asks != ASKS_NOTHING) {
        take_name(s, character);
        return;
    }
    switch (character) {
    case 'q': s->is_leaving = true; break;
    case 'r': switch_recording(s); break;
    case 's': save_kept(s); break;
    case 'p': print_screen(s); break;
    case 'c': connecting_again(s); break;
    case 'm': switch_macro(s); break;
    case 'a': ask_to_play(s); break;
    case 't': press_status(s); break;
    default: break;
    }
    if (s->asks == ASKS_NOTHING)
        close_menu(s);
}

/* ---- What is drawn ---- */

/* Text of ASCII, cut where the window ends. */
static void put(int row, int column, const char *text)
{
    if (row < LINES && column < COLS)
        (void)mvaddnstr(row, column, text, COLS - column); /* at the window's last cell it answers ERR */
}

static void draw_keys(const session *s, int top)
{
    for (size_t at = 0; at < action_name_count && action_names[at].words[0] != 0; at++) {
        char keys[KEY_COLUMN - 14], text[64]; /* as many keys as have room behind the words */
        bindings_keys(&s->keys, action_names[at].does, keys, sizeof keys);
        (void)snprintf(text, sizeof text, "%-13s %s", action_names[at].words, keys);
        put(top + (int)at % KEY_ROWS, (int)at / KEY_ROWS * KEY_COLUMN, text);
    }
}

static void draw_name(size_t at, const char *name)
{
    put(5 + (int)at / 2, (int)at % 2 * NAME_COLUMN, name);
}

/* What is typed of a name, and the names that there are. */
static void draw_question(session *s)
{
    char text[100];
    const char *question = s->asks == ASKS_TO_KEEP ? "Name of the" : "Play which";
    (void)snprintf(text, sizeof text, "%s macro: %s", question, s->macro_name);
    put(1, 0, "Enter  does it     Esc  back     letters, digits, - and _ are a name");
    macros_list(draw_name, NAMES_SHOWN);
    put(3, 0, text);
}

/* Why a record was refused last; nothing where none was. */
static const char *last_refused(session *s, char *text, size_t room)
{
    ribbon_state state;
    text[0] = 0;
    if (ribbon_station_state(&s->station, &state) == RIBBON_DONE && state.refused_records > 0)
        (void)snprintf(text, room, "Last refused, %s", ribbon_reason_text(state.record_reason));
    return text;
}

static void draw_words(session *s)
{
    char refused[120];
    static const char *const signs[] = {
        "F1 to F12     also Esc 1 to =     F13 to F24  with Shift or Esc, also Esc ! to +",
        "Mouse         a click moves the cursor, the wheel is Roll; Shift selects text",
        "Keypad        its + and - are Field Plus and Field Minus",
        "Paste         a line goes into one field, its end to the next, and sends nothing",
        "MW  a message waits   INS  insert mode   REC, MAC  recording   T  keys wait",
        "TLS  certificate right   INSECURE  unchecked   refused  data that weren't taken",
        "field 10  length of the cursor's field   06/053  row and column of the cursor",
    };
    put(1, 0, "q  leave           p  the screen into " SCREEN_NAME "       any other key  back");
    put(2, 0, s->recording.file != NULL ? "r  stop recording" : "r  record");
    put(2, 19, "s  save the last 256 KiB of both ends (these hold passwords)");
    put(3, 0, s->macro.state == MACRO_RECORDS ? "m  keep the macro" : "m  record a macro");
    put(3, 19, s->phase == PHASE_OVER ? "c  connect again" : "a  play a macro");
    if (!window_has_status())
        put(3, 38, "t  the status line over row 24, or off it");
    put(4, 0, s->standing[0] != 0 ? s->standing : last_refused(s, refused, sizeof refused));
    draw_keys(s, 5);
    for (size_t at = 0; at < sizeof signs / sizeof signs[0]; at++)
        put(5 + KEY_ROWS + (int)at, 0, signs[at]);
}

void menu_draw(session *s, const status_parts *parts)
{
    char title[100];
    (void)snprintf(title, sizeof title, "term5250 at %.50s%s", s->asked->where,
                   s->keys.is_tn5250 ? ", with the keys of tn5250" : "");
    (void)erase();
    put(0, 0, title);
    (s->asks == ASKS_NOTHING ? draw_words : draw_question)(s);
    if (window_has_screen())
        draw_status(parts, window_has_status() ? SCREEN_ROWS : SCREEN_ROWS - 1);
    if (s->asks == ASKS_NOTHING)
        (void)move(0, 0);
    else
        (void)move(3, (int)strlen("Name of the macro: ") - (s->asks == ASKS_TO_PLAY) + (int)strlen(s->macro_name));
}
