#include "draw.h"

#include "box.h"
#include "menu.h"
#include "sentence.h"
#include "signals.h"

#include <string.h>

static void draw_cell(const window *w, int row, int column, const ribbon_cell *cell)
{
    cchar_t shown;
    wchar_t text[2] = {(wchar_t)cell->character, 0};
    look l = look_of(cell->attribute, w->has_colors);
    bool is_attribute = cell->byte >= 0x20 && cell->byte <= 0x3f;
    if (l.is_hidden || is_attribute)
        l = look_of(0x20, w->has_colors);
    short pair;
    attr_t attributes = window_look(w, &l, &pair);
    if (w->separators && l.has_separators) /* no other character stands for a blank: it would be copied */
        attributes |= A_UNDERLINE;
    if (setcchar(&shown, text, attributes, pair, NULL) == OK)
        (void)mvadd_wch(row, column, &shown); /* at the window's last cell it answers ERR, though it is drawn */
}

static void draw_rows(session *s, const window *w)
{
    ribbon_cell cells[RIBBON_COLUMNS];
    uint32_t rows;
    if (ribbon_station_changed(&s->station, &rows) != RIBBON_DONE)
        return;
    for (uint8_t row = 1; row <= RIBBON_ROWS; row++) {
        if (!s->draws_all && (rows >> (row - 1) & 1) == 0)
            continue;
        if (ribbon_station_cells(&s->station, row, row, cells, RIBBON_COLUMNS) != RIBBON_DONE)
            return;
        for (int column = 0; column < RIBBON_COLUMNS; column++)
            draw_cell(w, row - 1, column, &cells[column]);
    }
}

static const char *turn_words(const session *s, const ribbon_state *state)
{
    if (s->phase == PHASE_DIALLING)
        return "connecting";
    if (s->phase == PHASE_SECURING)
        return "connected, TLS begins";
    if (s->phase == PHASE_OVER)
        return "the session is over";
    if (!state->is_ready)
        return "connected, the session hasn't begun";
    if (state->error_row != 0)
        return "an error of the host's";
    return state->is_locked ? "waiting for the host" : "";
}

/* The key that goes on from here: Reset's, as it is bound, or the menu's. */
static const char *way_words(session *s, bool has_error)
{
    char keys[40];
    if (s->phase == PHASE_OVER)
        return "^] leaves";
    if (!s->is_held && !has_error)
        return "^] menu";
    bindings_keys(&s->keys, (action){ACTION_RESET, 0}, keys, sizeof keys);
    keys[strcspn(keys, ",")] = 0; /* the first of them */
    (void)snprintf(s->way, sizeof s->way, "Reset: %.16s", keys);
    return s->way;
}

status_parts draw_parts(session *s, const ribbon_state *state)
{
    ribbon_field field;
    status_parts parts = {.turn = turn_words(s, state), .where = s->asked->where};
    parts.note = s->note[0] != 0 ? s->note : s->standing;
    parts.has_refused = state->refused_records > 0;
    parts.is_full = state->is_full;
    parts.way = way_words(s, state->error_row != 0);
    parts.is_way_out = s->is_held || s->phase == PHASE_OVER || state->error_row != 0;
    parts.security = !s->asked->tls.is_on ? "" : s->asked->tls.is_unchecked ? " INSECURE" : " TLS";
    parts.is_message_lit = state->is_message_lit;
    parts.is_inserting = s->is_inserting;
    parts.is_recording = s->recording.file != NULL;
    parts.is_macro = s->macro.state != MACRO_RESTS;
    parts.waits = s->ahead.count > 0;
    if (ribbon_station_field(&s->station, state->cursor_field, &field) == RIBBON_DONE)
        parts.field_length = field.length;
    parts.row = state->cursor_row;
    parts.column = state->cursor_column;
    if (parts.note[0] == 0 && s->refusals.is_last) {
        sentence_record(state->record_reason, status_room(&parts), s->refusals.sentence, sizeof s->refusals.sentence);
        parts.note = s->refusals.sentence;
    }
    return parts;
}

void draw_status(const status_parts *parts, int row)
{
    wchar_t text[STATUS_COLUMNS + 1];
    status_line(parts, text);
    (void)attron(A_REVERSE);
    (void)mvaddwstr(row, 0, text); /* at the window's last cell it answers ERR, though it is drawn */
    (void)attroff(A_REVERSE);
}

static void draw_too_small(void)
{
    (void)erase();
    (void)mvprintw(0, 0, "This window is %d by %d. A 5250", COLS, LINES);
    (void)mvprintw(1, 0, "needs 80 by 24, better 80 by 25.");
    (void)mvprintw(2, 0, "No key goes out. ^] opens the menu.");
}

/* Whether the status line lies over the last row of a window that has no row for it: where it is asked for, when a
 * session begins, and with a sentence, unless the host has written since. The host's error is never covered. */
static bool covers_row(const session *s, const ribbon_state *state)
{
    bool is_new = !s->is_aside && s->note_records == state->records;
    bool is_told = s->note[0] != 0 ? is_new : s->standing[0] != 0 || s->refusals.covers;
    bool is_shown = is_told || s->shows_status || session_clock() < s->shown_until;
    return is_shown && state->error_row != SCREEN_ROWS;
}

static void draw_screen(session *s, window *w, const ribbon_state *state, const status_parts *parts, bool covers)
{
    if (s->draws_all)
        (void)erase();
    draw_rows(s, w);
    if (window_has_status())
        draw_status(parts, SCREEN_ROWS);
    else if (covers)
        draw_status(parts, SCREEN_ROWS - 1);
    (void)move(state->cursor_row - 1, state->cursor_column - 1);
    if (s->is_box_open)
        box_draw(s);
}

static void ring(session *s, const ribbon_state *state)
{
    if (state->is_message_lit && !s->was_lit && !window_has_status())
        s->rings = true; /* where no sign tells of the message light, the bell does */
    s->was_lit = state->is_message_lit;
    if (state->alarms != s->alarms)
        s->rings = true;
    s->alarms = state->alarms;
    if (s->rings)
        (void)beep();
    s->rings = false;
}

void draw(session *s, window *w)
{
    char title[sizeof w->title];
    ribbon_state state;
    if (ribbon_station_state(&s->station, &state) != RIBBON_DONE)
        return;
    if (s->is_of_screen && s->note_records != state.records)
        s->note[0] = 0;
    status_parts parts = draw_parts(s, &state);
    bool covers = !window_has_status() && covers_row(s, &state);
    s->draws_all = s->draws_all || covers != w->is_covered;
    if (s->is_menu_open)
        menu_draw(s, &parts);
    else if (window_has_screen())
        draw_screen(s, w, &state, &parts, covers);
    else
        draw_too_small();
    w->is_covered = covers;
    s->draws_all = s->is_menu_open || !window_has_screen();
    if (s->repaints)
        (void)clearok(stdscr, TRUE);
    s->repaints = false;
    status_title(&parts, title, sizeof title);
    signals_let_in(true);
    ring(s, &state);
    (void)refresh();
    window_title(w, title);
    if (!s->is_menu_open)
        window_cursor(w, state.is_locked, s->is_inserting, state.is_blinking);
    signals_let_in(false);
}
