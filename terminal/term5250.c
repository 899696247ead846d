/* A 5250 terminal to work at (README.md beside it says how).
 *
 *     term5250 [OPTION].. HOST[:PORT]
 *
 * One loop waits for the line, the keyboard and signals; everything else is done between two waits. */
#define _GNU_SOURCE
#include "box.h"
#include "connecting.h"
#include "draw.h"
#include "input.h"
#include "menu.h"
#include "press.h"
#include "settings.h"
#include "signals.h"

#include <errno.h>
#include <fcntl.h>
#include <string.h>
#include <unistd.h>

enum {
    KEYS_AT_ONCE = 1024,
    DRAWN_EVERY = 40,    /* milliseconds, while more comes */
    PASTE_SILENCE = 5000,  /* milliseconds, after which a paste without its end is over */
    SEQUENCE_SILENCE = 150 /* and after which a letter isn't one of a key's sequence */
};

/* ---- Keys ---- */

static void take_stroke(session *s, stroke key)
{
    char name[40];
    action does;
    uint32_t typed = stroke_keypad_character(key);
    if (bindings_find(&s->keys, key, &does) && does.kind != ACTION_ITSELF) {
        press_key(s, does);
    } else if (typed != 0) {
        press_key(s, (action){s->is_inserting ? ACTION_INSERTED : ACTION_CHARACTER, typed});
    } else {
        session_tell(s, "%s is no key here: ^] has them all.", stroke_name(key, name, sizeof name));
        s->rings = true;
    }
}

static void tell_unknown(session *s)
{
    session_tell(s, "This is no key here: ^] has them all.");
    s->rings = true;
}

static void take_in_menu(session *s, const input *i)
{
    bool is_key = i->kind == INPUT_CHARACTER || i->kind == INPUT_STROKE;
    if (is_key && !s->paste.is_on)
        menu_key(s, i->key);
    else
        s->rings = true;
}

static void take_input(session *s, const input *i)
{
    bool is_paste = s->paste.is_on && i->kind != INPUT_PASTE_ENDS;
    bool is_menu = i->kind == INPUT_STROKE && i->key == STROKE_MENU;
    if (i->kind == INPUT_PASTE_BEGINS)
        press_paste_begins(s);
    else if (i->kind == INPUT_PASTE_ENDS)
        press_paste_ends(s);
    else if (s->is_menu_open)
        take_in_menu(s, i);
    else if (i->kind == INPUT_UNKNOWN)
        tell_unknown(s);
    else if (!window_has_screen() && !is_menu)
        s->rings = true;
    else if (is_paste)
        press_pasted(s, i->key);
    else if (s->is_box_open && !is_menu)
        box_key(s, i->kind == INPUT_CLICK ? STROKE_ESCAPE : i->key);
    else if (i->kind == INPUT_STROKE)
        take_stroke(s, i->key);
    else if (i->kind == INPUT_CHARACTER)
        press_key(s, (action){s->is_inserting ? ACTION_INSERTED : ACTION_CHARACTER, i->key});
    else if (i->row < SCREEN_ROWS && i->column < SCREEN_COLUMNS)
        press_key(s, (action){ACTION_MOVE_TO, i->row * SCREEN_COLUMNS + i->column});
}

/* A window that loses a paste's end mustn't take the keyboard away. */
static void hear_silence(session *s, input_reader *reader)
{
    uint64_t now = session_clock(), silence = now - reader->heard;
    if (reader->is_pasting && silence > PASTE_SILENCE) {
        reader->is_pasting = false;
        press_paste_ends(s);
    }
    reader->is_late = silence > SEQUENCE_SILENCE;
    reader->heard = now;
}

/* Takes what was typed; true where more of it may wait in curses. */
static bool take_keys(session *s, input_reader *reader)
{
    input i;
    unsigned count = 0;
    hear_silence(s, reader);
    while (count < KEYS_AT_ONCE && !s->is_leaving && input_next(reader, &i)) {
        take_input(s, &i);
        count++;
    }
    if (reader->is_broken) { /* after the keys that came with it, which take a sentence away */
        session_report(s, "The window sent what is no character: is it set to UTF-8?");
        s->rings = true;
        reader->is_broken = false;
    }
    if (reader->is_escaped && s->is_menu_open) {
        reader->is_escaped = false;
        menu_key(s, STROKE_ESCAPE);
    } else if (reader->is_escaped && window_has_status()) { /* it is no reason to cover a row */
        session_tell(s, "Esc: 1 to = are F1 to F12, Esc is Reset, ^] has them all.");
    }
    return count == KEYS_AT_ONCE;
}

/* ---- The loop ---- */

static void press_waiting(session *s)
{
    if (window_has_screen()) /* no key goes out unseen */
        press_ahead(s);
}

static void take_events(session *s, window *w, input_reader *reader, const struct pollfd waits[2], bool *more)
{
    if (signals_stopping())
        window_stop(w);
    if (signals_resized()) {
        window_resize(w);
        s->draws_all = true;
    }
    session_step(s, waits[0].revents);
    press_waiting(s);
    *more = (waits[1].revents != 0 || *more) && take_keys(s, reader);
    press_waiting(s); /* a macro may have begun */
    if (!*more && (waits[1].revents & (POLLHUP | POLLERR | POLLNVAL)) != 0) {
        session_over(s, 1, "The terminal is gone.");
        s->is_leaving = true;
    }
}

/* How long nothing but input changes what is shown, in milliseconds; negative where it never does. */
static int quiet_for(const session *s)
{
    uint64_t now = session_clock();
    int due = session_due(s), shown = s->shown_until > now ? (int)(s->shown_until - now) : -1;
    return due < 0 || (shown >= 0 && shown < due) ? shown : due;
}

/* What is there is taken first; the screen is drawn when nothing is, or too long ago. */
static void run(session *s, window *w)
{
    input_reader reader = {.is_escaped = false};
    uint64_t drawn = 0;
    bool more = false;
    s->draws_all = true;
    while (!s->is_leaving && signals_ending() == 0) {
        struct pollfd waits[2] = {session_wait(s), {.fd = STDIN_FILENO, .events = POLLIN}};
        int ready = signals_wait(waits, 2, 0);
        uint64_t now = session_clock();
        if (ready == 0 || now - drawn >= DRAWN_EVERY) {
            draw(s, w);
            drawn = now;
        }
        if (ready == 0 && !more)
            ready = signals_wait(waits, 2, quiet_for(s));
        if (ready <= 0)
            waits[0].revents = waits[1].revents = 0;
        take_events(s, w, &reader, waits, &more);
    }
    if (signals_ending() != 0 && !s->is_leaving)
        session_over(s, 128 + signals_ending(), "Ended by signal %d.", signals_ending());
}

/* ---- The program ---- */

static int complain(const char *what, const char *why)
{
    (void)fprintf(stderr, "term5250: %s%s%s\n", what, why[0] != 0 ? ": " : "", why);
    return 2;
}

/* The keys file that is asked for, or the usual one where it is there; false where it is wrong. */
static bool read_keys(session *s, const options *asked)
{
    char path[FILE_NAME_ROOM], why[FILE_NAME_ROOM + 400];
    const char *keys = asked->keys;
    bindings_begin(&s->keys);
    if (keys != NULL && strcmp(keys, "tn5250") == 0) {
        bindings_tn5250(&s->keys);
        return true;
    }
    FILE *file = keys != NULL ? fopen(keys, "r") : settings_open("keys", path, sizeof path);
    const char *name = keys != NULL ? keys : path;
    if (file == NULL && keys == NULL && (errno == ENOENT || errno == ENOTDIR))
        return true;
    if (file == NULL) {
        (void)complain(name, strerror(errno));
        return false;
    }
    bool is_right = keys_file_read(&s->keys, file, name, why, sizeof why);
    (void)fclose(file);
    if (!is_right)
        (void)complain(why, "");
    return is_right;
}

/* All that can go wrong before the line is there is told before; 0 where nothing has. */
static int prepare(session *s, const options *asked)
{
    char why[TLS_WHY_ROOM];
    ribbon_status status = connecting_station(s, asked);
    if (status != RIBBON_DONE)
        return complain(asked->terminal, status == RIBBON_BAD_ARGUMENT ? "no such terminal type"
                                                                       : ribbon_status_text(status));
    if (!isatty(STDIN_FILENO) || !isatty(STDOUT_FILENO))
        return complain("it needs a terminal", "");
    if (!window_knows(why, sizeof why))
        return complain(why, "");
    if (!read_keys(s, asked))
        return 2;
    if (asked->tls.is_on && (s->tls = tls_new(&asked->tls, why)) == NULL)
        return complain(why, "");
    if (asked->record != NULL && !recording_begin(&s->recording, asked->record, &s->kept))
        return complain(s->recording.name, strerror(errno));
    return signals_begin() ? 0 : complain("signals", strerror(errno));
}

/* Tells how the session ended; the program's status, by that and by whether all was taken and recorded. */
static int end(session *s)
{
    ribbon_state state;
    bool is_recorded = recording_end(&s->recording) && s->recording.broken[0] == 0;
    bool is_known = ribbon_station_state(&s->station, &state) == RIBBON_DONE;
    bool is_refused = is_known && state.refused_records > 0;
    (void)fprintf(stderr, "term5250: %s\n", s->phase == PHASE_OVER ? s->standing : "Left.");
    if (is_refused)
        (void)fprintf(stderr, "term5250: Records refused: %llu, the last by reason %s.\n",
                      (unsigned long long)state.refused_records, ribbon_reason_text(state.record_reason));
    if (!is_recorded)
        (void)fprintf(stderr, "term5250: The recording %s isn't whole.\n", s->recording.broken);
    return s->status == 0 && (is_refused || !is_recorded) ? 1 : s->status;
}

static int work(session *s, const options *asked)
{
    window w = {.screen = NULL};
    if (!window_begin(&w, asked)) {
        window_end(&w);
        return complain("the window can't be used", "");
    }
    if (connecting_begin(s))
        run(s, &w);
    window_end(&w);
    return end(s);
}

static int run_asked(const options *asked, const char *locale)
{
    session *s = session_new();
    if (s == NULL)
        return complain("memory is wanting", "");
    int status = prepare(s, asked);
    if (status == 0) {
        if (s->keys.is_tn5250)
            session_mention(s, "The keys are those of tn5250: ^] has them all.");
        if (locale[0] != 0)
            session_mention(s, locale);
        status = work(s, asked);
    }
    session_free(s);
    return status;
}

/* Has standard input, output and error be there: else the line would get the number of one, and what is said there. */
static bool take_numbers(void)
{
    int handle = open("/dev/null", O_RDWR);
    while (handle >= 0 && handle <= STDERR_FILENO)
        handle = open("/dev/null", O_RDWR);
    return handle >= 0 && close(handle) == 0;
}

int main(int count, char **words)
{
    options asked;
    int status = 0;
    if (!take_numbers())
        return 2;
    const char *locale = window_locale();
    if (options_read(&asked, count, words, &status) == OPTIONS_RUN)
        status = run_asked(&asked, locale);
    options_free(&asked);
    return status;
}
