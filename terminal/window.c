#define _GNU_SOURCE
#include "window.h"

#include "input.h"
#include "signals.h"

#include <errno.h>
#include <langinfo.h>
#include <locale.h>
#include <stdlib.h>
#include <string.h>
#include <sys/ioctl.h>
#include <term.h>
#include <unistd.h>

/* Sent as they are: descriptions of terminals have no names for them all (xterm, control sequences). */
#define BRACKETED_PASTE "\033[?2004h"
#define PLAIN_PASTE "\033[?2004l"
#define KEEP_TITLE "\033[22;0t"
#define GIVE_TITLE_BACK "\033[23;0t"

const char *window_locale(void)
{
    bool is_set = setlocale(LC_ALL, "") != NULL;
    const char *set = nl_langinfo(CODESET);
    if (is_set && strcmp(set, "ANSI_X3.4-1968") != 0)
        return strcmp(set, "UTF-8") == 0 ? "" : "The locale has no UTF-8: some characters can't be shown.";
    if (setlocale(LC_CTYPE, "C.UTF-8") != NULL)
        return "The locale has no UTF-8: C.UTF-8 is taken in its place.";
    return "No UTF-8 in the locale, and no C.UTF-8: letters beyond ASCII can't be shown.";
}

bool window_knows(char *why, size_t room)
{
    const char *name = getenv("TERM");
    int cause = 0;
    if (name == NULL || name[0] == 0) {
        (void)snprintf(why, room, "TERM isn't set, so nothing is known of this terminal");
        return false;
    }
    if (setupterm(name, STDOUT_FILENO, &cause) != OK) {
        (void)snprintf(why, room, cause < 0 ? "there is no database of terminals to look %s up in"
                                            : "TERM is %s, which isn't a terminal that is known here", name);
        return false;
    }
    const char *moves = tigetstr("cup");
    bool can_move = moves != NULL && moves != (const char *)-1;
    if (!can_move)
        (void)snprintf(why, room, "TERM is %s, which can't move its cursor", name);
    (void)del_curterm(cur_term);
    return can_move;
}

static void send(const char *text)
{
    size_t count = strlen(text);
    while (count > 0) {
        ssize_t sent = write(STDOUT_FILENO, text, count);
        if (sent < 0 && errno != EINTR)
            return; /* a window that is gone is told by its input */
        if (sent > 0) {
            text += sent;
            count -= (size_t)sent;
        }
    }
}

/* ---- Colours ---- */

/* Whether the window says that its ground is dark: the last number of COLORFGBG (rxvt, konsole and others). */
static bool is_dark(void)
{
    const char *says = getenv("COLORFGBG"), *last = says == NULL ? NULL : strrchr(says, ';');
    if (last == NULL || last[1] == 0)
        return false;
    char *end = NULL;
    long ground = strtol(last + 1, &end, 10);
    return *end == 0 && (ground == 8 || (ground >= 0 && ground < 7));
}

/* No colours on a monochrome display's name (IBM 5251-11, 5291-1, 3196-A1), and where NO_COLOR says so. */
static bool wants_colors(const options *asked)
{
    const char *none = getenv("NO_COLOR");
    bool is_color = strcasecmp(asked->terminal, "IBM-3179-2") == 0 || strcasecmp(asked->terminal, "IBM-5292-2") == 0;
    return is_color && !asked->is_mono && (none == NULL || none[0] == 0);
}

static void begin_colors(window *w, const options *asked)
{
    static const short colors[LOOK_COLORS] = {COLOR_GREEN, COLOR_WHITE, COLOR_RED, COLOR_CYAN,
                                              COLOR_YELLOW, COLOR_MAGENTA, COLOR_BLUE};
    bool is_black = asked->background == BACKGROUND_BLACK || (asked->background == BACKGROUND_BY_WINDOW && !is_dark());
    w->has_colors = false;
    if (!has_colors() || !wants_colors(asked) || start_color() == ERR)
        return;
    if (!is_black && use_default_colors() == ERR)
        is_black = true;
    w->has_colors = true;
    for (short at = 0; at < LOOK_COLORS; at++)
        (void)init_pair((short)(at + 1), colors[at], is_black ? COLOR_BLACK : -1); /* at worst the window's own */
    if (is_black)
        (void)bkgd(' ' | (chtype)COLOR_PAIR(LOOK_GREEN + 1));
}

/* White is bold, since many windows have no white of its own in addition to their usual colour. */
attr_t window_look(const window *w, const look *l, short *pair)
{
    attr_t shown = A_NORMAL;
    *pair = w->has_colors ? (short)(l->color + 1) : 0;
    if (l->is_reversed)
        shown |= A_REVERSE;
    if (l->is_underscored)
        shown |= A_UNDERLINE;
    if (l->is_blinking)
        shown |= A_BLINK;
    if (l->is_intense || (w->has_colors && l->color == LOOK_WHITE))
        shown |= A_BOLD;
    return shown;
}

/* ---- Cursor and title ---- */

/* tmux and screen take the window's sequences, whether the description that they ask for has them or not. */
static bool is_multiplexed(void)
{
    const char *name = getenv("TERM");
    return name != NULL && (strncmp(name, "screen", 6) == 0 || strncmp(name, "tmux", 4) == 0);
}

/* The cursor of curses; where no status line tells, it vanishes with the keyboard, and stands out in insert mode. */
static void plain_cursor(bool is_locked, bool is_inserting, bool is_blinking)
{
    int shown = is_blinking ? 2 : 1;
    if (!window_has_status())
        shown = is_locked ? 0 : is_inserting ? 2 : shown;
    (void)curs_set(shown); /* not every window can */
}

/* A block where keys are typed over, a bar where they are inserted, a line below where the host has the keyboard (DEC,
 * DECSCUSR); where the window can't, the cursor of curses. */
void window_cursor(window *w, bool is_locked, bool is_inserting, bool is_blinking)
{
    static const char *const shapes[] = {"\033[2 q", "\033[6 q", "\033[4 q", "\033[1 q", "\033[5 q", "\033[3 q"};
    const char *known = tigetstr("Ss");
    if ((known == NULL || known == (const char *)-1) && !is_multiplexed()) {
        plain_cursor(is_locked, is_inserting, is_blinking);
        return;
    }
    const char *shape = shapes[(is_locked ? 2 : is_inserting ? 1 : 0) + (is_blinking ? 3 : 0)];
    if (shape != w->shape)
        send(shape);
    w->shape = shape;
}

static void begin_title(window *w)
{
    const char *before = tigetstr("tsl"), *behind = tigetstr("fsl"), *none = (const char *)-1;
    bool has_both = before != NULL && before != none && behind != NULL && behind != none;
    if (tigetflag("XT") > 0 || is_multiplexed()) {
        before = "\033]0;";
        behind = "\007";
    } else if (!has_both || tigetflag("hs") <= 0 || before[0] != '\033' || before[1] != ']') {
        before = behind = NULL;
    }
    w->before_title = before;
    w->behind_title = behind;
    if (before != NULL)
        send(KEEP_TITLE);
}

void window_title(window *w, const char *text)
{
    if (w->before_title == NULL || strcmp(text, w->title) == 0)
        return;
    (void)snprintf(w->title, sizeof w->title, "%s", text);
    send(w->before_title);
    send(w->title);
    send(w->behind_title);
}

/* ---- The window ---- */

static bool begin(window *w, const options *asked)
{
    *w = (window){.separators = asked->separators, .screen = newterm(NULL, stdout, stdin)};
    if (w->screen == NULL)
        return false;
    if (raw() == ERR || noecho() == ERR || nonl() == ERR || keypad(stdscr, TRUE) == ERR || nodelay(stdscr, TRUE) == ERR)
        return false;
    (void)meta(stdscr, TRUE); /* these are niceties, and not every window has them */
    (void)set_escdelay(100);
    input_begin();
    begin_colors(w, asked);
    if (asked->has_mouse) {
        (void)mouseinterval(0);
        (void)mousemask(BUTTON1_PRESSED | BUTTON4_PRESSED | BUTTON5_PRESSED, NULL);
    }
    begin_title(w);
    send(BRACKETED_PASTE);
    return true;
}

bool window_begin(window *w, const options *asked)
{
    signals_let_in(true);
    bool is_begun = begin(w, asked);
    signals_let_in(false);
    return is_begun;
}

void window_resize(window *w)
{
    struct winsize size;
    signals_let_in(true);
    w->shape = NULL;
    w->title[0] = 0;
    (void)reset_prog_mode(); /* whoever stopped the program may have changed the line's modes, and the window's */
    send(BRACKETED_PASTE);
    signals_let_in(false);
    if (ioctl(STDOUT_FILENO, TIOCGWINSZ, &size) == 0 && size.ws_row > 0 && size.ws_col > 0)
        (void)resizeterm(size.ws_row, size.ws_col); /* without memory the old size stays */
    (void)clearok(stdscr, TRUE);
}

bool window_has_screen(void)
{
    return LINES >= SCREEN_ROWS && COLS >= SCREEN_COLUMNS;
}

bool window_has_status(void)
{
    return window_has_screen() && LINES > SCREEN_ROWS;
}

static void give_back(const window *w)
{
    signals_let_in(true);
    (void)endwin(); /* whatever it answers, there is nothing more to be done */
    send(PLAIN_PASTE);
    if (w->shape != NULL)
        send("\033[0 q");
    if (w->before_title != NULL)
        send(GIVE_TITLE_BACK);
    signals_let_in(false);
}

void window_stop(const window *w)
{
    give_back(w);
    signals_stop();
    if (w->before_title != NULL)
        send(KEEP_TITLE);
}

void window_end(window *w)
{
    if (w->screen == NULL)
        return;
    give_back(w);
    delscreen(w->screen);
    w->screen = NULL;
}
