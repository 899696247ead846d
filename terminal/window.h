/* The terminal's window by curses: how it begins and ends, its size, its colours, its cursor and its title. */
#ifndef WINDOW_H
#define WINDOW_H

#include "look.h"
#include "options.h"

#ifndef _XOPEN_SOURCE_EXTENDED
#define _XOPEN_SOURCE_EXTENDED 1 /* curses with wide characters */
#endif
#include <curses.h>

enum { SCREEN_ROWS = 24, SCREEN_COLUMNS = 80 };

typedef struct {
    SCREEN *screen;       /* null where the window isn't open */
    bool has_colors;      /* the station's screen is shown in colours */
    bool separators;      /* are drawn */
    bool is_covered;      /* by a sentence over the last row */
    const char *shape;    /* of the cursor, as it was set last; null before */
    char title[300];      /* as it was set last */
    const char *before_title, *behind_title; /* null where there is no title */
} window;

/* Takes a locale in which the host's characters can be shown; a sentence, which lasts, where the environment's isn't
 * one, else nothing. */
const char *window_locale(void);

/* Whether the window can be worked in: false, with a sentence, where TERM isn't known or can't move a cursor. */
bool window_knows(char *why, size_t room);

/* Begins; false where curses can't. */
bool window_begin(window *w, const options *asked);

/* Takes the size that the window has now. */
void window_resize(window *w);

/* Gives the window back while the program is stopped; window_resize takes it again. */
void window_stop(const window *w);

/* Whether a screen has room, and whether a status line has room below it. */
bool window_has_screen(void);
bool window_has_status(void);

/* The attributes of curses for a look, and its colours. */
attr_t window_look(const window *w, const look *l, short *pair);

/* Shows the cursor as the keyboard is; after refresh(). */
void window_cursor(window *w, bool is_locked, bool is_inserting, bool is_blinking);

/* Sets the title, where it is another; after refresh(). */
void window_title(window *w, const char *text);

/* Leaves the window as it was found. */
void window_end(window *w);

#endif
