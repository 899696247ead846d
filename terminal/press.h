/* The keyboard's side of a session: what becomes of each key. */
#ifndef PRESS_H
#define PRESS_H

#include "hold.h"
#include "session.h"

/* Takes a key that was typed: presses it, lets it wait, or drops it with a bell. */
void press_key(session *s, action key);

/* Takes a pasted character. */
void press_pasted(session *s, uint32_t character);

/* A paste begins, or ends. */
void press_paste_begins(session *s);
void press_paste_ends(session *s);

/* Presses the keys that wait, while the keyboard is free. */
void press_ahead(session *s);

/* Lays the status line over the last row of a window that has no row for it, or takes it off. */
void press_status(session *s);

/* Whose turn it is. */
turn press_turn(session *s);

#endif
