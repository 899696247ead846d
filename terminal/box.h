/* The box at a session's end: the whole reason, and what can be done then. */
#ifndef BOX_H
#define BOX_H

#include "session.h"

/* Draws it over the screen, whose last row stays to be read. */
void box_draw(const session *s);

/* Takes a key that was typed while it is open. */
void box_key(session *s, stroke key);

#endif
