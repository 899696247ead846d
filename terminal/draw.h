/* What is shown of a session. */
#ifndef DRAW_H
#define DRAW_H

#include "session.h"
#include "status.h"
#include "window.h"

/* Draws what has changed, and rings where it is due. */
void draw(session *s, window *w);

/* What the status line tells. `where` has HOST:PORT. */
status_parts draw_parts(session *s, const ribbon_state *state);

/* The status line, in a row. */
void draw_status(const status_parts *parts, int row);

#endif
