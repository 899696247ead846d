/* Keys that are pressed at the station, one of its own or several, and what came of them. */
#ifndef PRESSED_H
#define PRESSED_H

#include "session.h"

typedef struct {
    ribbon_status status;
    uint8_t refusal;   /* RIBBON_KEY_IS_...; 0 where it wasn't refused */
    bool has_moved_on; /* the cursor stands elsewhere than one cell further in its field */
    bool is_below;     /* and that is further below */
    bool has_sent;     /* something, also by the Enter that follows a field's last key (auto enter) */
} pressed;

/* Whether a key's answer has room, and comes after all that the station has written; where there is no line yet, the
 * station tells by itself that nothing can be sent. */
bool pressed_can_send(const session *s);

/* Presses a key, where there is room for its answer; what it sends goes out. A macro records it where it isn't refused. */
pressed pressed_key(session *s, action key);

#endif
