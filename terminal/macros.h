/* The macros of a session: what is recorded, played and kept by name. Nothing of a hidden field is recorded, and
 * nothing is played into one. */
#ifndef MACROS_H
#define MACROS_H

#include "session.h"

/* Whether a key would enter something into a hidden field, while a macro is recorded or played. */
bool macros_hides(session *s, action key);

/* Records a key that was pressed, where a macro is recorded; what went into a hidden field is told, and left out. */
void macros_record(session *s, action key, bool is_hidden);

/* The next key of what is played; false where nothing is, or the cursor stands in a hidden field that it would
 * enter. */
bool macros_next(session *s, action *key);

/* Whether a macro may have a name: 1 to 32 letters of ASCII, digits, `-` and `_`. */
bool macros_is_name(const char *name);

/* Keeps what was recorded in a file of a name that isn't there yet; a number is put behind one that is. */
void macros_keep(session *s, const char *name);

/* Begins to play what is kept by a name, unless the session is over. */
void macros_play(session *s, const char *name);

/* Calls for each name that there is, in order, up to `most` of them. */
void macros_list(void (*show)(size_t at, const char *name), size_t most);

#endif
