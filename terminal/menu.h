/* The menu: the keys, what the status line's signs mean, and what is saved. It lies over the screen, and nothing waits
 * for it. */
#ifndef MENU_H
#define MENU_H

#include "session.h"
#include "status.h"

void menu_draw(session *s, const status_parts *parts);

/* Takes a key while the menu is open. */
void menu_key(session *s, uint32_t character);

#endif
