/* What names a field on the screen. */
#ifndef LABEL_H
#define LABEL_H

#include "ribbonscarp.h"

enum { LABEL_LONGEST = 26, LABEL_ROOM = 4 * LABEL_LONGEST + 1 };

/* The text before a field in its row, without the dots and the colon behind it: up to another field, an attribute or
 * two blanks. False where there is none, or a longer one. */
bool label_of(ribbon_station *station, const ribbon_field *field, char text[LABEL_ROOM]);

/* The first field for which a key is refused so, RIBBON_KEY_...: that has to be entered or filled; false where there is
 * none. */
bool label_missing(ribbon_station *station, uint8_t refusal, ribbon_field *field);

#endif
