/* Keys of the terminal that are several of the station's, pressed one by one. Each ends at the first that the station
 * refuses, and answers what that answered: of RIBBON_KEY_REFUSED `refusal` says why. None sends anything. */
#ifndef MOVES_H
#define MOVES_H

#include "ribbonscarp.h"

/* The cursor goes to a cell, rows from 1 to 24, columns from 1 to 80. */
ribbon_status moves_to(ribbon_station *station, uint8_t row, uint8_t column, uint8_t *refusal);

/* New Line: the cursor goes to the first cell of the first open field that begins in a row below, from the top again;
 * to column 1 of the row below where there is no open field. */
ribbon_status moves_new_line(ribbon_station *station, uint8_t *refusal);

/* Erase EOF: the cells from the cursor to its field's end become empty, and the cursor stays. */
ribbon_status moves_erase_eof(ribbon_station *station, uint8_t *refusal);

/* The cursor goes to its field's first cell; it stays where it is in none. */
ribbon_status moves_field_begin(ribbon_station *station, uint8_t *refusal);

/* The cursor goes behind the last character of its field, at most to the last cell; it stays where it is in none. */
ribbon_status moves_field_end(ribbon_station *station, uint8_t *refusal);

/* The cursor goes into the field for which a key is refused so, RIBBON_KEY_...: to the first cell of one that has to be
 * entered, to the first empty one of one that has to be filled. It stays where there is none. */
void moves_to_missing(ribbon_station *station, uint8_t refusal);

/* Whether a field that keys enter begins behind the cursor: Tab goes there, and else to the first one. */
bool moves_has_next(ribbon_station *station);

/* Backspace: the character before the cursor goes, in a full field that at the cursor. Else nothing is done at a field's
 * first cell, and `at_begin` is set. */
ribbon_status moves_backspace(ribbon_station *station, uint8_t *refusal, bool *at_begin);

#endif
