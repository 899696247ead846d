/* What an attribute looks like (SC30-3533, screen attributes; IBM 3179-2, colour attributes). */
#ifndef LOOK_H
#define LOOK_H

#include "ribbonscarp.h"

#include <stdbool.h>
#include <stdint.h>

typedef enum {
    LOOK_GREEN,
    LOOK_WHITE,
    LOOK_RED,
    LOOK_TURQUOISE,
    LOOK_YELLOW,
    LOOK_PINK,
    LOOK_BLUE,
    LOOK_COLORS /* how many there are */
} look_color;

typedef struct {
    look_color color; /* of a display with colours; green of one without */
    bool is_hidden;   /* nothing is shown; the others are then off */
    bool is_reversed;
    bool is_intense; /* of a display without colours */
    bool is_underscored;
    bool is_blinking;
    bool has_separators;
} look;

/* What an attribute, 20 to 3F, looks like on a display with colours or without. */
look look_of(uint8_t attribute, bool has_colors);

/* Whether nothing is shown of what is typed at the cursor. */
bool look_hides(ribbon_station *station);

#endif
