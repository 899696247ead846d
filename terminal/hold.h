/* Whose turn it is, and what becomes of a key then (SC30-3533, operator errors): it is pressed, waits, or rings. */
#ifndef HOLD_H
#define HOLD_H

#include "action.h"

/* What decides over a key. */
typedef struct {
    bool is_over;   /* nothing is sent any more */
    bool is_held;   /* a key was refused, and there was no Reset since */
    bool has_error; /* an error of the host's stands */
    bool is_locked; /* the keyboard; or the host takes nothing of what is sent */
    bool waits;     /* keys wait */
} turn;

typedef enum {
    VERDICT_PRESS,
    VERDICT_WAIT,
    VERDICT_RING, /* the key is dropped, with a bell */
    VERDICT_DROP_AHEAD,
    VERDICT_END_HOLD,
    VERDICT_END_ERROR,
    VERDICT_END_INSERT
} verdict;

/* What becomes of a key of the station's, or of Reset, which ends the first of what stands: the keys that wait, the
 * hold, the host's error; else insert mode. Attention and System Request never wait. */
verdict hold_judges(const turn *now, action_kind key);

#endif
