/* When a session that is over begins again by itself: after a pause that grows from a second to a minute, and is short
 * again after a session that lasted. */
#ifndef AGAIN_H
#define AGAIN_H

#include <stdbool.h>
#include <stdint.h>

enum {
    AGAIN_LONGEST = 60,  /* seconds: a pause */
    AGAIN_LASTED = 60000 /* milliseconds: a session after which the pause is short again */
};

typedef struct {
    unsigned pause; /* the last one, in seconds; 0 before the first */
    bool is_due;    /* at: */
    uint64_t at;    /* in milliseconds of the caller's clock */
} again;

/* Plans it, after a session of so many milliseconds; 0 where there was none. */
void again_plan(again *a, uint64_t now, uint64_t lasted);

/* It begins by itself no more. The pause stays, for the next plan. */
void again_cancel(again *a);

/* The seconds that are left, rounded up. */
unsigned again_left(const again *a, uint64_t now);

/* The milliseconds up to the next change of these seconds; negative where nothing is planned. */
int again_due(const again *a, uint64_t now);

#endif
