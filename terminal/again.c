/* The pauses before a session begins again. */
#include "again.h"

void again_plan(again *a, uint64_t now, uint64_t lasted)
{
    a->pause = a->pause == 0 || lasted >= AGAIN_LASTED ? 1 : 2 * a->pause;
    if (a->pause > AGAIN_LONGEST)
        a->pause = AGAIN_LONGEST;
    a->is_due = true;
    a->at = now + a->pause * UINT64_C(1000);
}

void again_cancel(again *a)
{
    a->is_due = false;
}

unsigned again_left(const again *a, uint64_t now)
{
    return a->at > now ? (unsigned)((a->at - now + 999) / 1000) : 0;
}

int again_due(const again *a, uint64_t now)
{
    if (!a->is_due)
        return -1;
    return a->at > now ? (int)((a->at - now - 1) % 1000 + 1) : 0;
}
