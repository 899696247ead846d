/* When a session begins again by itself: pauses of 1, 2, 4 .. 60 seconds. */
#include "../../c/tests/check.h"
#include "again.h"

static void the_pause_grows(void)
{
    static const unsigned pauses[] = {1, 2, 4, 8, 16, 32, 60, 60};
    again a = {.pause = 0};
    CHECK(again_due(&a, 5) == -1);
    for (size_t at = 0; at < sizeof pauses / sizeof pauses[0]; at++) {
        again_plan(&a, 1000, 0);
        CHECK(a.is_due && a.at == 1000 + pauses[at] * 1000);
        CHECK(again_left(&a, 1000) == pauses[at]);
    }
    again_plan(&a, 1000, 59999);
    CHECK(again_left(&a, 1000) == 60);
    again_plan(&a, 1000, 60000);
    CHECK(again_left(&a, 1000) == 1);
}

static void seconds_are_counted_down(void)
{
    again a = {.pause = 1};
    again_plan(&a, 10000, 0);
    CHECK(again_left(&a, 10000) == 2 && again_due(&a, 10000) == 1000);
    CHECK(again_left(&a, 10001) == 2 && again_due(&a, 10001) == 999);
    CHECK(again_left(&a, 11000) == 1 && again_due(&a, 11000) == 1000);
    CHECK(again_left(&a, 11999) == 1 && again_due(&a, 11999) == 1);
    CHECK(again_left(&a, 12000) == 0 && again_due(&a, 12000) == 0);
    CHECK(again_left(&a, 99000) == 0 && again_due(&a, 99000) == 0);
    again_cancel(&a);
    CHECK(again_due(&a, 10000) == -1);
}

int main(void)
{
    the_pause_grows();
    seconds_are_counted_down();
    return check_end();
}
