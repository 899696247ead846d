/* What each attribute looks like, with colours and without (SC30-3533, screen attributes; IBM 3179-2). */
#include "../../c/tests/check.h"
#include "look.h"

/* A letter of the colour, then R reversed, U underscored, B blinking, S separators; `-` where nothing is shown. */
static const char *const colored[32] = {
    "g", "gR", "w", "wR", "gU", "gRU", "wU", "-", "r", "rR", "rB", "rRB", "rU", "rRU", "rUB", "-",
    "tS", "tRS", "yS", "yRS", "tU", "tRU", "yU", "-", "p", "pR", "b", "bR", "pU", "pRU", "bU", "-",
};

/* Without colours I is high intensity. */
static const char *const plain[32] = {
    "", "R", "I", "RI", "U", "RU", "UI", "-", "B", "RB", "BI", "RBI", "UB", "RUB", "UBI", "-",
    "S", "RS", "IS", "RIS", "US", "RUS", "UIS", "-", "BS", "RBS", "BIS", "RBIS", "UBS", "RUBS", "UBIS", "-",
};

static bool has(const char *text, char letter)
{
    return strchr(text, letter) != NULL;
}

static void check_look(uint8_t attribute, bool has_colors, const char *wanted)
{
    static const char letters[LOOK_COLORS + 1] = "gwrtypb";
    look l = look_of(attribute, has_colors);
    CHECK(l.is_hidden == has(wanted, '-'));
    CHECK(l.is_reversed == has(wanted, 'R') && l.is_underscored == has(wanted, 'U'));
    CHECK(l.is_blinking == has(wanted, 'B') && l.has_separators == has(wanted, 'S'));
    CHECK(l.is_intense == has(wanted, 'I'));
    CHECK(letters[l.color] == (has_colors && !l.is_hidden ? wanted[0] : 'g'));
}

int main(void)
{
    for (uint8_t at = 0; at < 32; at++) {
        check_look((uint8_t)(0x20 + at), true, colored[at]);
        check_look((uint8_t)(0x20 + at), false, plain[at]);
    }
    return check_end();
}
