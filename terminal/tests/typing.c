/* What becomes of keys: who waits, who rings, what Reset ends, and what pasted text asks for. */
#include "../../c/tests/check.h"
#include "ahead.h"
#include "hold.h"
#include "paste.h"

static ahead waiting; /* Of the stack it would be a large part. */

static void keys_wait_in_order(void)
{
    action key;
    bool is_right = true;
    for (uint32_t at = 0; at < 3 * AHEAD_ROOM; at++)
        is_right = is_right && ahead_put(&waiting, (action){ACTION_CHARACTER, at}) && ahead_take(&waiting, &key)
                   && key.value == at;
    CHECK(is_right && !ahead_take(&waiting, &key));
    for (uint32_t at = 0; at < AHEAD_ROOM; at++)
        is_right = is_right && ahead_put(&waiting, (action){ACTION_CHARACTER, at});
    CHECK(is_right && !ahead_put(&waiting, (action){ACTION_CHARACTER, 7}));
    CHECK(ahead_first(&waiting).value == 0 && ahead_last(&waiting).value == AHEAD_ROOM - 1);
    CHECK(ahead_take(&waiting, &key) && key.value == 0 && !ahead_put(&waiting, key)); /* it had no room: no key has */
    for (uint32_t at = 2; at < AHEAD_ROOM; at++)
        is_right = is_right && ahead_take(&waiting, &key) && !ahead_put(&waiting, key);
    CHECK(is_right && ahead_take(&waiting, &key) && key.value == AHEAD_ROOM - 1 && ahead_put(&waiting, key));
    CHECK(ahead_drop(&waiting) == 1);
    CHECK(ahead_drop(&waiting) == 0 && !ahead_take(&waiting, &key) && ahead_first(&waiting).kind == ACTION_NOTHING);
}

/* is_over, is_held, has_error, is_locked, waits */
static const struct {
    turn now;
    action_kind key;
    verdict becomes;
} verdicts[] = {
    {{0, 0, 0, 0, 0}, ACTION_CHARACTER, VERDICT_PRESS},
    {{0, 0, 0, 0, 0}, ACTION_AID, VERDICT_PRESS},
    {{0, 0, 0, 0, 0}, ACTION_RESET, VERDICT_END_INSERT},
    /* The host has the keyboard: keys wait, but not Reset, Attention and System Request. */
    {{0, 0, 0, 1, 0}, ACTION_CHARACTER, VERDICT_WAIT},
    {{0, 0, 0, 1, 0}, ACTION_LEFT, VERDICT_WAIT},
    {{0, 0, 0, 1, 0}, ACTION_MOVE_TO, VERDICT_WAIT},
    {{0, 0, 0, 1, 0}, ACTION_AID, VERDICT_WAIT},
    {{0, 0, 0, 1, 1}, ACTION_PASTED, VERDICT_WAIT},
    {{0, 0, 0, 0, 1}, ACTION_CHARACTER, VERDICT_WAIT},
    {{0, 0, 0, 1, 0}, ACTION_ATTENTION, VERDICT_PRESS},
    {{0, 0, 0, 1, 1}, ACTION_SYSTEM_REQUEST, VERDICT_PRESS},
    {{0, 0, 0, 1, 0}, ACTION_RESET, VERDICT_END_INSERT},
    /* A hold: arrows alone. */
    {{0, 1, 0, 0, 0}, ACTION_CHARACTER, VERDICT_RING},
    {{0, 1, 0, 0, 0}, ACTION_AID, VERDICT_RING},
    {{0, 1, 0, 0, 0}, ACTION_BACKSPACE, VERDICT_RING},
    {{0, 1, 0, 0, 0}, ACTION_TAB, VERDICT_RING},
    {{0, 1, 0, 0, 0}, ACTION_LEFT, VERDICT_PRESS},
    {{0, 1, 0, 0, 0}, ACTION_RIGHT, VERDICT_PRESS},
    {{0, 1, 0, 0, 0}, ACTION_UP, VERDICT_PRESS},
    {{0, 1, 0, 0, 0}, ACTION_DOWN, VERDICT_PRESS},
    {{0, 1, 0, 0, 0}, ACTION_MOVE_TO, VERDICT_PRESS},
    {{0, 1, 0, 1, 0}, ACTION_LEFT, VERDICT_RING},
    {{0, 1, 0, 1, 0}, ACTION_CHARACTER, VERDICT_RING},
    {{0, 1, 1, 0, 0}, ACTION_LEFT, VERDICT_RING},
    {{0, 1, 0, 0, 0}, ACTION_RESET, VERDICT_END_HOLD},
    {{0, 1, 0, 1, 0}, ACTION_RESET, VERDICT_END_HOLD},
    /* The host's error: keys ring and don't wait, and Attention and System Request go out. */
    {{0, 0, 1, 1, 0}, ACTION_CHARACTER, VERDICT_RING},
    {{0, 0, 1, 0, 0}, ACTION_LEFT, VERDICT_RING},
    {{0, 0, 1, 1, 0}, ACTION_AID, VERDICT_RING},
    {{0, 0, 1, 1, 0}, ACTION_ATTENTION, VERDICT_PRESS},
    {{0, 0, 1, 0, 0}, ACTION_SYSTEM_REQUEST, VERDICT_PRESS},
    {{0, 0, 1, 1, 0}, ACTION_RESET, VERDICT_END_ERROR},
    /* Reset ends the first of what stands: what waits, the hold, the host's error. */
    {{0, 1, 1, 1, 1}, ACTION_RESET, VERDICT_DROP_AHEAD},
    {{0, 1, 1, 1, 0}, ACTION_RESET, VERDICT_END_HOLD},
    {{0, 0, 1, 1, 1}, ACTION_RESET, VERDICT_DROP_AHEAD},
    /* Nothing goes out any more. */
    {{1, 0, 0, 0, 0}, ACTION_CHARACTER, VERDICT_RING},
    {{1, 0, 0, 1, 0}, ACTION_AID, VERDICT_RING},
    {{1, 0, 0, 1, 0}, ACTION_ATTENTION, VERDICT_RING},
};

static void each_turn_has_its_verdict(void)
{
    for (size_t at = 0; at < sizeof verdicts / sizeof verdicts[0]; at++) {
        verdict became = hold_judges(&verdicts[at].now, verdicts[at].key);
        if (became != verdicts[at].becomes)
            printf("row %zu gives %d\n", at, (int)became);
        CHECK(became == verdicts[at].becomes);
    }
}

/* What the characters of a text ask for: `n` for the next field, `-` for nothing, themselves where they go in. */
static void asks(const char *text, const char *wanted)
{
    paste p;
    char asked[40];
    size_t at = 0;
    paste_begin(&p);
    CHECK(p.is_on);
    for (; text[at] != 0 && at + 1 < sizeof asked; at++) {
        action does = paste_character(&p, (uint32_t)text[at]);
        asked[at] = does.kind == ACTION_PASTED ? (char)does.value : does.kind == ACTION_PASTED_END ? 'n' : '-';
    }
    asked[at] = 0;
    if (strcmp(asked, wanted) != 0)
        printf("`%s` asks for `%s`\n", text, asked);
    CHECK(strcmp(asked, wanted) == 0);
}

static void pasted_text_sends_nothing(void)
{
    asks("ab\ncd", "abncd");
    asks("ab\rcd", "abncd");
    asks("ab\r\ncd\r\n", "abn-cdn-");
    asks("a\n\nb\r\rc", "annbnnc");
    asks("a\tb", "anb");
    asks("a\n\rb", "annb");
}

/* A paste into fields of three cells and then of two, the last ones: what of it is pressed, `n` for the key that goes
 * to the next field, and what is told at its end. */
static void presses(const char *text, const char *wanted, const char *sentence)
{
    static const size_t lengths[] = {3, 2};
    paste p = {.is_full = true, .is_over = true, .count = 9, .total = 9, .why = "of another paste"};
    char pressed[40], told[400];
    size_t field = 0, place = 0, at = 0;
    paste_start(&p);
    for (; *text != 0; text++) {
        if (*text == '/') {
            if (paste_line_ends(&p, field < 1)) {
                pressed[at++] = 'n';
                field++;
                place = 0;
            }
        } else if (paste_takes(&p)) {
            pressed[at++] = *text;
            place++;
            bool is_full = place == lengths[field], is_below = field == 0;
            paste_went_in(&p, is_full, is_below);
            field = is_full ? (field + 1) % 2 : field;
            place = is_full ? 0 : place;
        }
    }
    pressed[at] = 0;
    if (!paste_told(&p, told, sizeof told))
        told[0] = 0;
    if (strcmp(pressed, wanted) != 0 || strcmp(told, sentence) != 0)
        printf("it presses `%s` and tells `%s`\n", pressed, told);
    CHECK(strcmp(pressed, wanted) == 0 && strcmp(told, sentence) == 0);
}

static void a_line_goes_into_one_field(void)
{
    presses("ab/c", "abnc", "");
    presses("abc/de/", "abcde", "");
    presses("ab/c/", "abnc", "");
    presses("abcdef", "abc", "3 of 6 pasted. The field is full.");
    presses("a/bcd/e", "anbc", "3 of 5 pasted. The field is full.");
    presses("abc/de/f", "abcde", "5 of 6 pasted. There is no field below.");
    presses("abc/d/e/f", "abcd", "4 of 6 pasted. There is no field below.");
    presses("//a", "n", "Nothing pasted. There is no field below.");
}

static void the_first_reason_stays(void)
{
    paste p;
    char told[400];
    paste_start(&p);
    CHECK(!paste_told(&p, told, sizeof told) && paste_takes(&p));
    paste_went_in(&p, false, true);
    paste_stop(&p, "One.");
    paste_stop(&p, "Two.");
    CHECK(!paste_takes(&p) && !paste_line_ends(&p, true));
    CHECK(paste_told(&p, told, sizeof told) && strcmp(told, "1 of 2 pasted. One.") == 0);
}

/* Where its field has sent the screen nothing of it is for the next one. */
static void what_has_gone_out_ends_it(void)
{
    paste p;
    char told[400];
    paste_start(&p);
    CHECK(paste_takes(&p));
    paste_went_in(&p, true, true);
    paste_has_sent(&p);
    CHECK(!paste_line_ends(&p, true) && !paste_told(&p, told, sizeof told));
    CHECK(!paste_takes(&p) && !paste_line_ends(&p, true));
    CHECK(paste_told(&p, told, sizeof told));
    CHECK(strcmp(told, "1 of 2 pasted. Its field has sent the screen.") == 0);
    paste_start(&p);
    CHECK(paste_takes(&p));
}

static void a_paste_leaves_the_queue_whole(void)
{
    CHECK(ahead_put(&waiting, (action){ACTION_PASTE_BEGINS, 0}) && ahead_put(&waiting, (action){ACTION_TAB, 0}));
    CHECK(ahead_put(&waiting, (action){ACTION_PASTE_BEGINS, 0}) && ahead_put(&waiting, (action){ACTION_PASTED, 'a'}));
    CHECK(ahead_put(&waiting, (action){ACTION_PASTED_END, 0}) && ahead_last(&waiting).kind == ACTION_PASTED_END);
    ahead_drop_paste(&waiting);
    CHECK(ahead_last(&waiting).kind == ACTION_TAB && ahead_drop(&waiting) == 1);
    CHECK(ahead_last(&waiting).kind == ACTION_NOTHING);
    ahead_drop_paste(&waiting);
    CHECK(ahead_put(&waiting, (action){ACTION_PASTED, 'a'}));
    ahead_drop_paste(&waiting);
    CHECK(ahead_last(&waiting).kind == ACTION_NOTHING && ahead_drop(&waiting) == 0);
}

int main(void)
{
    keys_wait_in_order();
    each_turn_has_its_verdict();
    pasted_text_sends_nothing();
    a_line_goes_into_one_field();
    the_first_reason_stays();
    what_has_gone_out_ends_it();
    a_paste_leaves_the_queue_whole();
    return check_end();
}
