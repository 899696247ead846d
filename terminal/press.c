#include "press.h"

#include "macros.h"
#include "moves.h"
#include "pressed.h"
#include "sentence.h"

#include <string.h>

turn press_turn(session *s)
{
    ribbon_state state;
    turn now = {.is_over = s->phase == PHASE_OVER, .is_held = s->is_held};
    bool is_known = ribbon_station_state(&s->station, &state) == RIBBON_DONE;
    now.waits = s->ahead.count > 0 || s->ahead.is_full || s->macro.state == MACRO_PLAYS;
    now.has_error = is_known && state.error_row != 0;
    now.is_locked = !is_known || state.is_locked || !pressed_can_send(s);
    return now;
}

/* Drops what is typed ahead, and the rest of a macro. */
static size_t drop_ahead(session *s)
{
    size_t dropped = ahead_drop(&s->ahead);
    if (dropped > 0)
        s->paste.is_dropped = s->paste.is_on; /* its begin is gone */
    return dropped + macro_stop(&s->macro);
}

/* Rings, with a sentence that stands until Reset, as the keyboard is then held, unless nobody wants that; what waits is
 * dropped. */
static void hold(session *s, const char *why)
{
    char text[NOTE_ROOM];
    size_t dropped = drop_ahead(s);
    (void)snprintf(text, sizeof text, "%s", why);
    if (dropped > 0)
        (void)snprintf(text, sizeof text, "%s %zu dropped.", why, dropped);
    s->rings = true;
    s->note[0] = 0;
    s->is_held = s->asked->holds;
    s->is_insert_refused = false;
    if (s->is_held)
        (void)snprintf(s->standing, sizeof s->standing, "%s", text);
    else
        session_tell(s, "%s", text);
}

/* What a refused key leaves. */
static void refuse(session *s, action key, const pressed *p)
{
    char why[PASTE_WHY_ROOM];
    bool is_refused = p->status == RIBBON_KEY_REFUSED; /* and not a request before a session has begun */
    const refused_key refused = {key, p->refusal, s->asked->identity.code_page, s->asked->is_strict, &s->keys};
    if (is_refused)
        sentence_refused(&s->station, &refused, why, sizeof why);
    else
        (void)snprintf(why, sizeof why, "Nothing can be sent: %s.", ribbon_status_text(p->status));
    if (paste_is_part(key.kind)) {
        paste_stop(&s->paste, why);
    } else if (is_refused) {
        hold(s, why);
        s->is_insert_refused = key.kind == ACTION_INSERTED;
        moves_to_missing(&s->station, p->refusal);
    } else {
        session_tell(s, "%s", why);
        s->rings = true;
    }
}

/* What didn't go in is told at a paste's end, so that all of it is counted. */
static void end_paste(session *s)
{
    char text[NOTE_ROOM];
    turn now = press_turn(s);
    if (!paste_told(&s->paste, text, sizeof text))
        return;
    s->rings = true;
    if (now.is_over || now.is_held || now.has_error || (now.is_locked && s->paste.count == 0)) {
        session_tell(s, "%s", text);
        return;
    }
    hold(s, text);
    s->is_insert_refused = s->is_inserting;
}

/* A part of a paste; whether the screen has gone out with it. */
static bool press_part(session *s, action key)
{
    pressed p = {0};
    switch (key.kind) {
    case ACTION_PASTE_BEGINS: paste_start(&s->paste); break;
    case ACTION_PASTED:
        if (!paste_takes(&s->paste))
            break;
        p = pressed_key(s, key);
        if (p.status == RIBBON_DONE)
            paste_went_in(&s->paste, p.has_moved_on, p.is_below);
        if (p.has_sent)
            paste_has_sent(&s->paste);
        break;
    case ACTION_PASTED_END:
        if (paste_line_ends(&s->paste, moves_has_next(&s->station)))
            p = pressed_key(s, (action){ACTION_TAB, 0});
        break;
    default: end_paste(s); break;
    }
    if (p.status != RIBBON_DONE)
        refuse(s, key, &p);
    return p.has_sent;
}

/* Remembers the key that was sent last; of another one that has sent, the Enter that follows it. */
static void remember(session *s, action key, bool has_sent)
{
    if (key.kind == ACTION_AID)
        s->sent = key;
    else if (key.kind != ACTION_ATTENTION && key.kind != ACTION_SYSTEM_REQUEST)
        s->sent = has_sent ? (action){ACTION_AID, RIBBON_AID_ENTER} : (action){ACTION_NOTHING, 0};
}

/* A key that isn't held off, or a part of a paste; false where a key was refused. */
static bool press_does(session *s, action key)
{
    pressed p = {0};
    if (!pressed_can_send(s)) { /* These are keys that don't wait; the others do. */
        session_tell(s, "The host doesn't take what is sent: the key wasn't pressed.");
        s->rings = true;
        return false;
    }
    if (paste_is_part(key.kind))
        p.has_sent = press_part(s, key);
    else
        p = pressed_key(s, key);
    if (p.status != RIBBON_DONE) {
        refuse(s, key, &p);
        return false;
    }
    remember(s, key, p.has_sent);
    return true;
}

/* The same key again after one that sends would answer a screen that nobody has seen. */
static bool is_impatient(const session *s, action key)
{
    return key.kind == ACTION_AID && action_is(key, s->ahead.count > 0 ? ahead_last(&s->ahead) : s->sent);
}

/* Where no more can wait: what comes after isn't for the screens of those that do. Of a paste then nothing waits. */
static void tell_no_room(session *s, action key)
{
    bool is_part = paste_is_part(key.kind);
    if (is_part && key.kind != ACTION_PASTE_BEGINS)
        ahead_drop_paste(&s->ahead);
    s->paste.is_dropped = is_part;
    session_tell(s, "%s%d keys can wait, and no more%s", is_part ? "The paste is dropped: " : "", AHEAD_ROOM,
                 is_part ? "." : ": those after them are dropped.");
}

static void tell_impatient(session *s)
{
    session_tell(s, "This key again is dropped: the host hasn't answered the first.");
    s->rings = true;
}

static void let_wait(session *s, action key)
{
    if (is_impatient(s, key)) {
        tell_impatient(s);
    } else if (!ahead_put(&s->ahead, key)) {
        tell_no_room(s, key);
        s->rings = true;
    }
}

/* What of a paste comes after it has sent the screen, and enters nothing: it needn't wait for the next one. */
static bool ends_sent_paste(session *s, action key)
{
    bool is_end = key.kind == ACTION_PASTE_ENDS;
    if (!s->paste.is_sent || !(is_end || key.kind == ACTION_PASTED_END))
        return false;
    if (is_end)
        end_paste(s);
    return true;
}

/* An Enter that waits, and that was typed after a key after which Enter has come by itself. */
static void drop_impatient(session *s, action last)
{
    action next = ahead_first(&s->ahead);
    for (; last.kind == ACTION_PASTED && ends_sent_paste(s, next); next = ahead_first(&s->ahead))
        (void)ahead_take(&s->ahead, &next);
    if (last.kind == ACTION_AID || next.kind != ACTION_AID || !action_is(next, s->sent))
        return;
    (void)ahead_take(&s->ahead, &next);
    tell_impatient(s);
}

/* Why nothing is taken. */
static const char *refusal_of(const session *s, const turn *now)
{
    if (now->is_over)
        return "The session is over.";
    if (s->is_anew)
        return "It may be meant for the session before.";
    return now->is_held || now->has_error ? "Press Reset first." : "The host has the keyboard.";
}

/* A part of a paste that is dropped: it is counted, and told at the paste's end. */
static void leave_part(session *s, action key, const turn *now)
{
    if (key.kind == ACTION_PASTE_ENDS) {
        end_paste(s);
        return;
    }
    if (key.kind == ACTION_PASTE_BEGINS)
        paste_start(&s->paste);
    paste_stop(&s->paste, refusal_of(s, now));
    if (key.kind == ACTION_PASTED)
        (void)paste_takes(&s->paste);
}

/* A key that is dropped. */
static void ring_off(session *s, action key, const turn *now)
{
    s->rings = true;
    if (paste_is_part(key.kind))
        leave_part(s, key, now);
    else if (now->has_error && !now->is_held && key.kind == ACTION_AID)
        session_tell(s, "%s isn't sent while an error of the host's stands.",
                     key.value == RIBBON_AID_HELP ? "Help" : "This key");
    else if (!now->is_over && !now->is_held && !now->has_error)
        session_tell(s, s->is_anew ? "The key is dropped: it may be meant for the session before."
                                   : "The host has the keyboard: the key is dropped.");
}

/* A key for which the keyboard isn't free. */
static void hold_off(session *s, action key, const turn *now)
{
    if (s->ahead.count == 0 && ends_sent_paste(s, key))
        return;
    if (s->asked->types_ahead)
        let_wait(s, key);
    else
        ring_off(s, key, now);
}

/* The station's Reset, which takes the host's error away and sends nothing. */
static void end_error(session *s)
{
    uint8_t answer[RIBBON_ANSWER_ROOM];
    ribbon_told told;
    ribbon_status status = ribbon_station_key(&s->station, RIBBON_KEY_RESET, 0, answer, sizeof answer, &told);
    if (status == RIBBON_DONE)
        return;
    s->rings = true;
    session_tell(s, "The host's error stays: %s.", ribbon_status_text(status));
}

static void tell_dropped(session *s)
{
    bool plays = s->macro.state == MACRO_PLAYS;
    size_t dropped = drop_ahead(s);
    session_report(s, plays ? "The macro stops: %zu keys dropped." : "%zu keys typed ahead dropped.", dropped);
    s->rings = true;
}

/* What Reset ends of what stands. */
static void reset(session *s, verdict what)
{
    switch (what) {
    case VERDICT_DROP_AHEAD: tell_dropped(s); break;
    case VERDICT_END_HOLD:
        s->is_held = false;
        s->standing[0] = 0;
        s->is_inserting = s->is_inserting && !s->is_insert_refused;
        break;
    case VERDICT_END_ERROR: end_error(s); break;
    default: s->is_inserting = false; break;
    }
}

void press_status(session *s)
{
    s->shows_status = !s->shows_status && session_clock() >= s->shown_until;
    s->shown_until = 0;
}

/* What the terminal does by itself, whoever has the keyboard; false where it is another key. */
static bool press_own(session *s, action key)
{
    switch (key.kind) {
    case ACTION_NOTHING: return true;
    case ACTION_REDRAW: s->draws_all = s->repaints = true; return true;
    case ACTION_STATUS: press_status(s); return true;
    case ACTION_MENU:
        s->is_box_open = false;
        s->is_menu_open = s->draws_all = true;
        return true;
    case ACTION_INSERT_MODE:
        if (s->is_held || s->phase == PHASE_OVER)
            s->rings = true;
        else
            s->is_inserting = !s->is_inserting;
        return true;
    default: return false;
    }
}

/* Whether keys may still be meant for the session before: up to a screen to type at, and a second without a key. */
static bool is_typed_on(const session *s, const turn *now)
{
    return s->is_anew && (now->is_locked || session_clock() - s->rung < TYPED_ON);
}

void press_key(session *s, action key)
{
    s->note[0] = 0;
    s->refusals.covers = false;
    if (press_own(s, key))
        return;
    s->shown_until = 0;
    turn now = press_turn(s);
    verdict what = hold_judges(&now, key.kind);
    s->is_anew = is_typed_on(s, &now);
    if (s->is_anew && (what == VERDICT_WAIT || (what == VERDICT_PRESS && !now.is_locked))) { /* requests go out */
        what = VERDICT_RING;
        s->rung = session_clock();
    }
    switch (what) {
    case VERDICT_PRESS: (void)press_does(s, key); break; /* a refusal has been told */
    case VERDICT_WAIT: hold_off(s, key, &now); break;
    case VERDICT_RING: ring_off(s, key, &now); break;
    default: reset(s, what); break;
    }
}

void press_pasted(session *s, uint32_t character)
{
    action key = paste_character(&s->paste, character);
    if (key.kind != ACTION_NOTHING && !s->paste.is_dropped)
        press_key(s, key);
}

void press_paste_begins(session *s)
{
    press_paste_ends(s); /* of one whose end is lost */
    paste_begin(&s->paste);
    press_key(s, (action){ACTION_PASTE_BEGINS, 0});
}

void press_paste_ends(session *s)
{
    bool ends = s->paste.is_on && !s->paste.is_dropped;
    s->paste.is_on = false;
    if (ends)
        press_key(s, (action){ACTION_PASTE_ENDS, 0});
}

void press_ahead(session *s)
{
    turn now = press_turn(s);
    action key;
    s->is_anew = is_typed_on(s, &now);
    if (now.has_error && now.waits) /* what was typed for a screen isn't for the error in its place */
        tell_dropped(s);
    while (!now.is_over && !now.is_held && !now.has_error && !now.is_locked
           && (macros_next(s, &key) || ahead_take(&s->ahead, &key))) {
        if (!press_does(s, key))
            return;
        drop_impatient(s, key);
        now = press_turn(s);
    }
}
