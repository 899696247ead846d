#include "pressed.h"

#include "macros.h"
#include "moves.h"

/* The keys that are one of the station's. */
static const struct {
    action_kind kind;
    uint32_t key;
} station_keys[] = {
    {ACTION_CHARACTER, RIBBON_KEY_CHAR}, {ACTION_INSERTED, RIBBON_KEY_INSERT}, {ACTION_PASTED, RIBBON_KEY_CHAR},
    {ACTION_AID, RIBBON_KEY_AID}, {ACTION_LEFT, RIBBON_KEY_LEFT}, {ACTION_RIGHT, RIBBON_KEY_RIGHT},
    {ACTION_UP, RIBBON_KEY_UP}, {ACTION_DOWN, RIBBON_KEY_DOWN}, {ACTION_HOME, RIBBON_KEY_HOME},
    {ACTION_TAB, RIBBON_KEY_TAB}, {ACTION_BACK_TAB, RIBBON_KEY_BACK_TAB},
    {ACTION_FIELD_EXIT, RIBBON_KEY_FIELD_EXIT}, {ACTION_FIELD_PLUS, RIBBON_KEY_FIELD_EXIT},
    {ACTION_FIELD_MINUS, RIBBON_KEY_FIELD_MINUS}, {ACTION_DUP, RIBBON_KEY_DUP}, {ACTION_DELETE, RIBBON_KEY_DELETE},
    {ACTION_ERASE_INPUT, RIBBON_KEY_ERASE_INPUT}, {ACTION_ATTENTION, RIBBON_KEY_ATTENTION},
    {ACTION_SYSTEM_REQUEST, RIBBON_KEY_SYSTEM_REQUEST},
};

static uint32_t station_key_of(action_kind kind, bool is_inserting)
{
    if (kind == ACTION_PASTED && is_inserting)
        return RIBBON_KEY_INSERT;
    for (size_t at = 0; at < sizeof station_keys / sizeof station_keys[0]; at++)
        if (station_keys[at].kind == kind)
            return station_keys[at].key;
    return 0;
}

bool pressed_can_send(const session *s)
{
    return s->phase != PHASE_OPEN || (!s->has_part && line_left(&s->line) >= RIBBON_ANSWER_ROOM);
}

static unsigned cursor_of(const ribbon_state *state)
{
    return (state->cursor_row - 1U) * RIBBON_COLUMNS + state->cursor_column - 1U;
}

/* A key of the station's by itself; what it sends goes out. */
static pressed press_one(session *s, action key)
{
    uint8_t answer[RIBBON_ANSWER_ROOM];
    ribbon_told told;
    ribbon_state before, after;
    pressed p = {.status = ribbon_station_state(&s->station, &before)};
    if (p.status != RIBBON_DONE)
        return p;
    p.status = ribbon_station_key(&s->station, station_key_of(key.kind, s->is_inserting), key.value, answer,
                                  sizeof answer, &told);
    p.refusal = told.reason;
    p.has_sent = p.status == RIBBON_DONE && told.length > 0;
    if (p.has_sent && !session_send(s, answer, told.length))
        session_over(s, 1, "The host doesn't take what is sent."); /* there was room for it */
    if (ribbon_station_state(&s->station, &after) == RIBBON_DONE) {
        p.has_moved_on = !after.is_full
                         && (after.cursor_field != before.cursor_field || cursor_of(&after) != cursor_of(&before) + 1);
        p.is_below = cursor_of(&after) > cursor_of(&before);
    }
    return p;
}

static pressed press_several(session *s, action key)
{
    pressed p = {0};
    bool at_begin = false;
    switch (key.kind) {
    case ACTION_MOVE_TO:
        p.status = moves_to(&s->station, (uint8_t)(key.value / RIBBON_COLUMNS + 1),
                            (uint8_t)(key.value % RIBBON_COLUMNS + 1), &p.refusal);
        break;
    case ACTION_NEW_LINE: p.status = moves_new_line(&s->station, &p.refusal); break;
    case ACTION_FIELD_BEGIN: p.status = moves_field_begin(&s->station, &p.refusal); break;
    case ACTION_FIELD_END: p.status = moves_field_end(&s->station, &p.refusal); break;
    case ACTION_ERASE_EOF: p.status = moves_erase_eof(&s->station, &p.refusal); break;
    case ACTION_BACKSPACE: p.status = moves_backspace(&s->station, &p.refusal, &at_begin); break;
    default: p.status = RIBBON_BAD_ARGUMENT; break; /* no other key comes here */
    }
    if (at_begin) {
        session_tell(s, "The field begins here.");
        s->rings = true;
    }
    return p;
}

pressed pressed_key(session *s, action key)
{
    bool is_hidden = macros_hides(s, key);
    pressed p = station_key_of(key.kind, s->is_inserting) != 0 ? press_one(s, key) : press_several(s, key);
    if (p.status == RIBBON_DONE)
        macros_record(s, key, is_hidden);
    return p;
}
