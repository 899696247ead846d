#include "hold.h"

static verdict judge_reset(const turn *now)
{
    if (now->waits)
        return VERDICT_DROP_AHEAD;
    if (now->is_held)
        return VERDICT_END_HOLD;
    return now->has_error ? VERDICT_END_ERROR : VERDICT_END_INSERT;
}

static bool is_arrow(action_kind key)
{
    return key == ACTION_LEFT || key == ACTION_RIGHT || key == ACTION_UP || key == ACTION_DOWN || key == ACTION_MOVE_TO;
}

verdict hold_judges(const turn *now, action_kind key)
{
    bool is_request = key == ACTION_ATTENTION || key == ACTION_SYSTEM_REQUEST;
    if (key == ACTION_RESET)
        return judge_reset(now);
    if (now->is_over)
        return VERDICT_RING;
    if (now->is_held)
        return is_arrow(key) && !now->is_locked && !now->has_error ? VERDICT_PRESS : VERDICT_RING;
    if (is_request)
        return VERDICT_PRESS;
    if (now->has_error)
        return VERDICT_RING;
    return now->is_locked || now->waits ? VERDICT_WAIT : VERDICT_PRESS;
}
