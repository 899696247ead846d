/* The beginning of a session: dialling, TLS, and all anew. */
#define _GNU_SOURCE
#include "connecting.h"

#include <errno.h>
#include <string.h>

/* What was recorded of the session before stays in its file. */
static void record_anew(session *s)
{
    if (s->recording.file == NULL || !s->recording.has_begun)
        return;
    bool is_whole = recording_end(&s->recording);
    if (!is_whole)
        session_report(s, "The end of %s couldn't be written.", file_shown(s->recording.name));
    else if (!recording_begin(&s->recording, s->recording.base, &s->kept))
        session_report(s, "%s can't be written: %s.", file_shown(s->recording.name), strerror(errno));
}

/* No session came about. At first the program ends with that, unless another try is due by itself. */
static void fail_to_begin(session *s)
{
    s->is_leaving = !s->was_open && !s->again.is_due;
}

static void begin_session(session *s)
{
    s->phase = PHASE_OPEN;
    s->was_open = true;
    record_anew(s);
    s->silent = session_clock();
    s->shown_until = s->silent + SHOWN_UNASKED; /* whoever begins finds the menu */
}

/* A host whose certificate is refused isn't tried again by itself. */
void connecting_secures(session *s)
{
    s->phase = PHASE_SECURING;
    tls_state state = tls_step(s->tls);
    if (state == TLS_DONE)
        begin_session(s);
    if (state != TLS_FAILED && state != TLS_REFUSED)
        return;
    session_over(s, 2, "%s", tls_why(s->tls));
    if (state == TLS_REFUSED)
        again_cancel(&s->again);
    fail_to_begin(s);
}

static void begin_line(session *s, int socket)
{
    s->phase = PHASE_OPEN; /* what fails now is an end of the line's */
    s->begun = s->silent = session_clock();
    if (!line_begin(&s->line, socket))
        session_over(s, 1, "The line can't be used: %s.", strerror(errno));
    else if (s->tls == NULL)
        begin_session(s);
    else if (!line_secure(&s->line, s->tls, s->asked->to.host))
        session_over(s, 1, "TLS can't begin: memory is wanting.");
    else
        connecting_secures(s);
}

static void take_dialled(session *s, dial_state state)
{
    if (state == DIAL_FAILED) {
        session_over(s, 2, "No connection to %s: %s.", s->asked->where, s->dial.why);
        fail_to_begin(s);
    }
    if (state != DIAL_DONE)
        return;
    int socket = s->dial.line;
    s->dial.line = -1;
    dial_end(&s->dial);
    begin_line(s, socket);
}

ribbon_status connecting_station(session *s, const options *asked)
{
    s->asked = asked;
    return asked->is_strict ? ribbon_station_new(&s->station, asked->terminal)
                            : ribbon_station_new_live(&s->station, asked->terminal, &asked->identity);
}

bool connecting_begin(session *s)
{
    s->phase = PHASE_DIALLING;
    take_dialled(s, dial_begin(&s->dial, &s->asked->to, session_clock()));
    return !s->is_leaving;
}

void connecting_dials(session *s, bool is_ready)
{
    take_dialled(s, dial_step(&s->dial, is_ready, session_clock()));
}

/* Sets back what was of the session that is over. */
static void forget(session *s)
{
    again_cancel(&s->again);
    s->heard_count = s->taken = s->given = s->said_count = 0;
    s->has_rest = s->has_part = s->is_inserting = s->was_lit = s->is_box_open = false;
    s->scanned = s->parted = (telnet){.is_in_record = false};
    s->is_anew = s->was_open;
    s->rung = s->is_menu_open ? 0 : session_clock(); /* whoever asks for it in the menu doesn't type on */
    s->alarms = 0;
    s->refusals = (refusals){.records = 0};
    s->status = 0;
    s->note[0] = s->standing[0] = 0;
    s->draws_all = true;
    memset(&s->kept, 0, sizeof s->kept);
    ribbon_station_free(&s->station);
}

void connecting_again(session *s)
{
    if (s->phase != PHASE_OVER)
        return;
    forget(s);
    ribbon_status status = connecting_station(s, s->asked);
    if (status == RIBBON_DONE) {
        (void)connecting_begin(s); /* a failure has been told */
        return;
    }
    session_over(s, 1, "There is no station: %s.", ribbon_status_text(status));
    s->is_leaving = true; /* there is nothing to show */
}
