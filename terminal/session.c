#define _GNU_SOURCE
#include "session.h"

#include "connecting.h"
#include "sentence.h"

#include <errno.h>
#include <stdarg.h>
#include <stdlib.h>
#include <string.h>
#include <time.h>
#include <unistd.h>

enum { PIECE = KEPT_PIECE, PIECES_AT_ONCE = 16 };

uint64_t session_clock(void)
{
    struct timespec now;
    if (clock_gettime(CLOCK_MONOTONIC, &now) != 0)
        return 0;
    return (uint64_t)now.tv_sec * 1000 + (uint64_t)now.tv_nsec / 1000000;
}

static void tell(session *s, const char *format, va_list rest)
{
    ribbon_state state;
    (void)vsnprintf(s->note, sizeof s->note, format, rest);
    s->is_aside = s->is_of_screen = false;
    s->note_records = ribbon_station_state(&s->station, &state) == RIBBON_DONE ? state.records : 0;
}

void session_tell(session *s, const char *format, ...)
{
    va_list rest;
    va_start(rest, format);
    tell(s, format, rest);
    va_end(rest);
    s->is_of_screen = true;
}

void session_report(session *s, const char *format, ...)
{
    va_list rest;
    va_start(rest, format);
    tell(s, format, rest);
    va_end(rest);
}

void session_mention(session *s, const char *sentence)
{
    session_report(s, "%s", sentence);
    s->is_aside = true;
}

void session_over(session *s, int status, const char *format, ...)
{
    va_list rest;
    va_start(rest, format);
    (void)vsnprintf(s->standing, sizeof s->standing, format, rest);
    va_end(rest);
    s->note[0] = 0;
    s->status = status;
    s->is_held = false;
    s->is_box_open = true;
    s->rings = s->phase == PHASE_OPEN || !s->asked->reconnects; /* and not at each try */
    s->rung = session_clock();
    if (s->asked->reconnects)
        again_plan(&s->again, s->rung, s->phase == PHASE_OPEN ? s->rung - s->begun : 0);
    (void)ahead_drop(&s->ahead); /* nobody will take these keys any more */
    (void)macro_stop(&s->macro);
    s->sent = (action){ACTION_NOTHING, 0};
    s->paste.is_dropped = s->paste.is_on;
    dial_end(&s->dial);
    line_end(&s->line);
    s->phase = PHASE_OVER;
}

/* ---- What goes over the line ---- */

static void keep(session *s, bool is_host, const uint8_t *bytes, size_t count)
{
    bool was_recording = s->recording.file != NULL;
    kept_add(&s->kept, is_host, session_clock() - s->begun, bytes, count, recording_piece, &s->recording);
    if (was_recording && s->recording.file == NULL) {
        session_report(s, "Nothing more is recorded in %s: %s.", file_shown(s->recording.name), strerror(errno));
        s->shown_until = session_clock() + SHOWN_UNASKED; /* a record comes at once */
        s->rings = true;
    }
}

bool session_send(session *s, const uint8_t *bytes, size_t count)
{
    if (!line_put(&s->line, bytes, count))
        return false;
    keep(s, false, bytes, count);
    return true;
}

/* Keeps the first bytes of records, to tell what a host sends that is none. */
static void scan(session *s, const uint8_t *bytes, size_t count)
{
    for (size_t at = 0; at < count && s->said_count < SAID_ROOM; at++)
        if (telnet_take(&s->scanned, bytes[at]) == TELNET_BYTE)
            s->said[s->said_count++] = bytes[at];
}

static void tell_refused(session *s, const ribbon_pushed *pushed)
{
    char said[60];
    ribbon_state state;
    bool is_ready = ribbon_station_state(&s->station, &state) == RIBBON_DONE && state.is_ready;
    sentence_bytes(s->said, s->said_count, said, sizeof said);
    if (!is_ready && s->said_count > 0 && pushed->reason != RIBBON_REASON_RECORD_BEFORE_NEGOTIATION)
        session_over(s, 1, "This is no 5250 host: it sent `%s`.", said);
    else
        session_over(s, 1, "Refused at the host's byte %llu, reason %s.",
                     (unsigned long long)pushed->place, ribbon_reason_text(pushed->reason));
}

/* Whether the line has room for what the station writes at a Telnet command, and for a key's answer behind it. */
static bool has_room(const session *s)
{
    return line_left(&s->line) >= RIBBON_REPLY_ROOM + RIBBON_ANSWER_ROOM;
}

/* Where the station has taken what it was given: up to where more is, a record's end or all that has come. */
static void give_more(session *s)
{
    telnet_found found = TELNET_OTHER;
    if (s->taken == s->given)
        while (s->given < s->heard_count && found != TELNET_EOR)
            found = telnet_take(&s->parted, s->heard[s->given++]);
}

/* Tells that a record was refused, or the device's name. */
static void tell_refusals(session *s)
{
    ribbon_state state;
    refusals *last = &s->refusals;
    if (ribbon_station_state(&s->station, &state) != RIBBON_DONE)
        return;
    bool is_refused = state.refused_records != last->records, is_named_anew = state.names_refused != last->names;
    if (is_refused || state.records != last->carried_out)
        last->is_last = last->covers = is_refused;
    if (is_refused)
        s->note[0] = 0;
    if (is_named_anew && last->names == 0)
        session_report(s, "The host refused the name %s, and picks another.", s->asked->identity.device);
    s->rings = s->rings || is_refused || (is_named_anew && last->names == 0);
    last->records = state.refused_records;
    last->carried_out = state.records;
    last->names = state.names_refused;
}

/* Gives the station more of what the host sent, and the host what the station answers, as much as the line takes. */
static ribbon_status push_more(session *s, ribbon_pushed *pushed)
{
    uint8_t reply[PIECE];
    size_t left = line_left(&s->line) - RIBBON_ANSWER_ROOM, room = left < sizeof reply ? left : sizeof reply;
    give_more(s);
    ribbon_status status = ribbon_station_push(&s->station, s->heard + s->taken, s->given - s->taken, reply, room,
                                               pushed);
    s->taken += pushed->taken;
    s->has_part = status == RIBBON_NO_ROOM && pushed->replied == room;
    if (!session_send(s, reply, pushed->replied))
        session_over(s, 1, "The host doesn't take the station's replies.");
    tell_refusals(s);
    return status;
}

/* The same with all of it; false where the line has no room for the answers, and what is left waits. */
static bool take(session *s)
{
    ribbon_pushed pushed;
    ribbon_status status = RIBBON_NO_ROOM;
    while (s->phase == PHASE_OPEN
           && (status == RIBBON_NO_ROOM || (status == RIBBON_DONE && s->taken < s->heard_count))) {
        if (!has_room(s))
            return false;
        status = push_more(s, &pushed);
    }
    if (s->phase != PHASE_OPEN)
        return true;
    if (status == RIBBON_REFUSED) {
        (void)line_flush(&s->line); /* what was answered before; the session is over either way */
        tell_refused(s, &pushed);
    } else if (status != RIBBON_DONE) {
        session_over(s, 1, "The station has failed: %s.", ribbon_status_text(status));
    }
    s->has_rest = false;
    return true;
}

static void tell_closed(session *s)
{
    ribbon_state state;
    bool is_ready = ribbon_station_state(&s->station, &state) == RIBBON_DONE && state.is_ready;
    bool is_whole = telnet_is_between(&s->kept.host);
    if (!is_whole)
        session_over(s, 1, "The line is lost: the host closed it in mid-record.");
    else
        session_over(s, is_ready ? 0 : 1, "The host has closed the line%s.",
                     is_ready ? "" : " before a session began");
}

/* Takes what has come: no more than the line has room for the answers to, and so little that keys are looked at soon. */
static void hear(session *s)
{
    for (unsigned piece = 0; piece < PIECES_AT_ONCE && s->phase == PHASE_OPEN; piece++) {
        if (s->has_rest && !take(s))
            return;
        if (s->phase != PHASE_OPEN || !has_room(s))
            return;
        s->taken = s->given = 0;
        switch (line_hear(&s->line, s->heard, sizeof s->heard, &s->heard_count)) {
        case LINE_CAME:
            s->silent = 0;
            keep(s, true, s->heard, s->heard_count);
            scan(s, s->heard, s->heard_count);
            s->has_rest = true;
            break;
        case LINE_NOTHING: return;
        case LINE_CLOSED: tell_closed(s); return;
        case LINE_LOST: session_over(s, 1, "The line is lost: %s.", line_why(&s->line)); return;
        }
    }
    if (s->phase == PHASE_OPEN && s->has_rest)
        (void)take(s);
}

/* ---- The session ---- */

session *session_new(void)
{
    session *s = calloc(1, sizeof *s);
    if (s == NULL)
        return NULL;
    s->dial.pipe = s->dial.line = s->line.socket = -1;
    return s;
}

static void tell_silence(session *s)
{
    if (s->phase == PHASE_SECURING)
        session_tell(s, "%d seconds of silence: it may be no port for TLS.", SILENCE / 1000);
    else if (s->tls != NULL)
        session_tell(s, "%d seconds of silence: it may be no 5250 host's port.", SILENCE / 1000);
    else
        session_tell(s, "%d seconds of silence: it may want TLS, or be no 5250 host's port.", SILENCE / 1000);
    s->silent = 0;
}

struct pollfd session_wait(const session *s)
{
    struct pollfd wait = {.fd = -1};
    if (s->phase == PHASE_DIALLING)
        return dial_wait(&s->dial);
    if (s->phase == PHASE_OVER)
        return wait;
    wait.fd = s->line.socket;
    if (s->phase == PHASE_SECURING) {
        wait.events = tls_waits(s->tls);
        return wait;
    }
    if (s->line.count > 0 || s->has_rest)
        wait.events |= POLLOUT;
    if (has_room(s))
        wait.events |= POLLIN;
    return wait;
}

int session_due(const session *s)
{
    uint64_t now = session_clock(), told = s->silent + SILENCE;
    if (s->phase == PHASE_DIALLING)
        return dial_due(&s->dial, now);
    if (s->phase == PHASE_OVER)
        return again_due(&s->again, now);
    if (s->phase == PHASE_OPEN && has_room(s) && line_has_more(&s->line))
        return 0;
    if (s->silent == 0)
        return -1;
    return told > now ? (int)(told - now) : 0;
}

/* A line of TLS may have more than its socket tells of. */
static void step_open(session *s, short ready)
{
    if ((ready & ~POLLOUT) != 0 || s->has_rest || s->tls != NULL)
        hear(s);
    if (s->phase == PHASE_OPEN && !line_flush(&s->line))
        session_over(s, 1, "The line is lost: %s.", line_why(&s->line));
}

static void step(session *s, short ready)
{
    switch (s->phase) {
    case PHASE_DIALLING: connecting_dials(s, ready != 0); break;
    case PHASE_SECURING:
        if (ready != 0)
            connecting_secures(s);
        break;
    case PHASE_OPEN: step_open(s, ready); break;
    case PHASE_OVER:
        if (s->again.is_due && again_left(&s->again, session_clock()) == 0)
            connecting_again(s);
        break;
    }
}

void session_step(session *s, short ready)
{
    if (ready == 0 && session_due(s) != 0)
        return;
    step(s, ready);
    bool is_connected = s->phase == PHASE_SECURING || s->phase == PHASE_OPEN;
    if (is_connected && s->silent != 0 && session_clock() >= s->silent + SILENCE)
        tell_silence(s);
}

void session_free(session *s)
{
    dial_end(&s->dial);
    line_end(&s->line);
    tls_free(s->tls);
    ribbon_station_free(&s->station);
    free(s);
}
