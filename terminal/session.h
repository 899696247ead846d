/* A session with a host: the station, its line, what is typed ahead, and what is kept. */
#ifndef SESSION_H
#define SESSION_H

#include "again.h"
#include "ahead.h"
#include "bindings.h"
#include "dial.h"
#include "kept.h"
#include "line.h"
#include "macro.h"
#include "options.h"
#include "paste.h"
#include "recording.h"
#include "ribbonscarp.h"

enum {
    SAID_ROOM = 64,
    NOTE_ROOM = 400,
    MACRO_NAME_ROOM = 33,
    SILENCE = 10000, /* milliseconds: a host that has sent nothing for so long is told */
    SHOWN_UNASKED = 3000, /* milliseconds, for which a window of 24 rows shows the status line by itself */
    TYPED_ON = 1000  /* milliseconds: a key that comes sooner after another is still meant for the session before */
};

/* What the host has sent that wasn't taken, as it was looked at last. */
typedef struct {
    uint64_t records;       /* how many records were refused */
    uint64_t carried_out;   /* and how many weren't */
    uint64_t names;         /* how often the device's name was */
    bool is_last;           /* the record that came last was refused: a sentence tells it up to the next one, */
    bool covers;            /* up to the next key also where it covers a row of the screen */
    char sentence[100];     /* as it is shown */
} refusals;

typedef struct {
    const options *asked;
    bindings keys;
    ribbon_station station;
    enum {
        PHASE_DIALLING,
        PHASE_SECURING, /* the line is there, and TLS begins on it */
        PHASE_OPEN,
        PHASE_OVER
    } phase;
    dial dial;
    tls *tls; /* null where none is asked for */
    line line;
    uint8_t heard[KEPT_PIECE]; /* what came last, up to `heard_count`; the station has taken the first `taken` */
    size_t heard_count;
    size_t given; /* up to there it is given to the station: a record's end, or what has come of one */
    telnet parted; /* for that */
    size_t taken;
    refusals refusals;
    bool has_rest; /* of that, or of its answers */
    bool has_part; /* of an answer went out, and perhaps not all of it */
    uint64_t begun; /* the connection, in milliseconds of the system's clock */
    bool was_open;  /* a session has been there, this one or one before */
    uint64_t silent; /* since when the host is; 0 where it has sent something, or that has been told */
    uint64_t rung;   /* the last key that was meant for a session that is over, or that end, by the same clock */
    bool is_anew;    /* there was a session before, and keys that are meant for it may still come */
    again again;
    kept kept;
    telnet scanned;          /* of what the host sends */
    uint8_t said[SAID_ROOM]; /* the first bytes of its records */
    size_t said_count;
    recording recording;
    ahead ahead;
    paste paste;
    action sent;       /* the key that was sent last; ACTION_NOTHING where another was pressed after it */
    macro macro;
    char macro_name[MACRO_NAME_ROOM]; /* as it is typed, while the menu asks for one: */
    enum { ASKS_NOTHING, ASKS_TO_KEEP, ASKS_TO_PLAY } asks;
    bool is_held;      /* by a refused key */
    bool is_insert_refused; /* by one that was to be inserted: then Reset ends insert mode */
    bool is_inserting;
    bool was_lit;      /* the message light, when it was looked at last */
    uint64_t alarms;   /* of the host's, when they were looked at last */
    bool rings;        /* the bell is still to be rung */
    bool shows_status; /* also in a window that has no row for it */
    uint64_t shown_until; /* milliseconds of session_clock: up to then too, as where a session begins */
    bool is_menu_open;
    bool is_box_open;  /* with the reason for the session's end */
    bool draws_all;    /* all is to be drawn, whatever has changed */
    bool repaints;     /* and the window is to be painted anew */
    bool is_leaving;   /* the program ends */
    int status;        /* of the program */
    char note[NOTE_ROOM];     /* a sentence up to the next key, and: */
    bool is_aside;            /* covers nothing of the screen by itself */
    bool is_of_screen;        /* no further than the next record of the host */
    uint64_t note_records;    /* that had come when it was told: after more it covers nothing of the screen */
    char standing[NOTE_ROOM]; /* a sentence up to Reset, or to the end */
    char way[24];             /* the key that ends what stands */
} session;

/* Milliseconds of a clock that only goes forward. */
uint64_t session_clock(void);

/* A session that holds nothing yet; null where memory is wanting. */
session *session_new(void);

/* What is to be waited for at the line; of no events where nothing is. */
struct pollfd session_wait(const session *s);

/* The milliseconds after which session_step has something to do, whatever comes; negative where it has nothing. */
int session_due(const session *s);

/* Goes on at the line, where it is ready or something is due: connects, sends, takes what has come. */
void session_step(session *s, short ready);

/* Sends a station's bytes, as soon as the host takes them; false where too many wait already. */
bool session_send(session *s, const uint8_t *bytes, size_t count);

/* Tells a sentence about the screen, up to the next key or record: after that it may be true no longer. */
void session_tell(session *s, const char *format, ...) __attribute__((format(printf, 2, 3)));

/* Tells a sentence about what was done, up to the next key; it covers a row of the screen up to the next record. */
void session_report(session *s, const char *format, ...) __attribute__((format(printf, 2, 3)));

/* The same with one that covers nothing of the screen: in a window without a row for it, it stands in the status line
 * where that is shown. */
void session_mention(session *s, const char *sentence);

/* Ends the session, not the program: the screen stays, with a sentence. */
void session_over(session *s, int status, const char *format, ...) __attribute__((format(printf, 3, 4)));

/* Ends it, and frees all. */
void session_free(session *s);

#endif
