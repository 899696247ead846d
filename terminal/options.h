/* What the command line asks for. */
#ifndef OPTIONS_H
#define OPTIONS_H

#include "address.h"
#include "hosts.h"
#include "ribbonscarp.h"
#include "tls.h"

typedef struct {
    const char *terminal; /* its type's name */
    ribbon_identity identity; /* what a host is told that asks who the station is */
    const char *record;   /* a file's name, or null */
    const char *keys;     /* the keys file's name, or null */
    const char *where;    /* HOST[:PORT] as written, in the hosts file where that has it by a name */
    hosts_line line;      /* of the hosts file, if `is_named` */
    bool is_named;
    address to;
    tls_asked tls;
    bool holds;       /* a refused key holds the keyboard until Reset */
    bool types_ahead; /* keys wait while the host has the keyboard */
    bool has_mouse;
    bool is_strict;   /* the station keeps to the profile */
    bool is_mono;     /* no colours */
    bool separators;  /* are drawn */
    bool reconnects;  /* by itself, where a session is over */
    enum { BACKGROUND_BY_WINDOW, BACKGROUND_BLACK, BACKGROUND_OWN } background;
} options;

typedef enum { OPTIONS_RUN, OPTIONS_END } options_result;

/* Reads the words of a command line, whose order it may change. At OPTIONS_END all has been printed, and the program
 * ends with `status`. */
options_result options_read(options *o, int count, char **words, int *status);

/* Frees what they keep; no text of theirs may be used then. */
void options_free(options *o);

#endif
