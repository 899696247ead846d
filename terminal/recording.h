/* Files of what both ends sent: a line `MILLISECONDS host|station HEX` for each piece. */
#ifndef RECORDING_H
#define RECORDING_H

#include "kept.h"

#include <stdio.h>
#include <sys/types.h>

enum { FILE_NAME_ROOM = 4096 };

typedef struct {
    FILE *file;                /* null where nothing is recorded */
    bool has_begun;            /* with a piece that begins a record of the host's: what comes before isn't written */
    const char *base;          /* the name that was asked for */
    char name[FILE_NAME_ROOM]; /* of that file, or of the last one */
    off_t whole;               /* the bytes of its whole lines */
    char broken[FILE_NAME_ROOM]; /* the name of the last one that isn't whole; nothing where all are */
} recording;

/* Makes a file that isn't there yet, which its owner alone can read: NAME, else NAME-1, NAME-2 and so on. Where NAME is
 * no plain file but a pipe or a device, it is written to. `made` gets its name. Null, by errno, where that can't be. */
FILE *file_made(const char *name, char *made, size_t room);

/* As much of a name's end as a sentence has room for, from a folder or a file on where one begins there. */
const char *file_shown(const char *name);

/* Begins a recording with what has been kept so far; `name` lasts as long as the recording. False, by errno, where the
 * file can't be made or written; nothing is recorded then. */
bool recording_begin(recording *r, const char *name, const kept *k);

/* Records a piece; false, by errno, where the file can't be written: it ends after its last whole line, where it is a
 * plain one, and nothing is recorded from then on. A kept_visit. */
bool recording_piece(void *self, const kept_piece *piece, const uint8_t *bytes);

/* Ends a recording; false, by errno, where what was still to be written couldn't be. */
bool recording_end(recording *r);

#endif
