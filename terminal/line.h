/* The connection to a host, plain or by TLS: what is to be sent waits here, so that nobody waits for a host that
 * doesn't read. */
#ifndef LINE_H
#define LINE_H

#include "tls.h"

enum { LINE_ROOM = 64 * 1024 };

typedef struct {
    int socket; /* -1 where there is none */
    tls *tls;   /* null where the line is plain */
    size_t first, count;
    uint8_t out[LINE_ROOM];
} line;

typedef enum { LINE_CAME, LINE_NOTHING, LINE_CLOSED, LINE_LOST } line_heard;

/* Begins with a connected socket, which is the line's from then on. False, by errno, where it can't be set up. */
bool line_begin(line *l, int socket);

/* Has TLS begin on it, with the host of that name; false where memory is wanting. What goes over the line has to wait
 * until tls_step says that it is there. */
bool line_secure(line *l, tls *t, const char *host);

/* How many bytes can still be put. */
size_t line_left(const line *l);

/* Puts bytes behind those that wait to be sent; false, and none is put, where there is no room. */
bool line_put(line *l, const uint8_t *bytes, size_t count);

/* Sends what the host takes now; false, by errno, where the line is lost. */
bool line_flush(line *l);

/* Takes what has come, at most `room` bytes. */
line_heard line_hear(line *l, uint8_t *bytes, size_t room, size_t *count);

/* Whether more has come than the socket tells of. */
bool line_has_more(const line *l);

/* Why it is lost, by errno, in words. */
const char *line_why(const line *l);

void line_end(line *l);

#endif
