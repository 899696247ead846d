/* TLS on the line, one connection after another. tls.c does it by OpenSSL; where that isn't there, no_tls.c says so. */
#ifndef TLS_H
#define TLS_H

#include <stdbool.h>
#include <stddef.h>
#include <stdint.h>
#include <sys/types.h>

enum { TLS_WHY_ROOM = 400 };

typedef struct {
    bool is_on;
    bool is_unchecked;       /* whoever the host is */
    const char *authorities; /* a file of those who sign hosts' certificates, or null for the system's */
    const char *certificate; /* a file with this end's own, or null */
    const char *key;         /* a file with its key, or null where that is in the same file */
} tls_asked;

typedef struct tls tls;

typedef enum {
    TLS_GOES_ON,
    TLS_DONE,
    TLS_FAILED, /* the host, or the way to it */
    TLS_REFUSED /* by this end: a check of the host's certificate has failed */
} tls_state;

/* What does it, and of which version, in words. */
const char *tls_version(void);

/* Loads what is asked for, and asks for the key's password where it has one. Null, with a sentence in `why` of
 * TLS_WHY_ROOM, where that can't be. */
tls *tls_new(const tls_asked *asked, char *why);

/* Begins at a connected socket that never waits, with the host of that name or address; false where memory is
 * wanting. */
bool tls_begin(tls *t, int socket, const char *host);

/* Goes on with that. */
tls_state tls_step(tls *t);

/* What is to be waited for at the socket before that goes on: POLLIN or POLLOUT. */
short tls_waits(const tls *t);

/* As send() and recv() without waiting; by EPROTO where TLS has failed. */
ssize_t tls_send(tls *t, const uint8_t *bytes, size_t count);
ssize_t tls_receive(tls *t, uint8_t *bytes, size_t room);

/* Whether bytes have come that the socket no longer tells of. */
bool tls_has_more(const tls *t);

/* Why it has failed or is refused: a sentence behind TLS_FAILED and TLS_REFUSED, some words behind EPROTO. */
const char *tls_why(const tls *t);

/* Ends a connection, and tells the host where that takes it; the socket stays open. */
void tls_end(tls *t);

/* Frees all; nothing where `t` is null. */
void tls_free(tls *t);

#endif
