/* In place of tls.c where OpenSSL isn't there: nothing is ever begun. */
#include "tls.h"

#include <errno.h>
#include <stdio.h>

const char *tls_version(void)
{
    return "without TLS";
}

tls *tls_new(const tls_asked *asked, char *why)
{
    (void)asked;
    (void)snprintf(why, TLS_WHY_ROOM, "--tls: this program was built without TLS, since libssl-dev wasn't there");
    return NULL;
}

bool tls_begin(tls *t, int socket, const char *host)
{
    (void)t, (void)socket, (void)host;
    return false;
}

tls_state tls_step(tls *t)
{
    (void)t;
    return TLS_FAILED;
}

short tls_waits(const tls *t)
{
    (void)t;
    return 0;
}

ssize_t tls_send(tls *t, const uint8_t *bytes, size_t count)
{
    (void)t, (void)bytes, (void)count;
    errno = EPROTO;
    return -1;
}

ssize_t tls_receive(tls *t, uint8_t *bytes, size_t room)
{
    (void)t, (void)bytes, (void)room;
    errno = EPROTO;
    return -1;
}

bool tls_has_more(const tls *t)
{
    (void)t;
    return false;
}

const char *tls_why(const tls *t)
{
    (void)t;
    return "";
}

void tls_end(tls *t)
{
    (void)t;
}

void tls_free(tls *t)
{
    (void)t;
}
