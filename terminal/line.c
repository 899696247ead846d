#define _GNU_SOURCE
#include "line.h"

#include <errno.h>
#include <fcntl.h>
#include <netinet/in.h>
#include <netinet/tcp.h>
#include <string.h>
#include <sys/socket.h>
#include <unistd.h>

bool line_begin(line *l, int socket)
{
    int one = 1, flags = fcntl(socket, F_GETFL);
    l->socket = socket;
    l->tls = NULL;
    l->first = l->count = 0;
    if (flags < 0 || fcntl(socket, F_SETFL, flags | O_NONBLOCK) != 0)
        return false;
    /* The data mark of a Telnet Synch comes as urgent data (RFC 854); without this it would be missing. */
    if (setsockopt(socket, SOL_SOCKET, SO_OOBINLINE, &one, sizeof one) != 0)
        return false;
    (void)setsockopt(socket, SOL_SOCKET, SO_KEEPALIVE, &one, sizeof one); /* both are niceties */
    (void)setsockopt(socket, IPPROTO_TCP, TCP_NODELAY, &one, sizeof one);
    return true;
}

bool line_secure(line *l, tls *t, const char *host)
{
    l->tls = t;
    return tls_begin(t, l->socket, host);
}

size_t line_left(const line *l)
{
    return LINE_ROOM - l->count;
}

bool line_put(line *l, const uint8_t *bytes, size_t count)
{
    if (count > line_left(l))
        return false;
    size_t at = (l->first + l->count) % LINE_ROOM, up = LINE_ROOM - at, front = count < up ? count : up;
    memcpy(l->out + at, bytes, front);
    memcpy(l->out, bytes + front, count - front);
    l->count += count;
    return true;
}

bool line_flush(line *l)
{
    while (l->count > 0) {
        size_t up = LINE_ROOM - l->first, front = l->count < up ? l->count : up;
        ssize_t sent = l->tls != NULL ? tls_send(l->tls, l->out + l->first, front)
                                      : send(l->socket, l->out + l->first, front, MSG_NOSIGNAL | MSG_DONTWAIT);
        if (sent < 0)
            return errno == EAGAIN || errno == EWOULDBLOCK || errno == EINTR;
        l->first = (l->first + (size_t)sent) % LINE_ROOM;
        l->count -= (size_t)sent;
    }
    return true;
}

line_heard line_hear(line *l, uint8_t *bytes, size_t room, size_t *count)
{
    ssize_t came = l->tls != NULL ? tls_receive(l->tls, bytes, room) : recv(l->socket, bytes, room, MSG_DONTWAIT);
    *count = came > 0 ? (size_t)came : 0;
    if (came > 0)
        return LINE_CAME;
    if (came == 0)
        return LINE_CLOSED;
    return errno == EINTR || errno == EAGAIN || errno == EWOULDBLOCK ? LINE_NOTHING : LINE_LOST;
}

bool line_has_more(const line *l)
{
    return l->tls != NULL && tls_has_more(l->tls);
}

const char *line_why(const line *l)
{
    return l->tls != NULL && errno == EPROTO ? tls_why(l->tls) : strerror(errno);
}

void line_end(line *l)
{
    if (l->tls != NULL)
        tls_end(l->tls);
    l->tls = NULL;
    if (l->socket >= 0)
        (void)close(l->socket);
    l->socket = -1;
}
