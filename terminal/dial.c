#define _GNU_SOURCE
#include "dial.h"

#include <errno.h>
#include <fcntl.h>
#include <netdb.h>
#include <signal.h>
#include <stdio.h>
#include <string.h>
#include <sys/wait.h>
#include <unistd.h>

_Static_assert(sizeof(dial_found) <= 4096, "a pipe takes it in one piece");

static void look_up(const address *to, int flags, dial_found *found)
{
    struct addrinfo hints = {.ai_socktype = SOCK_STREAM, .ai_flags = flags}, *all = NULL;
    memset(found, 0, sizeof *found);
    found->result = getaddrinfo(to->host, to->port, &hints, &all);
    found->cause = errno;
    if (found->result != 0)
        return;
    for (struct addrinfo *at = all; at != NULL && found->count < DIAL_ADDRESSES; at = at->ai_next) {
        dial_address *one = &found->addresses[found->count];
        if (at->ai_addrlen > sizeof one->name)
            continue;
        *one = (dial_address){at->ai_family, at->ai_socktype, at->ai_protocol, at->ai_addrlen, {0}};
        memcpy(&one->name, at->ai_addr, at->ai_addrlen);
        found->count++;
    }
    freeaddrinfo(all);
}

static dial_state failed(dial *d, const char *why)
{
    (void)snprintf(d->why, sizeof d->why, "%s", why);
    return DIAL_FAILED;
}

/* Tries the addresses from the next one on, up to one that is connecting. */
static dial_state try_next(dial *d, uint64_t now)
{
    d->until = now + DIAL_TIME;
    while (d->next < d->found.count) {
        const dial_address *to = &d->found.addresses[d->next++];
        d->line = socket(to->family, to->type | SOCK_NONBLOCK | SOCK_CLOEXEC, to->protocol);
        if (d->line < 0) {
            (void)failed(d, strerror(errno));
            continue;
        }
        if (connect(d->line, (const struct sockaddr *)&to->name, to->length) == 0)
            return DIAL_DONE;
        if (errno == EINPROGRESS || errno == EINTR)
            return DIAL_GOES_ON;
        (void)failed(d, strerror(errno));
        (void)close(d->line);
        d->line = -1;
    }
    return DIAL_FAILED;
}

static dial_state take_found(dial *d, uint64_t now)
{
    if (d->found.result == EAI_SYSTEM)
        return failed(d, strerror(d->found.cause));
    if (d->found.result != 0)
        return failed(d, gai_strerror(d->found.result));
    (void)failed(d, "it has no address");
    return try_next(d, now);
}

static void run_child(int out, const address *to)
{
    dial_found found;
    look_up(to, 0, &found);
    ssize_t wrote = write(out, &found, sizeof found);
    _exit(wrote == (ssize_t)sizeof found ? 0 : 1);
}

dial_state dial_begin(dial *d, const address *to, uint64_t now)
{
    int ends[2];
    *d = (dial){.pipe = -1, .line = -1};
    look_up(to, AI_NUMERICHOST, &d->found);
    if (d->found.result != EAI_NONAME)
        return take_found(d, now);
    if (pipe2(ends, O_CLOEXEC) != 0)
        return failed(d, strerror(errno));
    d->child = fork();
    if (d->child == 0)
        run_child(ends[1], to);
    int cause = errno;
    (void)close(ends[1]);
    d->pipe = ends[0];
    if (d->child > 0)
        return DIAL_GOES_ON;
    d->child = 0;
    return failed(d, strerror(cause));
}

struct pollfd dial_wait(const dial *d)
{
    return d->pipe >= 0 ? (struct pollfd){.fd = d->pipe, .events = POLLIN}
                        : (struct pollfd){.fd = d->line, .events = POLLOUT};
}

int dial_due(const dial *d, uint64_t now)
{
    if (d->pipe >= 0)
        return -1; /* looking up has its own times */
    return d->until > now ? (int)(d->until - now) : 0;
}

static void end_child(dial *d)
{
    if (d->child > 0) {
        (void)kill(d->child, SIGKILL); /* it may have ended by itself */
        while (waitpid(d->child, NULL, 0) < 0 && errno == EINTR)
            ;
    }
    if (d->pipe >= 0)
        (void)close(d->pipe);
    d->child = 0;
    d->pipe = -1;
}

static dial_state hear_child(dial *d, uint64_t now)
{
    ssize_t came = read(d->pipe, &d->found, sizeof d->found);
    if (came < 0 && (errno == EINTR || errno == EAGAIN))
        return DIAL_GOES_ON;
    end_child(d);
    return came == (ssize_t)sizeof d->found ? take_found(d, now) : failed(d, "its name couldn't be looked up");
}

/* What has come of the address that is connecting: 0 where it is connected. */
static int outcome(const dial *d)
{
    int cause = 0;
    socklen_t size = sizeof cause;
    return getsockopt(d->line, SOL_SOCKET, SO_ERROR, &cause, &size) == 0 ? cause : errno;
}

dial_state dial_step(dial *d, bool is_ready, uint64_t now)
{
    if (!is_ready && dial_due(d, now) != 0)
        return DIAL_GOES_ON;
    if (d->pipe >= 0)
        return hear_child(d, now);
    int cause = is_ready ? outcome(d) : ETIMEDOUT;
    if (cause == 0)
        return DIAL_DONE;
    (void)failed(d, strerror(cause));
    (void)close(d->line);
    d->line = -1;
    return try_next(d, now);
}

void dial_end(dial *d)
{
    end_child(d);
    if (d->line >= 0)
        (void)close(d->line);
    d->line = -1;
}
