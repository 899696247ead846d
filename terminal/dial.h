/* A connection in the making, which never waits: names are looked up by a child, and each address is tried in turn, for
 * a time of its own. */
#ifndef DIAL_H
#define DIAL_H

#include "address.h"

#include <poll.h>
#include <stdint.h>
#include <sys/socket.h>
#include <sys/types.h>

enum {
    DIAL_ADDRESSES = 16,
    DIAL_TIME = 10000 /* milliseconds, for each */
};

typedef struct {
    int family, type, protocol;
    socklen_t length;
    struct sockaddr_storage name;
} dial_address;

/* What the child tells. */
typedef struct {
    int result, cause; /* of getaddrinfo, and errno */
    size_t count;
    dial_address addresses[DIAL_ADDRESSES];
} dial_found;

typedef struct {
    pid_t child;    /* 0 where none runs */
    int pipe;       /* from the child, -1 where there is none */
    int line;       /* the socket that is connecting, -1 where none is */
    size_t next;    /* of the addresses */
    uint64_t until; /* when the time of the one that is connecting is over, in milliseconds of the caller's clock */
    char why[200];  /* the cause of the last failure */
    dial_found found;
} dial;

typedef enum { DIAL_GOES_ON, DIAL_DONE, DIAL_FAILED } dial_state;

/* Begins; DIAL_FAILED, with `why`, where not even that can be. */
dial_state dial_begin(dial *d, const address *to, uint64_t now);

/* What is to be waited for, and how many milliseconds at most; negative where there is no end. */
struct pollfd dial_wait(const dial *d);
int dial_due(const dial *d, uint64_t now);

/* Goes on: where that is ready, or the time is over. At DIAL_DONE `line` is the connection, and the caller's. */
dial_state dial_step(dial *d, bool is_ready, uint64_t now);

/* Ends it: the child, its pipe, and a socket that isn't the caller's. */
void dial_end(dial *d);

#endif
