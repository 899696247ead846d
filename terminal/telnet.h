/* Where records begin in a host's stream (RFC 854, RFC 885), and no more of it. */
#ifndef TELNET_H
#define TELNET_H

#include <stdbool.h>
#include <stdint.h>

typedef struct {
    enum { TELNET_DATA, TELNET_IAC, TELNET_OPTION, TELNET_SUB, TELNET_SUB_IAC } state;
    bool is_in_record; /* a byte of a record has come since the last IAC EOR */
} telnet;

typedef enum {
    TELNET_OTHER, /* a part of a Telnet command */
    TELNET_BYTE,  /* a byte of a record */
    TELNET_EOR    /* the end of a record */
} telnet_found;

/* Takes a byte, and tells what it is. */
telnet_found telnet_take(telnet *t, uint8_t byte);

/* Whether the next byte begins a record or a Telnet command before one. */
bool telnet_is_between(const telnet *t);

#endif
