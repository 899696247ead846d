/* HOST[:PORT], as it is written: a name or an address, of IPv6 also as [ADDRESS]:PORT. */
#ifndef ADDRESS_H
#define ADDRESS_H

#include <stdbool.h>
#include <stddef.h>

typedef struct {
    char host[256];
    char port[32]; /* a number or a service's name */
} address;

/* Reads an address, with the port where none is written; false, with a sentence in `why`, where it isn't one. */
bool address_read(address *a, const char *text, const char *usual_port, char *why, size_t room);

#endif
