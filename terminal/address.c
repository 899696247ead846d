#include "address.h"

#include <stdio.h>
#include <stdlib.h>
#include <string.h>

enum { MOST_PORT = 65535 };

/* Where the port's text begins, null where there is none; `host` and `length` are the host's text. */
static const char *split(const char *text, const char **host, size_t *length)
{
    const char *close = text[0] == '[' ? strchr(text, ']') : NULL, *colon = strrchr(text, ':');
    *host = text;
    *length = strlen(text);
    if (close != NULL) {
        *host = text + 1;
        *length = (size_t)(close - text - 1);
        return close[1] == 0 ? NULL : close + 1;
    }
    if (colon == NULL || strchr(text, ':') != colon)
        return NULL;
    *length = (size_t)(colon - text);
    return colon;
}

bool address_read(address *a, const char *text, const char *usual_port, char *why, size_t room)
{
    const char *host;
    size_t length;
    const char *port = split(text, &host, &length);
    if (length == 0 || length >= sizeof a->host) {
        (void)snprintf(why, room, "%s names no host", text);
        return false;
    }
    memcpy(a->host, host, length);
    a->host[length] = 0;
    if (port != NULL && (port[0] != ':' || port[1] == 0 || strlen(port + 1) >= sizeof a->port)) {
        (void)snprintf(why, room, "%s names no port after its host", text);
        return false;
    }
    (void)snprintf(a->port, sizeof a->port, "%s", port != NULL ? port + 1 : usual_port);
    if (a->port[strspn(a->port, "+-0123456789")] != 0)
        return true;
    char *end = NULL;
    long number = strtol(a->port, &end, 10);
    if (*end != 0 || number < 1 || number > MOST_PORT) {
        (void)snprintf(why, room, "port %s is out of range: it is 1 to %d", a->port, MOST_PORT);
        return false;
    }
    return true;
}
