/*
 * Gives a name the addresses that a test wants, in the program that it is loaded before (LD_PRELOAD): the name
 * many.test has those of ADDRESSES, numbers with commas between them, in that order. Every other name is looked up as
 * ever.
 */
#define _GNU_SOURCE
#include <dlfcn.h>
#include <netdb.h>
#include <stdlib.h>
#include <string.h>

typedef int lookup(const char *, const char *, const struct addrinfo *, struct addrinfo **);

int getaddrinfo(const char *node, const char *service, const struct addrinfo *hints, struct addrinfo **found)
{
    lookup *real = (lookup *)dlsym(RTLD_NEXT, "getaddrinfo");
    const char *wanted = getenv("ADDRESSES");
    if (node == NULL || wanted == NULL || strcmp(node, "many.test") != 0)
        return real(node, service, hints, found);
    static char addresses[1000];
    strncpy(addresses, wanted, sizeof addresses - 1);
    *found = NULL;
    for (char *one = strtok(addresses, ","); one != NULL; one = strtok(NULL, ",")) {
        int result = real(one, service, hints, found);
        if (result != 0)
            return result;
        while (*found != NULL)
            found = &(*found)->ai_next;
    }
    return 0;
}
