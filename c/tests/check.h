/* Counted checks: a test program prints what fails, and at its end how many passed and failed. */
#ifndef CHECK_H
#define CHECK_H

#include <stdio.h>
#include <string.h>

static unsigned check_passed, check_failed;

#define CHECK(fact)                                                                                                    \
    do {                                                                                                               \
        if (fact) {                                                                                                    \
            check_passed += 1;                                                                                         \
        } else {                                                                                                       \
            check_failed += 1;                                                                                         \
            printf("%s:%d: not so: %s\n", __FILE__, __LINE__, #fact);                                                  \
        }                                                                                                              \
    } while (0)

/* An object is filled before a call, so that what the call leaves is seen. */
#define FILL(object) memset(&(object), 0xa5, sizeof(object))

static inline int all_are(const void *object, size_t size, unsigned char byte)
{
    const unsigned char *at = object;
    for (size_t i = 0; i < size; i++)
        if (at[i] != byte)
            return 0;
    return 1;
}

#define IS_FILLED(object) all_are(&(object), sizeof(object), 0xa5)

static inline int check_end(void)
{
    printf("%u passed, %u failed\n", check_passed, check_failed);
    return check_failed > 0;
}

#endif
