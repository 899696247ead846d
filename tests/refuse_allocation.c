/*
 * Refuses allocations of the program that it is loaded before (LD_PRELOAD): with REFUSE=N the Nth, counted from 1,
 * and with REFUSE=N.. every one from the Nth on. A grown block counts as an allocation and stays as it was where it
 * is refused. The first refusal makes the file that REFUSED names.
 */
#include <fcntl.h>
#include <stdlib.h>
#include <string.h>
#include <unistd.h>

void *__libc_malloc(size_t size);
void *__libc_realloc(void *block, size_t size);

static unsigned long taken;

static int is_refused(void)
{
    const char *wanted = getenv("REFUSE");
    const char *told = getenv("REFUSED");
    char *rest;
    unsigned long first;

    taken += 1;
    if (wanted == NULL || told == NULL)
        return 0;
    first = strtoul(wanted, &rest, 10);
    if (taken < first || (taken > first && strcmp(rest, "..") != 0))
        return 0;
    if (taken == first)
        close(open(told, O_WRONLY | O_CREAT, 0600));
    return 1;
}

void *malloc(size_t size)
{
    return is_refused() ? NULL : __libc_malloc(size);
}

void *realloc(void *block, size_t size)
{
    return is_refused() ? NULL : __libc_realloc(block, size);
}
