/* The hosts file, `hosts` in the user's folder of settings: a line is a name, a colon, and words of a command line. */
#ifndef HOSTS_H
#define HOSTS_H

#include <stdbool.h>
#include <stdio.h>
#include <wordexp.h>

enum { HOSTS_WHY_ROOM = 4096 + 400 };

typedef enum { HOSTS_FOUND, HOSTS_NONE, HOSTS_WRONG } hosts_result;

typedef struct {
    wordexp_t words;           /* in we_wordv, behind an empty place */
    char what[HOSTS_WHY_ROOM]; /* the file and the number of the line; at HOSTS_WRONG a sentence */
} hosts_line;

/* Looks a name up. The words are parted as a shell does it, with quotes, ~ and variables, and without commands. At
 * HOSTS_WRONG the file can't be read, a line of it is wrong, or two have the name. */
hosts_result hosts_find(const char *name, hosts_line *found);

/* Frees the words of a line that was found. */
void hosts_end(hosts_line *found);

/* Prints the lines; false, with a sentence in `why` of HOSTS_WHY_ROOM, where there is no such file or it is wrong. What
 * `out` doesn't take is left to the caller. */
bool hosts_list(FILE *out, char *why);

#endif
