/* Which key does what: what is there from the first on, and what a keys file sets. */
#ifndef BINDINGS_H
#define BINDINGS_H

#include "action.h"
#include "stroke.h"

#include <stdio.h>

enum { BINDINGS = 512 };

typedef struct {
    struct {
        stroke key;
        action does;
    } rows[BINDINGS];
    size_t count;
    bool is_tn5250; /* they begin with the keys of that program */
} bindings;

void bindings_begin(bindings *b);

/* Sets the keys that users of the program tn5250 know, and takes away what they do else. */
void bindings_tn5250(bindings *b);

/* Sets what a key does; false where there is no room. */
bool bindings_set(bindings *b, stroke key, action does);

/* What a key does; false where it isn't bound. Behind Esc a capital that isn't bound counts as its small letter. */
bool bindings_find(const bindings *b, stroke key, action *does);

/* The keys of an action, `, ` between them; as many as there is room for. */
void bindings_keys(const bindings *b, action does, char *text, size_t room);

/* Reads lines `KEY = ACTION`; empty ones and those that begin with # say nothing. False at the first line that can't be
 * read: `why` then has a sentence, without its full stop, that names the file and the line. */
bool keys_file_read(bindings *b, FILE *file, const char *name, char *why, size_t room);

#endif
