/* Pasted text: each of its lines goes into one field, and its line ends and tabs go to the next field below and send
 * nothing. What doesn't go in stops it, and the rest is left. */
#ifndef PASTE_H
#define PASTE_H

#include "action.h"

enum { PASTE_WHY_ROOM = 300 };

typedef struct {
    /* As it comes from the window: */
    bool is_on;      /* between the marks of a paste */
    bool is_dropped; /* the rest of it isn't looked at */
    bool was_return; /* the last character was a carriage return */
    /* As it is pressed, which may be later: */
    bool is_full; /* the line has filled its field, and the cursor has left it */
    bool is_last; /* to no field below */
    bool is_over; /* the line in the last field has ended */
    bool is_sent; /* the screen, by the Enter that follows its field's last character (auto enter) */
    size_t count; /* characters that went in */
    size_t total; /* characters of all of it */
    char why[PASTE_WHY_ROOM]; /* a sentence, where it has stopped */
} paste;

/* The mark of a paste's begin, and what a character asks for then: ACTION_PASTED, ACTION_PASTED_END or, where it asks
 * for none, ACTION_NOTHING. */
void paste_begin(paste *p);
action paste_character(paste *p, uint32_t character);

/* Whether an action is a part of a paste. */
bool paste_is_part(action_kind kind);

/* What is pressed from here on is another paste. */
void paste_start(paste *p);

/* Counts a character, and tells whether it may be pressed; where it may not, it stops here at the latest. */
bool paste_takes(paste *p);

/* Tells that a character went in; whether the cursor went on to another field by itself, and whether that is further
 * below. */
void paste_went_in(paste *p, bool has_moved_on, bool is_below);

/* Tells that the screen has gone out with it: the rest isn't for the next one. */
void paste_has_sent(paste *p);

/* Whether a line's end is to go to the next field, where there is one below the cursor or not: not where the last
 * character has gone there, and from the last field never to the first. */
bool paste_line_ends(paste *p, bool has_below);

/* Leaves the rest of what is pasted, and keeps the first reason. */
void paste_stop(paste *p, const char *why);

/* How much of it went in, and why no more; false where all did. */
bool paste_told(const paste *p, char *text, size_t room);

#endif
