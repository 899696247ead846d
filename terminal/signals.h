/* Signals only say that they came; the loop does the rest. They are let in while it waits, and those that ask for an
 * end while the window is written to: where it takes nothing for two seconds after one, the program ends there. */
#ifndef SIGNALS_H
#define SIGNALS_H

#include <poll.h>
#include <stdbool.h>

/* Begins; false, by errno, where the system refuses. */
bool signals_begin(void);

/* The number of the signal that asks for an end, 0 where none has come. */
int signals_ending(void);

/* Whether the window's size has changed since this was last asked. */
bool signals_resized(void);

/* Whether the program is asked to stop. */
bool signals_stopping(void);

/* Stops it, as that signal does a program that doesn't catch it. Where it goes on, the size may have changed. */
void signals_stop(void);

/* Before the window is written to, and after. */
void signals_let_in(bool is_writing);

/* Waits for lines, at most `milliseconds`, or without end where that is negative. The number of lines that are ready;
 * negative, by errno, where a signal came or the wait failed. */
int signals_wait(struct pollfd *lines, nfds_t count, int milliseconds);

#endif
