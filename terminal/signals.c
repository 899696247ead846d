#define _GNU_SOURCE
#include "signals.h"

#include <errno.h>
#include <signal.h>
#include <stddef.h>
#include <termios.h>
#include <time.h>
#include <unistd.h>

enum { LAST_WRITES = 2 /* seconds, which a window has to take them after a signal */ };

/* The first ones ask for an end, or say that its time is over. */
static const int caught[] = {SIGINT, SIGTERM, SIGHUP, SIGQUIT, SIGALRM, SIGWINCH, SIGCONT, SIGTSTP};
enum { ENDINGS = 5, CAUGHT = sizeof caught / sizeof caught[0] };

static volatile sig_atomic_t ending, resized, stopping;
static struct termios found; /* as the terminal was */

static void on_signal(int number)
{
    if (number == SIGWINCH || number == SIGCONT) {
        resized = 1;
    } else if (number == SIGTSTP) {
        stopping = 1;
    } else if (ending == 0) {
        ending = number;
        (void)alarm(LAST_WRITES);
    } else if (number == SIGALRM) { /* curses would go on with what it writes */
        (void)tcsetattr(STDIN_FILENO, TCSANOW, &found);
        _exit(128 + ending);
    }
}

static sigset_t first_of(size_t count)
{
    sigset_t set;
    (void)sigemptyset(&set); /* none of these can fail for signals that there are */
    for (size_t at = 0; at < count; at++)
        (void)sigaddset(&set, caught[at]);
    return set;
}

bool signals_begin(void)
{
    struct sigaction action = {.sa_handler = on_signal, .sa_mask = first_of(0)};
    struct sigaction ignore = {.sa_handler = SIG_IGN, .sa_mask = first_of(0)};
    const sigset_t held = first_of(CAUGHT);
    for (size_t at = 0; at < CAUGHT; at++)
        if (sigaction(caught[at], &action, NULL) != 0)
            return false;
    return tcgetattr(STDIN_FILENO, &found) == 0 && sigaction(SIGPIPE, &ignore, NULL) == 0
           && sigprocmask(SIG_BLOCK, &held, NULL) == 0;
}

int signals_ending(void)
{
    return ending;
}

bool signals_resized(void)
{
    bool was = resized != 0;
    resized = 0;
    return was;
}

bool signals_stopping(void)
{
    return stopping != 0;
}

void signals_stop(void)
{
    struct sigaction action, plain = {.sa_handler = SIG_DFL, .sa_mask = first_of(0)};
    sigset_t held, stop = first_of(0);
    (void)sigaddset(&stop, SIGTSTP);
    (void)sigaction(SIGTSTP, &plain, &action); /* by the signal itself: where no shell waits, the system drops it */
    (void)raise(SIGTSTP);
    (void)sigprocmask(SIG_UNBLOCK, &stop, &held);
    (void)sigprocmask(SIG_SETMASK, &held, NULL);
    (void)sigaction(SIGTSTP, &action, NULL);
    stopping = 0;
    resized = 1;
}

void signals_let_in(bool is_writing)
{
    const sigset_t endings = first_of(ENDINGS);
    if (ending != 0)
        (void)alarm(is_writing ? LAST_WRITES : 0);
    (void)sigprocmask(is_writing ? SIG_UNBLOCK : SIG_BLOCK, &endings, NULL);
}

int signals_wait(struct pollfd *lines, nfds_t count, int milliseconds)
{
    struct timespec time = {milliseconds / 1000, milliseconds % 1000 * 1000000L};
    const sigset_t none = first_of(0);
    return ppoll(lines, count, milliseconds < 0 ? NULL : &time, &none);
}
