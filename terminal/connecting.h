/* How a session begins, and begins again: its station, the connection, TLS on it. */
#ifndef CONNECTING_H
#define CONNECTING_H

#include "session.h"

/* Makes the station that is asked for. */
ribbon_status connecting_station(session *s, const options *asked);

/* Begins to connect; false, with a sentence in `standing`, where that can't be. */
bool connecting_begin(session *s);

/* Goes on with that, where the connection in the making is ready or its time is over. */
void connecting_dials(session *s, bool is_ready);

/* Goes on with TLS, where its line is ready. */
void connecting_secures(session *s);

/* Connects again where the session is over: with a new station, an empty screen, and nothing kept of what was. What is
 * recorded goes on in a new file, as soon as there is a session. */
void connecting_again(session *s);

#endif
