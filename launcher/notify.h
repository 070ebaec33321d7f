/* Reports to systemd. */
#ifndef NOTIFY_H
#define NOTIFY_H

/* Notes the socket in NOTIFY_SOCKET, and takes the variable out of the environment. */
void notify_begin(void);

/* Sends a state, as READY=1, if there is such a socket. */
void notify(const char *state);

#endif
