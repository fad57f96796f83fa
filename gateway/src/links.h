/* The kernel's word that some interface changed, through rtnetlink. Which and how is then read from the interfaces themselves. */
#ifndef GATEWAY_LINKS_H
#define GATEWAY_LINKS_H

/* A file descriptor that becomes readable when an interface changed, or -1 with errno. */
int links_open(void);

/* Makes it unreadable again. */
void links_drain(int fd);

#endif
