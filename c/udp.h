/* What c/router and c/radio share: a UDP socket on the loopback device, standard input, a clock, and waiting. */
#ifndef UDP_H
#define UDP_H

#include <stddef.h>
#include <stdint.h>

/* A port from a word of the command line; ends the program where it is none. */
uint16_t udp_port(const char *word);

/* A socket of 127.0.0.1 that sends to one port and hears from no other; it never blocks. Ends the program where there is none. */
int udp_open(uint16_t own, uint16_t peer);

/* Sends a datagram. One that isn't taken is lost, as it may be on any way. */
void udp_send(int socket, const uint8_t *datagram, size_t length);

/* Takes a datagram that has come: its length, or -1 where there is none. */
long udp_take(int socket, uint8_t *datagram, size_t room);

/* Standard input never blocks from here on. Ends the program where there is none. */
void input_open(void);

/* Takes what has come on standard input: its length, 0 where it has ended or can't be read, -1 where nothing has come. */
long input_take(uint8_t *bytes, size_t room);

/* Milliseconds of a clock that never goes back. */
uint64_t udp_now(void);

/* Waits until the socket or standard input has something, or so many milliseconds are over. */
void udp_wait(int socket, int milliseconds);

#endif
