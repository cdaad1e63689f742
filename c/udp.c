#define _POSIX_C_SOURCE 200809L
#include "udp.h"

#include <arpa/inet.h>
#include <errno.h>
#include <fcntl.h>
#include <netinet/in.h>
#include <poll.h>
#include <stdio.h>
#include <stdlib.h>
#include <sys/socket.h>
#include <time.h>
#include <unistd.h>

static void fail(const char *what)
{
    perror(what);
    exit(2);
}

uint16_t udp_port(const char *word)
{
    char *end;
    const unsigned long port = strtoul(word, &end, 10);
    if (*end != '\0' || port < 1 || port > UINT16_MAX) {
        fprintf(stderr, "no port: %s\n", word);
        exit(2);
    }
    return (uint16_t)port;
}

static struct sockaddr_in loopback(uint16_t port)
{
    return (struct sockaddr_in){.sin_family = AF_INET, .sin_port = htons(port), .sin_addr = {htonl(INADDR_LOOPBACK)}};
}

int udp_open(uint16_t own, uint16_t peer)
{
    const struct sockaddr_in from = loopback(own), to = loopback(peer);
    const int opened = socket(AF_INET, SOCK_DGRAM, 0);
    if (opened < 0 || bind(opened, (const struct sockaddr *)&from, sizeof from) != 0 ||
        connect(opened, (const struct sockaddr *)&to, sizeof to) != 0 || fcntl(opened, F_SETFL, O_NONBLOCK) != 0)
        fail("no socket");
    return opened;
}

void udp_send(int socket, const uint8_t *datagram, size_t length)
{
    if (send(socket, datagram, length, 0) < 0)
        perror("a datagram is lost");
}

long udp_take(int socket, uint8_t *datagram, size_t room)
{
    return (long)recv(socket, datagram, room, 0);
}

void input_open(void)
{
    if (fcntl(STDIN_FILENO, F_SETFL, O_NONBLOCK) != 0)
        fail("no standard input");
}

long input_take(uint8_t *bytes, size_t room)
{
    const long length = (long)read(STDIN_FILENO, bytes, room);
    if (length < 0 && errno != EAGAIN && errno != EINTR)
        return 0;
    return length;
}

uint64_t udp_now(void)
{
    struct timespec now;
    if (clock_gettime(CLOCK_MONOTONIC, &now) != 0)
        fail("no clock");
    return (uint64_t)now.tv_sec * 1000 + (uint64_t)now.tv_nsec / 1000000;
}

void udp_wait(int socket, int milliseconds)
{
    struct pollfd waiting[] = {{.fd = socket, .events = POLLIN}, {.fd = STDIN_FILENO, .events = POLLIN}};
    if (poll(waiting, 2, milliseconds) < 0)
        fail("no waiting");
}
