/*
 * router IPS-PORT RADIO-PORT: a router's main loop over the library, on the loopback device. It is what a router's maker
 * would start from: packets of the network come on standard input, one a read, the first byte being the Channel ID (a
 * product has a tun device there, and its own way from a packet to a channel). It ends where standard input ends, and
 * prints what it sent on each channel. A datagram that is refused is as one that was lost, and counted.
 *
 * Before each wait it prints how many datagrams and packets it has taken. A product doesn't; here the relay waits for it,
 * so that a recording has the messages in the endpoint's own order (docs/JOINED.md).
 */
#define _POSIX_C_SOURCE 200809L
#include <inttypes.h>
#include <stdio.h>
#include <stdlib.h>

#include "nespovarda.h"
#include "udp.h"

#define COUNT(array) (sizeof(array) / sizeof *(array))
#define CHANNELS 4
#define STORE 20000
#define HELLO 50   /* milliseconds from a query to the next */
#define LIMIT 400  /* milliseconds without a word of the radio until it is silent */
#define ASKED 10   /* milliseconds until the pacer is asked again, at most */
#define KEPT 60000 /* milliseconds that a packet is good for */

static uint64_t words[NESPOVARDA_STATE_WORDS(CHANNELS)];
static uint8_t memory[CHANNELS * STORE];
static uint8_t in[65536], out[NESPOVARDA_LONGEST_PACKET + 20];
static const uint8_t channels[CHANNELS] = {0, 3, 7, 200};
/* Of each channel the packets sent; of all the queries sent, the packets taken in, those held back as a store was full, and the datagrams refused. */
static uint64_t packets[CHANNELS], queries, taken, held_back, refused;

static void fail(const char *what, nespovarda_answer answer)
{
    fprintf(stderr, "router: %s: %" PRIu64 " %" PRIu64 "\n", what, answer.kind, answer.value);
    exit(1);
}

static void start(void)
{
    static const uint64_t configuration[] = {
        7, CHANNELS, HELLO, LIMIT, 0, /* Datalink ID, count, HelloTime, silence limit, no status of 8 to 15; of each ID, kind, first sequence, store */
        0, NESPOVARDA_PLAIN, 0, STORE,
        3, NESPOVARDA_CONTROLLED, 4294900000, STORE, /* past the wrap after 67,296 bytes */
        7, NESPOVARDA_CONTROLLED, 2147400000, STORE, /* past 2^31 after 83,648 */
        200, NESPOVARDA_CONTROLLED, 0, STORE,
    };
    const nespovarda_answer answer = nespovarda_start(words, COUNT(words), memory, sizeof memory, configuration, COUNT(configuration));
    if (answer.kind != NESPOVARDA_STARTED)
        fail("no start", answer);
}

/* A datagram of the radio: statuses and windows. Whether there was one. */
static int hear(int radio, uint64_t now)
{
    const long length = udp_take(radio, in, sizeof in);
    if (length < 0)
        return 0;
    const nespovarda_answer answer = nespovarda_radio(words, COUNT(words), now, in, (size_t)length);
    if (answer.kind != NESPOVARDA_ACCEPTED && answer.kind != NESPOVARDA_DUE)
        refused++;
    return 1;
}

/* A query every HelloTime; a radio that was silent too long has no statuses and no windows. */
static void ask(int radio, uint64_t now)
{
    nespovarda_answer answer = nespovarda_pace(words, COUNT(words), now);
    if (answer.kind > NESPOVARDA_REFUSED)
        fail("no pace", answer);
    if (answer.kind != NESPOVARDA_QUERY_DUE && answer.kind != NESPOVARDA_QUERY_DUE_SILENT)
        return;
    answer = nespovarda_query(words, COUNT(words), out, sizeof out);
    if (answer.kind != NESPOVARDA_WROTE)
        fail("no query", answer);
    udp_send(radio, out, answer.value);
    queries++;
}

/* A packet of the network, offered to its channel: its length with the Channel ID, 0 at the end, -1 where none has come. */
static long take(uint64_t now)
{
    const long length = input_take(in, sizeof in);
    if (length < 1)
        return length;
    const nespovarda_answer answer =
        nespovarda_offer(words, COUNT(words), memory, sizeof memory, in[0], in + 1, (size_t)length - 1, now + KEPT, now);
    if (answer.kind == NESPOVARDA_TAKEN)
        taken++;
    else if (answer.kind == NESPOVARDA_REFUSED_FULL)
        held_back++;
    else
        fail("a packet is refused", answer);
    return length;
}

/* Everything that a channel may send now. */
static void send_all(int radio, size_t place, uint64_t now)
{
    nespovarda_answer answer;
    while ((answer = nespovarda_next(words, COUNT(words), memory, sizeof memory, channels[place], now, out, sizeof out)).kind == NESPOVARDA_SENT) {
        udp_send(radio, out, answer.value);
        packets[place]++;
    }
    if (answer.kind > NESPOVARDA_REFUSED)
        fail("a next is refused", answer);
}

int main(int argc, char **argv)
{
    if (argc != 3) {
        fputs("router IPS-PORT RADIO-PORT\n", stderr);
        return 2;
    }
    input_open();
    const int radio = udp_open(udp_port(argv[1]), udp_port(argv[2]));
    start();
    uint64_t events = 0;
    for (long length = -1; length != 0;) {
        printf("waiting %" PRIu64 "\n", events);
        fflush(stdout);
        udp_wait(radio, ASKED);
        const uint64_t now = udp_now();
        while (hear(radio, now))
            events++;
        ask(radio, now);
        while ((length = take(now)) > 0)
            events++;
        for (size_t place = 0; place < CHANNELS; place++)
            send_all(radio, place, now);
    }
    for (size_t place = 0; place < CHANNELS; place++)
        printf("channel %d packets %" PRIu64 "\n", channels[place], packets[place]);
    printf("queries %" PRIu64 "\ntaken %" PRIu64 "\nheld back %" PRIu64 "\nrefused %" PRIu64 "\n", queries, taken, held_back, refused);
    return 0;
}
