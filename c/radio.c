/*
 * radio RADIO-PORT IPS-PORT: a radio's main loop over the library of its end, on the loopback device. It is what a
 * radio's maker would start from: what is heard is queued, the queues go out at each channel's throughput a period (a
 * product transmits there), and what the library writes is sent. One channel is lost for a while now and then. It ends
 * where standard input ends, and prints how many messages it heard, refused and sent; one that is refused is as one that
 * was lost.
 */
#define _POSIX_C_SOURCE 200809L
#include <inttypes.h>
#include <stdio.h>
#include <stdlib.h>

#include "nespovarda_station.h"
#include "udp.h"

#define COUNT(array) (sizeof(array) / sizeof *(array))
#define CHANNELS 4
#define PERIOD 10         /* milliseconds */
#define PERIODS_OF_ROUND 64 /* of which the last channel is lost in the last four */
#define PERIODS_LOST 4
#define OPERATIONAL 7
#define LOST 0

static uint64_t words[NESPOVARDA_STATION_STATE_WORDS(CHANNELS)];
static uint8_t in[65536], out[2000];
static uint64_t heard, refused, sent;

/* Of each channel ID, kind, watermark, throughput a period; the second's windows are as wide as they may be (docs/JOINED.md). */
static const uint64_t configuration[] = {
    7, CHANNELS, /* Datalink ID, count */
    0, NESPOVARDA_PLAIN, 0, 100000,
    3, NESPOVARDA_CONTROLLED, (1 << 30) - 100000, 100000,
    7, NESPOVARDA_CONTROLLED, 20000, 9000,
    200, NESPOVARDA_CONTROLLED, 9000, 3000,
};

static const uint64_t *channel_at(size_t place)
{
    return configuration + NESPOVARDA_STATION_CONFIGURATION_HEAD + place * NESPOVARDA_STATION_CONFIGURATION_SLOT;
}

static uint8_t id_at(size_t place)
{
    return (uint8_t)channel_at(place)[NESPOVARDA_STATION_START_ID];
}

/* Sends what a call has written, if it has. */
static void say(int router, nespovarda_answer answer)
{
    if (answer.kind > NESPOVARDA_REFUSED) {
        fprintf(stderr, "radio: refused %" PRIu64 " %" PRIu64 "\n", answer.kind - NESPOVARDA_REFUSED, answer.value);
        exit(1);
    }
    if (answer.kind != NESPOVARDA_ANSWERED && answer.kind != NESPOVARDA_UNASKED)
        return;
    udp_send(router, out, answer.value);
    sent++;
}

static void hear_all(int router)
{
    long length;
    while ((length = udp_take(router, in, sizeof in)) >= 0) {
        const nespovarda_answer answer = nespovarda_station_hear(words, COUNT(words), in, (size_t)length, out, sizeof out);
        if (answer.kind > NESPOVARDA_REFUSED) {
            refused++;
            continue;
        }
        heard++;
        say(router, answer);
    }
}

/* A period is over: what the channel could send is no longer queued. */
static void drain(int router, size_t place)
{
    uint64_t shown[NESPOVARDA_STATION_NUMBERS];
    const nespovarda_answer answer = nespovarda_station_show(words, COUNT(words), id_at(place), shown);
    if (answer.kind != NESPOVARDA_SHOWN)
        say(router, answer);
    const uint64_t queued = shown[NESPOVARDA_STATION_SHOWN_QUEUED], out_going = channel_at(place)[NESPOVARDA_STATION_START_THROUGHPUT];
    say(router, nespovarda_station_queued(words, COUNT(words), id_at(place), queued < out_going ? 0 : queued - out_going, out, sizeof out));
}

static void report_status(int router, size_t place, uint8_t status)
{
    say(router, nespovarda_station_status(words, COUNT(words), id_at(place), status, out, sizeof out));
}

static void pass_period(int router, uint64_t period)
{
    for (size_t place = 0; place < CHANNELS; place++)
        drain(router, place);
    const int is_lost = period % PERIODS_OF_ROUND >= PERIODS_OF_ROUND - PERIODS_LOST;
    report_status(router, CHANNELS - 1, is_lost ? LOST : OPERATIONAL);
}

static int is_over(void)
{
    return input_take(in, sizeof in) == 0;
}

int main(int argc, char **argv)
{
    if (argc != 3) {
        fputs("radio RADIO-PORT IPS-PORT\n", stderr);
        return 2;
    }
    input_open();
    const int router = udp_open(udp_port(argv[1]), udp_port(argv[2]));
    const nespovarda_answer started = nespovarda_station_start(words, COUNT(words), configuration, COUNT(configuration));
    if (started.kind != NESPOVARDA_STARTED)
        say(router, started);
    for (size_t place = 0; place < CHANNELS; place++)
        report_status(router, place, OPERATIONAL);
    for (uint64_t period = udp_now() / PERIOD; !is_over();) {
        udp_wait(router, PERIOD);
        hear_all(router);
        for (const uint64_t now = udp_now() / PERIOD; period < now; period++)
            pass_period(router, period);
    }
    printf("heard %" PRIu64 "\nrefused %" PRIu64 "\nsent %" PRIu64 "\n", heard, refused, sent);
    return 0;
}
