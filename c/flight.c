/*
 * flight: the sample flight of docs/FLIGHT.md by calls of the library, as a router makes them. Three channels, 0 and 5
 * plain, 3 flow-controlled; it prints what each call comes to, in the session page's words. No memory but what stands here.
 */
#include <inttypes.h>
#include <stdio.h>
#include <string.h>

#include "nespovarda.h"

#define COUNT(array) (sizeof(array) / sizeof *(array))
#define CHANNELS 3
#define STORE NESPOVARDA_SMALLEST_STORE
#define PACKET NESPOVARDA_SHORTEST_PACKET

static uint64_t words[NESPOVARDA_STATE_WORDS(CHANNELS)];
static uint8_t memory[CHANNELS * STORE];
static uint8_t out[100];

static void tell(nespovarda_answer answer)
{
    static const char *const kinds[] = {
        [NESPOVARDA_STARTED] = "started", [NESPOVARDA_TAKEN] = "taken", [NESPOVARDA_SENT] = "sent ",
        [NESPOVARDA_NOTHING_WAITING] = "nothing waiting", [NESPOVARDA_NOT_OPERATIONAL] = "not operational",
        [NESPOVARDA_WINDOW_SHUT] = "window shut", [NESPOVARDA_WITHDRAWN] = "withdrawn",
        [NESPOVARDA_ACCEPTED] = "accepted", [NESPOVARDA_DUE] = "accepted due", [NESPOVARDA_WROTE] = "query ",
        [NESPOVARDA_QUIET] = "quiet", [NESPOVARDA_QUERY_DUE] = "due", [NESPOVARDA_SILENT] = "silent",
        [NESPOVARDA_QUERY_DUE_SILENT] = "due silent", [NESPOVARDA_OFFERED] = "offered",
    };
    if (answer.kind > NESPOVARDA_REFUSED)
        printf("refused %" PRIu64 " %" PRIu64, answer.kind - NESPOVARDA_REFUSED, answer.value);
    else if (answer.kind < COUNT(kinds) && kinds[answer.kind] != NULL)
        fputs(kinds[answer.kind], stdout);
    if (answer.kind == NESPOVARDA_SENT || answer.kind == NESPOVARDA_WROTE)
        for (uint64_t i = 0; i < answer.value; i++)
            printf("%02x", out[i]);
}

static void say(nespovarda_answer answer)
{
    tell(answer);
    putchar('\n');
}

static void start(void)
{
    static const uint64_t configuration[] = {
        7, CHANNELS, 5000, 9000, 2, /* Datalink ID, count, HelloTime, silence limit, status 9; then ID, kind, first sequence, store */
        0, NESPOVARDA_PLAIN, 0, STORE,
        3, NESPOVARDA_CONTROLLED, 4294967230, STORE,
        5, NESPOVARDA_PLAIN, 0, STORE,
    };
    say(nespovarda_start(words, COUNT(words), memory, sizeof memory, configuration, COUNT(configuration)));
}

/* A bare IPv6 header, told from the others by its last byte. */
static void write_packet(uint8_t *packet, uint8_t last)
{
    const uint8_t header[PACKET] = {0x60, [6] = 59, [7] = 64, [8] = 0xfd, [23] = 1, [24] = 0xfd, [39] = last};
    memcpy(packet, header, sizeof header);
}

static void offer(uint8_t channel, uint64_t time, uint64_t expiry, uint8_t last)
{
    uint8_t packet[PACKET];
    write_packet(packet, last);
    say(nespovarda_offer(words, COUNT(words), memory, sizeof memory, channel, packet, sizeof packet, expiry, time));
}

/* Packets of a handful; each but the last is cut where its length says, the last where the buffer ends. */
struct offers {
    size_t count;
    uint8_t channels[4];
    uint64_t expiries[4];
    uint64_t lengths[4];
    uint8_t last[4];
    size_t bytes;
};

static void offers(uint64_t time, struct offers of)
{
    uint8_t packets[COUNT(of.lengths) * PACKET], answers[COUNT(of.lengths)];
    size_t at = 0;
    for (size_t i = 0; i < of.count; i++) {
        write_packet(packets + at, of.last[i]);
        at += of.lengths[i];
    }
    nespovarda_answer answer =
        nespovarda_offers(words, COUNT(words), memory, sizeof memory, of.channels, of.count, of.expiries, of.count,
                          of.lengths, of.count, packets, of.bytes, time, answers, of.count);
    tell(answer);
    for (size_t i = 0; answer.kind == NESPOVARDA_OFFERED && i < of.count; i++) {
        putchar(' ');
        tell((nespovarda_answer){answers[i] == 0 ? NESPOVARDA_TAKEN : NESPOVARDA_REFUSED + answers[i], 0});
    }
    putchar('\n');
}

static void next(uint8_t channel, uint64_t time, size_t room)
{
    say(nespovarda_next(words, COUNT(words), memory, sizeof memory, channel, time, out, room));
}

static void show(uint8_t channel)
{
    uint64_t at[NESPOVARDA_CHANNEL_NUMBERS], packet[NESPOVARDA_WAITING_NUMBERS];
    nespovarda_answer answer = nespovarda_show(words, COUNT(words), channel, at);
    if (answer.kind != NESPOVARDA_SHOWN) {
        say(answer);
        return;
    }
    printf("channel %d ", channel);
    if (at[NESPOVARDA_SHOWN_REPORTED])
        printf("%" PRIu64 " ", at[NESPOVARDA_SHOWN_STATUS]);
    else
        fputs("- ", stdout);
    if (at[NESPOVARDA_SHOWN_FLOW] == NESPOVARDA_IN_FORCE)
        printf("%" PRIu64 " ", at[NESPOVARDA_SHOWN_WINDOW]);
    else
        fputs(at[NESPOVARDA_SHOWN_FLOW] == NESPOVARDA_FREE ? "free " : "none ", stdout);
    printf("%" PRIu64 " %" PRIu64 " %" PRIu64, at[NESPOVARDA_SHOWN_SEQUENCE], at[NESPOVARDA_SHOWN_LATEST],
           at[NESPOVARDA_SHOWN_WAITING]);
    for (uint64_t i = 0; nespovarda_waiting(words, COUNT(words), channel, i, packet).kind == NESPOVARDA_SHOWN; i++)
        printf(" %" PRIu64 " %" PRIu64, packet[NESPOVARDA_WAITING_LENGTH], packet[NESPOVARDA_WAITING_EXPIRY]);
    putchar('\n');
}

static void pace(uint64_t time)
{
    say(nespovarda_pace(words, COUNT(words), time));
}

static void show_pacer(void)
{
    uint64_t at[NESPOVARDA_PACER_NUMBERS];
    nespovarda_answer answer = nespovarda_pacer(words, COUNT(words), at);
    if (answer.kind != NESPOVARDA_PACER_SHOWN) {
        say(answer);
        return;
    }
    printf("pacer %" PRIu64 " %" PRIu64 " %" PRIu64 "\n", at[NESPOVARDA_PACER_CLOCK], at[NESPOVARDA_PACER_DUE],
           at[NESPOVARDA_PACER_HEARD]);
}

/* A radio data message of Datalink 7 with such a packet. */
static void carry(uint64_t time, uint8_t last)
{
    const uint8_t message[48] = {0x18, 1, 0, 1, 7, 0x80, 0, 40, 0x60, [14] = 59, [15] = 64, [16] = 0xfd, [31] = 1,
                                 [32] = 0xfd, [47] = last};
    say(nespovarda_radio(words, COUNT(words), time, message, sizeof message));
}

/* A radio control message of Datalink 7, and the options behind it: type, length in two bytes, content. */
#define HEADED(options) "\x10\1\0\1\7" options
#define RADIO(time, options) \
    say(nespovarda_radio(words, COUNT(words), time, (const uint8_t *)HEADED(options), sizeof(HEADED(options)) - 1))
#define CONTEXT(letters) "\4\0\2" letters
#define STATUS(channel, status) "\5\0\2" channel status
#define WINDOW(channel, window) "\6\0\5" channel window
#define WINDOW_WITHDRAWN(channel) "\6\0\1" channel

int main(void)
{
    start();
    offer(0, 1000, 9000, 1);
    next(0, 1000, 100);
    RADIO(1005, CONTEXT("EU") STATUS("\0", "\7") STATUS("\3", "\x08") STATUS("\5", "\xf3") WINDOW("\3", "\0\0\0\x2c"));
    next(0, 1010, 100);
    show(5);
    offer(3, 1010, 9000, 2);
    next(3, 1020, 100);
    RADIO(1025, CONTEXT("EU") STATUS("\0", "\7") STATUS("\3", "\7") WINDOW("\3", "\0\0\0\x2c"));
    show(5);

    offer(3, 1030, 9000, 3);
    offer(3, 1030, 9000, 4);
    next(3, 1040, 100);
    next(3, 1050, 100);
    show(3);
    next(3, 1060, 100);
    RADIO(1065, STATUS("\0", "\7") STATUS("\3", "\7") WINDOW("\3", "\xff\xff\xff\xfa"));
    next(3, 1070, 100);
    RADIO(1075, STATUS("\0", "\7") STATUS("\3", "\7") WINDOW("\3", "\0\0\0\x36"));
    next(3, 1080, 59);
    next(3, 1080, 60);

    offer(3, 2000, 9000, 5);
    offer(3, 2000, 2500, 6);
    offer(3, 2000, 9000, 7);
    RADIO(2005, STATUS("\0", "\7") STATUS("\3", "\7") WINDOW("\3", "\0\0\4\x1e"));
    next(3, 2010, 100);
    RADIO(2020, STATUS("\0", "\7") STATUS("\3", "\7") WINDOW_WITHDRAWN("\3"));
    next(3, 2500, 100);
    show(3);
    RADIO(2505, STATUS("\0", "\7") STATUS("\3", "\7") WINDOW("\3", "\0\0\0\x64"));
    next(3, 2510, 100);
    RADIO(2515, CONTEXT("US") STATUS("\0", "\7") STATUS("\3", "\7"));
    next(3, 2520, 100);
    show(3);
    say(nespovarda_query(words, COUNT(words), out, sizeof out));

    RADIO(2530, CONTEXT("US") STATUS("\0", "\7") STATUS("\3", "\7"));
    RADIO(2540, STATUS("\0", "\7") STATUS("\3", "\7"));
    RADIO(2550, CONTEXT("US") STATUS("\0", "\7") STATUS("\3", "\7"));

    offer(3, 2560, 20000, 8);
    pace(4999);
    pace(5000);
    pace(11549);
    pace(11550);
    show(3);
    next(3, 11560, 100);
    carry(11600, 9);
    show_pacer();
    RADIO(11599, CONTEXT("US") STATUS("\0", "\7") STATUS("\3", "\7"));
    RADIO(11610, CONTEXT("US") STATUS("\0", "\7") STATUS("\3", "\x09"));
    next(3, 11620, 100);

    offers(11700, (struct offers){4, {0, 3, 3, 0}, {30000, 30000, 30000, 12000}, {40, 40, 39, 40}, {10, 11, 12, 13}, 159});
    show(0);
    offers(11710, (struct offers){2, {0, 3}, {30000, 30000}, {40, 40}, {14, 15}, 79});
    show(3);
    next(0, 11720, 100);
    next(3, 11720, 100);
    return 0;
}
