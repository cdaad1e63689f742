/*
 * Nespovarda: the Airborne IPS System's end of CIRI (ARINC 858 Part 3), linked as libnespovarda.a.
 *
 * The caller lends all memory. A state stands in words of 64 bits, and the waiting packets in a memory of bytes; calls
 * take both as the call before left them, and keep nothing elsewhere. The words may be copied, saved and restored with
 * the memory; what stands where in them is the library's own.
 *
 * A slice is a pointer and the number of its elements; an array (`shown`) is a pointer to that many numbers. Every call
 * takes any numbers and any bytes, and refuses what it can't take. All that is asked of a caller: each slice is memory of
 * that length, its pointer isn't null (even where the length is 0), and what a call may change overlaps no other slice of
 * the call.
 *
 * A refusal changes no word, no byte of the memory and no byte of the output or of the answers.
 *
 * Refusals and limits are those of documents 01 and 02, in their words; sections are those
 * of the draft of ARINC 858 Part 3 (docs/DECISIONS.md says what these papers are).
 *
 * The radio's end is a second library (nespovarda_station.h), whose answers, refusals and limits stand here, too.
 *
 * `include/check` compares both files with the sources that the libraries are built from.
 */
#ifndef NESPOVARDA_H
#define NESPOVARDA_H

#include <stddef.h>
#include <stdint.h>

#if SIZE_MAX != UINT64_MAX
#error "nespovarda: a length has 64 bits, as the library was proved"
#endif

#ifdef __cplusplus
extern "C" {
#endif

/* ---- Answers ---- */

/* What a call comes to: its kind, and a number where the kind has one, else 0. */
typedef struct {
    uint64_t kind;
    uint64_t value;
} nespovarda_answer;

#define NESPOVARDA_STARTED 1         /* a fresh start was made */
#define NESPOVARDA_TAKEN 2           /* the packet joined the end of its queue */
#define NESPOVARDA_SENT 3            /* a data message with the first waiting packet was written; value: its length */
#define NESPOVARDA_NOTHING_WAITING 4 /* no packet waits */
#define NESPOVARDA_NOT_OPERATIONAL 5 /* a packet waits, and the channel's status is neither 1 to 7 nor configured */
#define NESPOVARDA_WINDOW_SHUT 6     /* the first waiting packet doesn't fit the window, or there is no window */
#define NESPOVARDA_WITHDRAWN 7       /* all packets that waited on the channel were withdrawn */
#define NESPOVARDA_ACCEPTED 8        /* the message was accepted */
#define NESPOVARDA_DUE 9             /* the radio message was accepted, and a mobility message is due */
#define NESPOVARDA_OTHER_PLANE 10    /* the message is of the other plane: control read as data, or data as control */
#define NESPOVARDA_WROTE 11          /* a message was written; value: its length */
#define NESPOVARDA_SHOWN 12          /* the numbers that were asked for are given */
#define NESPOVARDA_KEPT 13           /* the Link Instance and the Context that the state keeps are given */
#define NESPOVARDA_NONE_THERE 14     /* no packet waits at that position of the queue */
#define NESPOVARDA_QUIET 15          /* no query is due, and the radio isn't silent */
#define NESPOVARDA_QUERY_DUE 16      /* a query is due: HelloTime or more has passed since the last ask answered so */
#define NESPOVARDA_SILENT 17         /* no radio control message was accepted for the silence limit or longer */
#define NESPOVARDA_QUERY_DUE_SILENT 18 /* both */
#define NESPOVARDA_PACER_SHOWN 19      /* the pacer's numbers are given */
#define NESPOVARDA_ANSWERED 20         /* the radio's message was written as the answer; value: its length */
#define NESPOVARDA_UNASKED 21          /* the radio's message was written unasked; value: its length */
#define NESPOVARDA_NO_MESSAGE 22       /* the radio's end accepted it, and there is nothing to send */
#define NESPOVARDA_OFFERED 23          /* each packet of a handful was offered, and has an answer of its own */

/*
 * From here on a kind is a refusal: this and the papers' number, so `kind - NESPOVARDA_REFUSED` is the number. The
 * value is the refusal's place in the datagram: the option's first byte for 3 to 8, the datagram's length for 9 to 11,
 * 0 for all others.
 */
#define NESPOVARDA_REFUSED 256

/* 1: datagram over 65,507 bytes */
#define NESPOVARDA_REFUSED_LONG_DATAGRAM (NESPOVARDA_REFUSED + 1)
/* 2: header cut short (the empty datagram too) or not allowed by 3.1 */
#define NESPOVARDA_REFUSED_HEADER (NESPOVARDA_REFUSED + 2)
/* 3: an option runs past the end, or its frame does */
#define NESPOVARDA_REFUSED_CUT (NESPOVARDA_REFUSED + 3)
/* 4: an option's length isn't one listed for its type */
#define NESPOVARDA_REFUSED_LENGTH (NESPOVARDA_REFUSED + 4)
/* 5: an option's Channel ID is 255, or section 3.3 gives no meaning to its value */
#define NESPOVARDA_REFUSED_VALUE (NESPOVARDA_REFUSED + 5)
/*
 * 6: a known option that this plane and direction doesn't list, or an unknown one that section 3.2 orders to be refused
 */
#define NESPOVARDA_REFUSED_UNLISTED (NESPOVARDA_REFUSED + 6)
/* 7: an option repeated where at most one may stand */
#define NESPOVARDA_REFUSED_REPEATED (NESPOVARDA_REFUSED + 7)
/* 8: an option after Packet Data */
#define NESPOVARDA_REFUSED_BEHIND_PACKET (NESPOVARDA_REFUSED + 8)
/* 9: a required option is missing */
#define NESPOVARDA_REFUSED_MISSING (NESPOVARDA_REFUSED + 9)
/* 10: Flow Sequence in a data message without Channel Identifier, or of another channel */
#define NESPOVARDA_REFUSED_UNPAIRED (NESPOVARDA_REFUSED + 10)
/* 11: Datalink ID isn't the configured one */
#define NESPOVARDA_REFUSED_OTHER_DATALINK (NESPOVARDA_REFUSED + 11)
/* 12: channel not configured */
#define NESPOVARDA_REFUSED_NO_CHANNEL (NESPOVARDA_REFUSED + 12)
/* 13: packet isn't IPv6: under 40 bytes, version not 6, or length not 40 plus its Payload Length */
#define NESPOVARDA_REFUSED_NOT_IPV6 (NESPOVARDA_REFUSED + 13)
/* 14: packet over the smaller of 9,000 bytes and the store's length */
#define NESPOVARDA_REFUSED_LONG_PACKET (NESPOVARDA_REFUSED + 14)
/* 15: time before this channel's latest */
#define NESPOVARDA_REFUSED_EARLIER_TIME (NESPOVARDA_REFUSED + 15)
/* 16: expiry not after the time given */
#define NESPOVARDA_REFUSED_EXPIRY_PAST (NESPOVARDA_REFUSED + 16)
/* 17: 32 packets wait, or waiting bytes plus this packet exceed the store */
#define NESPOVARDA_REFUSED_FULL (NESPOVARDA_REFUSED + 17)
/* 18: there is a message to write, and the output is shorter than it or it is over 65,507 bytes */
#define NESPOVARDA_REFUSED_NO_ROOM (NESPOVARDA_REFUSED + 18)
/*
 * 19: configuration: channel count, ID 255, an ID twice, no channel 0, store length, a Datalink ID without meaning in
 * 3.3.1; in any call that takes them, a state outside these limits (a configuration in it that would be refused, a kept
 * Link Instance or Context outside its lengths, a status above 15, more than 32 waiting, a waiting length outside 40 to
 * 9,000, waiting bytes over the store, a plain channel not free) or a lent memory whose length isn't the sum of the
 * stores. Here also: words that are no configuration or no state, or not as many as it needs; and in reading, an end that
 * there isn't, or other than CONTROL_WORDS or DATA_WORDS words to read into
 */
#define NESPOVARDA_REFUSED_OUTSIDE_LIMITS (NESPOVARDA_REFUSED + 19)
/*
 * 20: a meaning to be written that the lists of what each message may hold, or section 3's lengths and values, don't
 * allow (a number too big for its length too). Here also: words that say nothing, and an end that there isn't
 */
#define NESPOVARDA_REFUSED_NOT_WRITABLE (NESPOVARDA_REFUSED + 20)
/* 21: pacer time earlier than its latest */
#define NESPOVARDA_REFUSED_EARLIER_PACE (NESPOVARDA_REFUSED + 21)
/* 22: configuration: HelloTime or silence limit of 0 */
#define NESPOVARDA_REFUSED_NO_WAIT (NESPOVARDA_REFUSED + 22)
/* 23: configuration of the radio's end: watermark or throughput above MOST_ALLOWANCE, of a plain channel too */
#define NESPOVARDA_REFUSED_LARGE_ALLOWANCE (NESPOVARDA_REFUSED + 23)
/*
 * 24: not a handful: more than MOST_AT_ONCE packets, lists (answers too) of unequal count, or lengths whose sum isn't the
 * buffer's length
 */
#define NESPOVARDA_REFUSED_NOT_A_HANDFUL (NESPOVARDA_REFUSED + 24)

/* ---- Limits ---- */

#define NESPOVARDA_LONGEST_DATAGRAM 65507 /* bytes of a message */
#define NESPOVARDA_FEWEST_CHANNELS 1      /* configured channels */
#define NESPOVARDA_MOST_CHANNELS 64
#define NESPOVARDA_SHORTEST_PACKET 40 /* bytes of a packet that is offered */
#define NESPOVARDA_LONGEST_PACKET 9000 /* and no longer than the channel's store */
#define NESPOVARDA_MOST_WAITING 32     /* packets that wait on a channel */
#define NESPOVARDA_MOST_AT_ONCE 32     /* packets of a handful */
#define NESPOVARDA_SMALLEST_STORE 1500 /* bytes of a channel's store */
#define NESPOVARDA_LARGEST_STORE 65536
#define NESPOVARDA_RESERVED_CHANNEL 255 /* no Channel ID: those are 0 to 254 */
#define NESPOVARDA_CHANNEL_IDS 255      /* how many Channel IDs there are */
#define NESPOVARDA_HIGHEST_STATUS 15    /* 0: not operational; 1 to 7: operational; 8 to 15: as configured */
#define NESPOVARDA_SHORTEST_NAME 1      /* bytes of a Link Instance or of a Datalink Context */
#define NESPOVARDA_LONGEST_NAME 8
#define NESPOVARDA_MOST_ALLOWANCE 2147483647 /* bytes of the radio's watermark or throughput, and of a grant */

/* ---- The state ---- */

/* The words of a state of so many channels, where the number is known when compiling; else nespovarda_words. */
#define NESPOVARDA_STATE_HEAD 14
#define NESPOVARDA_STATE_SLOT 74
#define NESPOVARDA_STATE_WORDS(channels) (NESPOVARDA_STATE_HEAD + NESPOVARDA_STATE_SLOT * (channels))

/* A configuration: its first words, then those of each channel, in the order in which the stores stand in the memory. */
#define NESPOVARDA_CONFIGURED_DATALINK 0 /* the Datalink ID, of 8 bits */
#define NESPOVARDA_CONFIGURED_COUNT 1    /* how many channels, FEWEST_CHANNELS to MOST_CHANNELS */
#define NESPOVARDA_CONFIGURED_HELLO 2    /* HelloTime: how long from an ask answered due to the next, in milliseconds, not 0 */
#define NESPOVARDA_CONFIGURED_LIMIT 3    /* the silence limit: how long without a control message, not 0 */
#define NESPOVARDA_CONFIGURED_CODES 4    /* which statuses 8 to 15 are operational, of 8 bits: bit status - 8; 0: none */
#define NESPOVARDA_CONFIGURATION_HEAD 5  /* how many first words */
#define NESPOVARDA_START_ID 0            /* the Channel ID; one of the channels is 0, and none comes twice */
#define NESPOVARDA_START_KIND 1          /* NESPOVARDA_PLAIN or NESPOVARDA_CONTROLLED */
#define NESPOVARDA_START_FIRST 2         /* the first Flow Sequence value, of 32 bits */
#define NESPOVARDA_START_SIZE 3          /* the length of its store, SMALLEST_STORE to LARGEST_STORE */
#define NESPOVARDA_CONFIGURATION_SLOT 4  /* how many words for each channel */
#define NESPOVARDA_CONFIGURATION_WORDS(channels) \
    (NESPOVARDA_CONFIGURATION_HEAD + NESPOVARDA_CONFIGURATION_SLOT * (channels))

#define NESPOVARDA_PLAIN 0      /* always free */
#define NESPOVARDA_CONTROLLED 1 /* flow-controlled: no window until the radio says otherwise */

/* How many words a state of so many channels needs; 0 where no state has so many. */
uint64_t nespovarda_words(uint64_t channels);

/*
 * A fresh start: fills each store with zeros and writes the first state into the words, whatever stood there. The words
 * are as many as nespovarda_words says, the memory is as long as all stores together. STARTED; REFUSED by 19, 22.
 */
nespovarda_answer nespovarda_start(uint64_t *words, size_t words_length,
                                   uint8_t *memory, size_t memory_length,
                                   const uint64_t *configuration, size_t configuration_length);

/*
 * Offers an IPv6 packet with an expiry time, which joins the end of the channel's queue. Times are whole milliseconds.
 * Every packet of the channel whose expiry is at or before the time given is expired first. TAKEN; REFUSED by 19, 12,
 * 13, 14, 15, 16, 17.
 */
nespovarda_answer nespovarda_offer(uint64_t *words, size_t words_length,
                                   uint8_t *memory, size_t memory_length,
                                   uint8_t channel,
                                   const uint8_t *packet, size_t packet_length,
                                   uint64_t expiry, uint64_t time);

/*
 * Offers a handful: up to MOST_AT_ONCE packets, which stand end to end in one buffer, each with its channel, its expiry and
 * its length; one time for all. Answers, stores and state equal those of offering one by one in that order, refused ones
 * included. OFFERED, with an answer for each packet: 0 where it is taken, else its number of refusal, 12 to 17. REFUSED
 * as a whole by 19, 24, with nothing taken and every answer as it was.
 */
nespovarda_answer nespovarda_offers(uint64_t *words, size_t words_length,
                                    uint8_t *memory, size_t memory_length,
                                    const uint8_t *channels, size_t channels_length,
                                    const uint64_t *expiries, size_t expiries_length,
                                    const uint64_t *lengths, size_t lengths_length,
                                    const uint8_t *packets, size_t packets_length,
                                    uint64_t time,
                                    uint8_t *answers, size_t answers_length);

/*
 * Asks for the next message: writes a data message with the first waiting packet into the output, if the status is
 * operational (1 to 7, or configured) and the channel is free or the packet fits the window. Bytes behind the message
 * stay. Packets expire as in an Offer.
 * SENT; else, tried in this order, NOTHING_WAITING, NOT_OPERATIONAL, WINDOW_SHUT, which are no refusals and leave the
 * output as it stood; REFUSED by 19, 12, 15, 18.
 */
nespovarda_answer nespovarda_next(uint64_t *words, size_t words_length,
                                  uint8_t *memory, size_t memory_length,
                                  uint8_t channel, uint64_t time,
                                  uint8_t *out, size_t out_length);

/* Withdraws all packets waiting on the channel. WITHDRAWN; REFUSED by 19, 12. */
nespovarda_answer nespovarda_withdraw(uint64_t *words, size_t words_length,
                                      uint8_t *memory, size_t memory_length,
                                      uint8_t channel);

/*
 * Hands in a datagram from the radio at a time of the pacer's clock: Channel Status, Flow Windows, Link Instance and
 * Context of a control message, and a silence runs anew from it; an accepted data message moves the clock and changes
 * nothing else, and its packet is had from nespovarda_read_data. ACCEPTED; DUE where the Context is the first, differs
 * from the last one received, or follows an accepted control message without one; REFUSED by 19, 21, then 1 to 11.
 */
nespovarda_answer nespovarda_radio(uint64_t *words, size_t words_length,
                                   uint64_t time,
                                   const uint8_t *datagram, size_t datagram_length);

/*
 * Asks the pacer at a time: is a query due, to be written by nespovarda_query, and is the radio silent? In a silence
 * every channel becomes not reported and every flow-controlled one has no window; packets stay waiting. One clock serves
 * this call and nespovarda_radio, and both waits first run from 0. QUIET, QUERY_DUE, SILENT, QUERY_DUE_SILENT; REFUSED
 * by 19, 21.
 */
nespovarda_answer nespovarda_pace(uint64_t *words, size_t words_length,
                                  uint64_t time);

/*
 * Writes the IPS control message with a Flow Sequence for each flow-controlled channel; changes no state. WROTE; REFUSED
 * by 19, 18.
 */
nespovarda_answer nespovarda_query(const uint64_t *words, size_t words_length,
                                   uint8_t *out, size_t out_length);

/* ---- What stands in a state ---- */

/* What nespovarda_show gives of a channel. */
#define NESPOVARDA_SHOWN_REPORTED 0     /* 1 where the last control message named it and no silence followed, else 0 */
#define NESPOVARDA_SHOWN_STATUS 1       /* its status, 0 where it isn't reported */
#define NESPOVARDA_SHOWN_FLOW 2         /* NESPOVARDA_FREE, NESPOVARDA_NO_WINDOW or NESPOVARDA_IN_FORCE */
#define NESPOVARDA_SHOWN_WINDOW 3       /* the window in force, else 0 */
#define NESPOVARDA_SHOWN_SEQUENCE 4     /* its Flow Sequence */
#define NESPOVARDA_SHOWN_LATEST 5       /* the time of its last accepted Offer or Next, 0 when fresh */
#define NESPOVARDA_SHOWN_WAITING 6      /* how many packets wait */
#define NESPOVARDA_SHOWN_STORE_START 7  /* where its store starts in the memory */
#define NESPOVARDA_SHOWN_STORE_LENGTH 8 /* how long its store is */
#define NESPOVARDA_CHANNEL_NUMBERS 9

#define NESPOVARDA_FREE 0      /* packets go without a window */
#define NESPOVARDA_NO_WINDOW 1 /* no packet goes */
#define NESPOVARDA_IN_FORCE 2  /* a packet goes if it fits the window */

/* What nespovarda_waiting gives of a packet. */
#define NESPOVARDA_WAITING_LENGTH 0 /* how many bytes it has */
#define NESPOVARDA_WAITING_EXPIRY 1 /* when it expires */
#define NESPOVARDA_WAITING_NUMBERS 2

/* What nespovarda_kept gives of a state. */
#define NESPOVARDA_KEPT_LINK_LENGTH 0    /* bytes of the Link Instance last given, 1 to 8; 0: none */
#define NESPOVARDA_KEPT_LINK 1           /* its number */
#define NESPOVARDA_KEPT_CONTEXT_LENGTH 2 /* bytes of the last accepted control message's Context, 1 to 8; 0: none */
#define NESPOVARDA_KEPT_CONTEXT 3        /* the number that its bytes spell, big-endian */
#define NESPOVARDA_KEPT_NUMBERS 4

/* What nespovarda_pacer gives of a state; times are 0 when fresh. */
#define NESPOVARDA_PACER_HELLO 0 /* HelloTime as configured */
#define NESPOVARDA_PACER_LIMIT 1 /* the silence limit as configured */
#define NESPOVARDA_PACER_CLOCK 2 /* the time last taken, of a radio message or of an ask */
#define NESPOVARDA_PACER_DUE 3   /* when the pacer last answered that a query is due */
#define NESPOVARDA_PACER_HEARD 4 /* when a radio control message was last accepted */
#define NESPOVARDA_PACER_NUMBERS 5

/* Shows a channel. SHOWN; REFUSED by 19, 12, the numbers as they were. */
nespovarda_answer nespovarda_show(const uint64_t *words, size_t words_length,
                                  uint8_t channel,
                                  uint64_t shown[NESPOVARDA_CHANNEL_NUMBERS]);

/*
 * Shows the packet that waits at a position of a channel's queue, 0 the first. SHOWN; NONE_THERE where none does;
 * REFUSED by 19, 12; the numbers as they were but for SHOWN.
 */
nespovarda_answer nespovarda_waiting(const uint64_t *words, size_t words_length,
                                     uint8_t channel, uint64_t position,
                                     uint64_t shown[NESPOVARDA_WAITING_NUMBERS]);

/* Shows what the state keeps of radio messages. KEPT; REFUSED by 19, the numbers as they were. */
nespovarda_answer nespovarda_kept(const uint64_t *words, size_t words_length,
                                  uint64_t shown[NESPOVARDA_KEPT_NUMBERS]);

/* Shows the pacer. PACER_SHOWN; REFUSED by 19, the numbers as they were. */
nespovarda_answer nespovarda_pacer(const uint64_t *words, size_t words_length,
                                   uint64_t shown[NESPOVARDA_PACER_NUMBERS]);

/* ---- Messages ---- */

/* Which end sends a message. */
#define NESPOVARDA_IPS_END 0
#define NESPOVARDA_RADIO_END 1

/*
 * Tags of what a message may state: the words behind a tag count only where it is given. A Flow Window may be there
 * without the field: no window, which isn't window 0.
 */
#define NESPOVARDA_ABSENT 0
#define NESPOVARDA_GIVEN 1
#define NESPOVARDA_FIELD_EMPTY 1 /* a Flow Window without the field */
#define NESPOVARDA_FIELD_GIVEN 2 /* a Flow Window with it */

/* The meaning of a control message: its first words, then those of each Channel ID from 0 on. */
#define NESPOVARDA_DATALINK_TAG 0 /* the Datalink ID; the first two words of a data message, too */
#define NESPOVARDA_DATALINK_VALUE 1
#define NESPOVARDA_INSTANCE_TAG 2 /* the Link Instance: its number, and how many bytes it has, 1 to 8 */
#define NESPOVARDA_INSTANCE_VALUE 3
#define NESPOVARDA_INSTANCE_LENGTH 4
#define NESPOVARDA_CONTEXT_TAG 5 /* the Datalink Context: the number that its bytes spell, big-endian, and how many */
#define NESPOVARDA_CONTEXT_VALUE 6
#define NESPOVARDA_CONTEXT_LENGTH 7
#define NESPOVARDA_CONTROL_HEAD 8 /* how many first words */
#define NESPOVARDA_STATUS_TAG 0   /* the channel's Status, up to HIGHEST_STATUS */
#define NESPOVARDA_STATUS_VALUE 1
#define NESPOVARDA_SEQUENCE_TAG 2 /* the channel's Flow Sequence, of 32 bits */
#define NESPOVARDA_SEQUENCE_VALUE 3
#define NESPOVARDA_WINDOW_TAG 4 /* the channel's Flow Window, of 32 bits: absent, without the field, or with it */
#define NESPOVARDA_WINDOW_VALUE 5
#define NESPOVARDA_CHANNEL_WORDS 6 /* how many words for each Channel ID */
#define NESPOVARDA_CONTROL_WORDS (NESPOVARDA_CONTROL_HEAD + NESPOVARDA_CHANNEL_WORDS * NESPOVARDA_CHANNEL_IDS)

/* The parts of a data message, behind the two words of its Datalink ID. */
#define NESPOVARDA_COUNTED_TAG 2 /* the Flow Sequence: its channel, and the sequence of 32 bits */
#define NESPOVARDA_COUNTED_CHANNEL 3
#define NESPOVARDA_COUNTED_SEQUENCE 4
#define NESPOVARDA_CHANNEL_TAG 5 /* the Channel Identifier */
#define NESPOVARDA_CHANNEL_VALUE 6
#define NESPOVARDA_EXPIRATION_TAG 7 /* the Expiration Time, of 32 bits and not 0 */
#define NESPOVARDA_EXPIRATION_VALUE 8
#define NESPOVARDA_PACKET_START 9 /* where the packet starts in the datagram that was read; passed over when written */
#define NESPOVARDA_PACKET_LENGTH 10 /* how many bytes it has; passed over when written */
#define NESPOVARDA_DATA_WORDS 11

/*
 * Reads a control message that `end` sent, for a reader configured with a Datalink ID, into CONTROL_WORDS words.
 * ACCEPTED; OTHER_PLANE for a data message; REFUSED by 19, then 1 to 11. Anything but ACCEPTED leaves the words as they
 * were.
 */
nespovarda_answer nespovarda_read_control(const uint8_t *datagram, size_t datagram_length,
                                          uint8_t end, uint8_t datalink,
                                          uint64_t *meaning, size_t meaning_length);

/* Reads a data message in the same way into DATA_WORDS words; the packet is that stretch of the datagram. */
nespovarda_answer nespovarda_read_data(const uint8_t *datagram, size_t datagram_length,
                                       uint8_t end, uint8_t datalink,
                                       uint64_t *parts, size_t parts_length);

/*
 * Writes a control message of `end` with that meaning into the output; bytes behind the message stay. WROTE; REFUSED by
 * 20, 18.
 */
nespovarda_answer nespovarda_write_control(uint8_t end,
                                           const uint64_t *meaning, size_t meaning_length,
                                           uint8_t *out, size_t out_length);

/* Writes a data message in the same way, with that packet. */
nespovarda_answer nespovarda_write_data(uint8_t end,
                                        const uint64_t *parts, size_t parts_length,
                                        const uint8_t *packet, size_t packet_length,
                                        uint8_t *out, size_t out_length);

#ifdef __cplusplus
}
#endif

#endif
