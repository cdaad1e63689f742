/*
 * Nespovarda: the radio's end of CIRI (ARINC 858 Part 3), linked as libnespovarda_station.a.
 *
 * The caller lends all memory: a state stands in words of 64 bits, which each call takes as the call before left them;
 * nothing is kept elsewhere. The words may be copied, saved and restored; what stands where in them is the library's own.
 * Slices, and what is asked of a caller, are as in nespovarda.h, which has the answers, the refusals and the limits. Both
 * libraries may be linked into one program.
 *
 * A message is the radio's control message as the state has it: Datalink Identifier; Link Instance and Context where there
 * are such; the Channel Status of every channel; the Flow Window of every flow-controlled one, by rising Channel ID. It
 * stands at the output's start, and the bytes behind it stay.
 *
 * A Flow Window has no field until a sequence was heard on its channel. Then it is the highest sequence heard and, on top,
 * watermark plus throughput minus the bytes queued: none where more are queued, at most MOST_ALLOWANCE, in 32 bits.
 *
 * A refusal changes no word and no byte of the output. 19 is given for words that are no configuration or no state, or not
 * as many as it needs; for a channel count, ID 255, an ID twice, no channel 0; in a state also for what 23 refuses, a
 * status above 15, and a Link Instance or Context outside its lengths.
 *
 * `include/check` compares this file with the sources that the library is built from.
 */
#ifndef NESPOVARDA_STATION_H
#define NESPOVARDA_STATION_H

#include "nespovarda.h"

#ifdef __cplusplus
extern "C" {
#endif

/* ---- The state ---- */

/* The words of a state of so many channels, where the number is known when compiling; else nespovarda_station_words. */
#define NESPOVARDA_STATION_STATE_HEAD 8
#define NESPOVARDA_STATION_STATE_SLOT 8
#define NESPOVARDA_STATION_STATE_WORDS(channels) \
    (NESPOVARDA_STATION_STATE_HEAD + NESPOVARDA_STATION_STATE_SLOT * (channels))

/* A configuration: its first words, then those of each channel. */
#define NESPOVARDA_STATION_CONFIGURED_DATALINK 0 /* the Datalink ID, of 8 bits */
#define NESPOVARDA_STATION_CONFIGURED_COUNT 1    /* how many channels, FEWEST_CHANNELS to MOST_CHANNELS */
#define NESPOVARDA_STATION_CONFIGURATION_HEAD 2  /* how many first words */
#define NESPOVARDA_STATION_START_ID 0            /* the Channel ID; one of the channels is 0, and none comes twice */
#define NESPOVARDA_STATION_START_KIND 1          /* NESPOVARDA_PLAIN or NESPOVARDA_CONTROLLED */
#define NESPOVARDA_STATION_START_WATERMARK 2     /* the bytes that may be queued, up to MOST_ALLOWANCE */
#define NESPOVARDA_STATION_START_THROUGHPUT 3    /* the bytes that go out in a period, up to MOST_ALLOWANCE */
#define NESPOVARDA_STATION_CONFIGURATION_SLOT 4  /* how many words for each channel */
#define NESPOVARDA_STATION_CONFIGURATION_WORDS(channels) \
    (NESPOVARDA_STATION_CONFIGURATION_HEAD + NESPOVARDA_STATION_CONFIGURATION_SLOT * (channels))

/* How many words a state of so many channels needs; 0 where no state has so many. */
uint64_t nespovarda_station_words(uint64_t channels);

/*
 * A fresh start, written into the words, whatever stood there: every status 0, nothing queued, no sequence heard, no Link
 * Instance and no Context. The words are as many as nespovarda_station_words says. STARTED; REFUSED by 19, 23.
 */
nespovarda_answer nespovarda_station_start(uint64_t *words, size_t words_length,
                                           const uint64_t *configuration, size_t configuration_length);

/*
 * Hears a datagram of the IPS end. Each Flow Sequence of a flow-controlled channel becomes the highest where none was
 * heard before or it lies ahead of the highest; a packet's length is added to the bytes queued on its channel (channel 0
 * where it names none), which are held at the largest number of 64 bits. ANSWERED for a control message, with windows as
 * they are after hearing; for a data message UNASKED where a window changed, else NO_MESSAGE. REFUSED by 19, then 1 to
 * 11, then 12 where it names a channel that isn't configured, then 18 where there is a message to write.
 */
nespovarda_answer nespovarda_station_hear(uint64_t *words, size_t words_length,
                                          const uint8_t *datagram, size_t datagram_length,
                                          uint8_t *out, size_t out_length);

/*
 * The channel has this status from here on. UNASKED where that differs from before, else NO_MESSAGE; REFUSED by 19, 12,
 * 20 (above HIGHEST_STATUS), 18.
 */
nespovarda_answer nespovarda_station_status(uint64_t *words, size_t words_length,
                                            uint8_t channel, uint8_t value,
                                            uint8_t *out, size_t out_length);

/*
 * So many bytes are queued on the channel. UNASKED where its window changed by that, else NO_MESSAGE; the number is kept
 * in both cases. REFUSED by 19, 12, 18.
 */
nespovarda_answer nespovarda_station_queued(uint64_t *words, size_t words_length,
                                            uint8_t channel, uint64_t bytes,
                                            uint8_t *out, size_t out_length);

/*
 * The Context is this one from here on: the number that its bytes spell, big-endian, and how many they are, 1 to 8; 0 and
 * 0: there is none. UNASKED where that differs from before, else NO_MESSAGE; REFUSED by 19, 20, 18.
 */
nespovarda_answer nespovarda_station_context(uint64_t *words, size_t words_length,
                                             uint64_t value, uint64_t length,
                                             uint8_t *out, size_t out_length);

/*
 * The Link Instance is this number, written in so many bytes, 1 to 8; 0 and 0: there is none. It is told with the next
 * message. NO_MESSAGE; REFUSED by 19, 20.
 */
nespovarda_answer nespovarda_station_link(uint64_t *words, size_t words_length,
                                          uint64_t value, uint64_t length);

/* Writes the message as the state has it; changes no state. ANSWERED; REFUSED by 19, 18. */
nespovarda_answer nespovarda_station_tell(const uint64_t *words, size_t words_length,
                                          uint8_t *out, size_t out_length);

/* ---- What stands in a state ---- */

/* What nespovarda_station_show gives of a channel. */
#define NESPOVARDA_STATION_SHOWN_STATUS 0      /* its status */
#define NESPOVARDA_STATION_SHOWN_WINDOW_TAG 1  /* NESPOVARDA_ABSENT if plain, NESPOVARDA_FIELD_EMPTY or _FIELD_GIVEN */
#define NESPOVARDA_STATION_SHOWN_WINDOW 2      /* its window with the field given, else 0 */
#define NESPOVARDA_STATION_SHOWN_HIGHEST_TAG 3 /* NESPOVARDA_STATION_UNHEARD or NESPOVARDA_STATION_HEARD */
#define NESPOVARDA_STATION_SHOWN_HIGHEST 4     /* the highest sequence heard, else 0 */
#define NESPOVARDA_STATION_SHOWN_QUEUED 5      /* the bytes queued on it */
#define NESPOVARDA_STATION_NUMBERS 6

#define NESPOVARDA_STATION_UNHEARD 0 /* no sequence was heard, which isn't sequence 0 */
#define NESPOVARDA_STATION_HEARD 1

/* Shows a channel. SHOWN; REFUSED by 19, 12, the numbers as they were. */
nespovarda_answer nespovarda_station_show(const uint64_t *words, size_t words_length,
                                          uint8_t channel,
                                          uint64_t shown[NESPOVARDA_STATION_NUMBERS]);

#ifdef __cplusplus
}
#endif

#endif
