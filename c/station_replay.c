/*
 * station_replay: answers a script of the station page (docs/STATION.md) as the program `station` does, each line by calls
 * of the library alone. c/replay-stored compares the two on the stored script.
 */
#include <inttypes.h>
#include <stdbool.h>
#include <stdio.h>
#include <stdlib.h>

#include "lines.h"
#include "nespovarda_station.h"

/* What a line may hold. */
#define LARGEST_STATUS 255
#define LARGEST_LINK_LENGTH 255
#define START_WORDS 2
#define MOST_WORDS (START_WORDS + NESPOVARDA_STATION_CONFIGURATION_SLOT * MOST_READ) /* behind the first */

/* A state: no words before the first start. */
struct session {
    uint64_t *words;
    size_t words_length;
};

/* ---- Answers ---- */

/* An answer of a call that may write a message: the words for one that answers, and for none. */
static void say(nespovarda_answer answer, struct bytes out, const char *answered, const char *without)
{
    if (answer.kind == NESPOVARDA_ANSWERED && answered != NULL)
        say_message(answered, out, answer.value);
    else if (answer.kind == NESPOVARDA_UNASKED && without != NULL)
        say_message("unasked", out, answer.value);
    else if (answer.kind == NESPOVARDA_NO_MESSAGE && without != NULL && answer.value == 0)
        fputs(without, stdout);
    else
        say_refusal(answer);
}

/* ---- Lines ---- */

/* `CHANNEL KIND WATERMARK THROUGHPUT` */
static bool read_channel(const struct word *words, uint64_t *start)
{
    return read_number(words[0], LARGEST_ID, &start[NESPOVARDA_STATION_START_ID]) &&
           read_kind(words[1], &start[NESPOVARDA_STATION_START_KIND]) &&
           read_number(words[2], UINT64_MAX, &start[NESPOVARDA_STATION_START_WATERMARK]) &&
           read_number(words[3], UINT64_MAX, &start[NESPOVARDA_STATION_START_THROUGHPUT]);
}

/* `ID COUNT` and the channels */
static bool read_configuration(const struct word *words, size_t count, uint64_t *configuration)
{
    if (!read_number(words[0], LARGEST_ID, &configuration[NESPOVARDA_STATION_CONFIGURED_DATALINK]) ||
        !read_number(words[1], MOST_READ, &configuration[NESPOVARDA_STATION_CONFIGURED_COUNT]))
        return false;
    size_t channels = (size_t)configuration[NESPOVARDA_STATION_CONFIGURED_COUNT];
    if (count != START_WORDS + NESPOVARDA_STATION_CONFIGURATION_SLOT * channels)
        return false;
    uint64_t *start = configuration + NESPOVARDA_STATION_CONFIGURATION_HEAD;
    for (size_t at = START_WORDS; at < count; at += NESPOVARDA_STATION_CONFIGURATION_SLOT) {
        if (!read_channel(words + at, start))
            return false;
        start += NESPOVARDA_STATION_CONFIGURATION_SLOT;
    }
    return true;
}

/* A refused start leaves the state before it. */
static bool answer_start(struct session *session, const struct word *words, size_t count)
{
    uint64_t configuration[NESPOVARDA_STATION_CONFIGURATION_WORDS(MOST_READ)];
    if (!read_configuration(words, count, configuration))
        return false;
    size_t channels = (size_t)configuration[NESPOVARDA_STATION_CONFIGURED_COUNT];
    struct session fresh = {.words_length = (size_t)nespovarda_station_words(channels)};
    fresh.words = allocate(fresh.words_length * sizeof(uint64_t));
    nespovarda_answer answer = nespovarda_station_start(fresh.words, fresh.words_length, configuration,
                                                        NESPOVARDA_STATION_CONFIGURATION_WORDS(channels));
    if (answer.kind != NESPOVARDA_STARTED) {
        free(fresh.words);
        say_refusal(answer);
        return true;
    }
    free(session->words);
    *session = fresh;
    fputs("started", stdout);
    return true;
}

/* `hear ROOM HEX` */
static bool answer_hear(struct session *session, const struct word *words, size_t count)
{
    (void)count;
    struct bytes out, datagram;
    if (!read_room(words[0], &out) || !read_bytes(words[1], &datagram))
        return false;
    nespovarda_answer answer = nespovarda_station_hear(session->words, session->words_length, datagram.at,
                                                       datagram.length, out.at, out.length);
    say(answer, out, "answer", "heard");
    return true;
}

/* `status CHANNEL VALUE ROOM` */
static bool answer_status(struct session *session, const struct word *words, size_t count)
{
    (void)count;
    uint8_t channel;
    uint64_t value;
    struct bytes out;
    if (!read_id(words[0], &channel) || !read_number(words[1], LARGEST_STATUS, &value) || !read_room(words[2], &out))
        return false;
    nespovarda_answer answer = nespovarda_station_status(session->words, session->words_length, channel,
                                                         (uint8_t)value, out.at, out.length);
    say(answer, out, NULL, "unchanged");
    return true;
}

/* `queued CHANNEL BYTES ROOM` */
static bool answer_queued(struct session *session, const struct word *words, size_t count)
{
    (void)count;
    uint8_t channel;
    uint64_t bytes;
    struct bytes out;
    if (!read_id(words[0], &channel) || !read_number(words[1], UINT64_MAX, &bytes) || !read_room(words[2], &out))
        return false;
    nespovarda_answer answer = nespovarda_station_queued(session->words, session->words_length, channel, bytes, out.at,
                                                         out.length);
    say(answer, out, NULL, "unchanged");
    return true;
}

/* The number that bytes spell, big-endian; of more than a Context may have, that of the last. */
static uint64_t spelled(struct bytes bytes)
{
    uint64_t value = 0;
    for (size_t i = 0; i < bytes.length; i++)
        value = value << 8 | bytes.at[i];
    return value;
}

/* `context HEX ROOM`; no bytes are no Context. */
static bool answer_context(struct session *session, const struct word *words, size_t count)
{
    (void)count;
    struct bytes context, out;
    if (!read_bytes(words[0], &context) || !read_room(words[1], &out))
        return false;
    nespovarda_answer answer = nespovarda_station_context(session->words, session->words_length, spelled(context),
                                                          context.length, out.at, out.length);
    say(answer, out, NULL, "unchanged");
    return true;
}

/* `link LEN VALUE`: no number has the length 0, but 0 and 0 would say that there is no Link Instance. */
static bool answer_link(struct session *session, const struct word *words, size_t count)
{
    (void)count;
    uint64_t length, value;
    if (!read_number(words[0], LARGEST_LINK_LENGTH, &length) || !read_number(words[1], UINT64_MAX, &value))
        return false;
    if (length == 0)
        value = 1;
    nespovarda_answer answer = nespovarda_station_link(session->words, session->words_length, value, length);
    if (answer.kind == NESPOVARDA_NO_MESSAGE && answer.value == 0)
        fputs("kept", stdout);
    else
        say_refusal(answer);
    return true;
}

/* `tell ROOM` */
static bool answer_tell(struct session *session, const struct word *words, size_t count)
{
    (void)count;
    struct bytes out;
    if (!read_room(words[0], &out))
        return false;
    say(nespovarda_station_tell(session->words, session->words_length, out.at, out.length), out, "tell", NULL);
    return true;
}

static void say_window_and_highest(const uint64_t *shown)
{
    if (shown[NESPOVARDA_STATION_SHOWN_WINDOW_TAG] == NESPOVARDA_FIELD_GIVEN)
        printf(" %" PRIu64, shown[NESPOVARDA_STATION_SHOWN_WINDOW]);
    else
        fputs(shown[NESPOVARDA_STATION_SHOWN_WINDOW_TAG] == NESPOVARDA_FIELD_EMPTY ? " none" : " -", stdout);
    if (shown[NESPOVARDA_STATION_SHOWN_HIGHEST_TAG] == NESPOVARDA_STATION_HEARD)
        printf(" %" PRIu64, shown[NESPOVARDA_STATION_SHOWN_HIGHEST]);
    else
        fputs(" -", stdout);
}

/* `show CHANNEL` */
static bool answer_show(struct session *session, const struct word *words, size_t count)
{
    (void)count;
    uint8_t channel;
    uint64_t shown[NESPOVARDA_STATION_NUMBERS];
    if (!read_id(words[0], &channel))
        return false;
    nespovarda_answer answer = nespovarda_station_show(session->words, session->words_length, channel, shown);
    if (answer.kind != NESPOVARDA_SHOWN) {
        say_refusal(answer);
        return true;
    }
    printf("channel %d %" PRIu64, channel, shown[NESPOVARDA_STATION_SHOWN_STATUS]);
    say_window_and_highest(shown);
    printf(" %" PRIu64, shown[NESPOVARDA_STATION_SHOWN_QUEUED]);
    return true;
}

/* ---- The station ---- */

static const struct line LINES[] = {
    {"start", START_WORDS, MOST_WORDS, false, answer_start},
    {"hear", 2, 2, true, answer_hear},
    {"status", 3, 3, true, answer_status},
    {"queued", 3, 3, true, answer_queued},
    {"context", 2, 2, true, answer_context},
    {"link", 2, 2, true, answer_link},
    {"tell", 1, 1, true, answer_tell},
    {"show", 1, 1, true, answer_show},
};

static bool is_started(const struct session *session)
{
    return session->words != NULL;
}

int main(void)
{
    struct session session = {0};
    int failed = answer_lines(LINES, sizeof LINES / sizeof *LINES, &session, is_started);
    free(session.words);
    return failed;
}
