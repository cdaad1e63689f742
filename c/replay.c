/*
 * replay: answers a script of the session page (docs/SESSION.md) as the program `session` does, each line by calls of the
 * library alone. c/replay-stored compares the two on the stored script.
 */
#include <inttypes.h>
#include <stdbool.h>
#include <stdio.h>
#include <stdlib.h>

#include "lines.h"
#include "nespovarda.h"

/* What a line may hold. */
#define LARGEST_SEQUENCE 4294967295u
#define LARGEST_MASK 255
#define START_WORDS 2
#define MEMORY_WORDS 2
#define PACE_WORDS 3
#define CODES_WORDS 2
#define MOST_WORDS \
    (START_WORDS + NESPOVARDA_CONFIGURATION_SLOT * MOST_READ + MEMORY_WORDS + PACE_WORDS + CODES_WORDS) /* behind the first */
#define COUNT_WORDS 2 /* of each list of a handful, before its numbers */
#define ANSWERS_WORDS 3
#define LEAST_OFFERS (1 + 3 * COUNT_WORDS + ANSWERS_WORDS)
#define MOST_OFFERS (LEAST_OFFERS + 3 * MOST_READ)
#define NO_ANSWER 255 /* what an answer's byte is before the call: no number of refusal */
#define HELLO 5000 /* where a start says nothing of the pacer */
#define LIMIT 9000

/* A state and its memory: no words before the first start. */
struct session {
    uint64_t *words;
    size_t words_length;
    uint8_t *memory;
    size_t memory_length;
};

static bool read_end(struct word word, uint8_t *end)
{
    *end = is(word, "radio") ? NESPOVARDA_RADIO_END : NESPOVARDA_IPS_END;
    return is(word, "ips") || is(word, "radio");
}

/* ---- Answers ---- */

/* An answer without a message. */
static void say(nespovarda_answer answer)
{
    static const char *const words[] = {
        [NESPOVARDA_STARTED] = "started",
        [NESPOVARDA_TAKEN] = "taken",
        [NESPOVARDA_NOTHING_WAITING] = "nothing waiting",
        [NESPOVARDA_NOT_OPERATIONAL] = "not operational",
        [NESPOVARDA_WINDOW_SHUT] = "window shut",
        [NESPOVARDA_WITHDRAWN] = "withdrawn",
        [NESPOVARDA_ACCEPTED] = "accepted",
        [NESPOVARDA_DUE] = "accepted due",
        [NESPOVARDA_QUIET] = "quiet",
        [NESPOVARDA_QUERY_DUE] = "due",
        [NESPOVARDA_SILENT] = "silent",
        [NESPOVARDA_QUERY_DUE_SILENT] = "due silent",
        [NESPOVARDA_OFFERED] = "offered",
    };
    if (answer.kind < sizeof words / sizeof *words && words[answer.kind] != NULL && answer.value == 0)
        fputs(words[answer.kind], stdout);
    else
        say_refusal(answer);
}

/* An answer of a kind that has a message in the output, behind a word; or another one. */
static void say_written(nespovarda_answer answer, uint64_t kind, const char *word, struct bytes out)
{
    if (answer.kind == kind)
        say_message(word, out, answer.value);
    else
        say(answer);
}

static void say_link(uint64_t length, uint64_t value)
{
    printf(" link %" PRIu64 " %" PRIu64, length, value);
}

/* A Context is given as the number that its bytes spell, big-endian. */
static void say_context(uint64_t length, uint64_t value)
{
    uint8_t bytes[NESPOVARDA_LONGEST_NAME];
    if (length > sizeof bytes)
        abort();
    for (uint64_t i = 0; i < length; i++)
        bytes[i] = (uint8_t)(value >> 8 * (length - 1 - i));
    fputs(" context ", stdout);
    say_bytes(bytes, (size_t)length);
}

/* ---- Lines about messages ---- */

/* A message that was read: its meaning, or its parts where it is a data message. */
struct message {
    struct bytes datagram;
    uint8_t end;
    uint8_t datalink;
    bool is_data;
    uint64_t *meaning;
    uint64_t *parts;
};

/* `END ID HEX` */
static bool read_words(const struct word *words, struct message *message)
{
    return read_end(words[0], &message->end) && read_id(words[1], &message->datalink) &&
           read_bytes(words[2], &message->datagram);
}

static nespovarda_answer read_message(struct message *message)
{
    struct bytes datagram = message->datagram;
    message->meaning = lend(NESPOVARDA_CONTROL_WORDS * sizeof(uint64_t));
    message->parts = lend(NESPOVARDA_DATA_WORDS * sizeof(uint64_t));
    nespovarda_answer answer = nespovarda_read_control(datagram.at, datagram.length, message->end, message->datalink,
                                                       message->meaning, NESPOVARDA_CONTROL_WORDS);
    message->is_data = answer.kind == NESPOVARDA_OTHER_PLANE;
    if (!message->is_data)
        return answer;
    return nespovarda_read_data(datagram.at, datagram.length, message->end, message->datalink, message->parts,
                                NESPOVARDA_DATA_WORDS);
}

/* The packet of a data message that was read: a stretch of its datagram. */
static struct bytes packet_of(const struct message *message)
{
    uint64_t start = message->parts[NESPOVARDA_PACKET_START];
    uint64_t length = message->parts[NESPOVARDA_PACKET_LENGTH];
    if (start > message->datagram.length || length > message->datagram.length - start)
        abort();
    return (struct bytes){message->datagram.at + start, (size_t)length};
}

/* What is stated of each Channel ID under one tag. */
static void say_channels(const uint64_t *meaning, const char *word, size_t tag, size_t value, bool is_window)
{
    const uint64_t *of = meaning + NESPOVARDA_CONTROL_HEAD;
    for (int id = 0; id < NESPOVARDA_CHANNEL_IDS; id++, of += NESPOVARDA_CHANNEL_WORDS) {
        if (of[tag] == NESPOVARDA_ABSENT)
            continue;
        if (is_window && of[tag] == NESPOVARDA_FIELD_EMPTY)
            printf(" %s %d none", word, id);
        else
            printf(" %s %d %" PRIu64, word, id, of[value]);
    }
}

static void say_control(const uint64_t *meaning)
{
    printf("control %" PRIu64, meaning[NESPOVARDA_DATALINK_VALUE]);
    if (meaning[NESPOVARDA_INSTANCE_TAG] == NESPOVARDA_GIVEN)
        say_link(meaning[NESPOVARDA_INSTANCE_LENGTH], meaning[NESPOVARDA_INSTANCE_VALUE]);
    if (meaning[NESPOVARDA_CONTEXT_TAG] == NESPOVARDA_GIVEN)
        say_context(meaning[NESPOVARDA_CONTEXT_LENGTH], meaning[NESPOVARDA_CONTEXT_VALUE]);
    say_channels(meaning, "status", NESPOVARDA_STATUS_TAG, NESPOVARDA_STATUS_VALUE, false);
    say_channels(meaning, "sequence", NESPOVARDA_SEQUENCE_TAG, NESPOVARDA_SEQUENCE_VALUE, false);
    say_channels(meaning, "window", NESPOVARDA_WINDOW_TAG, NESPOVARDA_WINDOW_VALUE, true);
}

static void say_data(const struct message *message)
{
    const uint64_t *parts = message->parts;
    struct bytes packet = packet_of(message);
    printf("data %" PRIu64, parts[NESPOVARDA_DATALINK_VALUE]);
    if (parts[NESPOVARDA_COUNTED_TAG] == NESPOVARDA_GIVEN)
        printf(" sequence %" PRIu64 " %" PRIu64, parts[NESPOVARDA_COUNTED_CHANNEL], parts[NESPOVARDA_COUNTED_SEQUENCE]);
    if (parts[NESPOVARDA_CHANNEL_TAG] == NESPOVARDA_GIVEN)
        printf(" channel %" PRIu64, parts[NESPOVARDA_CHANNEL_VALUE]);
    if (parts[NESPOVARDA_EXPIRATION_TAG] == NESPOVARDA_GIVEN)
        printf(" expiration %" PRIu64, parts[NESPOVARDA_EXPIRATION_VALUE]);
    fputs(" packet ", stdout);
    say_bytes(packet.at, packet.length);
}

/* `read END ID HEX` */
static bool answer_read(struct session *session, const struct word *words, size_t count)
{
    (void)session, (void)count;
    struct message message;
    if (!read_words(words, &message))
        return false;
    nespovarda_answer answer = read_message(&message);
    if (answer.kind != NESPOVARDA_ACCEPTED)
        say(answer);
    else if (message.is_data)
        say_data(&message);
    else
        say_control(message.meaning);
    return true;
}

static nespovarda_answer write_message(const struct message *message, uint8_t end, struct bytes out)
{
    if (!message->is_data)
        return nespovarda_write_control(end, message->meaning, NESPOVARDA_CONTROL_WORDS, out.at, out.length);
    struct bytes packet = packet_of(message);
    return nespovarda_write_data(end, message->parts, NESPOVARDA_DATA_WORDS, packet.at, packet.length, out.at, out.length);
}

/* `echo END ID HEX END2 ROOM` */
static bool answer_echo(struct session *session, const struct word *words, size_t count)
{
    (void)session, (void)count;
    struct message message;
    uint8_t end;
    struct bytes out;
    if (!read_words(words, &message) || !read_end(words[3], &end) || !read_room(words[4], &out))
        return false;
    nespovarda_answer answer = read_message(&message);
    if (answer.kind == NESPOVARDA_ACCEPTED)
        answer = write_message(&message, end, out);
    say_written(answer, NESPOVARDA_WROTE, "written", out);
    return true;
}

/* ---- Lines about a state ---- */

/* `CHANNEL KIND FIRST STORE` */
static bool read_channel(const struct word *words, uint64_t *start)
{
    return read_number(words[0], LARGEST_ID, &start[NESPOVARDA_START_ID]) &&
           read_kind(words[1], &start[NESPOVARDA_START_KIND]) &&
           read_number(words[2], LARGEST_SEQUENCE, &start[NESPOVARDA_START_FIRST]) &&
           read_number(words[3], LARGEST_LENGTH, &start[NESPOVARDA_START_SIZE]);
}

/* Nothing, or `codes MASK` */
static bool read_codes(const struct word *words, size_t count, uint64_t *configuration)
{
    configuration[NESPOVARDA_CONFIGURED_CODES] = 0;
    return count == 0 || (count == CODES_WORDS && is(words[0], "codes") &&
                          read_number(words[1], LARGEST_MASK, &configuration[NESPOVARDA_CONFIGURED_CODES]));
}

/* Perhaps `pace HELLO LIMIT`, and perhaps `codes MASK` behind it. */
static bool read_pace(const struct word *words, size_t count, uint64_t *configuration)
{
    configuration[NESPOVARDA_CONFIGURED_HELLO] = HELLO;
    configuration[NESPOVARDA_CONFIGURED_LIMIT] = LIMIT;
    if (count < PACE_WORDS || !is(words[0], "pace"))
        return read_codes(words, count, configuration);
    return read_number(words[1], UINT64_MAX, &configuration[NESPOVARDA_CONFIGURED_HELLO]) &&
           read_number(words[2], UINT64_MAX, &configuration[NESPOVARDA_CONFIGURED_LIMIT]) &&
           read_codes(words + PACE_WORDS, count - PACE_WORDS, configuration);
}

/* Perhaps `memory LEN`, and perhaps more behind it. */
static bool read_memory(const struct word *words, size_t count, uint64_t *configuration, uint64_t *length)
{
    if (count < MEMORY_WORDS || !is(words[0], "memory"))
        return read_pace(words, count, configuration);
    return read_number(words[1], LARGEST_LENGTH, length) &&
           read_pace(words + MEMORY_WORDS, count - MEMORY_WORDS, configuration);
}

/* `ID COUNT`, the channels, and perhaps more: how long the memory is. */
static bool read_configuration(const struct word *words, size_t count, uint64_t *configuration, uint64_t *memory)
{
    if (!read_number(words[0], LARGEST_ID, &configuration[NESPOVARDA_CONFIGURED_DATALINK]) ||
        !read_number(words[1], MOST_READ, &configuration[NESPOVARDA_CONFIGURED_COUNT]))
        return false;
    size_t behind = START_WORDS + NESPOVARDA_CONFIGURATION_SLOT * (size_t)configuration[NESPOVARDA_CONFIGURED_COUNT];
    if (count < behind)
        return false;
    *memory = 0;
    uint64_t *start = configuration + NESPOVARDA_CONFIGURATION_HEAD;
    for (size_t at = START_WORDS; at < behind; at += NESPOVARDA_CONFIGURATION_SLOT) {
        if (!read_channel(words + at, start))
            return false;
        *memory += start[NESPOVARDA_START_SIZE];
        start += NESPOVARDA_CONFIGURATION_SLOT;
    }
    return read_memory(words + behind, count - behind, configuration, memory);
}

static void forget(struct session *session)
{
    free(session->words);
    free(session->memory);
}

/* A refused start leaves the state before it. */
static bool answer_start(struct session *session, const struct word *words, size_t count)
{
    uint64_t configuration[NESPOVARDA_CONFIGURATION_WORDS(MOST_READ)];
    uint64_t memory;
    if (!read_configuration(words, count, configuration, &memory))
        return false;
    size_t channels = (size_t)configuration[NESPOVARDA_CONFIGURED_COUNT];
    struct session fresh = {.words_length = (size_t)nespovarda_words(channels), .memory_length = (size_t)memory};
    fresh.words = allocate(fresh.words_length * sizeof(uint64_t));
    fresh.memory = allocate(fresh.memory_length);
    nespovarda_answer answer = nespovarda_start(fresh.words, fresh.words_length, fresh.memory, fresh.memory_length,
                                                configuration, NESPOVARDA_CONFIGURATION_WORDS(channels));
    if (answer.kind == NESPOVARDA_STARTED) {
        forget(session);
        *session = fresh;
    } else {
        forget(&fresh);
    }
    say(answer);
    return true;
}

/* `offer CHANNEL NOW EXPIRY HEX` */
static bool answer_offer(struct session *session, const struct word *words, size_t count)
{
    (void)count;
    uint8_t channel;
    uint64_t now, expiry;
    struct bytes packet;
    if (!read_id(words[0], &channel) || !read_number(words[1], UINT64_MAX, &now) ||
        !read_number(words[2], UINT64_MAX, &expiry) || !read_bytes(words[3], &packet))
        return false;
    say(nespovarda_offer(session->words, session->words_length, session->memory, session->memory_length, channel, packet.at,
                         packet.length, expiry, now));
    return true;
}

/* Packets to be offered at once. */
struct handful {
    uint8_t *channels;
    uint64_t *expiries;
    uint64_t *lengths;
    uint8_t *answers;
    uint64_t channels_length, expiries_length, lengths_length, answers_length;
    struct bytes packets;
};

/* `WORD COUNT`, where so many more words are left behind them. */
static bool read_count(const struct word *words, size_t count, const char *word, uint64_t *behind)
{
    return count >= COUNT_WORDS && is(words[0], word) && read_number(words[1], MOST_READ, behind) &&
           *behind <= count - COUNT_WORDS;
}

/* `answers COUNT HEX` */
static bool read_answers(const struct word *words, size_t count, struct handful *handful)
{
    if (count != ANSWERS_WORDS || !is(words[0], "answers") || !read_number(words[1], MOST_READ, &handful->answers_length))
        return false;
    handful->answers = lend((size_t)handful->answers_length);
    for (uint64_t i = 0; i < handful->answers_length; i++)
        handful->answers[i] = NO_ANSWER;
    return read_bytes(words[2], &handful->packets);
}

/* `lengths COUNT LENGTH..`, and the answers behind them. */
static bool read_lengths(const struct word *words, size_t count, struct handful *handful)
{
    if (!read_count(words, count, "lengths", &handful->lengths_length))
        return false;
    handful->lengths = lend((size_t)handful->lengths_length * sizeof(uint64_t));
    words += COUNT_WORDS;
    for (uint64_t i = 0; i < handful->lengths_length; i++)
        if (!read_number(*words++, LARGEST_LENGTH, &handful->lengths[i]))
            return false;
    return read_answers(words, count - COUNT_WORDS - (size_t)handful->lengths_length, handful);
}

/* `expiries COUNT EXPIRY..`, and the lengths behind them. */
static bool read_expiries(const struct word *words, size_t count, struct handful *handful)
{
    if (!read_count(words, count, "expiries", &handful->expiries_length))
        return false;
    handful->expiries = lend((size_t)handful->expiries_length * sizeof(uint64_t));
    words += COUNT_WORDS;
    for (uint64_t i = 0; i < handful->expiries_length; i++)
        if (!read_number(*words++, UINT64_MAX, &handful->expiries[i]))
            return false;
    return read_lengths(words, count - COUNT_WORDS - (size_t)handful->expiries_length, handful);
}

/* `channels COUNT CHANNEL..`, and the expiries behind them. */
static bool read_handful(const struct word *words, size_t count, struct handful *handful)
{
    if (!read_count(words, count, "channels", &handful->channels_length))
        return false;
    handful->channels = lend((size_t)handful->channels_length);
    words += COUNT_WORDS;
    for (uint64_t i = 0; i < handful->channels_length; i++)
        if (!read_id(*words++, &handful->channels[i]))
            return false;
    return read_expiries(words, count - COUNT_WORDS - (size_t)handful->channels_length, handful);
}

/* What became of each packet; a refused handful must leave each as it was. */
static void say_answers(nespovarda_answer answer, const struct handful *handful)
{
    say(answer);
    for (uint64_t i = 0; i < handful->answers_length; i++) {
        uint8_t number = handful->answers[i];
        if (answer.kind == NESPOVARDA_OFFERED) {
            putchar(' ');
            say((nespovarda_answer){number == 0 ? NESPOVARDA_TAKEN : NESPOVARDA_REFUSED + number, 0});
        } else if (number != NO_ANSWER) {
            abort();
        }
    }
}

/* `offers NOW`, the channels, the expiries, the lengths, the answers */
static bool answer_offers(struct session *session, const struct word *words, size_t count)
{
    uint64_t now;
    struct handful handful;
    if (!read_number(words[0], UINT64_MAX, &now) || !read_handful(words + 1, count - 1, &handful))
        return false;
    nespovarda_answer answer = nespovarda_offers(
        session->words, session->words_length, session->memory, session->memory_length, handful.channels,
        handful.channels_length, handful.expiries, handful.expiries_length, handful.lengths, handful.lengths_length,
        handful.packets.at, handful.packets.length, now, handful.answers, handful.answers_length);
    say_answers(answer, &handful);
    return true;
}

/* `next CHANNEL NOW ROOM` */
static bool answer_next(struct session *session, const struct word *words, size_t count)
{
    (void)count;
    uint8_t channel;
    uint64_t now;
    struct bytes out;
    if (!read_id(words[0], &channel) || !read_number(words[1], UINT64_MAX, &now) || !read_room(words[2], &out))
        return false;
    nespovarda_answer answer = nespovarda_next(session->words, session->words_length, session->memory,
                                               session->memory_length, channel, now, out.at, out.length);
    say_written(answer, NESPOVARDA_SENT, "sent", out);
    return true;
}

/* `withdraw CHANNEL` */
static bool answer_withdraw(struct session *session, const struct word *words, size_t count)
{
    (void)count;
    uint8_t channel;
    if (!read_id(words[0], &channel))
        return false;
    say(nespovarda_withdraw(session->words, session->words_length, session->memory, session->memory_length, channel));
    return true;
}

/* `radio NOW HEX` */
static bool answer_radio(struct session *session, const struct word *words, size_t count)
{
    (void)count;
    uint64_t now;
    struct bytes datagram;
    if (!read_number(words[0], UINT64_MAX, &now) || !read_bytes(words[1], &datagram))
        return false;
    say(nespovarda_radio(session->words, session->words_length, now, datagram.at, datagram.length));
    return true;
}

/* `pace NOW` */
static bool answer_pace(struct session *session, const struct word *words, size_t count)
{
    (void)count;
    uint64_t now;
    if (!read_number(words[0], UINT64_MAX, &now))
        return false;
    say(nespovarda_pace(session->words, session->words_length, now));
    return true;
}

/* `query ROOM` */
static bool answer_query(struct session *session, const struct word *words, size_t count)
{
    (void)count;
    struct bytes out;
    if (!read_room(words[0], &out))
        return false;
    nespovarda_answer answer = nespovarda_query(session->words, session->words_length, out.at, out.length);
    say_written(answer, NESPOVARDA_WROTE, "query", out);
    return true;
}

static void say_status_and_flow(const uint64_t *shown)
{
    if (shown[NESPOVARDA_SHOWN_REPORTED] == NESPOVARDA_GIVEN)
        printf(" %" PRIu64, shown[NESPOVARDA_SHOWN_STATUS]);
    else
        fputs(" -", stdout);
    if (shown[NESPOVARDA_SHOWN_FLOW] == NESPOVARDA_IN_FORCE)
        printf(" %" PRIu64, shown[NESPOVARDA_SHOWN_WINDOW]);
    else
        fputs(shown[NESPOVARDA_SHOWN_FLOW] == NESPOVARDA_FREE ? " free" : " none", stdout);
}

/* Each waiting packet; the position behind the last must be one where none waits. */
static void say_waiting(const struct session *session, uint8_t channel, uint64_t count)
{
    uint64_t packet[NESPOVARDA_WAITING_NUMBERS];
    for (uint64_t position = 0; position <= count; position++) {
        nespovarda_answer answer =
            nespovarda_waiting(session->words, session->words_length, channel, position, packet);
        if (answer.kind != (position < count ? NESPOVARDA_SHOWN : NESPOVARDA_NONE_THERE))
            say(answer);
        else if (position < count)
            printf(" %" PRIu64 " %" PRIu64, packet[NESPOVARDA_WAITING_LENGTH], packet[NESPOVARDA_WAITING_EXPIRY]);
    }
}

/* `show CHANNEL` */
static bool answer_show(struct session *session, const struct word *words, size_t count)
{
    (void)count;
    uint8_t channel;
    uint64_t shown[NESPOVARDA_CHANNEL_NUMBERS];
    if (!read_id(words[0], &channel))
        return false;
    nespovarda_answer answer = nespovarda_show(session->words, session->words_length, channel, shown);
    if (answer.kind != NESPOVARDA_SHOWN) {
        say(answer);
        return true;
    }
    printf("channel %d", channel);
    say_status_and_flow(shown);
    printf(" %" PRIu64 " %" PRIu64 " %" PRIu64, shown[NESPOVARDA_SHOWN_SEQUENCE], shown[NESPOVARDA_SHOWN_LATEST],
           shown[NESPOVARDA_SHOWN_WAITING]);
    say_waiting(session, channel, shown[NESPOVARDA_SHOWN_WAITING]);
    return true;
}

/* `store CHANNEL` */
static bool answer_store(struct session *session, const struct word *words, size_t count)
{
    (void)count;
    uint8_t channel;
    uint64_t shown[NESPOVARDA_CHANNEL_NUMBERS];
    if (!read_id(words[0], &channel))
        return false;
    nespovarda_answer answer = nespovarda_show(session->words, session->words_length, channel, shown);
    if (answer.kind != NESPOVARDA_SHOWN) {
        say(answer);
        return true;
    }
    uint64_t start = shown[NESPOVARDA_SHOWN_STORE_START];
    uint64_t length = shown[NESPOVARDA_SHOWN_STORE_LENGTH];
    if (start > session->memory_length || length > session->memory_length - start)
        abort();
    fputs("store ", stdout);
    say_bytes(session->memory + start, (size_t)length);
    return true;
}

/* `kept` */
static bool answer_kept(struct session *session, const struct word *words, size_t count)
{
    (void)words, (void)count;
    uint64_t kept[NESPOVARDA_KEPT_NUMBERS];
    nespovarda_answer answer = nespovarda_kept(session->words, session->words_length, kept);
    if (answer.kind != NESPOVARDA_KEPT) {
        say(answer);
        return true;
    }
    fputs("kept", stdout);
    if (kept[NESPOVARDA_KEPT_LINK_LENGTH] != 0)
        say_link(kept[NESPOVARDA_KEPT_LINK_LENGTH], kept[NESPOVARDA_KEPT_LINK]);
    if (kept[NESPOVARDA_KEPT_CONTEXT_LENGTH] != 0)
        say_context(kept[NESPOVARDA_KEPT_CONTEXT_LENGTH], kept[NESPOVARDA_KEPT_CONTEXT]);
    return true;
}

/* `pacer` */
static bool answer_pacer(struct session *session, const struct word *words, size_t count)
{
    (void)words, (void)count;
    uint64_t pacer[NESPOVARDA_PACER_NUMBERS];
    nespovarda_answer answer = nespovarda_pacer(session->words, session->words_length, pacer);
    if (answer.kind != NESPOVARDA_PACER_SHOWN) {
        say(answer);
        return true;
    }
    printf("pacer %" PRIu64 " %" PRIu64 " %" PRIu64, pacer[NESPOVARDA_PACER_CLOCK], pacer[NESPOVARDA_PACER_DUE],
           pacer[NESPOVARDA_PACER_HEARD]);
    return true;
}

/* ---- The session ---- */

static const struct line LINES[] = {
    {"read", 3, 3, false, answer_read},
    {"echo", 5, 5, false, answer_echo},
    {"start", START_WORDS, MOST_WORDS, false, answer_start},
    {"offer", 4, 4, true, answer_offer},
    {"offers", LEAST_OFFERS, MOST_OFFERS, true, answer_offers},
    {"next", 3, 3, true, answer_next},
    {"withdraw", 1, 1, true, answer_withdraw},
    {"radio", 2, 2, true, answer_radio},
    {"pace", 1, 1, true, answer_pace},
    {"query", 1, 1, true, answer_query},
    {"show", 1, 1, true, answer_show},
    {"store", 1, 1, true, answer_store},
    {"kept", 0, 0, true, answer_kept},
    {"pacer", 0, 0, true, answer_pacer},
};

static bool is_started(const struct session *session)
{
    return session->words != NULL;
}

int main(void)
{
    struct session session = {0};
    int failed = answer_lines(LINES, sizeof LINES / sizeof *LINES, &session, is_started);
    forget(&session);
    return failed;
}
