/*
 * What the replays share: the words of a script's line, memory lent for one line, and the loop over all lines
 * (docs/SESSION.md and docs/STATION.md have the same words).
 */
#ifndef LINES_H
#define LINES_H

#include <stdbool.h>
#include <stddef.h>
#include <stdint.h>

#include "nespovarda.h"

/* What a line may hold. */
#define LONGEST_LINE 140000
#define LARGEST_ID 255
#define LARGEST_LENGTH (NESPOVARDA_MOST_CHANNELS * NESPOVARDA_LARGEST_STORE)
#define MOST_READ 80 /* channels of a start, packets of a handful */

struct word {
    const char *text;
    size_t length;
};

struct bytes {
    uint8_t *at;
    size_t length;
};

/* ---- Memory, each piece as long as asked and no longer, so that a memory checker sees a byte too far ---- */

void *allocate(size_t size);

/* For one line: it is taken back behind the line's answer. */
void *lend(size_t size);

/* ---- Words of a line: false where a word isn't as the page has it ---- */

bool is(struct word word, const char *text);

/* A decimal number from 0 to the largest, without needless zeros in front. */
bool read_number(struct word word, uint64_t largest, uint64_t *number);

bool read_id(struct word word, uint8_t *id);

/* Bytes in hexadecimal, or `-` for none. */
bool read_bytes(struct word word, struct bytes *bytes);

/* An output of so many bytes. */
bool read_room(struct word word, struct bytes *out);

/* `plain` or `flow` */
bool read_kind(struct word word, uint64_t *kind);

/* ---- Answers ---- */

void say_bytes(const uint8_t *bytes, size_t length);

/* A word, and the message of so many bytes that stands in the output. */
void say_message(const char *word, struct bytes out, uint64_t length);

/* A refusal; an answer that no line has a word for shows as its numbers. */
void say_refusal(nespovarda_answer answer);

/* ---- The script ---- */

/* What a program keeps between two lines, which is its own. */
struct session;

/* A line's first word, how many may stand behind it, and its answer, which is false for a bad line. */
struct line {
    const char *first;
    size_t least, most;
    bool needs_state;
    bool (*answer)(struct session *session, const struct word *words, size_t count);
};

/* Answers all lines of standard input by these; 0, or 1 where input or output failed. */
int answer_lines(const struct line *lines, size_t count, struct session *session,
                 bool (*is_started)(const struct session *session));

#endif
