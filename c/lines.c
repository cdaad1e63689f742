#define _POSIX_C_SOURCE 200809L /* getline */

#include "lines.h"

#include <inttypes.h>
#include <stdio.h>
#include <stdlib.h>
#include <string.h>

/* ---- Memory ---- */

#define MOST_LENT 5

static void *lent[MOST_LENT];
static size_t lent_count;

void *allocate(size_t size)
{
    void *memory = malloc(size == 0 ? 1 : size);
    if (memory == NULL) {
        fputs("replay: no memory\n", stderr);
        exit(2);
    }
    return memory;
}

void *lend(size_t size)
{
    if (lent_count == MOST_LENT)
        abort();
    return lent[lent_count++] = allocate(size);
}

static void take_back(void)
{
    while (lent_count > 0)
        free(lent[--lent_count]);
}

/* ---- Words of a line ---- */

bool is(struct word word, const char *text)
{
    return word.length == strlen(text) && memcmp(word.text, text, word.length) == 0;
}

bool read_number(struct word word, uint64_t largest, uint64_t *number)
{
    if (word.length == 0 || (word.length > 1 && word.text[0] == '0'))
        return false;
    *number = 0;
    for (size_t i = 0; i < word.length; i++) {
        if (word.text[i] < '0' || word.text[i] > '9')
            return false;
        uint64_t digit = (uint64_t)(word.text[i] - '0');
        if (digit > largest || *number > (largest - digit) / 10)
            return false;
        *number = *number * 10 + digit;
    }
    return true;
}

bool read_id(struct word word, uint8_t *id)
{
    uint64_t number;
    if (!read_number(word, LARGEST_ID, &number))
        return false;
    *id = (uint8_t)number;
    return true;
}

/* The value of a hexadecimal digit, or -1. */
static int digit_of(char character)
{
    if (character >= '0' && character <= '9')
        return character - '0';
    if (character >= 'a' && character <= 'f')
        return character - 'a' + 10;
    return -1;
}

bool read_bytes(struct word word, struct bytes *bytes)
{
    bool none = is(word, "-");
    if (!none && (word.length == 0 || word.length % 2 != 0))
        return false;
    bytes->length = none ? 0 : word.length / 2;
    bytes->at = lend(bytes->length);
    for (size_t i = 0; i < bytes->length; i++) {
        int high = digit_of(word.text[2 * i]);
        int low = digit_of(word.text[2 * i + 1]);
        if (high < 0 || low < 0)
            return false;
        bytes->at[i] = (uint8_t)(16 * high + low);
    }
    return true;
}

bool read_room(struct word word, struct bytes *out)
{
    uint64_t room;
    if (!read_number(word, LARGEST_LENGTH, &room))
        return false;
    out->length = (size_t)room;
    out->at = lend(out->length);
    return true;
}

bool read_kind(struct word word, uint64_t *kind)
{
    *kind = is(word, "flow") ? NESPOVARDA_CONTROLLED : NESPOVARDA_PLAIN;
    return is(word, "plain") || is(word, "flow");
}

/* ---- Answers ---- */

void say_bytes(const uint8_t *bytes, size_t length)
{
    static const char digits[] = "0123456789abcdef";
    if (length == 0)
        putchar('-');
    for (size_t i = 0; i < length; i++) {
        putchar(digits[bytes[i] >> 4]);
        putchar(digits[bytes[i] & 15]);
    }
}

void say_message(const char *word, struct bytes out, uint64_t length)
{
    if (length > out.length)
        abort();
    printf("%s ", word);
    say_bytes(out.at, (size_t)length);
}

void say_refusal(nespovarda_answer answer)
{
    if (answer.kind > NESPOVARDA_REFUSED)
        printf("refused %" PRIu64 " %" PRIu64, answer.kind - NESPOVARDA_REFUSED, answer.value);
    else
        printf("answer %" PRIu64 " %" PRIu64, answer.kind, answer.value);
}

/* ---- The script ---- */

/* How many words of a line are told apart: the first, the most that stand behind one, and one more. */
static size_t places_of(const struct line *lines, size_t count)
{
    size_t most = 0;
    for (size_t i = 0; i < count; i++)
        if (lines[i].most > most)
            most = lines[i].most;
    return 1 + most + 1;
}

/* The words of a line, one space between two; those behind the last place aren't gone through. */
static size_t split(const char *line, size_t length, struct word *words, size_t places)
{
    const char *end = line + length;
    size_t count = 0;
    while (count < places) {
        const char *space = memchr(line, ' ', (size_t)(end - line));
        const char *stop = space == NULL ? end : space;
        words[count++] = (struct word){line, (size_t)(stop - line)};
        if (space == NULL)
            break;
        line = space + 1;
    }
    return count;
}

static const struct line *line_of(const struct line *lines, size_t count, struct word first)
{
    for (size_t i = 0; i < count; i++)
        if (is(first, lines[i].first))
            return lines + i;
    return NULL;
}

int answer_lines(const struct line *lines, size_t count, struct session *session,
                 bool (*is_started)(const struct session *session))
{
    size_t places = places_of(lines, count);
    struct word *words = allocate(places * sizeof *words);
    char *text = NULL;
    size_t room = 0;
    ssize_t length;
    while ((length = getline(&text, &room, stdin)) > 0) {
        if (text[length - 1] == '\n')
            length--;
        bool answered = false;
        if (length <= LONGEST_LINE) {
            size_t behind = split(text, (size_t)length, words, places) - 1;
            const struct line *line = line_of(lines, count, words[0]);
            answered = line != NULL && behind >= line->least && behind <= line->most &&
                       (!line->needs_state || is_started(session)) && line->answer(session, words + 1, behind);
        }
        if (!answered)
            fputs("bad line", stdout);
        putchar('\n');
        take_back();
    }
    free(text);
    free(words);
    return ferror(stdin) || fflush(stdout) != 0 || ferror(stdout);
}
