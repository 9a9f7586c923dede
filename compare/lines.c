/*
 * Answers a replay script's messages and console questions through the C library.
 *
 *   lines          reads a script on standard input; `line HEX` and `deliver HEX` are both taken for the line reader, and `console LEVEL SETTING`
 *                  for the console question; every other line is skipped
 *   lines lengths  calls with lent lengths that a script can't say; each has to be refused as ROOM, with nothing changed
 *
 * Guard bytes stand round message, result and numbers. Fill, place and result length differ from one message to the next.
 */
#include <inttypes.h>
#include <stdio.h>
#include <string.h>

#include "kmsg_renderer.h"

enum { GUARD = 64, LINE_MOST = 40000, LENT_MOST = LINE_MOST / 2, SHIFTS = 16, FILL = 165 };

/* Lent bytes with guard bytes on both sides. */
struct lent {
    uint8_t room[GUARD + SHIFTS + LENT_MOST + GUARD];
    uint8_t *bytes;
    size_t length;
    uint8_t fill;
};

static struct lent message, result, numbers;

static void lend(struct lent *lent, size_t length, unsigned turn)
{
    lent->bytes = lent->room + GUARD + turn % SHIFTS;
    lent->length = length;
    lent->fill = (uint8_t)(FILL + turn);
    memset(lent->bytes - GUARD, lent->fill, GUARD + length + GUARD);
}

/* All bytes and guard bytes but the first `count` are as they were lent. */
static bool stayed(const struct lent *lent, size_t count)
{
    bool same = true;
    for (const uint8_t *guard = lent->bytes - GUARD; guard < lent->bytes; guard++)
        same &= *guard == lent->fill;
    for (size_t i = count; i < lent->length + GUARD; i++)
        same &= lent->bytes[i] == lent->fill;
    return same;
}

/* One call of the line reader, on bytes lent anew. */
static uint32_t read_lent(const uint8_t *bytes, size_t length, size_t result_length, size_t numbers_length, unsigned turn)
{
    lend(&message, length, turn);
    memcpy(message.bytes, bytes, length);
    lend(&result, result_length, turn + 1);
    lend(&numbers, numbers_length, turn + 2);
    return kmsg_read_line(message.bytes, length, result.bytes, result_length, numbers.bytes, numbers_length);
}

static bool message_stayed(const uint8_t *bytes, size_t length)
{
    return stayed(&message, length) && memcmp(message.bytes, bytes, length) == 0;
}

static bool refusal_changed_nothing(const uint8_t *bytes, size_t length)
{
    return message_stayed(bytes, length) && stayed(&result, 0) && stayed(&numbers, 0);
}

/* ---- words of a script */

static int hex_digit(char c)
{
    if (c >= '0' && c <= '9')
        return c - '0';
    return c >= 'a' && c <= 'f' ? c - 'a' + 10 : -1;
}

/* HEX into bytes; false if it is none. */
static bool read_hex(const char *word, uint8_t *bytes, size_t *length)
{
    size_t digits = strlen(word);
    *length = 0;
    if (strcmp(word, "-") == 0)
        return true;
    if (digits == 0 || digits % 2 != 0)
        return false;
    for (size_t i = 0; i < digits; i += 2) {
        int high = hex_digit(word[i]), low = hex_digit(word[i + 1]);
        if (high < 0 || low < 0)
            return false;
        bytes[(*length)++] = (uint8_t)(high * 16 + low);
    }
    return true;
}

/* An INT of 64 bits, as the console question takes them; false if it is none. Summed up below 0, where there is one number more. */
static bool read_int(const char *word, int64_t *value)
{
    bool below = *word == '-';
    const char *digits = word + below;
    int64_t sum = 0;
    if (*digits == 0)
        return false;
    for (; *digits != 0; digits++) {
        if (*digits < '0' || *digits > '9')
            return false;
        if (__builtin_mul_overflow(sum, (int64_t)10, &sum) || __builtin_sub_overflow(sum, (int64_t)(*digits - '0'), &sum))
            return false;
    }
    if (!below && sum == INT64_MIN)
        return false;
    *value = below ? sum : -sum;
    return true;
}

/* ---- answers */

static uint64_t number(enum kmsg_number which)
{
    uint64_t value = 0;
    for (int i = 7; i >= 0; i--)
        value = value << 8 | numbers.bytes[8 * which + i];
    return value;
}

static void print_hex(const uint8_t *bytes, size_t length)
{
    static const char digits[] = "0123456789abcdef";
    fputs(length == 0 ? " -" : " ", stdout);
    for (size_t i = 0; i < length; i++) {
        putchar(digits[bytes[i] / 16]);
        putchar(digits[bytes[i] % 16]);
    }
}

/* What was accepted; false if a byte changed past the count. A count that can't be is not followed. */
static bool print_accepted(void)
{
    uint64_t text = number(KMSG_TEXT_LENGTH), dictionary = number(KMSG_DICTIONARY_LENGTH);
    printf("0 %" PRIu64 " %" PRIu64 " %" PRIu64 " %" PRIu64, number(KMSG_PREFIX), number(KMSG_SEQUENCE), number(KMSG_MICROSECONDS), number(KMSG_FLAG));
    if (text > KMSG_RESULT_LEAST || dictionary > KMSG_RESULT_LEAST - text)
        return false;
    print_hex(result.bytes, text);
    print_hex(result.bytes + text, dictionary);
    return stayed(&result, text + dictionary) && stayed(&numbers, KMSG_NUMBERS_SIZE);
}

/* Every third message gets a result buffer of more bytes than it needs. */
static void answer_line(const char *word)
{
    static uint8_t bytes[LENT_MOST];
    static unsigned turn;
    size_t length;
    if (!read_hex(word, bytes, &length)) {
        puts("?");
        return;
    }
    turn++;
    size_t result_length = KMSG_RESULT_LEAST + (turn % 3 == 0 ? 1 + turn % 100 : 0);
    uint32_t answer = read_lent(bytes, length, result_length, KMSG_NUMBERS_SIZE, turn);
    bool same;
    if (answer == KMSG_ACCEPTED) {
        same = print_accepted() && message_stayed(bytes, length);
    } else {
        printf("%" PRIu32, answer);
        same = refusal_changed_nothing(bytes, length);
    }
    puts(same ? "" : " CHANGED");
}

static void answer_console(char *words)
{
    int64_t level, setting;
    char *space = strchr(words, ' ');
    if (space != NULL)
        *space = 0;
    if (space == NULL || !read_int(words, &level) || !read_int(space + 1, &setting))
        puts("?");
    else
        puts(kmsg_goes_to_console(level, setting) ? "yes" : "no");
}

/* What follows a call's name; NULL if the line is another call's. */
static char *words_of(char *line, const char *name)
{
    size_t length = strlen(name);
    if (strncmp(line, name, length) != 0 || (line[length] != ' ' && line[length] != 0))
        return NULL;
    return line[length] == ' ' ? line + length + 1 : line + length;
}

static void answer_call(char *line)
{
    char *words;
    if ((words = words_of(line, "line")) != NULL || (words = words_of(line, "deliver")) != NULL)
        answer_line(words);
    else if ((words = words_of(line, "console")) != NULL)
        answer_console(words);
}

static int answer_script(void)
{
    static char line[LINE_MOST + 2];
    while (fgets(line, sizeof line, stdin) != NULL) {
        size_t length = strcspn(line, "\n");
        if (length == LINE_MOST + 1) {
            fprintf(stderr, "lines: a line has more than %d bytes\n", LINE_MOST);
            return 1;
        }
        line[length] = 0;
        answer_call(line);
    }
    return 0;
}

/* ---- lengths that don't fit: 01 refuses them all as 1, whatever the message is */

static int failures, calls;

static void try_lengths(size_t result_length, size_t numbers_length)
{
    static uint8_t over_long[KMSG_MESSAGE_MOST + 1];
    static const struct { const char *bytes; size_t length; } messages[] = {
        {"134,7,1,-;1-0\n k=v\n", 19}, {"", 0}, {"134,7,1,-;1-0", 13}, {"x\n", 2}, {(const char *)over_long, sizeof over_long},
    };
    for (size_t i = 0; i < sizeof messages / sizeof *messages; i++) {
        const uint8_t *bytes = (const uint8_t *)messages[i].bytes;
        size_t length = messages[i].length;
        uint32_t answer = read_lent(bytes, length, result_length, numbers_length, (unsigned)calls++);
        if (answer == 1 && refusal_changed_nothing(bytes, length))
            continue;
        failures++;
        printf("result %zu, numbers %zu, message %zu bytes: answer %" PRIu32 "%s\n", result_length, numbers_length, length, answer,
               refusal_changed_nothing(bytes, length) ? "" : " CHANGED");
    }
}

static int answer_lengths(void)
{
    static const size_t results[] = {0, 1, 47, 48, 480, 959}, blocks[] = {0, 1, 8, 47, 49, 56, 64, 96, 960};
    for (size_t i = 0; i < sizeof results / sizeof *results; i++) {
        try_lengths(results[i], KMSG_NUMBERS_SIZE);
        try_lengths(results[i], blocks[i]);
    }
    for (size_t i = 0; i < sizeof blocks / sizeof *blocks; i++) {
        try_lengths(960, blocks[i]);
        try_lengths(1000, blocks[i]);
    }
    printf("%d calls with lengths that don't fit, %d not answered 1 with all bytes unchanged\n", calls, failures);
    return failures != 0;
}

int main(int count, char **words)
{
    if (count == 1)
        return answer_script();
    if (count == 2 && strcmp(words[1], "lengths") == 0)
        return answer_lengths();
    fputs("usage: lines [lengths]\n", stderr);
    return 2;
}
