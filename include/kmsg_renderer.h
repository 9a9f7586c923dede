/*
 * The two calls of the event log that a renderer in C makes.
 *
 * Link with librenderer.a (`rt lib` in crates/renderer writes it to its out/). Both calls are proved: they answer for any bytes and any
 * numbers, end, and touch no byte but those said here. The proof rests on what C must guarantee:
 *
 *   - no pointer is null, also where its length is 0;
 *   - each length is the true length of the memory behind its pointer, and below 2^63;
 *   - message, result and numbers do not overlap, and nothing else uses them during the call.
 */
#ifndef KMSG_RENDERER_H
#define KMSG_RENDERER_H

#include <stdbool.h>
#include <stddef.h>
#include <stdint.h>

/* Why a message is refused; the lowest that applies. */
enum kmsg_refusal {
    KMSG_ACCEPTED = 0,
    KMSG_ROOM = 1,    /* result under KMSG_RESULT_LEAST bytes, or numbers not KMSG_NUMBERS_SIZE */
    KMSG_LONG = 2,    /* over KMSG_MESSAGE_MOST bytes */
    KMSG_UNENDED = 3, /* empty, or no final newline */
    KMSG_HEADER = 4,  /* no ';' before the first newline, under four fields, or empty flag field */
    KMSG_NUMBER = 5,  /* one of the first three fields isn't plain decimal, or is too large */
    KMSG_BYTE = 6,    /* an illegal byte or escape after ';' */
    KMSG_ENTRY = 7,   /* a continuation line that is no entry */
    KMSG_BULK = 8     /* text and dictionary over KMSG_RESULT_LEAST bytes */
};

#define KMSG_MESSAGE_MOST 8192
#define KMSG_RESULT_LEAST 960
#define KMSG_NUMBERS_SIZE 48

/* The six values of a numbers block, 64 bits each, little-endian, in this order. */
enum kmsg_number {
    KMSG_PREFIX = 0,
    KMSG_SEQUENCE = 1,
    KMSG_MICROSECONDS = 2,
    KMSG_TEXT_LENGTH = 3,
    KMSG_DICTIONARY_LENGTH = 4,
    KMSG_FLAG = 5 /* '-' 0, 'c' 1, '+' 2, others 3 */
};

/*
 * Reads one message: a header line and its continuation lines. Accepted, it puts the text and then the dictionary (entries joined by zero
 * bytes) at the front of result, leaves the rest of result as it was, and fills numbers. Refused, it changes nothing.
 */
uint32_t kmsg_read_line(const uint8_t *message, size_t message_length, uint8_t *result, size_t result_length,
                        uint8_t *numbers, size_t numbers_length);

/* The console question: does a record of this level go to a console of this setting? level < setting, for any two numbers. */
bool kmsg_goes_to_console(int64_t level, int64_t setting);

#endif
