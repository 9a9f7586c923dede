/* A renderer's part: reads one message from standard input through the proved library and prints its parts. */
#include <inttypes.h>
#include <stdio.h>

#include "kmsg_renderer.h"

static uint64_t number(const uint8_t *numbers, enum kmsg_number which)
{
    uint64_t value = 0;
    for (int i = 7; i >= 0; i--)
        value = value << 8 | numbers[8 * which + i];
    return value;
}

static void print_entries(const uint8_t *dictionary, uint64_t length)
{
    uint64_t from = 0;
    for (uint64_t i = 0; i < length; i++) {
        if (i + 1 == length || dictionary[i + 1] == 0) {
            printf("entry %.*s\n", (int)(i + 1 - from), (const char *)dictionary + from);
            from = i + 2;
        }
    }
}

int main(void)
{
    static uint8_t message[KMSG_MESSAGE_MOST + 1];
    static uint8_t result[KMSG_RESULT_LEAST];
    static uint8_t numbers[KMSG_NUMBERS_SIZE];
    size_t length = fread(message, 1, sizeof message, stdin);

    uint32_t refusal = kmsg_read_line(message, length, result, sizeof result, numbers, sizeof numbers);
    if (refusal != KMSG_ACCEPTED) {
        printf("refused %" PRIu32 "\n", refusal);
        return 0;
    }

    uint64_t text = number(numbers, KMSG_TEXT_LENGTH);
    uint64_t level = number(numbers, KMSG_PREFIX) % 8;
    printf("facility %" PRIu64 " level %" PRIu64 "\n", number(numbers, KMSG_PREFIX) / 8, level);
    printf("number %" PRIu64 "\n", number(numbers, KMSG_SEQUENCE));
    printf("microseconds %" PRIu64 "\n", number(numbers, KMSG_MICROSECONDS));
    printf("flag %" PRIu64 "\n", number(numbers, KMSG_FLAG));
    printf("text %.*s\n", (int)text, (const char *)result);
    print_entries(result + text, number(numbers, KMSG_DICTIONARY_LENGTH));
    printf("on a console of 7: %s\n", kmsg_goes_to_console((int64_t)level, 7) ? "yes" : "no");
    return 0;
}
