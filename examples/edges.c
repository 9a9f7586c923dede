/* The line reader's lent buffers at their edges: one byte short, just right, one byte over. Guard bytes stand round each of them. */
#include <stdio.h>
#include <string.h>

#include "kmsg_renderer.h"

enum { GUARD = 16, FILL = 165 };

/* How many bytes of a part are not the fill any more. */
static size_t changed(const uint8_t *bytes, size_t length)
{
    size_t count = 0;
    for (size_t i = 0; i < length; i++)
        count += bytes[i] != FILL;
    return count;
}

static void try_lengths(size_t result_length, size_t numbers_length)
{
    static const uint8_t message[] = "134,7,1,-;1-0\n";
    uint8_t result[GUARD + KMSG_RESULT_LEAST + 1 + GUARD];
    uint8_t numbers[GUARD + KMSG_NUMBERS_SIZE + 1 + GUARD];
    memset(result, FILL, sizeof result);
    memset(numbers, FILL, sizeof numbers);

    uint32_t answer = kmsg_read_line(message, sizeof message - 1, result + GUARD, result_length, numbers + GUARD, numbers_length);

    size_t inside = changed(result + GUARD, result_length) + changed(numbers + GUARD, numbers_length);
    size_t all = changed(result, sizeof result) + changed(numbers, sizeof numbers);
    printf("result %zu numbers %zu: answer %u, %zu bytes changed, %zu outside\n", result_length, numbers_length, answer, inside, all - inside);
}

int main(void)
{
    for (size_t result = KMSG_RESULT_LEAST - 1; result <= KMSG_RESULT_LEAST + 1; result++)
        for (size_t numbers = KMSG_NUMBERS_SIZE - 1; numbers <= KMSG_NUMBERS_SIZE + 1; numbers++)
            try_lengths(result, numbers);
    return 0;
}
