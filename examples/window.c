/* Starts from the default image, sets the retention window to 3, observes frontier 10, and prints the two floors. */
#include "okv.h"

#include <stdio.h>
#include <string.h>

static uint8_t image[65535], next[65535], outcome[8192], request[64];

static void put(size_t at, uint64_t value)
{
    for (size_t i = 0; i < 8; i++)
        request[at + i] = (uint8_t)(value >> (8 * i));
}

static uint64_t get(size_t at)
{
    uint64_t value = 0;
    for (size_t i = 8; i > 0; i--)
        value = value * 256 + image[at + i - 1];
    return value;
}

/* A request: generation, term and index 1, no fault flag, the action's byte, and its numbers. */
static uint32_t ask(size_t *size, uint8_t action, int count, uint64_t first, uint64_t second)
{
    size_t image_length = 0, outcome_length = 0;
    memset(request, 0, sizeof request);
    put(0, 1);
    put(8, 1);
    put(16, 1);
    request[26] = action;
    put(27, first);
    if (count > 1)
        put(35, second);
    uint32_t status = okv_apply(image, *size, request, 27 + 8 * (size_t)count, next, sizeof next, outcome, sizeof outcome,
                                &image_length, &outcome_length);
    if (status == 0) {
        memcpy(image, next, image_length);
        *size = image_length;
    }
    return status;
}

int main(void)
{
    size_t size = 0;
    printf("default %u\n", okv_default(image, sizeof image, &size));
    printf("test %u of %zu bytes\n", okv_test(image, size), size);
    printf("window 3: %u\n", ask(&size, 2, 2, 0, 3));
    printf("frontier 10: %u\n", ask(&size, 1, 1, 10, 0));
    printf("frontier 9: %u\n", ask(&size, 1, 1, 9, 0));
    /* with a window the scalars after it stand 8 bytes later: policy floor and minimum readable version */
    printf("policy %llu readable %llu\n", (unsigned long long)get(116), (unsigned long long)get(124));
    return 0;
}
