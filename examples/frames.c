/* Steps the authority from the default image by the frames of standard input, which `tools/okv frames SCRIPT` writes, and
 * prints the number of each step. Writes the last image and the last outcome to the two files that its arguments name. If
 * that outcome holds a lease token, prints what validation says of it. */
#include "okv.h"

#include <stdio.h>
#include <string.h>

static uint8_t image[65535], next[65535], outcome[8192], request[8192];

/* Reads a frame: 4 bytes of length, the lowest first, and the request. 0 at the end of the input. */
static int read_frame(size_t *size)
{
    uint8_t length[4];
    if (fread(length, 1, sizeof length, stdin) != sizeof length)
        return 0;
    *size = (size_t)length[0] | (size_t)length[1] << 8 | (size_t)length[2] << 16 | (size_t)length[3] << 24;
    return *size <= sizeof request && fread(request, 1, *size, stdin) == *size;
}

static int save(const char *path, const uint8_t *bytes, size_t size)
{
    FILE *file = fopen(path, "wb");
    return file != NULL && fwrite(bytes, 1, size, file) == size && fclose(file) == 0;
}

int main(int count, char **paths)
{
    size_t image_size = 0, outcome_size = 0, request_size = 0, image_length = 0, outcome_length = 0;
    if (count != 3 || okv_default(image, sizeof image, &image_size) != 0)
        return 2;
    while (read_frame(&request_size)) {
        uint32_t status = okv_apply(image, image_size, request, request_size, next, sizeof next, outcome, sizeof outcome,
                                    &image_length, &outcome_length);
        printf("%u\n", status);
        if (status == 0) {
            memcpy(image, next, image_length);
            image_size = image_length;
            outcome_size = outcome_length;
        }
    }
    /* LeaseAcquired and LeaseRenewed are their byte and then the token; a refusal has left the last outcome as it was */
    if (outcome_size > 0 && (outcome[0] == 2 || outcome[0] == 3))
        printf("token %u\n", okv_validate(image, image_size, outcome + 1, outcome_size - 1));
    return save(paths[1], image, image_size) && save(paths[2], outcome, outcome_size) ? 0 : 1;
}
