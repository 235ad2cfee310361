/* Compares keys that share their first hundred bytes, and prints how the rest of them stands and the steps that it took to
 * tell: one for each eight bytes, and one for each byte after the last eight that both have. */
#include "text.h"

#include <stdio.h>
#include <string.h>

static const char shared[] =
    "site-0007/building-02/line-12/controller-03/programs/packing-and-palletizing/recipes/recipe-0000041/";

static void compare(const char *a, const char *b)
{
    char keys[2][256];
    size_t sizes[2], steps;
    for (int i = 0; i < 2; i++)
        sizes[i] = (size_t)snprintf(keys[i], sizeof keys[i], "%s%s", shared, i == 0 ? a : b);
    uint8_t order =
        text_compare((const uint8_t *)keys[0], sizes[0], (const uint8_t *)keys[1], sizes[1], &steps);
    printf("%zu and %zu bytes: %s %c %s, %zu steps\n", sizes[0], sizes[1], a, "<=>"[order], b, steps);
}

int main(void)
{
    printf("%zu bytes are shared\n", strlen(shared));
    compare("build-2026-11-16-again.image", "build-2026-11-16-again.image");
    /* 13 times eight bytes are 104: of 107 three are left */
    compare("1.image", "1.image");
    /* the first eight that differ are the last step, or else the first byte */
    compare("1.image", "2.image");
    compare("1.image", "1.imago");
    /* the end of a key is no step */
    compare("1.im", "1.image");
    /* a byte from 0x80 on comes after all smaller ones */
    compare("z.image", "\xc3\xa9.image");
    return 0;
}
