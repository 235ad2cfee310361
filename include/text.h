/* Texts as bytes: UTF-8, equality, first and last bytes, the shape of a SHA-256, and order.
 *
 * Every call takes any bytes and any lengths, and changes none of them; each promise below is proved. A text is a pointer
 * and then its length; an empty text may have any pointer that is not null.
 */
#ifndef OKV_TEXT_H
#define OKV_TEXT_H

#include <stdbool.h>
#include <stddef.h>
#include <stdint.h>

#ifdef __cplusplus
extern "C" {
#endif

/* Whether the bytes are UTF-8, as RFC 3629 has it. */
bool text_is_utf8(const uint8_t *text, size_t size);

/* Whether two texts have the same bytes. */
bool text_same(const uint8_t *a, size_t a_size, const uint8_t *b, size_t b_size);

/* Whether a text begins with the bytes of another. */
bool text_starts_with(const uint8_t *text, size_t size, const uint8_t *prefix, size_t prefix_size);

/* Whether the last byte of a text is this one. An empty text has none. */
bool text_ends_with_byte(const uint8_t *text, size_t size, uint8_t byte);

/* Whether a text is 64 of 0-9 and a-f. */
bool text_valid_sha256(const uint8_t *text, size_t size);

/* Of text_compare: which text comes first. */
enum text_order {
    TEXT_LESS = 0,
    TEXT_EQUAL = 1,
    TEXT_GREATER = 2,
};

/* Compares two texts in the order of bytes: the first byte that differs decides, and a text comes before all that it
 * begins. 0 where a comes first, 1 where they are equal, 2 where b comes first.
 *
 * *steps, which must not lie in a text, is set to the steps that it took to tell: one for each eight bytes while eight are
 * left on both sides, and one for each byte of the rest, up to and with the first that differ. The end of a text is no
 * step: equal texts of 128 bytes take 16. */
uint8_t text_compare(const uint8_t *a, size_t a_size, const uint8_t *b, size_t b_size, size_t *steps);

#ifdef __cplusplus
}
#endif

#endif
