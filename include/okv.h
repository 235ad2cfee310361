/* The publication authority of objectKV over byte images: which object may be deleted.
 *
 * Every call takes any bytes and any lengths. It either refuses with a number and changes no byte of the slices that
 * it was lent, or it answers as the Rust's `apply` and `validate_active_snapshot_lease` answer, but for two things that
 * okv_apply says of leases; each promise below is proved. A slice is a pointer and then its length; an empty slice may
 * have any pointer that is not null. Slices that a call writes must not overlap the others.
 *
 * docs/NUMBERS.md says of each number when it is given, and docs/FORMAT.md has the bytes.
 */
#ifndef OKV_H
#define OKV_H

#include <stddef.h>
#include <stdint.h>

#ifdef __cplusplus
extern "C" {
#endif

/* Of every call: a refusal before those of okv_status, or after none of them has come. */
enum okv_refusal {
    /* the state bytes are not an image within the layout and its limits */
    OKV_NOT_AN_IMAGE = 40,
    /* the request or token ends early, has surplus bytes, or holds a byte or set order that the layout forbids */
    OKV_MALFORMED = 41,
    /* a text or a set count is over its limit */
    OKV_OVER_LIMIT = 42,
    /* a text is not UTF-8 */
    OKV_NOT_UTF8 = 43,
    /* no okv_status refuses, and a table of the next state is over its limit */
    OKV_TABLE_FULL = 44,
    /* the next image is longer than 65,535 bytes or than its lent slice */
    OKV_NO_ROOM = 45,
    /* the outcome is longer than its lent slice */
    OKV_NO_OUTCOME_ROOM = 46,
};

/* Of okv_apply: the Rust's PublicationCommandStatus, in declared order. 1, GenerationFenced, is never given. */
enum okv_status {
    OKV_ACCEPTED = 0,
    OKV_INVALID_REQUEST = 2,
    OKV_PUBLICATION_EXISTS = 3,
    OKV_PUBLICATION_INTENT_MISSING = 4,
    OKV_PUBLICATION_INTENT_MISMATCH = 5,
    OKV_CROSS_GENERATION_INTENT = 6,
    OKV_ROOT_COMPARE_FAILED = 7,
    OKV_PIN_COMPARE_FAILED = 8,
    OKV_ROOT_INTENT_EPOCH_CHANGED = 9,
    OKV_OBJECT_DELETION_RESERVED = 10,
    OKV_OBJECT_NAMED_BY_INTENT = 11,
    OKV_DELETE_RESERVATION_EXISTS = 12,
    OKV_DELETE_RESERVATION_MISSING = 13,
    OKV_CROSS_GENERATION_DELETE_PERMIT = 14,
    OKV_DELETE_PLAN_MISMATCH = 15,
    OKV_COMMITTED_FRONTIER_RETREATED = 16,
    OKV_RETENTION_POLICY_EPOCH_MISMATCH = 17,
    OKV_RETENTION_POLICY_UNCONFIGURED = 18,
    OKV_SNAPSHOT_BELOW_FLOOR = 19,
    OKV_SNAPSHOT_AHEAD_OF_FRONTIER = 20,
    OKV_LEASE_EXISTS = 21,
    OKV_LEASE_MISSING = 22,
    OKV_LEASE_EPOCH_MISMATCH = 23,
    OKV_LEASE_DEADLINE_INVALID = 24,
    OKV_LEASE_CLOCK_MISMATCH = 25,
    OKV_LEASE_CLOCK_RETREATED = 26,
    OKV_RANGE_MAP_EPOCH_RETREATED = 27,
    OKV_RANGE_MAP_EPOCH_MISMATCH = 28,
    OKV_COLLECTION_JOB_EXISTS = 29,
    OKV_COLLECTION_JOB_MISSING = 30,
    OKV_COLLECTION_JOB_MISMATCH = 31,
    OKV_COLLECTION_CONFLICT = 32,
    OKV_COLLECTION_FLOOR_INVALID = 33,
    OKV_COLLECTION_FRONTIER_MISMATCH = 34,
    OKV_COLLECTION_RECEIPT_MISMATCH = 35,
    OKV_COLLECTION_ROOT_COMPARE_FAILED = 36,
};

/* Of okv_validate: the Rust's errors, in declared order. */
enum okv_lease {
    OKV_LEASE_VALID = 0,
    OKV_LEASE_FORMAT_INVALID = 1,
    OKV_LEASE_NOT_FOUND = 2,
    OKV_LEASE_TOKEN_MISMATCH = 3,
    OKV_LEASE_EXPIRED = 4,
};

/* Writes the default image: 0 and its length in *length, or 45 and length 0 where it does not fit, no byte changed. */
uint32_t okv_default(uint8_t *image, size_t image_room, size_t *length);

/* Whether the bytes are an image: 0 or 40. */
uint32_t okv_test(const uint8_t *image, size_t image_size);

/* Applies one request to an image. On 0, next holds the next image and outcome the outcome, and the two lengths say
 * how many bytes each has; bytes past them keep their value. On any other number both lengths are 0 and neither slice
 * has changed. The image itself is never written.
 *
 * AcquireLease and RenewLease answer 10 where the closure, of the request or of the stored lease, names a reserved key;
 * that is tested right after 24, and no fault flag skips it. A stored lease with such a key remains until it ends.
 *
 * The ids of the outcome LeasesExpired stand in the order in which the leases ran out: by deadline, the earliest first;
 * of one deadline by the smaller epoch; of one epoch by id, in the order of bytes. They need not ascend. */
uint32_t okv_apply(const uint8_t *image, size_t image_size, const uint8_t *request, size_t request_size,
                   uint8_t *next, size_t next_room, uint8_t *outcome, size_t outcome_room,
                   size_t *image_length, size_t *outcome_length);

/* Whether a lease token, of any bytes, is the active one of the image: 0, 1 to 4, or 40 to 43. */
uint32_t okv_validate(const uint8_t *image, size_t image_size, const uint8_t *token, size_t token_size);

#ifdef __cplusplus
}
#endif

#endif
