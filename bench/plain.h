/* The plain C side of the measurements: what the library does, as a C programmer would write it, with no proof. */
#ifndef PLAIN_H
#define PLAIN_H

#include <stddef.h>
#include <stdint.h>

/* SHA-256, as FIPS 180-4 writes it. */
void plain_sha256(const uint8_t *message, size_t len, uint8_t digest[32]);

/* The types of the table of tags, in its order. */
enum { PLAIN_ROWS = 6 };
extern const uint16_t plain_types[PLAIN_ROWS];

/* A header, with the checks, the answers and the two buffers of tainhosa_read_header. */
uint32_t plain_read_header(const uint8_t *input, size_t len, uint64_t numbers[6], uint8_t bytes[128]);

/* The same of tainhosa_read_sealed. */
uint32_t plain_read_sealed(const uint8_t *input, size_t len, uint64_t numbers[6], uint8_t bytes[128]);

/* A good image: 1 and its version. */
int plain_check_image(const uint8_t *partition, size_t room, uint32_t *version);

/* Puts the digest of an image into its header: 1, or 0 where the rest of the header is refused. */
int plain_sign_image(uint8_t *image, size_t room);

/*
 * Mending, on a flash whose lengths and statuses are right: the search, the flags and the three numbers of tainhosa_mend. Its answer is
 * TAINHOSA_OK, or TAINHOSA_NO_MARK_FITS and no byte changes.
 */
uint32_t plain_mend(size_t sectors, size_t size, const uint8_t *boot, uint8_t *update, const uint8_t *swap, uint64_t numbers[3]);

/* One erase and one copy. They stand in another file than the update, so that no compiler drops an erase before a copy. */
void plain_erase(uint8_t *sector, size_t size);
void plain_copy(uint8_t *target, const uint8_t *source, size_t size);

#endif
