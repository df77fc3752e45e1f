/* Timing, table rows and small helpers of the programs beside this file. */
#ifndef COMMON_H
#define COMMON_H

#include <stddef.h>
#include <stdint.h>

typedef void action(void);

/*
 * The seconds that each of at most 4 sides takes: the best of 5 rounds. In a round the sides run in turns until each has run for
 * 0.2 s. `prepare`, if there is one, comes before each run and is not counted.
 */
void best_seconds(action *const *sides, int count, action *prepare, double *best);

/* A row: ours, the other side, and ours divided by the other. */
void print_row(const char *what, const char *unit, int digits, double ours, double other);

/* A row: how much more ours is than the other, in percent. */
void print_more(const char *what, double ours, double other);

/* A row with no other side. */
void print_bytes(const char *what, long bytes);

/* Says why and exits with 1. */
void fail(const char *why);

/* Fresh memory, or exit. */
void *room_for(size_t length);

/* Bytes that look like no pattern. */
void fill(uint8_t *p, size_t length, uint32_t seed);

/* An image whose firmware fills the sectors but the last of a partition; the trailer sector is erased. */
void make_image(uint8_t *partition, size_t length, size_t sector_size, uint32_t version);

/* The same with so many bytes of firmware; FF after it. */
void make_image_of(uint8_t *partition, size_t length, size_t sector_size, size_t firmware, uint32_t version);

/* Puts the digest of an image into its header, which has `room` bytes with the firmware; or exit. */
void sign_image(uint8_t *image, size_t room);

#endif
