#define _POSIX_C_SOURCE 200809L

#include "common.h"

#include <stdio.h>
#include <stdlib.h>
#include <string.h>
#include <time.h>

#include "plain.h"
#include "tainhosa.h"

enum { ROUNDS = 5, SIDES_MAX = 4 };

#define ROUND_SECONDS 0.2

/* The processor time of this program, so that other programs on the machine count little. */
static double processor_seconds(void)
{
    struct timespec t;
    clock_gettime(CLOCK_PROCESS_CPUTIME_ID, &t);
    return (double)t.tv_sec + (double)t.tv_nsec * 1e-9;
}

void best_seconds(action *const *sides, int count, action *prepare, double *best)
{
    for (int round = 0; round < ROUNDS; round++) {
        double sum[SIDES_MAX] = {0};
        double least;
        int runs = 0;
        do {
            least = 1e9;
            for (int k = 0; k < count; k++) {
                if (prepare != NULL) {
                    prepare();
                }
                double begin = processor_seconds();
                sides[k]();
                sum[k] += processor_seconds() - begin;
                least = sum[k] < least ? sum[k] : least;
            }
            runs++;
        } while (least < ROUND_SECONDS);
        for (int k = 0; k < count; k++) {
            double mean = sum[k] / runs;
            best[k] = round == 0 || mean < best[k] ? mean : best[k];
        }
    }
}

void print_row(const char *what, const char *unit, int digits, double ours, double other)
{
    char a[32];
    char b[32];
    snprintf(a, sizeof a, "%.*f %s", digits, ours, unit);
    snprintf(b, sizeof b, "%.*f %s", digits, other, unit);
    printf("| %-40s | %12s | %12s | %5.2f |\n", what, a, b, ours / other);
}

void print_more(const char *what, double ours, double other)
{
    char a[32];
    snprintf(a, sizeof a, "%+.2f %%", (ours / other - 1) * 100);
    printf("| %-40s | %12s | %12s | %5s |\n", what, a, "", "");
}

void print_bytes(const char *what, long bytes)
{
    char a[32];
    snprintf(a, sizeof a, "%ld B", bytes);
    printf("| %-40s | %12s | %12s | %5s |\n", what, a, "", "");
}

void fail(const char *why)
{
    fprintf(stderr, "bench: %s\n", why);
    exit(1);
}

void *room_for(size_t length)
{
    void *p = malloc(length);
    if (p == NULL) {
        fail("no memory");
    }
    return p;
}

void fill(uint8_t *p, size_t length, uint32_t seed)
{
    for (size_t i = 0; i < length; i++) {
        seed = seed * 1664525u + 1013904223u;
        p[i] = (uint8_t)(seed >> 24);
    }
}

void make_image(uint8_t *partition, size_t length, size_t sector_size, uint32_t version)
{
    make_image_of(partition, length, sector_size, length - sector_size - TAINHOSA_HEADER_LENGTH, version);
}

void make_image_of(uint8_t *partition, size_t length, size_t sector_size, size_t firmware, uint32_t version)
{
    uint8_t bytes[TAINHOSA_HEADER_BYTES];
    uint64_t place;
    fill(bytes, sizeof bytes, version);
    memset(partition, 0xFF, length);
    fill(partition + TAINHOSA_HEADER_LENGTH, firmware, version + 10);
    if (tainhosa_write_header(partition, length, (uint32_t)firmware, version, 1700000000, 512, true, bytes, sizeof bytes, &place, 1) !=
        TAINHOSA_OK) {
        fail("tainhosa_write_header refused");
    }
    sign_image(partition, length - sector_size);
}

void sign_image(uint8_t *image, size_t room)
{
    if (!plain_sign_image(image, room)) {
        fail("an image with a refused header gets no digest");
    }
}
