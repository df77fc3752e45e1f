/*
 * Reading a header: tainhosa_read_header and tainhosa_read_sealed beside plain C, and the second beside the first. Fails if a call and its
 * plain C answer differently on any of many inputs.
 */
#include <string.h>

#include "common.h"
#include "plain.h"
#include "tainhosa.h"

/* Calls in one run; and the most padding that leaves room for the tags and the end. */
enum { CALLS = 10000, PADDING = TAINHOSA_HEADER_LENGTH - 140 };

static uint8_t header[TAINHOSA_HEADER_LENGTH];

/* One side's buffers. */
struct read {
    uint32_t answer;
    uint64_t numbers[6];
    uint8_t bytes[128];
};

static struct read ours, plain;

static void read_ours(size_t length)
{
    ours.answer = tainhosa_read_header(header, length, ours.numbers, 6, ours.bytes, 128);
}

static void read_plain(size_t length)
{
    plain.answer = plain_read_header(header, length, plain.numbers, plain.bytes);
}

static void seal_ours(size_t length)
{
    ours.answer = tainhosa_read_sealed(header, length, ours.numbers, 6, ours.bytes, 128);
}

static void seal_plain(size_t length)
{
    plain.answer = plain_read_sealed(header, length, plain.numbers, plain.bytes);
}

typedef void reading(size_t);

static void compare_sides(reading *by_ours, reading *by_plain, size_t length)
{
    memset(&ours, 0x55, sizeof ours);
    memset(&plain, 0xAA, sizeof plain);
    by_ours(length);
    by_plain(length);
    if (ours.answer != plain.answer || memcmp(ours.numbers, plain.numbers, sizeof ours.numbers) != 0 ||
        memcmp(ours.bytes, plain.bytes, sizeof ours.bytes) != 0) {
        fail("two readings of a header differ");
    }
}

static void compare(size_t length)
{
    compare_sides(read_ours, read_plain, length);
    compare_sides(seal_ours, seal_plain, length);
}

static void run_ours(void)
{
    for (int i = 0; i < CALLS; i++) {
        read_ours(sizeof header);
    }
}

static void run_plain(void)
{
    for (int i = 0; i < CALLS; i++) {
        read_plain(sizeof header);
    }
}

static void run_sealed(void)
{
    for (int i = 0; i < CALLS; i++) {
        seal_ours(sizeof header);
    }
}

static void run_plain_sealed(void)
{
    for (int i = 0; i < CALLS; i++) {
        seal_plain(sizeof header);
    }
}

static void write_header(bool has_hint)
{
    uint8_t bytes[128];
    uint64_t place;
    fill(bytes, sizeof bytes, 2);
    if (tainhosa_write_header(header, sizeof header, 77777, 5, 1700000000, 512, has_hint, bytes, 128, &place, 1) != TAINHOSA_OK) {
        fail("tainhosa_write_header refused");
    }
}

/* Moves the tags on, behind n bytes of padding. */
static void pad(size_t n)
{
    memmove(header + TAINHOSA_FIRST_TAG + n, header + TAINHOSA_FIRST_TAG, sizeof header - TAINHOSA_FIRST_TAG - n);
    memset(header + TAINHOSA_FIRST_TAG, 0xFF, n);
}

/*
 * Every byte of the header with every value, the type of every tag at every place (so that tags of one length are repeated), every
 * end cut off, size 0, and padding of every length before the tags.
 */
static void compare_many(void)
{
    uint8_t whole[TAINHOSA_HEADER_LENGTH];
    memcpy(whole, header, sizeof header);
    for (size_t length = 0; length <= sizeof header; length++) {
        compare(length);
    }
    for (size_t i = 0; i < sizeof header; i++) {
        for (int value = 0; value < 256; value++) {
            header[i] = (uint8_t)value;
            compare(sizeof header);
        }
        header[i] = whole[i];
    }
    for (size_t i = 0; i + 1 < sizeof header; i++) {
        for (size_t t = 0; t < PLAIN_ROWS; t++) {
            header[i] = (uint8_t)(plain_types[t] & 0xFF);
            header[i + 1] = (uint8_t)(plain_types[t] >> 8);
            compare(sizeof header);
        }
        memcpy(header, whole, sizeof header);
    }
    memset(header + 4, 0, 4);
    compare(sizeof header);
    memcpy(header, whole, sizeof header);
    for (size_t n = 0; TAINHOSA_FIRST_TAG + n <= sizeof header; n++) {
        pad(n);
        compare(sizeof header);
        memcpy(header, whole, sizeof header);
    }
}

static void expect_ok(void)
{
    if (ours.answer != TAINHOSA_OK) {
        fail("the header is refused");
    }
}

static void measure(const char *what)
{
    action *const sides[] = {run_ours, run_plain};
    double best[2];
    compare(sizeof header);
    read_ours(sizeof header);
    expect_ok();
    best_seconds(sides, 2, NULL, best);
    print_row(what, "ns", 1, best[0] / CALLS * 1e9, best[1] / CALLS * 1e9);
}

static void measure_sealed(void)
{
    action *const sides[] = {run_sealed, run_plain_sealed, run_ours};
    double best[3];
    compare(sizeof header);
    seal_ours(sizeof header);
    expect_ok();
    best_seconds(sides, 3, NULL, best);
    print_row("read of a sealed header; plain C", "ns", 1, best[0] / CALLS * 1e9, best[1] / CALLS * 1e9);
    print_row("the same; tainhosa_read_header", "ns", 1, best[0] / CALLS * 1e9, best[2] / CALLS * 1e9);
}

int main(void)
{
    write_header(false);
    compare_many();
    write_header(true);
    compare_many();
    measure("read of a header; plain C");
    write_header(false);
    pad(PADDING);
    measure("the same, 116 bytes of padding before");
    write_header(true);
    measure_sealed();
    return 0;
}
