/*
 * The digest of 1 MiB: tainhosa_sha256 beside the same call of another archive. Fails if the two digests differ.
 * One update, armed before: tainhosa_power_up beside that of the other archive, in the same buffers. Each side has made the headers
 * of its images itself. The firmware fills its sectors. Fails if a side does not finish its update, or leaves other firmware than it began
 * with. The words are the sectors of a partition and the bytes of a sector.
 */
#include <stdio.h>
#include <stdlib.h>
#include <string.h>

#include "common.h"
#include "tainhosa.h"

typedef uint32_t make_header_call(uint8_t *, size_t, const uint8_t *, size_t, uint32_t, uint64_t, uint16_t, bool, const uint8_t *, size_t,
                                  uint64_t *, size_t);
typedef uint32_t arm_call(size_t, size_t, uint8_t *, size_t, uint8_t *, size_t, uint8_t *, size_t, uint64_t *, size_t);
typedef uint32_t power_up_call(size_t, size_t, uint8_t *, size_t, uint8_t *, size_t, uint8_t *, size_t, uint64_t, uint64_t *, size_t);
typedef uint32_t sha256_call(const uint8_t *, size_t, uint8_t *, size_t);

/* The other archive's calls, as bench/beside names them. */
sha256_call other_sha256;
make_header_call other_make_header;
arm_call other_arm;
power_up_call other_power_up;

enum { SIDES = 2, MESSAGE = 1 << 20 };

static const struct {
    sha256_call *sha256;
    make_header_call *make_header;
    arm_call *arm;
    power_up_call *power_up;
} calls[SIDES] = {
    {tainhosa_sha256, tainhosa_make_header, tainhosa_arm, tainhosa_power_up},
    {other_sha256, other_make_header, other_arm, other_power_up},
};

static size_t sectors, size, length;
static uint8_t *boot, *update, *swap;
static uint8_t *first_boot[SIDES], *first_update[SIDES];
static int side;

/* ---- The digest */

static uint8_t *message;
static uint8_t digests[SIDES][32];

static void digest(void)
{
    if (calls[side].sha256(message, MESSAGE, digests[side], 32) != TAINHOSA_OK) {
        fail("sha256 refused");
    }
    side = (side + 1) % SIDES;
}

/* The sides are run in turns, and begin with this library's. */
static void measure_digest(void)
{
    action *const sides[SIDES] = {digest, digest};
    double best[SIDES];
    message = room_for(MESSAGE);
    fill(message, MESSAGE, 1);
    digest();
    digest();
    if (memcmp(digests[0], digests[1], 32) != 0) {
        fail("two digests differ");
    }
    best_seconds(sides, SIDES, NULL, best);
    print_row("digest of 1 MiB; the other", "MB/s", 0, MESSAGE / best[0] / 1e6, MESSAGE / best[1] / 1e6);
}

/* ---- The update */

static void make(int k, uint8_t *partition, uint32_t version)
{
    const size_t firmware = length - size - TAINHOSA_HEADER_LENGTH;
    uint8_t bytes[TAINHOSA_SHEET_BYTES];
    uint64_t place;
    memset(partition, 0xFF, length);
    fill(bytes, sizeof bytes, version);
    fill(partition + TAINHOSA_HEADER_LENGTH, firmware, version + 10);
    if (calls[k].make_header(partition, TAINHOSA_HEADER_LENGTH, partition + TAINHOSA_HEADER_LENGTH, firmware, version, 1700000000, 512,
                             true, bytes, sizeof bytes, &place, 1) != TAINHOSA_OK) {
        fail("make_header refused");
    }
}

/* Two images of this side, the second one newer and armed. */
static void prepare(int k)
{
    uint64_t count;
    first_boot[k] = room_for(length);
    first_update[k] = room_for(length);
    make(k, first_boot[k], 1);
    make(k, first_update[k], 2);
    first_boot[k][length - 1] = TAINHOSA_STATUS_SUCCESS;
    if (calls[k].arm(sectors, size, first_boot[k], length, first_update[k], length, swap, size, &count, 1) != TAINHOSA_OK) {
        fail("arm refused");
    }
}

/* The flash of the side that is next. */
static void restore(void)
{
    memcpy(boot, first_boot[side], length);
    memcpy(update, first_update[side], length);
    memset(swap, 0xFF, size);
}

static void run(void)
{
    uint64_t answer[TAINHOSA_POWER_UP_NUMBERS];
    if (calls[side].power_up(sectors, size, boot, length, update, length, swap, size, UINT64_MAX, answer, TAINHOSA_POWER_UP_NUMBERS) !=
            TAINHOSA_OK ||
        answer[TAINHOSA_POWER_UP_OUTCOME] != TAINHOSA_RUN_ON_TEST || answer[TAINHOSA_POWER_UP_COUNT] != 9 * (sectors - 1) + 3) {
        fail("an update did not finish");
    }
    side = (side + 1) % SIDES;
}

static void compare(void)
{
    for (int k = 0; k < SIDES; k++) {
        restore();
        run();
        if (memcmp(boot, first_update[k], length - size) != 0 || memcmp(update, first_boot[k], length - size) != 0) {
            fail("an update left other images");
        }
    }
}

int main(int words, char **word)
{
    action *const sides[SIDES] = {run, run};
    double best[SIDES];
    char what[80];
    if (words != 3) {
        fail("the sectors and their size are needed");
    }
    sectors = strtoul(word[1], NULL, 10);
    size = strtoul(word[2], NULL, 10);
    if (sectors < TAINHOSA_SECTORS_MIN || sectors > TAINHOSA_SECTORS_MAX || size < 2 * TAINHOSA_SIZE_MIN || size > TAINHOSA_SIZE_MAX ||
        size % TAINHOSA_SIZE_UNIT != 0) {
        fail("no such sectors, or no room for a firmware in them");
    }
    length = sectors * size;
    boot = room_for(length);
    update = room_for(length);
    swap = room_for(size);
    for (int k = 0; k < SIDES; k++) {
        prepare(k);
    }
    compare();
    measure_digest();
    best_seconds(sides, SIDES, restore, best);
    snprintf(what, sizeof what, "update, %zu sectors of %zu; the other", sectors, size);
    print_row(what, "ms", 3, best[0] * 1e3, best[1] * 1e3);
    return 0;
}
