/*
 * One update, armed before: tainhosa_power_up beside plain C that does the same checks, erases, copies and writes, in the same
 * buffers, and scans nothing. The firmware fills its sectors; once more with one byte of firmware, so that the exchange is nearly all that
 * is left. Then tainhosa_power_up_counted beside tainhosa_power_up, and how much more time it takes. Fails if two sides leave another
 * flash. With two words, the sectors of a partition and the bytes of a sector, it is done once and by the library alone, for a program that
 * counts its instructions.
 */
#include <stdio.h>
#include <stdlib.h>
#include <string.h>

#include "common.h"
#include "plain.h"
#include "tainhosa.h"

static size_t sectors, size, length;
static uint8_t *boot, *update, *swap;
static uint8_t *first_boot, *first_update, *first_swap;
static uint64_t answer[TAINHOSA_COUNTED_NUMBERS];
static uint32_t row[TAINHOSA_ROW_LENGTH_MAX];

/* ---- Plain C */

static void write_flag(size_t i, uint8_t flag)
{
    uint8_t *p = update + length - 2 - i / 2;
    *p = i % 2 == 0 ? (uint8_t)((*p & 0xF0) | flag) : (uint8_t)((*p & 0x0F) | flag << 4);
}

static int plain_update(void)
{
    const size_t trailer = (sectors - 1) * size;
    uint32_t newer;
    uint32_t running;
    if (update[length - 1] != TAINHOSA_STATUS_UPDATING || boot[length - 1] == TAINHOSA_STATUS_TESTING) {
        return 0;
    }
    if (!plain_check_image(update, trailer, &newer) || !plain_check_image(boot, trailer, &running) || newer <= running) {
        return 0;
    }
    for (size_t i = 0; i + 1 < sectors; i++) {
        uint8_t *b = boot + i * size;
        uint8_t *u = update + i * size;
        plain_erase(swap, size);
        plain_copy(swap, u, size);
        write_flag(i, TAINHOSA_FLAG_SAVED);
        plain_erase(u, size);
        plain_copy(u, b, size);
        write_flag(i, TAINHOSA_FLAG_MOVED);
        plain_erase(b, size);
        plain_copy(b, swap, size);
        write_flag(i, TAINHOSA_FLAG_EXCHANGED);
    }
    if (boot[length - 1] == TAINHOSA_STATUS_SUCCESS) {
        plain_erase(boot + trailer, size);
    }
    boot[length - 1] = TAINHOSA_STATUS_TESTING;
    plain_erase(update + trailer, size);
    return plain_check_image(boot, trailer, &running);
}

static void run_plain(void)
{
    if (!plain_update()) {
        fail("the plain update failed");
    }
}

/* ---- Ours */

static void run_ours(void)
{
    if (tainhosa_power_up(sectors, size, boot, length, update, length, swap, size, UINT64_MAX, answer, 6) != TAINHOSA_OK ||
        answer[TAINHOSA_POWER_UP_OUTCOME] != TAINHOSA_RUN_ON_TEST) {
        fail("the update failed");
    }
}

/* From counts of 0 on. */
static void run_counted(void)
{
    const size_t counts = TAINHOSA_ROW_LENGTH(sectors);
    memset(row, 0, counts * sizeof row[0]);
    if (tainhosa_power_up_counted(sectors, size, boot, length, update, length, swap, size, UINT64_MAX, row, counts, 0, answer,
                                  TAINHOSA_COUNTED_NUMBERS) != TAINHOSA_OK ||
        answer[TAINHOSA_POWER_UP_OUTCOME] != TAINHOSA_RUN_ON_TEST) {
        fail("the counted update failed");
    }
}

/* ---- Both */

static void restore(void)
{
    memcpy(boot, first_boot, length);
    memcpy(update, first_update, length);
    memcpy(swap, first_swap, size);
}

static void compare(action *one, action *other)
{
    uint8_t *done = room_for(2 * length + size);
    restore();
    one();
    memcpy(done, boot, length);
    memcpy(done + length, update, length);
    memcpy(done + 2 * length, swap, size);
    restore();
    other();
    if (memcmp(done, boot, length) != 0 || memcmp(done + length, update, length) != 0 ||
        memcmp(done + 2 * length, swap, size) != 0) {
        fail("two updates leave another flash");
    }
    if (answer[TAINHOSA_POWER_UP_COUNT] != 9 * (sectors - 1) + 3) {
        fail("the update took another number of operations");
    }
    free(done);
}

/* Two images, the second one newer and armed. They fill their sectors, or have one byte of firmware. */
static void prepare(size_t n, size_t s, bool filled)
{
    uint64_t count;
    const size_t firmware = filled ? (n - 1) * s - TAINHOSA_HEADER_LENGTH : 1;
    sectors = n;
    size = s;
    length = n * s;
    boot = room_for(length);
    update = room_for(length);
    swap = room_for(size);
    make_image_of(boot, length, size, firmware, 1);
    make_image_of(update, length, size, firmware, 2);
    memset(swap, 0xFF, size);
    boot[length - 1] = TAINHOSA_STATUS_SUCCESS;
    if (tainhosa_arm(n, s, boot, length, update, length, swap, size, &count, 1) != TAINHOSA_OK) {
        fail("tainhosa_arm refused");
    }
}

/* The same, and a copy of it to begin each run with. */
static void prepare_runs(size_t n, size_t s, bool filled)
{
    prepare(n, s, filled);
    first_boot = room_for(length);
    first_update = room_for(length);
    first_swap = room_for(size);
    memcpy(first_boot, boot, length);
    memcpy(first_update, update, length);
    memcpy(first_swap, swap, size);
}

static void free_all(void)
{
    free(boot);
    free(update);
    free(swap);
    free(first_boot);
    free(first_update);
    free(first_swap);
}

static void measure(size_t n, size_t s, bool each, bool filled)
{
    action *const sides[] = {run_ours, run_plain};
    double best[2];
    char what[80];
    prepare_runs(n, s, filled);
    compare(run_ours, run_plain);
    best_seconds(sides, 2, restore, best);
    snprintf(what, sizeof what, filled ? "update, %zu sectors of %zu KiB; plain C" : "%zu of %zu KiB, 1 B of firmware; plain C", n, s / 1024);
    print_row(what, "ms", 3, best[0] * 1e3, best[1] * 1e3);
    if (each) {
        snprintf(what, sizeof what, "update, for each of %zu firmware sectors", n - 1);
        print_row(what, "us", 1, best[0] * 1e6 / (double)(n - 1), best[1] * 1e6 / (double)(n - 1));
    }
    free_all();
}

/* With the erases counted beside the same without: the time of both, and how much more the first one takes. */
static void measure_counted(size_t n, size_t s)
{
    action *const sides[] = {run_counted, run_ours};
    double best[2];
    char what[80];
    prepare_runs(n, s, true);
    compare(run_ours, run_counted);
    if (answer[TAINHOSA_COUNTED_TOTAL] != 3 * (n - 1) + 2) {
        fail("the counted update counted another number of erases");
    }
    best_seconds(sides, 2, restore, best);
    snprintf(what, sizeof what, "counted, %zu of %zu KiB; not counted", n, s / 1024);
    print_row(what, "ms", 3, best[0] * 1e3, best[1] * 1e3);
    print_more("counted, the time that it takes more", best[0], best[1]);
    free_all();
}

int main(int words, char **word)
{
    if (words == 3) {
        prepare(strtoul(word[1], NULL, 10), strtoul(word[2], NULL, 10), true);
        run_ours();
        return 0;
    }
    measure(64, 131072, false, true);
    for (size_t n = 2; n <= TAINHOSA_SECTORS_MAX; n *= 2) {
        measure(n, 4096, true, true);
    }
    measure(TAINHOSA_SECTORS_MAX, 4096, false, false);
    measure_counted(64, 4096);
    return 0;
}
