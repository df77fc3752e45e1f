/*
 * Lost flags, mended: tainhosa_mend beside plain C that makes the same search. The firmware fills its sectors. Marks are looked at one
 * after another, so the time grows with the place of the one that fits: measured at the first, in the middle, at the last, which is all
 * 0, and where none fits, both headers good and every digest wrong. Fails if the two answer differently, or leave another flash.
 */
#include <stdio.h>
#include <stdlib.h>
#include <string.h>

#include "common.h"
#include "plain.h"
#include "tainhosa.h"

enum { SECTORS = 64, SIZE = 4096, FIRMWARE_SECTORS = SECTORS - 1, LENGTH = SECTORS * SIZE, STATUS = LENGTH - 1 };

/* What stands for a flag that was spoiled, in both halves of a byte. */
enum { SPOILED = 0x5A };

static uint8_t *boot, *update, *swap, *first_update;
static uint64_t ours[TAINHOSA_MEND_NUMBERS], plain[TAINHOSA_MEND_NUMBERS];
static uint32_t our_answer, plain_answer;

static void run_ours(void)
{
    our_answer = tainhosa_mend(SECTORS, SIZE, boot, LENGTH, update, LENGTH, swap, SIZE, ours, TAINHOSA_MEND_NUMBERS);
}

static void run_plain(void)
{
    plain_answer = plain_mend(SECTORS, SIZE, boot, update, swap, plain);
}

/* The flags as they were spoiled. */
static void restore(void)
{
    memcpy(update + FIRMWARE_SECTORS * SIZE, first_update + FIRMWARE_SECTORS * SIZE, SIZE);
}

static void compare(uint32_t answer, uint64_t sector, uint64_t flag)
{
    uint8_t *done = room_for(LENGTH);
    restore();
    run_ours();
    memcpy(done, update, LENGTH);
    restore();
    run_plain();
    if (our_answer != answer || plain_answer != answer) {
        fail("mending gave another answer");
    }
    if (memcmp(ours, plain, sizeof ours) != 0 || memcmp(done, update, LENGTH) != 0) {
        fail("two mendings differ");
    }
    if (ours[TAINHOSA_MEND_SECTOR] != sector || ours[TAINHOSA_MEND_FLAG] != flag) {
        fail("mending found another mark");
    }
    free(done);
}

/* A newer update, armed, after so many operations; what is not needed in SWAP is lost. */
static void cut_after(uint64_t operations)
{
    uint64_t answer[TAINHOSA_POWER_UP_NUMBERS];
    uint64_t count;
    make_image(boot, LENGTH, SIZE, 1);
    make_image(update, LENGTH, SIZE, 2);
    boot[STATUS] = TAINHOSA_STATUS_SUCCESS;
    if (tainhosa_arm(SECTORS, SIZE, boot, LENGTH, update, LENGTH, swap, SIZE, &count, 1) != TAINHOSA_OK ||
        tainhosa_power_up(SECTORS, SIZE, boot, LENGTH, update, LENGTH, swap, SIZE, operations, answer, TAINHOSA_POWER_UP_NUMBERS) !=
            TAINHOSA_OK) {
        fail("the update did not begin");
    }
    memset(swap, 0xFF, SIZE);
}

static void measure(const char *what, uint32_t answer, uint64_t sector, uint64_t flag)
{
    action *const sides[] = {run_ours, run_plain};
    double best[2];
    memset(update + STATUS - (FIRMWARE_SECTORS + 1) / 2, SPOILED, (FIRMWARE_SECTORS + 1) / 2);
    memcpy(first_update, update, LENGTH);
    compare(answer, sector, flag);
    best_seconds(sides, 2, restore, best);
    print_row(what, "ms", 3, best[0] * 1e3, best[1] * 1e3);
}

int main(void)
{
    boot = room_for(LENGTH);
    update = room_for(LENGTH);
    swap = room_for(SIZE);
    first_update = room_for(LENGTH);

    cut_after(0);
    measure("mend, 64 of 4 KiB, first mark; plain C", TAINHOSA_OK, 0, TAINHOSA_FLAG_UNTOUCHED);
    cut_after(9 * (FIRMWARE_SECTORS / 2));
    measure("mend, mark in the middle", TAINHOSA_OK, FIRMWARE_SECTORS / 2, TAINHOSA_FLAG_UNTOUCHED);
    cut_after(9 * FIRMWARE_SECTORS);
    measure("mend, last mark, all 0", TAINHOSA_OK, FIRMWARE_SECTORS, TAINHOSA_FLAG_EXCHANGED);
    boot[FIRMWARE_SECTORS * SIZE - 1] ^= 1;
    measure("mend, no mark fits", TAINHOSA_NO_MARK_FITS, 0, 0);

    free(boot);
    free(update);
    free(swap);
    free(first_update);
    return 0;
}
