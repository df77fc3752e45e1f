/* The erase counts of an update that loses power, on three sectors of 256 bytes in memory. examples/c/run builds and runs it. */
#include <stdio.h>
#include <stdlib.h>
#include <string.h>

#include "tainhosa.h"

enum { SECTORS = 3, SIZE = 256, PARTITION = SECTORS * SIZE, STATUS = PARTITION - 1, ROW = TAINHOSA_ROW_LENGTH(SECTORS) };

static uint8_t boot[PARTITION], update[PARTITION], swap[SIZE];
static const struct tainhosa_flash flash = {SECTORS, SIZE, boot, sizeof boot, update, sizeof update, swap, sizeof swap};

/* Of a new printer: all 0. The printer keeps them as it keeps the flash. */
static uint32_t row[ROW];
static uint64_t total;

static void expect_ok(const char *call, uint32_t answer) {
    if (answer != TAINHOSA_OK) {
        printf("%s: refused %u\n", call, (unsigned)answer);
        exit(1);
    }
}

/* An image of 200 firmware bytes, all the same, in an erased partition. */
static void make_image(uint8_t *partition, uint32_t version, int fill) {
    struct tainhosa_sheet sheet = {0};
    uint64_t place;
    uint8_t *firmware = partition + TAINHOSA_HEADER_LENGTH;
    memset(partition, 0xFF, PARTITION);
    memset(firmware, fill, 200);
    sheet.version = version;
    expect_ok("header_make", tainhosa_header_make(partition, PARTITION, firmware, 200, &sheet, &place));
}

static void power_up(uint64_t budget) {
    struct tainhosa_power_up_answer answer;
    expect_ok("power_up_counted", tainhosa_flash_power_up_counted(&flash, budget, row, ROW, &total, &answer));
    printf("power-up: operations %u, erases in all %u\n", (unsigned)answer.count, (unsigned)total);
}

int main(void) {
    struct tainhosa_power_up_answer answer;
    uint64_t count;
    unsigned i;
    make_image(boot, 1, 'A');
    boot[STATUS] = TAINHOSA_STATUS_SUCCESS;
    make_image(update, 2, 'B');
    expect_ok("arm_counted", tainhosa_flash_arm_counted(&flash, row, ROW, &total, &count));
    power_up(4);
    printf("power is lost: the total too, and it is added up again\n");
    total = 0;
    printf("power-up with a total of 0: refused %u\n",
           (unsigned)tainhosa_flash_power_up_counted(&flash, UINT64_MAX, row, ROW, &total, &answer));
    for (i = 0; i < ROW; i++) {
        total += row[i];
    }
    power_up(UINT64_MAX);
    for (i = 0; i < SECTORS; i++) {
        printf("sector %u: BOOT %u, UPDATE %u\n", i, (unsigned)row[TAINHOSA_ROW_BOOT(i)], (unsigned)row[TAINHOSA_ROW_UPDATE(SECTORS, i)]);
    }
    printf("SWAP %u\n", (unsigned)row[TAINHOSA_ROW_SWAP(SECTORS)]);
    return 0;
}
