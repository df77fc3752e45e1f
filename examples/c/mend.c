/* An update that loses power, and then its sector flags, on three sectors of 256 bytes in memory. examples/c/run builds and runs it. */
#include <stdio.h>
#include <stdlib.h>
#include <string.h>

#include "tainhosa.h"

enum { SECTORS = 3, SIZE = 256, PARTITION = SECTORS * SIZE, STATUS = PARTITION - 1, FLAGS = PARTITION - 2 };

static uint8_t boot[PARTITION], update[PARTITION], swap[SIZE];
static const struct tainhosa_flash flash = {SECTORS, SIZE, boot, sizeof boot, update, sizeof update, swap, sizeof swap};

static void expect_ok(const char *call, uint32_t answer) {
    if (answer != TAINHOSA_OK) {
        printf("%s: refused %u\n", call, (unsigned)answer);
        exit(1);
    }
}

/* An image of 200 firmware bytes, all the same, in an erased partition. */
static void make_image(uint8_t *partition, uint32_t version, int fill) {
    struct tainhosa_sheet sheet = {0};
    uint64_t place;
    uint8_t *firmware = partition + TAINHOSA_HEADER_LENGTH;
    memset(partition, 0xFF, PARTITION);
    memset(firmware, fill, 200);
    sheet.version = version;
    expect_ok("header_make", tainhosa_header_make(partition, PARTITION, firmware, 200, &sheet, &place));
}

int main(void) {
    struct tainhosa_power_up_answer answer;
    struct tainhosa_mended mended;
    struct tainhosa_header header;
    uint64_t count;
    make_image(boot, 1, 'A');
    boot[STATUS] = TAINHOSA_STATUS_SUCCESS;
    make_image(update, 2, 'B');
    expect_ok("arm", tainhosa_flash_arm(&flash, &count));
    expect_ok("power_up", tainhosa_flash_power_up(&flash, 13, &answer));
    printf("power is lost after %u operations, flag byte %02X\n", (unsigned)answer.count, update[FLAGS]);

    update[FLAGS] = 0x4A;
    printf("a bad supply makes it %02X\n", update[FLAGS]);
    printf("power-up: refused %u\n", (unsigned)tainhosa_flash_power_up(&flash, UINT64_MAX, &answer));

    expect_ok("mend", tainhosa_flash_mend(&flash, &mended));
    printf("mended: sector %u, flag %X, bytes changed %u, flag byte %02X\n", (unsigned)mended.sector, mended.flag,
           (unsigned)mended.changed, update[FLAGS]);
    expect_ok("power_up", tainhosa_flash_power_up(&flash, UINT64_MAX, &answer));
    printf("power-up: run on test, operations %u\n", (unsigned)answer.count);
    expect_ok("image_check", tainhosa_image_check(SECTORS, SIZE, boot, PARTITION, &header));
    printf("BOOT holds version %u\n", (unsigned)header.version);
    return answer.outcome == TAINHOSA_RUN_ON_TEST ? 0 : 1;
}
