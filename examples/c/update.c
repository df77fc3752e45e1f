/* An update that outlives a loss of power, on three sectors of 256 bytes in memory. examples/c/run builds and runs it. */
#include <stdio.h>
#include <stdlib.h>
#include <string.h>

#include "tainhosa.h"

enum { SECTORS = 3, SIZE = 256, PARTITION = SECTORS * SIZE, STATUS = PARTITION - 1 };

static uint8_t boot[PARTITION], update[PARTITION], swap[SIZE];
static const struct tainhosa_flash flash = {SECTORS, SIZE, boot, sizeof boot, update, sizeof update, swap, sizeof swap};

static void expect_ok(const char *call, uint32_t answer) {
    if (answer != TAINHOSA_OK) {
        printf("%s: refused %u\n", call, (unsigned)answer);
        exit(1);
    }
}

/* An image of as many firmware bytes, all the same, in an erased partition. */
static void make_image(const char *name, uint8_t *partition, uint32_t version, int fill, size_t size) {
    struct tainhosa_sheet sheet = {0};
    uint64_t place;
    uint8_t *firmware = partition + TAINHOSA_HEADER_LENGTH;
    memset(partition, 0xFF, PARTITION);
    memset(firmware, fill, size);
    sheet.version = version;
    sheet.timestamp = 1700000000;
    sheet.auth_type = 512;
    expect_ok("header_make", tainhosa_header_make(partition, PARTITION, firmware, size, &sheet, &place));
    printf("made version %u in %s\n", (unsigned)version, name);
}

static void show_version(const char *name, const uint8_t *partition) {
    struct tainhosa_header header;
    expect_ok("image_check", tainhosa_image_check(SECTORS, SIZE, partition, PARTITION, &header));
    printf("%s holds version %u\n", name, (unsigned)header.version);
}

static void power_up(uint64_t budget) {
    static const char *const outcomes[] = {"refused", "cut", "run", "run on test", "run, fallen back"};
    struct tainhosa_power_up_answer answer;
    expect_ok("power_up", tainhosa_flash_power_up(&flash, budget, &answer));
    printf("power-up: %s, operations %u\n", outcomes[answer.outcome], (unsigned)answer.count);
}

int main(void) {
    uint64_t count;
    make_image("BOOT", boot, 1, 'A', 200);
    boot[STATUS] = TAINHOSA_STATUS_SUCCESS;
    make_image("UPDATE", update, 2, 'B', 256);
    expect_ok("arm", tainhosa_flash_arm(&flash, &count));
    printf("armed, operations %u\n", (unsigned)count);
    power_up(4);
    memset(update, 0xA5, SIZE / 2);
    printf("power is lost: the copy to sector 0 of UPDATE is torn\n");
    power_up(UINT64_MAX);
    show_version("BOOT", boot);
    show_version("UPDATE", update);
    expect_ok("confirm", tainhosa_flash_confirm(&flash, &count));
    printf("confirmed, operations %u\n", (unsigned)count);
    power_up(UINT64_MAX);
    return 0;
}
