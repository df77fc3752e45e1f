/*
 * The stack that each call takes: it runs on a stack of its own that was painted before, and the painted bytes that are left are
 * counted. What a function that does nothing takes in the same way is subtracted; arguments that lie on the stack are not, so a call
 * of many arguments counts some bytes of its caller. Of a call with several inputs the most counts:
 * once of the inputs whose headers have their tags, and once of those with a header of padding, which makes the longest walk.
 * The digest covers what stands before its tag: images are tried whose digest's tag is at 28, where tainhosa_write_header puts it, and
 * elsewhere, with firmwares of several lengths, so that its last block lies in every way and takes one more or not.
 * A call that takes as much as its limit or more ends the program with 1.
 */
#define _XOPEN_SOURCE 700

#include <stdio.h>
#include <string.h>
#include <ucontext.h>

#include "common.h"
#include "tainhosa.h"

enum { STACK = 256 * 1024, PAINT = 0xA5, SECTORS = TAINHOSA_SECTORS_MAX, SIZE = 4096, LENGTH = SECTORS * SIZE, STATUS = LENGTH - 1 };

/* Mending looks at the images once for each mark: small sectors, and as many only once. */
enum { MEND_SIZE = 512, MEND_SECTORS = 8 };

static uint8_t stack[STACK];
static ucontext_t here, there;
static uint8_t boot[LENGTH], update[LENGTH], swap[SIZE], header[TAINHOSA_HEADER_LENGTH];
static uint64_t numbers[TAINHOSA_COUNTED_NUMBERS], total;
static uint32_t row[TAINHOSA_ROW_LENGTH(SECTORS)];
static uint8_t bytes[128], digest[32];
static char sheet[512];
static uint32_t answer;
static size_t at;
static size_t firmware_length, mend_sectors, mend_length;

static long used(action *call)
{
    size_t left = 0;
    memset(stack, PAINT, sizeof stack);
    getcontext(&there);
    there.uc_stack.ss_sp = stack;
    there.uc_stack.ss_size = sizeof stack;
    there.uc_link = &here;
    makecontext(&there, call, 0);
    swapcontext(&here, &there);
    while (left < sizeof stack && stack[left] == PAINT) {
        left++;
    }
    return (long)(sizeof stack - left);
}

/* ---- The calls */

static void nothing(void)
{
}

static void sha256(void)
{
    answer = tainhosa_sha256(boot, LENGTH - 5, digest, 32);
}

static void read_header(void)
{
    answer = tainhosa_read_header(header, sizeof header, numbers, 6, bytes, 128);
}

static void write_header(void)
{
    answer = tainhosa_write_header(header, sizeof header, LENGTH - SIZE - 256, 7, 1700000000, 512, true, bytes, 128, numbers, 1);
}

static void read_sealed(void)
{
    answer = tainhosa_read_sealed(header, sizeof header, numbers, 6, bytes, 128);
}

static void write_sealed(void)
{
    answer = tainhosa_write_sealed(header, sizeof header, LENGTH - SIZE - 256, 7, 1700000000, 512, true, bytes, 128, numbers, 1);
}

static void next_tag(void)
{
    answer = tainhosa_next_tag(header, sizeof header, at, numbers, 6);
}

static void check_image(void)
{
    answer = tainhosa_check_image(SECTORS, SIZE, boot, LENGTH, numbers, 6, bytes, 128);
}

static void arm(void)
{
    answer = tainhosa_arm(SECTORS, SIZE, boot, LENGTH, update, LENGTH, swap, SIZE, numbers, 1);
}

static void power_up(void)
{
    answer = tainhosa_power_up(SECTORS, SIZE, boot, LENGTH, update, LENGTH, swap, SIZE, UINT64_MAX, numbers, 6);
}

static void confirm(void)
{
    answer = tainhosa_confirm(SECTORS, SIZE, boot, LENGTH, update, LENGTH, swap, SIZE, numbers, 1);
}

static void mend(void)
{
    answer = tainhosa_mend(mend_sectors, MEND_SIZE, boot, mend_length, update, mend_length, swap, MEND_SIZE, numbers,
                           TAINHOSA_MEND_NUMBERS);
}

static void power_up_counted(void)
{
    answer = tainhosa_power_up_counted(SECTORS, SIZE, boot, LENGTH, update, LENGTH, swap, SIZE, UINT64_MAX, row,
                                       TAINHOSA_ROW_LENGTH(SECTORS), total, numbers, TAINHOSA_COUNTED_NUMBERS);
    total = numbers[TAINHOSA_COUNTED_TOTAL];
}

static void arm_counted(void)
{
    answer = tainhosa_arm_counted(SECTORS, SIZE, boot, LENGTH, update, LENGTH, swap, SIZE, row, TAINHOSA_ROW_LENGTH(SECTORS), total,
                                  numbers, TAINHOSA_COUNTED_COMMAND_NUMBERS);
    total = numbers[TAINHOSA_COUNTED_COMMAND_TOTAL];
}

static void check_firmware(void)
{
    answer = tainhosa_check_firmware(boot, LENGTH - SIZE, numbers, 6, bytes, 128);
}

static void read_sheet(void)
{
    answer = tainhosa_read_sheet((const uint8_t *)sheet, strlen(sheet), numbers, TAINHOSA_SHEET_NUMBERS, bytes, TAINHOSA_SHEET_BYTES);
}

static void make_header(void)
{
    answer = tainhosa_make_header(header, sizeof header, boot, firmware_length, 7, 1700000000, 512, true, bytes, TAINHOSA_SHEET_BYTES,
                                  numbers, 1);
}

/* A sheet with a hint: 32 and 64 bytes as hexadecimal digits. */
static void make_sheet(void)
{
    size_t n = (size_t)snprintf(sheet, sizeof sheet, "version 7\ntimestamp 1700000000\nauth 512\nsignature ");
    memset(sheet + n, 'a', 128);
    n += 128;
    n += (size_t)snprintf(sheet + n, sizeof sheet - n, "\nhint ");
    memset(sheet + n, 'b', 64);
    sheet[n + 64] = '\n';
}

/* ---- What each took */

enum { READ_HEADER, CHECK_IMAGE, POWER_UP, ARM, CONFIRM, SHA256, WRITE_HEADER, NEXT_TAG, CHECK_FIRMWARE, READ_SHEET, MAKE_HEADER, MEND,
       POWER_UP_COUNTED, ARM_COUNTED, READ_SEALED, WRITE_SEALED, CALLS };

enum { WRITTEN, PADDED, KINDS };

/* The old board has 2 KiB for all. The two calls with a limit of their own passed it while a block had 64 message words and a table of
   constants on the stack. Of the digest 800 are asked for; it takes 572, and 48 words more, which are 192 bytes, pass 700. */
enum { BOARD = 2048, DIGEST = 700, EXCHANGE = 1700 };

static const struct {
    const char *name;
    action *call;
    long limit;
} calls[CALLS] = {
    {"tainhosa_read_header", read_header, BOARD},   {"tainhosa_check_image", check_image, BOARD},
    {"tainhosa_power_up", power_up, EXCHANGE},      {"tainhosa_arm", arm, BOARD},
    {"tainhosa_confirm", confirm, BOARD},           {"tainhosa_sha256", sha256, DIGEST},
    {"tainhosa_write_header", write_header, BOARD}, {"tainhosa_next_tag", next_tag, BOARD},
    {"tainhosa_check_firmware", check_firmware, BOARD}, {"tainhosa_read_sheet", read_sheet, BOARD},
    {"tainhosa_make_header", make_header, BOARD},   {"tainhosa_mend", mend, BOARD},
    {"tainhosa_power_up_counted", power_up_counted, BOARD}, {"tainhosa_arm_counted", arm_counted, BOARD},
    {"tainhosa_read_sealed", read_sealed, BOARD},   {"tainhosa_write_sealed", write_sealed, BOARD},
};

static long most[KINDS][CALLS];
static int kind = WRITTEN;

static void take(int which, uint32_t expected)
{
    long n = used(calls[which].call) - used(nothing);
    if (answer != expected) {
        fail("a call on the painted stack gave another answer");
    }
    most[kind][which] = n > most[kind][which] ? n : most[kind][which];
}

static void print_all(void)
{
    char what[80];
    for (int i = 0; i < CALLS; i++) {
        snprintf(what, sizeof what, "stack, %s", calls[i].name);
        print_bytes(what, most[WRITTEN][i]);
        if (most[PADDED][i] > 0) {
            snprintf(what, sizeof what, "stack, the same on a header of padding");
            print_bytes(what, most[PADDED][i]);
        }
        if (most[WRITTEN][i] >= calls[i].limit || most[PADDED][i] >= calls[i].limit) {
            fail("a call reaches its limit of stack");
        }
    }
}

static void expect_outcome(uint64_t outcome)
{
    if (numbers[TAINHOSA_POWER_UP_OUTCOME] != outcome) {
        fail("a power-up on the painted stack had another outcome");
    }
}

/* ---- Images */

/* How an image differs from one that make_image makes: bytes of padding before its tags, and bytes of firmware that it has less. */
struct shape {
    size_t padding;
    size_t less;
};

static struct shape shape;

/* The digest's tag is at 28, at 56, from where the length of a firmware of whole blocks takes a block more, and at 63, 64, 65 and 108. */
enum { ALL_BUT_ONE = LENGTH - SIZE - TAINHOSA_HEADER_LENGTH - 1 };
static const struct shape shapes[] = {
    {0, 0}, {28, 0}, {35, 0}, {36, 0}, {37, 0}, {80, 0}, {0, 1}, {0, 36}, {0, ALL_BUT_ONE}, {28, ALL_BUT_ONE}, {36, ALL_BUT_ONE},
};

/* The same for mending. The firmware ends with its last sector, near its front, and with its first byte. */
static const struct shape mend_shapes[] = {
    {0, 0}, {28, 0}, {35, 0}, {36, 0}, {37, 0}, {80, 0}, {0, 484}, {28, 484}, {36, 484}, {0, 511}, {28, 511}, {36, 511},
};

static void make(uint8_t *partition, size_t length, size_t sector_size, uint32_t version)
{
    uint8_t *tags = partition + TAINHOSA_FIRST_TAG;
    make_image(partition, length, sector_size, version);
    memmove(tags + shape.padding, tags, TAINHOSA_HEADER_LENGTH - TAINHOSA_FIRST_TAG - shape.padding);
    memset(tags, TAINHOSA_PADDING, shape.padding);
    const size_t firmware = length - sector_size - TAINHOSA_HEADER_LENGTH - shape.less;
    for (int i = 0; i < 4; i++) {
        partition[TAINHOSA_FIRMWARE_SIZE_AT + i] = (uint8_t)(firmware >> 8 * i);
    }
    sign_image(partition, length - sector_size);
}

static void pad_header(uint8_t *p)
{
    memset(p + TAINHOSA_FIRST_TAG, TAINHOSA_PADDING, TAINHOSA_HEADER_LENGTH - TAINHOSA_FIRST_TAG);
}

/* Plain, an update, a fallback, an update that is kept, one that is turned down, and a digest that is wrong; by these calls, which count
   erases or not. */
static void take_images(int power_up_call, int arm_call)
{
    make(boot, LENGTH, SIZE, 1);
    make(update, LENGTH, SIZE, 2);
    boot[STATUS] = TAINHOSA_STATUS_SUCCESS;
    take(CHECK_IMAGE, TAINHOSA_OK);
    take(CHECK_FIRMWARE, TAINHOSA_OK);
    take(power_up_call, TAINHOSA_OK);
    expect_outcome(TAINHOSA_RUN);
    take(arm_call, TAINHOSA_OK);
    take(power_up_call, TAINHOSA_OK);
    expect_outcome(TAINHOSA_RUN_ON_TEST);
    take(power_up_call, TAINHOSA_OK);
    expect_outcome(TAINHOSA_RUN_FALLEN_BACK);
    make(update, LENGTH, SIZE, 2);
    take(arm_call, TAINHOSA_OK);
    take(power_up_call, TAINHOSA_OK);
    expect_outcome(TAINHOSA_RUN_ON_TEST);
    take(CONFIRM, TAINHOSA_OK);
    make(update, LENGTH, SIZE, 1);
    take(arm_call, TAINHOSA_OK);
    take(power_up_call, TAINHOSA_OK);
    expect_outcome(TAINHOSA_RUN);
    boot[TAINHOSA_HEADER_LENGTH] ^= 1;
    take(CHECK_IMAGE, TAINHOSA_WRONG_DIGEST);
    take(CHECK_FIRMWARE, TAINHOSA_WRONG_DIGEST);
    take(power_up_call, TAINHOSA_BAD_BOOT);
    take(CONFIRM, TAINHOSA_WRONG_TIME);
    boot[TAINHOSA_HEADER_LENGTH] ^= 1;
}

/* Counts that are refused: the total is wrong, a count is too high. */
static void take_refused_counts(void)
{
    total++;
    take(POWER_UP_COUNTED, TAINHOSA_WRONG_TOTAL);
    take(ARM_COUNTED, TAINHOSA_WRONG_TOTAL);
    memset(row, 0, sizeof row);
    row[TAINHOSA_ROW_SWAP(SECTORS)] = UINT32_MAX;
    total = UINT32_MAX;
    take(POWER_UP_COUNTED, TAINHOSA_COUNT_TOO_HIGH);
    take(ARM_COUNTED, TAINHOSA_COUNT_TOO_HIGH);
    row[TAINHOSA_ROW_SWAP(SECTORS)] = 0;
    total = 0;
}

/* Padding: in UPDATE when armed, in BOOT, and in UPDATE when a fallback is due. */
static void take_padded_images(int power_up_call)
{
    make(boot, LENGTH, SIZE, 1);
    boot[STATUS] = TAINHOSA_STATUS_SUCCESS;
    make(update, LENGTH, SIZE, 3);
    pad_header(update);
    if (tainhosa_arm(SECTORS, SIZE, boot, LENGTH, update, LENGTH, swap, SIZE, numbers, 1) != TAINHOSA_OK) {
        fail("tainhosa_arm refused");
    }
    take(power_up_call, TAINHOSA_OK);
    expect_outcome(TAINHOSA_RUN);
    boot[STATUS] = TAINHOSA_STATUS_TESTING;
    take(power_up_call, TAINHOSA_NO_FALLBACK);
    boot[STATUS] = TAINHOSA_STATUS_SUCCESS;
    pad_header(boot);
    take(CHECK_IMAGE, TAINHOSA_NO_END);
    take(power_up_call, TAINHOSA_BAD_BOOT);
}

/* ---- Lost flags */

/* An update on small sectors that lost power in this move of the middle sector, and then its flags. */
static void lose_flags(unsigned move)
{
    const uint64_t operations = 9 * (mend_sectors / 2) + 3 * move + 1;
    make(boot, mend_length, MEND_SIZE, 1);
    make(update, mend_length, MEND_SIZE, 2);
    boot[mend_length - 1] = TAINHOSA_STATUS_SUCCESS;
    if (tainhosa_arm(mend_sectors, MEND_SIZE, boot, mend_length, update, mend_length, swap, MEND_SIZE, numbers, 1) != TAINHOSA_OK ||
        tainhosa_power_up(mend_sectors, MEND_SIZE, boot, mend_length, update, mend_length, swap, MEND_SIZE, operations, numbers, 6) !=
            TAINHOSA_OK) {
        fail("the update did not begin");
    }
    memset(update + mend_length - 1 - mend_sectors / 2, 0x5A, mend_sectors / 2);
}

static void expect_mark(uint64_t flag)
{
    if (numbers[TAINHOSA_MEND_SECTOR] != mend_sectors / 2 || numbers[TAINHOSA_MEND_FLAG] != flag) {
        fail("mending on the painted stack found another mark");
    }
}

/* Each mark of a sector, none that fits, and none by the versions. */
static void take_mends(void)
{
    lose_flags(0);
    take(MEND, TAINHOSA_OK);
    expect_mark(TAINHOSA_FLAG_UNTOUCHED);
    lose_flags(1);
    take(MEND, TAINHOSA_OK);
    expect_mark(TAINHOSA_FLAG_SAVED);
    lose_flags(2);
    take(MEND, TAINHOSA_OK);
    expect_mark(TAINHOSA_FLAG_MOVED);
    update[TAINHOSA_HEADER_LENGTH] ^= 1;
    boot[TAINHOSA_HEADER_LENGTH] ^= 1;
    take(MEND, TAINHOSA_NO_MARK_FITS);
    make(update, mend_length, MEND_SIZE, 1);
    update[mend_length - 1] = TAINHOSA_STATUS_UPDATING;
    make(boot, mend_length, MEND_SIZE, 1);
    take(MEND, TAINHOSA_NO_MARK_FITS);
}

/* A header of padding in BOOT, in UPDATE, and in SWAP too. */
static void take_padded_mends(void)
{
    lose_flags(0);
    pad_header(boot);
    take(MEND, TAINHOSA_NO_MARK_FITS);
    lose_flags(0);
    pad_header(update);
    take(MEND, TAINHOSA_NO_MARK_FITS);
    pad_header(boot);
    pad_header(swap);
    take(MEND, TAINHOSA_NO_MARK_FITS);
}

static void set_mend_sectors(size_t sectors)
{
    mend_sectors = sectors;
    mend_length = sectors * MEND_SIZE;
}

int main(void)
{
    make(boot, LENGTH, SIZE, 1);
    memset(swap, 0xFF, SIZE);

    take(SHA256, TAINHOSA_OK);
    take(WRITE_HEADER, TAINHOSA_OK);
    take(READ_HEADER, TAINHOSA_OK);
    take(WRITE_SEALED, TAINHOSA_OK);
    take(READ_SEALED, TAINHOSA_OK);
    header[sizeof header - 1] ^= 1;
    take(READ_SEALED, TAINHOSA_NOT_SEALED);
    at = TAINHOSA_FIRST_TAG;
    take(NEXT_TAG, TAINHOSA_OK);
    make_sheet();
    take(READ_SHEET, TAINHOSA_OK);
    for (firmware_length = LENGTH - 64; firmware_length < LENGTH; firmware_length += 7) {
        take(MAKE_HEADER, TAINHOSA_OK);
    }
    for (size_t i = 0; i < sizeof shapes / sizeof shapes[0]; i++) {
        shape = shapes[i];
        take_images(POWER_UP, ARM);
        take_images(POWER_UP_COUNTED, ARM_COUNTED);
    }
    take_refused_counts();
    for (size_t i = 0; i < sizeof mend_shapes / sizeof mend_shapes[0]; i++) {
        shape = mend_shapes[i];
        set_mend_sectors(i == 0 ? SECTORS : MEND_SECTORS);
        take_mends();
    }

    kind = PADDED;
    shape = shapes[0];
    pad_header(header);
    take(READ_HEADER, TAINHOSA_NO_END);
    take(READ_SEALED, TAINHOSA_NO_END);
    take(NEXT_TAG, TAINHOSA_NO_END);
    take_padded_images(POWER_UP);
    take_padded_images(POWER_UP_COUNTED);
    set_mend_sectors(SECTORS);
    take_padded_mends();

    print_all();
    return 0;
}
