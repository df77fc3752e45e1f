/*
 * tainhosa.h: a firmware loader that loses no image when power is lost.
 *
 * A buffer is passed as a pointer and a length. The pointer is not null, also at length 0; it has the alignment of its type; and
 * a buffer that a call writes overlaps no other buffer of that call. Any bytes, numbers and lengths may be passed.
 *
 * Every call answers TAINHOSA_OK or the number of a refusal. Each call names below the length of the buffers that it fills
 * with its answer. Where one has another length, the answer is TAINHOSA_OUTSIDE_RULES and no buffer changes; that is the first
 * thing that a call looks at. The refusals of a call are named in the order in which it comes to them. A refusal has a place, in
 * the buffer that the call says; where none is named, here or at the call, the place is 0.
 *
 * At the end of this file each call stands once more, over structs: there no length and no place of a row is typed by hand.
 *
 * The archive is for x86-64 with SSE2, and its code uses the red zone below the stack pointer: an interrupt handler on the same
 * stack must leave these 128 bytes alone. BOOT, UPDATE and SWAP are buffers in memory: a store to them stands for an operation of the
 * flash, and it is the caller's part that it becomes one.
 */
#ifndef TAINHOSA_H
#define TAINHOSA_H

#include <stdbool.h>
#include <stddef.h>
#include <stdint.h>

#ifdef __cplusplus
extern "C" {
#endif

/* ---- The version of this interface, and its number: 10000 for each major, 100 for each minor */

#define TAINHOSA_VERSION_MAJOR 0
#define TAINHOSA_VERSION_MINOR 8
#define TAINHOSA_VERSION_PATCH 0
#define TAINHOSA_VERSION_NUMBER (TAINHOSA_VERSION_MAJOR * 10000 + TAINHOSA_VERSION_MINOR * 100 + TAINHOSA_VERSION_PATCH)

/* Of every call: its answer is to be looked at, and no pointer is null. A compiler that knows how to warns where it is not so. */
#if defined(__GNUC__)
#define TAINHOSA_CALL __attribute__((warn_unused_result, nonnull))
#else
#define TAINHOSA_CALL
#endif

/* ---- Answers */

#define TAINHOSA_OK 0
#define TAINHOSA_OUTSIDE_RULES 1      /* the geometry, or a buffer's length */
#define TAINHOSA_WRONG_MAGIC 2        /* at 0 */
#define TAINHOSA_WRONG_SIZE 3         /* firmware size 0, or more than the sectors hold; at 4 */
#define TAINHOSA_TAG_DOES_NOT_FIT 4   /* at the tag's first byte, as 5, 6 and 18 */
#define TAINHOSA_TAG_WRONG_LENGTH 5
#define TAINHOSA_TAG_REPEATED 6
#define TAINHOSA_NO_END 7             /* at 256 */
#define TAINHOSA_TAG_MISSING 8        /* in the place of a place: the type that is missing */
#define TAINHOSA_WRONG_DIGEST 9       /* at 256 */
#define TAINHOSA_STATUS_NOT_ALLOWED 10 /* a status byte that BOOT or UPDATE cannot hold */
#define TAINHOSA_FLAGS_MALFORMED 11   /* sector flags that no exchange leaves */
#define TAINHOSA_BAD_BOOT 12          /* with the image's own number and place */
#define TAINHOSA_NO_FALLBACK 13       /* with the image's own number and place */
#define TAINHOSA_WRONG_TIME 14        /* arm, confirm or mend when it is not allowed */
#define TAINHOSA_NOT_NEWER 15         /* only as the reason why an update was turned down */
#define TAINHOSA_SHORT_HEADER 16      /* fewer than 256 bytes to read or write a header; at 0 */
#define TAINHOSA_NO_MARK_FITS 17      /* lost flags that can't be found: under none are both images good and the update newer */
#define TAINHOSA_TAG_NOT_UNDERSTOOD 18 /* a tag that must be understood, and of a type that is not known */
#define TAINHOSA_WRONG_TOTAL 19       /* a total that is not the sum of the erase counts */
#define TAINHOSA_COUNT_TOO_HIGH 20    /* an erase count without room for the erases of a power-up */
#define TAINHOSA_NOT_SEALED 21        /* at the first byte that differs from the written form; without a hint at 138, or before */

/* Of a release sheet; the line, counted from 1, stands for the place. */
#define TAINHOSA_LINE_NOT_UNDERSTOOD 101 /* no space in it */
#define TAINHOSA_NAME_NOT_KNOWN 102
#define TAINHOSA_VALUE_NOT_ALLOWED 103   /* malformed, or out of range */
#define TAINHOSA_NAME_REPEATED 104
#define TAINHOSA_NAME_MISSING 105        /* in the place of a line: the type of the header's tag that is missing */

/* ---- The header: 256 bytes, then the firmware */

#define TAINHOSA_HEADER_LENGTH 256
#define TAINHOSA_MAGIC 0x54524543     /* bytes 0 to 3, low byte first: 43 45 52 54 */
#define TAINHOSA_MAGIC_AT 0
#define TAINHOSA_FIRMWARE_SIZE_AT 4   /* the firmware's size in bytes, bytes 4 to 7 */
#define TAINHOSA_FIRST_TAG 8
#define TAINHOSA_PADDING 0xFF         /* a byte that stands for nothing, before a tag or the end */

/* The types of its tags. A tag is its type and its length, two bytes each, low byte first, and then its value. */
#define TAINHOSA_TYPE_END 0x0000      /* the type alone ends the header */
#define TAINHOSA_TYPE_VERSION 0x0001
#define TAINHOSA_TYPE_TIMESTAMP 0x0002
#define TAINHOSA_TYPE_DIGEST 0x0003   /* SHA-256 over the header's bytes before this tag, and then over the firmware */
#define TAINHOSA_TYPE_SIGNATURE 0x0020
#define TAINHOSA_TYPE_AUTH_TYPE 0x0030
#define TAINHOSA_TYPE_HINT 0x1000     /* the only one that may be missing */

/*
 * From this type up a tag must be understood: who does not know its type must not use the header. None of these types is known here, so
 * that each of them is refused. A lower type that is not known is skipped. (No type has the low byte FF, which is padding there.)
 */
#define TAINHOSA_FIRST_CRITICAL_TYPE 0x8000

/* The lengths of the values that are numbers, low byte first; those of the others stand below. */
#define TAINHOSA_VERSION_BYTES 4
#define TAINHOSA_TIMESTAMP_BYTES 8
#define TAINHOSA_AUTH_TYPE_BYTES 2

/* A header's numbers: a row of 6, the first of them the place of a refusal, 0 where there is none. */
#define TAINHOSA_HEADER_NUMBERS 6
#define TAINHOSA_HEADER_PLACE 0
#define TAINHOSA_HEADER_SIZE 1
#define TAINHOSA_HEADER_VERSION 2
#define TAINHOSA_HEADER_TIMESTAMP 3
#define TAINHOSA_HEADER_AUTH_TYPE 4
#define TAINHOSA_HEADER_HAS_HINT 5    /* 1 with a hint, 0 without */

/* A header's bytes: 128, the digest at 0, the signature at 32, the hint at 96. */
#define TAINHOSA_HEADER_BYTES 128
#define TAINHOSA_DIGEST_AT 0
#define TAINHOSA_DIGEST_BYTES 32
#define TAINHOSA_SIGNATURE_AT 32
#define TAINHOSA_SIGNATURE_BYTES 64
#define TAINHOSA_HINT_AT 96
#define TAINHOSA_HINT_BYTES 32

/*
 * Reads the header in the first 256 bytes of the input. What follows them is not looked at.
 * OK: numbers (6) and bytes (128) hold the header's values; without a hint its 32 bytes are 0.
 * Refused with 16, 2, 3 (size 0 only), 4, 18, 5, 6, 7 or 8: numbers[TAINHOSA_HEADER_PLACE] is the place, all else in both is 0. The tags
 * are looked at one behind another, each for 4, 18, 5 and 6; the first that has one of these decides. What stands behind the end is not
 * read.
 */
TAINHOSA_CALL uint32_t tainhosa_read_header(const uint8_t *input, size_t input_length,
                                            uint64_t *numbers, size_t numbers_length,
                                            uint8_t *bytes, size_t bytes_length);

/* What tainhosa_write_header, tainhosa_write_sealed and tainhosa_make_header answer: one number, the place of a refusal. */
#define TAINHOSA_WRITE_NUMBERS 1
#define TAINHOSA_WRITE_PLACE 0

/*
 * Writes a header into the first 256 bytes of out, and leaves the bytes behind them. The bytes (128) hold the digest, the
 * signature and the hint; without a hint the last 32 are not used. The digest is written as it is passed; tainhosa_make_header makes
 * the one of a firmware.
 * OK: the header stands in out, and reads back to these values; place[0] is 0.
 * Refused with 1 (bytes are not 128, or place is not 1 number): nothing changes. With 16 or 3 (size 0 only): out stays as it was,
 * and place[0] is the place.
 */
TAINHOSA_CALL uint32_t tainhosa_write_header(uint8_t *out, size_t out_length,
                                             uint32_t size, uint32_t version, uint64_t timestamp, uint16_t auth_type, bool has_hint,
                                             const uint8_t *bytes, size_t bytes_length,
                                             uint64_t *place, size_t place_length);

/* A tag: a row of 6. */
#define TAINHOSA_TAG_NUMBERS 6
#define TAINHOSA_TAG_REFUSED_AT 0     /* the place of a refusal, else 0 */
#define TAINHOSA_TAG_FOUND 1          /* 1 for a tag; 0 at the end and beside a refusal */
#define TAINHOSA_TAG_PLACE 2          /* the tag's first byte, its type and its length; 0 where there is no tag */
#define TAINHOSA_TAG_TYPE 3
#define TAINHOSA_TAG_LENGTH 4
#define TAINHOSA_TAG_NEXT 5           /* where to go on: behind the tag; where there is none, the place that was passed */

/*
 * The first tag of the header in the input from the place `at` on, whatever its type; padding is gone over. Begin at
 * TAINHOSA_FIRST_TAG, and go on at the place given back. Magic, size, the lengths that the types ask for, and whether a tag must be
 * understood, are not looked at.
 * OK: tag (6) holds the tag, or says that the end was found.
 * Refused with 16 (the input is below 256 bytes), 7 (`at` is 256 or above, or only padding is left) or 4: tag holds the place of
 * the refusal and the place that was passed, all else is 0. Asked again there, the end and a refusal come again.
 */
TAINHOSA_CALL uint32_t tainhosa_next_tag(const uint8_t *input, size_t input_length, size_t at,
                                         uint64_t *tag, size_t tag_length);

/* ---- Sealed headers: one form only, for headers that are compared byte by byte */

/*
 * A sealed header is what tainhosa_write_header writes with a hint, and no other: the six tags in the order of their types, from byte 8 to
 * 173, no padding, no other tag, the end, and FF from byte 176 on. Two sealed headers have the same values exactly if their 256 bytes are
 * equal.
 */

/*
 * Reads the header in the first 256 bytes of the input, and takes it only if it is sealed. What follows them is not looked at.
 * OK: numbers (6) and bytes (128) hold the header's values, as tainhosa_read_header gives them; there is a hint.
 * Refused with what tainhosa_read_header refuses; or, where that takes the header, with 21, at the first byte that differs from what
 * tainhosa_write_header writes of the values read. Without a hint that is at 138, where the hint's tag would stand, unless a byte before
 * differs. numbers[TAINHOSA_HEADER_PLACE] is the place, all else in both is 0.
 */
TAINHOSA_CALL uint32_t tainhosa_read_sealed(const uint8_t *input, size_t input_length,
                                            uint64_t *numbers, size_t numbers_length,
                                            uint8_t *bytes, size_t bytes_length);

/*
 * Writes a sealed header into the first 256 bytes of out: as tainhosa_write_header, but a hint has to be there.
 * OK: the header stands in out, is sealed, and reads back to these values; place[0] is 0.
 * Refused with 1 (bytes are not 128, or place is not 1 number): nothing changes. With 16, 3 (size 0 only) or 21 (without a hint, at 138):
 * out stays as it was, and place[0] is the place.
 */
TAINHOSA_CALL uint32_t tainhosa_write_sealed(uint8_t *out, size_t out_length,
                                             uint32_t size, uint32_t version, uint64_t timestamp, uint16_t auth_type, bool has_hint,
                                             const uint8_t *bytes, size_t bytes_length,
                                             uint64_t *place, size_t place_length);

/* ---- The release sheet: what a header states beside its size and its digest */

/* A sheet's numbers: a row of 5, the first of them the line of a refusal, 0 where there is none. */
#define TAINHOSA_SHEET_NUMBERS 5
#define TAINHOSA_SHEET_LINE 0
#define TAINHOSA_SHEET_VERSION 1
#define TAINHOSA_SHEET_TIMESTAMP 2
#define TAINHOSA_SHEET_AUTH_TYPE 3
#define TAINHOSA_SHEET_HAS_HINT 4     /* 1 with a hint, 0 without */

/* A sheet's bytes: 96, the signature at 0, the hint at 64. */
#define TAINHOSA_SHEET_BYTES 96
#define TAINHOSA_SHEET_SIGNATURE_AT 0
#define TAINHOSA_SHEET_HINT_AT 64

/*
 * Reads the text of a release sheet. A line ends at LF; the last one may lack it. Empty lines, and lines whose first byte is #, are
 * passed over. Every other line is a name, one space and a value, and each of these names stands exactly once, in any order:
 *   version      decimal digits, a number below 2^32
 *   timestamp    decimal digits, a number below 2^64
 *   auth         decimal digits, a number below 2^16
 *   signature    128 hexadecimal digits, of either case
 *   hint         64 hexadecimal digits, or the word no
 * OK: numbers (5) and bytes (96) hold the sheet's values; without a hint its 32 bytes are 0.
 * Refused by the first line that does not fit, with 101, 102, 103 or 104, looked at in this order; or with 105, where every line fits
 * and a name is missing: numbers[TAINHOSA_SHEET_LINE] is the line, of 105 the smallest type that is missing; all else in both is 0.
 */
TAINHOSA_CALL uint32_t tainhosa_read_sheet(const uint8_t *text, size_t text_length,
                                           uint64_t *numbers, size_t numbers_length,
                                           uint8_t *bytes, size_t bytes_length);

/*
 * Makes the header of a firmware in the first 256 bytes of out, and leaves the bytes behind them: the size is the firmware's, the digest
 * is made here, all else is passed, as a sheet states it. The digest covers the header's bytes before the digest tag, 0 to 27, which
 * hold magic, size, version and timestamp, and then the firmware. The bytes (96) hold the signature and the hint; without a hint the
 * last 32 are not used; neither has a say in the digest. An image is this header and then the firmware.
 * OK: the header stands in out; place[0] is 0.
 * Refused with 1 (bytes are not 96, or place is not 1 number): nothing changes. With 16 or 3 (the firmware is empty, or of 2^32 bytes
 * or more): out stays as it was, and place[0] is the place.
 */
TAINHOSA_CALL uint32_t tainhosa_make_header(uint8_t *out, size_t out_length,
                                            const uint8_t *firmware, size_t firmware_length,
                                            uint32_t version, uint64_t timestamp, uint16_t auth_type, bool has_hint,
                                            const uint8_t *bytes, size_t bytes_length,
                                            uint64_t *place, size_t place_length);

/* ---- Images and flash */

/*
 * A partition, BOOT or UPDATE, has `sectors` sectors of `size` bytes: an image from byte 0 on, and in its last sector the
 * trailer, whose last byte is the status. SWAP is one sector. The trailer, one byte and half a byte for each sector before
 * it, rounded up, fits the last sector: 512 sectors of 256 bytes are refused with 1, 511 are taken. A partition has at most 64 MiB.
 */
#define TAINHOSA_SECTORS_MIN 2
#define TAINHOSA_SECTORS_MAX 512
#define TAINHOSA_SIZE_UNIT 256        /* a sector's size is a multiple */
#define TAINHOSA_SIZE_MIN 256
#define TAINHOSA_SIZE_MAX 131072

#define TAINHOSA_STATUS_NEW 0xFF      /* BOOT and UPDATE */
#define TAINHOSA_STATUS_UPDATING 0x70 /* UPDATE only */
#define TAINHOSA_STATUS_TESTING 0x10  /* BOOT only, as SUCCESS */
#define TAINHOSA_STATUS_SUCCESS 0x00

/*
 * The flag of firmware sector i, in UPDATE's trailer: half of the byte at sectors * size - 2 - i / 2, the low half for an even i.
 * Flags are well formed if they are, from sector 0 on, some 0, then at most one 7 or 3, then F only.
 */
#define TAINHOSA_FLAG_UNTOUCHED 0xF
#define TAINHOSA_FLAG_SAVED 0x7       /* UPDATE's sector is in SWAP */
#define TAINHOSA_FLAG_MOVED 0x3       /* and BOOT's is in UPDATE */
#define TAINHOSA_FLAG_EXCHANGED 0x0   /* and UPDATE's is in BOOT */

/*
 * Checks the image of a partition: its header, that the sectors but the last hold its firmware, and the digest. That covers the header's
 * bytes from 0 up to the first byte of the digest tag, wherever it stands, with all that is before it: magic, size, padding and every
 * tag, skipped ones too; and then the firmware, from byte 256 on. The header's bytes from the digest tag on are not covered.
 * OK: numbers (6) and bytes (128) hold the header's values, as tainhosa_read_header leaves them.
 * Refused with 1 (the geometry or the partition's length), what tainhosa_read_header refuses, 3 (firmware too large) or 9:
 * numbers[TAINHOSA_HEADER_PLACE] is the place, all else in both is 0.
 */
TAINHOSA_CALL uint32_t tainhosa_check_image(size_t sectors, size_t size,
                                            const uint8_t *partition, size_t partition_length,
                                            uint64_t *numbers, size_t numbers_length,
                                            uint8_t *bytes, size_t bytes_length);

/*
 * Checks an image that stands alone, as in a file: as tainhosa_check_image, without a geometry. The bytes lent stand for the firmware
 * sectors, and those behind the firmware are not looked at.
 * OK: numbers (6) and bytes (128) hold the header's values.
 * Refused with what tainhosa_read_header refuses, 3 (the firmware is longer than the bytes behind the header) or 9:
 * numbers[TAINHOSA_HEADER_PLACE] is the place, all else in both is 0.
 */
TAINHOSA_CALL uint32_t tainhosa_check_firmware(const uint8_t *image, size_t image_length,
                                               uint64_t *numbers, size_t numbers_length,
                                               uint8_t *bytes, size_t bytes_length);

/* A power-up's answer: a row of 6. */
#define TAINHOSA_POWER_UP_NUMBERS 6
#define TAINHOSA_POWER_UP_OUTCOME 0
#define TAINHOSA_POWER_UP_COUNT 1        /* the operations done */
#define TAINHOSA_POWER_UP_INNER 2        /* of 12 and 13: the bad image's own number and place; else 0 */
#define TAINHOSA_POWER_UP_INNER_PLACE 3
#define TAINHOSA_POWER_UP_REASON 4       /* why an update was turned down, with its place; 0 where none was */
#define TAINHOSA_POWER_UP_REASON_PLACE 5

/* Its outcomes. */
#define TAINHOSA_REFUSED 0
#define TAINHOSA_CUT 1                /* an operation is left to do, and the budget is used up */
#define TAINHOSA_RUN 2
#define TAINHOSA_RUN_ON_TEST 3        /* the update stands in BOOT, and waits for tainhosa_confirm */
#define TAINHOSA_RUN_FALLEN_BACK 4    /* the image before the update stands in BOOT again */

/*
 * What is to be done when power comes on, with at most `budget` erases, copies and writes:
 *   UPDATE is UPDATING: the update. With all flags F, UPDATE is checked, then BOOT; an update whose image is bad, or whose version
 *   is not greater than BOOT's, is turned down. With other flags the exchange goes on, and no image is checked before its end.
 *   BOOT is TESTING and UPDATE is NEW: the way back to the image in UPDATE, which with all flags F is checked.
 *   Else nothing; the flags are not read.
 * At the end BOOT is checked, but not when the budget is used up before. Where power is lost in between, call it again: it goes on
 * from what the flash shows.
 * Pass UINT64_MAX as the budget, unless in a test. Three operations move one flag on, and a power-up begins again with the first of
 * them: with a budget below 3 an exchange may never move on, however often it is called.
 * OK: answer (6) holds the outcome, the count, and the reason of a turning down:
 *   TAINHOSA_RUN: nothing was done; or the update was turned down, and UPDATE's trailer sector is erased, so UPDATE is NEW.
 *   TAINHOSA_RUN_ON_TEST: the firmware sectors of BOOT and UPDATE are exchanged, BOOT is TESTING, UPDATE's trailer sector is erased.
 *   TAINHOSA_RUN_FALLEN_BACK: they are exchanged back, BOOT is SUCCESS, UPDATE is NEW and its flags are all 0.
 *   TAINHOSA_CUT: the flash is as that many operations leave it, and more are to be done.
 * Refused with 1; 10; 11 (flags that are not well formed, where they are read; with both UPDATING and TESTING also any but all 0);
 * 13 (no good image to fall back to); 12 (bad image in BOOT): answer holds the outcome TAINHOSA_REFUSED, and of 12 and 13 the bad
 * image's own number and place. The flash stays as it was and the count is 0; only 12 can come after operations: they stay done and
 * are counted, and beside it the reason of a turning down may stand.
 */
TAINHOSA_CALL uint32_t tainhosa_power_up(size_t sectors, size_t size,
                                         uint8_t *boot, size_t boot_length,
                                         uint8_t *update, size_t update_length,
                                         uint8_t *swap, size_t swap_length,
                                         uint64_t budget,
                                         uint64_t *answer, size_t answer_length);

/* The answer of arm and confirm: one number, the operations done; 0 beside a refusal. The place of each refusal is 0. */
#define TAINHOSA_COMMAND_NUMBERS 1
#define TAINHOSA_COMMAND_COUNT 0

/*
 * Arms the update that stands in UPDATE, for the next power-up to take or turn down: UPDATE has to be NEW, and BOOT NEW or SUCCESS.
 * OK: UPDATE's trailer is erased and its status is UPDATING; count[0] is 2.
 * Refused with 1, 10 or 14: the flash stays as it was.
 */
TAINHOSA_CALL uint32_t tainhosa_arm(size_t sectors, size_t size,
                                    uint8_t *boot, size_t boot_length,
                                    uint8_t *update, size_t update_length,
                                    uint8_t *swap, size_t swap_length,
                                    uint64_t *count, size_t count_length);

/*
 * Keeps the image that runs on test: BOOT has to be TESTING, UPDATE NEW, and no fallback begun.
 * OK: BOOT's status is SUCCESS; count[0] is 1.
 * Refused with 1, 10, 14 (another pair of statuses), 11 or 14 (a fallback has begun), in this order: the flash stays as it was.
 */
TAINHOSA_CALL uint32_t tainhosa_confirm(size_t sectors, size_t size,
                                        uint8_t *boot, size_t boot_length,
                                        uint8_t *update, size_t update_length,
                                        uint8_t *swap, size_t swap_length,
                                        uint64_t *count, size_t count_length);

/* What mending answers: a row of 3, all 0 beside a refusal. The place of each refusal is 0. */
#define TAINHOSA_MEND_NUMBERS 3
#define TAINHOSA_MEND_SECTOR 0        /* the mark: its sector and the flag there; of the mark that is all 0, sectors - 1 and 0 */
#define TAINHOSA_MEND_FLAG 1
#define TAINHOSA_MEND_CHANGED 2       /* how many of the bytes that hold flags differ from before; it may be 0 */

/*
 * Writes the sector flags of an update again, where they were spoiled: UPDATE has to be UPDATING, and BOOT NEW or SUCCESS. The flags
 * that stand there are not read; what decides is where the images are.
 * A mark is a sector with F, 7 or 3 as its flag, 0 before it and F behind it; one more mark is all 0. It fits if the two images of
 * before the update, header and firmware put together from the places that these flags show, are both good, and UPDATE's version is
 * the greater one.
 * The first mark that fits is taken, by its sector and then in the order F, 7, 3, all 0 being the last one.
 * OK: UPDATE has the flags of that mark, numbers (3) holds the mark and the bytes changed, and the next power-up goes on from there.
 * Nothing else changes: neither another byte of UPDATE nor the half byte that an odd number of flags leaves unused.
 * Refused with 1, 10, 14 (another pair of statuses) or 17 (no mark fits): no byte changes, and numbers holds 0 only.
 * The mark may be one move back from where the exchange had come to: that move is then done again. Where both images end before a
 * sector that was exchanged, an earlier sector may be given; what stood behind both images is then exchanged back, or lost. Where the
 * image in UPDATE was the older one, BOOT's is taken for an update that was exchanged.
 */
TAINHOSA_CALL uint32_t tainhosa_mend(size_t sectors, size_t size,
                                     const uint8_t *boot, size_t boot_length,
                                     uint8_t *update, size_t update_length,
                                     const uint8_t *swap, size_t swap_length,
                                     uint64_t *numbers, size_t numbers_length);

/* ---- Erase counts: a power-up and an arm that also count the erases, for the service sheet */

/*
 * A row of counts, one for each sector: BOOT's, UPDATE's, each with its trailer sector, and SWAP. The places of BOOT's sector i, of
 * UPDATE's, and of SWAP. A new printer's are all 0, and their total is 0.
 */
#define TAINHOSA_ROW_LENGTH(sectors) (2 * (sectors) + 1)
#define TAINHOSA_ROW_LENGTH_MAX 1025
#define TAINHOSA_ROW_BOOT(i) (i)
#define TAINHOSA_ROW_UPDATE(sectors, i) ((sectors) + (i))
#define TAINHOSA_ROW_SWAP(sectors) (2 * (sectors))

/* What a counted power-up answers: 7 numbers, the 6 of a power-up and then the total that goes out. */
#define TAINHOSA_COUNTED_NUMBERS 7
#define TAINHOSA_COUNTED_TOTAL 6

/*
 * tainhosa_power_up with the erases counted. Beside the row and its total it does and answers the same.
 * Each erase that is completed raises the count of its sector by one, also that of a trailer sector; nothing else changes the row. The
 * total that comes in has to be the sum of the row, and answer[TAINHOSA_COUNTED_TOTAL] is the sum of the row as it is left: hand it in
 * with the next call. Where power is lost, it is the caller's part that the row counts the erases that were completed, and no other; the
 * total handed in next is then its sum.
 * Refused with 1 (as a power-up, or the row of counts has another length), 19 (the total is not the row's sum) or 20 (some count, of any sector,
 * is greater than 4294967295 - (sectors - 1), so that it might not fit 32 bits in the end): flash and row stay as they were, the count
 * is 0, and the total goes out as it came in. Then with what a power-up refuses behind 1: the total is the row's sum, and the erases
 * before a 12 stay counted.
 */
TAINHOSA_CALL uint32_t tainhosa_power_up_counted(size_t sectors, size_t size,
                                                 uint8_t *boot, size_t boot_length,
                                                 uint8_t *update, size_t update_length,
                                                 uint8_t *swap, size_t swap_length,
                                                 uint64_t budget,
                                                 uint32_t *row, size_t row_length, uint64_t total,
                                                 uint64_t *answer, size_t answer_length);

/* What a counted arm answers: 2 numbers, the count of an arm and then the total that goes out. */
#define TAINHOSA_COUNTED_COMMAND_NUMBERS 2
#define TAINHOSA_COUNTED_COMMAND_TOTAL 1

/*
 * tainhosa_arm with its erase counted, that of UPDATE's trailer sector. Row and total are those of tainhosa_power_up_counted.
 * Refused with 1, 19 or 20, as there, and then with 10 or 14: flash, row and total stay as they were.
 */
TAINHOSA_CALL uint32_t tainhosa_arm_counted(size_t sectors, size_t size,
                                            uint8_t *boot, size_t boot_length,
                                            uint8_t *update, size_t update_length,
                                            uint8_t *swap, size_t swap_length,
                                            uint32_t *row, size_t row_length, uint64_t total,
                                            uint64_t *answer, size_t answer_length);

/* ---- SHA-256 */

/*
 * The SHA-256 digest of the message.
 * OK: digest (32) holds it.
 * Refused with 1 only, and then digest stays as it was.
 */
TAINHOSA_CALL uint32_t tainhosa_sha256(const uint8_t *message, size_t message_length,
                                       uint8_t *digest, size_t digest_length);

/* ---- The calls over structs. Above each stands the call that it hands on to, which says what is done and what is refused. */

/* The values of a header, and the place of a refusal. Without a hint, its bytes are 0 when read and not used when written. */
struct tainhosa_header {
    uint64_t place;
    uint32_t size;
    uint32_t version;
    uint64_t timestamp;
    uint16_t auth_type;
    bool has_hint;
    uint8_t digest[TAINHOSA_DIGEST_BYTES];
    uint8_t signature[TAINHOSA_SIGNATURE_BYTES];
    uint8_t hint[TAINHOSA_HINT_BYTES];
};

/* The values of a release sheet, and the line of a refusal (of 105 the type). */
struct tainhosa_sheet {
    uint64_t line;
    uint32_t version;
    uint64_t timestamp;
    uint16_t auth_type;
    bool has_hint;
    uint8_t signature[TAINHOSA_SIGNATURE_BYTES];
    uint8_t hint[TAINHOSA_HINT_BYTES];
};

/* A tag, or none. */
struct tainhosa_tag {
    uint64_t refused_at;
    bool found;
    size_t place;
    uint16_t type;
    uint16_t length;
    size_t next;
};

/* A geometry and the three buffers, with the lengths that they have. */
struct tainhosa_flash {
    size_t sectors;
    size_t size;
    uint8_t *boot;
    size_t boot_length;
    uint8_t *update;
    size_t update_length;
    uint8_t *swap;
    size_t swap_length;
};

/* What a power-up answers beside its number. */
struct tainhosa_power_up_answer {
    uint32_t outcome;
    uint64_t count;
    uint32_t inner;
    uint64_t inner_place;
    uint32_t reason;
    uint64_t reason_place;
};

/* A mark, and how many bytes that hold flags were changed for it. */
struct tainhosa_mended {
    size_t sector;
    uint8_t flag;
    uint64_t changed;
};

/* For the functions below. */
static inline void tainhosa_copy_bytes(uint8_t *to, const uint8_t *from, size_t count) {
    size_t i;
    for (i = 0; i < count; i++) {
        to[i] = from[i];
    }
}

static inline void tainhosa_header_fill(struct tainhosa_header *header, const uint64_t *numbers, const uint8_t *bytes) {
    header->place = numbers[TAINHOSA_HEADER_PLACE];
    header->size = (uint32_t)numbers[TAINHOSA_HEADER_SIZE];
    header->version = (uint32_t)numbers[TAINHOSA_HEADER_VERSION];
    header->timestamp = numbers[TAINHOSA_HEADER_TIMESTAMP];
    header->auth_type = (uint16_t)numbers[TAINHOSA_HEADER_AUTH_TYPE];
    header->has_hint = numbers[TAINHOSA_HEADER_HAS_HINT] != 0;
    tainhosa_copy_bytes(header->digest, bytes + TAINHOSA_DIGEST_AT, TAINHOSA_DIGEST_BYTES);
    tainhosa_copy_bytes(header->signature, bytes + TAINHOSA_SIGNATURE_AT, TAINHOSA_SIGNATURE_BYTES);
    tainhosa_copy_bytes(header->hint, bytes + TAINHOSA_HINT_AT, TAINHOSA_HINT_BYTES);
}

static inline void tainhosa_header_lay_out(uint8_t *bytes, const struct tainhosa_header *header) {
    tainhosa_copy_bytes(bytes + TAINHOSA_DIGEST_AT, header->digest, TAINHOSA_DIGEST_BYTES);
    tainhosa_copy_bytes(bytes + TAINHOSA_SIGNATURE_AT, header->signature, TAINHOSA_SIGNATURE_BYTES);
    tainhosa_copy_bytes(bytes + TAINHOSA_HINT_AT, header->hint, TAINHOSA_HINT_BYTES);
}

static inline void tainhosa_power_up_fill(struct tainhosa_power_up_answer *answer, const uint64_t *numbers) {
    answer->outcome = (uint32_t)numbers[TAINHOSA_POWER_UP_OUTCOME];
    answer->count = numbers[TAINHOSA_POWER_UP_COUNT];
    answer->inner = (uint32_t)numbers[TAINHOSA_POWER_UP_INNER];
    answer->inner_place = numbers[TAINHOSA_POWER_UP_INNER_PLACE];
    answer->reason = (uint32_t)numbers[TAINHOSA_POWER_UP_REASON];
    answer->reason_place = numbers[TAINHOSA_POWER_UP_REASON_PLACE];
}

/* tainhosa_read_header */
TAINHOSA_CALL static inline uint32_t tainhosa_header_read(const uint8_t *input, size_t input_length, struct tainhosa_header *header) {
    uint64_t numbers[TAINHOSA_HEADER_NUMBERS] = {0};
    uint8_t bytes[TAINHOSA_HEADER_BYTES] = {0};
    uint32_t answer = tainhosa_read_header(input, input_length, numbers, TAINHOSA_HEADER_NUMBERS, bytes, TAINHOSA_HEADER_BYTES);
    tainhosa_header_fill(header, numbers, bytes);
    return answer;
}

/* tainhosa_write_header; the header's own place is not used. */
TAINHOSA_CALL static inline uint32_t tainhosa_header_write(uint8_t *out, size_t out_length, const struct tainhosa_header *header,
                                                           uint64_t *place) {
    uint8_t bytes[TAINHOSA_HEADER_BYTES];
    tainhosa_header_lay_out(bytes, header);
    return tainhosa_write_header(out, out_length, header->size, header->version, header->timestamp, header->auth_type,
                                 header->has_hint, bytes, TAINHOSA_HEADER_BYTES, place, TAINHOSA_WRITE_NUMBERS);
}

/* tainhosa_read_sealed */
TAINHOSA_CALL static inline uint32_t tainhosa_sealed_read(const uint8_t *input, size_t input_length, struct tainhosa_header *header) {
    uint64_t numbers[TAINHOSA_HEADER_NUMBERS] = {0};
    uint8_t bytes[TAINHOSA_HEADER_BYTES] = {0};
    uint32_t answer = tainhosa_read_sealed(input, input_length, numbers, TAINHOSA_HEADER_NUMBERS, bytes, TAINHOSA_HEADER_BYTES);
    tainhosa_header_fill(header, numbers, bytes);
    return answer;
}

/* tainhosa_write_sealed; the header's own place is not used. */
TAINHOSA_CALL static inline uint32_t tainhosa_sealed_write(uint8_t *out, size_t out_length, const struct tainhosa_header *header,
                                                           uint64_t *place) {
    uint8_t bytes[TAINHOSA_HEADER_BYTES];
    tainhosa_header_lay_out(bytes, header);
    return tainhosa_write_sealed(out, out_length, header->size, header->version, header->timestamp, header->auth_type,
                                 header->has_hint, bytes, TAINHOSA_HEADER_BYTES, place, TAINHOSA_WRITE_NUMBERS);
}

/* tainhosa_make_header; the sheet's own line is not used. */
TAINHOSA_CALL static inline uint32_t tainhosa_header_make(uint8_t *out, size_t out_length,
                                                          const uint8_t *firmware, size_t firmware_length,
                                                          const struct tainhosa_sheet *sheet, uint64_t *place) {
    uint8_t bytes[TAINHOSA_SHEET_BYTES];
    tainhosa_copy_bytes(bytes + TAINHOSA_SHEET_SIGNATURE_AT, sheet->signature, TAINHOSA_SIGNATURE_BYTES);
    tainhosa_copy_bytes(bytes + TAINHOSA_SHEET_HINT_AT, sheet->hint, TAINHOSA_HINT_BYTES);
    return tainhosa_make_header(out, out_length, firmware, firmware_length, sheet->version, sheet->timestamp, sheet->auth_type,
                                sheet->has_hint, bytes, TAINHOSA_SHEET_BYTES, place, TAINHOSA_WRITE_NUMBERS);
}

/* tainhosa_read_sheet */
TAINHOSA_CALL static inline uint32_t tainhosa_sheet_read(const uint8_t *text, size_t text_length, struct tainhosa_sheet *sheet) {
    uint64_t numbers[TAINHOSA_SHEET_NUMBERS] = {0};
    uint8_t bytes[TAINHOSA_SHEET_BYTES] = {0};
    uint32_t answer = tainhosa_read_sheet(text, text_length, numbers, TAINHOSA_SHEET_NUMBERS, bytes, TAINHOSA_SHEET_BYTES);
    sheet->line = numbers[TAINHOSA_SHEET_LINE];
    sheet->version = (uint32_t)numbers[TAINHOSA_SHEET_VERSION];
    sheet->timestamp = numbers[TAINHOSA_SHEET_TIMESTAMP];
    sheet->auth_type = (uint16_t)numbers[TAINHOSA_SHEET_AUTH_TYPE];
    sheet->has_hint = numbers[TAINHOSA_SHEET_HAS_HINT] != 0;
    tainhosa_copy_bytes(sheet->signature, bytes + TAINHOSA_SHEET_SIGNATURE_AT, TAINHOSA_SIGNATURE_BYTES);
    tainhosa_copy_bytes(sheet->hint, bytes + TAINHOSA_SHEET_HINT_AT, TAINHOSA_HINT_BYTES);
    return answer;
}

/* tainhosa_next_tag: begin at TAINHOSA_FIRST_TAG, and while a tag is found go on at tag->next. */
TAINHOSA_CALL static inline uint32_t tainhosa_tag_next(const uint8_t *input, size_t input_length, size_t at, struct tainhosa_tag *tag) {
    uint64_t numbers[TAINHOSA_TAG_NUMBERS] = {0};
    uint32_t answer = tainhosa_next_tag(input, input_length, at, numbers, TAINHOSA_TAG_NUMBERS);
    tag->refused_at = numbers[TAINHOSA_TAG_REFUSED_AT];
    tag->found = numbers[TAINHOSA_TAG_FOUND] != 0;
    tag->place = (size_t)numbers[TAINHOSA_TAG_PLACE];
    tag->type = (uint16_t)numbers[TAINHOSA_TAG_TYPE];
    tag->length = (uint16_t)numbers[TAINHOSA_TAG_LENGTH];
    tag->next = (size_t)numbers[TAINHOSA_TAG_NEXT];
    return answer;
}

/* tainhosa_check_image */
TAINHOSA_CALL static inline uint32_t tainhosa_image_check(size_t sectors, size_t size, const uint8_t *partition, size_t partition_length,
                                                          struct tainhosa_header *header) {
    uint64_t numbers[TAINHOSA_HEADER_NUMBERS] = {0};
    uint8_t bytes[TAINHOSA_HEADER_BYTES] = {0};
    uint32_t answer = tainhosa_check_image(sectors, size, partition, partition_length, numbers, TAINHOSA_HEADER_NUMBERS,
                                           bytes, TAINHOSA_HEADER_BYTES);
    tainhosa_header_fill(header, numbers, bytes);
    return answer;
}

/* tainhosa_check_firmware */
TAINHOSA_CALL static inline uint32_t tainhosa_firmware_check(const uint8_t *image, size_t image_length, struct tainhosa_header *header) {
    uint64_t numbers[TAINHOSA_HEADER_NUMBERS] = {0};
    uint8_t bytes[TAINHOSA_HEADER_BYTES] = {0};
    uint32_t answer = tainhosa_check_firmware(image, image_length, numbers, TAINHOSA_HEADER_NUMBERS, bytes, TAINHOSA_HEADER_BYTES);
    tainhosa_header_fill(header, numbers, bytes);
    return answer;
}

/* tainhosa_power_up */
TAINHOSA_CALL static inline uint32_t tainhosa_flash_power_up(const struct tainhosa_flash *flash, uint64_t budget,
                                                             struct tainhosa_power_up_answer *answer) {
    uint64_t numbers[TAINHOSA_POWER_UP_NUMBERS] = {0};
    uint32_t refused = tainhosa_power_up(flash->sectors, flash->size, flash->boot, flash->boot_length,
                                         flash->update, flash->update_length, flash->swap, flash->swap_length,
                                         budget, numbers, TAINHOSA_POWER_UP_NUMBERS);
    tainhosa_power_up_fill(answer, numbers);
    return refused;
}

/* tainhosa_arm */
TAINHOSA_CALL static inline uint32_t tainhosa_flash_arm(const struct tainhosa_flash *flash, uint64_t *count) {
    return tainhosa_arm(flash->sectors, flash->size, flash->boot, flash->boot_length, flash->update, flash->update_length,
                        flash->swap, flash->swap_length, count, TAINHOSA_COMMAND_NUMBERS);
}

/* tainhosa_confirm */
TAINHOSA_CALL static inline uint32_t tainhosa_flash_confirm(const struct tainhosa_flash *flash, uint64_t *count) {
    return tainhosa_confirm(flash->sectors, flash->size, flash->boot, flash->boot_length, flash->update, flash->update_length,
                            flash->swap, flash->swap_length, count, TAINHOSA_COMMAND_NUMBERS);
}

/* tainhosa_mend */
TAINHOSA_CALL static inline uint32_t tainhosa_flash_mend(const struct tainhosa_flash *flash, struct tainhosa_mended *mended) {
    uint64_t numbers[TAINHOSA_MEND_NUMBERS] = {0};
    uint32_t answer = tainhosa_mend(flash->sectors, flash->size, flash->boot, flash->boot_length, flash->update, flash->update_length,
                                    flash->swap, flash->swap_length, numbers, TAINHOSA_MEND_NUMBERS);
    mended->sector = (size_t)numbers[TAINHOSA_MEND_SECTOR];
    mended->flag = (uint8_t)numbers[TAINHOSA_MEND_FLAG];
    mended->changed = numbers[TAINHOSA_MEND_CHANGED];
    return answer;
}

/* tainhosa_power_up_counted; the total comes in and goes out in *total. */
TAINHOSA_CALL static inline uint32_t tainhosa_flash_power_up_counted(const struct tainhosa_flash *flash, uint64_t budget,
                                                                     uint32_t *row, size_t row_length, uint64_t *total,
                                                                     struct tainhosa_power_up_answer *answer) {
    uint64_t numbers[TAINHOSA_COUNTED_NUMBERS] = {0};
    uint32_t refused = tainhosa_power_up_counted(flash->sectors, flash->size, flash->boot, flash->boot_length,
                                                 flash->update, flash->update_length, flash->swap, flash->swap_length,
                                                 budget, row, row_length, *total, numbers, TAINHOSA_COUNTED_NUMBERS);
    tainhosa_power_up_fill(answer, numbers);
    *total = numbers[TAINHOSA_COUNTED_TOTAL];
    return refused;
}

/* tainhosa_arm_counted; the total comes in and goes out in *total. */
TAINHOSA_CALL static inline uint32_t tainhosa_flash_arm_counted(const struct tainhosa_flash *flash, uint32_t *row, size_t row_length,
                                                                uint64_t *total, uint64_t *count) {
    uint64_t numbers[TAINHOSA_COUNTED_COMMAND_NUMBERS] = {0};
    uint32_t refused = tainhosa_arm_counted(flash->sectors, flash->size, flash->boot, flash->boot_length, flash->update,
                                            flash->update_length, flash->swap, flash->swap_length, row, row_length, *total,
                                            numbers, TAINHOSA_COUNTED_COMMAND_NUMBERS);
    *count = numbers[TAINHOSA_COMMAND_COUNT];
    *total = numbers[TAINHOSA_COUNTED_COMMAND_TOTAL];
    return refused;
}

#ifdef __cplusplus
}
#endif

#endif
